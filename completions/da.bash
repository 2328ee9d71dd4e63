# Completion of `da` in bash, of version 4 or later. In ~/.bashrc: . completions/da.bash
# tools/manual makes it of docs/COMMANDS.md.

# The words of a command, or of one of its forms.
_da_words() {
    case $1 in
        build) echo BLOCK ;;
        header) echo SQUARE ;;
        sample) echo SQUARE REQUESTS ;;
        namespace) echo SQUARE REQUESTS ;;
        hold) echo SQUARE TALK ;;
        verify) echo HEADER ANSWER REQUEST ;;
        compact) echo HEADER CLAIM ;;
        check) echo HEADER MESSAGES ;;
        repair) echo HEADER MESSAGES ;;
        gather) echo HEADER TALK ;;
        light) echo HEADER MESSAGES KEY COUNT ;;
        watch) echo HEADER KEY COUNT TALK ;;
        wanted) echo MISSING AXIS ;;
        cells) echo HEADER KEY COUNT AXIS ;;
        blobs) echo SHARES ;;
        transactions) echo SQUARE ;;
        find) echo SQUARE COMMITMENT ;;
        commit) echo BLOCK ;;
        prove) echo SQUARE START COUNT ;;
        follow) echo WANTED ANSWERS ;;
        attend) echo WANTED TALK ;;
        root) echo HEADER ROOT ;;
        net) echo HEADER MESSAGES SCRIPT ;;
        show) echo FILE ;;
        json) echo FILE ;;
        demo) echo NUMBER WIDTH ;;
        help) echo ;;
        version) echo ;;
        import | export) _da_form "$1 $2" ;;
    esac
}

# The words of a form.
_da_form() {
    case $1 in
        'import dah') echo FORM FILE ;;
        'import header') echo FORM FILE ;;
        'import sample') echo FORM FILE ROW COL ;;
        'import row-data') echo FORM FILE ROW NAMESPACE ;;
        'import namespace-data') echo FORM FILE HEADER NAMESPACE ;;
        'import befp') echo FORM FILE HASH HEIGHT ;;
        'import ods') echo FORM FILE ;;
        'import row') echo FORM FILE ROW ;;
        'import share-proof') echo FORM FILE ;;
        'import sample-id') echo FORM FILE HEIGHT ;;
        'import namespace-id') echo FORM FILE HEIGHT ;;
        'export dah') echo FORM FILE ;;
        'export sample') echo FORM FILE ;;
        'export row-data') echo FORM FILE ;;
        'export namespace-data') echo FORM FILE ;;
        'export befp') echo FORM FILE WIDTH HASH HEIGHT ;;
        'export ods') echo FORM FILE ;;
        'export row') echo FORM FILE ;;
        'export share-proof') echo FORM FILE ;;
        'export sample-id') echo FORM FILE HEIGHT ;;
        'export namespace-id') echo FORM FILE HEIGHT ;;
        *) echo FORM ;;
    esac
}

# The forms of a command.
_da_forms() {
    case $1 in
        import) echo dah header sample row-data namespace-data befp ods row share-proof sample-id namespace-id ;;
        export) echo dah sample row-data namespace-data befp ods row share-proof sample-id namespace-id ;;
    esac
}

# The names of files and folders that begin with a text. Where none does, as with an open quote,
# bash looks in its own way.
_da_files() {
    compopt -o filenames -o default 2>/dev/null
    local name
    while IFS= read -r name; do
        COMPREPLY+=("$name")
    done < <(compgen -f -- "$1")
}

_da() {
    local word=${COMP_WORDS[COMP_CWORD]}
    local before=${COMP_WORDS[COMP_CWORD - 1]}
    local commands="build header sample namespace hold verify compact check repair gather light watch wanted cells blobs transactions find commit prove follow attend root net show json import export demo help version"
    local words
    COMPREPLY=()
    # Behind a sign like > stands a file.
    if [[ $before == *[\<\>] ]]; then
        _da_files "$word"
        return
    fi
    # A completion alone: no text of these words is split or matched with file names.
    if [ "$COMP_CWORD" -eq 1 ]; then
        mapfile -t COMPREPLY < <(compgen -W "$commands" -- "$word")
        return
    fi
    read -r -a words < <(_da_words "${COMP_WORDS[1]}" "${COMP_WORDS[2]}")
    case ${words[COMP_CWORD - 2]} in
        # In the place of START may stand a file REQUESTS.
        '' | KEY | COUNT | NUMBER | ROW | COL | HEIGHT | ROOT | COMMITMENT | HASH | NAMESPACE) ;;
        AXIS) mapfile -t COMPREPLY < <(compgen -W "row col" -- "$word") ;;
        FORM) mapfile -t COMPREPLY < <(compgen -W "$(_da_forms "${COMP_WORDS[1]}")" -- "$word") ;;
        WIDTH) mapfile -t COMPREPLY < <(compgen -W "2 4 8 16 32 64 128 256 512" -- "$word") ;;
        *) _da_files "$word" ;;
    esac
}

complete -F _da da
