/*
 * Some commands of da, from C: header SQUARE, root HEADER, check HEADER MESSAGE, verify HEADER ANSWER [REQUEST].
 * They print what da prints, and end with its statuses. MESSAGE is one frame.
 */
#include "da.h"

#include <errno.h>
#include <signal.h>
#include <stdio.h>
#include <stdlib.h>
#include <string.h>

/* The statuses of da that no call answers. */
enum { USAGE = 1, CANNOT_OPEN = 2, CANNOT_READ = 3, CANNOT_WRITE = 4, TOO_LONG = 7 };

enum { FILES = 3, FILE_LIMIT = 512 * 1024 * 1024 };

enum call { NONE, HEADER, ROOT, CHECK, HOLDS, VERIFY };

/* The contents of a file. */
struct bytes {
    uint8_t *at;
    size_t size;
};

/* The call of a command of so many files. */
static enum call call_of(const char *command, int files)
{
    if (!strcmp(command, "header") && files == 1)
        return HEADER;
    if (!strcmp(command, "root") && files == 1)
        return ROOT;
    if (!strcmp(command, "check") && files == 2)
        return CHECK;
    if (!strcmp(command, "verify") && files == 2)
        return HOLDS;
    return !strcmp(command, "verify") && files == 3 ? VERIFY : NONE;
}

/* Reads a file whole; the status says why not. There is a byte more than needed, so no pointer is null. */
static int read_file(const char *name, struct bytes *file)
{
    FILE *in = fopen(name, "rb");
    size_t room = 0;
    int status = DA_DONE;
    file->at = NULL;
    file->size = 0;
    if (!in)
        return CANNOT_OPEN;
    while (!status && !feof(in)) {
        if (file->size + 1 >= room) {
            uint8_t *more = realloc(file->at, room = 2 * room + 4096);
            if (!more) {
                status = DA_NO_MEMORY;
                break;
            }
            file->at = more;
        }
        file->size += fread(file->at + file->size, 1, room - file->size - 1, in);
        if (ferror(in))
            status = CANNOT_READ;
        else if (file->size > FILE_LIMIT)
            status = TOO_LONG;
    }
    fclose(in);
    return status;
}

/* Prints the line of a verdict, and gives its status. */
static int judged(uint32_t status, const struct da_detail *detail)
{
    if (status == DA_DONE)
        printf("ok\n");
    if (status == DA_REFUSED)
        printf("refused %llu\n", (unsigned long long)detail->refusal);
    return (int)status;
}

/* Runs a command: what it prints may still stand in a buffer. Of a file that isn't read the detail has the number. */
static int run(const char *command, int files, char **names, struct da_detail *detail)
{
    static uint8_t header[DA_HEADER_MAX];
    uint8_t root[DA_ROOT_SIZE];
    struct bytes f[FILES];
    enum call call = call_of(command, files);
    uint32_t status;

    for (int i = 0; call != NONE && i < files; i++) {
        int fault = read_file(names[i], &f[i]);
        if (fault) {
            detail->argument = (uint64_t)i;
            return fault;
        }
    }
    switch (call) {
    case HEADER:
        status = da_header(f[0].at, f[0].size, header, sizeof header, detail);
        if (status == DA_DONE)
            fwrite(header, 1, detail->size, stdout);
        return (int)status;
    case ROOT:
        status = da_data_root(f[0].at, f[0].size, root, sizeof root, detail);
        for (size_t i = 0; status == DA_DONE && i < sizeof root; i++)
            printf(i + 1 < sizeof root ? "%02x" : "%02x\n", root[i]);
        return (int)status;
    case CHECK:
        return judged(da_check(f[0].at, f[0].size, f[1].at, f[1].size, detail), detail);
    case HOLDS:
        return judged(da_holds(f[0].at, f[0].size, f[1].at, f[1].size, detail), detail);
    case VERIFY:
        return judged(da_verify(f[0].at, f[0].size, f[1].at, f[1].size, f[2].at, f[2].size, detail), detail);
    case NONE:
        break;
    }
    return USAGE;
}

/* Prints the note that goes with a status. */
static void note(int status, const struct da_detail *detail)
{
    unsigned long long file = detail->argument;
    switch (status) {
    case USAGE:
        fprintf(stderr, "usage: da COMMAND WORDS\n");
        break;
    case CANNOT_OPEN:
        fprintf(stderr, "cannot open file %llu\n", file);
        break;
    case CANNOT_READ:
        fprintf(stderr, "cannot read file %llu\n", file);
        break;
    case CANNOT_WRITE:
        fprintf(stderr, "cannot write\n");
        break;
    case DA_NO_MEMORY:
        fprintf(stderr, "out of memory\n");
        break;
    case DA_BAD_INPUT:
        fprintf(stderr, "bad input: file %llu at %llu\n", file, (unsigned long long)detail->at);
        break;
    case TOO_LONG:
        fprintf(stderr, "too long: file %llu\n", file);
        break;
    case DA_NO_HEADER:
        fprintf(stderr, "bad request: no header\n");
        break;
    case DA_REFUSED:
        fprintf(stderr, "refused\n");
        break;
    }
}

int main(int count, char **words)
{
    struct da_detail detail = {0};
    /* A reader that went away is an error of a write, and no signal. */
    signal(SIGPIPE, SIG_IGN);
    int status = run(count > 1 ? words[1] : "", count - 2, words + 2, &detail);
    /* What a buffer still holds goes out here, and a write that failed before has left its mark. */
    int lost = fflush(stdout) || ferror(stdout);
    /* A disk may tell only now that it is full. Where the stream was closed before, nothing was to be written. */
    if (lost || (fclose(stdout) && errno != EBADF))
        status = CANNOT_WRITE;
    note(status, &detail);
    return status;
}
