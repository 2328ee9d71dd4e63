#!/usr/bin/env python3
"""Looks whether the code that docs/LIBRARY.md quotes stands in the files that it names.

    tools/quotes.py

Each fenced block of `rust` has to stand, line by line, in one of the files of crates/ that a link above it in its section
names, or, where it is indented, in crates.txt or in every root file. Its last line is 'N passed, M failed'. Python 3.9 or
newer.
"""

import os
import re
import sys

TOP = os.path.dirname(os.path.dirname(os.path.abspath(__file__)))
PAGE = os.path.join(TOP, "docs", "LIBRARY.md")


def read(path):
    with open(path, encoding="utf-8") as file:
        return file.read()


def fenced(section):
    """The fenced blocks of a section, each with the files of crates/ that are linked before it."""
    for found in re.finditer(r"^```rust\n(.*?)^```$", section, re.M | re.S):
        links = re.findall(r"\]\(\.\./(crates/[^)]*\.rt)\)", section[: found.start()])
        yield found.group(1), links


def indented(section):
    """The indented lines of a section."""
    outside = re.sub(r"^```rust\n.*?^```$", "", section, flags=re.M | re.S)
    return re.findall(r"^    (\S.*)$", outside, re.M)


def faults():
    """What is wrong, for each quote none or a text."""
    crates = read(os.path.join(TOP, "crates.txt")).splitlines()
    for section in re.split(r"^## ", read(PAGE), flags=re.M):
        title = section.splitlines()[0]
        for code, links in fenced(section):
            stands = any(code in read(os.path.join(TOP, link)) for link in links)
            yield None if stands else f"{title}: {code.splitlines()[0].strip()}: it stands in none of {links}"
        for line in indented(section):
            stands = line in crates or line == "#![tactic(auto)]"
            yield None if stands else f"{title}: {line}: it is no line of crates.txt"


def main():
    found = list(faults())
    wrong = [fault for fault in found if fault]
    for fault in wrong:
        print(f"FAILED quotes: {fault}")
    print(f"{len(found) - len(wrong)} passed, {len(wrong)} failed")
    return 1 if wrong or not found else 0


if __name__ == "__main__":
    sys.exit(main())
