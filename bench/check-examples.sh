#!/bin/sh
# Looks that each example that README and docs/ show is the file that the gate proves and runs.
#
# README's first example is crates/first_lock/src/main.rt. On any other page a line '<!-- PATH -->' is followed by that file, each
# line with four blanks before it. A block of such lines that has no such line before it mustn't be Rust: none of its lines may begin
# with 'fn ', 'pub fn ', 'use ' or 'let '. With the word 'write', the files are written to the pages.
#
# Run it at the top of the repository: bench/check-examples.sh [write]
set -eu

python3 - "${1:-look}" <<'PYTHON'
import glob
import re
import sys

writes = sys.argv[1] == "write"
wrong = []

FIRST = "crates/first_lock/src/main.rt"
# Lines with four blanks before them, with the empty lines between them.
BLOCK = r"(?:    .*\n|\n(?=    ))*"


def indented(path):
    """Returns the file's text as it is shown on a page."""
    return "".join(f"    {line}".rstrip() + "\n" for line in open(path).read().splitlines())


def unnamed(text):
    """Returns the first line of each block of Rust on a page that no marker names."""
    bare = re.sub(r"<!-- crates/\S+\.rt -->\n\n?" + BLOCK, "", text)
    for block in re.findall(r"(?:\A|(?<=\n))" + r"    .*\n" + BLOCK, bare):
        if re.search(r"^\s*(?:fn|pub fn|use|let) ", block, re.MULTILINE):
            yield block.splitlines()[0].strip()


readme = open("README.md").read()
shown = indented(FIRST)
if shown not in readme:
    wrong.append(f"README.md: the first example is not {FIRST}")
for line in unnamed(readme.replace(shown, "", 1)):
    wrong.append(f"README.md: a block of Rust that no file is named for: {line}")
for page in sorted(glob.glob("docs/*.md") + glob.glob("crates/*/README.md") + glob.glob("tests/*/README.md")):
    text = open(page).read()
    made = text
    for path in re.findall(r"<!-- (crates/\S+\.rt) -->\n", text):
        at = made.index(f"<!-- {path} -->\n") + len(f"<!-- {path} -->\n")
        rest = re.sub(r"\A\n" + BLOCK, "", made[at:])
        made = f"{made[:at]}\n{indented(path)}" + (rest if rest.startswith("\n") else "\n" + rest)
    if made != text:
        if writes:
            open(page, "w").write(made)
        else:
            wrong.append(f"{page}: an example is not the file that it names (bench/check-examples.sh write)")
    for line in unnamed(made):
        wrong.append(f"{page}: a block of Rust that no file is named for: {line}")
for row in wrong:
    print(row, file=sys.stderr)
if not wrong:
    print("each example is a file that the gate proves")
sys.exit(1 if wrong else 0)
PYTHON
