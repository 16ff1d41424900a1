#!/bin/sh
# Looks that the doc comment of each call that a user makes has an example, and that its lines stand, one below the other, in a file of
# tests/test_shown, which bench/run-tests.py runs, or of crates/ that the gate proves and runs.
#
# The calls are those of the crates whose types users name. What a comment says is for tests needs no example, nor does a poll: each future is
# polled alike, and the mutex's shows how. Run it at the top of the repository: bench/check-doc-examples.sh. It builds nothing.
set -eu

python3 - <<'PYTHON'
import glob
import re
import sys

LOCKS = "async_mutex async_rwlock async_semaphore async_once_cell async_barrier".split()
# What tests drive action by action.
DRIVEN = "arrivals.rt party.rt raw.rt".split()
EXAMPLES = "lock_examples user_proofs first_lock".split()
# A doc comment, then attributes and comments, then a function that is public.
CALL = re.compile(r"((?: *///.*\n)+)(?: *(?:#\[|//).*\n)*( *)pub fn (\w+)")
FENCED = re.compile(r"```\n(.*?)\n *```", re.DOTALL)


def lines(text):
    """Returns the lines of a text without what they begin and end with, as one text."""
    return "\n".join(line.strip() for line in text.splitlines()) + "\n"


files = [it for name in EXAMPLES for it in glob.glob(f"crates/{name}/src/**/*.rt", recursive=True)] + glob.glob("tests/test_shown/*")
run = [lines(open(path).read()) for path in files]
shown, wrong = 0, []
for lock in LOCKS:
    for path in sorted(glob.glob(f"crates/{lock}/src/*.rt")):
        if path.rpartition("/")[2] in DRIVEN:
            continue
        for comment, indent, name in CALL.findall(open(path).read()):
            said = "\n".join(line.strip()[3:].removeprefix(" ") for line in comment.splitlines())
            examples = FENCED.findall(said)
            if not examples and not re.search(r"(?i)\bfor tests\b", said) and name != "poll":
                wrong.append(f"{path}: {name} has no example")
            for example in examples:
                shown += 1
                if not any("\n" + lines(example) in text for text in run):
                    wrong.append(f"{path}: the example of {name} stands in no file that is run")
for row in wrong:
    print(row, file=sys.stderr)
if wrong:
    sys.exit(1)
print(f"{shown} examples of doc comments stand in files that are run")
PYTHON
