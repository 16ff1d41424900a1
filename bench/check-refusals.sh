#!/bin/sh
# Refuses memory to the calls that take some, one allocation in each run, and looks how they tell of it. Status 1 where a run tells
# otherwise, where a call is never refused, or where the numbers below don't fit the calls any more.
#
# Which allocation of a run is whose doesn't depend on threads here. The runs are of four kinds:
# - calls: those of tests/refused_memory that no thread is needed for, with each of their allocations refused in turn. They find what
#   they find with ample memory, and each call that takes memory is refused once at least, by its name;
# - held: a blocking call that would wait for ever, with the first and the last allocation refused that it makes before it waits. With
#   the one after that refused it does wait;
# - script: `lockrun script` on scripts/sixty-four-parties.script, which makes a World of each kind, with each allocation refused in turn.
#   (A script takes memory for its text and for its Worlds, and for nothing else.)
# - threads: `lockrun threads 2`, of which one worker holds the lock while the other comes, with each allocation refused in turn;
# - records: forty moves of a book, with each allocation refused in turn. A move that is refused changes nothing, and is recorded when it is
#   made again.
#
# Each run is a test of a copy of tests/refused_memory, which `rt try --test` builds once, and runs in a process of its own. Of each of
# them the same allocation is refused: so a test throws some away first. Nothing is proved.
#
# Run it at the top of the repository, with `rt` on the PATH: bench/check-refusals.sh. It takes a minute, or two where other work is
# done beside it. The last line has the figures. bench/refuse-all.sh tries more, and takes longer.
set -eu

python3 - <<'PYTHON'
import os
import re
import subprocess
import sys
import tempfile
from itertools import zip_longest

# More allocations than a run makes.
REFUSED = 400

# The first allocation of what is tried, and the number after that of the last one: that run is refused nothing. (Of the workers' last
# two allocations either may come first.)
CALLS = (22, 188)
SCRIPT = (3, 53)
THREADS = (4, 21)
# The allocations of the script by which a list of weights asks for a wide row: if one is refused, it asks for the row that it needs.
WIDE = {21, 22, 23, 46, 47, 48}

# More than the allocations of a book of forty moves, and how often its history grows at least.
BOOK, GROWS = 20, 4

# The first allocation of each blocking call, after those that make its lock. And how many it makes before it waits, of which the last
# two are those of the list and of its entry there.
HELD = {
    "mutex_lock_blocking": 6,
    "mutex_lock_arc_blocking": 6,
    "rwlock_read_blocking": 10,
    "rwlock_read_arc_blocking": 10,
    "rwlock_upgradable_read_blocking": 10,
    "rwlock_upgradable_read_arc_blocking": 10,
    "rwlock_write_blocking": 10,
    "rwlock_write_arc_blocking": 10,
    "rwlock_upgrade_blocking": 10,
    "rwlock_upgrade_arc_blocking": 10,
    "semaphore_acquire_blocking": 5,
    "semaphore_acquire_arc_blocking": 5,
    "semaphore_acquire_many_blocking": 5,
    "semaphore_acquire_many_arc_blocking": 5,
    "cell_wait_blocking": 4,
    "cell_set_blocking": 25,
    "cell_get_or_init_blocking": 25,
    "cell_get_or_try_init_blocking": 25,
    "barrier_wait_blocking": 8,
}
BLOCKING = 9

# For how many milliseconds a call is waited for that is refused, and one that waits.
LONG, SHORT = 10_000, 300

SCRIPT_NAME = "scripts/sixty-four-parties"

wrong = []


def text_of(path):
    with open(path) as file:
        return file.read()


def test(name, number, patience=None):
    """Returns the test that refuses this allocation of what this function does."""
    arguments = "rt" if patience is None else f"rt, {patience}"
    return (
        f"\n#[test]\nfn {name}_{number}(rt: HostRuntime) {{\n"
        f"    refuse(&rt, {number});\n    let _ = {name}({arguments});\n}}\n"
    )


def tests():
    """Returns the file of the tests."""
    parts = [text_of("bench/refusals.rattle"), f"\nconst REFUSED: u64 = {REFUSED};\n"]
    for name, kind in (("SCRIPT", "script"), ("ANSWERS", "answers")):
        parts.append(f'\nconst {name}: &str = "\\\n{text_of(f"{SCRIPT_NAME}.{kind}")}";\n')
    for name, (first, last) in (("calls", CALLS), ("script", SCRIPT), ("threads", THREADS)):
        parts += [test(name, number) for number in range(first - 1, last + 1)]
    parts += [test("records", number) for number in range(1, BOOK + 1)]
    for name, first in HELD.items():
        waits = first + BLOCKING
        parts += [test(name, first, LONG), test(name, waits - 1, LONG), test(name, waits, SHORT)]
    return "".join(parts)


def copy_to(top):
    """Copies the repository, in which the crate refused_memory has the tests, and stands on all that they need."""
    subprocess.run(["bench/run-tests.py", "--into", top, "refused_memory"], check=True)
    lines = text_of(f"{top}/crates.txt").splitlines()
    lockrun = next(line.split(":")[1] for line in lines if line.startswith("lockrun:"))
    with open(f"{top}/crates.txt", "w") as file:
        for line in lines:
            more = f"{lockrun} arrayvec" if line.startswith("refused_memory:") else ""
            print(line + more, file=file)
    crate = f"{top}/crates/refused_memory"
    with open(f"{crate}/src/tests.rt", "w") as file:
        file.write(tests())
    with open(f"{crate}/src/main.rt", "a") as file:
        file.write("\n#[cfg(test)]\nmod tests;\n")
    return crate


def printed_by_tests():
    """Runs the tests: what each has printed, by its name."""
    with tempfile.TemporaryDirectory() as top:
        crate = copy_to(top)
        # (`rt try`, without the check that it starts beside the program)
        command = [sys.executable, f"{os.getcwd()}/bench/kit.py", "--test", "--fail-alloc", str(REFUSED)]
        ran = subprocess.run(command, cwd=crate, stdin=subprocess.DEVNULL, capture_output=True, text=True)
    blocks = re.split(r"^test tests::(\w+) \.\.\. \w+\n", ran.stdout, flags=re.MULTILINE)
    if len(blocks) < 3:
        sys.exit(f"rt try ended with status {ran.returncode} and ran no test\n{ran.stdout}{ran.stderr}")
    return {
        name: [line[4:] for line in block.splitlines() if line.startswith("    ")]
        for name, block in zip(blocks[1::2], blocks[2::2])
    }


printed = printed_by_tests()


def seen(name, number):
    """Returns the lines of the run that is refused this allocation."""
    return printed.get(f"{name}_{number}", ["nothing: the test wasn't run"])


def amiss(name, number, line, wanted):
    wrong.append(f"{name}, with allocation {number} refused: {line}\n    where this is wanted: {wanted}")


def judge_calls():
    first, last = CALLS
    beside = ("two threads:", "waits:")
    found = [line for line in text_of("tests/refused_memory/stdout").splitlines() if not line.startswith(beside)]
    told = {}
    for number in range(first - 1, last + 1):
        lines = seen("calls", number)
        told[number] = [line.removeprefix("refused: ") for line in lines if line.startswith("refused: ")]
        others = [line for line in lines if not line.startswith("refused: ")]
        for line, wanted in zip_longest(others, found, fillvalue="no more"):
            if line != wanted:
                amiss("calls", number, line, wanted)
                break
    if told[first - 1] != ["a task"] or told[last]:
        wrong.append(f"calls: CALLS doesn't fit: {first} isn't the first allocation of a call, or {last - 1} isn't the last one")
    names = text_of("bench/refused-calls.txt").split("\n\n")[0].splitlines()[1:]
    wrong[:0] = [f"{name}: never told of as refused memory" for name in names if [name] not in told.values()]


def judge_held():
    for name, first in HELD.items():
        waits = first + BLOCKING
        for number, wanted in ((first, "refused: no memory"), (waits - 1, "refused: no memory"), (waits, "waits")):
            line = (seen(name, number) or ["nothing"])[0]
            if line != wanted:
                amiss(name, number, line, wanted)


def judge_lockrun(name, numbers, allowed, done, wide=()):
    first, last = numbers
    for number in range(first, last):
        line, wanted = (seen(name, number) or ["nothing"])[0], [done] if number in wide else allowed
        if line not in wanted:
            amiss(name, number, line, wanted[0])
    if seen(name, first - 1) or seen(name, last)[:1] != [done]:
        wrong.append(f"{name}: {name.upper()} doesn't fit: {first} isn't the first allocation of a run, or {last - 1} isn't the last one")


def judge_book():
    refused = ["refused: no memory", "recorded 40"]
    runs = [seen("records", number) for number in range(1, BOOK + 1)]
    for number, lines in enumerate(runs, 1):
        if lines not in ([], refused, refused[1:]):
            wrong.append(f"book, with allocation {number} refused: {lines}")
    if runs.count(refused) < GROWS or runs[-1] != refused[1:]:
        wrong.append(f"book: BOOK doesn't fit: a record was refused in {runs.count(refused)} of {BOOK} runs")


judge_held()
judge_book()
judge_calls()
judge_lockrun("script", SCRIPT, ["refused: no memory"], "answered", WIDE)
# A worker that comes late needn't wait, and then takes no memory.
judge_lockrun("threads", THREADS, ["refused: no memory", "added up"], "added up")
if ["refused: no memory", "1 held the lock"] not in printed.values():
    wrong.append("threads: no worker was refused memory while the other one held the lock")

for row in wrong:
    print(row, file=sys.stderr)
told = [lines for lines in printed.values() if any(line.startswith("refused: ") for line in lines)]
print(f"{len(printed)} runs of calls, {len(told)} allocations refused, {len(wrong)} differences")
sys.exit(1 if wrong else 0)
PYTHON
