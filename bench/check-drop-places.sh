#!/bin/sh
# Looks at which places a pending future is dropped by the scripts of scripts/, and that each answer in scripts/ is what a small model
# in bench/replay.py gives, which is written from docs/PROGRAMS.md alone.
#
# A place counts as reached where a script drops a party there between two `show` lines, with another party listed behind it; where the
# drop notifies other lists than the party's own (a write or an upgrade that waits for readers, a maker), with another party waiting in
# each of them. Prints each place with its scripts, and with the test that drops a public future there: those of tests/test_public go through all states,
# and fail where a place that they name was never come to. Status 1 where a place has no script or no test, or where an answer differs.
#
# Run it at the top of the repository: bench/check-drop-places.sh. It takes a second, and builds nothing.
set -eu

PYTHONDONTWRITEBYTECODE=1 PYTHONPATH=bench python3 - <<'PYTHON'
import glob
import os
import sys

from replay import Replay, lines_of

# For each call its places, and the marks that the entry may have there: w is waiting, n notified, a notified additionally, - in no list.
INNER = ("Ask", "AskStarved")
PLACES = [
    *[("lock", place, "wn") for place in INNER],
    ("read", "AskNoWriter", "wn"),
    *[(call, f"WaitTurn, {place}", "wn") for call in ("upread", "write") for place in INNER],
    ("write", "AwaitNoReaders", "wn"),
    ("upgrade", "LookUnlisted", "-"),
    ("upgrade", "AwaitNoReaders", "wn"),
    ("acquire", "Retake", "wn"),
    ("init", "AskActive", "wna"),
    ("init", "Make", "-"),
    ("set", "AskActive", "wna"),
    ("wait", "AskPassive", "wa"),
    *[("wait", f"WaitLock, {place}{counted}", "wn") for counted in ("", ", counted") for place in INNER],
    ("wait", "Ask", "wn"),
]
MARKS = {"w": "waiting", "n": "notified", "a": "notified additionally", "-": "in no list"}

reached = {(call, place, mark): [] for call, place, marks in PLACES for mark in marks}
wrong = []
drops = 0


def replay(script):
    """Replays a script beside its answers, and notes its drops that stand between two lines that show."""
    global drops
    name = os.path.basename(script).removesuffix(".script")
    lines = lines_of(open(script).read())
    answers = open(script.removesuffix(".script") + ".answers").read().splitlines()
    if len(lines) != len(answers):
        wrong.append(f"{name}: {len(lines)} lines and {len(answers)} answers")
    run = Replay()
    for number, (line, answer) in enumerate(zip(lines, answers)):
        before = len(run.drops)
        found = run.answer(line.split())
        if found != answer:
            wrong.append(f"{name}: {line}: {answer}, where the model says {found}")
            return
        for call, place, mark, behind in run.drops[before:]:
            drops += 1
            shown = lines[number - 1] == "show" and lines[number + 1 :][:1] == ["show"]
            if behind and shown and line.startswith("do "):
                reached.setdefault((call, place, mark), []).append(name)


scripts = sorted(glob.glob("scripts/*.script"))
for script in scripts:
    replay(script)
tests = {path: open(path).read() for path in sorted(glob.glob("tests/test_public/*.rattle"))}
untested = []
for (call, place, mark), names in reached.items():
    name = f"{call} at {place}, {MARKS[mark]}"
    public = [path for path, text in tests.items() if f'"{name}"' in text]
    untested += [] if public else [name]
    print(f"{name}: {', '.join(names) or 'no script'}; {', '.join(public) or 'no test'}")
missing = [key for key, names in reached.items() if not names]
wrong += [f"no script drops a {call} at {place}, {MARKS[mark]}" for call, place, mark in missing]
wrong += [f"no test of tests/test_public drops a future: {name}" for name in untested]
for row in wrong:
    print(row, file=sys.stderr)
if not scripts or wrong:
    sys.exit(1)
print(f"{len(scripts)} scripts drop {drops} pending futures, at each of {len(reached)} places, as tests of public futures do")
PYTHON
