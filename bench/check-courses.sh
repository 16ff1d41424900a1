#!/bin/sh
# Looks that whole calls act by a lock's single actions alone. By contract each of these asks that the call has come to its place, and moves
# the call's course by what it found. That a whole call doesn't move the course by itself, or reach past the actions to the words and lists,
# no contract can say, since both stand in one crate. (A whole call may take a seat, split a duty off to one, and make a whole call on the mutex inside
# its lock.)
# Nor can one say that what a seat steps with isn't made beside all seats, stepped with and dropped, duty and all: only seat.rt of each core makes it.
# Nor that an action does by several steps what it is to do by one, as a gift that is taken back and given again: each step of the words changes
# the table once, and no function of a core names the same step twice.
#
# At first it plants such lines in a copy of each file of whole calls, and fails if it doesn't find them.
#
# Run it at the top of the repository: bench/check-courses.sh. It takes a second, and builds nothing.
set -eu

python3 - <<'PYTHON'
import glob
import re
import sys

# Where whole calls stand, by crate, and where a course is made and moved.
CALLS = {
    "mutex_core": ["mutex"],
    "semaphore_core": ["calls", "polls"],
    "cell_core": ["making", "waiting"],
    "barrier_core": ["polls"],
    "rwlock_core": ["awaiting", "read", "upgrade", "write"],
}
MADE = ("seat", "course", "standing")
MOVES = re.compile(r"\.go\(")
PAST = re.compile(r"giving_back|::steps\b|\.table\b|\bget_mut\(|self\.access\.(?!sit\b|sit_and_look\b|split_duty\b)|self\.turn\.(?!cancel\b|first_look\b|poll_first\b|poll_later\b)")
MAKES = re.compile(r"\b(Course|Standing|Snapshot)(::of\(|\s*\{)")

# Only seat.rt of a core makes what a seat steps with, and puts it into a seat, which the compiler lets no other file take apart.
MADE_ANEW = re.compile(r"\w*_new_seat\b|\binto_seat\b|\bsplit_seat\b|(?<!\.)\bsplit_duty\(")


def code(path):
    with open(path, encoding="utf-8") as file:
        return re.sub(r"//[^\n]*", "", file.read())


def found(path, text):
    crate, name = path.split("/")[1], path.split("/")[-1][:-3]
    if name in CALLS.get(crate, ()) and MOVES.search(text):
        yield f"{path}: a whole call moves its course by itself"
    if name in CALLS.get(crate, ()) and PAST.search(text):
        yield f"{path}: a whole call reaches past the single actions"
    if name not in MADE and MAKES.search(text):
        yield f"{path}: a course is made outside {' and '.join(it + '.rt' for it in MADE)}"


def found_anew(path, text):
    if not path.endswith("/seat.rt") and MADE_ANEW.search(text):
        yield f"{path}: what a seat steps with is made outside seat.rt"


# What changes a table, and the functions of a file with their bodies.
CHANGES = re.compile(r"\bshared\s*\.\s*(?:compare_exchange|fetch_\w+|swap|store)\b")
FUNCTION = re.compile(r"(?ms)^( *)(?:pub(?:\(crate\))? )?fn (\w+)\b(.*?)^\1\}")
STEPS = {name for path in glob.glob("crates/words_*/src/steps.rt") for name in re.findall(r"(?m)^pub fn (\w+)", code(path))}


def found_twice(path, text):
    own = {it for names in re.findall(r"\buse words_\w+::(?:steps::)?([^;]*);", text) for it in re.findall(r"\w+", names)} & STEPS
    for _, name, body in FUNCTION.findall(text):
        called = [it for it in re.findall(r"(?<![\w.])(\w+)(?:::<[^>]*>)?\(", body) if it in own]
        if len(called) > len(set(called)) or len(CHANGES.findall(body)) > 1:
            yield f"{path}: {name} makes a step twice"


paths = [path for crate in (*CALLS, "access_core") for path in sorted(glob.glob(f"crates/{crate}/src/*.rt"))]
faults = [it for path in paths for it in (*found(path, code(path)), *found_anew(path, code(path)))]
for path in (*paths, *sorted(glob.glob("crates/words_*/src/steps.rt"))):
    faults += found_twice(path, code(path))
    step = next(iter(re.findall(r"\buse words_\w+::steps::\{(?:[A-Z_]+, )*([a-z]\w*)", code(path))), None)
    for planted in [f"{step}(x);\n{step}(x);"] * bool(step) + ["shared.fetch_add::<A>(x);\nshared.fetch_sub::<B>(x);"]:
        if not list(found_twice(path, f"{code(path)}\nfn planted() {{\n{planted}\n}}")):
            faults.append(f"{path}: a planted function is not found: {planted}")
for path in paths:
    for planted in ("self.table.shared.load_new_seat::<Keep>(WORD);", "badge.into_seat();", "shared.split_seat::<Apart>(seat);", "split_duty(shared, seat);"):
        if not path.endswith("/seat.rt") and not list(found_anew(path, code(path) + planted)):
            faults.append(f"{path}: a planted line is not found: {planted}")
for crate, names in CALLS.items():
    for name in names:
        path = f"crates/{crate}/src/{name}.rt"
        for planted in ("seat.go(at, Found::Done);", "Course::of(&next);", "self.access.off(&mut seat);", "self.table.shared.peek(WORD);", "hold.get_mut(self.inner.room());"):
            if not list(found(path, code(path) + planted)):
                faults.append(f"{path}: a planted line is not found: {planted}")
print("\n".join(faults) or f"the calls of {len(CALLS)} locks act by their single actions alone, each a step once, and only their seats step")
sys.exit(bool(faults))
PYTHON
