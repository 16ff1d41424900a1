#!/bin/sh
# Looks that the library forgets nothing, so that a guard or future that it drops gives back what it has. No contract can say so: a guard
# and a future can be dropped, and what can be dropped may be forgotten too.
#
# The library is the crates async_lock and lockrun with all that they stand on by crates.txt. In their sources, outside comments,
# - nothing is forgotten, leaked or made raw: no `forget` of any module, no `ManuallyDrop`, no `leak`, no `into_raw`;
# - each drop that is written by hand takes `self` apart in its first statement, with each field by its name and none by `..`, or an
#   enum by its variants;
# - each guard and future of the public types has such a drop.
#
# At first it plants what it looks for in a copy of a file, and fails if it finds one of these not.
#
# Run it at the top of the repository: bench/check-forgets.sh. It takes a second, and builds nothing.
set -eu

python3 - <<'PYTHON'
import glob
import re
import sys

# The types whose drops give back, by crate.
GIVE_BACK = {
    "async_mutex": ["Guard", "LockFuture"],
    "async_rwlock": ["ReadGuard", "UpgradableGuard", "WriteGuard", "GuardFuture", "UpgradeFuture"],
    "async_semaphore": ["PermitGuard", "AcquireFuture"],
    "async_once_cell": ["GetOrInit", "GetOrTryInit", "Set", "Wait"],
    "async_barrier": ["BarrierWait"],
}

# The memory of a lock's values goes to a pointer that its owner alone has, and comes back by `from_raw_parts`.
ALLOWED = {("crates/lock_place/src/strip.rt", "let parts = unsafe { row.into_raw_parts() };")}
# A read-write lock and a value's place are dropped by `into_inner`, which takes them apart, and two of its guards by `into_party`.
BY_ANOTHER = {(path, "drop(self.into_inner());") for path in ("crates/async_rwlock/src/rwlock.rt", "crates/lock_place/src/owned.rt")} | {
    ("crates/async_rwlock/src/upgradable_guard.rt", "let (owner, upgradable) = self.into_party();"),
    ("crates/async_rwlock/src/write_guard.rt", "let (owner, writer) = self.into_party();"),
}

FORGETS = re.compile(
    r"\b[a-z]\w*\s*::\s*forget\b|\bmem\s*::\s*(\*|\{[^}]*\bforget\b)|(?<![.\w:])(?<!fn )forget\s*(\(|::<)|\buse\b[^;]*[:{,\s]forget\s*[,;}]"
    r"|\bManuallyDrop\b|\bMaybeUninit\b|\bleak\b|\binto_raw"
)
DROP = re.compile(r"\bDrop\s+for\s+(\w+)[^{;]*?\{(?:\s*#\[[^\]]*\])*\s*fn\s+drop\s*\(\s*self\s*\)[^{]*\{\s*(match self \{|[^;]*;)")
ANY_DROP = re.compile(r"\bDrop\s+for\s+\w+")
APART = re.compile(r"let\s+(\w+)\s*(\{[^}]*\}|\([^)]*\))\s*=\s*self\s*;\Z")


def library():
    """Returns the crates of the library."""
    stands = {}
    for line in open("crates.txt"):
        name, colon, below = line.partition(":")
        if colon and not line.startswith("#"):
            stands[name.split()[0]] = below.split()
    crates, more = set(), ["async_lock", "lockrun"]
    while more:
        crate = more.pop()
        if crate in stands and crate not in crates:
            crates.add(crate)
            more += stands[crate]
    return sorted(crates)


def without_comments(text):
    return re.sub(r"//[^\n]*", "", text)


def forgotten(path, text):
    """Returns the lines that forget, leak or make raw."""
    lines = without_comments(text).split("\n")
    found = [line.strip() for line in lines if FORGETS.search(line)]
    return [f"{path}: {line}" for line in found if (path, line) not in ALLOWED]


def drops(path, text):
    """Returns the types that are dropped by hand in this text, and what is amiss with that."""
    text = without_comments(text)
    types, wrong = [], []
    for name, first in DROP.findall(text):
        types.append(name)
        first = " ".join(first.split())
        apart = APART.match(first)
        by_variants = first == "match self {"
        if not by_variants and (path, first) not in BY_ANOTHER and not (apart and apart[1] in ("Self", name) and ".." not in apart[2]):
            wrong.append(f"{path}: the drop of {name} doesn't take it apart: {first}")
    if len(types) != len(ANY_DROP.findall(text)):
        wrong.append(f"{path}: a drop that isn't read by this check")
    return types, wrong


PLANTED = [
    "mem::forget(guard);",
    "std::mem::forget::<Seat>(seat);",
    "use std::mem::forget;",
    "use std::mem::{self, forget};",
    "use std::mem::*;",
    "use std::mem as memory; memory::forget(guard);",
    "forget(self);",
    "let kept = ManuallyDrop::new(guard);",
    "let value = Box::leak(boxed);",
    "let words = row.leak();",
    "let share = Arc::into_raw(share);",
]
PLANTED_DROPS = [
    ("let Self {", "drop(self.owner); let Self {"),
    ("let Self {", "let other = self; let Self {"),
    ("runtime: _,", ".."),
    ("fn drop(self)", "fn drop(self, twice: bool)"),
]


def try_itself():
    """Plants each line in a function, and each drop in a guard's."""
    path = "crates/async_mutex/src/guard.rt"
    text = open(path).read()
    for line in PLANTED:
        if not forgotten(path, f"{text}\nfn planted() {{\n    {line}\n}}\n"):
            sys.exit(f"this check doesn't find what was planted: {line}")
    for old, new in PLANTED_DROPS:
        start = text.index("Drop for Guard")
        if not drops(path, text[:start] + text[start:].replace(old, new, 1))[1]:
            sys.exit(f"this check doesn't find what was planted: {new}")


try_itself()
crates = library()
wrong, by_hand, files = [], {}, 0
for crate in crates:
    paths = sorted(glob.glob(f"crates/{crate}/src/**/*.rt", recursive=True))
    files += len(paths)
    for path in paths:
        text = open(path).read()
        types, amiss = drops(path, text)
        by_hand.setdefault(crate, set()).update(types)
        wrong += forgotten(path, text) + amiss
for crate, types in GIVE_BACK.items():
    wrong += [f"{crate}: no drop of {name} by hand" for name in types if name not in by_hand.get(crate, ())]
for row in wrong:
    print(row, file=sys.stderr)
if wrong or len(crates) < 20:
    sys.exit(1)
count = sum(map(len, by_hand.values()))
print(f"{files} files of {len(crates)} crates forget nothing, and {count} drops take apart what they drop")
PYTHON
