#!/bin/sh
# Looks that docs/UPSTREAM_TESTS.md has each test of the Rust crate by its name, once, with a test here that is there, or with
# docs/DIFFERENCES.md, which names it. Status 1 where one is missing.
#
# Run it at the top of the repository: bench/check-upstream-tests.sh. It builds nothing.
set -eu

python3 - <<'PYTHON'
import glob
import re
import sys

# The functions of async-lock 3.5.0's tests, by file. Those that begin with an underscore are only compiled.
UPSTREAM = {
    "mutex.rs": "smoke smoke_blocking smoke_arc_blocking try_lock into_inner get_mut contention lifetime yields_when_contended",
    "barrier.rs": "smoke smoke_blocking",
    "semaphore.rs": "try_acquire stress as_mutex multi_resource lifetime yields_when_contended smoke_blocking smoke_arc_blocking "
    "available_permits add_permits add_permits_2",
    "rwlock.rs": "smoke smoke_blocking smoke_arc_blocking try_write into_inner into_inner_and_drop get_mut contention contention_arc "
    "writer_and_readers writer_and_readers_arc upgrade upgrade_arc not_upgrade not_upgrade_arc upgradable_with_concurrent_writer "
    "upgradable_with_concurrent_writer_arc yields_when_contended yields_when_contended_arc cancellation arc_rwlock_refcounts "
    "_covariance_test _covariance_test_arc",
    "loom.rs": "barrier_smoke",
}

page = open("docs/UPSTREAM_TESTS.md").read()
differences = open("docs/DIFFERENCES.md").read()
found = re.findall(r"^\| `(\w+\.rs)` \| `(\w+)` \| (.*?) \| (.*?) ?\|$", page, flags=re.MULTILINE)
wanted = [(file, name) for file, names in UPSTREAM.items() for name in names.split()]
wrong = [f"{file}: {name} isn't in the table once" for file, name in wanted if [row[:2] for row in found].count((file, name)) != 1]
wrong += [f"{file}: {name} is none of the Rust crate's" for file, name, _, _ in found if (file, name) not in wanted]


def is_there(place):
    """Says whether this test, `crate::module::name`, stands in the sources of the tests."""
    crate, module, name = place.split("::")
    paths = glob.glob(f"tests/{crate}/{module}.rattle") + glob.glob(f"tests/{crate}/{module.removesuffix('_rows')}.rows")
    story = name.replace("_", " ")
    return any(re.search(rf"^#\[test\]\nfn {name}\(|^{story}: ", open(path).read(), flags=re.MULTILINE) for path in paths)


tests = 0
for file, name, here, reason in found:
    if here == "docs/DIFFERENCES.md":
        if f"`{name}`" not in differences or not reason:
            wrong.append(f"{file}: docs/DIFFERENCES.md doesn't name {name}, or the table has no reason")
    elif re.fullmatch(r"`\w+::\w+::\w+`", here) and is_there(here.strip("`")):
        tests += 1
    else:
        wrong.append(f"{file}: {name}: there is no test {here}")
for row in wrong:
    print(row, file=sys.stderr)
if wrong:
    sys.exit(1)
print(f"of {len(found)} functions of the Rust crate's tests {tests} are tests here, and {len(found) - tests} are differences")
PYTHON
