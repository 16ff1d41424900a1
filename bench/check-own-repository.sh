#!/bin/sh
# Does what docs/USING.md says of a repository of one's own, from an empty folder: it copies the locks, writes README's first example, and
# runs it, with nothing proved. Then it copies them once more, as an update does, and looks that nothing else in that repository changes.
#
# Run it at the top of the repository, with `rt` on the PATH: bench/check-own-repository.sh. It takes one or two minutes.
set -eu

work=$(mktemp -d)
trap 'rm -rf "$work"' EXIT
own=$work/my_repository

bench/copy-locks.py "$own" async_mutex
bench/copy-locks.py "$own" async_lock
mkdir -p "$own/crates/my_lock/src"
echo 'my_lock: async_lock' >>"$own/crates.txt"
cp crates/first_lock/src/main.rt "$own/crates/my_lock/src/main.rt"
printed=$(cd "$own/crates/my_lock" && rt try 2>"$work/log") || {
    cat "$work/log" >&2
    exit 1
}
if [ "$printed" != 42 ]; then
    echo "the program printed $printed, and not 42" >&2
    exit 1
fi
rm -rf "$own"/crates/*/out
cp -r "$own" "$work/before"
bench/copy-locks.py "$own" async_lock
diff -r "$work/before" "$own" >&2
# A crate of one's own that has a lock's name is left alone, and so is all else.
sed -i '/^# Locks/,/^# End/d' "$own/crates.txt"
if bench/copy-locks.py "$own" async_lock 2>/dev/null; then
    echo "crates of the same names were replaced" >&2
    exit 1
fi
echo "a repository of one's own runs the locks"
