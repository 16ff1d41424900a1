#!/bin/sh
# Writes every generated file again (proofs, and docs/WRONG_BODIES.md), in a copy of what is committed, and compares: each has to be what
# its generator writes. It changes nothing here, and ends with status 1 where a file differs, or where an edit has no line 'promise:' or
# no line 'clause:'.
#
# Run it at the top of the repository: bench/check-generated.sh
set -eu

work=$(mktemp -d)
trap 'rm -rf "$work"' EXIT

git archive HEAD crates docs generators | tar -x -C "$work"
mkdir "$work/committed"
cp -r "$work/crates" "$work/docs" "$work/committed"
(
    cd "$work"
    for generator in generators/*.py; do
        python3 "$generator"
    done
)
diff -r "$work/committed/crates" "$work/crates" >&2
diff -r "$work/committed/docs" "$work/docs" >&2
echo "every generated file is what its generator writes"
