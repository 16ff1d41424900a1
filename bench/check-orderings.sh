#!/bin/sh
# Looks that each step on an atomic word or flag is sequentially consistent: no crate names a weaker ordering.
#
# Run it at the top of the repository: bench/check-orderings.sh
set -eu

if grep -rnE 'Ordering::(Relaxed|Acquire|Release|AcqRel)' crates/*/src tests; then
    echo "a weaker ordering than SeqCst" >&2
    exit 1
fi
echo "each step is sequentially consistent"
