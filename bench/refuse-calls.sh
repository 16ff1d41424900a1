#!/bin/sh
# Refuses each allocation of tests/refused_memory in turn, which makes the public calls of the five locks and of a pool that take memory, and
# checks that each run prints what the program prints with ample memory: the call that was refused said so by name, lost nothing, and
# went on when it was repeated. Prints how often each call was refused. Status 1 at a run that does otherwise, or where a call that
# takes memory was never refused.
#
# Its calls that need no thread are tried by bench/check-refusals.sh too. Which call of a thread an allocation is made by differs from run
# to run, so it is no check of .ci/run.
#
# Run it at the top of the repository, with `rt` on the PATH: bench/refuse-calls.sh. It takes a minute of a processor. The last line has the
# figures.
set -eu

# More allocations than the program makes before its threads start, and some of those that its threads make.
most=500
bench=$(pwd)/bench
calls=$bench/refused-calls.txt
work=$(mktemp -d)
trap 'rm -rf "$work"' EXIT
bench/run-tests.py --into "$work/copy" refused_memory
crate=$work/copy/crates/refused_memory
cd "$crate"
python3 "$bench/kept-program.py" "$work/program" $((2 * most)) </dev/null >/dev/null 2>&1
# The run of a number throws away so many allocations first that the one that is refused is of this number. Which call of a thread that is hangs
# on the machine's load: so all runs are made again, up to three times, until each call was refused once.
runs=0
missing=all
while [ -n "$missing" ] && [ "$runs" -lt $((3 * most)) ]; do
    count=1
    while [ "$count" -le "$most" ]; do
        "$work/program" $((2 * most - count)) >"$work/printed" 2>>"$work/log" && cmp -s stdout "$work/printed" || {
            echo "allocation $count:" >&2
            cat "$work/printed" >&2
            exit 1
        }
        count=$((count + 1))
    done
    runs=$((runs + most))
    missing=$(grep -v '^#\|^$' "$calls" | while read -r call; do grep -qxF "refused: $call" "$work/log" || echo "$call"; done)
done
sed -n 's/^refused: //p' "$work/log" | sort | uniq -c
if [ -n "$missing" ]; then
    echo "never refused: $missing" >&2
    exit 1
fi
refused=$(grep -c '^refused: ' "$work/log") || true
echo "$runs runs of calls and threads, $refused allocations refused, 0 differences"
