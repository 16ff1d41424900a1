#!/bin/sh
# Refuses each allocation in turn to all that takes memory, and looks how each run tells of it: the public calls of each lock
# (check-refusals.sh), the same with their threads (refuse-calls.sh), and lockrun with each script and with four threads, and the examples
# (refuse-allocations.sh). Each goes to its end, whatever the others find. The last line sums up their figures: runs, allocations refused,
# and differences. Status 1 where there is one, or where a check ends without figures.
#
# Run it at the top of the repository, with `rt` on the PATH: bench/refuse-all.sh. It takes some eight minutes of a processor.
set -u

work=$(mktemp)
trap 'rm -f "$work"' EXIT
runs=0 refused=0 differences=0 status=0
for check in check-refusals refuse-calls refuse-allocations; do
    "bench/$check.sh" >"$work" || status=1
    cat "$work"
    figures=$(sed -n '$s/^\([0-9]*\) runs of .*, \([0-9]*\) allocations refused, \([0-9]*\) differences$/\1 \2 \3/p' "$work")
    if [ -z "$figures" ]; then
        echo "$check.sh: it ended without figures" >&2
        status=1
        continue
    fi
    set -- $figures
    runs=$((runs + $1)) refused=$((refused + $2)) differences=$((differences + $3))
done
echo "in all: $runs runs, $refused allocations refused, $differences differences"
exit "$status"
