#!/bin/sh
# Times the built `lockrun script` on a script of exactly 1,048,576 bytes with 64 parties, and prints the
# seconds and the greatest resident memory. It asserts nothing.
#
# Run it at the top of the repository, after `rt run` in crates/lockrun has built the program:
# bench/script-speed.sh [PROGRAM]. PROGRAM is crates/lockrun/out/lockrun if left out.
set -eu

program=${1:-crates/lockrun/out/lockrun}
if [ ! -x "$program" ]; then
    echo "there is no program $program: run 'rt run' in crates/lockrun first" >&2
    exit 2
fi
work=$(mktemp -d)
trap 'rm -rf "$work"' EXIT

# A mix of moves and shows, the same each time; the last line is a comment that fills the script up.
awk 'BEGIN {
    limit = 1048576
    line = "mutex 64 0\n"; size = length(line); printf "%s", line
    seed = 1
    for (;;) {
        seed = (seed * 1103 + 12345) % 65536
        party = int(seed / 16) % 64
        kind = seed % 16
        if (kind < 4) line = "begin " party " lock\n"
        else if (kind < 6) line = "begin " party " lock starving\n"
        else if (kind < 8) line = "begin " party " put " seed "\n"
        else if (kind < 9) line = "begin " party " drop\n"
        else if (kind < 11) line = "begin " party " poll\n"
        else if (kind < 15) line = "go " party "\n"
        else line = "show\n"
        if (size + length(line) + 2 > limit) break
        size += length(line); printf "%s", line
    }
    line = "#"
    while (size + length(line) + 1 < limit) line = line "#"
    printf "%s\n", line
}' >"$work/script"

echo "script: $(wc -c <"$work/script") bytes, $(wc -l <"$work/script") lines"
python3 - "$program" "$work/script" "$work/answers" <<'PYTHON'
import subprocess, sys, time
program, script, answers = sys.argv[1:]
runs = []
for _ in range(10):
    with open(script) as source, open(answers, "w") as sink:
        start = time.perf_counter()
        subprocess.run([program, "script"], stdin=source, stdout=sink, check=True)
        runs.append(time.perf_counter() - start)
print(f"seconds: {min(runs):.4f} at best, {max(runs):.4f} at worst, of {len(runs)} runs")
PYTHON
if [ -x /usr/bin/time ]; then
    /usr/bin/time -f 'greatest resident memory: %M KiB' "$program" script <"$work/script" >"$work/answers"
else
    echo "greatest resident memory: not measured, there is no /usr/bin/time"
fi
echo "output: $(wc -c <"$work/answers") bytes, $(wc -l <"$work/answers") lines"
