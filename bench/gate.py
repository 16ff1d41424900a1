#!/usr/bin/env python3
"""Proves everything, and tries every wrong body: the gate for whoever wants the proofs. bench/run-tests.py runs the tests.

usage: bench/gate.py [--anew] [--minutes FILE] [--record]

Run it at the top of a clean checkout. One after the other:
- the checks bench/check-*, which prove nothing;
- `rt ci`: the proof of each crate, and each program run as two compilers build it;
- bench/try-edits.py: each wrong body must be refused.
What earlier runs on this machine passed is kept, and proved and tried again only with --anew. The last line is 'N passed, M failed', and
the status is 1 if any failed.

--minutes appends what each crate took of a processor. --record writes all of that file to the table of docs/GATE.md, in which what was
kept stays as it was. Every half second a look at the processes of `rt ci` tells what they took, so that what one takes after the last look
is missing: some seconds in all.
"""

import argparse
import glob
import os
import re
import subprocess
import sys
import tempfile
import time
from collections import defaultdict

sys.path.insert(0, os.path.dirname(os.path.realpath(__file__)))
from kit import CI  # noqa: E402

KINDS = {'proofs': 'its proof', 'edits': 'its wrong bodies', 'tests': 'its tests, or its run'}
LOOK = 0.5
LAST = re.compile(r'(\d+) passed, (\d+) failed')
# Memory that one task of `rt ci` takes, in bytes: rt reckons with more.
MEMORY = 5_000_000_000
PAGE, BEGIN, END = 'docs/GATE.md', '<!-- written by bench/gate.py -->', '<!-- end -->'


def text_of(path):
    try:
        with open(path, 'rb') as file:
            return file.read().decode(errors='replace')
    except OSError:
        return ''


def look(session, seen):
    """Notes for each process of the session which crate it is for, and the ticks that it took so far."""
    for process in filter(str.isdigit, os.listdir('/proc')):
        fields = text_of(f'/proc/{process}/stat').rpartition(') ')[2].split()
        if len(fields) < 20 or fields[3] != str(session):
            continue
        words = text_of(f'/proc/{process}/cmdline').split('\0')
        if '--crate-name' in words:
            seen[process, fields[19]] = words[words.index('--crate-name') + 1], int(fields[11]) + int(fields[12])


def run(words, seen=None, **more):
    """Runs a command, prints what it prints, and returns what its last line counts as passed and failed."""
    running = subprocess.Popen(words, stdout=subprocess.PIPE, stderr=subprocess.STDOUT, start_new_session=True, **more)
    os.set_blocking(running.stdout.fileno(), False)
    said, is_over = b'', False
    while not is_over:
        is_over = running.poll() is not None
        new = running.stdout.read() or b''
        sys.stdout.buffer.write(new)
        sys.stdout.flush()
        said = (said + new)[-4096:]
        if seen is not None:
            look(running.pid, seen)
        if not is_over:
            time.sleep(LOOK)
    last = LAST.match(said.decode(errors='replace').rstrip('\n').split('\n')[-1])
    if not last:
        return 0, 1, running.returncode
    return int(last[1]), int(last[2]), running.returncode


def check_all():
    """Runs each check, and returns how many passed and failed."""
    found = sorted(glob.glob('bench/check-*'))
    failed = [it for it in found if subprocess.run([it]).returncode]
    for it in failed:
        print(f'{it}: FAILED', flush=True)
    return len(found) - len(failed), len(failed)


def prove(anew, minutes):
    """Runs `rt ci`, one task for each processor, if there is memory for each."""
    most = int(re.search(r'MemTotal:\s+(\d+)', text_of('/proc/meminfo'))[1]) * 1024 // MEMORY
    jobs = os.environ.get('RT_JOBS') or str(max(1, min(len(os.sched_getaffinity(0)), most)))
    seen = {}
    passed, failed, status = run([*CI, *anew], seen, env={**os.environ, 'RT_JOBS': jobs})
    took = defaultdict(float)
    for crate, ticks in seen.values():
        took[crate] += ticks / os.sysconf('SC_CLK_TCK')
    with open(minutes, 'a', encoding='utf-8') as file:
        file.writelines(f'{crate}\tproofs\t{seconds:.0f}\n' for crate, seconds in took.items())
    return passed, failed + (status != 0 and not failed)


def table(minutes, before):
    """The lines of the table, the most costly crate first. What this run had no need to do is as it was before."""
    took = defaultdict(lambda: dict.fromkeys(KINDS, 0.0))
    for line in text_of(minutes).splitlines():
        crate, kind, seconds = line.split('\t')
        took[crate][kind] += float(seconds) / 60
    for crate, *cells in re.findall(r'(?m)^\| `(\w+)` \|([^|]*)\|([^|]*)\|([^|]*)\|', before):
        if os.path.isdir(f'crates/{crate}') or os.path.isdir(f'tests/{crate}') or crate in took:
            for kind, cell in zip(KINDS, cells):
                took[crate][kind] = took[crate][kind] or float(cell.strip() or 0)
    yield f'| Crate | {" | ".join(KINDS.values())} | all |'
    yield f'|---|{"--:|" * (len(KINDS) + 1)}'
    for crate, cells in sorted(took.items(), key=lambda it: -sum(it[1].values())):
        shown = [f'{one:.1f}' if one else '' for one in cells.values()]
        yield f'| `{crate}` | {" | ".join(shown)} | {sum(cells.values()):.1f} |'
    sums = [sum(cells[kind] for cells in took.values()) for kind in KINDS]
    yield f'| all | {" | ".join(f"{one:.1f}" for one in sums)} | {sum(sums):.1f} |'


def record(minutes, last):
    """Writes the table to its page."""
    head, _, rest = text_of(PAGE).partition(BEGIN)
    before, _, rest = rest.partition(END)
    said = f'The last run ended with `{last}`, on {len(os.sched_getaffinity(0))} processors. Minutes of a processor, each as it was last done:'
    with open(PAGE, 'w', encoding='utf-8') as file:
        file.write('\n'.join([head + BEGIN, '', said, '', *table(minutes, before), '', END]) + rest)


def main():
    parser = argparse.ArgumentParser(usage=__doc__)
    parser.add_argument('--anew', action='store_true')
    parser.add_argument('--minutes')
    parser.add_argument('--record', action='store_true')
    given, began = parser.parse_args(), time.monotonic()
    anew = ['--anew'] * given.anew
    with tempfile.TemporaryDirectory(prefix='gate-') as room:
        minutes = os.path.abspath(given.minutes or f'{room}/minutes')
        parts = [check_all(), prove(anew, minutes), run(['bench/try-edits.py', *anew, '--minutes', minutes])]
        passed, failed = sum(it[0] for it in parts), sum(it[1] for it in parts)
        last = f'{passed} passed, {failed} failed'
        if given.record:
            record(minutes, last)
    print(f'checks, crates and wrong bodies, after {(time.monotonic() - began) / 60:.0f} minutes:')
    print(last)
    sys.exit(1 if failed else 0)


if __name__ == '__main__':
    main()
