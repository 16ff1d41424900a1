#!/usr/bin/env python3
"""Proves and tries what a change touches and what stands above it, before the whole gate: it prints its plan, and what it leaves out.

usage: bench/prove-change.py [--plan] [--touched] [BASE]

Run it at the top of the repository. The change is what differs from the commit BASE, which is the branch that this one follows, or HEAD
if it follows none; files that git doesn't know yet belong to it. Of what it touches:
- each crate is proved (`rt ci NAME..`), and each of its wrong bodies is tried (bench/try-edits.py), as is done with each crate above it;
- each test that stands on one of these is run (bench/run-tests.py);
- the checks bench/check-* are run.
What earlier runs on this machine passed is kept. --plan prints the plan alone. --touched leaves out the crates above. It is no gate: the
whole gate is .ci/run.
"""

import argparse
import glob
import os
import subprocess
import sys

from importlib.machinery import SourceFileLoader

HERE = os.path.dirname(os.path.realpath(__file__))
sys.dont_write_bytecode = True
sys.path.insert(0, HERE)
from kit import CI  # noqa: E402

listed = SourceFileLoader('run_tests', f'{HERE}/run-tests.py').load_module().listed


def said_by(*words):
    ran = subprocess.run(words, stdout=subprocess.PIPE, stderr=subprocess.DEVNULL, text=True, check=False)
    return ran.stdout.split() if not ran.returncode else None


def changed(base):
    """Returns the files that the change touches."""
    if not base:
        base = (said_by('git', 'rev-parse', '--abbrev-ref', '@{upstream}') or ['HEAD'])[0]
    found = said_by('git', 'diff', '--name-only', base)
    if found is None:
        sys.exit(f'git knows no commit {base}')
    return base, found + said_by('git', 'ls-files', '--others', '--exclude-standard')


def above(names, needs):
    """Returns these names, and those that stand on one of them."""
    found = {*names}
    while True:
        more = {it for it, below in needs.items() if it not in found and found & {*below}}
        if not more:
            return found
        found |= more


def named(files, folder, known):
    """Returns the crates or tests of a folder whose files are among these."""
    return {it.split('/')[1] for it in files if it.startswith(f'{folder}/') and it.split('/')[1] in known}


def tell(what, some, every):
    left = sorted({*every} - {*some})
    print(f'{what}: {" ".join(sorted(some)) or "none"}')
    print(f'    left out: {" ".join(left) or "none"}')


def main():
    parser = argparse.ArgumentParser(usage=__doc__)
    parser.add_argument('--plan', action='store_true')
    parser.add_argument('--touched', action='store_true')
    parser.add_argument('base', nargs='?')
    given = parser.parse_args()
    base, files = changed(given.base)
    crates, tests = listed('crates.txt'), listed('tests/tests.txt')
    touched = named(files, 'crates', crates)
    if {'crates.txt', 'HANDLES'} & {*files}:
        touched = {*crates}
    proved = touched if given.touched else above(touched, crates)
    tried = [it for it in proved if os.path.isdir(f'crates/{it}/wrong')]
    run = above(named(files, 'tests', tests) | proved, tests) & {*tests} | {it for it in proved if os.path.isfile(f'crates/{it}/src/main.rt')}
    if 'tests/tests.txt' in files or any(it.startswith('bench/run-tests') for it in files):
        run = {*tests}
    print(f'The change since {base} touches {len(files)} files.')
    tell('Proved', proved, crates)
    tell('Wrong bodies tried', tried, [it for it in crates if os.path.isdir(f'crates/{it}/wrong')])
    tell('Tests and programs run', run, [*tests, *(it for it in crates if os.path.isfile(f'crates/{it}/src/main.rt'))])
    if given.plan:
        return
    steps = [[it] for it in sorted(glob.glob('bench/check-*'))]
    steps += [['bench/run-tests.py', *sorted(run)]] * bool(run)
    steps += [[*CI, *sorted(proved)]] * bool(proved)
    steps += [['bench/try-edits.py', *sorted(tried)]] * bool(tried)
    failed = [' '.join(it[:1]) for it in steps if subprocess.run(it, check=False).returncode]
    print(f'failed: {" ".join(failed)}' if failed else 'what was planned passed; the gate is .ci/run')
    sys.exit(1 if failed else 0)


if __name__ == '__main__':
    main()
