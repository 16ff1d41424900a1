#!/usr/bin/env python3
"""Copies locks into a repository of your own, with the crates that they stand on, or brings the copies there up to date.

usage: bench/copy-locks.py REPOSITORY CRATE..

CRATE is async_mutex, async_rwlock, async_semaphore, async_once_cell, async_barrier, or async_lock for all five. REPOSITORY is a folder; what
is missing in it is made:
- crates/NAME, for each crate that is needed: src, specs, proofs and README.md. A folder of that name that stands there already is
  replaced if an earlier call copied it, and refused otherwise.
- crates.txt gets their lines, between two comments, of which the first tells the version that was copied. A later call
  replaces what stands between them, with the crates that it names and those that earlier calls named, and removes the crates that are no
  longer needed. Your own lines stay as they are.
- HANDLES, where there is none, gets the one line that programs with threads that wait need.

Name the locks in the lines of your own crates, as in 'my_program: async_mutex'. Nothing here is proved or built: `rt try` in your
crate's folder runs it, and `rt run` proves it first.
"""

import argparse
import os
import re
import shutil
import subprocess
import sys

TOP = os.path.dirname(os.path.dirname(os.path.realpath(__file__)))
LOCKS = ('async_mutex', 'async_rwlock', 'async_semaphore', 'async_once_cell', 'async_barrier', 'async_lock')
BEGIN, END = '# Locks, copied from version', '# End of the locks'
HANDLES = 'Handles allowed: Threads, Wait.\n'


def text_of(path):
    try:
        with open(path, encoding='utf-8') as file:
            return file.read()
    except FileNotFoundError:
        return ''


def listed(text):
    """Returns what each crate of such a text stands on, by its name."""
    lines = [line.partition('#')[0] for line in text.split('\n')]
    return {line.split(':')[0].strip(): line.split(':')[1].split() for line in lines if ':' in line}


def version():
    """Returns the commit that is copied, and says whether files differ from it."""
    words = ['git', '-C', TOP, 'log', '-1', '--format=%h of %cs']
    said = subprocess.run(words, capture_output=True, text=True, check=False).stdout.strip()
    changed = subprocess.run(['git', '-C', TOP, 'status', '--porcelain', 'crates', 'crates.txt'], capture_output=True, text=True, check=False).stdout
    return (said or 'unknown') + (', with changes' if changed else '')


def needed(names, crates):
    """Returns the crates of this repository that these stand on, and these, lowest first."""
    found = []

    def take(name):
        if name in crates and name not in found:
            for below in crates[name]:
                take(below)
            found.append(name)

    for name in names:
        take(name)
    return found


def main():
    parser = argparse.ArgumentParser(usage=__doc__)
    parser.add_argument('repository')
    parser.add_argument('crates', nargs='+', choices=LOCKS)
    given = parser.parse_args()
    to, crates = given.repository, listed(text_of(f'{TOP}/crates.txt'))
    there = text_of(f'{to}/crates.txt')
    found = re.search(rf'(?ms)^{BEGIN}.*?^{END}\n?', there)
    old = listed(found[0]) if found else {}
    own = listed(there.replace(found[0], '') if found else there)
    asked = re.search(r'(?m)^# Asked for: (.*)$', found[0])[1].split() if found else []
    names = [it for it in LOCKS if it in given.crates or it in asked]
    copied = needed(names, crates)
    refused = [it for it in copied if it in own or it not in old and os.path.isdir(f'{to}/crates/{it}')]
    if refused:
        sys.exit(f'{to} has crates of its own of these names, and nothing was copied: {" ".join(refused)}')
    for name in {*old, *copied}:
        shutil.rmtree(f'{to}/crates/{name}', ignore_errors=True)
    for name in copied:
        for part in ('src', 'specs', 'proofs'):
            if os.path.isdir(f'{TOP}/crates/{name}/{part}'):
                shutil.copytree(f'{TOP}/crates/{name}/{part}', f'{to}/crates/{name}/{part}')
        shutil.copy(f'{TOP}/crates/{name}/README.md', f'{to}/crates/{name}')
    os.makedirs(to, exist_ok=True)
    lines = [f'{BEGIN} {version()}', f'# Asked for: {" ".join(names)}', *(f'{it}: {" ".join(crates[it])}' for it in copied), END, '']
    rest = there.replace(found[0], '') if found else there
    with open(f'{to}/crates.txt', 'w', encoding='utf-8') as file:
        file.write('\n'.join(lines) + rest)
    if not os.path.exists(f'{to}/HANDLES'):
        with open(f'{to}/HANDLES', 'w', encoding='utf-8') as file:
            file.write(HANDLES)
    print(f'{len(copied)} crates, of version {version()}: {" ".join(copied)}')


if __name__ == '__main__':
    main()
