#!/usr/bin/env python3
"""Looks that the files of tests/ are in the layout that `rt fmt` gives a crate's files, or with the word 'write' lays them out so.

Run it at the top of the repository: bench/check-format.py [write]. (Of the crates `rt ci` looks itself.)
"""

import os
import shutil
import subprocess
import sys
import tempfile

sys.path.insert(0, os.path.dirname(os.path.realpath(__file__)))
from kit import FOLDER  # noqa: E402


def main():
    writes = sys.argv[1:] == ['write']
    paths = sorted(f'{at}/{name}' for at, _, names in os.walk('tests') for name in names if name.endswith('.rattle'))
    with tempfile.TemporaryDirectory(prefix='check-format-') as room:
        # (the formatter reads files by their ending)
        copies = {path: f'{room}/{number}.rt' for number, path in enumerate(paths)}
        for path, copy in copies.items():
            shutil.copy(path, copy)
        words = [f'{FOLDER}/bin/rattle', 'fmt', '--write', *copies.values()]
        if subprocess.run(words, check=False).returncode:
            sys.exit('a file of tests/ has no layout')
        other = [path for path, copy in copies.items() if open(path, 'rb').read() != open(copy, 'rb').read()]
        for path in other if writes else ():
            shutil.copyfile(copies[path], path)
    if other and not writes:
        sys.exit(f'not in the layout (bench/check-format.py write): {" ".join(other)}')
    print('the files of tests/ are in the layout')


if __name__ == '__main__':
    main()
