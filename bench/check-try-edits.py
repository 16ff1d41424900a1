#!/usr/bin/env python3
"""Looks that bench/try-edits.py tells the kinds of edits apart: it tries those of bench/example-edits, over a crate of a few functions.

Run it at the top of the repository: bench/check-try-edits.py. It takes half a minute.
"""

import glob
import os
import shutil
import subprocess
import sys
import tempfile

WANTED = {
    'a_double_is_the_number': 'refused',
    'a_double_of_more_numbers': 'refused',
    'a_fourfold_by_two_calls': 'SURVIVES',
    'a_number_at_most_is_none': 'SURVIVES',
    'a_number_at_most_waits': 'NO GOAL',
    'an_exchange_is_forgotten': 'NO GOAL',
    'an_exchange_of_three': 'BAD',
    'an_exchange_of_what_is_not_there': 'BAD',
}


def main():
    here = os.path.dirname(os.path.realpath(__file__))
    with tempfile.TemporaryDirectory(prefix='check-try-edits-') as top:
        crate = f'{top}/crates/example'
        os.makedirs(f'{crate}/src')
        os.makedirs(f'{crate}/wrong')
        shutil.copy(f'{here}/example-edits/lib.rattle', f'{crate}/src/lib.rt')
        for path in glob.glob(f'{here}/example-edits/*.edit'):
            shutil.copy(path, f'{crate}/wrong')
        with open(f'{top}/crates.txt', 'w', encoding='utf-8') as file:
            file.write('example:\n')
        with open(f'{top}/HANDLES', 'w', encoding='utf-8') as file:
            file.write('Handles allowed: none.\n')
        words = [f'{here}/try-edits.py', '--jobs', '1', '--anew']
        ran = subprocess.run(words, cwd=top, stdout=subprocess.PIPE, stderr=subprocess.STDOUT, text=True, check=False)
    lines = [line.removeprefix('example/') for line in ran.stdout.splitlines()]
    wrong = [it for it, verdict in WANTED.items() if not any(line.startswith(f'{it}: {verdict}') for line in lines)]
    count = sum(verdict == 'refused' for verdict in WANTED.values())
    if wrong or ran.returncode != 1 or lines[-1] != f'{count} passed, {len(WANTED) - count} failed':
        print(ran.stdout)
        sys.exit(f'bench/try-edits.py says something else of {", ".join(wrong) or "all together"}')
    print('each kind of edit is told apart')


if __name__ == '__main__':
    main()
