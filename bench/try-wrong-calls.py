#!/usr/bin/env python3
"""Looks that the tests of whole calls find wrong bodies: each of tests/*/wrong/*.edit changes the crates in the copy in which a test is run, and
the test of its first line has to fail there.

usage: bench/try-wrong-calls.py [NAME..]

An edit is as run-tests.py takes it, after those of its test. Each takes a build and a walk, some two minutes of a processor. The status is 1 if a
test passed.
"""

import glob
import os
import re
import sys
import tempfile

sys.path.insert(0, os.path.dirname(os.path.realpath(__file__)))
import kit  # noqa: E402

tests = kit.load('run_tests', f'{os.path.dirname(os.path.realpath(__file__))}/run-tests.py')
WANTED = re.compile(r'# test: (\w+)')


def is_found(top, path):
    """Whether its test fails with this edit, and passes through another."""
    name = path.split('/')[-3]
    wanted = WANTED.match(tests.text_of(path))[1]
    with tempfile.TemporaryDirectory(prefix='try-wrong-calls-') as room:
        layout = tests.Layout(top, f'{room}/copy', [name], True)
        tests.change(layout.folder, path)
        folder = f'{layout.folder}/crates/{tests.group_of(top, name)}'
        words = [*tests.TRY, '--fast', '--test', '--seconds', str(tests.SECONDS)]
        _, out, errors, _ = tests.call(words, folder)
    said = (out + errors).decode(errors='replace')
    found = {test.split('::')[-1]: what for test, what in tests.RAN.findall(said)}
    if not found:
        print(said[-3000:])
    return wanted, found.get(wanted) == 'FAILED', [it for it, what in found.items() if what == 'FAILED']


def main():
    top, passed = os.getcwd(), 0
    paths = [it for it in sorted(glob.glob(f'{top}/tests/*/wrong/*.edit')) if not sys.argv[1:] or os.path.basename(it)[:-5] in sys.argv[1:]]
    for path in paths:
        wanted, found, failed = is_found(top, path)
        passed += not found
        print(f'{os.path.basename(path)[:-5]}: {"found by" if found else "NOT FOUND BY"} {wanted} ({len(failed)} tests failed)', flush=True)
    print(f'{len(paths) - passed} of {len(paths)} wrong bodies were found')
    sys.exit(1 if passed or not paths else 0)


if __name__ == '__main__':
    main()
