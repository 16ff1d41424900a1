#!/usr/bin/env python3
"""Builds and runs every test and every program, and proves nothing.

usage: bench/run-tests.py [--jobs N] [--minutes FILE] [--into FOLDER] [NAME..]

The tests stand in tests/NAME as *.rattle files, and as texts (bench/rows.py): what the toolchain proves is each .rt file of
crates/, and of a test the run is what tells. tests/tests.txt says what each stands on, as crates.txt does. They are laid out as modules of a few crates in a copy of the
repository, since to build a crate costs more than to run its tests, and `rt try --test` builds and runs these with checks of each
address. A folder of tests/ with a main.rattle is a program. It is run as the programs of crates/ are: on its files stdin and args, and
what it prints is compared with its file stdout, and its status with its file status. Or it has a folder cases, and is run on each file NAME there
with the arguments in NAME.args; it has to end with status 0, and prints what NAME.stdout has, if that is there. What all cases printed is then
handed to its file check, if that is there, which has to end with status 0 and counts as one more.

A test whose folder has *.edit files is built in a copy of its own, whose crates these change: a line 'file: PATH', and then pairs 'old: TEXT' and
'new: TEXT' for it, in which \\n is the end of a line. TEXT has to stand in the file once, or wherever, in a PATH with a star. A line
'with: PATH' stands for the changes of another file.

Each test has a line, and each is counted, as each program is. The last line is 'N passed, M failed', and the status is 1 if
any failed.

NAME..: these alone. --jobs: how many are built at a time; one for each processor, as memory allows. --into lays the copy out in this
folder, and leaves it there for `rt try --test` or `rt check` by hand. --minutes appends what each took of a processor.
"""

import argparse
import glob
import os
import re
import shutil
import subprocess
import sys
import tempfile
import time
from concurrent.futures import ThreadPoolExecutor

HERE = os.path.dirname(os.path.realpath(__file__))
sys.path.insert(0, HERE)
from rows import module_of  # noqa: E402

# What a build takes of memory, in bytes, and for how long what was built may run, in seconds.
MEMORY = 4_500_000_000
SECONDS = 900
# The walks do so much that they are built without checks of each address, and optimised.
FAST = {'walks', 'whole_calls'}
# `rt try`, by itself.
TRY = [sys.executable, f'{HERE}/kit.py']
RAN = re.compile(r'test (\S+) \.\.\. (\w+)')
TEST = re.compile(r'(?m)^\s*#\[test\]')


def text_of(path):
    with open(path, encoding='utf-8') as file:
        return file.read()


def listed(path):
    """Returns what each name of such a file stands on."""
    lines = [line.partition('#')[0] for line in text_of(path).split('\n')]
    return {line.split(':')[0].split()[0]: line.split(':')[1].split() for line in lines if ':' in line}


def sources(top, folder):
    """Yields the modules of a folder of tests, each by its path there, with its text."""
    for at, _, names in os.walk(folder):
        yield from filter(None, (module_of(top, folder, f'{at}/{name}') for name in sorted(names)))


def write(path, text):
    os.makedirs(os.path.dirname(path), exist_ok=True)
    with open(path, 'w', encoding='utf-8') as file:
        file.write(text)


def edits(top, name):
    """Returns the files of a test that change its copy of the crates."""
    return sorted(glob.glob(f'{top}/tests/{name}/*.edit'))


def change(folder, path, made=()):
    """Makes the changes of such a file in a copy of the repository, and before them those of each file that it names. What was made, isn't again."""
    made = [*made, os.path.realpath(path)]
    files, old = [], ''
    for line in text_of(path).split('\n'):
        key, _, text = line.partition(': ')
        text = text.replace('\\n', '\n')
        other = f'{os.path.dirname(path)}/{text}'
        if key == 'with' and os.path.realpath(other) not in made:
            made = change(folder, other, made)
        elif key == 'file':
            star, files = '*' in text, glob.glob(f'{folder}/{text}')
        elif key == 'old':
            old, found = text, [it for it in files if text in text_of(it)]
            if not found or not star and text_of(found[0]).count(text) != 1:
                sys.exit(f'{path}: a text has to stand there once: {line}')
        elif key == 'new':
            for it in found:
                write(it, text_of(it).replace(old, text))
    return made


def group_of(top, name):
    if edits(top, name):
        return 'whole_calls'
    return 'walks' if name.startswith('test_lockstep') else 'stories'


class Layout:
    """A copy of the repository in which the tests are crates: those that change its crates, or all others."""

    def __init__(self, top, folder, wanted, is_edited):
        self.top, self.folder, self.wanted, self.is_edited = top, folder, wanted, is_edited
        self.needs, self.crates = listed(f'{top}/tests/tests.txt'), listed(f'{top}/crates.txt')
        self.programs, self.groups = [], {}
        shutil.copytree(f'{top}/crates', f'{folder}/crates', ignore=shutil.ignore_patterns('out', 'wrong'))
        shutil.copy(f'{top}/HANDLES', folder)
        lines = [text_of(f'{top}/crates.txt')]
        self.divide()
        for name in self.programs:
            if name in self.needs:
                lines.append(f'{name}: {" ".join(self.lay_program(name))}\n')
        for group, names in self.groups.items():
            lines.append(f'{group}: {" ".join(self.lay_group(group, names))}\n')
        write(f'{folder}/crates.txt', ''.join(lines))
        made = []
        for path in [it for name in self.groups_and_programs() if is_edited for it in edits(top, name)]:
            if os.path.realpath(path) not in made:
                made = change(folder, path, made)

    def groups_and_programs(self):
        return [*(it for names in self.groups.values() for it in names), *self.programs]

    def divide(self):
        """Sorts what is wanted into programs and groups of tests. What tests share comes with each of them."""
        is_wanted = lambda name: (not self.wanted or name in self.wanted) and bool(edits(self.top, name)) == self.is_edited
        tests = f'{self.top}/tests'
        own = [name for name in self.needs if os.path.isfile(f'{tests}/{name}/main.rattle')]
        kept = [name for name in self.crates if os.path.isfile(f'{self.top}/crates/{name}/src/main.rt')]
        self.programs = [name for name in [*kept, *own] if is_wanted(name)]
        for name in self.needs:
            if name in own or not is_wanted(name):
                continue
            if not any(TEST.search(text) for _, text in sources(self.top, f'{tests}/{name}')):
                continue
            shared = [it for it in self.needs[name] if it in self.needs]
            some = self.groups.setdefault(group_of(self.top, name), [])
            some += [it for it in [*shared, name] if it not in some]

    def lay_program(self, name):
        """Lays a program of tests/ out as a crate, with what it shares with tests as its modules, and returns what it stands on."""
        own, crate = f'{self.top}/tests/{name}', f'{self.folder}/crates/{name}'
        shared = [it for it in self.needs[name] if it in self.needs]
        for path, text in sources(self.top, own):
            text = self.among(shared, text)
            if path == 'main' and shared:
                mark = '#![tactic(auto)]\n'
                text = text.replace(mark, mark + '\n' + ''.join(f'mod {it};\n' for it in shared), 1)
            write(f'{crate}/src/{path}.rt', text)
        self.lay_modules(crate, shared, shared)
        for part in ('stdin', 'stdout', 'args', 'status', 'check'):
            if os.path.isfile(f'{own}/{part}'):
                shutil.copy(f'{own}/{part}', crate)
        if os.path.isdir(f'{own}/cases'):
            shutil.copytree(f'{own}/cases', f'{crate}/cases')
        return self.crates_below([name, *shared])

    def lay_group(self, group, names):
        """Lays tests out as the modules of one crate, and returns what it stands on."""
        crate = f'{self.folder}/crates/{group}'
        self.lay_modules(crate, names, [*self.needs])
        root = '//! Tests of several crates.\n#![tactic(auto)]\n'
        root += ''.join(f'\n#[cfg(test)]\nmod {name};\n' for name in names)
        write(f'{crate}/src/lib.rt', root)
        return self.crates_below(names)

    def lay_modules(self, crate, names, shared):
        for name in names:
            own = f'{self.top}/tests/{name}'
            for path, text in sources(self.top, own):
                text = re.sub(r'\bcrate::', f'crate::{name}::', text)
                text = re.sub(r'(?m)^#!\[tactic\(.*\)\]\n', '', self.among(shared, text))
                write(f'{crate}/src/{name if path == "lib" else f"{name}/{path}"}.rt', text)

    def among(self, shared, text):
        """Returns a text with these names of tests as modules of its crate."""
        return re.sub(rf'(?<![\w:])({"|".join(shared)})::', r'crate::\1::', text) if shared else text

    def crates_below(self, names):
        return [*dict.fromkeys(it for name in names for it in self.needs[name] if it not in self.needs)]

    def count(self, group):
        """Returns how many tests a group has by its text."""
        return sum(len(TEST.findall(text_of(f'{at}/{it}'))) for at, _, files in os.walk(f'{self.folder}/crates/{group}/src') for it in files)


def call(words, folder, given=b''):
    """Runs a command, and returns its status, what it wrote, and the seconds of a processor that it took."""
    with tempfile.TemporaryFile() as entry, tempfile.TemporaryFile() as out, tempfile.TemporaryFile() as errors:
        entry.write(given)
        entry.seek(0)
        running = subprocess.Popen(words, cwd=folder, stdin=entry, stdout=out, stderr=errors)
        _, status, took = os.wait4(running.pid, 0)
        out.seek(0)
        errors.seek(0)
        return os.waitstatus_to_exitcode(status), out.read(), errors.read(), took.ru_utime + took.ru_stime


def run_group(layout, group):
    """Runs the tests of a group, and returns how many passed, what failed, and the seconds."""
    fast = ['--fast'] if group in FAST else []
    status, out, errors, seconds = call([*TRY, *fast, '--test', '--seconds', str(SECONDS)], f'{layout.folder}/crates/{group}')
    said = (out + errors).decode(errors='replace')
    found = RAN.findall(said)
    failed = [f'test {name}: {what}' for name, what in found if what != 'ok']
    wanted = layout.count(group)
    if status or len(found) != wanted or failed:
        failed += [f'{group}: {len(found)} of {wanted} tests were run, and the status is {status}'] * (not failed)
        print(said[-6000:])
    print('\n'.join(f'test {name} ... {what}' for name, what in found), flush=True)
    return len(found) - len([it for it in failed if it.startswith('test ')]), failed, seconds


def run_program(layout, name):
    """Runs a program, and returns how many passed, what failed, and the seconds."""
    folder = f'{layout.folder}/crates/{name}'

    def part(it, otherwise):
        if not os.path.isfile(f'{folder}/{it}'):
            return otherwise
        with open(f'{folder}/{it}', 'rb') as file:
            return file.read()

    if os.path.isdir(f'{folder}/cases'):
        return run_cases(folder, name)
    words = part('args', b'').decode().split('\n')
    words = words[:-1] if words[-1:] == [''] else words
    status, out, errors, seconds = call([*TRY, '--seconds', str(SECONDS), '--', *words], folder, part('stdin', b''))
    failed = []
    if status != int(part('status', b'0')):
        failed.append(f'program {name}: it ended with status {status}')
    elif out != part('stdout', b''):
        failed.append(f'program {name}: what it printed is not what its file stdout has')
    if failed:
        print((out + errors).decode(errors='replace')[-3000:])
    return 1 - len(failed), failed, seconds


def run_cases(folder, name):
    """Runs a program once for each of its cases, as `rt try --cases` does, and returns how many passed, what failed, and the seconds."""
    cases = sorted(it for it in os.listdir(f'{folder}/cases') if '.' not in it)
    status, out, errors, seconds = call([*TRY, '--seconds', str(SECONDS), '--cases', 'cases'], folder)
    said = (out + errors).decode(errors='replace')
    failed = [f'program {name}: its case {it} ended otherwise' for it in cases if not re.search(rf'(?m)^case={it} run=ended status=0\b', said)]
    failed += [f'program {name}: a case printed something else'] * (status != 0 and not failed)
    print(said[-3000:], flush=True)
    passed = len(cases) - len(failed)
    if os.path.isfile(f'{folder}/check'):
        checked = subprocess.run([f'{folder}/check'], input=out, stdout=subprocess.PIPE, stderr=subprocess.STDOUT, check=False)
        print(checked.stdout.decode(errors='replace'), flush=True)
        failed += [f'program {name}: its check of what it printed failed'] * (checked.returncode != 0)
        passed += checked.returncode == 0
    return passed, failed, seconds


def free():
    found = re.search(r'MemAvailable:\s+(\d+)', text_of('/proc/meminfo'))
    return int(found[1]) * 1024


def main():
    parser = argparse.ArgumentParser(usage=__doc__)
    parser.add_argument('--jobs', type=int)
    parser.add_argument('--minutes')
    parser.add_argument('--into')
    parser.add_argument('names', nargs='*')
    given, began = parser.parse_args(), time.monotonic()
    jobs = given.jobs or max(1, min(len(os.sched_getaffinity(0)), int(free() * 0.85 // MEMORY)))
    with tempfile.TemporaryDirectory(prefix='run-tests-') as room:
        folder = given.into or f'{room}/copy'
        layouts = [Layout(os.getcwd(), folder, given.names, False), Layout(os.getcwd(), f'{folder}/edited', given.names, True)]
        if given.into:
            return
        with ThreadPoolExecutor(jobs) as pool:
            running = [(it, pool.submit(run_group, layout, it)) for layout in layouts for it in layout.groups]
            running += [(it, pool.submit(run_program, layout, it)) for layout in layouts for it in layout.programs]
            results = [(it, *one.result()) for it, one in running]
    if given.minutes:
        with open(given.minutes, 'a', encoding='utf-8') as file:
            file.writelines(f'{name}\ttests\t{seconds:.0f}\n' for name, _, _, seconds in results)
    failed = [it for _, _, some, _ in results for it in some]
    print('\n'.join(failed + [f'{name}: {passed} passed' for name, passed, _, _ in results]))
    passed, took = sum(it[1] for it in results), sum(it[3] for it in results) / 60
    print(f'tests and programs were run, and nothing was proved: {took:.0f} minutes of a processor, {(time.monotonic() - began) / 60:.0f} in all')
    print(f'{passed} passed, {len(failed)} failed')
    sys.exit(1 if failed else 0)


if __name__ == '__main__':
    main()
