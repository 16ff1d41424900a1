"""The toolchain's own command `rt` as a module, for the programs of this folder that call the prover as `rt ci` does.

As a program: `bench/kit.py --ci [NAME..]` does what `rt ci` does, or for the crates of these names and what is below them, and keeps what it
proves, for a toolchain whose `rt ci` takes no name and keeps nothing. Else it does what `rt try` does.
"""

import importlib.machinery
import importlib.util
import os
import shutil
import subprocess
import sys
import tempfile
import time

sys.dont_write_bytecode = True


def load(name, path):
    loader = importlib.machinery.SourceFileLoader(name, path)
    made = importlib.util.module_from_spec(importlib.util.spec_from_loader(name, loader))
    sys.modules[name] = made
    loader.exec_module(made)
    return made


COMMAND = os.path.realpath(shutil.which('rt') or sys.exit('rt is not on the PATH'))
FOLDER = os.path.dirname(os.path.dirname(COMMAND))
rt = load('rt_command', COMMAND)
# For how long what isn't used is kept.
DAYS = 7
bodies = load('rt_bodies', f'{FOLDER}/bin/rt-plant-bodies')


class KeptHere:
    """What earlier runs on this machine passed, by the checksums of all that it rests on: for a toolchain whose `rt` keeps nothing itself."""

    def __init__(self, crates, anew):
        self.anew = anew
        self.room = f'{os.environ.get("XDG_CACHE_HOME") or os.path.expanduser("~/.cache")}/kept-proofs'
        os.makedirs(self.room, exist_ok=True)
        for name in os.listdir(self.room):
            if time.time() - os.stat(f'{self.room}/{name}').st_mtime > DAYS * 86400:
                self.drop(f'{self.room}/{name}')

    def drop(self, path):
        shutil.rmtree(path) if os.path.isdir(path) else os.remove(path)

    def key(self, crate):
        return f'{crate.name}-{crate.stamp()}'

    def give(self, crate, _, key):
        """Lays the built library of a crate in its folder, if it is kept, and returns whether it is."""
        if self.anew or not os.path.isdir(f'{self.room}/{key}'):
            return False
        os.utime(f'{self.room}/{key}')
        shutil.copytree(f'{self.room}/{key}', f'{crate.folder}/out/rlib', copy_function=link, dirs_exist_ok=True)
        return True

    def keep(self, crate, _, key):
        if os.path.isdir(f'{self.room}/{key}') or not os.path.isdir(crate.rlib):
            return
        with tempfile.TemporaryDirectory(prefix='part-', dir=self.room) as part:
            shutil.copytree(f'{crate.folder}/out/rlib', f'{part}/rlib', copy_function=link)
            os.rename(f'{part}/rlib', f'{self.room}/{key}')

    def is_built(self, crate):
        return os.path.isdir(crate.rlib)

    def tried(self, name):
        """Returns a verdict that was kept under this name, with what was said, or nothing."""
        if self.anew or not os.path.isfile(f'{self.room}/{name}'):
            return None
        os.utime(f'{self.room}/{name}')
        with open(f'{self.room}/{name}', encoding='utf-8') as file:
            verdict, _, said = file.read().partition('\n')
        return verdict, said

    def keep_tried(self, name, verdict, said):
        with tempfile.NamedTemporaryFile('w', encoding='utf-8', dir=self.room, delete=False) as file:
            file.write(f'{verdict}\n{said}')
        os.rename(file.name, f'{self.room}/{name}')


def link(file, to):
    """Gives a file a second name, or copies it where that can't be."""
    try:
        os.link(file, to)
    except OSError:
        shutil.copy(file, to)


def copy_crates(root, to):
    """Copies what `rt ci` reads of the repository."""
    shutil.copytree(f'{root}/crates', f'{to}/crates', ignore=shutil.ignore_patterns('out'))
    for name in ('crates.txt', 'HANDLES'):
        shutil.copy(f'{root}/{name}', to)


def crates_of(root):
    """Returns the crates of the repository at root by name, lowest first, as `rt ci` reads them. The work goes on in that folder."""
    os.chdir(root)
    rt.Crate.cuts_libraries = True
    rt.Crate.allowed = rt.handles_of(root)
    for name in (rt.rtlib.ALLOW_C, rt.rtlib.BACKEND, 'RT_SECONDS'):
        os.environ.pop(name, None)
    rt.rtlib.guarded()
    rt.rtlib.Crate = rt.Crate
    return {crate.name: crate for crate in sorted(rt.rtlib.crates_below(root), key=lambda it: len(it.below()))}


def place_library(crate, kept, jobs):
    """Lays the built library of a crate in its folder: the one that an earlier run on this machine proved, or a new one. Those below it are in place."""
    os.makedirs(f'{crate.folder}/out', exist_ok=True)
    key = kept.key(crate)
    if not kept.give(crate, False, key):
        if crate.ci(['--jobs', str(jobs)], False):
            sys.exit(f'{crate.name} is not proved')
        kept.is_built(crate)
        kept.keep(crate, False, key)
    kept.is_built(crate)
    return key


def proves(crate, kept, given, jobs):
    """Proves a crate whose libraries are in place, if no earlier run did, and runs it if it is a program. Returns whether all is well."""
    if not all(given[it.name, 'proof'] for it in crate.below()):
        return False
    key = kept.key(crate)
    if not crate.is_program and kept.give(crate, False, key):
        return True
    os.makedirs(f'{crate.folder}/out', exist_ok=True)
    with tempfile.TemporaryFile('w+', errors='replace') as crate.out:
        status = crate.ci(['--jobs', str(jobs)], False)
        crate.out.seek(0)
        print(f'{crate.out.read()}{crate.name}: {"not " * bool(status)}proved', flush=True)
    if not status and not crate.is_program:
        kept.keep(crate, False, key)
    ends = [it for it in rt.BACKENDS.values() if os.path.isfile(f'{crate.folder}/out/{crate.name}{it}')] * crate.is_program
    return not status and all(rt.run(crate, False, it) for it in ends)


def ci(names, anew):
    """Does what `rt ci NAME..` does, or `rt ci` if there is no name, and keeps what it proves."""
    with tempfile.TemporaryDirectory(prefix='kit-ci-') as room:
        copy_crates(os.getcwd(), room)
        os.mkdir(f'{room}/.git')
        if not names:
            status = subprocess.run(['rt', 'ci'], cwd=room, check=False).returncode
            crates = crates_of(room)
            kept = KeptHere(crates, anew)
            for crate in crates.values():
                kept.keep(crate, False, kept.key(crate))
            return status
        crates = crates_of(room)
        kept = KeptHere(crates, anew)
        wanted = {it.name: it for name in names for it in [*crates[name].below(), crates[name]]}
        tasks = {}
        for crate in sorted(wanted.values(), key=lambda it: len(it.below())):
            waits = [(it.name, 'proof') for it in crate.below()]
            tasks[crate.name, 'proof'] = waits, crate.count(rb'\n'), rt.need(crate), lambda given, jobs, it=crate: proves(it, kept, given, jobs)
        given = rt.in_lanes(tasks)
    failed = [name for name in names if not given[name, 'proof']]
    print(f'{len(names) - len(failed)} passed, {len(failed)} failed')
    return 1 if failed else 0


# A toolchain's own `rt ci NAME..` and what it keeps, or these.
KEEPS = hasattr(rt, 'Kept')
Kept = rt.Kept if KEEPS else KeptHere
REFUSED = rt.REFUSED if KEEPS else 'refused'
CI = ['rt', 'ci'] if KEEPS else [sys.executable, os.path.realpath(__file__), '--ci']


def try_alone(words):
    """Does what `rt try` does, without the check that it starts beside the program, which gives a hint alone."""
    rt.rtlib.RATTLE = 'true'
    return rt.main(['try', *words])


def try_fast(words):
    """Does the same without checks of each address, and optimised: what runs for long then takes a tenth of the time.

    `rt try` knows no other way to build. So its compiler is reached through a folder of links, by a script that changes these two words.
    """
    with tempfile.TemporaryDirectory(prefix='kit-') as room:
        linked(FOLDER, room, 'toolchain')
        linked(f'{FOLDER}/toolchain', f'{room}/toolchain', 'bin')
        linked(f'{FOLDER}/toolchain/bin', f'{room}/toolchain/bin', *FAST)
        for name, text in FAST.items():
            with open(f'{room}/toolchain/bin/{name}', 'w', encoding='utf-8') as file:
                file.write(text.format(FOLDER))
            os.chmod(f'{room}/toolchain/bin/{name}', 0o755)
        rt.rtlib.KIT = room
        return try_alone(words)


# The compiler and the linker, with these words in place of their own: what checks addresses also hands out blocks of memory, slowly.
FAST = {
    'clang': """#!/bin/bash
for word; do
    case $word in
    -O0) words+=(-O2) ;;
    -fsanitize=address) ;;
    *) words+=("$word") ;;
    esac
done
exec {0}/toolchain/bin/clang "${{words[@]}}"
""",
    'ld.lld': """#!/bin/bash
for word; do
    case $word in
    --whole-archive) skips=1 ;;
    --no-whole-archive) skips= ;;
    *) [ "$skips" ] || words+=("$word") ;;
    esac
done
exec {0}/toolchain/bin/ld.lld "${{words[@]}}"
""",
}


def linked(folder, to, *apart):
    """Makes a folder with a link to each thing in another one, but for these."""
    os.makedirs(to, exist_ok=True)
    for name in os.listdir(folder):
        if name not in apart:
            os.symlink(f'{folder}/{name}', f'{to}/{name}')


def main(words):
    if words[:1] == ['--ci']:
        return ci([it for it in words[1:] if it != '--anew'], '--anew' in words)
    return try_fast(words[1:]) if words[:1] == ['--fast'] else try_alone(words)


if __name__ == '__main__':
    sys.exit(main(sys.argv[1:]))
