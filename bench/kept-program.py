#!/usr/bin/env python3
"""Builds the program of a crate as `rt try` does, with checks of each address, and keeps it: `rt try` builds it for one run, and then again.

usage: bench/kept-program.py PATH N

Run it in the crate's folder. PATH is then a command whose Nth allocation is refused, however often it is run, and PATH.program what it runs.
"""

import os
import sys
import tempfile

sys.path.insert(0, os.path.dirname(os.path.realpath(__file__)))
import kit  # noqa: E402

# The linker, which leaves a copy of the program that it makes.
LINKER = """#!/bin/bash
"{kit}/toolchain/bin/{linker}" "$@" || exit
for word; do
    [ "$last" = -o ] && cp "$word" "{path}.program"
    last=$word
done
exit 0
"""
RUN = """#!/bin/sh
exec "{kit}/toolchain/lib/ld-linux-x86-64.so.2" --inhibit-cache --library-path "{kit}/toolchain/lib" "{path}.program" "$@"
"""


def write(path, text):
    with open(path, 'w', encoding='utf-8') as file:
        file.write(text)
    os.chmod(path, 0o755)


def main():
    path, number = os.path.realpath(sys.argv[1]), sys.argv[2]
    with tempfile.TemporaryDirectory(prefix='kit-') as room:
        kit.linked(kit.FOLDER, room, 'toolchain')
        kit.linked(f'{kit.FOLDER}/toolchain', f'{room}/toolchain', 'bin')
        kit.linked(f'{kit.FOLDER}/toolchain/bin', f'{room}/toolchain/bin', 'ld.lld')
        write(f'{room}/toolchain/bin/ld.lld', LINKER.format(kit=kit.FOLDER, linker='ld.lld', path=path))
        kit.rt.rtlib.KIT = room
        kit.try_alone(['--steps', '1', '--fail-alloc', number])
    if not os.path.isfile(f'{path}.program'):
        sys.exit('no program was made')
    write(path, RUN.format(kit=kit.FOLDER, path=path))


if __name__ == '__main__':
    main()
