#!/usr/bin/env python3
"""Tries the wrong bodies of crates/*/wrong: the prover must refuse each, at a goal of the very function that it turns.

usage: bench/try-edits.py [--jobs N] [--anew] [--minutes FILE] [CRATE..]

A contract is all that a caller knows of a function. So an edit of one function's body can make that function's goals fail, and no
other's: edits that turn different functions stand in one copy of their crate, which is checked once, from nothing, for the functions
that they turn. An edit is an *.edit file: a line 'file: src/NAME.rt', then pairs of lines 'old: TEXT' and 'new: TEXT'; each old
text stands once in that file. Lines 'add: TEXT' after a line 'file:' make a new file, for a loop's measure, say. A line 'at: NAME' names
the function at which an edit must be refused that turns no body alone (a clause, a constant, an impl), or as 'struct NAME' the struct; such an edit is tried by
itself. A line that begins with '#' is a note. The lines 'promise: TEXT' and 'clause: TEXT' say what the edit breaks and what refuses it, for
docs/WRONG_BODIES.md (generators/wrong_bodies.py): they are read by nobody here, and what was refused is kept whatever they say.

Each edit has one line, with what it came to:
- refused: a goal of the function fails;
- refused at a limit: a goal of the function isn't proved, but the search for its proof gave up at a limit of its own, which says less;
- SURVIVES: its function is still proved;
- NO GOAL: its function isn't proved, but no goal of its own fails: the borrow checker doesn't cover it, say, or a measure is missing;
- BAD: it can't be applied, or what it makes can't be read or compiled;
- NOT TRIED: the check ended without a verdict.
Only the first two pass. The last line is 'N passed, M failed', and the status is 1 if any failed.

What was refused is kept on this machine beside what `rt ci` keeps, by the checksums of all that it rests on: --anew tries it again.
--jobs: how many checks run at a time; one for each processor, as memory allows. --minutes appends what each crate's edits took.
"""

import argparse
import collections
import hashlib
import json
import os
import re
import shutil
import subprocess
import sys
import tempfile
import time
from concurrent.futures import ThreadPoolExecutor

HERE = os.path.dirname(os.path.realpath(__file__))
sys.path.insert(0, HERE)
from kit import Kept, REFUSED as KEPT_AS, bodies, copy_crates, crates_of, place_library, rt  # noqa: E402

REFUSED, AT_LIMIT, SURVIVES, NO_GOAL, BAD, NOT_TRIED = 'refused', 'refused at a limit', 'SURVIVES', 'NO GOAL', 'BAD', 'NOT TRIED'
PASSES = REFUSED, AT_LIMIT
# The words of the lines that are for readers alone.
SAID = 'promise', 'clause'
# What one check takes of memory, in bytes.
MEMORY = 3_000_000_000
# The check's words for a goal that fails, in the source and in a file of answers.
UNPROVED = re.compile(r'note: (src/\S+?):(\d+):\d+: (?:it is not proved that|the loop|(?=`search` found))(.*)')
ANSWERED = re.compile(r'(?:\./)?proofs/(\S+)/\w+\.antt:\d+:\d+: error: (`[^`]+`): (.*)')
GAVE_UP = re.compile(r'no note says more|gave up at one of its limits|stopped at a limit|stopped at the step limit|ran out of|outgrew')
UNFOUND = re.compile(r'`search` did not prove `[^`]+`')
# An answer that names what the edit took away says nothing of a contract.
LOST_NAME = re.compile(r'has no field|is not in scope|has no `|was not admitted|is no name')
# What a check says of a function or, of an impl that promises Send or Sync, of its struct; and where such a promise is refused.
JUDGED = re.compile(r'(?:fn (\S+)|(struct \S+)): (.*)')
PROMISED = re.compile(r'(src/\S+?):(\d+):\d+: error: (`the_\w+`: .*)')


class Edit:
    """One wrong body: the spans of its crate's files that it changes, and the functions that it turns."""

    def __init__(self, crate, path, source, symbols):
        self.crate, self.path = crate.name, path
        self.name = os.path.basename(path)[: -len('.edit')]
        self.label = f'{crate.name}/{self.name}'
        self.spans, self.added, self.functions = {}, {}, []
        self.verdict, self.said = None, ''
        named = self.read(crate.folder, source)
        self.stands_alone = bool(named)
        if named:
            self.symbols = [it for it in symbols if it.partition('::')[2] in named]
            self.symbols += [f'struct {crate.name}::{it[7:]}' for it in named if it.startswith('struct ')]
        else:
            self.symbols = [it for one in self.functions for it in symbols_of(crate.name, one, symbols)]
        if not self.verdict and not self.symbols:
            self.end(BAD, "it turns no function's body, and no line 'at: NAME' names a function of the crate")

    def read(self, folder, source):
        """Notes what the edit changes, and returns the functions that its lines name."""
        path = old = None
        named = []
        with open(self.path, encoding='utf-8') as file:
            lines = file.read().split('\n')
        for line in lines:
            word, _, text = line.partition(':')
            text = text.removeprefix(' ')
            if word == 'file':
                path, old = text.strip(), None
                if os.path.normpath(path) != path or not path.startswith(('src/', 'specs/', 'proofs/')):
                    self.end(BAD, "a line 'file:' names no file below src/, specs/ or proofs/")
            elif word == 'at':
                named.append(text.strip())
            elif word == 'old':
                old = text
            elif word == 'new' and path and old:
                self.change(folder, source, path, old, text)
                old = None
            elif word == 'add' and path:
                self.added.setdefault(path, []).append(text)
            elif line and word not in SAID and not line.startswith('#'):
                self.end(BAD, f'a line begins with none of the words of an edit: {line[:60]}')
        if any(os.path.exists(f'{folder}/{it}') for it in self.added):
            self.end(BAD, "lines 'add:' make a file that is there")
        if not self.spans:
            self.end(BAD, 'it changes nothing')
        return named

    def change(self, folder, source, path, old, new):
        """Notes one pair: the span of the file that it changes, and the function in whose body that lies."""
        try:
            with open(f'{folder}/{path}', 'rb') as file:
                data = file.read()
        except OSError as error:
            self.end(BAD, f'{path}: {error.strerror}')
            return
        old, new = old.encode(), new.encode()
        if data.count(old) != 1 or old == new:
            self.end(BAD, f'an old text stands in {path} {data.count(old)} times, and not once' if old != new else 'it changes nothing')
            return
        at = data.index(old)
        first, last = differing(old, new)
        start, end = at + first, at + len(old) - last
        self.spans.setdefault(path, []).append((start, end, new[first : len(new) - last]))
        around = [it for it in source.functions if it.file == path and it.has_body and it.opens < start and end < it.end]
        self.functions += [it for it in sorted(around, key=lambda it: it.end - it.opens)[:1] if it not in self.functions]

    def end(self, verdict, said):
        if not self.verdict:
            self.verdict, self.said = verdict, said

    def line(self):
        return f'{self.label}: {self.verdict}{": " if self.said else ""}{self.said}'


def differing(old, new):
    """Returns how many bytes two texts share at their beginnings, and at their ends."""
    most = min(len(old), len(new))
    first = next((it for it in range(most) if old[it] != new[it]), most)
    last = next((it for it in range(most - first) if old[-1 - it] != new[-1 - it]), most - first)
    return first, last


def symbols_of(crate, function, symbols):
    """Returns the names that the check has for a function."""
    start = '::'.join([crate, *function.module, ''])
    inside = [(it, it[len(start) :].split('::')) for it in symbols if it.startswith(start)]
    if function.block is None:
        return [it for it, rest in inside if rest == [function.name]]
    trait = bodies.named(function.block.trait)[0] if function.in_trait else ''
    # (a drop has the name that a method of the type would have)
    if trait and trait != 'Drop':
        own = [(it, rest) for it, rest in inside if rest[1:] == [function.name] and trait in rest[0]]
        return [it for it, rest in own if function.block.fits(rest[0])] or [it for it, _ in own]
    own = [it for it, rest in inside if rest[1:] == [function.name] and rest[0].partition('+')[0] == function.owner]
    # (an impl may stand in another module than its type, by whose module the check names the method)
    return own or [it for it in symbols if it.split('::')[-2:] == [function.owner, function.name]]


def edits_of(crate):
    """Returns the edits of a crate, read."""
    folder = f'{crate.folder}/wrong'
    names = sorted(os.listdir(folder)) if os.path.isdir(folder) else []
    if not names:
        return []
    source = bodies.Source(crate.folder)
    source.read('src/main.rt' if crate.is_program else 'src/lib.rt')
    with open(f'{crate.folder}/out/rlib/{crate.name}.rlib/toolchain/mir.json', encoding='utf-8') as file:
        symbols = [it[0] for it in json.load(file)]
    found = [Edit(crate, f'{folder}/{it}', source, symbols) for it in names if it.endswith('.edit')]
    return found


class Round:
    """Some edits of a crate that turn different functions, in one copy of it."""

    def __init__(self, crate, edits, over):
        self.crate, self.edits, self.over = crate, edits, over
        self.spans = collections.defaultdict(list)
        for edit in edits:
            for path, some in edit.spans.items():
                self.spans[path] += some
        self.seconds = 0.0

    def text_of(self, path):
        with open(f'{self.crate.folder}/{path}', 'rb') as file:
            data = file.read()
        made, at = b'', 0
        for start, end, new in sorted(self.spans[path]):
            made, at = made + data[at:start] + new, end
        return made + data[at:]

    def check(self):
        """Checks the turned functions, and returns what the check printed, and its status."""
        crate = self.crate
        with tempfile.TemporaryDirectory(prefix=f'try-edits-{os.getpid()}-') as room:
            for part in rt.rtlib.PARTS:
                if os.path.isdir(f'{crate.folder}/{part}'):
                    shutil.copytree(f'{crate.folder}/{part}', f'{room}/{part}')
            for path in self.spans:
                with open(f'{room}/{path}', 'wb') as file:
                    file.write(self.text_of(path))
            for path, lines in ((path, lines) for edit in self.edits for path, lines in edit.added.items()):
                os.makedirs(os.path.dirname(f'{room}/{path}'), exist_ok=True)
                with open(f'{room}/{path}', 'w', encoding='utf-8') as file:
                    file.write('\n'.join([*lines, '']))
            # (what a struct's impls promise is no part of a function: then all is checked)
            every = [it for edit in self.edits for it in edit.symbols]
            only = [word for it in every for word in ('--only', it.partition('::')[2])] * all(' ' not in it for it in every)
            words = [rt.rtlib.RATTLE, 'check', *crate.words(['--jobs', '1'], keeps=False), '--incremental', self.over, *only]
            with open(f'{room}/said', 'wb') as said:
                running = subprocess.Popen(words, cwd=room, stdin=subprocess.DEVNULL, stdout=said, stderr=subprocess.STDOUT)
                _, status, took = os.wait4(running.pid, 0)
            self.seconds += took.ru_utime + took.ru_stime
            with open(f'{room}/said', encoding='utf-8', errors='replace') as said:
                return said.read(), os.waitstatus_to_exitcode(status)

    def lines_of(self, function):
        """Returns the first and the last line of a function in the copy."""
        text, spans = self.text_of(function.file), self.spans[function.file]

        def row(at):
            moved = at + sum(len(new) - (end - start) for start, end, new in spans if end <= at)
            return text.count(b'\n', 0, moved) + 1

        return row(function.first), row(function.end)

    def judge(self, said, status):
        """Gives each edit that the check says something of its verdict."""
        lines = said.split('\n')
        states = {it[1] or it[2]: it[3] for it in map(JUDGED.fullmatch, lines) if it}
        unproved = [it for it in map(UNPROVED.match, lines) if it]
        answered = [it for it in map(ANSWERED.match, lines) if it]
        promised = [it for it in map(PROMISED.match, lines) if it]
        for edit in self.edits:
            own = [(f'{it[1]}:{it[2]}', it[3]) for it in unproved for one in edit.functions if self.is_inside(it, one)]
            folders = ['/'.join(it.split('::')[1:]) for it in edit.symbols]
            own += [(f'proofs/{it[1]}', f'{it[2]}: {it[3]}') for it in answered if it[1] in folders]
            if edit.stands_alone:
                own += [(f'{it[1]}:{it[2]}', it[3]) for it in [*unproved, *promised]]
            failed = [it for it in edit.symbols if not states.get(it, 'proved').startswith('proved')]
            own = [it for it in own if not LOST_NAME.search(it[1])]
            if failed and not own:
                # (a goal that no note tells more of)
                own = [(it, f'{found[0]}; no note says more') for it in failed for found in UNFOUND.finditer(states[it])]
            if failed and not own and len(self.edits) > 1:
                # (what it calls may be turned in this round: it is tried by itself)
                continue
            sharp = [it for it in own if not GAVE_UP.search(it[1])]
            if failed and sharp:
                edit.end(REFUSED, f'{sharp[0][0]}: {sharp[0][1].strip()}'[:200])
            elif failed and own:
                edit.end(AT_LIMIT, f'{own[0][0]}: {own[0][1].strip()}'[:200])
            elif failed:
                edit.end(NO_GOAL, states[failed[0]].strip()[:300])
            elif status in (0, 1) and all(it in states for it in edit.symbols):
                edit.end(SURVIVES, 'its function is proved')

    def is_inside(self, found, function):
        if found[1] != function.file:
            return False
        first, last = self.lines_of(function)
        return first <= int(found[2]) <= last

    def run(self):
        """Tries the edits together, and by halves where one of them doesn't compile."""
        said, status = self.check()
        if status == -9:
            said, status = self.check()
        if re.search(r'(?m)^(only|logic)=', said):
            self.judge(said, status)
            return
        if len(self.edits) > 1:
            half = len(self.edits) // 2
            for some in (self.edits[:half], self.edits[half:]):
                part = Round(self.crate, some, self.over)
                part.run()
                self.seconds += part.seconds
            return
        verdict = BAD if status == 1 else NOT_TRIED
        first = next((it for it in said.split('\n') if 'error' in it), said.strip().split('\n')[-1])
        self.edits[0].end(verdict, first[:300])


def rounds_of(edits):
    """Divides edits into rounds of such as turn different functions; what stands alone has a round of its own."""
    alone = [[it] for it in edits if it.stands_alone]
    left = [it for it in edits if not it.stands_alone]
    rounds = []
    while left:
        taken, now, later = set(), [], []
        for edit in left:
            if taken & {*edit.symbols}:
                later.append(edit)
            else:
                now.append(edit)
                taken |= {*edit.symbols}
        rounds.append(now)
        left = later
    return rounds + alone


def try_crate(crate, edits, kept, keys):
    """Tries the edits of a crate, and returns the seconds of a processor that it took."""
    left = []
    for edit in edits:
        if edit.verdict:
            continue
        told = kept.tried(name_of(edit, keys))
        if told:
            edit.end(*told[1].split('\n'))
        else:
            left.append(edit)
    seconds = 0.0
    with tempfile.TemporaryDirectory(prefix=f'try-edits-over-{os.getpid()}-') as over:
        for number in range(2):
            # (a function that a first round's other edits kept from its verdict is tried once more, by itself)
            groups = rounds_of(left) if not number else [[it] for it in left]
            for some in groups:
                one = Round(crate, some, over)
                one.run()
                seconds += one.seconds
            left = [it for it in left if not it.verdict]
    for edit in left:
        edit.end(NOT_TRIED, 'the check says nothing of its function')
    for edit in edits:
        if edit.verdict in PASSES:
            kept.keep_tried(name_of(edit, keys), KEPT_AS, f'{edit.verdict}\n{edit.said}')
    refused = sum(it.verdict in PASSES for it in edits)
    lines = [it.line() for it in edits]
    print('\n'.join([*lines, f'{crate.name}: {refused} of {len(edits)} refused, {seconds:.0f} seconds of a processor']), flush=True)
    return seconds


def name_of(edit, keys):
    """Returns the name under which it is kept that an edit was refused."""
    with open(__file__, 'rb') as own, open(edit.path, 'rb') as text:
        lines = [it for it in text.read().split(b'\n') if it.partition(b':')[0].decode() not in SAID]
        read = (own.read(), keys[edit.crate], edit.name, lines)
    return hashlib.sha256(repr(read).encode()).hexdigest()


def jobs_for_machine():
    return max(1, min(rt.processors(), int(rt.free() * 0.85 // MEMORY)))


def arguments():
    parser = argparse.ArgumentParser(usage=__doc__)
    parser.add_argument('--jobs', type=int)
    parser.add_argument('--anew', action='store_true')
    parser.add_argument('--minutes')
    parser.add_argument('crates', nargs='*')
    return parser.parse_args()


def main():
    given, began = arguments(), time.monotonic()
    top, minutes = os.getcwd(), given.minutes and os.path.abspath(given.minutes)
    jobs = given.jobs or jobs_for_machine()
    with tempfile.TemporaryDirectory(prefix=f'try-edits-copy-{os.getpid()}-') as room:
        # (a copy, so that nothing in the checkout is touched, or touches it)
        copy_crates(top, f'{room}/copy')
        os.mkdir(f'{room}/copy/.git')
        crates = crates_of(f'{room}/copy')
        kept = Kept([*crates.values()], given.anew)
        lacking = [it for it in given.crates if it not in crates]
        if lacking:
            sys.exit(f'no crate is named {lacking[0]}')
        wanted = [it for it in crates.values() if os.path.isdir(f'{it.folder}/wrong') and (not given.crates or it.name in given.crates)]
        below = {it.name for one in wanted for it in [one, *one.below()]}
        kept.anew = False
        keys = {name: place_library(crate, kept, jobs) for name, crate in crates.items() if name in below and not crate.is_program}
        kept.anew = given.anew
        tried = {it.name: edits_of(it) for it in wanted}
        much = lambda it: -it.count(rb'\n') * len(rounds_of(tried[it.name]))
        with ThreadPoolExecutor(jobs) as pool:
            running = [(it, pool.submit(try_crate, it, tried[it.name], kept, keys)) for it in sorted(wanted, key=much)]
            seconds = {it.name: one.result() for it, one in running}
        os.chdir(top)
    if minutes:
        with open(minutes, 'a', encoding='utf-8') as file:
            file.writelines(f'{name}\tedits\t{took:.0f}\n' for name, took in seconds.items())
    every = [it for some in tried.values() for it in some]
    failed = [it for it in every if it.verdict not in PASSES]
    limited = sum(it.verdict == AT_LIMIT for it in every)
    for edit in failed:
        print(edit.line())
    took = f'{sum(seconds.values()) / 60:.0f} minutes of a processor, {(time.monotonic() - began) / 60:.0f} in all'
    print(f'edits: {len(every)} tried, {len(every) - len(failed)} refused at a goal of their own, {limited} of these at a limit; {took}')
    print(f'{len(every) - len(failed)} passed, {len(failed)} failed')
    sys.exit(1 if failed else 0)


if __name__ == '__main__':
    main()
