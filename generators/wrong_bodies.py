#!/usr/bin/env python3
"""Writes docs/WRONG_BODIES.md: each wrong body of crates/*/wrong, with the promise that it breaks and the clause that refuses it.

Both stand in the edit's own lines 'promise: ..' and 'clause: ..'. An edit without one of them is an error, and so is a crate with edits that
no part below names. Run it at the top of the repository: generators/wrong_bodies.py
"""

import glob
import os
import sys

PAGE = 'docs/WRONG_BODIES.md'
# The parts of the page, each with its crates in the order in which they are shown.
PARTS = {
    'What all locks share': 'lock_program sync_program lock_event world_base lock_place async_driver lock_queue',
    'The mutex': 'world_mutex words_mutex mutex_core async_mutex',
    'The read-write lock': 'world_rwlock words_access access_core access_vault rwlock_core async_rwlock',
    'The semaphore': 'weighted_event world_semaphore words_permits semaphore_core async_semaphore',
    'The once-cell': 'world_once_cell words_cell cell_core async_once_cell',
    'The barrier': 'world_barrier words_barrier barrier_core async_barrier',
    'The pool': 'world_pool bounded_pool',
    'Books, and the program `lockrun`': 'lock_audit lockrun_script lockrun_play lockrun_runner lockrun',
    'What users prove': 'async_lock user_proofs',
}
HEAD = """# Wrong bodies

Each of these {count} bodies turns the meaning of the code in one place, and the prover refuses each (`bench/try-edits.py`). The clause is the contract that
carries the promise; "the table" is that of `start`, `action_at` and `decide` (docs/PROGRAMS.md). The goal that fails is one of the function that the
edit turns, which may be a private one below that contract. Of a few, the goal has a proof by hand, and what is refused is that proof, or the search for a
proof gives up at a limit: that says less. `bench/try-edits.py` tells which. The edits are the files crates/NAME/wrong/*.edit; this page is written from them by
generators/wrong_bodies.py. docs/GUARANTEES.md has the promises by lock.
"""


def said(path):
    """Returns an edit's promise, its clause, and its name in words."""
    found = {}
    with open(path, encoding='utf-8') as file:
        for line in file:
            word, _, text = line.partition(':')
            if word in ('promise', 'clause'):
                if word in found:
                    sys.exit(f"{path}: two lines '{word}:'")
                found[word] = text.strip()
    for word in ('promise', 'clause'):
        if not found.get(word):
            sys.exit(f"{path}: no line '{word}:'")
    name = os.path.basename(path).removesuffix('.edit')
    return found['promise'], found['clause'], name.replace('_', ' ').replace('-', ' ')


def rows_of(crate):
    """Returns the rows of a crate's table. Edits of one promise and one clause share a row."""
    rows = {}
    for path in sorted(glob.glob(f'crates/{crate}/wrong/*.edit')):
        promise, clause, name = said(path)
        rows.setdefault((promise, clause), []).append(name)
    return [f'| {"; ".join(names)} | {promise} | {clause} |' for (promise, clause), names in rows.items()]


def main():
    crates = {path.split('/')[1] for path in glob.glob('crates/*/wrong/*.edit')}
    lacking = crates - {it for names in PARTS.values() for it in names.split()}
    if lacking:
        sys.exit(f'no part of {PAGE} names {", ".join(sorted(lacking))}')
    lines = [HEAD.format(count=len(glob.glob('crates/*/wrong/*.edit')))]
    for title, names in PARTS.items():
        lines.append(f'## {title}\n')
        for crate in names.split():
            rows = rows_of(crate)
            if rows:
                lines += [f'### `{crate}`\n', '| Wrong body | Promise | Clause |\n|---|---|---|', *rows, '']
    with open(PAGE, 'w', encoding='utf-8') as file:
        file.write('\n'.join(lines).rstrip('\n') + '\n')


if __name__ == '__main__':
    main()
