#!/usr/bin/env python3
"""Writes the case tables of a read-write lock's steps: laws/Fits, stages/Links and falls/Falls in
crates/world_rwlock/proofs/of_machine/.

Run it at the top of the repository after a change of the read-write lock's program. Each row is one
place with one finding of its action: that the roles follow the action, that the party's place goes on
fitting its place in the turn, and that fewer steps are left.
"""

PROOFS = 'crates/world_rwlock/proofs/of_machine/'

PURPOSES = ('Purpose.UpgradableRead', 'Purpose.Write')
ENDINGS = ('Ending.GivenBack', '(Ending.NotFree p)', 'Ending.RefuseReaders', 'Ending.RefuseMemory', 'Ending.Reading', 'Ending.NotifyReaders')
BOTH = ('true', 'false')
DO = '(Turn Step.More)'
GOT = '(Turn (Step.End End.Got))'
REFUSED = '(Turn (Step.End (End.Refused r)))'

# Each place, its action, and the findings on which the next place depends; '_' stands for the others.
ROWS = [
    ('Out', 'Nothing', '_'),
    ('(Made w)', 'Nothing', '_'),
    ('Reading', 'Nothing', '_'),
    ('Upgradable', 'Nothing', '_'),
    ('Writing', 'Nothing', '_'),
    ('(EnterRead true)', 'Read', 'Done', 'Writer', '_'),
    ('(EnterRead false)', 'Read', 'Done', 'Writer', '_'),
    ('(JoinNoWriter true)', 'JoinNoWriter', 'Done', '_'),
    ('(JoinNoWriter false)', 'JoinNoWriter', 'Done', '_'),
    ('(LookNoWriter told)', 'Read', 'Done', 'Writer', '_'),
    ('AskNoWriter', 'AskNoWriter', 'Yes', '_'),
    ('PassOn', 'NotifyNoWriter', '_'),
    ('LeaveNoWriter', 'LeaveNoWriter', '_'),
    ('(RefuseLeave true)', 'LeaveNoWriter', '_'),
    ('(RefuseLeave false)', 'LeaveNoWriter', '_'),
    ('(RefuseNotify r)', 'NotifyNoWriter', '_'),
    ('CancelRead', 'LeaveNoWriter', '_'),
    ('TryRead', 'Read', 'Done', 'Writer', '_'),
    *[(f'({place} {p})', 'Turn', DO, GOT, REFUSED, '_') for p in PURPOSES for place in ('EnterTurn', 'WaitTurn', 'TakeTurn')],
    *[(f'(TryTurn {p})', 'Turn', GOT, '_') for p in PURPOSES],
    ('CancelTurn', 'Turn', DO, '_'),
    ('CancellingTurn', 'Turn', DO, '_'),
    *[(f'(ReleaseTurn {e})', 'Turn', DO, '_') for e in ENDINGS],
    *[(f'(ReleasingTurn {e})', 'Turn', '_') for e in ENDINGS],
    ('(Add true)', 'Add', 'Done', '_'),
    ('(Add false)', 'Add', 'Done', '_'),
    ('TryUpgrade', 'TryUpgrade', 'Done', '_'),
    ('Upgrade', 'Upgrade', '_'),
    ('Mark', 'Mark', 'NoneLeft', '_'),
    ('TryWrite', 'TryWrite', 'Done', '_'),
    ('(JoinNoReaders true)', 'JoinNoReaders', 'Done', '_'),
    ('(JoinNoReaders false)', 'JoinNoReaders', 'Done', '_'),
    ('(LookNoReaders upgrade)', 'Load', 'NoneLeft', '_'),
    ('(AskNoReaders upgrade)', 'AskNoReaders', 'Yes', '_'),
    ('(AwaitNoReaders upgrade)', 'Load', 'NoneLeft', '_'),
    ('(LookUnlisted upgrade)', 'Load', 'NoneLeft', '_'),
    ('LeaveNoReaders', 'LeaveNoReaders', '_'),
    ('DropRead', 'Off', 'NoneLeft', '_'),
    ('DropReadNotify', 'NotifyNoReaders', '_'),
    ('DropUpgradable', 'Off', 'NoneLeft', '_'),
    ('DropUpgradableNotify', 'NotifyNoReaders', '_'),
    ('DropWrite', 'Unmark', '_'),
    ('CancelAwait', 'LeaveNoReaders', '_'),
    ('(Unmark refused)', 'Unmark', '_'),
    ('(UnmarkNotify true)', 'NotifyNoWriter', '_'),
    ('(UnmarkNotify false)', 'NotifyNoWriter', '_'),
    ('(Down true)', 'Down', '_'),
    ('(Down false)', 'Down', '_'),
    ('DownNotify', 'NotifyNoWriter', '_'),
    ('DowngradeNotify', 'NotifyNoWriter', '_'),
]

# The fields that ask nothing of an action with a finding; proofs/laws/Steps says what the others ask.
NO_ALONE = {('Read', 'Done'), ('Load', 'NoneLeft'), ('Mark', 'NoneLeft'), ('TryWrite', 'Done'), ('TryUpgrade', 'Done'), ('Down', '_')}
NO_OWED_W = {('Read', 'Writer'), ('Mark', 'NoneLeft'), ('Mark', '_'), ('TryWrite', 'Done'), ('TryUpgrade', 'Done'), ('Upgrade', '_'), ('NotifyNoWriter', '_')}
NO_OWED_R = {('Read', 'Done'), ('Add', 'Done'), ('Down', '_'), ('Off', '_'), ('Load', '_'), ('NotifyNoReaders', '_')}


def fits():
    lines = []
    for place, action, *findings in ROWS:
        for found in findings:
            alone = 'tt' if (action, found) in NO_ALONE else 'refl'
            owed_w = 'tt' if (action, found) in NO_OWED_W else 'refl'
            owed_r = 'tt' if (action, found) in NO_OWED_R else 'refl'
            if (action, found) == ('AskNoReaders', 'Yes'):
                owed_r = '(refl, refl)'
            lines.append(f'fits {place} {found} = record {{ reading = refl; marking = refl; standing_w = refl; standing_r = refl; set_by_turn = refl; cleared_by_own = refl; left_by_listed_w = refl; left_by_listed_r = refl; alone = {alone}; owed_w = {owed_w}; owed_r = {owed_r} }}')
    return lines


def links():
    lines = []
    for place, action, *findings in ROWS:
        if action != 'Turn':
            for found in findings:
                lines.append(f'links {place} {found} t to h same e = rw (same refl) e')
            continue
        kind = place.strip('()').split(' ')[0]
        if kind in ('EnterTurn', 'WaitTurn', 'TakeTurn'):
            for found, proof in ((DO, 'h'), (GOT, 'rw h refl'), ('(Turn (Step.End End.Pending))', 'h'),
                                 ('(Turn (Step.End (End.Refused Refusal.Memory)))', 'rw h refl'),
                                 ('(Turn (Step.End (End.Refused Refusal.Starved)))', 'rw h refl')):
                lines.append(f'links {place} {found} t to h same e = {proof}')
        elif kind == 'TryTurn':
            lines.append(f'links {place} {GOT} t to h same e = rw h refl')
            lines.append(f'links {place} (Turn (Step.End End.NotFree)) t to h same e = rw h refl')
        elif kind == 'ReleasingTurn':
            lines.append(f'links {place} (Turn (Step.End End.GivenBack)) t to h same e = rw h refl')
        else:
            lines.append(f'links {place} {DO} t to h same e = h')
            lines.append(f'links {place} (Turn (Step.End End.GivenBack)) t to h same e = rw h refl')
        lines.append(f'links {place} _ t to h same e = absurd h')
    return lines


# The places whose rank depends on a mark.
BY_MARK = ('LookNoWriter', 'AskNoWriter', 'LookNoReaders', 'AskNoReaders', 'AwaitNoReaders', 'JoinNoWriter', 'JoinNoReaders')


def falls():
    lines = []
    for place, action, *findings in ROWS:
        kind = place.strip('()').split(' ')[0]
        if kind in ('LookNoReaders', 'AskNoReaders', 'AwaitNoReaders', 'LookUnlisted'):
            flags = BOTH
        else:
            flags = ('upgrade',)
        if kind == 'ReleasingTurn':
            findings = (DO, '(Turn (Step.End ended))', '_')
        for flag in flags:
            for found in findings:
                proof = 'grind arith' if kind in BY_MARK else 'omega arith'
                lines.append(f"  falls {place.replace('upgrade', flag)} {found} e = {proof}")
    return lines


def table(name, head, lines):
    with open(PROOFS + name, 'w', encoding='utf-8') as out:
        out.write(head + '\n'.join(lines) + '\n')


table('laws/Fits.antt', '''-- Each step of a program fits its action. Written by generators/rwlock_rows.py.
use Rattle.world_rwlock.proofs.Prelude.{refl, true, false, TurnStep as Step, End, Purpose, Ending, Place, Out, Made, Reading, Upgradable, Writing, EnterRead, JoinNoWriter, LookNoWriter, AskNoWriter, PassOn, LeaveNoWriter, RefuseLeave, RefuseNotify, CancelRead, TryRead, EnterTurn, WaitTurn, TakeTurn, TryTurn, CancelTurn, CancellingTurn, ReleaseTurn, ReleasingTurn, Add, TryUpgrade, Upgrade, Mark, TryWrite, JoinNoReaders, LookNoReaders, AskNoReaders, AwaitNoReaders, LookUnlisted, LeaveNoReaders, DropRead, DropReadNotify, DropUpgradable, DropUpgradableNotify, DropWrite, CancelAwait, Unmark, UnmarkNotify, Down, DownNotify, DowngradeNotify, Found, Done, Writer, NoneLeft, Yes, Turn, action_of, next_of, place_after}
use Rattle.world_rwlock.proofs.of_machine.laws.Steps.{Fits}

pub fits : (x : Place) (f : Found) → Fits (action_of x) f x (place_after (next_of x f))
''', fits())

table('stages/Links.antt', '''-- Each step leaves the party's place fitting its place in the turn. Written by generators/rwlock_rows.py.
use Rattle.world_rwlock.proofs.Prelude.{◌≡◌, refl, true, false, Refusal, TurnCourse, TurnStep as Step, End, Purpose, Ending, Place, Out, Made, Reading, Upgradable, Writing, EnterRead, JoinNoWriter, LookNoWriter, AskNoWriter, PassOn, LeaveNoWriter, RefuseLeave, RefuseNotify, CancelRead, TryRead, EnterTurn, WaitTurn, TakeTurn, TryTurn, CancelTurn, CancellingTurn, ReleaseTurn, ReleasingTurn, Add, TryUpgrade, Upgrade, Mark, TryWrite, JoinNoReaders, LookNoReaders, AskNoReaders, AwaitNoReaders, LookUnlisted, LeaveNoReaders, DropRead, DropReadNotify, DropUpgradable, DropUpgradableNotify, DropWrite, CancelAwait, Unmark, UnmarkNotify, Down, DownNotify, DowngradeNotify, Found, Done, Writer, NoneLeft, Yes, Turn, next_of, place_after, fits_turn}
use Rattle.world_rwlock.proofs.of_machine.stages.Leads.{Led, steps_in_turn}

-- a step that is not in the turn leaves the party there where it was
pub links : (x : Place) (f : Found) (t to : TurnCourse) → Led x f to → (steps_in_turn x ≡ false → to ≡ t) → fits_turn x t ≡ true → fits_turn (place_after (next_of x f)) to ≡ true
''', links())

table('falls/Falls.antt', '''-- Each step of a party that moves alone leaves fewer steps. Written by generators/rwlock_rows.py.
use Rattle.world_rwlock.proofs.Prelude.{ℕ, ◌<◌, Bool, true, false, arith, TurnStep as Step, End, Purpose, Ending, Place, Out, Made, Reading, Upgradable, Writing, EnterRead, JoinNoWriter, LookNoWriter, AskNoWriter, PassOn, LeaveNoWriter, RefuseLeave, RefuseNotify, CancelRead, TryRead, EnterTurn, WaitTurn, TakeTurn, TryTurn, CancelTurn, CancellingTurn, ReleaseTurn, ReleasingTurn, Add, TryUpgrade, Upgrade, Mark, TryWrite, JoinNoReaders, LookNoReaders, AskNoReaders, AwaitNoReaders, LookUnlisted, LeaveNoReaders, DropRead, DropReadNotify, DropUpgradable, DropUpgradableNotify, DropWrite, CancelAwait, Unmark, UnmarkNotify, Down, DownNotify, DowngradeNotify, Found, Done, Writer, NoneLeft, Yes, Turn, action_of, next_of, left}
use Rattle.world_rwlock.proofs.of_machine.falls.Lowers.{Lowers, then_left}

module _ (here there here' there' : Bool) (turn turn' : ℕ) where
  pub falls : (x : Place) (f : Found) → Lowers here there turn here' there' turn' (action_of x) f → then_left (next_of x f) here' there' turn' < left x here there turn
''', falls())
