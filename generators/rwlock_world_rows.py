#!/usr/bin/env python3
"""Writes the case tables of a read-write lock's World: crates/world_rwlock/proofs/step/Paths.antt,
where each action leads, and Rows.antt beside it, what each action on the word or on a list changes and
decides.

Run it at the top of the repository after a change of the program of the read-write lock. Each row is
one place with one finding of its action.
"""

PATHS_HEAD = f'''-- Where each action leads, place by place. Written by generators/rwlock_world_rows.py.
use Rattle.world_rwlock.proofs.Prelude.{{◌≡◌, ◌&&◌, Bool, true, false, refl, Refusal, TurnCourse, TurnStep as Step, Purpose, Ending, End, Got, Granted, Pending, NotFree, GivenBack, Refused, Next, Found, Done, Writer, Full, NoneLeft, SomeLeft, NoMemory, Yes, No, Turn, Place, Out, Made, Reading, Upgradable, Writing, EnterRead, JoinNoWriter, LookNoWriter, AskNoWriter, PassOn, LeaveNoWriter, RefuseLeave, RefuseNotify, CancelRead, TryRead, EnterTurn, WaitTurn, TakeTurn, TryTurn, CancelTurn, CancellingTurn, ReleaseTurn, ReleasingTurn, Add, TryUpgrade, Upgrade, Mark, TryWrite, JoinNoReaders, LookNoReaders, AskNoReaders, AwaitNoReaders, LookUnlisted, LeaveNoReaders, DropRead, DropReadNotify, DropUpgradable, DropUpgradableNotify, DropWrite, CancelAwait, Unmark, UnmarkNotify, Down, DownNotify, DowngradeNotify, action_of, next_of, RwLock, Finds, Course, polls, tries, drops, downgrades, upgrades, tries_upgrade, strays, course_of, is_inside, sought_at, is_future, is_guard}}
use Rattle.world_rwlock.proofs.of_machine.stages.Leads.{{Led}}
use Rattle.world_rwlock.specs.Stages.{{is_out}}

-- the refusals of a read-write lock's futures
abbrev pub is_ours : Refusal → Bool
is_ours Refusal.Memory = true
is_ours Refusal.Starved = true
is_ours Refusal.Readers = true
is_ours _ = false

-- how a program of this course ends, and where its party stands then
abbrev pub ends_in : Course → End → Place → Bool
ends_in polls Got q = is_guard q
ends_in polls Pending q = is_future q
ends_in polls (Refused r) q = is_future q && is_ours r
ends_in tries Granted q = is_guard q
ends_in tries NotFree q = is_out q
ends_in drops GivenBack q = is_out q
ends_in downgrades GivenBack q = is_guard q
ends_in tries_upgrade Granted q = is_guard q
ends_in tries_upgrade NotFree q = is_guard q
ends_in _ _ q = false

-- a program goes on as it is, or ends so
abbrev pub Keeps : Course → Next → Type 0
Keeps c (Next.Do a q) = (course_of q ≡ c) × (is_inside q ≡ true)
Keeps c (Next.End e q) = ends_in c e q ≡ true
Keeps c (Next.Wait q) = (c ≡ upgrades) × (is_future q ≡ true)

-- where a party stands whose try was in vain
abbrev pub InVain : Course → Place → Type 0
InVain tries_upgrade q = q ≡ Upgradable
InVain _ q = q ≡ Out

-- what is sought goes on to be sought
abbrev pub Seeks : Place → Next → Type 0
Seeks x (Next.End NotFree q) = InVain (course_of x) q
Seeks x (Next.Do a q) = sought_at q ≡ sought_at x
Seeks x (Next.End _ q) = sought_at q ≡ sought_at x
Seeks x (Next.Wait q) = sought_at q ≡ sought_at x

pub record Path (x : Place) (f : Found) : Type 0 where
  pub keeps : Keeps (course_of x) (next_of x f)
  pub seeks : Seeks x (next_of x f)

module _ (memory : Bool) (l : RwLock) (to : TurnCourse) where
  pub path : (x : Place) (f : Found) → Finds memory (action_of x) f l → Led x f to → (course_of x ≡ strays → ⊥) → Path x f
'''

DO = '(Turn Step.More)'
GOT = '(Turn (Step.End End.Got))'
PENDING = '(Turn (Step.End End.Pending))'
NOT_FREE = '(Turn (Step.End End.NotFree))'
BACK = '(Turn (Step.End End.GivenBack))'
MEMORY = '(Turn (Step.End (End.Refused Refusal.Memory)))'
STARVED = '(Turn (Step.End (End.Refused Refusal.Starved)))'

paths = []


# The rows whose programs go on; in the others the call ends.
GOES_ON = set('''
(EnterRead true) Writer|(EnterRead false) Writer|(EnterRead true) Full|(JoinNoWriter true) Done|(JoinNoWriter false) Done|(JoinNoWriter true) NoMemory
(LookNoWriter told) Done|(LookNoWriter told) Writer|(LookNoWriter told) Full|AskNoWriter Yes|PassOn Done|(RefuseLeave true) Done
(Add true) Full|(Add false) Full|Mark SomeLeft|TryWrite NotFree|(JoinNoReaders true) Done|(JoinNoReaders false) Done|(JoinNoReaders false) NoMemory
(LookNoReaders u) NoneLeft|(LookNoReaders u) SomeLeft|(AskNoReaders u) Yes|(AwaitNoReaders u) NoneLeft|(AwaitNoReaders u) SomeLeft|(LookUnlisted u) SomeLeft
DropRead NoneLeft|DropUpgradable NoneLeft|DropUpgradable SomeLeft|DropUpgradableNotify Done|DropWrite Done|CancelAwait Done
(Unmark true) Done|(Unmark false) Done|(UnmarkNotify true) Done|(UnmarkNotify false) Done|(Down true) Done|(Down false) Done
'''.strip().replace('\n', '|').split('|'))


def goes_on(place, found):
    if found == DO:
        return True
    if found == GOT:
        return True
    if found == BACK and place == '(ReleaseTurn Ending.NotifyReaders)' or found == BACK and place == '(ReleasingTurn Ending.NotifyReaders)':
        return True
    return f'{place} {found}' in GOES_ON


def path(place, found):
    keeps = '(refl, refl)' if goes_on(place, found) or place == 'Upgrade' else 'refl'
    if found == 'NotFree':
        found = 'Found.NotFree'
    paths.append(f'  path {place} {found} e l n = record {{ keeps = {keeps}; seeks = refl }}')


def no_other(place):
    paths.append(f'  path {place} _ e l n = absurd e')


def word(place, *founds):
    for f in founds:
        path(place, f)
    no_other(place)


def stray(place):
    paths.append(f'  path {place} _ e l n = absurd (n refl)')


word('Out', 'Done')
stray('(Made w)')
for p in ('Reading', 'Upgradable', 'Writing'):
    word(p, 'Done')
for told in ('true', 'false'):
    word(f'(EnterRead {told})', 'Done', 'Writer', 'Full')
for told in ('true', 'false'):
    word(f'(JoinNoWriter {told})', 'Done', 'NoMemory')
word('(LookNoWriter told)', 'Done', 'Writer', 'Full')
word('AskNoWriter', 'Yes', 'No')
word('PassOn', 'Done')
word('LeaveNoWriter', 'Done')
for told in ('true', 'false'):
    word(f'(RefuseLeave {told})', 'Done')
word('(RefuseNotify Refusal.Memory)', 'Done')
word('(RefuseNotify Refusal.Readers)', 'Done')
stray('(RefuseNotify _)')
word('CancelRead', 'Done')
word('TryRead', 'Done', 'Writer', 'Full')


def turn(place, *founds):
    for f in founds:
        path(place, f)
    paths.append(f'  path {place} (Turn _) e l n = absurd l')
    no_other(place)


for name in ('EnterTurn', 'WaitTurn', 'TakeTurn'):
    for p in ('Purpose.UpgradableRead', 'Purpose.Write'):
        turn(f'({name} {p})', DO, GOT, PENDING, MEMORY, STARVED)
for p in ('Purpose.UpgradableRead', 'Purpose.Write'):
    turn(f'(TryTurn {p})', GOT, NOT_FREE)
turn('CancelTurn', DO, BACK)
turn('CancellingTurn', DO, BACK)
ENDINGS = ('Ending.GivenBack', '(Ending.NotFree p)', 'Ending.RefuseReaders', 'Ending.RefuseMemory', 'Ending.Reading', 'Ending.NotifyReaders')
for e in ENDINGS:
    place = f'(ReleaseTurn {e})'
    path(place, DO)
    path(place, BACK)
    paths.append(f'  path {place} (Turn _) e l n = absurd l')
    no_other(place)
for e in ENDINGS:
    place = f'(ReleasingTurn {e})'
    path(place, BACK)
    paths.append(f'  path {place} (Turn _) e l n = absurd l')
    no_other(place)
word('(Add true)', 'Done', 'Full')
word('(Add false)', 'Done', 'Full')
word('TryUpgrade', 'Done', 'NotFree')
word('Upgrade', 'Done')
word('Mark', 'NoneLeft', 'SomeLeft')
word('TryWrite', 'Done', 'NotFree')
for u in ('true', 'false'):
    word(f'(JoinNoReaders {u})', 'Done', 'NoMemory')
word('(LookNoReaders u)', 'NoneLeft', 'SomeLeft')
word('(AskNoReaders u)', 'Yes', 'No')
word('(AwaitNoReaders u)', 'NoneLeft', 'SomeLeft')
word('(LookUnlisted u)', 'NoneLeft', 'SomeLeft')
word('LeaveNoReaders', 'Done')
word('DropRead', 'NoneLeft', 'SomeLeft')
word('DropReadNotify', 'Done')
word('DropUpgradable', 'NoneLeft', 'SomeLeft')
word('DropUpgradableNotify', 'Done')
word('DropWrite', 'Done')
word('CancelAwait', 'Done')
for r in ('true', 'false'):
    word(f'(Unmark {r})', 'Done')
for r in ('true', 'false'):
    word(f'(UnmarkNotify {r})', 'Done')
for k in ('true', 'false'):
    word(f'(Down {k})', 'Done')
word('DownNotify', 'Done')
word('DowngradeNotify', 'Done')

with open('crates/world_rwlock/proofs/step/Paths.antt', 'w', encoding='utf-8') as out:
    out.write(PATHS_HEAD + '\n'.join(paths) + '\n')


ROWS_HEAD = f'''-- What each action on the word or on a list changes and decides, place by place. Written by generators/rwlock_world_rows.py.
use Rattle.world_rwlock.proofs.Prelude.{{◌≡◌, ℕ, ◌+◌, ◌<◌, ◌≤◌, ◌==◌, ◌⊎◌, ◌||◌, not, inl, inr, if◌then◌else◌, Bool, true, false, List, Option, Some, None, refl, sym, ◌∙◌, Entry, is_marked_at, without, is_party, Answer, Value, Refusal, number_of, Right, read, upgradable, Effect, nothing, changes, does, joins, asks, leaves, notifies, chosen, TurnCourse, is_out as is_out_there, is_holding, Action, Pending, Refused, Next, Found, Done, Writer, Full, NoneLeft, SomeLeft, NoMemory, Yes, No, Turn, TurnStep as Step, End, Purpose, Ending, Place, Out, Made, Reading, Upgradable, Writing, EnterRead, JoinNoWriter, LookNoWriter, AskNoWriter, PassOn, LeaveNoWriter, RefuseLeave, RefuseNotify, CancelRead, TryRead, EnterTurn, WaitTurn, TakeTurn, TryTurn, CancelTurn, CancellingTurn, ReleaseTurn, ReleasingTurn, Add, TryUpgrade, Upgrade, Mark, TryWrite, JoinNoReaders, LookNoReaders, AskNoReaders, AwaitNoReaders, LookUnlisted, LeaveNoReaders, DropRead, DropReadNotify, DropUpgradable, DropUpgradableNotify, DropWrite, CancelAwait, Unmark, UnmarkNotify, Down, DownNotify, DowngradeNotify, action_of, next_of, place_after, has_turn, in_no_writer, in_no_readers, fits_turn, OnNoWriter, OnNoReaders, RwLock, Finds, readers, marked, Change, begins_to_read, stops_reading, becomes_upgradable, stops_upgradable, begins_to_wait, begins_to_write, upgrades_at_once, unmarks, downgrades_to_upgradable, turn_after, starved_after, value_after, entries_after, gives_back, gives_up, ListName, for_the_turn, for_no_readers, for_no_writer, decided_after, answer_by, strays, course_of, sought_at, passing, upgrading, waiting, writing, turn_as, share_of, is_reading, is_upgrade, verdict, notifies_additionally, owes_in, owing_at, reads}}
use Rattle.world_rwlock.proofs.of_machine.stages.Leads.{{Led, steps_in_turn}}
use Rattle.world_rwlock.specs.Changes.{{upgrades, downgrades}}
use Rattle.world_rwlock.specs.State as state

-- what an action changes that found this
abbrev pub effect_of : Action → Found → Effect Change ListName
effect_of Action.Read Done = changes begins_to_read
effect_of Action.Add Done = changes becomes_upgradable
effect_of Action.Off _ = changes stops_reading
effect_of Action.Load NoneLeft = changes begins_to_write
effect_of Action.Mark NoneLeft = changes begins_to_write
effect_of Action.Mark _ = changes begins_to_wait
effect_of Action.TryWrite Done = changes begins_to_write
effect_of Action.TryUpgrade Done = changes upgrades_at_once
effect_of Action.Upgrade _ = changes upgrades
effect_of Action.Down _ = changes downgrades
effect_of Action.Unmark _ = changes unmarks
effect_of Action.JoinNoWriter Done = does for_no_writer joins
effect_of Action.AskNoWriter Yes = does for_no_writer asks
effect_of Action.LeaveNoWriter _ = does for_no_writer leaves
effect_of Action.NotifyNoWriter _ = does for_no_writer (notifies 1)
effect_of Action.JoinNoReaders Done = does for_no_readers joins
effect_of Action.AskNoReaders Yes = does for_no_readers asks
effect_of Action.LeaveNoReaders _ = does for_no_readers leaves
effect_of Action.NotifyNoReaders _ = does for_no_readers (notifies 1)
effect_of _ _ = nothing

-- and which right the place is for
abbrev pub effect_at : Place → Found → Effect Change ListName
effect_at DropUpgradable f = changes stops_upgradable
effect_at (Down true) f = changes downgrades_to_upgradable
effect_at x f = effect_of (action_of x) f

-- what the call is decided on then
abbrev pub verdict_then : ℕ → TurnCourse → Next → Option Answer
verdict_then v t n = decided_after (answer_by v n) (verdict v (place_after n) t)

abbrev pub is_after_ready : Answer → Bool
is_after_ready (Answer.Refused n) = n == number_of Refusal.Finished
is_after_ready _ = false

-- how an effect turns whether its party reads
abbrev pub Reads : Effect Change ListName → Bool → Bool → Type 0
Reads (changes begins_to_read) b c = c ≡ true
Reads (changes becomes_upgradable) b c = c ≡ true
Reads (changes downgrades) b c = c ≡ true
Reads (changes downgrades_to_upgradable) b c = c ≡ true
Reads (changes stops_reading) b c = c ≡ false
Reads (changes stops_upgradable) b c = c ≡ false
Reads (changes upgrades) b c = c ≡ false
Reads (changes upgrades_at_once) b c = c ≡ false
Reads _ b c = c ≡ b

-- how it turns for what its party has the turn
abbrev pub Shares : Effect Change ListName → Place → Place → Type 0
Shares d x q = ((has_turn x ≡ 1) × ((p : ℕ) → turn_after p d (turn_as p (share_of x)) ≡ turn_as p (share_of q))) ⊎ (((p : ℕ) (t : state.Turn) → turn_after p d t ≡ t) × (share_of q ≡ share_of x))

-- no call begins at these places: in the midst of a poll that takes the turn, and where readers or the writer are notified
abbrev pub is_midway : Place → Bool
is_midway (TakeTurn q) = true
is_midway PassOn = true
is_midway (RefuseNotify r) = true
is_midway DropReadNotify = true
is_midway DropUpgradableNotify = true
is_midway (UnmarkNotify r) = true
is_midway DownNotify = true
is_midway DowngradeNotify = true
is_midway _ = false

-- what an effect found
abbrev pub Finding : Effect Change ListName → RwLock → Place → Type 0
Finding (changes begins_to_read) l x = (marked l ≡ 0) × (readers l < l.limit)
Finding (changes stops_reading) l x = is_reading x ≡ true
Finding (changes becomes_upgradable) l x = (has_turn x ≡ 1) × (share_of x ≡ passing) × (readers l < l.limit)
Finding (changes stops_upgradable) l x = (has_turn x ≡ 1) × (share_of x ≡ upgrading)
Finding (changes begins_to_wait) l x = (has_turn x ≡ 1) × (share_of x ≡ passing) × (0 < readers l)
Finding (changes begins_to_write) l x = (has_turn x ≡ 1) × ((share_of x ≡ passing) ⊎ (share_of x ≡ waiting)) × (readers l ≡ 0)
Finding (changes upgrades) l x = (has_turn x ≡ 1) × (share_of x ≡ upgrading)
Finding (changes upgrades_at_once) l x = (has_turn x ≡ 1) × (share_of x ≡ upgrading) × (readers l ≡ 1)
Finding (changes unmarks) l x = (has_turn x ≡ 1) × ((share_of x ≡ waiting) ⊎ (share_of x ≡ writing))
Finding (changes downgrades) l x = (has_turn x ≡ 1) × (share_of x ≡ writing)
Finding (changes downgrades_to_upgradable) l x = (has_turn x ≡ 1) × (share_of x ≡ writing)
Finding (changes _) l x = ⊥
Finding (does for_the_turn f) l x = ⊥
Finding (does for_no_writer (notifies n)) l x = (n ≡ 1) × ((owes_in for_no_writer (owing_at x) ≡ true) ⊎ (sought_at x ≡ Some read)) × (is_midway x ≡ true)
Finding (does for_no_readers (notifies n)) l x = (n ≡ 1) × (owes_in for_no_readers (owing_at x) ≡ true) × (is_midway x ≡ true)
Finding (does list (notifies_additionally n)) l x = ⊥
Finding _ l x = Unit {{0}}

-- a party has the right that it sought here
abbrev pub is_got : Place → Bool
is_got Reading = true
is_got Upgradable = true
is_got Writing = true
is_got LeaveNoWriter = true
is_got LeaveNoReaders = true
is_got _ = false

abbrev pub is_made : Place → Bool
is_made (Made w) = true
is_made _ = false

-- where a party asks in vain
abbrev pub WaitsAt : Place → Found → Type 0
WaitsAt AskNoWriter f = f ≡ No
WaitsAt (AskNoReaders u) f = f ≡ No
WaitsAt _ f = ⊥

-- where a call may be refused for want of memory
abbrev pub lacks_memory : Place → Bool
lacks_memory (JoinNoWriter told) = true
lacks_memory (JoinNoReaders u) = true
lacks_memory (TakeTurn q) = true
lacks_memory _ = false

-- who joins a list hasn't the turn, or waits to write
abbrev pub JoinsAt : Place → TurnCourse → Type 0
JoinsAt x t = (is_out_there t ≡ true) ⊎ ((is_holding t ≡ true) × (has_turn x ≡ 1) × (share_of x ≡ waiting))

-- what a party takes that meets the limit of the readers
abbrev pub MeetsReaders : RwLock → Place → Option Right → Type 0
MeetsReaders l x (Some read) = marked l ≡ 0
MeetsReaders l x (Some upgradable) = has_turn x ≡ 1
MeetsReaders l x s = ⊥

-- why a step refuses its call
abbrev pub Refuses : Bool → RwLock → Place → Found → Refusal → Type 0
Refuses memory l x f Refusal.Memory = (memory ≡ false) × (in_no_writer x + in_no_readers x ≡ 0) × (effect_at x f ≡ nothing) × ((t : TurnCourse) → fits_turn x t ≡ true → JoinsAt x t) × (lacks_memory x ≡ true)
Refuses memory l x f Refusal.Readers = (l.limit ≤ readers l) × MeetsReaders l x (sought_at (place_after (next_of x f)))
Refuses memory l x f _ = ⊥

-- why a step decides its call on an answer
abbrev pub Reason : Bool → RwLock → ℕ → Place → Found → Answer → Type 0
Reason memory l v x f Answer.Pending = WaitsAt x f
Reason memory l v x f (Answer.Ready got) = (got ≡ Value v) × (is_got (place_after (next_of x f)) ≡ true)
Reason memory l v x f (Answer.Granted got) = (got ≡ Value v) × (is_got (place_after (next_of x f)) ≡ true)
Reason memory l v x f (Answer.Refused n) = (r : Refusal) × (n ≡ number_of r) × Refuses memory l x f r
Reason memory l v x f _ = Unit {{0}}

abbrev pub Judged : Bool → RwLock → ℕ → Place → Found → Option Answer → Option Answer → Type 0
Judged memory l v x f (Some b) o = (o ≡ Some b) × (gives_back (effect_at x f) ≡ true)
Judged memory l v x f None None = Unit {{0}}
Judged memory l v x f None (Some b) = Reason memory l v x f b

-- whether a join found memory, and that a party gives nothing up until its call is decided
abbrev pub Room : Bool → Effect Change ListName → Type 0
Room memory (does list joins) = memory ≡ true
Room memory _ = Unit {{0}}

abbrev pub is_judged : Option Answer → Bool
is_judged (Some b) = true
is_judged None = false

abbrev pub keeps_what_it_has : Option Answer → Effect Change ListName → Bool
keeps_what_it_has o d = not (gives_up d) || is_judged o

-- an upgrade's future stays one while its call is undecided or pending
abbrev pub KeepsUpgrade : ℕ → Place → Next → Type 0
KeepsUpgrade v x (Next.Do a q) = (t : TurnCourse) → verdict v q t ≡ None → is_upgrade q ≡ is_upgrade x
KeepsUpgrade v x (Next.Wait q) = is_upgrade q ≡ true
KeepsUpgrade v x (Next.End End.Waiting q) = is_upgrade q ≡ true
KeepsUpgrade v x (Next.End Pending q) = is_upgrade q ≡ is_upgrade x
KeepsUpgrade v x (Next.End (Refused r) q) = is_upgrade q ≡ is_upgrade x
KeepsUpgrade v x (Next.End _ q) = Unit {{0}}

-- where a party stands after a refusal
abbrev pub RefusedAt : Place → Next → Type 0
RefusedAt x (Next.End (Refused r) q) = ((is_made q ≡ true) × (is_upgrade x ≡ false)) ⊎ ((q ≡ LookUnlisted true) × (is_upgrade x ≡ true))
RefusedAt x _ = Unit {{0}}

-- only the last reader goes on to tell the one that waits to write
abbrev pub IsLast : RwLock → Place → Place → Type 0
IsLast l x y = (owes_in for_no_readers (owing_at y) ≡ false) ⊎ ((reads x ≡ 1) × (readers l ≡ 1) × (reads y ≡ 0))

pub record Row (memory : Bool) (l : RwLock) (v : ℕ) (x : Place) (f : Found) : Type 0 where
  pub reading : Reads (effect_at x f) (is_reading x) (is_reading (place_after (next_of x f)))
  pub sharing : Shares (effect_at x f) x (place_after (next_of x f))
  pub starving : (p : ℕ) (s : List Bool) → starved_after p (effect_at x f) s ≡ s
  pub valued : (u : ℕ) → value_after (effect_at x f) u ≡ u
  pub unturned : (p : ℕ) (a : List (Entry ℕ)) → entries_after p (effect_at x f) for_the_turn a ≡ a
  pub no_writer : (p : ℕ) (a b : List (Entry ℕ)) → OnNoWriter p (action_of x) f a b → b ≡ entries_after p (effect_at x f) for_no_writer a
  pub no_readers : (p : ℕ) (a b : List (Entry ℕ)) → OnNoReaders p (action_of x) f a b → b ≡ entries_after p (effect_at x f) for_no_readers a
  pub finding : Finding (effect_at x f) l x
  pub judged : (t u : TurnCourse) → Judged memory l v x f (verdict v x t) (verdict_then v u (next_of x f))
  pub room : Room memory (effect_at x f)
  pub holds_on : (t : TurnCourse) → keeps_what_it_has (verdict v x t) (effect_at x f) ≡ true
  pub over : is_after_ready (answer_by v (next_of x f)) ≡ false
  pub upgrade : KeepsUpgrade v x (next_of x f)
  pub refused : RefusedAt x (next_of x f)
  pub last : IsLast l x (place_after (next_of x f))

asks_so : (p : ℕ) (l m : List (Entry ℕ)) → (is_marked_at (is_party p) l ≡ true) × (m ≡ without (is_party p) l) → m ≡ (if is_marked_at (is_party p) l then without (is_party p) l else l)
asks_so p l m o = o.1 ∙ sym (chosen (is_marked_at (is_party p) l) (without (is_party p) l) l o.0)

module _ (memory : Bool) (l : RwLock) (v : ℕ) where
  pub row : (x : Place) (f : Found) → Finds memory (action_of x) f l → (course_of x ≡ strays → ⊥) → steps_in_turn x ≡ false → Row memory l v x f
'''

rows = []
KEPT = '(refl, refl)'
GOT_IT = '(refl, refl)'
UNDECIDED = 'tt'
WAITS = 'refl'
FREE = 'tt'
STAYS = 'inr ((λ p t. refl), refl)'
MOVES = 'inl (refl, λ p. refl)'


def memory(joins):
    return f'(Refusal.Memory, refl, (e, refl, refl, (λ t h. {joins}), refl))'


def full(many, taken):
    return f'(Refusal.Readers, refl, ({many}, {taken}))'


# who notifies those that wait to read: whoever owes it, or reads
OWED = '(refl, inl refl, refl)'
FOR_READ = '(refl, inr refl, refl)'
LAST = 'inr (refl, e, refl)'


def row(place, found, judged, sharing=STAYS, finding='tt', upgrade='tt', refused='tt', no_writer='λ p a b o. o', no_readers='λ p a b o. o', last='inl refl'):
    room = 'e' if 'Join' in place and found == 'Done' else 'tt'
    if found == 'NotFree':
        found = 'Found.NotFree'
    rows.append(f'  row {place} {found} e n t = record {{ reading = refl; sharing = {sharing}; starving = λ p s. refl; valued = λ u. refl; unturned = λ p a. refl; no_writer = {no_writer}; no_readers = {no_readers}; '
                f'finding = {finding}; judged = λ t u. {judged}; room = {room}; holds_on = λ t. refl; over = refl; upgrade = {upgrade}; refused = {refused}; last = {last} }}')


def rest(place):
    rows.append(f'  row {place} _ e n t = absurd e')


def astray(place):
    rows.append(f'  row {place} _ e n t = absurd (n refl)')


GOES = 'λ t h. refl'
NEVER = 'λ t h. absurd (cc)'
MADE = 'inl (refl, refl)'
ASKED = 'λ p a b o. asks_so p a b o'
ASKED_IN_VAIN = 'λ p a b o. o.1'

row('Out', 'Done', KEPT)
rest('Out')
astray('(Made w)')
for p in ('Reading', 'Upgradable', 'Writing'):
    row(p, 'Done', GOT_IT)
    rest(p)
for told in ('true', 'false'):
    row(f'(EnterRead {told})', 'Done', GOT_IT, finding='e')
    row(f'(EnterRead {told})', 'Writer', UNDECIDED, upgrade=GOES)
    if told == 'true':
        row(f'(EnterRead {told})', 'Full', full('e.1', 'e.0'), upgrade=GOES)
    else:
        row(f'(EnterRead {told})', 'Full', full('e.1', 'e.0'), upgrade='refl', refused=MADE)
    rest(f'(EnterRead {told})')
for told in ('true', 'false'):
    row(f'(JoinNoWriter {told})', 'Done', UNDECIDED, upgrade=GOES)
    if told == 'true':
        row(f'(JoinNoWriter {told})', 'NoMemory', memory('inl h'), upgrade=GOES)
    else:
        row(f'(JoinNoWriter {told})', 'NoMemory', memory('inl h'), upgrade='refl', refused=MADE)
    rest(f'(JoinNoWriter {told})')
row('(LookNoWriter told)', 'Done', GOT_IT, finding='e', upgrade=GOES)
row('(LookNoWriter told)', 'Writer', UNDECIDED, upgrade=GOES)
row('(LookNoWriter told)', 'Full', full('e.1', 'e.0'), upgrade=GOES)
rest('(LookNoWriter told)')
row('AskNoWriter', 'Yes', UNDECIDED, upgrade=GOES, no_writer=ASKED)
row('AskNoWriter', 'No', WAITS, upgrade='refl', no_writer=ASKED_IN_VAIN)
rest('AskNoWriter')
row('PassOn', 'Done', UNDECIDED, finding=FOR_READ, upgrade=GOES)
rest('PassOn')
row('LeaveNoWriter', 'Done', KEPT)
rest('LeaveNoWriter')
row('(RefuseLeave true)', 'Done', KEPT, upgrade=GOES)
rest('(RefuseLeave true)')
row('(RefuseLeave false)', 'Done', KEPT, upgrade='refl', refused=MADE)
rest('(RefuseLeave false)')
for r in ('Memory', 'Readers'):
    row(f'(RefuseNotify Refusal.{r})', 'Done', KEPT, finding=FOR_READ, upgrade='refl', refused=MADE)
    rest(f'(RefuseNotify Refusal.{r})')
astray('(RefuseNotify _)')
row('CancelRead', 'Done', KEPT)
rest('CancelRead')
row('TryRead', 'Done', GOT_IT, finding='e')
row('TryRead', 'Writer', FREE)
row('TryRead', 'Full', FREE)
rest('TryRead')
for place in ('(EnterTurn p)', '(WaitTurn p)', '(TakeTurn p)', '(TryTurn p)', 'CancelTurn', 'CancellingTurn', '(ReleaseTurn e)', '(ReleasingTurn e)'):
    rows.append(f'  row {place.replace(" e)", " k)")} f e n t = absurd (cc)')
for b in ('true', 'false'):
    row(f'(Add {b})', 'Done', GOT_IT, sharing=MOVES, finding='(refl, refl, e)')
    row(f'(Add {b})', 'Full', FREE if b == 'true' else full('e', 'refl'), upgrade=GOES)
    rest(f'(Add {b})')
row('TryUpgrade', 'Done', GOT_IT, sharing=MOVES, finding='(refl, refl, e.1)')
row('TryUpgrade', 'NotFree', FREE)
rest('TryUpgrade')
row('Upgrade', 'Done', FREE, sharing=MOVES, finding='(refl, refl)', upgrade='refl')
rest('Upgrade')
row('Mark', 'NoneLeft', GOT_IT, sharing=MOVES, finding='(refl, inl refl, e)')
row('Mark', 'SomeLeft', UNDECIDED, sharing=MOVES, finding='(refl, refl, e)', upgrade=GOES)
rest('Mark')
row('TryWrite', 'Done', GOT_IT, sharing=MOVES, finding='(refl, inl refl, e.1)')
row('TryWrite', 'NotFree', FREE, upgrade=GOES)
rest('TryWrite')
for u in ('true', 'false'):
    row(f'(JoinNoReaders {u})', 'Done', UNDECIDED, upgrade=GOES)
    if u == 'true':
        row(f'(JoinNoReaders {u})', 'NoMemory', memory('inr (h, refl, refl)'), upgrade='refl', refused='inr (refl, refl)')
    else:
        row(f'(JoinNoReaders {u})', 'NoMemory', memory('inr (h, refl, refl)'), upgrade=GOES)
    rest(f'(JoinNoReaders {u})')
WRITES = dict(sharing=MOVES, finding='(refl, inr refl, e)')
row('(LookNoReaders u)', 'NoneLeft', GOT_IT, upgrade=NEVER, **WRITES)
row('(LookNoReaders u)', 'SomeLeft', UNDECIDED, upgrade=GOES)
rest('(LookNoReaders u)')
row('(AskNoReaders u)', 'Yes', UNDECIDED, upgrade=GOES, no_readers=ASKED)
row('(AskNoReaders u)', 'No', WAITS, upgrade='refl', no_readers=ASKED_IN_VAIN)
rest('(AskNoReaders u)')
row('(AwaitNoReaders u)', 'NoneLeft', GOT_IT, upgrade=NEVER, **WRITES)
row('(AwaitNoReaders u)', 'SomeLeft', UNDECIDED, upgrade=GOES)
rest('(AwaitNoReaders u)')
row('(LookUnlisted u)', 'NoneLeft', GOT_IT, **WRITES)
row('(LookUnlisted u)', 'SomeLeft', UNDECIDED, upgrade=GOES)
rest('(LookUnlisted u)')
row('LeaveNoReaders', 'Done', KEPT)
rest('LeaveNoReaders')
row('DropRead', 'NoneLeft', KEPT, finding='refl', upgrade=GOES, last=LAST)
row('DropRead', 'SomeLeft', KEPT, finding='refl')
rest('DropRead')
row('DropReadNotify', 'Done', KEPT, finding='(refl, refl, refl)')
rest('DropReadNotify')
for f in ('NoneLeft', 'SomeLeft'):
    row('DropUpgradable', f, KEPT, sharing=MOVES, finding='(refl, refl)', upgrade=GOES, last=LAST if f == 'NoneLeft' else 'inl refl')
rest('DropUpgradable')
row('DropUpgradableNotify', 'Done', KEPT, finding='(refl, refl, refl)', upgrade=GOES)
rest('DropUpgradableNotify')
row('DropWrite', 'Done', KEPT, sharing=MOVES, finding='(refl, inr refl)', upgrade=GOES)
rest('DropWrite')
row('CancelAwait', 'Done', KEPT, upgrade=GOES)
rest('CancelAwait')
for r in ('true', 'false'):
    row(f'(Unmark {r})', 'Done', KEPT, sharing=MOVES, finding='(refl, inl refl)', upgrade=GOES)
    rest(f'(Unmark {r})')
for r in ('true', 'false'):
    row(f'(UnmarkNotify {r})', 'Done', KEPT, finding=OWED, upgrade=GOES)
    rest(f'(UnmarkNotify {r})')
for k in ('true', 'false'):
    row(f'(Down {k})', 'Done', FREE, sharing=MOVES, finding='(refl, refl)', upgrade=GOES)
    rest(f'(Down {k})')
row('DownNotify', 'Done', KEPT, finding=OWED)
rest('DownNotify')
row('DowngradeNotify', 'Done', KEPT, finding=OWED)
rest('DowngradeNotify')

TURN_ROWS = '''
-- ---- actions on the turn

pub record TurnRow (v : ℕ) (x : Place) (f : Found) : Type 0 where
  pub reading : is_reading (place_after (next_of x f)) ≡ is_reading x
  pub sharing : share_of (place_after (next_of x f)) ≡ passing
  pub over : is_after_ready (answer_by v (next_of x f)) ≡ false
  pub upgrade : KeepsUpgrade v x (next_of x f)
  pub refused : RefusedAt x (next_of x f)
  pub unowed : owes_in for_no_readers (owing_at (place_after (next_of x f))) ≡ false

pub turn_row : (v : ℕ) (u : TurnCourse) (x : Place) (f : Found) → steps_in_turn x ≡ true → Led x f u → TurnRow v x f
'''

turn_rows = []


def turn_row(place, found):
    upgrade, refused = 'tt', 'tt'
    if goes_on(place, found):
        upgrade = GOES
    elif found == PENDING:
        upgrade = 'refl'
    elif found in (MEMORY, STARVED) or found == BACK and 'Refuse' in place:
        upgrade, refused = 'refl', MADE
    turn_rows.append(f'turn_row v u {place} {found} t e = record {{ reading = refl; sharing = refl; over = refl; upgrade = {upgrade}; refused = {refused}; unowed = refl }}')


def turn_rest(place):
    turn_rows.append(f'turn_row v u {place} (Turn _) t e = absurd e')
    turn_rows.append(f'turn_row v u {place} _ t e = absurd e')


for name in ('EnterTurn', 'WaitTurn', 'TakeTurn', 'TryTurn'):
    for q in ('Purpose.UpgradableRead', 'Purpose.Write'):
        for f in ((GOT, NOT_FREE) if name == 'TryTurn' else (DO, GOT, PENDING, MEMORY, STARVED)):
            turn_row(f'({name} {q})', f)
        turn_rest(f'({name} {q})')
for place in ('CancelTurn', 'CancellingTurn'):
    turn_row(place, DO)
    turn_row(place, BACK)
    turn_rest(place)
for k in ENDINGS:
    turn_row(f'(ReleaseTurn {k})', DO)
    turn_row(f'(ReleaseTurn {k})', BACK)
    turn_rest(f'(ReleaseTurn {k})')
    turn_row(f'(ReleasingTurn {k})', BACK)
    turn_rest(f'(ReleasingTurn {k})')
turn_rows.append('turn_row v u _ f t e = absurd (cc)')

with open('crates/world_rwlock/proofs/step/Rows.antt', 'w', encoding='utf-8') as out:
    out.write(ROWS_HEAD + '\n'.join(rows) + '\n' + TURN_ROWS + '\n'.join(turn_rows) + '\n')
