#!/bin/sh
# Looks at two borders between the crates, and ends with status 1 if one is crossed.
#
# The crates of the read-write lock and of the barrier may name of a mutex: what is asked of it, what a step of it came to and how a
# call ends (lock_program::mutex::{LockCall, Step}, lock_program::End), and of world_mutex the type `machine::Mutex`, what its contract
# speaks of and the lemmas that follow from it. A place, an action, the table of places, the machine behind a `Mutex` (`reveal`), or a
# mutex's World they must not name; but a reader that is for tests shows at which place of the table a party stands.
#
# The crates of the locks for threads may stand, by crates.txt, on no crate of a World.
#
# Run it at the top of the repository: bench/check-layers.sh
set -eu

above='crates/world_rwlock crates/world_barrier'
tables='crates/sync_program/src/rwlock.rt crates/sync_program/specs/ReadWrite.antt crates/sync_program/src/barrier.rt crates/sync_program/specs/Barrier.antt'
calls='lock_program\.specs\.declared\.mutex\.(LockCall|Step)\.|(lock_program|crate)::mutex::(LockCall|Step|\{LockCall, Step\})'
contract='world_mutex\.specs\.machine\.(Mutex|Course|Conduct|Effects|Alone|Steps)|world_mutex\.specs\.machine\.Behind\.\{behind_coded\}'
lemmas='world_mutex\.proofs\.of_machine\.callers\.'
type='world_mutex::machine::Mutex'
# What the readers of places show, which are for tests.
readers='world\.rt:[0-9]+:(use lock_program::mutex::Place as (LockPlace|TurnPlace);|ghost use .*\{place_behind\};)$'

named=$(grep -rnE 'world_mutex(\.|::)|lock_program\.specs\.(declared\.mutex|Mutex)|(lock_program|crate)::mutex|\breveal\b' $above $tables \
    --include='*.antt' --include='*.rt' --exclude-dir=out |
    grep -vE "($calls|$contract|$lemmas|$type|$readers)" || true)
if [ -n "$named" ]; then
    echo "$named" >&2
    echo 'these lines name what is inside a mutex' >&2
    exit 1
fi
echo 'what is inside a mutex is named by no crate above it'

shells='async_driver lock_place async_mutex words_base words_cell cell_core words_barrier barrier_core words_permits words_access access_core rwlock_core access_vault async_rwlock semaphore_core async_semaphore async_once_cell async_barrier'
worlds='world_[a-z_]+|lock_core|lock_audit'
for shell in $shells; do
    line=$(grep -E "^$shell( [a-z_=0-9]*)?:" crates.txt) || {
        echo "crates.txt has no crate $shell" >&2
        exit 1
    }
    if echo "${line#*:}" | grep -qwE "($worlds)"; then
        echo "$line" >&2
        echo "this crate stands on one of a World's" >&2
        exit 1
    fi
done
echo 'the locks for threads stand on no crate of a World'

# A seat in pledge, and the table against which a value is lent, are open to crates above the words. Only the module that lends names
# them, and the constructor that deals the vault: so nobody steps on a read-write lock's words past their own calls.
lending='crates/async_rwlock/src/lending\.rt:|Vault::deal'
named=$(grep -rnE '\.badge\b|\bshared\(\)|\bBadge\b|\bload_new_seat\b|\batomic_table\b' crates/rwlock_core/src crates/async_rwlock/src \
    --include='*.rt' | grep -vE "(ghost |requires |ensures |$lending)" || true)
if [ -n "$named" ]; then
    echo "$named" >&2
    echo 'these lines reach past the calls of the words of a read-write lock' >&2
    exit 1
fi
echo 'the words of a read-write lock are stepped on by their calls alone'
