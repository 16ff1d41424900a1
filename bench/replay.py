"""A small model of the five locks and of a pool, written from the tables of docs/PROGRAMS.md, which replays a script of scripts/.

A call is a generator: it does one action, and yields where the call goes on; what it returns is the call's answer. It shares nothing
with the programs in crates/, so answers that both give were had in two ways.
"""

MOST = 1_073_741_823
GREATEST = 2**64 - 1
LISTED = ("w", "n", "a")


class List:
    """A waiting list: entries of a party, its mark and its weight, from the front to the back."""

    def __init__(self):
        self.entries = []

    def __str__(self):
        return "[" + " ".join(f"{entry[0]}{entry[1]}" for entry in self.entries) + "]"

    def of(self, party):
        """Returns the party's entry. None where it has none."""
        return next((entry for entry in self.entries if entry[0] == party.number), None)

    def join(self, party, weight=1):
        """Joins at the back. False where the party's step finds no memory."""
        if party.memory:
            self.entries.append([party.number, "w", weight])
        return party.memory

    def waiting(self):
        return [entry for entry in self.entries if entry[1] == "w"]

    def notify(self, most=1):
        marked = len(self.entries) - len(self.waiting())
        for entry in self.waiting()[: max(0, most - marked)]:
            entry[1] = "n"

    def notify_additional(self, most):
        for entry in self.waiting()[:most]:
            entry[1] = "a"

    def fit(self, available):
        if len(self.waiting()) == len(self.entries):
            for entry in [entry for entry in self.entries if entry[2] <= available][:1]:
                entry[1] = "n"

    def remove(self, party):
        """Takes the party's entry out. Returns whether it was marked."""
        entry = self.of(party)
        self.entries.remove(entry)
        return entry[1] != "w"

    def ask(self, party):
        return self.of(party)[1] != "w" and self.remove(party)

    def leave(self, party):
        mark = self.of(party)[1]
        self.remove(party)
        if mark == "n":
            self.notify()
        elif mark == "a":
            self.notify_additional(1)


class Party:
    """A party: its number, its status, and of a pending future at which place it waits."""

    def __init__(self, number):
        self.number = number
        self.status = "idle"
        self.call = None
        self.value = 0
        self.place = "Out"
        self.inner = "Out"
        self.counted = False
        self.generation = None
        self.run = None


class Lock:
    """A mutex: its word, its list, and the programs of a lock, its release and its drop."""

    def __init__(self, most=MOST):
        self.held = False
        self.starved = 0
        self.most = min(most, MOST)
        self.list = List()

    def take(self):
        if self.starved:
            return "starved"
        free, self.held = not self.held, True
        return "free" if free else "held"

    def count(self):
        full = self.starved >= self.most
        self.starved += 0 if full else 1
        return "full" if full else "done"

    def take_alone(self):
        if self.held or self.starved > 1:
            return "held" if self.held else "others"
        self.held = True
        return "free"

    def poll(self, party):
        """Returns got, pending, or a refusal's number. Where it is pending, the party's inner place says where."""
        place = {"Out": "Enter"}.get(party.inner, party.inner)
        told = listed = counted = False
        while True:
            end = None
            if place == "Enter":
                end, place = ("got", None) if self.take() == "free" else (None, "Join")
            elif place == "Join":
                joined = self.list.join(party)
                place = "Look" if joined else "RefuseNotify"
                end = None if joined or told else 1
                refusal = 1
            elif place == "Look":
                place = {"free": "Leave", "held": "Ask", "starved": "Count"}[self.take()]
                listed = True
            elif place == "Ask":
                told = self.list.ask(party)
                listed = not told
                end, place = (None, "Retry") if told else ("pending", "Ask")
            elif place == "Retry":
                found = self.take()
                end = "got" if found == "free" else None
                place = "PassOn" if found == "starved" else "Count" if party.starving else "Join"
            elif place == "PassOn":
                self.list.notify()
                place = "Count"
            elif place == "Count":
                counted = self.count() == "done"
                place = ("AskStarved" if listed else "JoinStarved") if counted else ("RefuseLeave" if listed else "RefuseNotify")
                end = None if counted or listed or told else 2
                refusal = 2
            elif place == "JoinStarved":
                place = "LookAlone" if self.list.join(party) else "RefuseUncount"
            elif place == "LookAlone":
                place = {"free": "Uncount", "held": "AskStarved", "others": "PassOnListed"}[self.take_alone()]
                listed = True
            elif place == "PassOnListed":
                self.list.notify()
                place = "AskStarved"
            elif place == "AskStarved":
                told = self.list.ask(party)
                listed = not told
                end, place = (None, "Seize") if told else ("pending", "AskStarved")
            elif place == "Seize":
                place = "JoinStarved" if self.held else "Uncount"
                self.held = True
            elif place == "Uncount":
                self.starved -= 1
                end, place = (None, "Leave") if listed else ("got", None)
            elif place == "Leave":
                self.list.leave(party)
                end = "got"
            elif place == "RefuseUncount":
                self.starved -= 1
                refusal, place = 1, "RefuseNotify"
            elif place == "RefuseLeave":
                self.list.leave(party)
                end, place = (None, "RefuseNotify") if told else (2, None)
            elif place == "RefuseNotify":
                self.list.notify()
                end = refusal
            if end is not None:
                party.inner = place if end == "pending" else "Out"
                return end
            yield

    def release(self):
        self.held = False
        yield
        self.list.notify()

    def cancel(self, party):
        place, party.inner = party.inner, "Out"
        if place == "AskStarved":
            self.starved -= 1
            yield
        if place != "Out":
            self.list.leave(party)


def ended(party, result, answer, status):
    """Leaves the party pending where its future was refused or waits, and else as the call's end has it."""
    if result == "pending" or isinstance(result, int):
        party.status = "pending"
        return "pending" if result == "pending" else f"refused {result}"
    party.status = status
    return answer


class World:
    """What all Worlds share: the parties, and which moves they may make."""

    # The first polls with the status that they lead to; and the tries and other calls of an idle party.
    first = ()
    others = ()

    def __init__(self, parties, value=0):
        self.parties = [Party(number) for number in range(parties)]
        self.value = value
        # What was dropped: a pending party's call, its place, its entry's mark, whether another is listed where it matters.
        self.dropped = []

    def may(self, party, call):
        idle = party.status in ("idle", "finished")
        if call in ("poll", "drop"):
            return party.status in ("pending", "holding", "finished")
        if call in self.first + self.others:
            return idle
        return party.status == "holding" and call in self.guard_calls(party)

    def begin(self, party, call, value):
        """Returns the generator of a call that the party may begin. None where it may not."""
        if not self.may(party, call):
            return None
        if call == "poll":
            return self.poll(party) if party.status == "pending" else constant("refused 6")
        if call == "drop":
            if party.status == "pending":
                self.dropped.append(self.place(party))
                return self.cancel(party)
            return self.drop(party) if party.status == "holding" else self.let_go(party)
        if call in self.first:
            party.call, party.value, party.place, party.inner, party.counted = call, value, "Out", "Out", False
            return self.poll(party)
        return getattr(self, call)(party, value)

    def let_go(self, party):
        party.status = "idle"
        return "given back"
        yield

    def put(self, party, value):
        self.value = value
        return f"granted {value}"
        yield

    def guard_calls(self, party):
        return ()

    def getmut(self, value):
        self.value = value
        return "ok"

    def take(self):
        return "none"

    def forget_all(self):
        for party in self.parties:
            if party.status in ("pending", "holding"):
                party.status = "forgotten"

    def place_in(self, party, place, waiting_list):
        """Describes a place whose party is listed: its mark, and whether another is listed behind it."""
        entry = waiting_list.of(party)
        if entry is None:
            return (party.call, "Out", "-", False)
        behind = waiting_list.entries[-1] is not entry
        return (party.call, place, entry[1], behind)


def constant(answer):
    return answer
    yield


class Mutex(World):
    first = ("lock",)
    others = ("trylock",)

    def __init__(self, parties, value, starved=MOST):
        super().__init__(parties, value)
        self.lock = Lock(starved)

    def poll(self, party):
        result = yield from self.lock.poll(party)
        return ended(party, result, f"ready {self.value}", "holding")

    def trylock(self, party, _):
        if self.lock.take() != "free":
            return "none"
        party.status = "holding"
        return f"granted {self.value}"
        yield

    def drop(self, party):
        yield from self.lock.release()
        party.status = "idle"
        return "given back"

    def cancel(self, party):
        yield from self.lock.cancel(party)
        party.status = "idle"
        return "given back"

    def guard_calls(self, party):
        return ("put",)

    def place(self, party):
        return self.place_in(party, party.inner, self.lock.list)

    def show(self):
        lock = self.lock
        return f"mutex locked={int(lock.held)} starved={lock.starved} value={self.value} list={lock.list}"


class RwLock(World):
    first = ("read", "upread", "write")
    others = ("tryread", "tryupread", "trywrite")

    def __init__(self, parties, value, starved=MOST, readers=MOST):
        super().__init__(parties, value)
        self.turn = Lock(starved)
        self.writer = False
        self.readers = 0
        self.most = min(readers, MOST)
        self.no_readers = List()
        self.no_writer = List()

    def add(self):
        done = self.readers < self.most
        self.readers += int(done)
        return done

    def off(self):
        self.readers -= 1
        return self.readers == 0

    def read(self):
        return "writer" if self.writer else "done" if self.add() else "full"

    def poll(self, party):
        if party.call == "read":
            result = yield from self.poll_read(party)
        elif party.place == "Out":
            result = yield from self.turn.poll(party)
            if result == "got":
                yield
                result = yield from self.poll_upread(party) if party.call == "upread" else self.poll_write(party, "Mark")
        else:
            result = yield from self.poll_write(party, party.place)
        kind = "write" if party.call == "upgrade" else party.call
        answer = ended(party, result, f"ready {self.value}", "holding")
        party.call = kind if party.status == "holding" else party.call
        return answer

    def poll_read(self, party):
        place = "AskNoWriter" if party.place == "AskNoWriter" else "EnterRead"
        told, end, refusal = False, None, None
        party.place = "Out"
        while True:
            if place == "EnterRead":
                found = self.read()
                end = "got" if found == "done" else 3 if found == "full" and not told else None
                refusal, place = 3, "RefuseNotify" if found == "full" else "JoinNoWriter"
            elif place == "JoinNoWriter":
                joined = self.no_writer.join(party)
                end = None if joined or told else 1
                refusal, place = 1, "LookNoWriter" if joined else "RefuseNotify"
            elif place == "LookNoWriter":
                place = {"done": "LeaveNoWriter", "writer": "AskNoWriter", "full": "RefuseLeave"}[self.read()]
            elif place == "AskNoWriter":
                told = self.no_writer.ask(party)
                place = "PassOn" if told else place
                end = None if told else "pending"
                party.place = "Out" if told else "AskNoWriter"
            elif place == "PassOn":
                self.no_writer.notify()
                place = "EnterRead"
            elif place == "LeaveNoWriter":
                self.no_writer.leave(party)
                end = "got"
            elif place == "RefuseLeave":
                self.no_writer.leave(party)
                end, refusal, place = (None if told else 3), 3, "RefuseNotify"
            elif place == "RefuseNotify":
                self.no_writer.notify()
                end = refusal
            if end is not None:
                return end
            yield

    def poll_upread(self, party):
        if self.add():
            return "got"
        yield
        yield from self.turn.release()
        return 3

    def poll_write(self, party, place):
        while True:
            end = None
            if place == "Mark":
                self.writer = True
                end, place = (None, "JoinNoReaders") if self.readers else ("got", None)
            elif place == "JoinNoReaders":
                if not self.no_readers.join(party):
                    if party.call == "write":
                        yield
                        yield from self.unlock()
                        party.place = "Out"
                    else:
                        party.place = "LookUnlisted"
                    return 1
                place = "AwaitNoReaders"
            elif place == "AwaitNoReaders":
                place = "AskNoReaders" if self.readers else "LeaveNoReaders"
            elif place == "AskNoReaders":
                asked = self.no_readers.ask(party)
                place = "LookUnlisted" if asked else "AwaitNoReaders"
                end = None if asked else "pending"
            elif place == "LookUnlisted":
                end, place = (None, "JoinNoReaders") if self.readers else ("got", None)
            elif place == "LeaveNoReaders":
                self.no_readers.leave(party)
                end, place = "got", None
            if end is not None:
                party.place = place
                return end
            yield

    def unlock(self):
        self.writer = False
        yield
        self.no_writer.notify()
        yield
        yield from self.turn.release()

    def tryread(self, party, _):
        return self.granted(party, "read", self.read() == "done")
        yield

    def tryupread(self, party, _):
        if self.turn.take() != "free":
            return "none"
        yield
        done = self.add()
        if not done:
            yield
            yield from self.turn.release()
        return self.granted(party, "upread", done)

    def trywrite(self, party, _):
        if self.turn.take() != "free":
            return "none"
        yield
        done = not self.writer and not self.readers
        self.writer = self.writer or done
        if not done:
            yield
            yield from self.turn.release()
        return self.granted(party, "write", done)

    def granted(self, party, kind, done):
        if done:
            party.status, party.call = "holding", kind
        return f"granted {self.value}" if done else "none"

    def tryupgrade(self, party, _):
        done = not self.writer and self.readers == 1
        if done:
            self.writer, self.readers = True, 0
        return self.granted(party, "write", done)
        yield

    def upgrade(self, party, _):
        self.writer = True
        self.readers -= 1
        party.status, party.call, party.place, party.inner = "pending", "upgrade", "LookUnlisted", "Out"
        return "waiting"
        yield

    def downgrade(self, party, _):
        if party.call == "write":
            self.writer = False
            self.readers += 1
            yield
            yield from self.turn.release()
            yield
            self.no_writer.notify()
        else:
            yield from self.turn.release()
        party.call = "read"
        return "given back"

    def toupgradable(self, party, _):
        self.writer = False
        self.readers += 1
        yield
        self.no_writer.notify()
        party.call = "upread"
        return "given back"

    def drop(self, party):
        if party.call == "write":
            yield from self.unlock()
        else:
            last = self.off()
            if last:
                yield
                self.no_readers.notify()
            if party.call == "upread":
                yield
                yield from self.turn.release()
        party.status = "idle"
        return "given back"

    def cancel(self, party):
        if party.call == "read":
            if party.place == "AskNoWriter":
                self.no_writer.leave(party)
        elif party.place == "Out":
            yield from self.turn.cancel(party)
        else:
            if party.place == "AwaitNoReaders":
                self.no_readers.leave(party)
                yield
            yield from self.unlock()
        party.status, party.place = "idle", "Out"
        return "given back"

    def guard_calls(self, party):
        return {"read": (), "upread": ("tryupgrade", "upgrade", "downgrade"), "write": ("put", "downgrade", "toupgradable")}[party.call]

    def place(self, party):
        if party.call == "read":
            return self.place_in(party, "AskNoWriter", self.no_writer)
        if party.place == "Out":
            return self.place_in(party, f"WaitTurn, {party.inner}", self.turn.list)
        entry = self.no_readers.of(party)
        others = bool(self.no_writer.waiting()) and bool(self.turn.list.waiting())
        return (party.call, party.place, entry[1] if entry else "-", others)

    def show(self):
        turn = self.turn
        return (
            f"rwlock turn={int(turn.held)} starved={turn.starved} writer={int(self.writer)} readers={self.readers} "
            f"value={self.value} turnlist={turn.list} noreaders={self.no_readers} nowriter={self.no_writer}"
        )


class Semaphore(World):
    first = ("acquire",)
    others = ("tryacquire", "add")

    def __init__(self, parties, permits, most=GREATEST):
        super().__init__(parties)
        self.available = self.limit = permits
        self.most = most
        self.list = List()

    def take_permits(self, party):
        done = self.available >= party.value
        self.available -= party.value if done else 0
        return done

    def poll(self, party):
        place = "Take"
        listed = party.place == "Retake"
        told, end = False, None
        party.place = "Out"
        while True:
            if place == "Take":
                left, found = self.take_permits(party), self.available
                place = ("Remove" if listed else "HandOn") if left else ("Ask" if listed else "Join")
                end = "got" if left and not listed and not (told and found) else None
            elif place == "Join":
                listed = self.list.join(party, party.value)
                end = None if listed or told else 1
                place = "Take" if listed else "RefuseFit"
            elif place == "Ask":
                asked = self.list.ask(party)
                end = None if asked or told else "pending"
                place = "Take" if asked else "PassOn"
                told, listed = told or asked, not asked
            elif place == "Remove":
                marked = self.list.remove(party)
                end = None if marked or (told and found) else "got"
                place = "Load" if marked else "HandOn"
            elif place == "Load":
                found, place = self.available, "HandOn"
            else:
                self.list.fit(found)
                end = {"HandOn": "got", "PassOn": "pending", "RefuseFit": 1}[place]
            if end is not None:
                party.place = "Retake" if end == "pending" else "Out"
                return ended(party, end, "ready", "holding")
            yield

    def tryacquire(self, party, value):
        party.value = value
        done = self.take_permits(party)
        party.status = "holding" if done else party.status
        return "granted" if done else "none"
        yield

    def add(self, party, value):
        if self.limit + value > self.most:
            return "refused 4"
        self.limit += value
        yield
        self.available += value
        found = self.available
        yield
        self.list.fit(found)
        return "granted"

    def drop(self, party):
        self.available += party.value
        found = self.available
        yield
        self.list.fit(found)
        party.status = "idle"
        return "given back"

    def forget(self, party, _):
        self.limit -= party.value
        party.status = "idle"
        return "given back"
        yield

    def cancel(self, party):
        if party.place == "Retake" and self.list.remove(party):
            yield
            found = self.available
            yield
            self.list.fit(found)
        party.status, party.place = "idle", "Out"
        return "given back"

    def guard_calls(self, party):
        return ("forget",)

    def getmut(self, value):
        return None

    def take(self):
        return None

    def place(self, party):
        return self.place_in(party, "Retake", self.list)

    def show(self):
        return f"semaphore available={self.available} limit={self.limit} list={self.list}"


class Cell(World):
    first = ("init", "set", "wait")
    others = ("tryset",)

    def __init__(self, parties):
        super().__init__(parties)
        self.state = "empty"
        self.active = List()
        self.passive = List()

    def claim(self):
        found = self.state
        self.state = "making" if found == "empty" else found
        return found

    def poll(self, party):
        result = yield from self.poll_wait(party) if party.call == "wait" else self.poll_maker(party)
        if result == "full":
            result = f"taken {party.value}" if party.call == "set" else str(self.value)
        return ended(party, result, f"ready {result}", "finished")

    def poll_maker(self, party):
        place = {"Out": "Claim"}.get(party.place, party.place)
        told, end = False, None
        party.place = "Out"
        while True:
            if place == "Claim":
                found = self.claim()
                end = "full" if found == "full" else None
                place = "Make" if found == "empty" else "JoinActive"
            elif place == "JoinActive":
                joined = self.active.join(party)
                end = None if joined or told else 1
                place = "ClaimListed" if joined else "RefuseActive"
            elif place == "ClaimListed":
                place = {"empty": "LeaveToMake", "making": "AskActive", "full": "LeaveFull"}[self.claim()]
            elif place == "AskActive":
                told = self.active.ask(party)
                party.place = "Out" if told else place
                end, place = (None, "Claim") if told else ("pending", place)
            elif place == "LeaveToMake":
                self.active.leave(party)
                place = "Make"
            elif place == "Make":
                made = party.value if party.call == "set" else party.made
                party.place = place if made is None else "Out"
                end = "pending" if made is None else None
                place = "Fail" if made == "fail" else "Fill"
            elif place == "Fill":
                self.state, self.value = "full", made
                place = "NotifyActive"
            elif place == "NotifyActive":
                self.active.notify_additional(GREATEST)
                place = "NotifyPassive"
            elif place == "NotifyPassive":
                self.passive.notify_additional(GREATEST)
                end = str(made)
            elif place == "Fail":
                self.state, place = "empty", "FailNotify"
            elif place == "LeaveFull":
                self.active.leave(party)
                end = "full"
            else:
                self.active.notify()
                end = "failed" if place == "FailNotify" else 1
            if end is not None:
                return end
            yield

    def poll_wait(self, party):
        place = "AskPassive" if party.place == "AskPassive" else "Look"
        told, end = False, None
        party.place = "Out"
        while True:
            if place == "Look":
                end, place = ("full", None) if self.state == "full" else (None, "JoinPassive")
            elif place == "JoinPassive":
                joined = self.passive.join(party)
                end = None if joined or told else 1
                place = "LookListed" if joined else "RefusePassive"
            elif place == "LookListed":
                place = "LeavePassive" if self.state == "full" else "AskPassive"
            elif place == "AskPassive":
                told = self.passive.ask(party)
                party.place = "Out" if told else place
                end, place = (None, "Look") if told else ("pending", place)
            elif place == "LeavePassive":
                self.passive.leave(party)
                end = "full"
            elif place == "RefusePassive":
                self.passive.notify()
                end = 1
            if end is not None:
                return end
            yield

    def tryset(self, party, value):
        if self.claim() != "empty":
            return "none"
        yield
        self.state, self.value = "full", value
        yield
        self.active.notify_additional(GREATEST)
        yield
        self.passive.notify_additional(GREATEST)
        return "granted"

    def cancel(self, party):
        if party.place == "Make":
            self.state = "empty"
            yield
            self.active.notify()
        elif party.place != "Out":
            (self.passive if party.call == "wait" else self.active).leave(party)
        party.status, party.place = "idle", "Out"
        return "given back"

    def getmut(self, value):
        if self.state != "full":
            return "none"
        self.value = value
        return "ok"

    def take(self):
        if self.state != "full":
            return "none"
        self.state = "empty"
        return str(self.value)

    def place(self, party):
        if party.place == "Make":
            return (party.call, "Make", "-", bool(self.active.waiting()))
        waits = party.call == "wait"
        return self.place_in(party, "AskPassive" if waits else "AskActive", self.passive if waits else self.active)

    def show(self):
        state = f"full {self.value}" if self.state == "full" else self.state
        return f"cell {state} active={self.active} passive={self.passive}"


class Barrier(World):
    first = ("wait",)

    def __init__(self, parties, number, starved=MOST, generations=GREATEST):
        super().__init__(parties)
        self.number = number
        self.count = self.generation = 0
        self.most = generations
        self.lock = Lock(starved)
        self.list = List()

    def poll(self, party):
        result = yield from self.poll_all(party)
        answer = f"ready {result}"
        return ended(party, result, answer, "finished")

    def poll_all(self, party):
        if party.place == "Ask":
            if not self.list.ask(party):
                return "pending"
            party.place = "Out"
            yield
        result = yield from self.lock.poll(party)
        if result != "got":
            return result
        yield
        return (yield from self.check(party) if party.counted else self.arrive(party))

    def arrive(self, party):
        if self.count + 1 < self.number:
            yield
            if not self.list.join(party):
                return (yield from self.released(1))
            yield
            self.count += 1
            party.counted, party.generation = True, self.generation
            return (yield from self.wait_in_list(party))
        if self.generation >= self.most:
            return (yield from self.released(5))
        yield
        self.count, self.generation = 0, self.generation + 1
        yield
        self.list.notify(GREATEST)
        return (yield from self.released("leader"))

    def check(self, party):
        if self.generation != party.generation:
            return (yield from self.released("follower"))
        yield
        if not self.list.join(party):
            return (yield from self.released(1))
        return (yield from self.wait_in_list(party))

    def released(self, result):
        yield
        yield from self.lock.release()
        return result

    def wait_in_list(self, party):
        yield from self.released(None)
        yield
        if self.list.ask(party):
            yield
            return (yield from self.poll_all(party))
        party.place = "Ask"
        return "pending"

    def cancel(self, party):
        if party.place == "Ask":
            self.list.leave(party)
        else:
            yield from self.lock.cancel(party)
        party.status, party.place = "idle", "Out"
        return "given back"

    def getmut(self, value):
        return None

    def take(self):
        return None

    def place(self, party):
        if party.place == "Ask":
            return self.place_in(party, "Ask", self.list)
        counted = ", counted" if party.counted else ""
        return self.place_in(party, f"WaitLock, {party.inner}{counted}", self.lock.list)

    def show(self):
        lock = self.lock
        return (
            f"barrier count={self.count} generation={self.generation} locked={int(lock.held)} starved={lock.starved} "
            f"lock={lock.list} list={self.list}"
        )


class Pool(World):
    first = ("take",)
    others = ("trytake",)

    def __init__(self, parties, number):
        super().__init__(parties)
        self.permits = Semaphore(0, number)
        self.lock = Lock()
        self.items = list(range(number))
        for party in self.parties:
            party.leased, party.paid = None, False

    def poll(self, party):
        return (yield from self.poll_give(party) if party.call == "give" else self.poll_take(party))

    def poll_take(self, party):
        if not party.paid:
            answer = yield from self.permits.poll(party)
            if answer != "ready":
                return answer
            party.paid = True
            yield
        result = yield from self.lock.poll(party)
        if result == "got":
            yield
            return f"ready {(yield from self.pop(party))}"
        if result != "pending":
            yield
            yield from self.give_permit(party)
        return ended(party, result, None, None)

    def pop(self, party):
        party.leased = self.items.pop()
        yield
        yield from self.lock.release()
        party.status = "holding"
        return party.leased

    def give_permit(self, party):
        yield from self.permits.drop(party)
        party.paid = False

    def trytake(self, party, value):
        party.value = value
        if not self.permits.take_permits(party):
            return "none"
        party.paid = True
        yield
        if self.lock.take() != "free":
            yield
            yield from self.give_permit(party)
            return "none"
        yield
        return f"granted {(yield from self.pop(party))}"

    def give(self, party, _):
        party.call, party.inner = "give", "Out"
        return (yield from self.poll_give(party))

    def poll_give(self, party):
        result = yield from self.lock.poll(party)
        if result != "got":
            return ended(party, result, None, None)
        yield
        self.items.append(party.leased)
        party.leased = None
        yield
        yield from self.lock.release()
        yield
        yield from self.give_permit(party)
        return "given back"

    def lose(self, party):
        self.permits.limit -= 1
        party.leased, party.paid = None, False
        party.status = "idle"
        return "given back"

    def drop(self, party):
        return self.lose(party)
        yield

    def cancel(self, party):
        if party.call == "give":
            if party.inner != "Out":
                yield from self.lock.cancel(party)
                yield
            return self.lose(party)
        if party.paid:
            yield from self.lock.cancel(party)
            yield
            yield from self.give_permit(party)
        else:
            yield from self.permits.cancel(party)
        return "given back"

    def guard_calls(self, party):
        return ("give",)

    def getmut(self, value):
        return None

    def take(self):
        return None

    def place(self, party):
        if party.call == "give" or party.paid:
            return self.place_in(party, f"WaitLock, {party.inner}", self.lock.list)
        return self.place_in(party, "Retake", self.permits.list)

    def show(self):
        permits, lock = self.permits, self.lock
        return (
            f"pool available={permits.available} limit={permits.limit} list={permits.list} "
            f"locked={int(lock.held)} starved={lock.starved} lock={lock.list} items=[{' '.join(map(str, self.items))}]"
        )


WORLDS = {
    "mutex": Mutex,
    "rwlock": RwLock,
    "semaphore": Semaphore,
    "cell": Cell,
    "barrier": Barrier,
    "pool": Pool,
}


class Replay:
    """A script's run: the World that stands, and what was dropped in which of its lines."""

    def __init__(self):
        self.world = None
        self.drops = []

    def answer(self, words):
        """Carries out one line, and returns what it prints."""
        if words[0] in WORLDS:
            return self.make(words)
        if words[0] == "show":
            return self.world.show()
        if words[0] in ("getmut", "take"):
            return self.from_outside(words)
        return self.move(words)

    def make(self, words):
        numbers = [int(word) for word in words[1:]]
        if words[0] == "semaphore" and len(numbers) > 2 and numbers[1] > numbers[2]:
            return "refused 4"
        self.world = WORLDS[words[0]](*numbers)
        return "ok"

    def from_outside(self, words):
        world = self.world
        if any(party.run for party in world.parties):
            return "not possible"
        if words[0] == "take" and not isinstance(world, Cell):
            return "not possible"
        answer = world.getmut(int(words[1])) if words[0] == "getmut" else world.take()
        if answer is None:
            return "not possible"
        world.forget_all()
        return answer

    def move(self, words):
        number = int(words[1])
        if number >= len(self.world.parties):
            return "not possible"
        party = self.world.parties[number]
        rest = words[2:]
        if words[0] != "go":
            call, rest = rest[0], rest[1:]
            value = int(rest.pop(0)) if rest and rest[0].isdigit() else 1
            if party.run or party.status == "forgotten":
                return "not possible"
            before = len(self.world.dropped)
            party.run = self.world.begin(party, call, value)
            self.drops += self.world.dropped[before:]
        if not party.run:
            return "not possible"
        made = next((word[5:] for word in rest if word.startswith("made=")), None)
        party.made = made if made in (None, "fail") else int(made)
        party.memory, party.starving = "nomem" not in rest, "starving" in rest
        return self.step(party, words[0] == "do")

    def step(self, party, whole):
        try:
            next(party.run)
            while whole:
                next(party.run)
            return "stepped"
        except StopIteration as end:
            party.run = None
            return end.value


def lines_of(text):
    return [line for line in text.splitlines() if line and not line.startswith("#")]
