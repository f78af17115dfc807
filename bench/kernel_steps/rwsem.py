"""The semaphore: which steps a call makes on the count, the hint, the list, grant words and marks, and what holds at each moment."""
import counts
import words
from call import BUSY, EINTR, Call
from counts import did, differs, need
from machine import STAYS, at

COUNT, HINT, HEAD, GRANT, MARK = "count", "hint", "head", "wtask", "mark"
ANY, READERS, READ_OWNED = "ANY", "READERS", "READ_OWNED"
SHARED, ALONE = "shared", "alone"
NONSPINNABLE = 2

WAKE_POINTS = {"wake: chooses the writer", "wake: reserves", "wake: takes back", "wake: stores the hint", "wake: removes", "wake: grants"}
# Points of a queued writer that will try before it sleeps.
AWAKE = {"write: is it alone", "write: sets WAITERS", "write: loads the count", "write: tries", "write: takes the wait lock again",
         "write: takes the wait lock to try", "write: marks", "write: releases, marked"}
# Points between a change of the list and one of the count, where flags and list may differ.
BETWEEN = {"write: sets WAITERS", "read: takes back", "write: marks", "write: removes itself", "write: stores the hint in line",
           "leave: clears the flags"} | WAKE_POINTS


class SemaphoreCall(Call):
    left = 0                    # the count that the call's own addition left
    granted = in_transit = late = owes = writes = False
    reserved = 0
    kind = after = None         # of a wake, and where the call goes on behind it
    first = seen = waits_for = None
    to_remove = to_grant = ()
    overdue = None
    wakes_readers = empty = marked = False

    def begins(self, call):
        need(self.point == "out", "a call within a call")
        self.call, self.interruptible, self.writes = call, call.endswith("_int"), call.startswith("write")
        self.point = {
            "read": "read: adds a bias", "read_int": "read: adds a bias", "write": "write: fast", "write_int": "write: fast",
            "read_try": "read_try", "write_try": "write_try", "up_read": "up_read", "up_write": "up_write: clears the hint",
            "downgrade": "downgrade"}[call]
        self.signal = 0
        if call in ("up_read", "up_write", "downgrade"):
            need(self.hold == (SHARED if call == "up_read" else ALONE), call + " without holding")

    def ends(self, result):
        need(not self.chosen, "ends with a wake to do")
        if result == BUSY:
            self.expect_point("a try answers no", "missed")
        elif result == EINTR:
            need(self.point == "returns interrupted" and not self.hold, "interrupted at %s", self.point)
        else:
            self.expect_point(self.call + " ends", "returns")
            shares = self.call == "downgrade" or not self.writes
            need(self.hold == ("" if self.call.startswith("up") else SHARED if shares else ALONE), "what it holds at the end")
        self.point = "out"

    def holds(self, how):
        for task in self.run.tasks:
            beside = task.hold == ALONE or how == ALONE and task.hold
            need(task is self or not beside, "holds beside another")
        self.hold, self.in_transit = how, False

    # ---- a reader comes ----------------------------------------------------------------------------
    @at("read: adds a bias")
    def add_bias(self, s):
        if s.kind != COUNT or s.op != "A":
            return None
        self.left = s.new
        if s.makes(words.count_read_add(s.old), "hold", "transit") == "hold":
            did("down_read: adds a bias, Fast")
            self.holds(SHARED)
            self.point = "read: stores the hint"
        else:
            did("down_read: adds a bias, is in transit")
            self.in_transit, self.point = True, "read: loads the hint"
        return STAYS

    @at("read: loads the hint")
    def may_steal(self, s):
        if s.kind != HINT or s.op != "L":
            return None
        readers = self.left >> 8
        if s.old & 1 and readers > 1 and not self.left & words.WRITER:
            did("down_read 1: others read, to 3")
            self.point = "read: takes the wait lock"
        elif not self.left & (words.WRITER | words.ASKED):
            self.wakes_readers = readers == 1 and self.left & words.HAS_WAITERS
            did("down_read 2: steals, is to wake readers" if self.wakes_readers else "down_read 2: steals")
            self.holds(SHARED)
            self.point = "read: stores the hint as it steals"
        else:
            did("down_read 2: a writer, to 3" if self.left & words.WRITER else "down_read 2: HANDOFF, to 3")
            self.point = "read: takes the wait lock"
        return STAYS

    @at("read: takes the wait lock")
    def set_grant_word(self, s):
        if s.kind != GRANT or s.of != self.code or s.op != "s" or s.new != 1:
            return None
        differs("down_read 4: the grant word is set before the wait lock is taken")
        return STAYS

    @at("read: looks for waiters")
    def look_for_waiters(self, s):
        if s.kind != HEAD or not s.loads:
            return None
        self.empty = not s.old
        if s.old:
            did("down_read 3: others wait")
        self.point = "read: appends" if s.old else "read: loads the count"
        return STAYS

    @at("read: loads the count")
    def load_count_alone(self, s):
        if s.kind != COUNT or s.op != "L":
            return None
        if s.old & words.WRITER:
            did("down_read 3: empty list, a writer")
            self.point = "read: appends"
        else:
            did("down_read 3: empty list, no writer: holds")
            self.holds(SHARED)
            self.point = "read: releases, holds"
        return STAYS

    @at("read: takes back")
    def take_back(self, s):
        if s.kind != COUNT or s.op != "A":
            return None
        s.makes(words.count_read_back(s.old, self.empty))
        self.in_transit = False
        if s.new & words.WRITER:
            did("down_read 4: takes the bias back, a writer is there")
            self.point = "read: releases to sleep"
            return STAYS
        readers = s.new & ~0xFF
        did("down_read 4: takes the bias back, readers" if readers else "down_read 4: takes the bias back, nobody")
        self.wake(READERS if readers else ANY, "read: releases to sleep")
        return STAYS

    @at("read: waits")
    def load_grant_word(self, s):
        if s.kind != GRANT or s.of != self.code or not s.loads:
            return None
        if s.old:
            did("down_read 5: grant word is 1")
            self.point, self.signal = "read: sleeps", None
        else:
            did("down_read 5: grant word is 0, holds")
            self.is_granted("returns")
        return STAYS

    @at("read: looks once more")
    def load_grant_word_again(self, s):
        if s.kind != GRANT or s.of != self.code or not s.loads:
            return None
        if s.old:
            did("down_read 5: a signal, not granted, leaves")
            self.point = "leave: removes"
        else:
            did("down_read 5: a signal, but granted")
            self.is_granted("read: releases, granted")
        return STAYS

    def is_granted(self, point):
        self.granted = False
        self.holds(SHARED)
        self.point = point

    @at("read_try")
    def try_to_read(self, s):
        if s.kind != COUNT or not (s.op == "L" or s.takes or s.fails):
            return None
        answer = words.count_read_try(s.old)
        if s.takes:
            s.makes(answer, "take")
            did("down_read_trylock: takes")
            self.holds(SHARED)
            self.point = "read: stores the hint"
            return STAYS
        if s.fails:
            did("down_read_trylock: exchange fails, again")
        if answer[0] == "fail":
            if not s.fails:
                did("down_read_trylock: fails")
            self.point = "missed"
        return STAYS

    # ---- a writer comes ----------------------------------------------------------------------------
    @at("write: fast", "write_try")
    def write_at_once(self, s):
        if s.kind != COUNT or not (s.takes or s.fails):
            return None
        tries = self.point == "write_try"
        if s.takes:
            s.makes(words.count_write_try(s.old), "take")
            did("down_write_trylock: takes" if tries else "down_write: Fast")
            self.holds(ALONE)
            self.point = "write: stores the hint"
        else:
            did("down_write_trylock: fails" if tries else "down_write: fast exchange fails")
            self.point = "missed" if tries else "write: may spin"
        return STAYS

    @at("write: spins")
    def write_spinning(self, s):
        if s.kind != COUNT or not (s.takes or s.fails):
            return None
        if s.fails:
            did("down_write 1: exchange fails, again")
            return STAYS
        if self.run.value.get("hint", 0) & 1:
            differs("down_write 1: spins though readers hold by the hint")
        s.makes(words.count_write_spin(s.old), "take")
        did("down_write 1: takes, WAITERS" if s.old & words.HAS_WAITERS else "down_write 1: takes")
        self.holds(ALONE)
        self.point = "write: stores the hint as it spins"
        return STAYS

    @at("write: is it alone")
    def look_whether_alone(self, s):
        if s.kind != HEAD or not s.loads:
            return None
        self.point = "write: sets WAITERS" if s.old == self.code else "write: loads the count"
        return STAYS

    @at("write: sets WAITERS")
    def set_waiters(self, s):
        if s.kind != COUNT or s.op != "O":
            return None
        need(not s.old & (words.HAS_WAITERS | words.ASKED), "down_write 2: sets WAITERS of %d", s.old)
        s.makes(words.count_set_waiters(s.old))
        did("down_write 2: sets WAITERS")
        self.point, self.seen = "write: tries", None
        return STAYS

    @at("write: loads the count")
    def load_count_in_line(self, s):
        if s.kind != COUNT or s.op != "L":
            return None
        if s.old & words.WRITER:
            did("down_write 2: not first, a writer")
            self.point = "write: tries"
        else:
            readers = s.old & ~0xFF
            did("down_write 2: not first, readers" if readers else "down_write 2: not first, nobody")
            self.wake(READERS if readers else ANY, "write: tries")
        self.seen = self.overdue = None
        return STAYS

    @at("write: tries")
    def write_in_line(self, s):
        if s.kind != COUNT or not (s.op == "L" or s.takes or s.fails):
            return None
        if s.takes:
            return self.take_or_mark(s)
        if s.fails:
            did("down_write 3: exchange fails, again")
        self.seen, self.overdue = s.old, None
        return STAYS

    def try_queued(self, word):
        """What this writer's try in the list makes of the word."""
        first = self.run.list[0]
        return words.count_write_queued(word, first == self.code, bool(self.run.marks.get(first)), self.run.list == [self.code],
                                        bool(self.overdue))

    def take_or_mark(self, s):
        first = self.run.list[0]
        if s.makes(self.try_queued(s.old), "take", "mark") == "mark":
            did("down_write 3: marks itself" if first == self.code else "down_write 3: marks another")
            self.point = "write: marks"
            return STAYS
        if s.old & words.ASKED:
            did("down_write 3: takes, HANDOFF")
            if not self.run.marks.get(first):
                did("down_write 3: takes, HANDOFF and nobody marked")
        did("down_write 3: takes, others wait" if s.new & words.HAS_WAITERS else "down_write 3: takes, alone")
        if first != self.code:
            did("down_write 3: takes, not first")
        self.holds(ALONE)
        self.point = "write: removes itself"
        return STAYS

    def gives_up(self):
        """The wait lock is released behind a try: the last word that it saw must be one that fails."""
        answer = self.try_queued(self.seen)
        need(answer[0] == "fail", "down_write 3: gives up on %d, and the rule says %s", self.seen, answer[0])
        did("down_write 3: fails, another is marked and the lock is free" if not self.seen & words.LOCK_BITS
            else "down_write 3: fails, HANDOFF is set" if self.seen & words.ASKED else "down_write 3: fails, time isn't over")
        self.point, self.signal = "write: sleeps", None

    @at("write: marks")
    def mark_first(self, s):
        if s.kind != MARK or not s.stores or not s.new:
            return None
        need(s.of == self.run.list[0], "marks another than the first")
        self.point = "write: releases, marked"
        return STAYS

    # ---- the owner hint ----------------------------------------------------------------------------
    def set_nonspinnable(self, s):
        """The kernel alone has these steps, on a flag of the hint."""
        if s.op in "CN" and s.old ^ s.new == NONSPINNABLE:
            differs("owner hint: NONSPINNABLE")
            return STAYS
        return STAYS if s.fails else None

    def store_hint(self, s, hint, point, label=None):
        """The call stores this hint next."""
        if s.kind != HINT:
            return None
        if s.loads:
            return STAYS
        if not s.stores:
            return self.set_nonspinnable(s)
        need(s.new in (hint, hint | s.old & NONSPINNABLE), "the hint from %d to %d", s.old, s.new)
        if s.old & NONSPINNABLE:
            differs("owner hint: NONSPINNABLE")
        if label and s.op == "S":
            differs(label)
        self.point = point
        return STAYS

    @at("read: stores the hint")
    def note_reader(self, s):
        label = "down_read_trylock stores the owner hint" if self.call == "read_try" else None
        return self.store_hint(s, 8 * self.code | 1, "returns", label)

    @at("read: stores the hint as it steals")
    def note_reader_that_stole(self, s):
        return self.store_hint(s, 8 * self.code | 1, "read: takes the wait lock to wake" if self.wakes_readers else "returns")

    @at("write: stores the hint")
    def note_writer(self, s):
        label = "down_write_trylock stores the owner hint" if self.call == "write_try" else None
        return self.store_hint(s, 8 * self.code, "returns", label)

    @at("write: stores the hint as it spins")
    def note_writer_that_spun(self, s):
        label = "down_write: stores the hint before it leaves the spin queue"
        return self.store_hint(s, 8 * self.code, "write: leaves the spin queue, took", label)

    @at("write: stores the hint in line")
    def note_writer_in_line(self, s):
        label = "down_write: stores the hint before it releases the wait lock"
        return self.store_hint(s, 8 * self.code, "write: releases, holds", label)

    @at("wake: stores the hint")
    def note_batch(self, s):
        handled = self.store_hint(s, 8 * self.first | 1, self.point)
        if handled and s.op == "S":
            self.take_batch()
        return handled

    @at("up_write: clears the hint")
    def clear_hint(self, s):
        if s.kind != HINT:
            return None
        if s.stores:
            need(s.new == 0, "up_write stores the hint %d", s.new)
            self.point = "up_write"
        return STAYS

    @at("downgrade: stores the hint")
    def note_downgrade(self, s):
        wakes = self.left & words.HAS_WAITERS
        handled = self.store_hint(s, 8 * self.code | 1, "release: takes the wait lock" if wakes else "returns")
        if handled and s.op == "S":
            did("downgrade_write: is to wake" if wakes else "downgrade_write: wakes nobody")
            self.kind = READ_OWNED
        return handled

    # ---- a release ---------------------------------------------------------------------------------
    @at("up_read")
    def end_read(self, s):
        if s.kind != COUNT or s.op != "A":
            return None
        wakes = s.makes(words.count_up_read(s.old), "wake", "to") == "wake"
        did("up_read: is to wake" if wakes else "up_read: wakes nobody")
        self.end_hold(wakes)
        return STAYS

    @at("up_write")
    def end_write(self, s):
        if s.kind != COUNT or s.op != "A":
            return None
        wakes = s.makes(words.count_up_write(s.old), "wake", "to") == "wake"
        did("up_write: is to wake" if wakes else "up_write: wakes nobody")
        self.end_hold(wakes)
        return STAYS

    def end_hold(self, wakes):
        self.hold = ""
        self.point = "release: takes the wait lock" if wakes else "returns"
        if wakes:
            self.kind, self.owes = ANY, True

    @at("downgrade")
    def downgrade(self, s):
        if s.kind != COUNT or s.op != "A":
            return None
        self.owes = s.makes(words.count_downgrade(s.old), "wake", "to") == "wake"
        self.hold, self.left = SHARED, s.old
        self.point = "downgrade: stores the hint"
        return STAYS

    @at("read: looks whom to wake", "release: looks whom to wake")
    def look_whom_to_wake(self, s):
        if s.kind != HEAD or not s.loads:
            return None
        stole = self.point == "read: looks whom to wake"
        after = "read: releases" if stole else "release: releases the wait lock"
        self.owes = False
        if s.old:
            self.wake(READ_OWNED if stole else self.kind, after)
        else:
            did("wake: nobody waits any more")
            self.point = after
        return STAYS

    # ---- a wake ------------------------------------------------------------------------------------
    def wake(self, kind, after):
        """A wake of this kind, under the wait lock. The list isn't empty."""
        first = self.run.tasks[self.run.list[0] - 1]
        self.kind, self.after = kind, after
        if first.writes and kind == ANY:
            self.point, self.first = "wake: chooses the writer", first.code
        elif first.writes:
            did("wake READERS: a writer is first" if kind == READERS else "wake READ_OWNED: a writer is first")
            self.point = after
        else:
            self.first = first.code
            if kind == READ_OWNED:
                did("wake READ_OWNED: a reader is first")
                self.take_batch()
            else:
                self.point = "wake: reserves"

    @at("wake: reserves")
    def reserve(self, s):
        if s.kind != COUNT or s.op != "A":
            return None
        self.late = s.makes(words.count_reserve(s.old), "late", "reserved") == "late"
        self.reserved, self.marked = 1, False
        did("wake 2: a writer is there" if self.late else "wake 2: no writer")
        self.point = "wake: takes back" if self.late else "wake: stores the hint"
        return STAYS

    @at("wake: takes back")
    def unreserve(self, s):
        if s.kind == MARK:
            return self.mark_overdue(s)
        if s.kind != COUNT or s.op != "A":
            return None
        s.makes(words.count_unreserve(s.old, self.marked))
        did("wake 2: takes the bias back" if not self.marked else "wake 2: takes the bias back, marked, HANDOFF was set"
            if s.old & words.ASKED else "wake 2: takes the bias back and sets HANDOFF")
        self.reserved = 0
        self.point = self.after
        return STAYS

    def mark_overdue(self, s):
        if not s.stores or not s.new:
            return None
        need(s.of == self.first == self.run.list[0], "marks another than the first")
        need(self.jiffies is not None and self.jiffies > self.run.times[s.of], "marks before time is over")
        if self.call in ("up_read", "up_write", "downgrade"):
            differs("a release marks the first waiter")
        did("wake 2: marks the first waiter")
        self.marked = True
        return STAYS

    def take_batch(self):
        run = self.run
        waiters = [2 * code + run.tasks[code - 1].writes for code in run.list]
        self.batch = list(words.batch(words.BATCH, *waiters)[1:])
        self.to_remove, self.point = list(self.batch), "wake: removes"
        did("wake 3: the batch leaves waiters" if len(self.batch) < len(run.list) else "wake 3: the batch is the list")
        if self.batch != run.list[:len(self.batch)]:
            did("wake 3: the batch passes over a writer")
        if len(self.batch) > 1:
            did("wake 3: a batch of more than one")
        if len(self.batch) == words.BATCH:
            did("wake 3: a batch of 256")
            if sum(not waiter & 1 for waiter in waiters) > words.BATCH:
                did("wake 3: a batch of 256, readers are left")

    def sum_of(self, count):
        return words.count_batch(count, len(self.batch), self.kind != READ_OWNED, not self.run.list)

    def count_sum(self, count):
        counts.sums["%s, %s, %s, %s" % (
            self.kind, "one reader" if len(self.batch) == 1 else "readers", "HANDOFF" if count & words.ASKED else "no HANDOFF",
            "others wait" if self.run.list else "nobody waits")] += 1

    @at("wake: removes")
    def add_sum(self, s):
        if s.kind == GRANT:
            return self.grant_without_sum(s)
        if s.kind != COUNT or s.op != "A":
            return None
        need(not self.to_remove, "wake 4: adds its sum with a batch that isn't removed")
        s.makes(self.sum_of(s.old))
        did("wake 4: adds the sum")
        if s.old & words.ASKED:
            did("wake 4: clears HANDOFF")
        if not self.run.list:
            did("wake 4: clears WAITERS")
        self.begin_grants(s.old)
        return STAYS

    def grant_without_sum(self, s):
        """A grant with no sum before it: the sum must be 0."""
        if not s.stores or s.new:
            return None
        count = self.run.value.get("count", 0)
        need(not self.to_remove and self.sum_of(count)[0] == "none", "wake 5: grants %d without the sum", s.of)
        did("wake 4: the sum is 0, no step")
        self.begin_grants(count)
        return self.grant(s)

    def begin_grants(self, count):
        self.count_sum(count)
        self.reserved = 0
        for code in self.batch:
            self.run.tasks[code - 1].granted = True
        self.to_grant, self.point = list(self.batch), "wake: grants"

    @at("wake: grants")
    def grant(self, s):
        if s.kind != GRANT or not s.stores or s.new:
            return None
        need(self.to_grant and s.of == self.to_grant[0], "wake 5: grants %d", s.of)
        did("wake 5: grants")
        self.to_grant.pop(0)
        self.waits_for = s.of
        return STAYS

    def chooses(self, who):
        if self.point == "wake: chooses the writer":
            need(who == self.first == self.run.list[0], "wakes another than the first")
            did("wake ANY: a writer is first")
            self.point = self.after
            return
        need(self.point == "wake: grants" and who == self.waits_for, "chooses %d at %s", who, self.point)
        if not self.to_grant:
            self.point = self.after

    def wakes(self, who):
        did("wake: wakes the chosen")

    # ---- the list ----------------------------------------------------------------------------------
    def appended(self, who):
        run = self.run
        need(who == self.code and self.point in ("read: appends", "write: appends"), "appends %d at %s", who, self.point)
        run.marks[who] = 0
        alone = len(run.list) == 1
        if self.point == "read: appends":
            did("down_read 4: appends")
            need(self.empty == alone, "the list was empty or not")
            self.point = "read: takes back"
        else:
            did("down_write 2: appends as the first" if alone else "down_write 2: appends behind others")
            self.point = "write: is it alone"

    def removed(self, who):
        if self.point == "wake: removes":
            need(self.to_remove and who == self.to_remove[0], "wake 3: removes %d, not the next of the batch", who)
            self.to_remove.pop(0)
        else:
            need(who == self.code, "removes another")
            self.expect_point("removes itself", "write: removes itself", "leave: removes")
            self.removed_itself()
        self.run.marks.pop(who, None)

    def removed_itself(self):
        if self.point == "write: removes itself":
            did("down_write 5: removes itself")
            self.point = "write: stores the hint in line"
        elif not self.run.list:
            did("leave: the last")
            self.point = "leave: clears the flags"
        elif self.run.list_before[0] == self.code:
            did("leave: the first, wakes")
            self.wake(ANY, "leave: releases the wait lock")
        else:
            did("leave: not the first")
            self.point = "leave: releases the wait lock"

    @at("leave: clears the flags")
    def clear_flags(self, s):
        if s.kind != COUNT or s.op != "N":
            return None
        s.makes(words.count_clear_flags(s.old))
        did("leave: clears HANDOFF and WAITERS" if s.old & words.ASKED else "leave: clears WAITERS")
        self.point = "leave: releases the wait lock"
        return STAYS

    def step(self, s):
        handled = super().step(s)
        if handled is None and s.kind == HINT:
            return self.set_nonspinnable(s)
        if handled is None and s.kind == MARK and s.stores and not s.new and s.of == self.code:
            return STAYS        # a waiter's own mark, before it is in the list
        return handled

    # ---- what happens beside the words -------------------------------------------------------------
    def on_osq_lock(self):
        self.go("goes for the spin queue", {"write: may spin": "write: waits in the spin queue"})

    def on_head(self):
        did("down_write 1: takes the spin queue")
        self.point = "write: spins"

    def on_left(self):
        did("down_write 1: left the spin queue")
        self.point = "write: takes the wait lock"

    def on_osq_unlock(self):
        if self.point == "write: spins":
            did("down_write 1: stops spinning")
            self.point = "write: leaves the spin queue, gave up"
        self.expect_point("leaves the spin queue", "write: leaves the spin queue, took", "write: leaves the spin queue, gave up")

    def on_unlocked(self):
        self.go("left the spin queue", {"write: leaves the spin queue, took": "returns",
                                        "write: leaves the spin queue, gave up": "write: takes the wait lock"})

    def on_wait_lock(self):
        if self.point == "write: may spin":
            did("down_write 1: doesn't spin")
            self.point = "write: takes the wait lock"
        elif self.point == "write: sleeps":
            no_signal = self.signal == 0 if self.interruptible else not self.signal
            need(self.run.marks.get(self.code) and no_signal, "tries again without sleeping")
            differs("a marked writer spins and tries again without sleeping")
            self.point = "write: takes the wait lock to try"
        self.expect_point("takes the wait lock", *AFTER_WAIT_LOCK)

    def on_acquired(self):
        self.go("has the wait lock", AFTER_WAIT_LOCK)
        if self.point == "write: tries":
            self.seen = self.overdue = None

    def on_released(self):
        if self.point == "write: tries" and self.seen is None:
            need(self.chosen, "releases the wait lock before its try")
            differs("a writer that queues releases the wait lock, wakes, and takes it again")
            self.point = "write: takes the wait lock again"
        elif self.point == "write: tries":
            self.gives_up()
        else:
            if self.point == "write: releases, marked":
                self.signal = None
            self.go("releases the wait lock", AFTER_RELEASE)

    def on_signal(self):
        self.expect_point("looks at signals", "read: sleeps", "write: sleeps")
        if not self.signal:
            return
        if self.point == "read: sleeps":
            did("down_read 5: a signal is pending")
            self.point = "read: takes the wait lock, interrupted"
        else:
            did("down_write 4: a signal is pending")
            self.point = "write: takes the wait lock, interrupted"

    def on_sleeps(self):
        self.expect_point("sleeps", "read: sleeps", "write: sleeps")
        need(not self.interruptible or self.signal == 0, "sleeps without a look at signals")
        did("down_read 5: sleeps" if self.point == "read: sleeps" else "down_write 4: sleeps")

    def on_yields(self):
        self.expect_point("yields", "read: sleeps", "write: sleeps")
        did("down_read 5: was woken before it slept" if self.point == "read: sleeps" else "down_write 4: was woken before it slept")
        self.on_is_back()

    def on_is_back(self):
        self.go("is back", {"read: sleeps": "read: waits", "write: sleeps": "write: takes the wait lock to try"})

    def on_time(self):
        if self.point == "write: tries":
            self.overdue = self.jiffies > self.run.times[self.code]


AFTER_WAIT_LOCK = {
    "read: takes the wait lock": "read: looks for waiters", "read: takes the wait lock to wake": "read: looks whom to wake",
    "read: takes the wait lock, interrupted": "read: looks once more", "write: takes the wait lock": "write: appends",
    "write: takes the wait lock again": "write: tries", "write: takes the wait lock to try": "write: tries",
    "write: takes the wait lock, interrupted": "leave: removes", "release: takes the wait lock": "release: looks whom to wake"}
AFTER_RELEASE = {
    "read: releases": "returns", "read: releases, holds": "read: stores the hint", "read: releases to sleep": "read: waits",
    "read: releases, granted": "returns", "write: releases, marked": "write: sleeps", "write: releases, holds": "returns",
    "leave: releases the wait lock": "returns interrupted", "release: releases the wait lock": "returns"}


# ---- what holds at each moment ---------------------------------------------------------------------
def check_rwsem(run):
    word, tasks, waiters = run.value.get("count", 0), run.tasks, run.list
    alone = shared = transit = granted = reserved = late = 0
    for task in tasks:
        alone += task.hold == ALONE
        shared += task.hold == SHARED
        transit += task.in_transit
        granted += task.granted
        reserved += task.reserved
        late += task.reserved and task.late
    need(word & words.WRITER == alone <= 1, "writer bit of %d, and %d hold alone", word, alone)
    need(word >> 8 == shared + transit + granted + reserved, "readers of %d: %d hold, %d in transit, %d granted, %d reserved",
         word, shared, transit, granted, reserved)
    need(not alone or shared + granted == 0, "a writer beside readers")
    need(not word & 0xF8, "other bits of the count")
    check_flags(run, word, waiters)
    owes = any(task.owes or task.point in ("wake: chooses the writer", "wake: reserves") for task in tasks)
    if waiters and not alone and not shared and not granted:
        kept_out = transit or reserved > late
        need(owes or kept_out or is_roused(tasks, tasks[waiters[0] - 1]), "nobody is to wake the first waiter %d", waiters[0])
    need(not late or alone or owes, "a late bias, and nobody holds or owes")
    if granted:
        check_granted(run)


def check_flags(run, word, waiters):
    """WAITERS, HANDOFF and marks are those of the list, but where a call is between the two."""
    for task in run.tasks:
        if task.point in BETWEEN or task.point == "write: is it alone" and waiters == [task.code]:
            return
    need(bool(word & words.HAS_WAITERS) == bool(waiters), "WAITERS of %d, list %s", word, waiters)
    need(waiters or not word & words.ASKED, "HANDOFF of %d, nobody waits", word)
    for code, mark in run.marks.items():
        need(not mark or code == waiters[0] and word & words.ASKED, "a mark of %d, count %d, list %s", code, word, waiters)


def is_roused(tasks, first):
    """The first waiter writes, and is chosen or awake."""
    if not first.writes:
        return False
    return any(first.code in task.chosen for task in tasks) or first.state == 0 or first.point in AWAKE or first.point in WAKE_POINTS


def check_granted(run):
    for task in run.tasks:
        if task.granted and task.point == "read: sleeps" and task.state and not run.value.get("wtask%d" % task.code, 0):
            chosen = any(task.code in u.chosen or u.point == "wake: grants" and u.waits_for == task.code for u in run.tasks)
            need(chosen, "nobody is to wake the granted reader %d", task.code)
