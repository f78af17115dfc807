"""The per-CPU semaphore: which steps a call makes on block word and counts, and what holds at each moment.

A release takes for those who wait in line, as the kernel's does. Here each of them tries by itself.
"""
from call import BUSY, Call
from counts import did, differs, need
from machine import STAYS, at

BLOCK, READERS, WRITER, ENTRY = "block", "readers", "writer", "entry"
SHARED, ALONE = "shared", "alone"
COUNTS = 1 << 32            # a count has 32 bits, and may fall below 0

# A try adds to the count of its CPU, looks, and goes on by whether it holds.
AFTER_HOLD = {"comes": "returns", "in line": "releases the line, holds", "for another": "takes it from the line"}
AFTER_MISS = {"comes": "takes the line's lock", "in line": "appends", "for another": "releases the line"}
RELEASING = {"takes the line's lock to wake", "takes it from the line", "wakes it", "releases the line"}


class PercpuCall(Call):
    blocks = False          # its code is that of the writer whose exchange set the block word
    trying = False          # its addition is in a count, and it doesn't hold by it yet
    granted = False         # a release has taken for it
    attempt = "comes"
    reads, seen = False, ()
    took_reader = False     # of the waiter that it takes from the line, which may have gone on before its wake

    def begins(self, call):
        need(self.point == "out", "a call within a call")
        self.call, self.reads, self.attempt = call, call.startswith("read"), "comes"
        self.point = {"read": "adds", "read_try": "adds", "write": "looks at the block word", "up_read": "subtracts",
                      "up_write": "clears the block word"}[call]
        need(not call.startswith("up") or self.hold == (SHARED if call == "up_read" else ALONE), call + " without holding")

    def ends(self, result):
        if result == BUSY:
            self.expect_point("a try answers no", "missed")
        else:
            self.expect_point(self.call + " ends", "returns")
            need(self.hold == ("" if self.call.startswith("up") else SHARED if self.reads else ALONE), "what it holds at the end")
        self.point = "out"

    def whom(self):
        """The task that it tries for: itself, or the first in line."""
        return self.run.tasks[self.run.list[0] - 1] if self.attempt == "for another" else self

    # ---- a reader's try ----------------------------------------------------------------------------
    @at("adds")
    def add(self, s):
        if s.kind != READERS or s.op != "A":
            return None
        need(s.of == self.code and s.new == (s.old + 1) % COUNTS, "adds to count %d, from %d to %d", s.of, s.old, s.new)
        if s.new != 1:
            differs("percpu: a count is neither 0 nor 1")
        did("percpu read: adds")
        self.trying, self.point = True, "looks whether it is blocked"
        return STAYS

    @at("looks whether it is blocked")
    def look_whether_blocked(self, s):
        if s.kind != BLOCK or not s.loads:
            return None
        if s.old:
            did("percpu read: the block word is set")
            self.point = "takes back"
            return STAYS
        did("percpu read: the block word is 0, holds")
        self.trying = False
        self.take(SHARED)
        return STAYS

    @at("takes back")
    def take_back(self, s):
        if s.kind != READERS or s.op != "A":
            return None
        need(s.of == self.code and s.new == (s.old - 1) % COUNTS, "takes back from count %d, from %d to %d", s.of, s.old, s.new)
        did("percpu read: takes back")
        self.trying, self.point = False, "wakes the writer"
        return STAYS

    def take(self, how):
        """A try has taken, for the task itself or for the first in line."""
        task = self.whom()
        need(not any(t.hold == ALONE for t in self.run.tasks) or how == ALONE, "a reader holds beside a writer")
        if how == SHARED:
            if task is self:
                self.hold = SHARED
            else:
                task.granted = True
        else:
            task.blocks = True
        if task is not self:
            differs("percpu: a release takes for the first in line")
        drains = how == ALONE and self.attempt == "comes"
        self.point = "says that it waits" if drains else AFTER_HOLD[self.attempt]

    def miss(self):
        self.point = "missed" if self.call == "read_try" else AFTER_MISS[self.attempt]

    # ---- a writer's try ----------------------------------------------------------------------------
    @at("looks at the block word")
    def look_at_block_word(self, s):
        if s.kind != BLOCK or not s.loads:
            return None
        if s.old:
            did("percpu write: another blocks")
            self.miss()
        else:
            self.point = "exchanges the block word"
        return STAYS

    @at("exchanges the block word")
    def exchange_block_word(self, s):
        if s.kind != BLOCK or s.op != "X":
            return None
        need(s.new == 1, "the block word from %d to %d", s.old, s.new)
        if s.old:
            did("percpu write: another blocked first")
            self.miss()
        else:
            did("percpu write: blocks")
            self.take(ALONE)
        return STAYS

    @at("says that it waits")
    def say_that_it_waits(self, s):
        if s.kind != WRITER or not s.stores:
            return None
        need(self.blocks and s.new == self.code, "waits for the readers without blocking")
        self.seen, self.point = (), "sums the counts"
        return STAYS

    @at("sums the counts")
    def sum_counts(self, s):
        if s.kind == READERS and s.loads:
            need(s.of == len(self.seen) + 1, "loads the count of %d", s.of)
            self.seen += (s.old,)
            return STAYS
        if s.kind == WRITER and s.stores and s.new == 0:
            need(len(self.seen) == len(self.run.tasks) and sum(self.seen) % COUNTS == 0, "holds alone though it saw %s", self.seen)
            did("percpu write: the sum is 0, holds alone")
            need(not any(t.hold or t.granted for t in self.run.tasks), "a writer holds beside another")
            self.hold, self.point = ALONE, "returns"
            return STAYS
        return None

    # ---- a release ---------------------------------------------------------------------------------
    @at("subtracts")
    def subtract(self, s):
        if s.kind != READERS or s.op != "A":
            return None
        need(s.of == self.code and s.new == (s.old - 1) % COUNTS, "subtracts from count %d, from %d to %d", s.of, s.old, s.new)
        if s.new:
            differs("percpu: a count is neither 0 nor 1")
        did("percpu up_read: subtracts")
        self.hold, self.point = "", "wakes the writer as it leaves"
        return STAYS

    @at("clears the block word")
    def clear_block_word(self, s):
        if s.kind != BLOCK or not s.stores:
            return None
        need(self.blocks and s.new == 0, "clears the block word of another")
        did("percpu up_write: clears the block word")
        self.hold, self.blocks, self.point = "", False, "takes the line's lock to wake"
        return STAYS

    @at("takes it from the line")
    def clear_entry(self, s):
        if s.kind != ENTRY or not s.stores:
            return None
        need(s.new == 0 and s.of == self.run.list[0], "takes another than the first from the line")
        did("percpu up_write: takes the first from the line")
        self.took_reader = self.whom().reads
        self.run.list.pop(0)
        self.waits_for, self.point = s.of, "wakes it"
        return STAYS

    def next_in_line(self):
        """The release goes on with the first in line, if there is one."""
        if not self.run.list:
            self.point = "releases the line"
            return
        self.attempt = "for another"
        self.point = "adds" if self.whom().reads else "looks at the block word"

    # ---- who waits in line -------------------------------------------------------------------------
    @at("waits in line")
    def load_entry(self, s):
        if s.kind != ENTRY or not s.loads or s.of != self.code:
            return None
        if s.old:
            did("percpu: waits in line")
            self.point = "sleeps in line"
            return STAYS
        did("percpu: was taken from the line")
        if self.reads:
            need(self.granted, "goes on and isn't granted")
            self.granted, self.hold, self.point = False, SHARED, "returns"
        else:
            need(self.blocks, "goes on and doesn't block")
            self.point = "says that it waits"
        return STAYS

    def on_takes_line(self):
        self.go("takes the line's lock", {"takes the line's lock": "has the line's lock",
                                          "takes the line's lock to wake": "has the line's lock to wake"})
        if self.point == "has the line's lock to wake":
            self.next_in_line()
        else:
            self.attempt, self.point = "in line", "adds" if self.reads else "looks at the block word"

    def on_appends(self):
        self.go("appends", {"appends": "releases the line to sleep"})
        self.run.list.append(self.code)

    def on_releases_line(self):
        holds = "returns" if self.reads else "says that it waits"
        self.go("releases the line", {"releases the line": "returns", "releases the line to sleep": "waits in line",
                                      "releases the line, holds": holds})

    def wakes_directly(self, who):
        if self.point == "wakes it":
            need(who == self.waits_for, "wakes another than it took from the line")
            did("percpu up_write: wakes it")
            if self.took_reader:
                self.next_in_line()
            else:
                self.point = "releases the line"
            return
        need(who == self.run.value.get(WRITER, 0), "wakes %d, and another writer waits", who)
        did("percpu: wakes the writer that waits" if who else "percpu: no writer waits")
        if self.point == "wakes the writer as it leaves":
            self.point = "returns"
        else:
            self.expect_point("wakes the writer", "wakes the writer")
            self.miss()

    def on_sleeps(self):
        self.expect_point("sleeps", "sleeps in line", "sums the counts")
        if self.point == "sums the counts":
            need(len(self.seen) == len(self.run.tasks) and sum(self.seen) % COUNTS, "sleeps though it saw %s", self.seen)
            did("percpu write: the sum isn't 0, sleeps")

    on_yields = on_sleeps

    def on_is_back(self):
        self.seen = ()
        if self.point == "sleeps in line":
            self.point = "waits in line"


# ---- what holds at each moment ---------------------------------------------------------------------
def check_percpu(run):
    tasks, value = run.tasks, run.value
    block = value.get(BLOCK, 0)
    blockers = [task.code for task in tasks if task.blocks]
    need(block == len(blockers) <= 1, "block word %d, and %s block", block, blockers)
    counted = sum(value.get("readers%d" % task.code, 0) for task in tasks) % COUNTS
    inside = sum((task.hold == SHARED) + task.granted + task.trying for task in tasks)
    need(counted == inside, "the counts' sum is %d, and %d are inside", counted, inside)
    alone = [task for task in tasks if task.hold == ALONE]
    need(not alone or alone[0].blocks and not any(task.hold == SHARED or task.granted for task in tasks), "a writer beside a reader")
    releases = any(task.point in RELEASING or task.attempt == "for another" and task.point != "out" for task in tasks)
    need(not run.list or block or releases, "tasks wait in line, and nobody blocks or releases")
    for task in tasks:
        if task.blocks and task.asleep and task.point == "sums the counts":
            wakes = any(t.point in ("wakes the writer", "wakes the writer as it leaves") for t in tasks)
            need(counted or wakes, "nobody is to wake the writer %d", task.code)
