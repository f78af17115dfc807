"""The optimistic spin queue: which steps a task makes that enters, leaves or passes on, and what holds at each moment."""
from counts import did, differs, need
from machine import STAYS, Machine, at

TAIL, NEXT, PREV, LOCKED, CPU = "tail", "next", "prev", "locked", "cpu"
HEAD, LEFT, UNLOCKED = "head", "left", "unlocked"

WAITS = {"spins", "asks", "A: takes the link", "A: looks at locked", "A: loads prev"}
# Step B looks for what stands behind the node that leaves, and so does a release.
LEAVING = {"B: tail", "B: exchanges the tail", "B: loads next", "B: swaps next", "C: stores prev"}
HOLDS = {"holds", "swaps next", "release: tail", "release: exchanges the tail", "release: loads next", "release: swaps next", "grants"}
IN_QUEUE = {"stores prev", "links"} | WAITS | LEAVING | HOLDS


class SpinQueue(Machine):
    """Where a task is with the spin queue of a lock."""

    def __init__(self, queue, task):
        self.queue, self.code = queue, task + 1
        self.point = "idle"
        self.before, self.behind, self.cleared = 0, 0, set()

    def phase(self):
        """Whether it leaves (B) or releases."""
        return self.point.split(":")[0]

    def end(self, event):
        self.point = "idle"
        return event

    def asked(self, answer):
        """need_resched was asked in the waiting loop."""
        if self.point == "asks":
            did("osq: need_resched true, unqueues" if answer else "osq: need_resched false")
            self.point = "A: takes the link" if answer else "spins"

    @at("idle")
    def enter(self, s):
        if s.kind in (LOCKED, NEXT) and s.op == "s" and s.of == self.code and s.new == 0:
            self.cleared.add(s.kind)
            did("osq: clears locked" if s.kind == LOCKED else "osq: clears next")
            return STAYS
        if s.kind != TAIL or s.op != "X":
            return None
        need(len(self.cleared) == 2 and s.new == self.code, "osq: swaps the tail for %d", s.new)
        self.cleared = set()
        self.queue.append(self)
        did("osq: swaps the tail, found a node" if s.old else "osq: swaps the tail, found 0")
        self.before = s.old
        self.point = "stores prev" if s.old else "holds"
        return STAYS if s.old else HEAD

    @at("stores prev")
    def store_prev(self, s):
        if s.kind != PREV or not s.stores:
            return None
        need(s.of == self.code and s.new == self.before, "osq: stores prev")
        did("osq: stores prev")
        self.point = "links"
        return STAYS

    @at("links")
    def link(self, s):
        if s.kind != NEXT or not s.stores:
            return None
        need(s.of == self.before and s.new == self.code, "osq: links %d to %d", s.of, s.new)
        did("osq: stores the link")
        self.point = "spins"
        return STAYS

    @at("spins", "asks")
    def spin(self, s):
        if s.kind != LOCKED or not s.loads or s.of != self.code:
            return None
        did("osq: own locked is 1, front" if s.old else "osq: own locked is 0")
        self.point = "holds" if s.old else "asks"
        return HEAD if s.old else STAYS

    @at("A: takes the link")
    def take_link(self, s):
        if s.kind != NEXT or s.of != self.before or not (s.loads or s.takes or s.fails):
            return None
        if s.takes:
            need(s.old == self.code and s.new == 0, "osq: step A from %d to %d", s.old, s.new)
            did("osq unqueue A: takes the link")
            self.point = "B: tail"
            return STAYS
        if s.loads:
            differs("osq A: loads next of prev before the exchange")
            if s.old == self.code:
                return STAYS
        did("osq unqueue A: next of prev is another" if s.loads else "osq unqueue A: exchange fails")
        self.point = "A: looks at locked"
        return STAYS

    @at("A: looks at locked")
    def look_at_locked(self, s):
        if s.kind != LOCKED or not s.loads or s.of != self.code:
            return None
        did("osq unqueue A: own locked is 1, front" if s.old else "osq unqueue A: own locked is 0")
        self.point = "holds" if s.old else "A: loads prev"
        return HEAD if s.old else STAYS

    @at("A: loads prev")
    def load_prev(self, s):
        if s.kind != PREV or not s.loads or s.of != self.code:
            return None
        did("osq unqueue A: rereads prev, the same" if s.old == self.before else "osq unqueue A: rereads prev, another")
        self.before, self.point = s.old, "A: takes the link"
        return STAYS

    @at("B: tail", "release: tail")
    def look_at_tail(self, s):
        if s.kind != TAIL or not s.loads:
            return None
        did("osq wait_next: tail is the own code" if s.old == self.code else "osq wait_next: tail is another")
        self.point = self.phase() + (": exchanges the tail" if s.old == self.code else ": loads next")
        return STAYS

    @at("B: exchanges the tail", "release: exchanges the tail")
    def exchange_tail(self, s):
        if s.kind != TAIL or not (s.takes or s.fails):
            return None
        if s.fails:
            did("osq wait_next: exchange of the tail fails")
            self.point = self.phase() + ": loads next"
            return STAYS
        leaves = self.phase() == "B"
        need(s.old == self.code and s.new == (self.before if leaves else 0), "osq: the tail goes back from %d to %d", s.old, s.new)
        did("osq unqueue B: the tail goes back to prev" if leaves else "osq unlock: wait_next ends, the tail goes to 0")
        need(self.queue[-1] is self, "osq: the last leaves, and is not the last")
        self.queue.pop()
        return self.end(LEFT if leaves else UNLOCKED)

    @at("B: loads next", "release: loads next")
    def load_next(self, s):
        if s.kind != NEXT or not s.loads or s.of != self.code:
            return None
        did("osq wait_next: own next there" if s.old else "osq wait_next: own next is 0")
        self.point = self.phase() + (": swaps next" if s.old else ": tail")
        return STAYS

    @at("B: swaps next", "release: swaps next")
    def swap_next(self, s):
        if s.kind != NEXT or s.op != "X" or s.of != self.code:
            return None
        need(s.new == 0, "osq: swaps next for %d", s.new)
        did("osq wait_next: swaps next, there" if s.old else "osq wait_next: swaps next, none")
        self.point_behind_swap(s.old)
        return STAYS

    @at("swaps next")
    def swap_next_at_once(self, s):
        if s.kind != NEXT or s.op != "X" or s.of != self.code:
            return None
        need(s.new == 0, "osq: swaps next for %d", s.new)
        did("osq unlock: swaps next, there" if s.old else "osq unlock: swaps next, none")
        self.point_behind_swap(s.old)
        return STAYS

    def point_behind_swap(self, found):
        leaves = self.phase() == "B"
        if found:
            self.behind, self.point = found, "C: stores prev" if leaves else "grants"
        else:
            self.point = "B: tail" if leaves else "release: tail"

    @at("C: stores prev")
    def store_prev_of_next(self, s):
        if s.kind != PREV or not s.stores:
            return None
        need(s.of == self.behind and s.new == self.before, "osq: step C, prev of %d to %d", s.of, s.new)
        did("osq unqueue C: stores prev of next")
        self.queue.remove(self)
        self.point = "C: stores next"
        return STAYS

    @at("C: stores next")
    def store_next_of_prev(self, s):
        if s.kind != NEXT or not s.stores:
            return None
        need(s.of == self.before and s.new == self.behind, "osq: step C, next of %d to %d", s.of, s.new)
        did("osq unqueue C: stores next of prev")
        return self.end(LEFT)

    @at("holds")
    def release(self, s):
        if s.kind != TAIL or not (s.takes or s.fails):
            return None
        if s.fails:
            did("osq unlock: exchange fails")
            self.point = "swaps next"
            return STAYS
        need(s.old == self.code and s.new == 0, "osq: unlock from %d to %d", s.old, s.new)
        did("osq unlock: exchange takes")
        self.queue.pop()
        return self.end(UNLOCKED)

    @at("grants")
    def grant(self, s):
        if s.kind != LOCKED or not s.stores:
            return None
        need(s.of == self.behind and s.new == 1, "osq: grants %d, not %d", s.of, self.behind)
        did("osq unlock: grants the next")
        need(self.queue[0] is self, "osq: another than the head grants")
        self.queue.pop(0)
        return self.end(UNLOCKED)

    def step(self, s):
        if s.kind == CPU:
            if s.stores:
                need(s.of == self.code and s.new == self.code, "osq: the number of a node")
            return None
        return super().step(s)


# ---- what holds at each moment ---------------------------------------------------------------------
def check_osq(run):
    queue, value = run.osq_queue, run.value
    every = [task.osq for task in run.tasks]
    tail = value.get("tail", 0)
    need(tail == (queue[-1].code if queue else 0), "osq: tail %d isn't the last of the queue", tail)
    need(all((q in queue) == (q.point in IN_QUEUE) for q in every), "osq: who stands in the queue")
    if not queue:
        return
    check_head(queue, value)
    for x, y in zip(queue, queue[1:]):
        check_link(x, y, every, value)
    need(value.get("next%d" % queue[-1].code, 0) == 0, "osq: the last has a next")


def check_head(queue, value):
    head = queue[0]
    granted = head.point in WAITS and value.get("locked%d" % head.code, 0) == 1
    need(head.point in HOLDS or granted, "osq: the first at %s isn't the head", head.point)
    if head.point == "grants":
        need(len(queue) > 1 and queue[1].code == head.behind, "osq: grants another than the second")


def check_link(x, y, every, value):
    """y stands behind x. The link between them is there, or exactly one task owes it."""
    need(y.point not in HOLDS and value.get("locked%d" % y.code, 0) == 0, "osq: a second head")
    prev = y.before if y.point == "stores prev" else value.get("prev%d" % y.code, 0)
    need(prev == x.code, "osq: prev of %d", y.code)
    debts = y.point in ("stores prev", "links") or y.point in LEAVING
    if debts:
        need(y.before == x.code, "osq: %d goes by another prev", y.code)
    debts += x.point in ("C: stores prev", "grants") and x.behind == y.code
    debts += sum(z.point == "C: stores next" and z.before == x.code and z.behind == y.code for z in every)
    link = value.get("next%d" % x.code, 0)
    need((link, debts) in ((y.code, 0), (0, 1)), "osq: next of %d is %d, owed by %d", x.code, link, debts)
