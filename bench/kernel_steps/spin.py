"""The queued spin lock: which steps a contender makes, and what holds at each moment."""
import words
from counts import did, differs, need
from machine import STAYS, Machine, at

WORD, NEXT, LOCKED, COUNT = "word", "mnext", "mlocked", "mcount"
ACQUIRED, RELEASED = "acquired", "released"

PENDING_OWNERS = {"undoes pending", "waits by pending", "takes by pending"}
HOLDERS = {"holds, finds its next", "holds, grants its next", "holds"}
IN_QUEUE = {"links", "waits in the queue", "loads its next", "is the head", "is the head alone", "is the head before another",
            "holds, finds its next", "holds, grants its next"}
AT_HEAD = {"is the head", "is the head alone", "is the head before another", "holds, finds its next", "holds, grants its next"}
WITHOUT_NODE = {"out", "first exchange", "sets pending", "holds"} | PENDING_OWNERS
NODES = 4


class SpinCall(Machine):
    """A call of a spin lock by one task, or its hold, or neither (`out`)."""

    def __init__(self, queues, task, lock):
        self.queue, self.task, self.lock = queues[lock], task, lock
        self.point = "out"
        self.trying = False
        self.node, self.cleared = None, set()
        self.before, self.behind = 0, 0     # codes of nodes, 0 for none
        self.seen = None

    def begin(self, trying):
        need(self.point == "out", "a call of a spin lock that the task has")
        self.point, self.trying, self.node, self.seen = "first exchange", trying, None, None

    def use_node(self, index):
        """The call uses the node of this number, or finds all in use."""
        need(self.point in ("clears its node", "may wait for pending"), "uses a node at %s", self.point)
        self.queue_after_wait()
        self.node, self.cleared, self.before, self.behind = NODES * (self.task + 1) + index, set(), 0, 0
        if index >= NODES:
            self.point = "only tries"

    def queue_after_wait(self):
        if self.point == "may wait for pending":
            need(self.seen & ~0xFF, "spin 1: queues though it saw %d", self.seen)
            self.point = "clears its node"

    def hold(self):
        self.point = "holds"
        return ACQUIRED

    @at("first exchange")
    def try_first(self, s):
        if s.kind != WORD or not (s.takes or s.fails or s.loads and self.trying):
            return None
        if s.loads:
            did("spin trylock: load")
        elif self.trying:
            did("spin trylock: takes" if s.takes else "spin trylock: exchange fails")
        if s.takes:
            s.makes(words.spin_try(s.old), "take")
            if not self.trying:
                did("spin fast: takes")
            return self.hold()
        if not self.trying:
            self.seen = s.old
            did("spin fast: fails, to 4" if s.old & ~0xFF else "spin fast: fails, to 2")
            self.point = "may wait for pending" if s.old == words.PENDING else "clears its node" if s.old & ~0xFF else "sets pending"
        return STAYS

    @at("may wait for pending")
    def wait_for_pending(self, s):
        if s.kind == WORD and s.loads:
            self.seen = s.old
            differs("spin: waits a while at a word that is 256")
            return STAYS
        if s.kind == WORD and s.op == "O":
            need(not self.seen & ~0xFF, "spin 1: sets pending though it saw %d", self.seen)
            differs("spin: sets pending after it waited at 256")
            return self.set_pending(s)
        if s.kind in (NEXT, LOCKED) and s.op == "s":
            self.queue_after_wait()
            return self.clear_node(s)
        return None

    @at("sets pending")
    def set_pending(self, s):
        if s.kind != WORD or s.op != "O":
            return None
        name = s.makes(words.spin_set_pending(s.old), "owns", "undo", "queue")
        if name == "queue":
            did("spin 2: saw pending, to 4")
            self.point = "clears its node"
        elif name == "undo":
            did("spin 2: saw a tail alone, undoes")
            self.point = "undoes pending"
        elif s.old & 0xFF:
            did("spin 2: saw the locked byte alone")
            self.point = "waits by pending"
        else:
            did("spin 2: saw 0")
            differs("spin 3: takes without a load, as it saw no locked byte")
            self.point = "takes by pending"
        return STAYS

    @at("undoes pending")
    def undo_pending(self, s):
        if s.kind != WORD or s.op not in "NS":
            return None
        s.makes(words.spin_clear_pending(s.old))
        did("spin 2: clears pending")
        self.point = "clears its node"
        return STAYS

    @at("waits by pending")
    def wait_by_pending(self, s):
        if s.kind != WORD or not s.loads:
            return None
        did("spin 3: load, locked byte set" if s.old & 0xFF else "spin 3: load, locked byte clear")
        if not s.old & 0xFF:
            self.point = "takes by pending"
        return STAYS

    @at("takes by pending")
    def take_by_pending(self, s):
        if s.kind != WORD or s.op not in "AS":
            return None
        s.makes(words.spin_take_pending(s.old))
        did("spin 3: takes by pending")
        return self.hold()

    @at("only tries")
    def only_try(self, s):
        if s.kind != WORD or not (s.loads or s.takes or s.fails):
            return None
        if s.loads:
            did("spin 4: all nodes in use, trylock loads")
        elif s.fails:
            did("spin 4: all nodes in use, trylock exchange fails")
        else:
            s.makes(words.spin_try(s.old), "take")
            did("spin 4: all nodes in use, trylock takes")
            return self.hold()
        return STAYS

    @at("clears its node")
    def clear_node(self, s):
        if s.kind not in (NEXT, LOCKED) or s.op != "s" or s.new != 0 or s.of != self.node:
            return None
        self.cleared.add(s.kind)
        did("spin 4: clears locked" if s.kind == LOCKED else "spin 4: clears next")
        if len(self.cleared) == 2:
            self.point = "looks once more"
        return STAYS

    @at("looks once more")
    def look_once_more(self, s):
        if s.kind != WORD or not s.loads:
            return None
        did("spin 4: trylock loads another word than 0" if s.old else "spin 4: trylock loads 0")
        self.point = "exchanges the tail" if s.old else "tries once more"
        return STAYS

    @at("tries once more")
    def try_once_more(self, s):
        if s.kind != WORD or not (s.takes or s.fails):
            return None
        if s.takes:
            s.makes(words.spin_try(s.old), "take")
            did("spin 4: trylock takes")
            return self.hold()
        did("spin 4: trylock exchange fails")
        self.point = "exchanges the tail"
        return STAYS

    @at("exchanges the tail")
    def exchange_tail(self, s):
        if s.kind != WORD or not (s.loads or s.fails or s.op in "CX"):
            return None
        if s.loads:
            did("spin 5: load")
        elif s.fails:
            did("spin 5: exchange fails, again")
            differs("spin 5: goes on with the word that the failed exchange saw")
        else:
            s.makes(words.spin_exchange_tail(s.old, self.node))
            self.before = s.old >> words.NODE_SHIFT
            self.behind = 0
            did("spin 5: exchange, found a tail" if self.before else "spin 5: exchange, found none")
            self.point = "links" if self.before else "is the head"
            self.queue.append(self)
        return STAYS

    @at("links")
    def link(self, s):
        if s.kind != NEXT or not s.stores:
            return None
        need(s.of == self.before and s.new == self.node, "spin 5: links %d to %d", s.of, s.new)
        did("spin 5: links")
        self.point = "waits in the queue"
        return STAYS

    @at("waits in the queue")
    def wait_in_queue(self, s):
        if s.kind != LOCKED or not s.loads or s.of != self.node:
            return None
        did("spin 5: own locked is 1" if s.old == 1 else "spin 5: own locked is 0")
        if s.old == 1:
            self.point = "loads its next"
        return STAYS

    @at("loads its next")
    def load_next(self, s):
        if s.kind != NEXT or not s.loads or s.of != self.node:
            return None
        self.behind = s.old
        did("spin 5: loads its next, there" if s.old else "spin 5: loads its next, none")
        self.point = "is the head"
        return STAYS

    @at("is the head")
    def wait_as_head(self, s):
        if s.kind != WORD or not s.loads:
            return None
        if s.old & 0x1FF:
            did("spin 6: load, locked byte or pending set")
            return STAYS
        self.seen = s.old
        alone = s.old == words.tail_of(self.node)
        did("spin 6: load, ready, own tail" if alone else "spin 6: load, ready, another tail")
        self.point = "is the head alone" if alone else "is the head before another"
        return STAYS

    @at("is the head alone")
    def take_alone(self, s):
        if s.kind != WORD or not (s.takes or s.fails):
            return None
        if s.fails:
            did("spin 7: exchange fails")
            self.point = "is the head before another"
            return STAYS
        need(s.old == self.seen, "spin 7: exchanges %d, and saw %d", s.old, self.seen)
        s.makes(words.spin_take_alone(s.old, self.node), "take")
        did("spin 7: exchange, alone")
        self.queue.pop()
        return self.hold()

    @at("is the head before another")
    def set_locked(self, s):
        if s.kind != WORD or s.op != "S":
            return None
        need(not s.old & 0xFF, "spin 8: sets the locked byte of %d", s.old)
        s.makes(words.spin_set_locked(s.old))
        differs("spin: stores a byte of the word")
        did("spin 8: sets the locked byte, next known" if self.behind else "spin 8: sets the locked byte")
        self.point = "holds, grants its next" if self.behind else "holds, finds its next"
        return STAYS

    @at("holds, finds its next")
    def find_next(self, s):
        if s.kind != NEXT or not s.loads or s.of != self.node:
            return None
        did("spin 8: loads its next, there" if s.old else "spin 8: loads its next, none")
        if s.old:
            self.behind, self.point = s.old, "holds, grants its next"
        return STAYS

    @at("holds, grants its next")
    def grant_next(self, s):
        if s.kind != LOCKED or not s.stores:
            return None
        need(s.of == self.behind and s.new == 1 and s.old == 0, "spin 8: grants %d, not %d", s.of, self.behind)
        did("spin 8: grants the next")
        self.queue.pop(0)
        return self.hold()

    @at("holds")
    def unlock(self, s):
        if s.kind != WORD or s.op != "S":
            return None
        need(s.old & 0xFF == words.LOCKED, "spin unlock of %d", s.old)
        s.makes(words.spin_unlock(s.old))
        differs("spin: stores a byte of the word")
        did("spin unlock")
        self.point = "out"
        return RELEASED


# ---- what holds at each moment ---------------------------------------------------------------------
def check_spin(run, lock):
    """The facts of one spin lock at this moment."""
    word, calls, queue = run.value.get("word%d" % lock, 0), run.spin_calls[lock], run.spin_queues[lock]
    check_word(word, calls, queue)
    check_queue(run.value, queue)


def check_word(word, calls, queue):
    holders = sum(c.point in HOLDERS for c in calls)
    need(word & 0xFF == holders <= 1, "spin: the locked byte of %d, and %d hold", word, holders)
    owners = [c.point for c in calls if c.point in PENDING_OWNERS]
    need(word >> 8 & 1 == len(owners) <= 1, "spin: pending of %d, owned by %s", word, owners)
    tail = word >> words.NODE_SHIFT
    need(tail == (queue[-1].node if queue else 0), "spin: tail %d isn't the last of the queue", tail)
    need(sum(c.point in IN_QUEUE for c in calls) == len(queue) and all(c.point in IN_QUEUE for c in queue), "spin: who stands in the queue")
    ready = sum(c.point in ("is the head alone", "is the head before another") for c in calls)
    if ready:
        need(ready == 1 and not holders and owners in ([], ["undoes pending"]), "spin: a ready head beside another")
    if "undoes pending" in owners:
        need(tail, "spin: an undoer without a tail")
    if "takes by pending" in owners:
        need(word & 0xFF == 0, "spin: a taker beside a holder")


def check_queue(value, queue):
    for place, (call, follower) in enumerate(zip(queue, [*queue[1:], None])):
        following = value.get("mnext%d" % call.node, 0)
        if follower:
            linked = 0 if follower.point == "links" else follower.node
            need(follower.before == call.node and following == linked, "spin: the link from node %d", call.node)
            need(value.get("mlocked%d" % follower.node, 0) == 0, "spin: node %d is granted behind another" % follower.node)
        else:
            need(following == 0, "spin: the last node has a next")
        if place:
            need(call.point in ("links", "waits in the queue"), "spin: node %d goes on behind another", call.node)
            continue
        need(call.before == 0 or value.get("mlocked%d" % call.node, 0) == 1, "spin: the first of the queue isn't granted")
        if call.point in AT_HEAD:
            need(call.behind == 0 or follower and call.behind == follower.node, "spin: the head's next")
