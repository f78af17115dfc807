"""Replays the lines of one run: keeps the words, leads each step to the machine of its task, and checks the facts of each moment."""
import functools
import re
import subprocess

import counts
import words
from call import OfNoCall
from counts import differs, need
from machine import STAYS, Step
from mutex import MutexCall, check_mutex
from osq import check_osq
from percpu import PercpuCall, check_percpu
from rwsem import SemaphoreCall, check_rwsem
from seq import SequenceCall, check_seq
from spin import WITHOUT_NODE, SpinCall, check_spin

SPIN_LOCKS = 6
OSQ_WORDS = {"tail", "next", "prev", "locked", "cpu"}
SPIN_WORDS = {"word", "mnext", "mlocked", "mcount"}
LIST_WORDS = {"head", "last", "wnext", "wprev"}
SHARED_WORDS = {"owner", "count", "hint", "head", "last", "unowned", "block", "readers", "writer", "seq", "data"} | OSQ_WORDS | SPIN_WORDS
BATCH_TURNS, WAKE_TURNS = 199, 7        # at each how manyth step the facts of many tasks are checked


NO_ADDRESS = "0x" + 16 * "0"            # how addr2line -a writes the address 0


@functools.cache
def kind_and_code(place):
    """The kind of a word and whose it is, as in `mnext12`."""
    kind, code = re.match("([a-z]*)[^0-9]*([0-9]*)", place).groups()
    return kind, int(code) if code else -1


def has_changed(s, before, point):
    """Whether the facts of the moment may be others than before: a look that leads nowhere leaves them as they are."""
    return s.old != s.new or before != point


class Functions:
    """The kernel's functions by address, from one process of addr2line."""

    def __init__(self, program):
        words = ["addr2line", "-a", "-f", "-i", "-e", program]
        self.process = subprocess.Popen(words, stdin=subprocess.PIPE, stdout=subprocess.PIPE, text=True, bufsize=1)
        self.known = {}

    def at(self, pc):
        """The function and the line that a call of the sanitizer comes back to."""
        if pc not in self.known:
            name, line = self.look_up(int(pc, 16) - 1)
            self.known[pc] = name, line.split("/")[-1].split(" ")[0]
        return self.known[pc]

    def look_up(self, address):
        """The innermost of the functions at an address. The address 0 behind it shows where its lines end."""
        self.process.stdin.write("%x\n0\n" % address)
        read = self.process.stdout.readline
        read()
        name, line = read().strip(), read().strip()
        while read().strip() != NO_ADDRESS:
            pass
        read(), read()
        return name, line


def flags_of(kind, word):
    """The flags of an owner word or a count, for the list of those that occurred."""
    if kind == "owner":
        names = ((words.PICKUP, " PICKUP"), (words.HANDOFF, " HANDOFF"), (words.WAITERS, " WAITERS"))
        return ("a task" if word >> 3 else "no task") + "".join(name for bit, name in names if word & bit)
    names = ((words.ASKED, " HANDOFF"), (words.HAS_WAITERS, " WAITERS"), (words.WRITER, " writer"))
    return ("readers" if word >> 8 else "no readers") + "".join(name for bit, name in names if word & bit)


class Run:
    """One run: the words as the steps left them, and where each task is."""

    def __init__(self, lock, task_count, functions):
        self.lock, self.functions = lock, functions
        self.kind = "rwsem" if lock == "batch" else lock
        self.has_list = self.kind in ("mutex", "rwsem")
        self.has_wait_lock = self.has_list or lock == "seq"
        self.enters = 0             # of a sequence lock: how often a writer came in
        self.value = {}
        self.osq_queue, self.list, self.list_before, self.marks, self.times = [], [], [], {}, {}
        spin_locks = SPIN_LOCKS if lock in ("spin", "nest") else 1
        self.spin_queues = [[] for _ in range(spin_locks)]
        call = {"mutex": MutexCall, "rwsem": SemaphoreCall, "percpu": PercpuCall, "seq": SequenceCall}.get(self.kind, OfNoCall)
        self.tasks = [call(self, number) for number in range(task_count)]
        self.spin_calls = [[] for _ in range(spin_locks)]
        if self.has_wait_lock:
            self.spin_calls[0] = [task.wait_lock for task in self.tasks]
        self.ended_early = False
        self.turn = 0

    # ---- a line ------------------------------------------------------------------------------------
    def line(self, fields):
        number, op, place, old, new, pc = fields
        task, old, new = self.tasks[int(number)], int(old), int(new)
        kind, of = kind_and_code(place)
        if op in self.EVENTS:
            self.EVENTS[op](self, task, place, of, old)
            return
        need(kind != "unowned", "an access to a word that nobody owns")
        if kind in SHARED_WORDS:
            need(self.value.get(place, 0) == old, "the word %s was %d, and is %d", place, self.value.get(place, 0), old)
        self.value[place] = new
        if old != new and kind in ("owner", "count"):
            counts.words[self.kind, flags_of(kind, new)] += 1
        self.step(task, Step(op, kind, of, old, new), pc)

    def step(self, task, s, pc):
        if s.kind in SPIN_WORDS:
            self.spin_step(task, s, pc)
        elif s.kind in OSQ_WORDS:
            self.osq_step(task, s, pc)
        elif s.kind == "state":
            task.state = s.new
            self.count_load(s, pc)
        elif s.kind == "wtime":
            if s.op == "s":
                self.times[s.of] = s.new
        elif s.kind in LIST_WORDS and s.stores:
            self.list_step(task, s)
        elif s.kind != "wtype":
            self.lock_step(task, s, pc)

    def count_load(self, s, pc):
        """An access that the rule doesn't have, and that leaves the lock's words as they are."""
        counts.loads[self.functions.at(pc) + (s.kind, s.op)] += 1

    # ---- steps on words ----------------------------------------------------------------------------
    def spin_step(self, task, s, pc):
        call = self.spin_call_of(task, s)
        if s.kind == "mcount" and s.op == "s" and s.new > s.old:
            call.use_node(s.old)
            others = sum(c.node is not None and c.point not in WITHOUT_NODE for c in task.spin_calls if c is not call)
            need(s.old == others, "the number of nodes in use")
        point = call.point
        result = call.step(s)
        if result is None:
            need(s.op in "Llc" or s.kind == "mcount", "spin: %s of %s%d from %d to %d at %s", s.op, s.kind, s.of, s.old, s.new, call.point)
            self.count_load(s, pc)
        ended = result not in (None, STAYS)
        if ended and self.has_wait_lock:
            task.happens(result)
        if self.lock != "batch" and has_changed(s, point, call.point) or ended:
            check_spin(self, call.lock)
        if ended and self.has_wait_lock:
            self.check()

    def spin_call_of(self, task, s):
        if self.has_wait_lock:
            if task.wait_lock.point == "out":
                task.wait_lock.begin(False)
                task.happens("wait_lock")
            return task.wait_lock
        call = task.spin_calls[-1]
        need(s.kind != "word" or s.of == call.lock, "a step on another lock than the call's")
        return call

    def osq_step(self, task, s, pc):
        osq = task.osq
        if self.has_list and osq.point == "idle" and not osq.cleared:
            task.happens("osq_lock")
        elif self.has_list and osq.point == "holds" and s.kind == "tail":
            task.happens("osq_unlock")
        point = osq.point
        result = osq.step(s)
        if result is None:
            need(s.op in "Llc" or s.kind == "cpu", "osq: %s of %s%d from %d to %d at %s", s.op, s.kind, s.of, s.old, s.new, osq.point)
            self.count_load(s, pc)
        elif result != STAYS and self.has_list:
            task.happens(result)
        if has_changed(s, point, osq.point):
            check_osq(self)

    def lock_step(self, task, s, pc):
        s.function = self.functions.at(pc)[0]
        sets_mark = s.kind == "mark" and s.stores and s.new
        point = task.point
        result = task.step(s)
        if sets_mark:
            need(result is not None, "a mark of %d at %s", s.of, task.point)
            self.marks[s.of] = 1
        elif result is None:
            self.must_be_private(task, s)
            self.count_load(s, pc)
        if has_changed(s, point, task.point):
            self.check()

    def must_be_private(self, task, s):
        """The rule doesn't have the step: it may be a load, or concern a waiter that nobody sees yet."""
        own_grant = s.kind == "wtask" and s.of == task.code and s.new
        allowed = s.op in "Llc" or s.kind == "mark" or s.kind == "hint" and s.op == "N" or own_grant
        need(allowed, "%s of %s%s from %d to %d at %s", s.op, s.kind, s.of if s.of >= 0 else "", s.old, s.new, task.point)

    def list_step(self, task, s):
        """The stores of an append or a removal are one step: that which changes the walk from the head."""
        need(task.wait_lock.point == "holds", "a list word changes without the wait lock")
        if s.kind not in ("head", "wnext") or s.kind == "wnext" and s.of not in self.list:
            return
        now = self.walk("head", "wnext")
        if now == self.list:
            return
        self.list_before, self.list = self.list, now
        if len(now) > len(self.list_before):
            need(now[:-1] == self.list_before, "an append from %s to %s", self.list_before, now)
            if self.value.get("last") == now[-1]:
                differs("an append stores the tail before the link")
            task.appended(now[-1])
        else:
            gone = [code for code in self.list_before if code not in now]
            need(len(gone) == 1 and [c for c in self.list_before if c != gone[0]] == now, "a removal from %s to %s", self.list_before, now)
            task.removed(gone[0])
        self.check()

    def walk(self, end, link):
        code, found = self.value.get(end, 0), []
        while code > 0 and len(found) <= len(self.tasks):
            found.append(code)
            code = self.value.get("%s%d" % (link, code), 0)
        need(code == 0, "the list doesn't end")
        return found

    def check(self):
        """The facts of this moment. With many tasks they are checked now and then, and often in a wake."""
        if self.kind == "mutex":
            check_mutex(self)
        elif self.kind == "percpu":
            check_percpu(self)
        elif self.kind == "seq":
            check_seq(self)
        elif self.lock == "batch":
            self.turn += 1
            wakes = self.tasks[0].point in ("wake: removes", "wake: grants", "release: releases the wait lock")
            if self.turn % BATCH_TURNS == 0 or wakes and self.turn % WAKE_TURNS == 0:
                check_rwsem(self)
        elif self.kind == "rwsem":
            check_rwsem(self)

    # ---- what happens beside the words -------------------------------------------------------------
    def resched(self, task, place, of, answer):
        task.resched, task.asked_resched = task.resched | answer, True
        task.osq.asked(answer)

    def on_cpu(self, task, place, of, answer):
        task.on_cpu &= answer

    def time(self, task, place, of, now):
        task.jiffies = now
        task.happens("time")

    def signal_pending(self, task, place, of, answer):
        task.signal = answer
        task.happens("signal")

    def begins(self, task, place, of, value):
        call = place.rstrip(".0123456789-")
        if self.lock not in ("spin", "nest"):
            task.begins(call)
            return
        lock = int(place.split(".")[1])
        if call == "unlock":
            spin_call = next(c for c in self.spin_calls[lock] if c.task == task.task)
        else:
            spin_call = SpinCall(self.spin_queues, task.task, lock)
            spin_call.begin(call == "try")
            self.spin_calls[lock].append(spin_call)
        task.spin_calls.append(spin_call)

    def ends(self, task, place, of, result):
        call = place.rstrip(".0123456789-")
        if self.lock in ("spin", "nest"):
            self.spin_call_ends(task.spin_calls.pop(), call, result)
        elif self.kind == "osq":
            idle = call == "unlock" or not result
            need(task.osq.point == ("idle" if idle else "holds"), "osq_lock answers %d at %s", result, task.osq.point)
        else:
            need(task.osq.point == "idle" and task.wait_lock.point == "out", "ends with the wait lock or in the spin queue")
            task.ends(result)
            self.check()

    def spin_call_ends(self, spin_call, call, result):
        misses = call == "try" and result == 0
        point = "out" if call == "unlock" else "first exchange" if misses else "holds"
        need(spin_call.point == point, "%s answers %d at %s", call, result, spin_call.point)
        if point != "holds":
            self.spin_calls[spin_call.lock].remove(spin_call)

    def sleeps(self, task, place, of, value):
        task.asleep = True
        task.looks_before_sleep(True)
        task.happens("sleeps")
        self.check()

    def is_back(self, task, place, of, value):
        task.state, task.asleep = 0, False
        task.happens("is_back")
        self.check()

    def yields(self, task, place, of, value):
        task.state = 0
        task.looks_before_sleep(False)
        task.happens("yields")
        if self.kind == "percpu":
            task.happens("is_back")
        self.check()

    def chooses(self, task, place, of, is_queued):
        task.chooses(of)
        if is_queued:
            differs("a wake that another has to do already is left to it")
            need(any(of in other.chosen for other in self.tasks), "a wake left to nobody")
        else:
            task.chosen.append(of)
        self.check()

    def wakes(self, task, place, of, value):
        need(task.wait_lock.point != "holds", "wakes under the wait lock")
        need(task.chosen and task.chosen[0] == of, "wakes another than it chose")
        task.wakes(of)
        task.chosen.pop(0)
        self.tasks[of - 1].state, self.tasks[of - 1].was_woken = 0, True
        self.check()

    def wakes_directly(self, task, place, of, value):
        task.wakes_directly(max(of, 0))
        if of > 0:
            self.tasks[of - 1].state, self.tasks[of - 1].asleep = 0, False
        self.check()

    def takes_line(self, task, place, of, value):
        task.happens("takes_line")

    def appends(self, task, place, of, value):
        task.happens("appends")

    def releases_line(self, task, place, of, value):
        task.happens("releases_line")
        self.check()

    def wakes_for_nothing(self, task, place, of, value):
        self.tasks[of - 1].state = 0

    def signalled(self, task, place, of, value):
        other = self.tasks[of - 1]
        if other.state in (1, 3):       # an interruptible or killable sleep ends
            other.state = 0

    def nobody_goes_on(self, task, place, of, value):
        self.ended_early = True
        need(False, "nobody can go on: a wake is lost")

    def is_cut_off(self, task, place, of, value):
        self.ended_early = True

    def code_fails(self, task, place, of, value):
        self.ended_early = True
        need(False, "the kernel's code fails by a signal")

    EVENTS = {"Q": resched, "P": on_cpu, "J": time, "G": signal_pending, "B": begins, "E": ends, "Z": sleeps, "R": is_back, "Y": yields,
              "W": chooses, "K": wakes, "V": wakes_directly, "H": takes_line, "M": appends, "h": releases_line,
              "U": wakes_for_nothing, "I": signalled, "D": nobody_goes_on, "T": is_cut_off, "F": code_fails}

    def end(self):
        """All calls have ended: nothing is left in the words."""
        if self.ended_early:
            return
        need(self.list == [], "the list is left")
        if self.has_list:
            need([] == self.walk("last", "wprev"), "the list is left")
        for place in ("owner", "count", "tail", "word0", "block"):
            need(self.value.get(place, 0) == 0, "the word %s is left", place)
