"""The mutex: which steps a call makes on the owner word and the list, and what holds at each moment."""
import words
from call import BUSY, EINTR, Call
from counts import did, differs, need
from machine import STAYS, at

OWNER, HEAD = "owner", "head"

# Where a try that fails goes on, and one that takes.
FAILED = {"1: tries": "2: may spin", "trylock": "missed", "3: tries with the wait lock": "4: appends",
          "5: tries in line": "5: looks at signals", "2: spins": "2: spins", "7: spins as the first": "7: spins as the first"}
TOOK = {"1: tries": "returns", "trylock": "returns", "2: spins": "2: leaves the spin queue, took",
        "3: tries with the wait lock": "3: releases the wait lock", "5: tries in line": "8: removes",
        "6: tries after sleep": "8: takes the wait lock", "7: spins as the first": "8: takes the wait lock"}
IN_LIST = {"4: sets WAITERS", "5: tries in line", "5: looks at signals", "6: sleeps", "6: is it the first", "6: tries after sleep",
           "7: spins as the first", "7: takes the wait lock", "8: takes the wait lock", "8: removes", "9: removes"}
# Points of a waiter that isn't asleep and will try under the wait lock, or before it sleeps.
AWAKE = {"4: sets WAITERS", "5: tries in line", "6: is it the first", "6: tries after sleep", "7: spins as the first",
         "7: takes the wait lock", "8: takes the wait lock"}


class MutexCall(Call):
    first = 0               # the code of the first waiter that a release has loaded
    saw_handoff = False
    is_first = False

    def begins(self, call):
        need(self.point == "out", "a call within a call")
        self.call, self.interruptible = call, call == "lock_int"
        self.point = {"try": "trylock", "unlock": "unlock: fast"}.get(call, "1: tries")
        self.resched, self.on_cpu = 0, 1
        need(call != "unlock" or self.hold, "unlocks without holding")

    def ends(self, result):
        need(not self.chosen, "ends with a wake to do")
        if self.call == "try":
            need(self.point == ("missed" if result == BUSY else "returns"), "trylock answers %d at %s", result, self.point)
        elif self.call == "unlock":
            need(self.point == "returns" and not self.hold, "unlock ends at %s", self.point)
        else:
            wanted = "returns interrupted" if result == EINTR else "returns"
            need(self.point == wanted and bool(self.hold) == (result == 0), "lock answers %d at %s", result, self.point)
        self.point = "out"

    # ---- steps on the owner word -------------------------------------------------------------------
    @at(*FAILED, "6: tries after sleep")
    def try_word(self, s):
        if s.kind != OWNER:
            return None
        if self.point == "7: spins as the first" and not self.asked_resched:
            differs("mutex 7: tries before it asks whether to reschedule")
        asks = self.point == "6: tries after sleep" and self.is_first
        answer = words.owner_try(s.old, self.code, asks)
        if s.takes:
            return self.try_exchanges(s, answer)
        if s.fails and s.function == "__mutex_trylock_fast":
            differs("mutex 1: an exchange from 0, and then a try")
            return STAYS
        if s.op not in "Lc" or s.function != "__mutex_trylock_common":
            return None
        if s.fails:
            did("mutex try: exchange fails, again")
        if answer[0] == "fail":
            self.try_fails(s.old, asks)
        return STAYS

    def try_exchanges(self, s, answer):
        if s.makes(answer, "take", "ask") == "ask":
            did("mutex 6: asks")
            self.point, self.asked_resched = "7: spins as the first", False
            return STAYS
        need(not any(task.hold for task in self.run.tasks), "a second holder")
        self.hold = "alone"
        did("mutex try: picks up" if s.old >> 3 else "mutex try: takes a word with WAITERS" if s.old & words.WAITERS
            else "mutex try: takes a word without flags")
        self.tell_where_it_took()
        self.point = TOOK[self.point]
        return STAYS

    def tell_where_it_took(self):
        if self.point == "trylock":
            did("mutex trylock: takes")
        elif self.point == "1: tries":
            did("mutex 1: takes")
        elif self.point == "2: spins":
            did("mutex 2: takes")
        elif self.point == "3: tries with the wait lock":
            did("mutex 3: takes")
        elif self.point == "5: tries in line":
            did("mutex 5: takes")
        elif self.point == "6: tries after sleep":
            did("mutex 6: takes")
        else:
            did("mutex 7: takes")

    def try_fails(self, word, asks):
        did("mutex try: fails, another is picked" if word & words.PICKUP else "mutex try: fails, HANDOFF is set already" if asks
            else "mutex try: fails")
        if self.point == "6: tries after sleep":
            did("mutex 6: fails, first" if self.is_first else "mutex 6: fails, not first")
            self.point = "7: spins as the first" if self.is_first else "7: takes the wait lock"
            self.asked_resched = False
        else:
            self.point = FAILED[self.point]
        self.resched, self.on_cpu, self.signal = 0, 1, None

    @at("4: sets WAITERS")
    def set_waiters(self, s):
        if s.kind != OWNER or s.op != "O":
            return None
        need(s.old & 7 == 0, "mutex 4: sets WAITERS of %d", s.old)
        s.makes(words.owner_set_waiters(s.old))
        did("mutex 4: sets WAITERS")
        self.point = "5: tries in line"
        return STAYS

    @at("8: clears the flags", "9: clears the flags")
    def clear_flags(self, s):
        if s.kind != OWNER or s.op != "N":
            return None
        need(not s.old & words.PICKUP, "clears PICKUP of %d", s.old)
        s.makes(words.owner_clear_flags(s.old))
        if self.point == "8: clears the flags":
            did("mutex 8: clears the flags")
            self.point = "8: releases the wait lock"
        else:
            did("mutex 9: clears the flags, HANDOFF among them" if s.old & words.HANDOFF else "mutex 9: clears the flags")
            self.point = "9: releases the wait lock"
        return STAYS

    @at("unlock: fast")
    def unlock_fast(self, s):
        if s.kind != OWNER or not (s.takes or s.fails):
            return None
        if s.fails:
            self.point = "unlock: releases"
            return STAYS
        need(s.old == 8 * self.code, "unlocks %d", s.old)
        s.makes(words.owner_release(s.old))
        did("mutex unlock: fast")
        self.hold, self.point = "", "returns"
        return STAYS

    @at("unlock: releases")
    def unlock(self, s):
        if s.kind != OWNER:
            return None
        need(s.old >> 3 == self.code and not s.old & words.PICKUP, "unlock sees %d", s.old)
        answer = words.owner_release(s.old)
        if s.takes:
            s.makes(answer)
            self.hold, self.saw_handoff = "", False
            did("mutex unlock: releases, WAITERS" if s.old & words.WAITERS else "mutex unlock: releases, no WAITERS any more")
            self.point = "unlock: takes the wait lock" if s.old & words.WAITERS else "returns"
            return STAYS
        if s.fails:
            did("mutex unlock: exchange fails, again")
        if answer[0] == "none":
            did("mutex unlock: saw HANDOFF")
            self.point, self.saw_handoff = "unlock: takes the wait lock", True
        return STAYS

    @at("unlock: hands over")
    def hand_over(self, s):
        if s.kind != OWNER:
            return None
        if s.takes:
            s.makes(words.owner_handoff(s.old, self.first))
            did("mutex unlock: hands over" if self.first else "mutex unlock: hands over to nobody")
            self.hold, self.point = "", "unlock: releases the wait lock"
        elif s.fails:
            did("mutex unlock: handoff exchange fails, again")
        return STAYS

    # ---- steps on the list -------------------------------------------------------------------------
    @at("6: is it the first")
    def look_whether_first(self, s):
        if s.kind != HEAD or not s.loads:
            return None
        self.is_first = s.old == self.code
        did("mutex 6: is the first" if self.is_first else "mutex 6: isn't the first")
        self.point = "6: tries after sleep"
        return STAYS

    @at("unlock: loads the first")
    def load_first(self, s):
        if s.kind != HEAD or not s.loads:
            return None
        self.first = s.old
        if not s.old:
            did("mutex unlock: nobody waits")
            self.choose()
        return STAYS

    def choose(self):
        self.point = "unlock: hands over" if self.saw_handoff else "unlock: releases the wait lock"

    def chooses(self, who):
        need(self.point == "unlock: loads the first" and who == self.first == self.run.list[0], "chooses %d at %s", who, self.point)
        did("mutex unlock: reads the first waiter")
        self.choose()

    def wakes(self, who):
        self.expect_point("wakes", "returns")
        did("mutex unlock: wakes")

    def appended(self, who):
        need(who == self.code, "appends another")
        self.expect_point("appends", "4: appends")
        alone = len(self.run.list) == 1
        did("mutex 4: appends as the first" if alone else "mutex 4: appends behind others")
        self.point = "4: sets WAITERS" if alone else "5: tries in line"

    def removed(self, who):
        need(who == self.code, "removes another")
        self.expect_point("leaves the list", "8: removes", "9: removes")
        others = bool(self.run.list)
        if self.point == "8: removes":
            did("mutex 8: removes, others wait" if others else "mutex 8: removes, the last")
        else:
            did("mutex 9: removes, others wait" if others else "mutex 9: removes, the last")
        number = self.point.split(":")[0]
        self.point = number + (": releases the wait lock" if others else ": clears the flags")

    # ---- what happens beside the words -------------------------------------------------------------
    def stops_for_a_reason(self):
        need(self.resched or not self.on_cpu, "stops spinning without a reason at %s", self.point)
        if not self.resched:
            differs("spinning stops as the owner runs on no CPU")

    def on_osq_lock(self):
        self.go("goes for the spin queue", {"2: may spin": "2: waits in the spin queue"})

    def on_head(self):
        self.go("becomes head", {"2: waits in the spin queue": "2: spins"})
        did("mutex 2: takes the spin queue")

    def on_left(self):
        self.go("left the spin queue", {"2: waits in the spin queue": "3: takes the wait lock"})
        did("mutex 2: left the spin queue")

    def on_osq_unlock(self):
        if self.point == "2: spins":
            self.stops_for_a_reason()
            did("mutex 2: stops spinning")
            self.point = "2: leaves the spin queue, gave up"
        self.expect_point("leaves the spin queue", "2: leaves the spin queue, took", "2: leaves the spin queue, gave up")

    def on_unlocked(self):
        self.go("left the spin queue", {"2: leaves the spin queue, took": "returns",
                                        "2: leaves the spin queue, gave up": "3: takes the wait lock"})

    def on_wait_lock(self):
        if self.point == "2: may spin":
            self.stops_for_a_reason()
            did("mutex 2: need_resched, doesn't spin")
            self.point = "3: takes the wait lock"
        elif self.point == "7: spins as the first":
            self.stops_for_a_reason()
            did("mutex 7: stops spinning")
            self.point = "7: takes the wait lock"
        self.expect_point("takes the wait lock", "3: takes the wait lock", "7: takes the wait lock", "8: takes the wait lock",
                          "unlock: takes the wait lock")

    def on_acquired(self):
        self.go("has the wait lock", {"3: takes the wait lock": "3: tries with the wait lock", "7: takes the wait lock": "5: tries in line",
                                      "8: takes the wait lock": "8: removes", "unlock: takes the wait lock": "unlock: loads the first"})

    def on_released(self):
        if self.point == "5: looks at signals":
            need(not self.interruptible or self.signal == 0, "sleeps with a signal")
            did("mutex 6: no signal, releases the wait lock" if self.interruptible else "mutex 6: releases the wait lock")
        self.go("releases the wait lock", {
            "5: looks at signals": "6: sleeps", "3: releases the wait lock": "returns", "8: releases the wait lock": "returns",
            "unlock: releases the wait lock": "returns", "9: releases the wait lock": "returns interrupted"})

    def on_signal(self):
        self.expect_point("looks at signals", "5: looks at signals")
        if self.signal:
            did("mutex 5: a signal is pending")
            self.point = "9: removes"

    def on_sleeps(self):
        self.expect_point("sleeps", "6: sleeps")
        did("mutex 6: sleeps")

    def on_is_back(self):
        self.point = "6: is it the first"

    def on_yields(self):
        if self.point == "6: sleeps":
            did("mutex 6: was woken before it slept")
            self.point = "6: is it the first"
            return
        self.expect_point("yields", "2: may spin", "3: takes the wait lock", "7: spins as the first")
        differs("mutex: reschedules after it stopped spinning")


# ---- what holds at each moment ---------------------------------------------------------------------
def check_mutex(run):
    word, waiters = run.value.get("owner", 0), run.list
    holders = [task.code for task in run.tasks if task.hold]
    check_owner(word, holders, waiters)
    in_list = [task.code for task in run.tasks if task.point in IN_LIST]
    need(sorted(waiters) == in_list, "list %s, but in the list by their calls are others", waiters)
    check_flags(run.tasks, word & 7, waiters)
    if waiters and not holders:
        check_duty(run.tasks, run.tasks[waiters[0] - 1])


def check_owner(word, holders, waiters):
    code, flags = word >> 3, word & 7
    if flags & words.PICKUP:
        need(not holders and waiters and code == waiters[0], "PICKUP of %d: %s hold, %s wait", word, holders, waiters)
        need(not flags & words.HANDOFF, "HANDOFF and PICKUP: %d", word)
    else:
        need(holders == ([code] if code else []), "owner word %d, and %s hold", word, holders)
    need(code or not flags & 6, "a word without a task has flags: %d", word)


def check_flags(tasks, flags, waiters):
    """WAITERS says whether the list is empty, but for one task between the list and the word."""
    between = next((task for task in tasks if task.point in ("4: sets WAITERS", "8: clears the flags", "9: clears the flags")), None)
    if between is None:
        need(bool(flags & words.WAITERS) == bool(waiters), "WAITERS of %d, list %s", flags, waiters)
        need(waiters or not flags & 6, "HANDOFF or PICKUP of %d, nobody waits", flags)
    elif between.point == "4: sets WAITERS":
        need(waiters == [between.code] and not flags, "before WAITERS is set")
    else:
        need(not waiters and flags & words.WAITERS and not flags & words.PICKUP, "before the flags are cleared")
    for task in tasks:
        if task.point == "6: tries after sleep" and task.is_first or task.point == "7: spins as the first":
            need(waiters[0] == task.code, "a first waiter that isn't the first")
        if task.point in ("unlock: hands over", "unlock: releases the wait lock"):
            need(task.first == (waiters[0] if waiters else 0), "the chosen isn't the first")


def check_duty(tasks, first):
    """Nobody holds: somebody owes the first waiter a wake, has chosen it, or it is awake."""
    owes = any(task.point in ("unlock: takes the wait lock", "unlock: loads the first") and not task.saw_handoff for task in tasks)
    chosen = any(first.code in task.chosen or task.point in ("unlock: hands over", "unlock: releases the wait lock")
                 and task.first == first.code for task in tasks)
    need(owes or chosen or first.state == 0 or first.point in AWAKE, "nobody is to wake the first waiter %d at %s", first.code, first.point)
    if first.point in ("5: looks at signals", "9: removes"):
        need(owes, "the first waiter failed under the wait lock, and nobody holds or owes")
