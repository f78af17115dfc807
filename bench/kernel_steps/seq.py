"""The sequence lock: the steps of writers and readers, and what holds at each moment.

Two words of data stand behind it. Each write adds 1 to both, so an even word says what they are.
"""
from call import Call
from counts import did, differs, need
from machine import STAYS, at

SEQ, DATA = "seq", "data"
INSIDE = {"writes", "loads to leave", "leaves"}


class SequenceCall(Call):
    """A task, and where it is in a call."""
    start, seen, stored, result = None, (), (), 0

    def begins(self, call):
        need(self.point == "out", "begins at %s", self.point)
        self.start, self.seen, self.stored, self.result = None, (), (), 0
        self.call, self.point = call, "takes the spin lock" if call == "write" else "looks"

    def ends(self, result):
        need(self.point == "returns" and result == self.result, "answers %d at %s", result, self.point)
        self.point = "out"

    def on_acquired(self):
        self.go("holds the spin lock", {"takes the spin lock": "loads to enter"})

    def on_released(self):
        self.go("releases the spin lock", {"releases the spin lock": "returns"})

    # ---- a writer --------------------------------------------------------------------------------
    @at("loads to enter", "loads to leave")
    def load(self, s):
        if s.kind != SEQ or not s.loads:
            return None
        differs("seq: a writer changes the word by a load and a store, under a spin lock")
        self.point = "enters" if self.point == "loads to enter" else "leaves"
        return STAYS

    @at("enters", "leaves")
    def change(self, s):
        if s.kind != SEQ or not s.stores:
            return None
        enters = self.point == "enters"
        need(s.old % 2 == (not enters) and s.new == s.old + 1, "%s from %d to %d", self.point, s.old, s.new)
        did("seq write: enters" if enters else "seq write: leaves")
        self.run.enters += enters
        self.point = "writes" if enters else "releases the spin lock"
        return STAYS

    @at("writes")
    def write(self, s):
        if s.kind != DATA or not s.stores:
            return None
        did("seq write: stores data")
        self.stored += (s.of,)
        if len(self.stored) == 2:
            self.point = "loads to leave"
        return STAYS

    # ---- a reader --------------------------------------------------------------------------------
    @at("looks")
    def look(self, s):
        if s.kind != SEQ or not s.loads:
            return None
        if s.old % 2:
            differs("seq: a reader waits while the word is odd")
            return STAYS
        did("seq read: finds an even word")
        self.start, self.point = s.old, "reads"
        return STAYS

    @at("reads")
    def read(self, s):
        if s.kind != DATA or not s.loads:
            return None
        did("seq read: loads data")
        self.seen += (s.old,)
        if len(self.seen) == 2:
            self.point = "looks again"
        return STAYS

    @at("looks again")
    def look_again(self, s):
        if s.kind != SEQ or not s.loads:
            return None
        if s.old == self.start:
            did("seq read: finds the same word")
            need(set(self.seen) == {self.start // 2}, "read %s at the word %d", self.seen, self.start)
        else:
            did("seq read: finds another word, raced")
            self.result = -1
        self.point = "returns"
        return STAYS


# ---- what holds at each moment ---------------------------------------------------------------------
def check_seq(run):
    word = run.value.get(SEQ, 0)
    inside = [task.code for task in run.tasks if task.point in INSIDE]
    need(word % 2 == len(inside), "the word is %d, and %s write", word, inside)
    need(word == 2 * run.enters - len(inside), "the word is %d after %d times", word, run.enters)
    data = {run.value.get("data%d" % of, 0) for of in range(2)}
    need(inside or data == {word // 2}, "the data are %s at the word %d", data, word)
