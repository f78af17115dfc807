"""What the rules of all locks have in common: a step, and a machine with a method for each point of a call."""
from counts import need

STAYS = "stays"         # the rule has the step, and the call goes on


class Step:
    """One step of the kernel's code on a word."""
    __slots__ = ("op", "kind", "of", "old", "new", "function")

    def __init__(self, op, kind, of, old, new, function=None):
        self.op, self.kind, self.of, self.old, self.new, self.function = op, kind, of, old, new, function

    @property
    def loads(self):
        return self.op in "Ll"

    @property
    def stores(self):
        return self.op in "Ss"

    @property
    def takes(self):
        """A compare-exchange that took."""
        return self.op == "C"

    @property
    def fails(self):
        """A compare-exchange that failed."""
        return self.op == "c"

    def makes(self, answer, *names):
        """The step leaves the word that the rule says, and for one of these names."""
        need(answer[0] in (names or ("to",)) and answer[1] == self.new,
             "the step from %d to %d, and the rule says %s %d", self.old, self.new, *answer)
        return answer[0]


def at(*points):
    """The method says which steps the rule has at these points."""
    def mark(method):
        method.points = points
        return method
    return mark


class Machine:
    """Where a task is in a call. `step` answers None where the rule doesn't have the step there."""
    point = None
    handlers = {}

    def __init_subclass__(cls):
        cls.handlers = {point: method for method in vars(cls).values() for point in getattr(method, "points", ())}

    def step(self, s):
        handler = self.handlers.get(self.point)
        return handler(self, s) if handler else None
