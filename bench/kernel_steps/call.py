"""What a call of a mutex and one of a semaphore have in common."""
from counts import differs, need
from machine import Machine
from osq import SpinQueue
from spin import SpinCall

EINTR, BUSY = -4, -1


class Call(Machine):
    """A task, and where it is in a call of the lock. `word` is for steps on the lock's own words; a
    method `on_EVENT` is for what happens beside them."""

    def __init__(self, run, task):
        self.run, self.task, self.code = run, task, task + 1
        self.osq = SpinQueue(run.osq_queue, task)
        self.wait_lock = SpinCall(run.spin_queues, task, 0)
        self.spin_calls = []        # of the runs that have spin locks alone
        self.point, self.call, self.hold, self.interruptible = "out", None, "", False
        self.state = 0              # of the task, as the kernel has it: 0 while it runs
        self.chosen = []            # whom it will wake
        self.asleep = False
        self.was_woken = False      # since it last looked, before a sleep, whether a wake has come
        self.resched, self.on_cpu, self.signal, self.jiffies = 0, 1, 0, None
        self.asked_resched = False

    def looks_before_sleep(self, sleeps):
        """Here a wake is a word that stays 1 until its task looks at it before a sleep."""
        if sleeps and self.was_woken:
            differs("sleeps though it was woken since it last slept")
        self.was_woken = False

    def happens(self, event):
        method = getattr(self, "on_" + event, None)
        if method:
            method()

    def expect_point(self, doing, *points):
        need(self.point in points, "%s at %s", doing, self.point)

    def go(self, doing, ways):
        """Goes from this point to the one that the ways name."""
        self.expect_point(doing, *ways)
        self.point = ways[self.point]


class OfNoCall(Call):
    """A task of the runs that try a spin lock or the spin queue alone."""

    def begins(self, call):
        self.call = call

    def ends(self, result):
        pass
