#!/usr/bin/env python3
"""Runs the program on some schedules of a lock and replays each.

As a program, `trial.py PROGRAM LOCK SECONDS` goes through schedules of each order until one differs or
the time is over, and prints the shortest that differs. bench/conform --wrong runs it so.
"""
import functools
import re
import subprocess
import sys
import time
from collections import namedtuple

import counts
from replay import Functions, Run

LOCKS = ("mutex", "rwsem", "osq", "spin", "nest", "percpu", "seq", "batch")
# Schedules of a slice: how many of each order, and of how many tasks (0: two to six).
ORDERS = {"drawn": (100, 0), "hard": (50, 0), "bound": (50, 3)}
SLICE = sum(count for count, _ in ORDERS.values())
# A batch has more than 256 tasks, so one run of it stands for many schedules.
SCHEDULES_OF_A_BATCH = 1000
# So many schedules of three tasks that are bound have the same calls.
BOUND_BLOCK = 64 * 64 * 4
LINES_SHOWN = 80

Place = namedtuple("Place", "lock order number tasks version layout program")
Found = namedtuple("Found", "place lines reason trace")


@functools.cache
def functions_of(program):
    """The functions of a program, from one process for all its runs."""
    return Functions(program)


class Trial:
    """The schedules that were run so far, and what differed."""

    def __init__(self):
        self.schedules, self.lines, self.cut_off = {}, {}, {}
        self.found = {}         # by kind of difference: how many, and the shortest

    def differ(self):
        return sum(times for times, _ in self.found.values())

    def add(self, key, run, lines, difference):
        """A schedule has ended."""
        for table, more in ((self.schedules, 1), (self.lines, lines), (self.cut_off, run.ended_early)):
            table[key] = table.get(key, 0) + more
        if difference:
            kind = re.sub("[0-9]+", "N", difference.reason)
            times, least = self.found.get(kind, (0, difference))
            self.found[kind] = times + 1, min(least, difference, key=lambda found: found.lines)

    def run(self, place, count, ended=lambda replay: None):
        """Runs so many schedules, from the place's number on, and tells `ended` of each."""
        words = [place.program, place.lock, place.number, count, place.tasks, place.order]
        process = subprocess.Popen(list(map(str, words)), stdout=subprocess.PIPE, text=True, bufsize=1 << 20)
        functions = functions_of(place.program)
        replay = None
        for text in process.stdout:
            fields = text.split()
            if fields[0] == "run":
                replay = Replay(place._replace(number=int(fields[2]), tasks=int(fields[3])), functions)
            elif fields[0] == "end":
                replay.end()
                ended(replay)
                self.add((place.version, place.layout, place.lock), replay.run, replay.lines, replay.difference())
            elif not replay.reason:
                replay.line(text, fields)
        if process.wait() and not self.found:
            raise OSError("%s ended with %d" % (place.program, process.returncode))


class Replay:
    """A run, its trace, and the reason why it differs, if it does."""

    def __init__(self, place, functions):
        self.place, self.run = place, Run(place.lock, place.tasks, functions)
        self.lines, self.trace, self.reason = 0, [], None
        counts.position[1:] = place.lock + " " + place.order, place.number, place.tasks

    def line(self, text, fields):
        self.lines += 1
        counts.position[0] = self.lines
        self.trace.append(text)
        try:
            self.run.line(fields)
        except counts.Difference as difference:
            self.reason = str(difference)
        except (KeyError, IndexError, AttributeError, ValueError, TypeError) as error:
            # A wrong kernel can lead the rule to where it has no list, waiter or node.
            self.reason = "the rule can't go on: %s %r at %s" % (type(error).__name__, error, self.run.tasks[int(fields[0])].point)

    def end(self):
        if self.reason:
            return
        try:
            self.run.end()
        except counts.Difference as difference:
            self.reason = str(difference)

    def difference(self):
        return Found(self.place, self.lines, self.reason, self.trace) if self.reason else None


def first_of(order, seed, turn):
    """The number of the first schedule of a slice."""
    count = ORDERS[order][0]
    return seed + turn * (BOUND_BLOCK + count if order == "bound" else count)


def run_slice(trial, place, seed, turn, orders):
    """A slice of each order, or one run of a batch."""
    if place.lock == "batch":
        trial.run(place._replace(order="drawn", number=seed + turn), 1)
        return
    for order in orders:
        count, tasks = ORDERS[order]
        trial.run(place._replace(order=order, number=first_of(order, seed, turn), tasks=place.tasks or tasks), count)


def tell_trace(found, whole=False):
    """Prints the lines, the last of a long trace, with the kernel's functions."""
    lines = found.trace if whole or len(found.trace) <= LINES_SHOWN else found.trace[-LINES_SHOWN:]
    if len(lines) < len(found.trace):
        print("    ... %d lines before" % (len(found.trace) - len(lines)))
    functions = functions_of(found.place.program)
    for line in lines:
        pc = line.split()[5]
        where = "" if pc == "0" else "  %s %s" % functions.at(pc)
        print("    " + line.rsplit(" ", 1)[0] + where)


def main():
    program, lock, seconds = sys.argv[1], sys.argv[2], float(sys.argv[3])
    trial, start, turn = Trial(), time.monotonic(), 0
    while not trial.found and time.monotonic() - start < seconds:
        run_slice(trial, Place(lock, "", 0, 0, "", 0, program), 1, turn, ORDERS)
        turn += 1
    print(sum(trial.schedules.values()), "schedules", "%.1f" % (time.monotonic() - start), "seconds")
    if not trial.found:
        return 0
    least = min((found for _, found in trial.found.values()), key=lambda found: found.lines)
    print("%s, order %s, run %d of %d tasks, line %d: %s" % (*least.place[:4], least.lines, least.reason))
    tell_trace(least)
    return 1


if __name__ == "__main__":
    sys.exit(main())
