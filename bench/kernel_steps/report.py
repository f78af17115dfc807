"""Prints what a trial has shown."""
import counts
import differences
import words
from trial import tell_trace

# Which modules name the steps of a lock. A batch has those of a wake alone.
MODULES_OF = {"mutex": ("mutex", "osq", "spin"), "rwsem": ("rwsem", "osq", "spin"), "osq": ("osq",), "spin": ("spin",), "nest": ("spin",),
              "batch": (), "percpu": ("percpu",), "seq": ("seq", "spin")}


def tell_runs(trial):
    print("\n%-8s %-7s %-7s %10s %12s %8s" % ("kernel", "layout", "lock", "schedules", "lines", "cut off"))
    for key in sorted(trial.schedules, key=lambda key: (key[2], key[0], key[1])):
        print("%-8s %-7d %-7s %10d %12d %8d" % (*key, trial.schedules[key], trial.lines[key], trial.cut_off[key]))
    print("all: %d schedules, %d lines, %d differ" % (sum(trial.schedules.values()), sum(trial.lines.values()), trial.differ()))


def tell_differences(trial):
    for kind, (times, least) in sorted(trial.found.items(), key=lambda item: -item[1][0]):
        place = least.place
        print("\nDIFFERS in %d schedules: %s" % (times, least.reason))
        print("  shortest: %d lines. To see it: bench/conform --show %s %d --order %s --tasks %d --kernel %s --layout %d" % (
            least.lines, place.lock, place.number, place.order, place.tasks, place.version, place.layout))
        tell_trace(least)


def tell_known():
    """The documented differences that occurred. Answers how many have no row, and how many rows nothing counts."""
    without = 0
    print("\nsteps that the rule doesn't have, with their row in docs/LOCK_WORDS.md, 'Differences from Linux 6.6':")
    for label, times in counts.known.most_common():
        row = differences.row_of(label)
        without += row is None
        lines, where, number, tasks = counts.shortest[label]
        print("%10d  %s\n            [%s]   line %d of %s, run %d of %d tasks" % (times, label, row or "NO ROW", lines, where, number, tasks))
    unseen = differences.rows_not_seen()
    for row in unseen:
        print("            [%s]   is said to be found by a run, and no step is counted for it" % row)
    return without + len(unseen)


def tell_steps(locks, every):
    """How many steps of the rules occurred, and which didn't."""
    named = counts.all_steps()
    wanted = set().union(*(named[module] for lock in locks for module in MODULES_OF[lock]))
    if not wanted:
        return
    never = sorted(label for label in wanted if not counts.steps[label])
    print("\n%d of the %d steps of the rules occurred%s" % (len(wanted) - len(never), len(wanted), "; not these:" if never else ""))
    for label in never:
        print("            " + label)
    if every:
        tell_counter("steps of the rules", counts.steps)
        tell_counter("words behind a change", {"%s: %s" % key: times for key, times in counts.words.items()})
        tell_counter("sums of a wake", counts.sums)
        tell_counter("accesses of the kernel's code beside the rule's, which leave the lock's words as they are",
                     {"%s of %s in %s, %s" % (op, kind, function, line): times for (function, line, kind, op), times in counts.loads.items()})


def tell_counter(name, counter):
    print("\n%s:" % name)
    for label, times in sorted(counter.items()):
        print("%10d  %s" % (times, label))


def tell_answers(program):
    """Asks the program for each word. Answers how many differ."""
    differ, answered = words.compare(program)
    print("\nwords by %s:" % program)
    print("%-22s %10s %10s %10s" % ("step", "steps", "questions", "answered"))
    asked = [question[0] for question in words.answers]
    for name in sorted(words.times):
        print("%-22s %10d %10d %10d" % (name, words.times[name], asked.count(name), answered[name]))
    print("%d steps, %d different questions, %d answered, %d differ" % (
        sum(words.times.values()), len(asked), sum(answered.values()), len(differ)))
    for question, ours, theirs, place in differ[:20]:
        print("ANSWERS OTHERWISE  %s: %s, and here %s; first at line %d of %s, run %d of %d tasks" % (
            words.line_of(question), theirs, words.line_of(ours), *place))
    return len(differ)
