"""Wrong variants of the kernel's code: one change each, which the checker must refuse.

Where a variant has a change of the rule too, the rule makes the same mistake: only a fact of each moment
can refuse it then. The words of the changes are names of the kernel, as regular expressions.
"""
import re
import shutil
import subprocess
import sys
import tempfile
from collections import namedtuple
from pathlib import Path

import sources

HERE = Path(__file__).resolve().parent
SECONDS = 60

# `where` matches the first line of the function, and is None where the pattern stands once in the file.
Variant = namedtuple("Variant", "lock file where pattern becomes what rule", defaults=(None,))
# In a file of the checker, one text for another.
Rule = namedtuple("Rule", "file text becomes")

MUTEX, RWSEM, OSQ, SPIN, PERCPU = "mutex.c", "rwsem.c", "osq_lock.c", "qspinlock.c", "percpu-rwsem.c"
SEQ = "../../include/linux/seqlock.h"
REMOVE = r"__mutex_remove_waiter\(struct"
HANDOFF = r"__mutex_handoff\(struct mutex \*lock, struct"
UNLOCK = r"__mutex_unlock_slowpath\(struct mutex \*lock, unsigned long ip\)$"
LOCK = r"__mutex_lock_common"
APPEND = r"__mutex_add_waiter\(struct mutex"
TRY_WRITE = r"rwsem_try_write_lock\(struct"
MARK_WAKE = r"rwsem_mark_wake\(struct"
READ = r"rwsem_down_read_slowpath\(struct"
PERCPU_TRY = r"^static bool __percpu_down_read_trylock"
END, RETRY = r"^static inline void do_raw_write_seqcount_end", r"^static inline int do___read_seqcount_retry"
OSQ_LOCK, OSQ_WAIT, OSQ_UNLOCK = r"^bool osq_lock", r"^osq_wait_next", r"^void osq_unlock"

OF_MUTEX = [
    Variant("mutex", MUTEX, REMOVE, r"__mutex_clear_flag\(lock, MUTEX_FLAGS\)", "__mutex_clear_flag(lock, 1)",
            "the last waiter that leaves keeps HANDOFF"),
    Variant("mutex", MUTEX, HANDOFF, r"new \|= MUTEX_FLAG_PICKUP", "new |= 0", "a handoff sets no PICKUP"),
    Variant("mutex", MUTEX, HANDOFF, r"owner & MUTEX_FLAG_WAITERS", "owner & 3", "a handoff keeps HANDOFF"),
    Variant("mutex", MUTEX, UNLOCK, r"if \(owner & MUTEX_FLAG_HANDOFF\)", "if (0)", "a release lets go though HANDOFF is set"),
    Variant("mutex", MUTEX, UNLOCK, r"wake_q_add\(&wake_q, next\)", "(void)0", "a release wakes nobody"),
    Variant("mutex", MUTEX, r"__mutex_trylock_common", r"if \(task != curr\)", "if (0)", "anybody picks up"),
    Variant("mutex", MUTEX, LOCK, r"__mutex_trylock_or_handoff\(lock, first\)", "__mutex_trylock_or_handoff(lock, true)",
            "a waiter that isn't the first asks"),
    Variant("mutex", MUTEX, APPEND, r"if \(__mutex_waiter_is_first.*", "if (1)", "each waiter sets WAITERS"),
    Variant("mutex", MUTEX, APPEND, r"list_add_tail", "list_add", "a waiter goes to the front of the list"),
    Variant("mutex", MUTEX, LOCK, r"if \(__mutex_trylock\(lock\)\)", "if (0)", "no try with the wait lock before the sleep"),
]
OF_RWSEM = [
    Variant("rwsem", RWSEM, r"rwsem_del_waiter\(struct", r"RWSEM_FLAG_HANDOFF \| RWSEM_FLAG_WAITERS", "RWSEM_FLAG_WAITERS",
            "the last waiter that leaves keeps HANDOFF"),
    Variant("rwsem", RWSEM, TRY_WRITE, r"if \(first->handoff_set && \(waiter != first\)\)", "if (0)",
            "a writer takes before the marked waiter"),
    Variant("rwsem", RWSEM, TRY_WRITE, r"if \(list_is_singular.*", "if (0)", "a writer that is alone keeps WAITERS"),
    Variant("rwsem", RWSEM, TRY_WRITE, r"first->handoff_set = true", "waiter->handoff_set = true", "a writer marks itself"),
    Variant("rwsem", RWSEM, MARK_WAKE, r"continue;", "break;", "a batch stops at a writer"),
    Variant("rwsem", RWSEM, MARK_WAKE, r"\} else if \(woken\)", "} else if (0)", "a batch keeps HANDOFF"),
    Variant("rwsem", RWSEM, MARK_WAKE, r"if \(wake_type == RWSEM_WAKE_ANY\)", "if (0)", "a first writer isn't woken"),
    Variant("rwsem", RWSEM, MARK_WAKE, r"adjustment -= RWSEM_FLAG_WAITERS", "adjustment -= 0",
            "a reader that leaves the list empty of others keeps WAITERS"),
    Variant("rwsem", RWSEM, READ, r"rwsem_cond_wake_waiter.*", "(void)0;", "a reader that queues wakes nobody"),
    Variant("rwsem", RWSEM, READ, r"if \(\(rcnt == 1\)", "if (0 && (rcnt == 1)", "a reader that steals wakes nobody"),
    Variant("rwsem", RWSEM, READ, r"RWSEM_WRITER_LOCKED \| RWSEM_FLAG_HANDOFF", "RWSEM_WRITER_LOCKED", "a reader steals under HANDOFF"),
    Variant("rwsem", RWSEM, READ, r"if \(waiter.task\)", "if (1)", "an interrupted reader leaves though it is granted"),
    Variant("rwsem", RWSEM, r"rwsem_del_wake_waiter\(struct", r"rwsem_del_waiter\(sem, waiter\) && first",
            "rwsem_del_waiter(sem, waiter) && 0 && first", "the first that leaves wakes nobody"),
    Variant("rwsem", RWSEM, r"rwsem_try_write_lock_unqueued\(struct", r"RWSEM_LOCK_MASK\|RWSEM_FLAG_HANDOFF", "RWSEM_LOCK_MASK",
            "a spinning writer takes under HANDOFF"),
    Variant("rwsem", RWSEM, r" __up_read\(struct", r"RWSEM_LOCK_MASK\|RWSEM_FLAG_WAITERS", "RWSEM_WRITER_MASK|RWSEM_FLAG_WAITERS",
            "a reader that isn't the last wakes"),
    Variant("rwsem", RWSEM, r" __downgrade_write\(struct", r"rwsem_downgrade_wake\(sem\)", "(void)0", "a downgrade wakes nobody"),
]
OF_OSQ = [
    Variant("osq", OSQ, OSQ_LOCK, r"prev = READ_ONCE\(node->prev\)", "(void)0", "step A doesn't load prev again"),
    Variant("osq", OSQ, OSQ_LOCK, r"WRITE_ONCE\(next->prev, prev\)", "(void)0", "step C doesn't store prev"),
    Variant("osq", OSQ, OSQ_WAIT, r"next = xchg\(&node->next, NULL\)", "next = node->next", "step B doesn't clear next"),
    Variant("osq", OSQ, OSQ_LOCK, "^\tnode->locked = 0", "\t(void)0", "locked isn't cleared"),
    Variant("osq", OSQ, OSQ_UNLOCK, r"next = xchg\(&node->next, NULL\)", "next = node->next", "a release doesn't clear next"),
]
OF_SPIN = [
    Variant("spin", SPIN, None, r"if \(!\(val & _Q_PENDING_MASK\)\)", "if (1)", "another's pending bit is cleared"),
    Variant("spin", SPIN, None, "^\tnode->next = NULL;", "\t(void)0;", "next isn't cleared"),
    Variant("spin", SPIN, None, "^\tif \\(\\(val & _Q_TAIL_MASK\\) == tail\\)", "\tif (1)", "a head takes as if it were the last"),
    Variant("spin", SPIN, None, r"!\(VAL & _Q_LOCKED_PENDING_MASK\)", "!(VAL & _Q_LOCKED_MASK)", "a head doesn't wait for the pending bit"),
    Variant("spin", SPIN, None, r"if \(val & _Q_LOCKED_MASK\)", "if (0)", "the owner of the pending bit doesn't wait"),
    Variant("nest", SPIN, None, r"idx = node->count\+\+", "idx = 0 & node->count++", "an interrupt uses the interrupted call's node"),
]
OF_PERCPU = [
    Variant("percpu", PERCPU, PERCPU_TRY, r"this_cpu_dec\(\*sem->read_count\)", "(void)0", "a reader that is blocked stays counted"),
    Variant("percpu", PERCPU, PERCPU_TRY, r"rcuwait_wake_up\(&sem->writer\)", "(void)0", "a reader that is blocked doesn't wake the writer"),
    Variant("percpu", PERCPU, None, r"wait = !__percpu_rwsem_trylock\(sem, reader\)", "wait = true", "no try with the lock of the line"),
    Variant("percpu", PERCPU, None, r"__wake_up\(&sem->waiters", "if (0) __wake_up(&sem->waiters", "a writer's release wakes nobody"),
    Variant("percpu", PERCPU, None, r"return !reader;", "return 1;", "a writer's release wakes one reader alone"),
    Variant("percpu", PERCPU, None, r"if \(per_cpu_sum\(\*sem->read_count\) != 0\)", "if (0)", "a writer doesn't wait for readers"),
]
OF_SEQ = [
    Variant("seq", SEQ, END, r"s->sequence\+\+", "(void)0", "a writer leaves the word odd"),
    Variant("seq", SEQ, r"^static inline void write_seqlock\(", r"spin_lock\(&sl->lock\)", "(void)0", "writers aren't kept apart"),
    Variant("seq", SEQ, None, r"seqprop_sequence\(s\)\) & 1", "seqprop_sequence(s)) & 0", "a reader goes on at an odd word"),
    Variant("seq", SEQ, RETRY, r"READ_ONCE\(s->sequence\) != start", "0", "a reader doesn't look again"),
]
ONE_SIDED = OF_MUTEX + OF_RWSEM + OF_OSQ + OF_SPIN + OF_PERCPU + OF_SEQ


def alike(lock, name, rule, **other):
    """A variant of the list above, with the same change of the rule, so that a fact of each moment must refuse it."""
    variant = next(v for v in ONE_SIDED if (v.lock, v.what) == (lock, name))
    return variant._replace(rule=rule, **other)


OF_BOTH = [
    alike("mutex", "a handoff sets no PICKUP", Rule("words.py", "8 * first | PICKUP if first", "8 * first if first")),
    alike("mutex", "a release wakes nobody",
          Rule("mutex.py", 'nobody waits")\n            self.choose()', 'nobody waits")\n        self.choose()')),
    alike("mutex", "the last waiter that leaves keeps HANDOFF", Rule("words.py", "word & ~7", "word & ~6"),
          becomes="__mutex_clear_flag(lock, 6)", what="the last waiter that leaves keeps WAITERS"),
    alike("mutex", "a waiter that isn't the first asks",
          Rule("mutex.py", 'self.point == "6: tries after sleep" and self.is_first', 'self.point == "6: tries after sleep"')),
    alike("rwsem", "the last waiter that leaves keeps HANDOFF",
          Rule("words.py", "word & ~(HAS_WAITERS | ASKED)", "word & ~HAS_WAITERS")),
    Variant("rwsem", RWSEM, MARK_WAKE, r"woken \* RWSEM_READER_BIAS - adjustment", "woken * RWSEM_READER_BIAS",
            "a wake keeps its own bias", Rule("words.py", "READER * (readers - reserved)", "READER * readers")),
    alike("rwsem", "a reader that queues wakes nobody",
          Rule("rwsem.py", 'self.wake(READERS if readers else ANY, "read: releases to sleep")', 'self.point = "read: releases to sleep"')),
    Variant("rwsem", RWSEM, r" __up_read\(struct", r"if \(unlikely\(\(tmp", "if (0 && ((tmp", "a reader's release wakes nobody",
            Rule("words.py", '"wake" if after & HAS_WAITERS and not after & LOCK_BITS else "to"', '"to"')),
    alike("rwsem", "a spinning writer takes under HANDOFF", Rule("words.py", "word & (LOCK_BITS | ASKED)", "word & WRITER"),
          becomes="RWSEM_WRITER_MASK", what="a spinning writer takes beside readers"),
    alike("osq", "step C doesn't store prev",
          Rule("osq.py", 'self.behind, self.point = found, "C: stores prev" if leaves else "grants"',
               'self.behind, self.point = found, "C: stores next" if leaves else "grants"\n'
               '            self.queue.remove(self) if leaves else None')),
    alike("osq", "locked isn't cleared", Rule("osq.py", "len(self.cleared) == 2 and s.new == self.code", "s.new == self.code")),
    alike("spin", "another's pending bit is cleared",
          Rule("spin.py", 'to 4")\n            self.point = "clears its node"', 'to 4")\n            self.point = "undoes pending"')),
    alike("spin", "a head doesn't wait for the pending bit", Rule("spin.py", "s.old & 0x1FF", "s.old & 0xFF")),
    alike("percpu", "a writer doesn't wait for readers",
          Rule("percpu.py", "len(self.seen) == len(self.run.tasks) and sum(self.seen) % COUNTS == 0", "True")),
]


def changed(text, where, pattern, becomes):
    """The text with the first match of each line of the function replaced."""
    inside, lines = where is None, []
    for line in text.split("\n"):
        inside = inside or bool(where and re.search(where, line))
        lines.append(re.sub(pattern, lambda _: becomes, line, count=1) if inside else line)
        if where and line.startswith("}"):
            inside = False
    return "\n".join(lines)


def change_kernel(variant, folder):
    path = folder / "kernel/kernel/locking" / variant.file
    before = path.read_text()
    after = changed(before, variant.where, variant.pattern, variant.becomes)
    path.write_text(after)
    return before != after


def change_rule(variant, folder):
    """A copy of the checker, with the rule's change if there is one."""
    for path in HERE.glob("*.py"):
        shutil.copy(path, folder)
    if not variant.rule:
        return True
    path = folder / variant.rule.file
    before = path.read_text()
    path.write_text(before.replace(variant.rule.text, variant.rule.becomes, 1))
    return variant.rule.text in before


def answer_of(variant, archive, layout, right):
    """What became of the variant: a word, and the lines that the checker printed."""
    with tempfile.TemporaryDirectory() as scratch:
        folder, rules = Path(scratch) / "kernel_steps", Path(scratch) / "rules"
        shutil.copytree(right, folder)
        rules.mkdir()
        if not change_kernel(variant, folder):
            return "NOTHING TO CHANGE", []
        if not change_rule(variant, rules):
            return "NO SUCH RULE", []
        try:
            program = sources.build(archive, layout, folder)
        except OSError as error:
            return "NOT BUILT", str(error).splitlines()[:3]
        words = [sys.executable, "-B", rules / "trial.py", program, variant.lock, str(SECONDS)]
        done = subprocess.run(words, capture_output=True, text=True)
        lines = done.stdout.splitlines()
        if done.returncode == 1 and len(lines) > 1:
            return "refused", lines
        return ("NOT REFUSED" if done.returncode == 0 else "NO ANSWER"), lines + done.stderr.splitlines()[-3:]


def run(lock, archive, layout, folder):
    """Tries each variant of a lock's code, of all locks without a name, and tells what became of it."""
    right = Path(folder) / "right"
    sources.build(archive, layout, right)
    variants = [v for v in ONE_SIDED + OF_BOTH if lock in ("", v.lock)]
    refused = 0
    for variant in variants:
        answer, lines = answer_of(variant, archive, layout, right)
        refused += answer == "refused"
        print("%s: %s: %s%s" % (answer, variant.lock, variant.what, " (the rule too)" if variant.rule else ""))
        for line in lines:
            print("    " + line)
        sys.stdout.flush()
    print("%d of %d wrong variants of %s were refused" % (refused, len(variants), sources.version_of(archive)))
    return 0 if refused == len(variants) else 1
