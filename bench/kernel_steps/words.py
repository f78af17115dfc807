"""What a step of a lock makes of a word: the one place where the checker computes words.

Each function takes a word and what the step hangs on, and answers a name and the word behind the
step. It is written from docs/LOCK_WORDS.md. Each question is kept with its answer, so that another
program can be asked the same (`compare`). The program reads a question a line, as `owner_try 9 2 1`,
and writes an answer a line, as `ask 11`. A task is its code, and 0 is nobody.
"""
import collections
import functools
import shlex
import subprocess

from counts import position

# Flags of a mutex's owner word. The task's code stands above them.
WAITERS, HANDOFF, PICKUP = 1, 2, 4

# Flags of a semaphore's count, and one reader.
WRITER, HAS_WAITERS, ASKED, READER = 1, 2, 4, 256
LOCK_BITS = ~0xFF | WRITER

# The spin word: locked byte, pending bit, and the tail above.
LOCKED, PENDING, TAIL = 1, 256, ~0x1FF
NODE_SHIFT = 9

BATCH = 256

answers = {}                        # of each question: the answer, and the first run that asked it
times = collections.Counter()       # how often each step was asked for


def step(function):
    """Keeps each question with its answer."""
    name = function.__name__

    @functools.wraps(function)
    def kept(*operands):
        answer = function(*operands)
        times[name] += 1
        question = (name, *operands)
        if question not in answers:
            answers[question] = answer, tuple(position)
        return answer
    return kept


# ---- the owner word -------------------------------------------------------------------------------
@step
def owner_try(word, task, ask):
    flags = word & 7
    if word >> 3 == 0:
        return "take", 8 * task | flags
    if flags & PICKUP:
        return ("take", word & ~PICKUP) if word >> 3 == task else ("fail", word)
    if ask and not flags & HANDOFF:
        return "ask", word | HANDOFF
    return "fail", word


@step
def owner_release(word):
    return ("none", word) if word & HANDOFF else ("to", word & 7)


@step
def owner_handoff(word, first):
    return "to", word & WAITERS | (8 * first | PICKUP if first else 0)


@step
def owner_set_waiters(word):
    return "to", word | WAITERS


@step
def owner_clear_flags(word):
    return "to", word & ~7


# ---- the count ------------------------------------------------------------------------------------
@step
def count_read_add(word):
    after = word + READER
    return "transit" if after & 7 else "hold", after


@step
def count_read_back(word, alone):
    return "to", word - READER + (HAS_WAITERS if alone else 0)


@step
def count_read_try(word):
    return ("fail", word) if word & 7 else ("take", word + READER)


@step
def count_write_try(word):
    return ("take", WRITER) if word == 0 else ("fail", word)


@step
def count_write_spin(word):
    return ("fail", word) if word & (LOCK_BITS | ASKED) else ("take", word | WRITER)


@step
def count_write_queued(word, me_first, first_marked, alone, overdue):
    if word & ASKED and first_marked and not me_first:
        return "fail", word
    if word & LOCK_BITS:
        return ("fail", word) if word & ASKED or not overdue else ("mark", word | ASKED)
    return "take", (word | WRITER) & ~ASKED & (~HAS_WAITERS if alone else ~0)


@step
def count_set_waiters(word):
    return "to", word | HAS_WAITERS


@step
def count_clear_flags(word):
    return "to", word & ~(HAS_WAITERS | ASKED)


@step
def count_reserve(word):
    return "late" if word & WRITER else "reserved", word + READER


@step
def count_unreserve(word, marked):
    return "to", (word | ASKED if marked else word) - READER


@step
def count_batch(word, readers, reserved, empty):
    total = READER * (readers - reserved) - (word & ASKED) - HAS_WAITERS * empty
    return ("to", word + total) if total else ("none", word)


@step
def count_up_read(word):
    after = word - READER
    return "wake" if after & HAS_WAITERS and not after & LOCK_BITS else "to", after


@step
def count_up_write(word):
    return "wake" if word & HAS_WAITERS else "to", word - WRITER


@step
def count_downgrade(word):
    return "wake" if word & HAS_WAITERS else "to", word + READER - WRITER


@step
def batch(limit, *waiters):
    """Of waiters, each as twice its code and 1 more if it writes, the readers that a wake grants."""
    readers = [waiter // 2 for waiter in waiters if not waiter & 1]
    return ("to", *readers[:limit])


# ---- the spin word --------------------------------------------------------------------------------
@step
def spin_try(word):
    return ("take", LOCKED) if word == 0 else ("fail", word)


@step
def spin_set_pending(word):
    name = "queue" if word & PENDING else "undo" if word & TAIL else "owns"
    return name, word | PENDING


@step
def spin_clear_pending(word):
    return "to", word & ~PENDING


@step
def spin_take_pending(word):
    return "to", word - PENDING + LOCKED


@step
def spin_exchange_tail(word, node):
    return "to", word & ~TAIL | tail_of(node)


@step
def spin_take_alone(word, node):
    return ("take", LOCKED) if word == tail_of(node) else ("fail", word)


@step
def spin_set_locked(word):
    return "to", word | LOCKED


@step
def spin_unlock(word):
    return "to", word - LOCKED


def tail_of(node):
    """The bits of a node, whose code is 4 * (CPU + 1) + index, in the spin word."""
    return node << NODE_SHIFT


# ---- another program's answers --------------------------------------------------------------------
BATCH_OF_QUESTIONS = 50_000


def line_of(parts):
    """A question or an answer as a line: its name, and numbers in decimal."""
    name, *numbers = parts
    return " ".join([name, *(str(int(number)) for number in numbers)])


def ask(program, questions):
    """The program's answers, a line each."""
    text = "".join(line_of(question) + "\n" for question in questions)
    done = subprocess.run(shlex.split(program), input=text, stdout=subprocess.PIPE, text=True)
    lines = done.stdout.splitlines()
    if done.returncode or len(lines) != len(questions):
        raise OSError(f"{program} ended with {done.returncode} after {len(lines)} of {len(questions)} answers")
    return lines


def compare(program):
    """The questions that the program answers otherwise than this table, and how many it answered."""
    differ, answered = [], collections.Counter()
    questions = list(answers)
    for start in range(0, len(questions), BATCH_OF_QUESTIONS):
        part = questions[start:start + BATCH_OF_QUESTIONS]
        for question, theirs in zip(part, ask(program, part)):
            ours, place = answers[question]
            if theirs == "unknown":
                continue
            answered[question[0]] += 1
            if theirs != line_of(ours):
                differ.append((question, ours, theirs, place))
    return differ, answered
