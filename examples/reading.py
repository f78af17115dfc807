"""A second reading of the grammar of scripts, and scripts whose lines are wrong at random.

It shares nothing with the program. `refusal` says which line of a script is refused first, and why.
"""
import random
import re

import racing

MOST_BYTES = 1_048_576
MOST_OBJECTS = {1: 16, 2: 32}
MOST_TASKS = {1: 64, 2: 400}
NO_NAMES = {"space", "table", "task", "version", "int", "try"}
# The calls of each kind of object, with the kinds of their arguments.
BOTH = {"signal": ["task"]}
SPACE = BOTH | {
    "map": ["number", "number", "prot"],
    "map any": ["number", "prot"],
    "mapnew": ["number", "number", "prot"],
    "unmap": ["number", "number"],
    "protect": ["number", "number", "prot"],
    "populate": ["number", "number", "prot"],
    "fault": ["number", "access"],
}
TABLE = BOTH | {"open": ["file"], "close": ["number"], "dup": ["number"], "dup2": ["number", "number"], "get": ["number"]}
MOVES = {"remap": ["number", "number", "number"]}


def is_name(word):
    return re.fullmatch("[a-z][a-z0-9_]{0,15}", word) is not None and word not in NO_NAMES


def argument_refusal(kind, word):
    """Why a word is no argument of this kind."""
    if kind == "prot":
        return None if re.fullmatch("[r-][w-][x-]", word) else "Prot"
    if kind == "access":
        return None if word in ("r", "w", "x") else "Access"
    largest = 65_535 if kind == "file" else 2**32 - 1
    return None if re.fullmatch("0|[1-9][0-9]*", word) and int(word) <= largest else "Number"


class Reader:
    """What the lines up to here have declared."""

    def __init__(self):
        self.version, self.is_first, self.objects, self.tasks = 1, True, {}, 0

    def refusal(self, words):
        """Why a line of these words is refused, or nothing; then it is read."""
        is_first, self.is_first = self.is_first, False
        if words[0] == "version":
            if words != ["version", "2"]:
                return "Version"
            self.version = 2
            return None if is_first else "Place"
        if words[0] in ("space", "table"):
            return self.declaration_refusal(words)
        if words[0] == "task":
            if len(words) > 1:
                return "Words"
            self.tasks += 1
            return "Limit" if self.tasks > MOST_TASKS[self.version] else None
        return self.call_refusal(words)

    def declaration_refusal(self, words):
        if len(words) != 2:
            return "Words"
        if self.tasks:
            return "Place"
        if not is_name(words[1]):
            return "Name"
        if words[1] in self.objects:
            return "Twice"
        self.objects[words[1]] = SPACE if words[0] == "space" else TABLE
        return "Limit" if len(self.objects) > MOST_OBJECTS[self.version] else None

    def call_refusal(self, words):
        has_mode = words[0] in ("int", "try")
        name, *rest = words[has_mode:] or [None]
        if name is None:
            return "Words"
        if not self.tasks:
            return "Place"
        if not is_name(name):
            return "Name"
        if name not in self.objects:
            return "Unknown"
        if not rest:
            return "Words"
        verb, *arguments = rest
        if [verb, *arguments[:1]] == ["map", "any"]:
            verb, arguments = "map any", arguments[1:]
        calls = self.objects[name]
        if self.version == 2 and calls is SPACE:
            calls = calls | MOVES
        if verb not in calls:
            return "Call"
        if verb == "signal" and has_mode:
            return "Mode"
        if len(arguments) != len(calls[verb]):
            return "Words"
        for kind, word in zip(calls[verb], arguments):
            if reason := argument_refusal(kind, word):
                return reason
        return "Limit" if verb == "signal" and int(arguments[0]) >= MOST_TASKS[self.version] else None


def refusal(script):
    """What is printed of a script that is refused, or nothing."""
    if len(script) > MOST_BYTES:
        return b"refused 0 TooLong\n"
    lines = script.split(b"\n")
    if lines[-1] == b"":
        lines.pop()
    reader = Reader()
    for number, line in enumerate(lines, 1):
        line = line.removesuffix(b"\r").split(b"#")[0]
        is_text = all(byte in b" \t" or ord("!") <= byte <= ord("~") for byte in line)
        words = line.decode("latin-1").split()
        reason = "Byte" if not is_text else reader.refusal(words) if words else None
        if reason:
            return f"refused {number} {reason}\n".encode()
    return None


# Words that are put where they don't belong, and words that are nearly right.
KEYWORDS = "version space table task int try remap map any mapnew unmap fault signal open dup dup2 get close a0 a1 f0 b A".split()
ARGUMENTS = "0 1 2 3 01 +1 63 64 399 400 65535 65536 4294967295 4294967296 99999999999 r w rw r-- rw- wr- --- -".split()
WORDS = KEYWORDS + 2 * ARGUMENTS + ["#", "\r", "\x7f", "\xe9"]


def mangled(seed):
    """A racing script in which some words are exchanged, put in or taken out, and a line may be said twice."""
    chance = random.Random(seed)
    version = chance.choice([1, 2])
    lines = [line.split() for line in racing.script(chance.random(), 2, 3, chance.choice([1, 2]), 1, version).split("\n")[:-1]]
    for _ in range(chance.choice([1, 1, 2])):
        line = chance.choice(lines) if chance.random() < 0.9 else lines[0]
        place = max(chance.randrange(len(line) + 1) for _ in range(2))
        line[place : place + chance.choice([0, 1, 1])] = chance.choice([[], [chance.choice(WORDS)], [chance.choice(WORDS)]])
    if chance.random() < 0.2:
        lines.insert(chance.randrange(len(lines)), chance.choice([["version", "2"], ["task"], ["space", "a0"], *lines]))
    return "\n".join(map(" ".join, lines)).encode("latin-1") + b"\n" * chance.choice([0, 1])
