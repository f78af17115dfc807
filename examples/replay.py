"""A second reading of scripts and their texts, on pages and descriptors one by one.

It shares nothing with the program. `faults` says what keeps a text from being that of one legal
history for each object of a script, of version 1 or 2: a reply that the calls before it don't give, a
call that stands out of its task's order, one that is missing, a state that the calls don't leave.
"""
from collections import Counter, deque

PAGES = 1_048_576
AREAS = 256
DESCRIPTORS = 64
LETTERS = "rwx"


class Space:
    """The protection of each page that is mapped, as three letters."""

    def __init__(self):
        self.pages = {}

    def runs(self, pages):
        """The maximal runs of equal protection, in order."""
        runs = []
        for page in sorted(pages):
            if runs and runs[-1][1] == page and runs[-1][2] == pages[page]:
                runs[-1][1] = page + 1
            else:
                runs.append([page, page + 1, pages[page]])
        return runs

    def left(self):
        return [f"{start}-{end} {prot}" for start, end, prot in self.runs(self.pages)]

    def becomes(self, pages, reply):
        """The reply of a change to these pages, which is refused where they have too many runs."""
        if len(self.runs(pages)) > AREAS:
            return "ENOMEM"
        self.pages = pages
        return reply

    def lowest(self, length):
        """The lowest start of so many free pages."""
        start = 0
        for page in sorted(self.pages):
            if page - start >= length:
                break
            start = page + 1
        return start if start + length <= PAGES else None

    def remap(self, start, length, to):
        """Moves the protection of each page of a range, all at once: no map is tested in between."""
        if length == 0 or max(start, to) + length > PAGES or abs(to - start) < length:
            return "EINVAL"
        source, target = range(start, start + length), range(to, to + length)
        if any(page not in self.pages for page in source):
            return "EFAULT"
        stay = {page: prot for page, prot in self.pages.items() if page not in source and page not in target}
        moved = {to + place: self.pages[page] for place, page in enumerate(source)}
        return self.becomes({**stay, **moved}, str(to))

    def apply(self, verb, words):
        if verb == "remap":
            return self.remap(*map(int, words))
        if verb == "fault":
            page, access = int(words[0]), words[1]
            if page not in self.pages:
                return "maperr"
            return "ok" if access in self.pages[page] else "accerr"
        if verb == "map" and words[0] == "any":
            length = int(words[1])
            if length == 0:
                return "EINVAL"
            start = self.lowest(length)
            if start is None:
                return "ENOMEM"
            return self.becomes({**self.pages, **dict.fromkeys(range(start, start + length), words[2])}, str(start))
        start, length = int(words[0]), int(words[1])
        if length == 0 or start + length > PAGES:
            return "EINVAL"
        there = range(start, start + length)
        mapped = sum(page in self.pages for page in there)
        if verb == "unmap":
            return self.becomes({page: prot for page, prot in self.pages.items() if page not in there}, "ok")
        if verb == "mapnew" and mapped:
            return "EEXIST"
        if verb == "protect" and mapped < length:
            return "ENOMEM"
        prot = words[2]
        reply = {"protect": "ok", "populate": str(length if "r" in prot else 0)}.get(verb, str(start))
        return self.becomes({**self.pages, **dict.fromkeys(there, prot)}, reply)

    @staticmethod
    def reads(verb):
        return verb == "fault"

    @staticmethod
    def bars(word, verb, task, tasks):
        """Whether this is a count that bars a try: a reader by a flag, a writer by any bit.

        It has at most a bias for each task, and a waker's.
        """
        is_count = word & 0xF8 == 0 and word >> 8 <= tasks + 1
        return is_count and (word & 7 if verb == "fault" else word) != 0


class Table:
    """The file of each descriptor that is open."""

    def __init__(self):
        self.files = {}

    def left(self):
        return [f"{fd} {self.files[fd]}" for fd in sorted(self.files)]

    def open(self, file):
        free = [fd for fd in range(DESCRIPTORS) if fd not in self.files]
        if not free:
            return "EMFILE"
        self.files[free[0]] = file
        return str(free[0])

    def apply(self, verb, words):
        number = int(words[0])
        if verb == "open":
            return self.open(number)
        if number not in self.files:
            return "EBADF"
        if verb == "close":
            del self.files[number]
            return "ok"
        if verb == "dup":
            return self.open(self.files[number])
        if verb == "get":
            return str(self.files[number])
        to = int(words[1])
        if to >= DESCRIPTORS:
            return "EBADF"
        self.files[to] = self.files[number]
        return str(to)

    @staticmethod
    def reads(verb):
        return verb == "get"

    @staticmethod
    def bars(word, verb, task, tasks):
        """Whether this is an owner word that bars a task's try: it names another of the tasks."""
        return 1 <= word >> 3 <= tasks and word >> 3 != task + 1


def script_of(text):
    """The objects by name, and each task's calls as object, mode, verb and words."""
    objects, tasks = {}, []
    for line in text.split("\n"):
        words = line.split("#")[0].split()
        if not words or words == ["version", "2"]:
            continue
        if words[0] in ("space", "table"):
            objects[words[1]] = Space() if words[0] == "space" else Table()
        elif words[0] == "task":
            tasks.append([])
        else:
            mode = words.pop(0) if words[0] in ("int", "try") else ""
            tasks[-1].append((words[0], mode, words[1], words[2:]))
    return objects, tasks


class History:
    """How far the lines of one object have come."""

    def __init__(self, name, thing, tasks):
        self.name, self.thing, self.tasks = name, thing, tasks
        self.calls = [[number for number, call in enumerate(calls) if call[0] == name] for calls in tasks]
        self.signals = Counter(
            int(words[0]) for calls in tasks for thing, _, verb, words in calls if thing == name and verb == "signal"
        )
        self.seen = [0] * len(tasks)
        self.interrupts = [0] * len(tasks)
        self.logged, self.last = 0, None

    def stand(self, task, number):
        """Whether a call that isn't logged may stand behind the last line: by task, then by number."""
        last, self.last = self.last, (task, number)
        return last is None or last < (task, number)

    def is_barred(self, task, verb, word):
        return str(int(word)) == word and self.thing.bars(int(word), verb, task, len(self.tasks))

    def follow(self, line):
        """What is wrong with this line as the next one, or nothing."""
        label, rest = line.split(" ", 1)
        task, number = map(int, label.split("."))
        text, reply = rest.rsplit(" = ", 1)
        if task < 0 or label != f"{task}.{number}":
            return "no number of a call"
        if not self.calls[task] or self.calls[task].pop(0) != number:
            return "another call of this task comes next"
        _, mode, verb, words = self.tasks[task][number]
        if text != " ".join([mode] * bool(mode) + [verb] + words):
            return "the script has another call"
        is_busy, is_interrupted, is_signal = reply.startswith("busy "), reply == "EINTR", verb == "signal"
        if is_busy or is_interrupted or is_signal:
            self.interrupts[task] += is_interrupted
            if is_busy and (mode != "try" or not self.is_barred(task, verb, reply.removeprefix("busy "))):
                return "nothing barred this call"
            if is_interrupted and (mode != "int" or self.interrupts[task] > self.signals[task]):
                return "no signal interrupted this call"
            if is_signal != (reply == "sent"):
                return "a signal is sent, and no other call"
            if self.seen[task] != self.logged or not self.stand(task, number):
                return "the call stands at another place"
            return None
        if self.thing.apply(verb, words) != reply:
            return "the calls before it give another reply"
        if self.thing.reads(verb):
            self.seen[task] = self.logged
            return None if self.stand(task, number) else "the call stands at another place"
        self.logged, self.last = self.logged + 1, None
        self.seen[task] = self.logged
        return None


def faults(script, text):
    """What is wrong with a text, or nothing."""
    objects, tasks = script_of(script)
    lines = deque(text.split("\n"))
    if lines.pop() != "":
        return "the last line has no end"
    for name, thing in objects.items():
        history = History(name, thing, tasks)
        kind = "space" if isinstance(thing, Space) else "table"
        if not lines or lines.popleft() != f"{kind} {name}":
            return f"{name} doesn't begin"
        for _ in range(sum(map(len, history.calls))):
            line = lines.popleft() if lines else "nothing"
            try:
                wrong = history.follow(line)
            except (ValueError, IndexError):
                wrong = "no line of a call"
            if wrong:
                return f"{name}: {line}: {wrong}"
        left = thing.left()
        for line in [f"left {len(left)}", *left]:
            if not lines or lines.popleft() != line:
                return f"{name}: not left as {line}"
    return f"more lines: {lines[0]}" if lines else None


def generated_summary(number):
    """The summary of the script that is generated from a number. Its eight tasks meet nowhere."""
    logged = refused = left = 0
    for task in range(8):
        x, pages = (number + task) % 2**32, [None] * 31
        for _ in range(2000):
            x = (x * 1_664_525 + 1_013_904_223) % 2**32
            start, length = (x >> 8) % 24, 1 + (x >> 16) % 8
            prot, kind = (x >> 20) % 8, (x >> 28) % 8
            end = start + length
            logged += kind < 4
            if kind < 2:
                pages[start:end] = [prot] * length
            elif kind == 2:
                pages[start:end] = [None] * length
            elif kind == 3 and None not in pages[start:end]:
                pages[start:end] = [prot] * length
            elif kind == 3 or pages[start] is None or not pages[start] >> prot % 3 & 1:
                refused += 1
        left += sum(page is not None and page != before for before, page in zip([None, *pages], pages))
    return f"m: 16000 calls, {logged} logged, {refused} refused, {left} left\n"
