"""Random scripts whose tasks race for a few objects, the same of each seed."""
import random


def call_of(chance, tasks, is_space, version):
    """A call that meets those of other tasks on few pages or descriptors, in some mode."""
    if chance.random() < 0.08:
        return "", f"signal {chance.randrange(tasks)}"
    mode = chance.choice(["", "", "int ", "try "])
    if not is_space:
        fd, to = chance.randrange(10), chance.randrange(66)
        verbs = [f"open {fd}", f"close {fd}", f"dup {fd}", f"dup2 {fd} {to}", f"get {fd}", f"get {fd}"]
        return mode, chance.choice(verbs)
    start, length = chance.randrange(48), 1 + chance.randrange(8)
    prot = "".join(letter if chance.random() < 0.6 else "-" for letter in "rwx")
    fault = f"fault {start} {chance.choice('rwx')}"
    changes = [f"{verb} {start} {length} {prot}" for verb in ("map", "mapnew", "protect", "populate")]
    changes += [f"unmap {start} {length}", f"map any {length} {prot}"]
    if version == 2:
        changes += [f"remap {start} {1 + length // 3} {chance.randrange(56)}"] * 2
    return mode, chance.choice([fault, fault, *changes])


def script(seed, tasks, calls, spaces=1, tables=1, version=1):
    """Tasks of so many calls each. Seven calls in ten are on a space; of version 2, a fifth of these are remaps."""
    chance = random.Random(seed)
    spaces, tables = ([f"{letter}{number}" for number in range(count)] for letter, count in (("a", spaces), ("f", tables)))
    lines = ["version 2"] * (version == 2) + [f"space {name}" for name in spaces] + [f"table {name}" for name in tables]
    for _ in range(tasks):
        lines.append("task")
        for _ in range(calls):
            is_space = chance.random() < 0.7
            mode, call = call_of(chance, tasks, is_space, version)
            lines.append(f"{mode}{chance.choice(spaces if is_space else tables)} {call}")
    return "\n".join(lines) + "\n"
