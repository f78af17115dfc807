"""Runs a program on scripts of seven shapes, and prints time, processor time, memory, switches from one
thread to another and, where valgrind is there, instructions. Further programs, if they are named, are
run on the same scripts in turn with the first, and have a row each below its rows: the plain program,
and the plain program over the kernel's locks. Those two read no scripts of version 2.

With one task the instructions don't vary from run to run. With more they go by which calls meet, so
only a difference beyond that of several runs tells two programs apart.

One task on one space, near 256 areas; 64 tasks on 8 spaces and 8 tables, of whose calls one in
sixteen changes a space; 400 tasks on 16 of each, likewise; 64 tasks on 8 of each, where half of the
calls on spaces change them; 64 tasks that map, unmap and touch the same 400 pages of one space; 64
tasks on one table; and 64 tasks that mostly read one space.
Of each shape scripts of several lengths are run, so that a cost that grows faster than the length
shows. Beside them a script that the program generates is run, with its summary.
"""
import os
import re
import shutil
import subprocess
import sys
import tempfile
import time

SIZES = [64 * 1024, 256 * 1024, 1024 * 1024]
RUNS = 7


def space_call(number):
    """Each eighth call maps, so that about 250 areas are there, and the others are faults."""
    page = number * 7 % 250 * 2
    if number % 8 == 0:
        return f"map {page} 1 {'r--' if number % 16 else 'rw-'}"
    return f"fault {page} {'rwx'[number % 3]}"


def table_calls(number):
    """One of each kind: opens, looks, copies and closes."""
    return [f"open {number % 65536}", f"get {number % 64}", f"dup {number % 32}", f"close {number * 7 % 64}"]


def table_call(number):
    """One of these, and each fifth a signal."""
    return [*table_calls(number), f"signal {number % 64}"][number % 5]


def one_task(number):
    return f"a {space_call(number)}"


def many_objects(number, kinds=8):
    """Every other call is on one of the spaces, the rest are on the tables: so many of each kind."""
    mode = ["", "int ", "try "][number % 3] if number % 10 != 9 else ""
    if number % 2 == 0:
        return f"{mode}space_{number // 2 % kinds} {space_call(number // 2)}"
    call = table_call(number // 2)
    return f"{'' if call.startswith('signal') else mode}table_{number // 2 % kinds} {call}"


def half_change(number):
    """Three in four are on one of the spaces, and half of those change one or two of 190 pages; the rest are on the tables."""
    random = (number + 7) * 2654435761 % 2**32
    if number % 4 == 3:
        return f"table_{random >> 12 & 7} {table_calls(random >> 4)[random >> 16 & 3]}"
    name, page, length = f"space_{random >> 12 & 7}", (random >> 15) % 190, 1 + (random >> 3 & 1)
    if random >> 24 & 1:
        return f"{name} fault {page} {'rwx'[random >> 25 & 1]}"
    prot = "r" + "-w"[random >> 4 & 1] + "-"
    return [
        f"{name} map {page} {length} {prot}",
        f"{name} map {page} {length} {prot}",
        f"{name} unmap {page} {length}",
        f"{name} protect {page} {length} {prot}",
        f"{name} populate {page} {length} {prot}",
    ][(random >> 26) % 5]


def full_space(number):
    """Half are faults, and the others change one or two of 400 pages, so that about 130 areas are there."""
    random = (number + 7) * 2654435761 % 2**32
    page, length, prot = random >> 8 & 255, 1 + (random >> 16) % 2, "r" + "-w"[random >> 20 & 1] + "-"
    page += 144 * (random >> 21 & 1)
    if random >> 24 & 1:
        return f"a fault {page} {'rwx'[random >> 25 & 1]}"
    return [
        f"a map {page} {length} {prot}",
        f"a map any {length} {prot}",
        f"a unmap {page} {length}",
        f"a protect {page} {length} {prot}",
        f"a populate {page} {length} {prot}",
    ][(random >> 26) % 5]


def one_table(number):
    return f"a {table_calls(number)[number % 4]}"


def mostly_read(number):
    """Each twentieth call maps a page, and the others are faults."""
    page = number * 7 % 250 * 2
    return f"a map {page} 1 rw-" if number % 20 == 0 else f"a fault {page} {'rwx'[number % 3]}"


def cut(head, tasks, call, size):
    """A script of about so many bytes, whose calls are dealt out to the tasks in equal parts."""
    lines = []
    length = sum(len(line) + 1 for line in head) + 5 * tasks
    while True:
        line = call(len(lines))
        if length + len(line) + 1 > size:
            break
        lines.append(line)
        length += len(line) + 1
    text = list(head)
    for task in range(tasks):
        text.append("task")
        text += lines[task * len(lines) // tasks : (task + 1) * len(lines) // tasks]
    return "\n".join(text) + "\n"


def objects(kinds):
    """The lines that declare so many spaces and so many tables."""
    return [f"{kind} {kind}_{number}" for kind in ("space", "table") for number in range(kinds)]


SHAPES = {
    "1 task, 1 object": lambda size: cut(["space a"], 1, one_task, size),
    "64 tasks, 16 objects": lambda size: cut(objects(8), 64, many_objects, size),
    "400 tasks, 32 objects": lambda size: cut(
        ["version 2", *objects(16)], 400, lambda number: many_objects(number, 16), size
    ),
    "64 tasks, half change": lambda size: cut(objects(8), 64, half_change, size),
    "64 tasks, full space": lambda size: cut(["space a"], 64, full_space, size),
    "64 tasks, 1 table": lambda size: cut(["table a"], 64, one_table, size),
    "64 readers, 1 space": lambda size: cut(["space a"], 64, mostly_read, size),
}


def once(command, path):
    """The seconds of one run, its processor seconds, its largest memory in KiB, and its switches."""
    before = time.perf_counter()
    with open(path, "rb") as text, open(os.devnull, "wb") as sink:
        child = subprocess.Popen(command, stdin=text, stdout=sink)
        _, status, usage = os.wait4(child.pid, 0)
    if status:
        raise SystemExit(f"{command} ended with {status}")
    switches = usage.ru_nvcsw + usage.ru_nivcsw
    return time.perf_counter() - before, usage.ru_utime + usage.ru_stime, usage.ru_maxrss, switches


def instructions(command, path):
    """How many instructions one run takes, where there is valgrind."""
    if not shutil.which("valgrind"):
        return "-"
    counted = ["valgrind", "--tool=callgrind", "--callgrind-out-file=/dev/null", *command]
    with open(path, "rb") as text:
        told = subprocess.run(counted, stdin=text, stdout=subprocess.DEVNULL, stderr=subprocess.PIPE)
    return re.search(rb"Collected : (\d+)", told.stderr).group(1).decode()


def report(shape, size, programs, options, path):
    """Runs each program some times, in turn with the others, and prints a row for each."""
    runs = {name: [] for name in programs}
    for _ in range(RUNS):
        for name, program in programs.items():
            runs[name].append(once([program, *options], path))
    for name, program in programs.items():
        seconds, processor, memory, switches = zip(*runs[name])
        median = sorted(seconds)[RUNS // 2] * 1000
        mean = sum(processor) / RUNS * 1000
        count = instructions([program, *options], path)
        print(
            f"{shape:<22} {size:>9} {name:<8} {min(seconds) * 1000:>8.1f} {median:>9.1f} {mean:>12.1f} "
            f"{max(memory):>8} {sum(switches) // RUNS:>8} {count:>13}"
        )


def main():
    programs = dict(zip(["program", "plain", "kernel"], sys.argv[1:]))
    print(f"load at the start: {os.getloadavg()[0]:.2f}; processors: {os.cpu_count()}; runs: {RUNS}")
    head = ["shape", "bytes", "", "best ms", "median ms", "processor ms", "KiB", "switches", "instructions"]
    print("{:<22} {:>9} {:<8} {:>8} {:>9} {:>12} {:>8} {:>8} {:>13}".format(*head))
    for shape, script in SHAPES.items():
        for size in SIZES:
            with tempfile.NamedTemporaryFile("w", suffix=".script") as file:
                text = script(size)
                file.write(text)
                file.flush()
                # Only the first program reads version 2.
                read = 1 if text.startswith("version") else len(programs)
                report(shape, size, dict(list(programs.items())[:read]), [], file.name)
    report("generated, summary", "", programs, ["--generate", "7", "--summary"], os.devnull)


main()
