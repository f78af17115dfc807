"""Where the kernel's code goes another way than the rule, and the row of docs/LOCK_WORDS.md that says so.

The rows stand in the section 'Differences from Linux 6.6'. A row is named by the start of its first cell.
"""
from pathlib import Path

DOCUMENT = Path(__file__).resolve().parents[2] / "docs/LOCK_WORDS.md"
SECTION = "## Differences from Linux 6.6"

# By what `differs` says.
SEEN = {
    "spin: stores a byte of the word": "stores of a byte into the spin word",
    "spin: waits a while at a word that is 256": "a task that finds the spin word 256 looks again",
    "spin: sets pending after it waited at 256": "a task that finds the spin word 256 looks again",
    "spin 3: takes without a load, as it saw no locked byte": "the owner of the pending bit takes without a load",
    "spin 5: goes on with the word that the failed exchange saw": "the exchange of the tail goes on",
    "osq A: loads next of prev before the exchange": "step A of leaving the spin queue",
    "mutex 1: an exchange from 0, and then a try": "`mutex_lock` first exchanges 0",
    "mutex 7: tries before it asks whether to reschedule": "a woken first waiter tries",
    "mutex: reschedules after it stopped spinning": "a task that stopped spinning reschedules",
    "spinning stops as the owner runs on no CPU": "spinning stops if the owner runs on no CPU",
    "an append stores the tail before the link": "an append stores the tail",
    "sleeps though it was woken since it last slept": "a wake that comes before a try",
    "a wake that another has to do already is left to it": "a waker leaves the wake to another",
    "down_read 4: the grant word is set before the wait lock is taken": "a reader sets its grant word before",
    "down_read_trylock stores the owner hint": "`down_read_trylock`",
    "down_write_trylock stores the owner hint": "`down_read_trylock`",
    "down_write: stores the hint before it leaves the spin queue": "a writer stores the owner hint before",
    "down_write: stores the hint before it releases the wait lock": "a writer stores the owner hint before",
    "a release marks the first waiter": "a release asks for a handoff",
    "owner hint: NONSPINNABLE": "NONSPINNABLE",
    "a marked writer spins and tries again without sleeping": "a marked writer spins",
    "down_write 1: spins though readers hold by the hint": "writers spin for a while",
    "seq: a writer changes the word by a load and a store, under a spin lock": "a writer of a sequence lock",
    "seq: a reader waits while the word is odd": "a reader of a sequence lock",
    "percpu: a count is neither 0 nor 1": "per-CPU semaphore: a fast path by RCU",
    "percpu: a release takes for the first in line": "per-CPU semaphore: who can't enter waits in line",
    "a writer that queues releases the wait lock, wakes, and takes it again": "a writer that queues releases the wait lock",
}


def rows():
    """The first cells of the section's rows, each with how it is said to have been found."""
    section = DOCUMENT.read_text().split(SECTION)[1].split("\n## ")[0]
    found = {}
    for line in section.splitlines():
        cells = [cell.strip() for cell in line.strip("|").split("|")]
        if len(cells) == 4 and cells[3] in ("run", "read"):
            found[cells[0]] = cells[3]
    return found


def row_of(label):
    """The first cell of the row for what was seen, or None."""
    return next((cell for cell in rows() if cell.startswith(SEEN[label])), None)


def rows_not_seen():
    """The rows that are said to be found by a run, and that nothing of `SEEN` names."""
    return [cell for cell, found in rows().items() if found == "run" and not any(cell.startswith(start) for start in SEEN.values())]
