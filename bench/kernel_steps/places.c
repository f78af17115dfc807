/* Which word of a lock stands at an address, and what it says. Tasks, nodes and waiters stand as
   the codes of docs/LOCK_WORDS.md. A step on a byte or a half of a spin word is one on the word. */
#include "steps.h"

const char *const kind_names[] = {
    "", "owner", "count", "hint", "word", "tail", "next", "prev", "locked", "cpu", "mnext", "mlocked", "mcount",
    "head", "last", "wnext", "wprev", "wtask", "wtype", "wtime", "mark",
    "block", "readers", "writer", "entry", "seq", "data", "state", "unowned"
};
struct locks locks;

bool within(const char *at, const void *from, size_t size) {
    return at >= (const char *)from && at < (const char *)from + size;
}

static struct list_head *list(void) { return lock == MUTEX ? &locks.mutex.wait_list : &locks.sem.wait_list; }

#define WORD_AT(kind, of, word) \
    if (within(at, &(word), sizeof(word))) return (struct place){kind, of, (char *)&(word), sizeof(word)}

static struct place of_mutex(const char *at) {
    WORD_AT(OWNER, -1, locks.mutex.owner);
    WORD_AT(SPIN_WORD, 0, locks.mutex.wait_lock);
    WORD_AT(TAIL, -1, locks.mutex.osq);
    WORD_AT(LIST_HEAD, -1, list()->next);
    WORD_AT(LIST_LAST, -1, list()->prev);
    return (struct place){UNOWNED, -1, at, 1};
}

static struct place of_semaphore(const char *at) {
    WORD_AT(COUNT, -1, locks.sem.count);
    WORD_AT(HINT, -1, locks.sem.owner);
    WORD_AT(SPIN_WORD, 0, locks.sem.wait_lock);
    WORD_AT(TAIL, -1, locks.sem.osq);
    WORD_AT(LIST_HEAD, -1, list()->next);
    WORD_AT(LIST_LAST, -1, list()->prev);
    return (struct place){UNOWNED, -1, at, 1};
}

/* The line of waiters is ours: its steps aren't told. */
static struct place of_percpu(const char *at) {
    WORD_AT(BLOCK, -1, locks.percpu.block);
    WORD_AT(WAITING_WRITER, -1, locks.percpu.writer);
    return (struct place){NONE};
}

static struct place of_sequence_lock(const char *at) {
    WORD_AT(SPIN_WORD, 0, *seq_spin_place);
    WORD_AT(SEQUENCE, -1, *seq_word_place);
    for (int i = 0; i < 2; i++) WORD_AT(DATA, i, seq_data[i]);
    return (struct place){NONE};
}

static struct place of_spin_lock(const char *at) {
    WORD_AT(TAIL, -1, locks.osq);
    for (int i = 0; i < SPINS; i++) WORD_AT(SPIN_WORD, i, locks.spin[i]);
    return (struct place){UNOWNED, -1, at, 1};
}

/* Where a node of a processor lies in its copy of the per-CPU variables. */
static const char *node_of(int cpu, void *place, size_t skip) {
    return copies[cpu] + ((char *)place - __start_of_processor) + skip;
}

static struct place of_processor(const char *at) {
    static const enum kind osq_kinds[] = {NEXT, PREV, LOCKED, CPU}, mcs_kinds[] = {NODE_NEXT, NODE_LOCKED, NODE_COUNT};
    int cpu = (at - copies[0]) / sizeof copies[0];
    const char *node = node_of(cpu, osq_node_place, 0), *count = node_of(cpu, read_count_place, 0);
    if (within(at, count, 4)) return (struct place){READ_COUNT, cpu + 1, count, 4};
    for (int i = 0; i < 4; i++) {
        const char *field = node + osq_node_offsets.offset[i];
        int size = i < 2 ? 8 : 4;
        if (within(at, field, size)) return (struct place){osq_kinds[i], cpu + 1, field, size};
    }
    for (int index = 0; index < 4; index++) {
        node = node_of(cpu, mcs_node_place, index * mcs_node_offsets.size);
        for (int i = 0; i < 3; i++) {
            const char *field = node + mcs_node_offsets.offset[i];
            int size = i < 1 ? 8 : 4;
            if (within(at, field, size)) return (struct place){mcs_kinds[i], 4 * (cpu + 1) + index, field, size};
        }
    }
    return (struct place){UNOWNED, -1, at, 1};
}

/* A waiter lies on its task's stack. */
static struct place of_stack(const char *at) {
    int task = (at - stacks[0]) / STACK;
    const struct waiter_offsets *o = lock == MUTEX ? &mutex_waiter : &rwsem_waiter;
    const char *w = states[task].waiter;
    if (lock == PERCPU) {
        const char *private = w + offsetof(struct wait_queue_entry, private);
        if (w && within(at, private, 8)) return (struct place){ENTRY, task + 1, private, 8};
        return (struct place){NONE};
    }
    if (w && within(at, w, o->size)) {
        if (within(at, w + o->list, 8)) return (struct place){WAITER_NEXT, task + 1, w + o->list, 8};
        if (within(at, w + o->list + 8, 8)) return (struct place){WAITER_PREV, task + 1, w + o->list + 8, 8};
        if (within(at, w + o->task, 8)) return (struct place){WAITER_TASK, task + 1, w + o->task, 8};
        if (lock == MUTEX) return (struct place){NONE};
        if (within(at, w + o->type, 4)) return (struct place){WAITER_TYPE, task + 1, w + o->type, 4};
        if (within(at, w + o->timeout, 8)) return (struct place){WAITER_TIME, task + 1, w + o->timeout, 8};
        if (within(at, w + o->mark, 1)) return (struct place){WAITER_MARK, task + 1, w + o->mark, 1};
        return (struct place){NONE};
    }
    if (task != me()) return (struct place){UNOWNED, task + 1, at, 1};
    return (struct place){NONE};
}

struct place find(const volatile void *where) {
    const char *at = (const char *)where;
    if (within(at, &locks, sizeof locks))
        return lock == PERCPU ? of_percpu(at) : lock == MUTEX ? of_mutex(at) : lock >= RWSEM ? of_semaphore(at) : of_spin_lock(at);
    if (within(at, copies, TASKS * sizeof copies[0])) return of_processor(at);
    if (lock == SEQ) return of_sequence_lock(at);
    if (within(at, stacks, sizeof stacks)) return of_stack(at);
    if (within(at, tasks, sizeof tasks)) {
        int task = (at - (char *)tasks) / sizeof *tasks;
        WORD_AT(STATE, task + 1, tasks[task].state);
    }
    return (struct place){NONE};
}

static long task_and_flags(long raw) {
    long flags = raw & 7;
    const char *at = (const char *)(raw - flags);
    if (within(at, tasks, sizeof tasks)) return 8 * ((at - (char *)tasks) / (long)sizeof *tasks + 1) + flags;
    return at ? -1 : flags;
}

/* The word as the layout for 16,384 processors and more has it. */
static long spin_word(long raw) {
#if LAYOUT < 16384
    return (raw & 511) | raw >> 16 << 9;
#else
    return raw;
#endif
}

static long osq_node(const char *at) {
    if (!within(at, copies, TASKS * sizeof copies[0])) return at ? -1 : 0;
    return (at - copies[0]) / (long)sizeof copies[0] + 1;
}

static long mcs_node(const char *at) {
    if (!within(at, copies, TASKS * sizeof copies[0])) return at ? -1 : 0;
    int cpu = (at - copies[0]) / sizeof copies[0];
    return 4 * (cpu + 1) + (at - node_of(cpu, mcs_node_place, 0)) / (long)mcs_node_offsets.size;
}

static long link(const char *at) {
    if (at == (char *)list()) return 0;
    if (!within(at, stacks, sizeof stacks)) return -1;
    int task = (at - stacks[0]) / STACK;
    return at == states[task].waiter ? task + 1 : -1;
}

long value(struct place place) {
    long raw = 0;
    memcpy(&raw, place.at, place.size);
    switch (place.kind) {
    case OWNER: case HINT: return task_and_flags(raw);
    case WAITER_TASK: case ENTRY: return raw != 0;
    case WAITING_WRITER: return task_and_flags(raw) / 8;
    case SPIN_WORD: return spin_word(raw);
    case NEXT: case PREV: return osq_node((const char *)raw);
    case NODE_NEXT: return mcs_node((const char *)raw);
    case LIST_HEAD: case LIST_LAST: case WAITER_NEXT: case WAITER_PREV: return link((const char *)raw);
    default: return raw;
    }
}
