/* The calls that the compiler puts before, or in place of, each access of the kernel's code to
   memory. Before each access to a word of a lock another task may go on, and behind it a line is
   written. */
#include "steps.h"

/* A plain store is told at the next access, since its call comes before it. `unknown` is a store
   of eight bytes on the own stack: it may be the first of a waiter. */
static struct {
    bool is;
    struct place place;
    long before;
    void *pc;
    const char *unknown;
} store;

void forget_store(void) { memset(&store, 0, sizeof store); }

/* The first store of the task's own address on its stack is that of its waiter's task. */
static void notice_waiter(void) {
    int task = me();
    struct task_struct *stored;
    memcpy(&stored, store.unknown, sizeof stored);
    if (stored == running && states[task].may_wait && !states[task].waiter && lock >= MUTEX && lock <= BATCH) {
        states[task].waiter = (char *)store.unknown - (lock == MUTEX ? mutex_waiter : rwsem_waiter).task;
        line('s', kind_names[WAITER_TASK], task + 1, 0, 1, store.pc);
    }
    store.unknown = NULL;
}

void tell_store(void) {
    if (store.unknown) notice_waiter();
    if (!store.is) return;
    store.is = false;
    line('s', kind_names[store.place.kind], store.place.of, store.before, value(store.place), store.pc);
}

/* Words that one task alone reads and writes: nobody needs to come between. */
static bool is_private(enum kind kind) { return kind == WAITER_TYPE || kind == WAITER_TIME || kind == CPU; }

static struct place enter(const volatile void *at) {
    if (over) return (struct place){NONE};
    tell_store();
    struct place place = find(at);
    if (place.kind != NONE && !is_private(place.kind)) maybe_switch(odds.preempt);
    return place;
}

static void plain_read(const volatile void *at, void *pc) {
    struct place place = enter(at);
    if (place.kind == NONE) return;
    long seen = place.kind == UNOWNED ? 0 : value(place);
    line('l', kind_names[place.kind], place.of, seen, seen, pc);
}

static void plain_write(const volatile void *at, int size, void *pc) {
    struct place place = enter(at);
    if (place.kind == UNOWNED) {
        line('s', kind_names[UNOWNED], place.of, 0, 0, pc);
    } else if (place.kind != NONE) {
        store.is = true;
        store.place = place;
        store.before = value(place);
        store.pc = pc;
    } else if (size == 8 && within((const char *)at, stacks[me()], STACK)) {
        store.unknown = (const char *)at;
        store.pc = pc;
    }
}

#define PC __builtin_return_address(0)
#define PLAIN(size) \
    void __tsan_read##size(void *at) { plain_read(at, PC); } \
    void __tsan_write##size(void *at) { plain_write(at, size, PC); } \
    void __tsan_unaligned_read##size(void *at) { plain_read(at, PC); } \
    void __tsan_unaligned_write##size(void *at) { plain_write(at, size, PC); } \
    void __tsan_volatile_read##size(void *at) { plain_read(at, PC); } \
    void __tsan_volatile_write##size(void *at) { plain_write(at, size, PC); }
PLAIN(1) PLAIN(2) PLAIN(4) PLAIN(8) PLAIN(16)
void __tsan_read_range(void *at, long size) { plain_read(at, PC); }
void __tsan_write_range(void *at, long size) { plain_write(at, 0, PC); }
void __tsan_init(void) {}
void __tsan_func_entry(void *pc) {}
void __tsan_func_exit(void) {}
void __tsan_atomic_thread_fence(int order) { tell_store(); }
void __tsan_atomic_signal_fence(int order) {}

#define STEP(letter, change) \
    struct place place = enter(at); \
    long before = place.kind == NONE ? 0 : value(place); \
    change; \
    if (place.kind != NONE) line(letter, kind_names[place.kind], place.of, before, value(place), PC)

#define ATOMIC(bits, type) \
    type __tsan_atomic##bits##_load(const volatile type *at, int order) { \
        type seen; \
        STEP('L', seen = *at); \
        return seen; \
    } \
    void __tsan_atomic##bits##_store(volatile type *at, type to, int order) { STEP('S', *at = to); } \
    CHANGE(bits, type, exchange, 'X', to) \
    CHANGE(bits, type, fetch_add, 'A', seen + to) \
    CHANGE(bits, type, fetch_sub, 'A', seen - to) \
    CHANGE(bits, type, fetch_or, 'O', seen | to) \
    CHANGE(bits, type, fetch_and, 'N', seen & to) \
    int __tsan_atomic##bits##_compare_exchange_strong(volatile type *at, type *expected, type to, int order, int failed) { \
        bool took; \
        STEP(took ? 'C' : 'c', took = *at == *expected; if (took) *at = to; else *expected = *at); \
        return took; \
    }
#define CHANGE(bits, type, name, letter, after) \
    type __tsan_atomic##bits##_##name(volatile type *at, type to, int order) { \
        type seen; \
        STEP(letter, seen = *at; *at = after); \
        return seen; \
    }
ATOMIC(8, u8) ATOMIC(16, u16) ATOMIC(32, u32) ATOMIC(64, u64)
