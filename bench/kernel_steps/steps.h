/* What the parts of the program share: the locks, the tasks, the drawing, and the lines. */
#pragma once
#include <linux/mutex.h>
#include <linux/rwsem.h>
#include <linux/percpu-rwsem.h>
#include <kernel/locking/mutex.h>
#include <stdio.h>
#include <stdlib.h>
#include <string.h>

enum { STACK = 1 << 15, SPINS = 6 };

/* ---- the locks that a run may try, and the words of each ---------------------------------------- */
enum lock { SPIN, NEST, OSQ, MUTEX, RWSEM, BATCH, PERCPU, SEQ, LOCKS };
extern enum lock lock;
extern struct locks {
    struct mutex mutex __attribute__((aligned(64)));
    struct rw_semaphore sem __attribute__((aligned(64)));
    struct optimistic_spin_queue osq __attribute__((aligned(64)));
    struct qspinlock spin[SPINS] __attribute__((aligned(64)));
    struct percpu_rw_semaphore percpu __attribute__((aligned(64)));
} locks;

/* Of part.c: where that which only a file of the kernel knows lies. */
struct waiter_offsets { size_t list, task, size, type, timeout, mark; };
extern const struct waiter_offsets mutex_waiter, rwsem_waiter;
struct node_offsets { size_t size, offset[4]; };
extern const struct node_offsets osq_node_offsets, mcs_node_offsets;
extern void *const osq_node_place, *const mcs_node_place, *const read_count_place;
void spin_lock(struct qspinlock *lock);
void spin_unlock(struct qspinlock *lock);
int spin_trylock(struct qspinlock *lock);
void percpu_open(struct percpu_rw_semaphore *sem);
void percpu_read(struct percpu_rw_semaphore *sem);
int percpu_read_try(struct percpu_rw_semaphore *sem);
void percpu_read_end(struct percpu_rw_semaphore *sem);
extern struct qspinlock *const seq_spin_place;
extern unsigned *const seq_word_place;
extern int seq_data[2];
void seq_write(void);
/* One attempt: 0 where both looks at the sequence word agree. */
int seq_read(void);

/* ---- places.c ------------------------------------------------------------------------------------ */
enum kind {
    NONE, OWNER, COUNT, HINT, SPIN_WORD, TAIL, NEXT, PREV, LOCKED, CPU, NODE_NEXT, NODE_LOCKED, NODE_COUNT,
    LIST_HEAD, LIST_LAST, WAITER_NEXT, WAITER_PREV, WAITER_TASK, WAITER_TYPE, WAITER_TIME, WAITER_MARK,
    BLOCK, READ_COUNT, WAITING_WRITER, ENTRY, SEQUENCE, DATA, STATE, UNOWNED
};
extern const char *const kind_names[];
struct place { enum kind kind; int of; const char *at; int size; };
/* Which word of a lock stands at an address, NONE where none does. */
struct place find(const volatile void *where);
/* What the word says, with codes for addresses. Another address is -1. */
long value(struct place place);
bool within(const char *at, const void *from, size_t size);

/* ---- tasks.c ------------------------------------------------------------------------------------- */
struct task_state {
    bool asleep, ended, signalled;
    bool may_wait;              /* its call may queue */
    char *waiter;               /* where its waiter lies on its stack, once that is known */
    int depth, greatest;        /* of interrupts within each other, and the greatest lock that they took */
};
extern struct task_state states[TASKS];
extern char stacks[TASKS][STACK];
extern int task_count;
extern long step_count, most_steps;
extern bool over;               /* no step of the run is told any more */
extern unsigned long clock_now;

/* Each is one in so many, 0 for never. */
struct odds { int preempt, resched, signal, wake_for_nothing, off_cpu, clock, interrupt; };
extern struct odds odds;

/* Who goes on isn't drawn: a task goes on till it waits, but for two steps at which another comes. */
struct bound { bool is; long steps[2]; int shifts[2]; u64 seeds[TASKS]; };
extern struct bound bound;

extern u64 seed;
unsigned draw(unsigned below);
bool one_in(int chance);
int me(void);
void line(char step, const char *place, int of, long before, long after, void *pc);
void maybe_switch(int chance);
void yield_if_bound(void);
void leave(void);
void wake_up(int task);
void start_tasks(void (*body)(int task));

/* ---- access.c: tells a plain store that was made since ------------------------------------------- */
void tell_store(void);
void forget_store(void);

/* ---- calls.c ------------------------------------------------------------------------------------- */
extern int rounds;
void calls_of(int task);
/* An interrupt takes a lock that is greater than all that its processor holds or waits for. */
void interrupt(void);
