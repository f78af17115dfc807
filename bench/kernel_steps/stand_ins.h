/* Goes ahead of each of the kernel's files where its lock code is built to run one step at a time.
   It takes bench/kernel/kernel.h as it is, and puts something else in place of what that ties to
   threads: who runs, the per-CPU variables, the answers of a processor, and the layout of the spin
   word. The atomic steps stay those of kernel.h, as do the plain accesses of the kernel's code. The
   compiler's thread sanitizer puts a call before each of them; access.c has these calls, in place
   of the sanitizer's own library. */
#pragma once
#define __ASM_GENERIC_QSPINLOCK_H       /* not yet: the layout comes first */
#include "kernel.h"
#undef __ASM_GENERIC_QSPINLOCK_H

#undef CONFIG_NR_CPUS
#define CONFIG_NR_CPUS LAYOUT
#define TASKS 320

/* Who runs. */
extern struct task_struct *running;
extern struct task_struct tasks[TASKS];
#undef current
#define current running
#define this_task (*running)

/* The per-CPU variables of processor p lie at the same place of its own copy. */
extern char __start_of_processor[], __stop_of_processor[];
extern char copies[][512];
#undef DEFINE_PER_CPU_ALIGNED
#undef DEFINE_PER_CPU_SHARED_ALIGNED
#define DEFINE_PER_CPU_ALIGNED(type, name) \
    __attribute__((section("of_processor"), used, aligned(64))) type name
#define DEFINE_PER_CPU_SHARED_ALIGNED DEFINE_PER_CPU_ALIGNED
static inline __attribute__((always_inline)) void *copy_of(const volatile void *place, int processor) {
    void *theirs = copies[processor] + ((const char *)place - __start_of_processor);
    __asm__("" : "+r"(theirs));
    return theirs;
}
#undef this_cpu_ptr
#undef per_cpu_ptr
#undef __this_cpu_dec
#define per_cpu_ptr(place, processor) ((__typeof__(place))copy_of(place, processor))
#define this_cpu_ptr(place) per_cpu_ptr(place, current->processor)
#define __this_cpu_dec(variable) ((void)--*this_cpu_ptr(&(variable)))

/* What a processor answers, drawn from the seed. */
bool answer_resched(void);
bool answer_signal(unsigned state, struct task_struct *task);
bool answer_on_cpu(struct task_struct *task);
unsigned long answer_jiffies(void);
void relax(void);
#undef need_resched
#undef signal_pending_state
#undef owner_on_cpu
#undef jiffies
#undef cpu_relax
#define need_resched() answer_resched()
#define signal_pending_state(state, task) answer_signal(state, task)
#define owner_on_cpu(task) answer_on_cpu(task)
#define jiffies answer_jiffies()
#define cpu_relax() relax()

/* Only version 6.1 asks for these. */
#define atomic_cmpxchg_relaxed atomic_cmpxchg_acquire
#define rt_task(task) false
#define DEFINE_FREE(...)
#ifdef PART_OF_PERCPU
#define wake_up_process(task) wake_directly(task)
#undef get_task_struct
#define get_task_struct(task) (task)
#else
#define wake_up_process(task) ((void)(task))     /* for a ww_mutex alone */
#endif
/* Only the layout for many processors asks for this. */
#define atomic_add(number, word) ((void)atomic_fetch_add(number, word))

#include <asm-generic/qspinlock.h>

/* What the sequence lock asks for: nothing is checked, and its spin lock is the queued one. */
#ifdef PART_OF_SEQ
typedef struct qspinlock spinlock_t;
typedef struct { int unused; } rwlock_t;
void spin_lock(struct qspinlock *lock);
void spin_unlock(struct qspinlock *lock);
#define spin_lock_init(lock) ((void)(lock))
#define spin_lock_bh spin_lock
#define spin_unlock_bh spin_unlock
#define spin_lock_irqsave(lock, flags) ((flags) = 0, spin_lock(lock))
#define spin_unlock_irqrestore(lock, flags) ((void)(flags), spin_unlock(lock))
#define lockdep_init_map(...)
#define seqcount_acquire(...)
#define seqcount_release(...)
#define kcsan_atomic_next(number)
#define kcsan_nestable_atomic_begin()
#define kcsan_nestable_atomic_end()
#define smp_rmb() barrier()
#endif

/* What the per-CPU semaphore asks for: a line of waiters with its lock, one task that waits for the
   readers, and its counts. Its fast path by RCU is never open. */
#include <linux/list.h>
typedef struct { int held; } queue_lock_t;
typedef struct { queue_lock_t lock; struct list_head head; } wait_queue_head_t;
struct wait_queue_entry {
    unsigned flags;
    void *private;
    int (*func)(struct wait_queue_entry *entry, unsigned mode, int flags, void *key);
    struct list_head entry;
};
struct rcuwait { struct task_struct *task; };
struct rcu_sync { int unused; };
extern int task_count;
void note_entry(struct wait_queue_entry *entry);
void lock_queue(queue_lock_t *lock);
void unlock_queue(queue_lock_t *lock);
void append_entry(wait_queue_head_t *queue, struct wait_queue_entry *entry);
void wake_queue(wait_queue_head_t *queue, void *key);
void wake_directly(struct task_struct *task);
void rcuwait_wake_up(struct rcuwait *wait);

#define WQ_FLAG_EXCLUSIVE 1
#define WQ_FLAG_CUSTOM 4
#define TASK_NORMAL 0
#define __percpu
#define DEFINE_WAIT_FUNC(name, function) \
    struct wait_queue_entry name = {0, current, function, {&name.entry, &name.entry}}; \
    note_entry(&name)
#define init_waitqueue_head(queue) ((queue)->lock.held = 0, INIT_LIST_HEAD(&(queue)->head))
#define __add_wait_queue_entry_tail append_entry
#define __wake_up(queue, mode, number, key) wake_queue(queue, key)
#ifdef PART_OF_SEQ
#define spin_lock_irq spin_lock
#define spin_unlock_irq spin_unlock
#else
#define spin_lock_irq(lock) lock_queue(lock)
#define spin_unlock_irq(lock) unlock_queue(lock)
#endif
#define rcu_sync_init(sync)
#define rcu_sync_enter(sync)
#define rcu_sync_exit(sync)
#define rcu_sync_dtor(sync)
#define rcu_sync_is_idle(sync) false
#define rcuwait_init(wait) ((wait)->task = NULL)
#define rcuwait_wait_event(wait, condition, while_asleep) do { \
    WRITE_ONCE((wait)->task, current); \
    for (;;) { \
        set_current_state(while_asleep); \
        if (condition) break; \
        schedule(); \
    } \
    WRITE_ONCE((wait)->task, NULL); \
    __set_current_state(TASK_RUNNING); \
} while (0)
#define alloc_percpu(type) (&read_counts)
#define free_percpu(place)
#define this_cpu_inc(count) ((void)__atomic_fetch_add(this_cpu_ptr(&(count)), 1, __ATOMIC_SEQ_CST))
#define this_cpu_dec(count) ((void)__atomic_fetch_sub(this_cpu_ptr(&(count)), 1, __ATOMIC_SEQ_CST))
#define per_cpu(count, processor) (*per_cpu_ptr(&(count), processor))
#define for_each_possible_cpu(processor) for ((processor) = 0; (processor) < task_count; (processor)++)
#define compiletime_assert_atomic_type(value)
#define atomic_read_acquire atomic_read
#define atomic_set_release atomic_set
#define put_task_struct(task)
#define lock_acquire(...)
#define lock_release(...)
