/* Stands in for what the kernel's lock code takes from the rest of the kernel. It goes ahead of each
   of its files. Headers that these ask for and that bench/kernel/build doesn't unpack are empty.
   A processor is a thread: its number, its task and its per-CPU variables are the thread's own.
   Nothing interrupts or preempts a task as far as the locks see, no signal comes, and no processor
   needs rescheduling. With YIELDS a task that looks often yields, and needs rescheduling. */
#pragma once
#include <errno.h>
#include <stdbool.h>
#include <stddef.h>
#include <stdint.h>
#include <sys/types.h>

#define PROCESSORS 64

/* What a configuration of the kernel says. */
#define CONFIG_NR_CPUS PROCESSORS
#define CONFIG_MUTEX_SPIN_ON_OWNER 1
#define CONFIG_RWSEM_SPIN_ON_OWNER 1
#define HZ 250
#define BITS_PER_LONG __LONG_WIDTH__
#define IS_ENABLED(option) 0

/* Types. */
typedef uint8_t u8;
typedef uint16_t u16;
typedef uint32_t u32;
typedef uint64_t u64;
typedef struct { int counter; } atomic_t;
typedef struct { long counter; } atomic_long_t;
struct list_head { struct list_head *next, *prev; };
struct hlist_node { struct hlist_node *next, **pprev; };
struct hlist_head { struct hlist_node *first; };
struct lock_class_key { };
struct lockdep_map;
struct file;

/* What a compiler is told. */
#define likely(condition) __builtin_expect(!!(condition), 1)
#define unlikely(condition) __builtin_expect(!!(condition), 0)
#define noinline __attribute__((noinline))
#define barrier() __asm__ volatile("" ::: "memory")
#define prefetchw(place) __builtin_prefetch(place, 1)
#define container_of(place, type, member) ((type *)((char *)(place) - offsetof(type, member)))
#define DIV_ROUND_UP(number, by) (((number) + (by) - 1) / (by))
#define ERR_PTR(error) ((void *)(long)(error))
#define IS_ERR(place) ((unsigned long)(place) > -4096ul)
#define data_race(value) (value)
#define _RET_IP_ 0
#define __pure
#define __must_check
#define __lockfunc
#define __sched
#define __user
#define __releases(lock)

/* Nothing is traced, exported, counted or checked. */
#define EXPORT_SYMBOL(name)
#define EXPORT_SYMBOL_GPL(name)
#define EXPORT_TRACEPOINT_SYMBOL_GPL(name)
#define DEFINE_GUARD(...)
#define DEFINE_GUARD_COND(...)
#define BUILD_BUG_ON(condition)
#define WARN_ON(condition) ((void)(condition))
#define WARN_ON_ONCE(condition) unlikely(condition)
#define LIST_POISON1 NULL
#define LIST_POISON2 NULL
#define trace_contention_begin(...)
#define trace_contention_end(...)
#define lockdep_assert_held(lock)
#define lockdep_assert_held_write(lock)
#define lockdep_assert_preemption_disabled()
#define lock_acquired(...)
#define lock_contended(...)
#define lock_downgrade(...)
#define mutex_acquire(...)
#define mutex_acquire_nest(...)
#define mutex_release(...)
#define rwsem_acquire(...)
#define rwsem_acquire_read(...)
#define rwsem_release(...)
#define LOCK_CONTENDED(lock, try_once, take) take(lock)
#define LOCK_CONTENDED_RETURN(lock, try_once, take) take(lock)

/* Steps on memory, each in the one order that all threads agree on, whatever order its name asks. */
#define READ_ONCE(place) __atomic_load_n(&(place), __ATOMIC_SEQ_CST)
#define WRITE_ONCE(place, value) __atomic_store_n(&(place), value, __ATOMIC_SEQ_CST)
#define smp_load_acquire(place) READ_ONCE(*(place))
#define smp_store_release(place, value) WRITE_ONCE(*(place), value)
#define xchg(place, value) __atomic_exchange_n(place, value, __ATOMIC_SEQ_CST)
#define xchg_relaxed xchg
#define exchange_if(place, seen, value) \
    __atomic_compare_exchange_n(place, seen, value, false, __ATOMIC_SEQ_CST, __ATOMIC_SEQ_CST)
#define cmpxchg(place, expected, value) ({ \
    __typeof__(*(place)) seen_ = (expected); \
    exchange_if(place, &seen_, value); \
    seen_; \
})
#define cmpxchg_release cmpxchg

#define atomic_read(word) READ_ONCE((word)->counter)
#define atomic_set(word, value) WRITE_ONCE((word)->counter, value)
#define atomic_xchg(word, value) xchg(&(word)->counter, value)
#define atomic_cmpxchg_acquire(word, expected, value) cmpxchg(&(word)->counter, expected, value)
#define atomic_cmpxchg_release atomic_cmpxchg_acquire
#define atomic_try_cmpxchg_acquire(word, seen, value) \
    exchange_if(&(word)->counter, (__typeof__((word)->counter) *)(seen), value)
#define atomic_try_cmpxchg_relaxed atomic_try_cmpxchg_acquire
#define atomic_fetch_or_acquire(bits, word) __atomic_fetch_or(&(word)->counter, bits, __ATOMIC_SEQ_CST)
#define atomic_fetch_add(number, word) __atomic_fetch_add(&(word)->counter, number, __ATOMIC_SEQ_CST)
#define atomic_add_return(number, word) __atomic_add_fetch(&(word)->counter, number, __ATOMIC_SEQ_CST)
#define atomic_andnot(bits, word) ((void)__atomic_fetch_and(&(word)->counter, ~(bits), __ATOMIC_SEQ_CST))

#define atomic_long_read atomic_read
#define atomic_long_set atomic_set
#define atomic_long_try_cmpxchg atomic_try_cmpxchg_acquire
#define atomic_long_try_cmpxchg_acquire atomic_try_cmpxchg_acquire
#define atomic_long_try_cmpxchg_release atomic_try_cmpxchg_acquire
#define atomic_long_or(bits, word) ((void)atomic_fetch_or_acquire(bits, word))
#define atomic_long_andnot atomic_andnot
#define atomic_long_add(number, word) ((void)atomic_fetch_add(number, word))
#define atomic_long_fetch_add atomic_fetch_add
#define atomic_long_fetch_add_release atomic_fetch_add
#define atomic_long_add_return atomic_add_return
#define atomic_long_add_return_acquire atomic_add_return
#define atomic_long_add_return_release atomic_add_return
#define atomic_long_inc_return_relaxed(word) atomic_add_return(1, word)

#define smp_mb() __atomic_thread_fence(__ATOMIC_SEQ_CST)
/* The steps beside these two are ordered already, so only the compiler must be held back. */
#define smp_wmb() barrier()
#define smp_acquire__after_ctrl_dep() barrier()

#if defined __x86_64__ || defined __i386__
#define short_pause() __asm__ volatile("pause" ::: "memory")
#elif defined __aarch64__
#define short_pause() __asm__ volatile("yield" ::: "memory")
#else
#define short_pause() barrier()
#endif

#ifdef YIELDS
int sched_yield(void);
/* A call's first 128 pauses are short, and its processor needs rescheduling at each 101st question. */
#define cpu_relax() ({ if (this_task.looks++ < 128) short_pause(); else sched_yield(); })
#define need_resched() (++this_task.questions % 101 == 0)
#else
#define cpu_relax() short_pause()
#define need_resched() false
#endif

#define smp_cond_load_acquire(place, condition) ({ \
    __typeof__(*(place)) VAL; \
    while (VAL = READ_ONCE(*(place)), !(condition)) { \
        cpu_relax(); \
    } \
    VAL; \
})
#define smp_cond_load_relaxed smp_cond_load_acquire
#define atomic_cond_read_acquire(word, condition) smp_cond_load_acquire(&(word)->counter, condition)
#define atomic_cond_read_relaxed atomic_cond_read_acquire

/* Only a function that nobody here calls asks for these. */
#define atomic_add_unless(word, number, barred) false
#define atomic_dec_and_test(word) false

/* Tasks. The state is also the word that the thread sleeps on. */
struct task_struct {
    u32 state;
    int processor;
    int on_cpu;
    bool to_wake;
    unsigned looks, questions;
    struct task_struct *next_to_wake;
} __attribute__((aligned(64)));
struct wake_q_head { struct task_struct *first, *last; };

enum { TASK_RUNNING, TASK_INTERRUPTIBLE, TASK_UNINTERRUPTIBLE, TASK_KILLABLE };

extern __thread struct task_struct this_task;
extern struct task_struct *task_of_processor[PROCESSORS];

void schedule(void);
void wake_q_add(struct wake_q_head *queue, struct task_struct *task);
void wake_up_q(struct wake_q_head *queue);
u64 sched_clock(void);
unsigned long coarse_clock(void);

#define current (&this_task)
#define smp_processor_id() (this_task.processor)
#define set_current_state(value) WRITE_ONCE(this_task.state, value)
#define __set_current_state set_current_state
#define schedule_preempt_disabled schedule
#define DEFINE_WAKE_Q(queue) struct wake_q_head queue = { NULL, NULL }
#define wake_q_init(queue) (*(queue) = (struct wake_q_head) { NULL, NULL })
#define wake_q_empty(queue) (!(queue)->first)
#define wake_q_add_safe wake_q_add
#define jiffies coarse_clock()
#define time_after(one, other) ((long)((other) - (one)) < 0)
#define NSEC_PER_USEC 1000
#define owner_on_cpu(task) READ_ONCE((task)->on_cpu)
#define vcpu_is_preempted(processor) false
#define signal_pending_state(state, task) false
#define rt_or_dl_task(task) false
#define get_task_struct(task)
#define io_schedule_prepare() 0
#define io_schedule_finish(token) ((void)(token))
#define might_sleep()
#define preempt_disable()
#define preempt_enable()

/* Per-CPU variables are thread-local, so those of another thread lie as far from its task as ours
   lie from our own. The empty instruction keeps the compiler from taking them for ours. */
#define DEFINE_PER_CPU_ALIGNED(type, name) __thread __attribute__((aligned(64))) type name
#define DEFINE_PER_CPU_SHARED_ALIGNED DEFINE_PER_CPU_ALIGNED
#define this_cpu_ptr(place) (place)
#define per_cpu_ptr(place, processor) ({ \
    void *theirs_ = (char *)(place) - (char *)current + (char *)task_of_processor[processor]; \
    __asm__("" : "+r"(theirs_)); \
    (__typeof__(place))theirs_; \
})
#define __this_cpu_dec(variable) ((void)--(variable))

/* The locks that guard the queues of sleepers are queued spin locks too. */
#include <asm-generic/qspinlock.h>
typedef struct qspinlock raw_spinlock_t;
#define raw_spin_lock_init(lock) atomic_set(&(lock)->val, 0)
#define raw_spin_lock queued_spin_lock
#define raw_spin_unlock queued_spin_unlock
#define raw_spin_lock_irq queued_spin_lock
#define raw_spin_unlock_irq queued_spin_unlock
#define raw_spin_lock_irqsave(lock, flags) ((flags) = 0, queued_spin_lock(lock))
#define raw_spin_unlock_irqrestore(lock, flags) ((void)(flags), queued_spin_unlock(lock))
