/* What the locks ask of the rest of the kernel: answers of a processor, sleeps and wakes. */
#include "steps.h"

#define PC __builtin_return_address(0)

bool answer_resched(void) {
    tell_store();
    bool answer = one_in(odds.resched);
    line('Q', "-", -1, answer, 0, PC);
    return answer;
}

bool answer_signal(unsigned state, struct task_struct *task) {
    tell_store();
    if (state == TASK_UNINTERRUPTIBLE) return false;
    maybe_switch(odds.preempt);
    bool answer = states[me()].signalled;
    line('G', "-", -1, answer, 0, PC);
    return answer;
}

/* A task that sleeps isn't on a processor. */
bool answer_on_cpu(struct task_struct *task) {
    tell_store();
    bool answer = !states[task - tasks].asleep && !one_in(odds.off_cpu);
    line('P', "-", -1, answer, 0, PC);
    return answer;
}

static void advance_clock(void) {
    if (one_in(odds.clock)) clock_now += 1 + draw(3);
}

unsigned long answer_jiffies(void) {
    tell_store();
    advance_clock();
    line('J', "-", -1, clock_now, 0, PC);
    return clock_now;
}

u64 sched_clock(void) {
    tell_store();
    advance_clock();
    return clock_now * 4000000;
}

/* A sleep ends by a wake, by a signal where it is interruptible, or for no reason. */
void schedule(void) {
    tell_store();
    int task = me();
    maybe_switch(odds.preempt);
    bool signal = states[task].signalled && running->state != TASK_UNINTERRUPTIBLE;
    if (running->state == TASK_RUNNING || signal) {
        running->state = TASK_RUNNING;
        line('Y', "-", -1, 0, 0, PC);
        maybe_switch(2);
        yield_if_bound();
        return;
    }
    line('Z', "-", -1, 0, 0, PC);
    states[task].asleep = true;
    do leave(); while (states[task].asleep);
    line('R', "-", -1, 0, 0, PC);
}

/* A task that is in a wake queue isn't put into a second one, as in the kernel. */
void wake_q_add(struct wake_q_head *queue, struct task_struct *task) {
    tell_store();
    line('W', "", task - tasks + 1, task->to_wake, 0, PC);
    if (task->to_wake) return;
    task->to_wake = true;
    task->next_to_wake = NULL;
    if (queue->last) queue->last->next_to_wake = task;
    else queue->first = task;
    queue->last = task;
}

void wake_up_q(struct wake_q_head *queue) {
    tell_store();
    struct task_struct *next;
    for (struct task_struct *task = queue->first; task; task = next) {
        next = task->next_to_wake;
        maybe_switch(odds.preempt);
        task->to_wake = false;
        line('K', "", task - tasks + 1, 0, 0, PC);
        wake_up(task - tasks);
    }
}

void relax(void) {
    tell_store();
    if (lock == NEST) interrupt();
    maybe_switch(odds.preempt > 3 ? 3 : odds.preempt);
    yield_if_bound();
}

/* ---- of the per-CPU semaphore: the line of waiters, and who waits for the readers ---------------- */
void note_entry(struct wait_queue_entry *entry) { states[me()].waiter = (char *)entry; }

void lock_queue(queue_lock_t *lock) {
    tell_store();
    maybe_switch(odds.preempt);
    while (lock->held) leave();
    lock->held = 1;
    line('H', "-", -1, 0, 0, PC);
}

void unlock_queue(queue_lock_t *lock) {
    tell_store();
    lock->held = 0;
    line('h', "-", -1, 0, 0, PC);
    maybe_switch(odds.preempt);
}

void append_entry(wait_queue_head_t *queue, struct wait_queue_entry *entry) {
    tell_store();
    list_add_tail(&entry->entry, &queue->head);
    line('M', "-", -1, 0, 0, PC);
}

void wake_directly(struct task_struct *task) {
    tell_store();
    maybe_switch(odds.preempt);
    line('V', "", task - tasks + 1, 0, 0, PC);
    wake_up(task - tasks);
}

void rcuwait_wake_up(struct rcuwait *wait) {
    tell_store();
    maybe_switch(odds.preempt);
    line('V', "", wait->task ? wait->task - tasks + 1 : 0, 0, 0, PC);
    if (wait->task) wake_up(wait->task - tasks);
}

/* Each waiter's function is called in turn, until it answers that no more may be woken. All waiters
   of this semaphore are exclusive, and one is to be woken. */
void wake_queue(wait_queue_head_t *queue, void *key) {
    lock_queue(&queue->lock);
    struct list_head *next;
    for (struct list_head *at = queue->head.next; at != &queue->head; at = next) {
        next = at->next;
        struct wait_queue_entry *entry = container_of(at, struct wait_queue_entry, entry);
        if (entry->func(entry, TASK_NORMAL, 0, key)) break;
    }
    unlock_queue(&queue->lock);
}
