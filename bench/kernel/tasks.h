/* What tasks on threads need beside kernel.h, for each program over the kernel's locks. */
#pragma once
#include <sys/syscall.h>
#include <time.h>
#include <unistd.h>

/* The numbers of the futex call's private wait and wake. */
enum { PRIVATE_WAIT = 128, PRIVATE_WAKE = 129 };

__thread struct task_struct this_task;
struct task_struct *task_of_processor[PROCESSORS];

static u64 nanoseconds(clockid_t clock) {
    struct timespec now;
    clock_gettime(clock, &now);
    return now.tv_sec * 1000000000ull + now.tv_nsec;
}

u64 sched_clock(void) {
    return nanoseconds(CLOCK_MONOTONIC);
}

unsigned long coarse_clock(void) {
    return nanoseconds(CLOCK_MONOTONIC_COARSE) / (1000000000 / HZ);
}

void schedule(void) {
    u32 state;
    WRITE_ONCE(this_task.on_cpu, 0);
    while ((state = READ_ONCE(this_task.state)) != TASK_RUNNING) {
        syscall(SYS_futex, &this_task.state, PRIVATE_WAIT, state, NULL);
    }
    WRITE_ONCE(this_task.on_cpu, 1);
    this_task.looks = 0;
}

/* A task in some queue is left to the one who put it there. */
void wake_q_add(struct wake_q_head *queue, struct task_struct *task) {
    if (xchg(&task->to_wake, true)) {
        return;
    }
    task->next_to_wake = NULL;
    if (queue->last) {
        queue->last->next_to_wake = task;
    } else {
        queue->first = task;
    }
    queue->last = task;
}

void wake_up_q(struct wake_q_head *queue) {
    struct task_struct *next;
    for (struct task_struct *task = queue->first; task; task = next) {
        next = task->next_to_wake;
        WRITE_ONCE(task->to_wake, false);
        if (xchg(&task->state, TASK_RUNNING) != TASK_RUNNING) {
            syscall(SYS_futex, &task->state, PRIVATE_WAKE, 1);
        }
    }
}
