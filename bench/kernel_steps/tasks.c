/* The tasks are coroutines on one thread. At each step another may go on, as the seed draws. */
#include "steps.h"
#include <ucontext.h>

struct task_struct *running;
struct task_struct tasks[TASKS];
char copies[TASKS][512] __attribute__((aligned(64)));
char stacks[TASKS][STACK] __attribute__((aligned(64)));
struct task_state states[TASKS];
static ucontext_t home, contexts[TASKS];
static void (*body)(int task);

int task_count;
long step_count, most_steps;
bool over;
unsigned long clock_now;
struct odds odds;
struct bound bound;
u64 seed;

int me(void) { return running - tasks; }

/* splitmix64. Where the schedule is bound each task draws from its own seed, so that what it draws
   doesn't hang on who went on. */
unsigned draw(unsigned below) {
    u64 *from = bound.is ? &bound.seeds[me()] : &seed;
    *from += 0x9e3779b97f4a7c15u;
    u64 z = *from;
    z = (z ^ z >> 30) * 0xbf58476d1ce4e5b9u;
    z = (z ^ z >> 27) * 0x94d049bb133111ebu;
    return (unsigned)((z ^ z >> 31) >> 32) % below;
}

bool one_in(int chance) { return chance && !draw(chance); }

void line(char step, const char *place, int of, long before, long after, void *pc) {
    printf("%d %c %s", me(), step, place);
    if (of >= 0) printf("%d", of);
    printf(" %ld %ld %lx\n", before, after, (unsigned long)pc);
}

static void switch_to(int task) {
    int from = me();
    if (task == from) return;
    running = &tasks[task];
    swapcontext(&contexts[from], &contexts[task]);
}

static bool is_ready(int task) { return !states[task].ended && !states[task].asleep; }

static void end_run(void) {
    int from = me();
    over = true;
    swapcontext(&contexts[from], &home);
}

static void stop(char why) {
    line(why, "-", -1, 0, 0, 0);
    end_run();
}

/* Some other task that can go on, or -1. */
static int other(void) {
    int from = bound.is ? me() + 1 : draw(task_count);
    for (int i = 0; i < task_count; i++) {
        int task = (from + i) % task_count;
        if (task != me() && is_ready(task)) return task;
    }
    return -1;
}

void wake_up(int task) {
    tasks[task].state = TASK_RUNNING;
    states[task].asleep = false;
}

static void switch_if_bound_here(void) {
    for (int i = 0; i < 2; i++) {
        if (step_count != bound.steps[i]) continue;
        int task = me();
        for (int k = 0; k <= bound.shifts[i]; k++)
            do task = (task + 1) % task_count; while (!is_ready(task) && task != me());
        switch_to(task);
    }
}

static void send_signal(int task) {
    if (states[task].ended || states[task].signalled) return;
    states[task].signalled = true;
    line('I', "", task + 1, 0, 0, 0);
    if (tasks[task].state == TASK_INTERRUPTIBLE || tasks[task].state == TASK_KILLABLE) wake_up(task);
}

static void wake_for_nothing(int task) {
    if (!states[task].asleep) return;
    line('U', "", task + 1, 0, 0, 0);
    wake_up(task);
}

/* A step is about to be made: signals and wakes may come, and one in so many times another task. */
void maybe_switch(int chance) {
    if (++step_count > most_steps) stop('T');
    if (bound.is) {
        switch_if_bound_here();
        return;
    }
    if (one_in(odds.signal)) send_signal(draw(task_count));
    if (one_in(odds.wake_for_nothing)) wake_for_nothing(draw(task_count));
    if (one_in(chance)) {
        int task = other();
        if (task >= 0) switch_to(task);
    }
}

/* A task that waits in a loop lets another go on, as nobody else would. */
void yield_if_bound(void) {
    if (!bound.is) return;
    int task = other();
    if (task >= 0) switch_to(task);
}

/* The running task doesn't go on. If no other can, either all are at their end or a wake is lost. */
void leave(void) {
    int task = other();
    if (task >= 0) {
        switch_to(task);
        return;
    }
    for (int i = 0; i < task_count; i++)
        if (!states[i].ended) stop('D');
    end_run();
}

static void run_task(int task) {
    body(task);
    states[task].ended = true;
    for (;;) leave();
}

/* Starts all tasks anew. Comes back when the run is over. */
void start_tasks(void (*body_of)(int task)) {
    body = body_of;
    for (int i = 0; i < task_count; i++) {
        states[i] = (struct task_state){0};
        tasks[i].processor = i;
        getcontext(&contexts[i]);
        contexts[i].uc_stack.ss_sp = stacks[i];
        contexts[i].uc_stack.ss_size = STACK;
        contexts[i].uc_link = NULL;
        makecontext(&contexts[i], (void (*)(void))run_task, 1, i);
    }
    running = &tasks[lock == BATCH || bound.is ? 0 : draw(task_count)];
    swapcontext(&home, &contexts[me()]);
}
