/* Runs the kernel's own lock code one step at a time on one thread, and writes each step.

   The words are LOCK FIRST COUNT [TASKS [ORDER]]. LOCK is spin, nest, osq, mutex, rwsem, batch, percpu or seq.
   Each of COUNT runs is drawn from its number, from FIRST on: the tasks (2 to 6 where TASKS is 0 or
   none), their calls, who goes on at each step, the answers of processors, signals, and time. ORDER
   is drawn; hard, with signals and wakes for no reason at every turn and hardly any spinning; or
   bound, where a task goes on until it waits, but for two steps at which another comes.

   A line is TASK STEP PLACE BEFORE AFTER PC. Steps on words: L l load (atomic, plain), S s store,
   X exchange, A add, O or, N and, C c compare-exchange that took or failed. Tasks, nodes and
   waiters stand as codes, as in docs/LOCK_WORDS.md. Other lines are B and E (a call begins, ends with
   BEFORE), Z R Y (sleeps, is back, yields), W K (chooses PLACE to be woken, wakes it), Q G P J
   (answers of need_resched, of signal_pending_state, of owner_on_cpu, jiffies), I (a signal for
   PLACE), U (PLACE wakes for no reason), D (nobody can go on), T (cut off), F (the kernel's code
   fails). In the per-CPU semaphore H, M and h take the lock of its line of waiters, append to the
   line and release, and V wakes PLACE, or nobody. */
#include "steps.h"
#include <signal.h>
#include <unistd.h>

enum { BOUND_STEPS = 64, MOST_STEPS = 6000, MOST_STEPS_OF_BATCH = 1500000 };
enum lock lock;
static const char *const names[] = {"spin", "nest", "osq", "mutex", "rwsem", "batch", "percpu", "seq"};
static const u64 SPREAD = 0xd1342543de82ef95u;
static bool hard, bounded;

#define ONE_OF(...) ((const int[]){__VA_ARGS__})[draw(sizeof((const int[]){__VA_ARGS__}) / sizeof(int))]

static void draw_odds(void) {
    rounds = 1 + draw(4);
    odds.preempt = ONE_OF(1, 2, 2, 3, 5, 9, 20, 60);
    odds.resched = ONE_OF(0, 0, 24, 6, 3, 2);
    odds.signal = ONE_OF(0, 0, 300, 90, 40);
    odds.wake_for_nothing = ONE_OF(0, 0, 200, 30);
    odds.off_cpu = ONE_OF(0, 0, 5);
    odds.clock = ONE_OF(0, 0, 20, 4, 2, 1);
    odds.interrupt = ONE_OF(2, 4, 8);
    if (lock == BATCH) {
        odds.signal = odds.wake_for_nothing = 0;
        odds.preempt = 150;
        odds.resched = 3;
    }
    if (hard) {
        odds.signal = 12 + draw(30);
        odds.wake_for_nothing = 4 + draw(12);
        odds.resched = 2;
        odds.clock = 1 + draw(3);
        odds.preempt = 2 + draw(4);
        rounds = 4;
    }
}

/* The number says at which two of the first steps another task comes, which one, and the calls. */
static void bind_schedule(unsigned long number) {
    int others = task_count - 1;
    bound.steps[0] = number % BOUND_STEPS + 1;
    bound.steps[1] = number / BOUND_STEPS % BOUND_STEPS + 1;
    number /= BOUND_STEPS * BOUND_STEPS;
    bound.shifts[0] = number % others;
    bound.shifts[1] = number / others % others;
    unsigned long calls = number / others / others;
    for (int i = 0; i < task_count; i++) bound.seeds[i] = (calls * TASKS + i + 1) * SPREAD;
    odds.signal = odds.wake_for_nothing = 0;
    odds.resched = 1 + calls % 3 * 2;
    odds.clock = calls % 2;
    rounds = 1;
}

static void clear_locks(void) {
    memset(&locks, 0, sizeof locks);
    memset(copies, 0, (size_t)task_count * sizeof *copies);
    memset(tasks, 0, sizeof tasks);
    forget_store();
    running = &tasks[0];
    over = true;
    mutex_init(&locks.mutex);
    init_rwsem(&locks.sem);
    percpu_open(&locks.percpu);
    memset(seq_spin_place, 0, sizeof *seq_spin_place);
    memset(seq_data, 0, sizeof seq_data);
    *seq_word_place = 0;
    over = false;
}

static void run(unsigned long number, int wanted) {
    bound.is = false;
    seed = (number + 1) * SPREAD + lock;
    for (int i = 0; i < 8; i++) draw(2);
    task_count = wanted ? wanted : lock == BATCH ? 257 + (int)draw(50) : 2 + (int)draw(5);
    draw_odds();
    bound.is = bounded;
    if (bounded) bind_schedule(number);
    most_steps = lock == BATCH ? MOST_STEPS_OF_BATCH : MOST_STEPS;
    clock_now = 1000;
    step_count = 0;
    clear_locks();
    printf("run %s %lu %d\n", names[lock], number, task_count);
    start_tasks(calls_of);
    printf("end %ld\n", step_count);
}

/* The kernel's code can fail only where it is changed. What was written must be seen then. */
static void fail(int signal) {
    printf("%d F - 0 0 0\nend %ld\n", me(), step_count);
    fflush(stdout);
    _exit(1);
}

static void catch_failures(void) {
    static char handler_stack[1 << 16];
    sigaltstack(&(stack_t){.ss_sp = handler_stack, .ss_size = sizeof handler_stack}, NULL);
    sigaction(SIGSEGV, &(struct sigaction){.sa_handler = fail, .sa_flags = SA_ONSTACK}, NULL);
    sigaction(SIGBUS, &(struct sigaction){.sa_handler = fail, .sa_flags = SA_ONSTACK}, NULL);
}

int main(int words, char **word) {
    catch_failures();
    lock = SPIN;
    while (lock < LOCKS && words > 1 && strcmp(word[1], names[lock])) lock++;
    if (words < 4 || lock == LOCKS) return 2;
    hard = words > 5 && !strcmp(word[5], "hard");
    bounded = words > 5 && !strcmp(word[5], "bound");
    static char buffer[1 << 20];
    setvbuf(stdout, buffer, _IOFBF, sizeof buffer);
    unsigned long first = strtoul(word[2], NULL, 10), last = first + strtoul(word[3], NULL, 10);
    for (unsigned long number = first; number < last; number++) run(number, words > 4 ? atoi(word[4]) : 0);
    return 0;
}
