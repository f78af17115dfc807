/* Times rounds on the kernel's own locks, as pthread_locks does on those of the C library.
   The words are CASE THREADS ROUNDS, with the case spin, front, mutex, work, read, write or mixed.
   Before the rounds that are timed, a tenth as many raise plain counters inside the lock, and it
   ends with a failure if one of these rounds is lost or a reader sees half of one. */
#include <linux/mutex.h>
#include <linux/rwsem.h>
#include <pthread.h>
#include <stdio.h>
#include <stdlib.h>
#include <string.h>
#include "kernel/tasks.h"

static struct qspinlock spin __attribute__((aligned(64)));
static struct optimistic_spin_queue front __attribute__((aligned(64)));
static struct mutex mutex __attribute__((aligned(64)));
static struct rw_semaphore semaphore __attribute__((aligned(64)));
static struct { volatile long first, second; } counted __attribute__((aligned(64)));
static bool torn;

static void count_one(void) {
    counted.first++;
    counted.second++;
}

static void look(void) {
    if (counted.first != counted.second) {
        WRITE_ONCE(torn, true);
    }
}

#define ROUNDS(name, take, inside, release) \
    static void name##_rounds(bool checks, long rounds) { \
        for (long i = 0; i < rounds; i++) { \
            take; \
            if (checks) { \
                inside; \
            } \
            release; \
        } \
    }

ROUNDS(spin, queued_spin_lock(&spin), count_one(), queued_spin_unlock(&spin))
ROUNDS(front, osq_lock(&front), count_one(), osq_unlock(&front))
ROUNDS(mutex, mutex_lock(&mutex), count_one(), mutex_unlock(&mutex))
ROUNDS(read, down_read(&semaphore), look(), up_read(&semaphore))
ROUNDS(write, down_write(&semaphore), count_one(), up_write(&semaphore))

static void mixed_rounds(bool checks, long rounds) {
    for (long i = 0; i < rounds; i++) {
        if (i % 10 == 9) {
            write_rounds(checks, 1);
        } else {
            read_rounds(checks, 1);
        }
    }
}

static u64 raised[4];

static void work_rounds(bool checks, long rounds) {
    u64 number = smp_processor_id();
    for (long i = 0; i < rounds; i++) {
        mutex_lock(&mutex);
        for (int word = 0; word < 4; word++) {
            WRITE_ONCE(raised[word], READ_ONCE(raised[word]) + number);
        }
        if (checks) {
            count_one();
        }
        mutex_unlock(&mutex);
        for (int step = 0; step < 20; step++) {
            number = number * 6364136223846793005u + 1442695040888963407u;
        }
    }
}

/* One of so many rounds raises the counters, or none if that is 0. */
static const struct {
    const char *word;
    void (*rounds)(bool checks, long rounds);
    long counted_of;
} cases[] = {
    {"spin", spin_rounds, 1}, {"front", front_rounds, 1}, {"mutex", mutex_rounds, 1}, {"work", work_rounds, 1},
    {"read", read_rounds, 0}, {"write", write_rounds, 1}, {"mixed", mixed_rounds, 10},
}, *chosen;

static bool checks_now;
static long rounds_now;
static pthread_barrier_t together;

/* The threads start together, so that they meet. None ends before all are done: others may look at
   its task and at its nodes in queues. */
static void *run_task(void *number) {
    this_task.processor = (uintptr_t)number;
    this_task.on_cpu = 1;
    task_of_processor[this_task.processor] = &this_task;
    pthread_barrier_wait(&together);
    chosen->rounds(checks_now, rounds_now);
    pthread_barrier_wait(&together);
    return NULL;
}

static u64 time_of(int threads, bool checks, long rounds) {
    pthread_t made[PROCESSORS];
    u64 start = sched_clock();
    checks_now = checks;
    rounds_now = rounds;
    for (int i = 0; i < threads; i++) {
        pthread_create(&made[i], NULL, run_task, (void *)(uintptr_t)i);
    }
    for (int i = 0; i < threads; i++) {
        pthread_join(made[i], NULL);
    }
    return sched_clock() - start;
}

int main(int count, char **words) {
    if (count != 4) {
        return 2;
    }
    int threads = atoi(words[2]);
    long rounds = atol(words[3]);
    for (size_t i = 0; i < sizeof cases / sizeof *cases; i++) {
        if (!strcmp(words[1], cases[i].word)) {
            chosen = &cases[i];
        }
    }
    if (!chosen || threads < 1 || threads > PROCESSORS || rounds < 1) {
        return 2;
    }
    mutex_init(&mutex);
    init_rwsem(&semaphore);
    pthread_barrier_init(&together, NULL, threads);
    long checked = rounds / 10 + 1;
    time_of(threads, true, checked);
    long due = chosen->counted_of ? checked / chosen->counted_of * threads : 0;
    if (counted.first != due || counted.second != due || torn) {
        fprintf(stderr, "kernel %s: the lock let two in: %ld rounds counted of %ld\n", words[1], counted.first, due);
        return 1;
    }
    double spent = time_of(threads, false, rounds);
    printf("kernel %s %d %ld: %.0f ns a round, %.0f ns on its thread\n", words[1], threads, rounds, spent / (threads * (double)rounds), spent / rounds);
    return 0;
}
