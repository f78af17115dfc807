/* Times rounds on the locks of the C library, as lock_bench does on the project's own.
   The words are CASE THREADS ROUNDS, with the case spin, mutex, work, kept, read, write, mixed or exchange. */
#define _GNU_SOURCE
#include <pthread.h>
#include <stdatomic.h>
#include <stdint.h>
#include <stdio.h>
#include <stdlib.h>
#include <string.h>
#include <time.h>

static pthread_spinlock_t spin;
static pthread_mutex_t mutex = PTHREAD_MUTEX_INITIALIZER;
static pthread_rwlock_t rwlock = PTHREAD_RWLOCK_INITIALIZER;
static _Atomic uint64_t exchanged;
static long rounds;

static void *spin_pairs(void *unused) {
    for (long i = 0; i < rounds; i++) {
        pthread_spin_lock(&spin);
        pthread_spin_unlock(&spin);
    }
    return unused;
}

static void *mutex_pairs(void *unused) {
    for (long i = 0; i < rounds; i++) {
        pthread_mutex_lock(&mutex);
        pthread_mutex_unlock(&mutex);
    }
    return unused;
}

static uint64_t stepped(uint64_t number) {
    for (int step = 0; step < 20; step++) {
        number = number * 6364136223846793005u + 1442695040888963407u;
    }
    return number;
}

static _Atomic uint64_t raised[4];

static void *work_pairs(void *task) {
    uint64_t number = (uintptr_t)task;
    for (long i = 0; i < rounds; i++) {
        pthread_mutex_lock(&mutex);
        for (int word = 0; word < 4; word++) {
            raised[word] = raised[word] + number;
        }
        pthread_mutex_unlock(&mutex);
        number = stepped(number);
    }
    return NULL;
}

/* The words that the mutex guards are plain, as in C programs. */
static uint64_t kept[4];

static void *kept_pairs(void *task) {
    uint64_t number = (uintptr_t)task;
    for (long i = 0; i < rounds; i++) {
        pthread_mutex_lock(&mutex);
        for (int word = 0; word < 4; word++) {
            kept[word] += number;
        }
        pthread_mutex_unlock(&mutex);
        number = stepped(number);
    }
    return NULL;
}

static void read_pair(void) {
    pthread_rwlock_rdlock(&rwlock);
    pthread_rwlock_unlock(&rwlock);
}

static void write_pair(void) {
    pthread_rwlock_wrlock(&rwlock);
    pthread_rwlock_unlock(&rwlock);
}

static void *read_pairs(void *unused) {
    for (long i = 0; i < rounds; i++) {
        read_pair();
    }
    return unused;
}

static void *write_pairs(void *unused) {
    for (long i = 0; i < rounds; i++) {
        write_pair();
    }
    return unused;
}

static void *mixed_pairs(void *unused) {
    for (long i = 0; i < rounds; i++) {
        if (i % 10 == 9) {
            write_pair();
        } else {
            read_pair();
        }
    }
    return unused;
}

static void *exchange_pairs(void *task) {
    for (long i = 0; i < rounds; i++) {
        atomic_exchange(&exchanged, (uintptr_t)task);
        atomic_exchange(&exchanged, 0);
    }
    return NULL;
}

static const struct {
    const char *word;
    void *(*pairs)(void *);
} cases[] = {
    {"spin", spin_pairs}, {"mutex", mutex_pairs}, {"work", work_pairs}, {"kept", kept_pairs},
    {"read", read_pairs}, {"write", write_pairs}, {"mixed", mixed_pairs}, {"exchange", exchange_pairs},
};

static void *(*pairs_of(const char *word))(void *) {
    for (size_t i = 0; i < sizeof cases / sizeof *cases; i++) {
        if (!strcmp(word, cases[i].word)) {
            return cases[i].pairs;
        }
    }
    return NULL;
}

int main(int count, char **words) {
    if (count != 4) {
        return 2;
    }
    int threads = atoi(words[2]);
    rounds = atol(words[3]);
    void *(*pairs)(void *) = pairs_of(words[1]);
    pthread_t made[64];
    struct timespec start, end;
    if (!pairs || threads < 1 || threads > 64 || rounds < 1) {
        return 2;
    }
    pthread_spin_init(&spin, PTHREAD_PROCESS_PRIVATE);
    clock_gettime(CLOCK_MONOTONIC, &start);
    for (int i = 0; i < threads; i++) {
        pthread_create(&made[i], NULL, pairs, (void *)(uintptr_t)i);
    }
    for (int i = 0; i < threads; i++) {
        pthread_join(made[i], NULL);
    }
    clock_gettime(CLOCK_MONOTONIC, &end);
    double spent = (end.tv_sec - start.tv_sec) * 1e9 + (end.tv_nsec - start.tv_nsec);
    printf("pthread %s %d %ld: %.0f ns a round, %.0f ns on its thread\n", words[1], threads, rounds, spent / (threads * (double)rounds), spent / rounds);
    return 0;
}
