// Preloaded by bench/refuse: refuses the request for memory or for a thread whose number, from 1, is in
// the variable REFUSE, and says of which kind it was on the descriptor whose number is in REFUSE_TO.
#define _GNU_SOURCE
#include <dlfcn.h>
#include <errno.h>
#include <pthread.h>
#include <stdatomic.h>
#include <stdlib.h>
#include <string.h>
#include <unistd.h>

void *__libc_malloc(size_t);
void *__libc_calloc(size_t, size_t);
void *__libc_realloc(void *, size_t);

static atomic_ulong requests;
static unsigned long refused;
static int told = -1;

// Requests before it, of the dynamic linker, aren't counted.
__attribute__((constructor)) static void begin(void) {
    const char *number = getenv("REFUSE"), *to = getenv("REFUSE_TO");
    if (number == NULL || to == NULL)
        return;
    told = atoi(to);
    refused = strtoul(number, NULL, 10);
}

static int is_refused(const char *kind) {
    if (refused == 0 || atomic_fetch_add(&requests, 1) + 1 != refused)
        return 0;
    return write(told, kind, strlen(kind)) > 0;
}

static void *none(void) {
    errno = ENOMEM;
    return NULL;
}

void *malloc(size_t size) { return is_refused("malloc") ? none() : __libc_malloc(size); }

void *calloc(size_t count, size_t size) { return is_refused("calloc") ? none() : __libc_calloc(count, size); }

void *realloc(void *block, size_t size) { return is_refused("realloc") ? none() : __libc_realloc(block, size); }

int pthread_create(pthread_t *thread, const pthread_attr_t *attr, void *(*start)(void *), void *data) {
    int (*create)(pthread_t *, const pthread_attr_t *, void *(*)(void *), void *) = dlsym(RTLD_NEXT, "pthread_create");
    return is_refused("thread") ? EAGAIN : create(thread, attr, start, data);
}
