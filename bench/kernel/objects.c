/* The kernel's mutex and semaphore for the plain program in Rust (bench/plain). A task that waits
   yields after some looks, and its processor needs rescheduling after some more, as in the program
   that is measured: with more tasks than processors it would else spin for whoever isn't running. */
#include <linux/mutex.h>
#include <linux/rwsem.h>
#include <stdlib.h>
#include "kernel/tasks.h"

/* A lock on a pair of lines of its own. */
static void *room_for(size_t bytes) {
    void *place = aligned_alloc(128, (bytes + 127) / 128 * 128);
    if (!place) {
        abort();
    }
    return place;
}

struct rw_semaphore *semaphore_new(void) {
    struct rw_semaphore *semaphore = room_for(sizeof *semaphore);
    init_rwsem(semaphore);
    return semaphore;
}

struct mutex *mutex_new(void) {
    struct mutex *mutex = room_for(sizeof *mutex);
    mutex_init(mutex);
    return mutex;
}

/* The thread is the processor of this number from now on, and its task. */
void task_begin(int processor) {
    this_task.processor = processor;
    this_task.on_cpu = 1;
    task_of_processor[processor] = &this_task;
}

/* A call of a lock, which begins with short pauses. */
#define CALL(name, type, call) \
    void name(struct type *lock) { \
        this_task.looks = 0; \
        call(lock); \
    }

CALL(semaphore_read, rw_semaphore, down_read)
CALL(semaphore_read_end, rw_semaphore, up_read)
CALL(semaphore_write, rw_semaphore, down_write)
CALL(semaphore_write_end, rw_semaphore, up_write)
CALL(mutex_take, mutex, mutex_lock)
CALL(mutex_end, mutex, mutex_unlock)
