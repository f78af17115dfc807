/* The calls that each task makes, as the seed draws them. */
#include "steps.h"

int rounds;

/* A call begins and ends with a line. A signal is gone when a call ended by it. */
#define CALL(name, of, call) do { \
    tell_store(); \
    line('B', name, of, 0, 0, 0); \
    maybe_switch(odds.preempt); \
    result = 0; \
    call; \
    tell_store(); \
    end_call(name, of, result); \
} while (0)

static void end_call(const char *name, int of, int result) {
    struct task_state *own = &states[me()];
    if (result == -EINTR) own->signalled = false;
    own->waiter = NULL;
    own->may_wait = false;
    line('E', name, of, result, 0, 0);
}

static void hold(int most) {
    for (int i = draw(most + 1); i > 0; i--) maybe_switch(2);
}

static void take_spin(int k) {
    struct task_state *own = &states[me()];
    int result, before = own->greatest;
    own->greatest = k;
    if (!draw(6)) CALL("try.", k, result = spin_trylock(&locks.spin[k]));
    else {
        CALL("lock.", k, spin_lock(&locks.spin[k]));
        result = 1;
    }
    if (result) {
        hold(lock == NEST ? 2 : 5);
        if (lock == NEST && !draw(3)) interrupt();
        CALL("unlock.", k, spin_unlock(&locks.spin[k]));
    }
    own->greatest = before;
}

void interrupt(void) {
    struct task_state *own = &states[me()];
    if (own->greatest + 1 >= SPINS || own->depth >= 6 || !one_in(odds.interrupt)) return;
    own->depth++;
    take_spin(own->greatest + 1 + draw(draw(2) ? 1 : SPINS - 1 - own->greatest));
    own->depth--;
}

static void nested_round(void) {
    states[me()].greatest = -1;
    take_spin(draw(3) ? 0 : draw(3));
}

static void osq_round(void) {
    int result;
    CALL("lock", -1, result = osq_lock(&locks.osq));
    if (!result) return;
    hold(6);
    CALL("unlock", -1, osq_unlock(&locks.osq));
}

static void mutex_round(void) {
    int result, kind = draw(8);
    states[me()].may_wait = kind;
    if (kind == 0) CALL("try", -1, result = mutex_trylock(&locks.mutex) ? 0 : -1);
    else if (kind < 5) CALL("lock", -1, mutex_lock(&locks.mutex));
    else if (kind < 7) CALL("lock_int", -1, result = mutex_lock_interruptible(&locks.mutex));
    else CALL("lock_int", -1, result = mutex_lock_killable(&locks.mutex));
    if (result) return;
    hold(10);
    CALL("unlock", -1, mutex_unlock(&locks.mutex));
}

static void percpu_round(void) {
    int result, kind = draw(8);
    bool reads = kind < 5;
    states[me()].may_wait = true;
    if (kind == 0) CALL("read_try", -1, result = percpu_read_try(&locks.percpu) ? 0 : -1);
    else if (reads) CALL("read", -1, percpu_read(&locks.percpu));
    else CALL("write", -1, percpu_down_write(&locks.percpu));
    if (result) return;
    hold(8);
    if (reads) CALL("up_read", -1, percpu_read_end(&locks.percpu));
    else CALL("up_write", -1, percpu_up_write(&locks.percpu));
}

static void sequence_round(void) {
    int result;
    if (draw(3)) CALL("read", -1, result = seq_read());
    else CALL("write", -1, seq_write());
}

/* Takes the semaphore by one of the ways, and answers 0 where that held. */
static int take_semaphore(int kind) {
    int result;
    states[me()].may_wait = kind > 1;
    if (kind == 0) CALL("read_try", -1, result = down_read_trylock(&locks.sem) ? 0 : -1);
    else if (kind == 1) CALL("write_try", -1, result = down_write_trylock(&locks.sem) ? 0 : -1);
    else if (kind < 6) CALL("read", -1, down_read(&locks.sem));
    else if (kind < 8) CALL("read_int", -1, result = down_read_interruptible(&locks.sem));
    else if (kind < 9) CALL("read_int", -1, result = down_read_killable(&locks.sem));
    else if (kind < 13) CALL("write", -1, down_write(&locks.sem));
    else CALL("write_int", -1, result = down_write_killable(&locks.sem));
    return result;
}

static void semaphore_round(void) {
    int result, kind = draw(16);
    bool reads = kind == 0 || (kind > 1 && kind < 9);
    if (take_semaphore(kind)) return;
    hold(10);
    if (!reads && !draw(4)) {
        CALL("downgrade", -1, downgrade_write(&locks.sem));
        hold(6);
        reads = true;
    }
    if (reads) CALL("up_read", -1, up_read(&locks.sem));
    else CALL("up_write", -1, up_write(&locks.sem));
}

static void wait_for_all_others(void) {
    for (bool all = false; !all;) {
        maybe_switch(1);
        all = true;
        for (int i = 1; i < task_count; i++) all = all && (states[i].asleep || states[i].ended);
    }
}

/* More readers than one wake grants, and now and then a writer among them, behind a writer that
   holds until all of them sleep. */
static void batch_calls(int task) {
    int result;
    states[task].may_wait = true;
    bool writes = task == 0 || one_in(97);
    if (writes) CALL("write", -1, down_write(&locks.sem));
    else CALL("read", -1, down_read(&locks.sem));
    if (task == 0) {
        wait_for_all_others();
        if (!draw(2)) {
            CALL("downgrade", -1, downgrade_write(&locks.sem));
            writes = false;
        }
    }
    if (writes) CALL("up_write", -1, up_write(&locks.sem));
    else CALL("up_read", -1, up_read(&locks.sem));
}

void calls_of(int task) {
    if (lock == BATCH) {
        batch_calls(task);
        return;
    }
    for (int round = draw(rounds); round < rounds; round++) {
        switch (lock) {
        case SPIN: take_spin(0); break;
        case NEST: nested_round(); break;
        case OSQ: osq_round(); break;
        case MUTEX: mutex_round(); break;
        case PERCPU: percpu_round(); break;
        case SEQ: sequence_round(); break;
        default: semaphore_round();
        }
        hold(3);
    }
}
