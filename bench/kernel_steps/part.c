/* One file of the kernel (PART), and where that which only it knows lies. */
#ifdef PART_OF_PERCPU
static __attribute__((section("of_processor"), used, aligned(64))) unsigned read_counts;
#endif
#include PART

struct waiter_offsets { size_t list, task, size, type, timeout, mark; };
struct node_offsets { size_t size, offset[4]; };

#ifdef PART_OF_MUTEX
const struct waiter_offsets mutex_waiter = {
    .list = offsetof(struct mutex_waiter, list),
    .task = offsetof(struct mutex_waiter, task),
    .size = sizeof(struct mutex_waiter),
};
#endif

#ifdef PART_OF_RWSEM
const struct waiter_offsets rwsem_waiter = {
    .list = offsetof(struct rwsem_waiter, list),
    .task = offsetof(struct rwsem_waiter, task),
    .size = sizeof(struct rwsem_waiter),
    .type = offsetof(struct rwsem_waiter, type),
    .timeout = offsetof(struct rwsem_waiter, timeout),
    .mark = offsetof(struct rwsem_waiter, handoff_set),
};
#endif

#ifdef PART_OF_OSQ
void *const osq_node_place = &osq_node;
const struct node_offsets osq_node_offsets = {
    sizeof(struct optimistic_spin_node),
    {offsetof(struct optimistic_spin_node, next), offsetof(struct optimistic_spin_node, prev),
     offsetof(struct optimistic_spin_node, locked), offsetof(struct optimistic_spin_node, cpu)},
};
#endif

#ifdef PART_OF_SPIN
void spin_lock(struct qspinlock *lock) { queued_spin_lock(lock); }
void spin_unlock(struct qspinlock *lock) { queued_spin_unlock(lock); }
int spin_trylock(struct qspinlock *lock) { return queued_spin_trylock(lock); }
void *const mcs_node_place = qnodes;
const struct node_offsets mcs_node_offsets = {
    sizeof(struct qnode),
    {offsetof(struct mcs_spinlock, next), offsetof(struct mcs_spinlock, locked),
     offsetof(struct mcs_spinlock, count)},
};
#endif

#ifdef PART_OF_PERCPU
void *const read_count_place = &read_counts;
void percpu_open(struct percpu_rw_semaphore *sem) { __percpu_init_rwsem(sem, "", NULL); }
void percpu_read(struct percpu_rw_semaphore *sem) { percpu_down_read(sem); }
int percpu_read_try(struct percpu_rw_semaphore *sem) { return percpu_down_read_trylock(sem); }
void percpu_read_end(struct percpu_rw_semaphore *sem) { percpu_up_read(sem); }
#endif

#ifdef PART_OF_SEQ
static seqlock_t seq_lock __attribute__((aligned(64)));
int seq_data[2] __attribute__((aligned(64)));
struct qspinlock *const seq_spin_place = &seq_lock.lock;
unsigned *const seq_word_place = &seq_lock.seqcount.seqcount.sequence;
/* Each word has how often it was written. */
void seq_write(void) {
    write_seqlock(&seq_lock);
    WRITE_ONCE(seq_data[0], seq_data[0] + 1);
    WRITE_ONCE(seq_data[1], seq_data[1] + 1);
    write_sequnlock(&seq_lock);
}
int seq_read(void) {
    unsigned start = read_seqbegin(&seq_lock);
    READ_ONCE(seq_data[0]);
    READ_ONCE(seq_data[1]);
    return read_seqretry(&seq_lock, start) ? -1 : 0;
}
#endif
