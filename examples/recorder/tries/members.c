/* Two threads touch members of structures and elements of arrays, some with names that are too long for a recording. */
#include <pthread.h>
#include <stdio.h>

struct account {
    long balance, limit;
};

struct queue {
    pthread_mutex_t lock;
    struct {
        int first;
        short slots[4];
    } ring;
    union {
        int number;
        float part;
    } either;
    unsigned open : 1, full : 1;
};

struct pair {
    long one_of_two_members_of_a_pair, other;
};

struct account account, accounts[3];
struct queue queue = {.lock = PTHREAD_MUTEX_INITIALIZER};
struct pair the_pair_that_is_told_first, the_pair_that_is_told_next;
long the_only_number_that_has_a_name_of_its_own;
static struct account hidden[2];

static void *worker(void *none) {
    pthread_mutex_lock(&queue.lock);
    account.balance++;
    account.limit++;
    accounts[1].limit++;
    hidden[1].balance++;
    queue.ring.first++;
    queue.ring.slots[2]++;
    queue.either.number++;
    queue.full ^= 1;
    the_pair_that_is_told_first.one_of_two_members_of_a_pair++;
    the_pair_that_is_told_next.one_of_two_members_of_a_pair++;
    the_only_number_that_has_a_name_of_its_own++;
    pthread_mutex_unlock(&queue.lock);
    return none;
}

int main(void) {
    pthread_t thread;
    pthread_create(&thread, NULL, worker, NULL);
    worker(NULL);
    pthread_join(thread, NULL);
    printf("%ld %ld\n", account.balance, hidden[1].balance);
    return 0;
}
