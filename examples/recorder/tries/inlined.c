/* Functions that are built into their callers: each event is in the function in which it stands. */
#include <pthread.h>
#include <stdio.h>

static pthread_mutex_t lock = PTHREAD_MUTEX_INITIALIZER;
static int number;

__attribute__((always_inline)) static inline void add(int more) {
    number += more;
}

__attribute__((always_inline)) static inline void add_locked(int more) {
    pthread_mutex_lock(&lock);
    add(more);
    pthread_mutex_unlock(&lock);
}

static void *worker(void *none) {
    add_locked(2);
    return none;
}

int main(void) {
    pthread_t thread;
    pthread_create(&thread, NULL, worker, NULL);
    add_locked(3);
    pthread_join(thread, NULL);
    printf("%d\n", number);
    return 0;
}
