/* Two threads add to a number under a lock; in the middle nothing is recorded. */
#include <pthread.h>
#include <stdio.h>

#include "gprecord.h"

static pthread_mutex_t lock = PTHREAD_MUTEX_INITIALIZER;
static int number;

static void add(int times) {
    for (int i = 0; i < times; i++) {
        pthread_mutex_lock(&lock);
        number++;
        pthread_mutex_unlock(&lock);
    }
}

static void *worker(void *none) {
    add(20);
    return none;
}

int main(void) {
    pthread_t threads[2];
    pthread_create(&threads[0], NULL, worker, NULL);
    add(10);
    gp_record(0);
    add(1000);
    gp_record(1);
    gp_op("late");
    pthread_create(&threads[1], NULL, worker, NULL);
    for (int i = 0; i < 2; i++) pthread_join(threads[i], NULL);
    printf("%d\n", number);
    return 0;
}
