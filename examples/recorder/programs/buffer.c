/* A buffer of two places between a producer and two consumers, with a lock and two conditions.
 *
 * The program is right. A wake can come only after a notification: an analysis that takes conditions for plain
 * operations finds wakes that nobody asked for, and one that knows conditions says that there are none. */
#include <pthread.h>
#include <stdio.h>

#include "gprecord.h"

enum { PLACES = 2, CONSUMERS = 2, EACH = 3 };

static pthread_mutex_t lock = PTHREAD_MUTEX_INITIALIZER;
static pthread_cond_t filled = PTHREAD_COND_INITIALIZER, emptied = PTHREAD_COND_INITIALIZER;
static int places[PLACES], count, first;

static void put(int item) {
    pthread_mutex_lock(&lock);
    while (count == PLACES) pthread_cond_wait(&emptied, &lock);
    places[(first + count++) % PLACES] = item;
    gp_op("put", gp_nth("item", item));
    pthread_cond_signal(&filled);
    pthread_mutex_unlock(&lock);
}

static int take(void) {
    pthread_mutex_lock(&lock);
    while (count == 0) pthread_cond_wait(&filled, &lock);
    int item = places[first];
    first = (first + 1) % PLACES;
    count--;
    gp_op("take", gp_nth("item", item));
    pthread_cond_signal(&emptied);
    pthread_mutex_unlock(&lock);
    return item;
}

static void *producer(void *none) {
    for (int item = 1; item <= CONSUMERS * EACH; item++) put(item);
    return none;
}

static void *consumer(void *sum) {
    for (int i = 0; i < EACH; i++) *(int *)sum += take();
    return NULL;
}

int main(void) {
    static int sums[CONSUMERS];
    pthread_t threads[CONSUMERS + 1];
    for (int i = 0; i < CONSUMERS; i++) pthread_create(&threads[i], NULL, consumer, &sums[i]);
    pthread_create(&threads[CONSUMERS], NULL, producer, NULL);
    for (int i = 0; i <= CONSUMERS; i++) pthread_join(threads[i], NULL);
    printf("%d and %d\n", sums[0], sums[1]);
    return 0;
}
