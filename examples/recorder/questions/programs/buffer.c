/* A buffer with two consumers: each looks whether there is an item in one section, and takes it in another. */
#include <pthread.h>
#include <stdio.h>

#include "gprecord.h"

static pthread_mutex_t lock = PTHREAD_MUTEX_INITIALIZER;
static int count, taken;

static void *producer(void *none) {
    for (int i = 0; i < 2; i++) {
        pthread_mutex_lock(&lock);
        count++;
        pthread_mutex_unlock(&lock);
    }
    return none;
}

static void *consumer(void *none) {
    pthread_mutex_lock(&lock);
    int is_there = count > 0;
#ifndef MENDED
    pthread_mutex_unlock(&lock);
    pthread_mutex_lock(&lock);
#endif
    if (is_there) {
        gp_op("act");
        count--;
        taken++;
    }
    pthread_mutex_unlock(&lock);
    return none;
}

int main(void) {
    pthread_t threads[3];
    pthread_create(&threads[0], NULL, producer, NULL);
    for (int i = 1; i < 3; i++) pthread_create(&threads[i], NULL, consumer, NULL);
    for (int i = 0; i < 3; i++) pthread_join(threads[i], NULL);
    printf("%d taken, %d left\n", taken, count);
    return count < 0;
}
