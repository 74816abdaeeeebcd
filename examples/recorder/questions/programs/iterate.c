/* A thread adds up the items while another one puts a new one before them. */
#include <pthread.h>
#include <stdio.h>

#include "gprecord.h"

static pthread_mutex_t lock = PTHREAD_MUTEX_INITIALIZER;
static int items[4] = {1, 2, 3, 0}, sum;

static void take(void) { pthread_mutex_lock(&lock); }
static void give(void) { pthread_mutex_unlock(&lock); }

static void *add_up(void *none) {
    take();
    gp_begin("iterate");
    for (int i = 0; i < 4; i++) {
#ifndef MENDED
        give();
        take();
#endif
        sum += items[i];
    }
    gp_end("iterate");
    give();
    return none;
}

int main(void) {
    pthread_t thread;
    pthread_create(&thread, NULL, add_up, NULL);
    take();
    for (int i = 3; i > 0; i--) items[i] = items[i - 1];
    items[0] = 9;
    give();
    pthread_join(thread, NULL);
    printf("sum %d\n", sum);
    return 0;
}
