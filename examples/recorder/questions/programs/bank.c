/* A withdrawal looks at the account in one section and pays in another; the account may be closed in between. */
#include <pthread.h>
#include <stdio.h>

#include "gprecord.h"

static pthread_mutex_t lock = PTHREAD_MUTEX_INITIALIZER;
static int balance = 100, closed;

static void *withdraw(void *none) {
    pthread_mutex_lock(&lock);
    gp_begin("atomic");
    int may = !closed;
#ifndef MENDED
    pthread_mutex_unlock(&lock);
    pthread_mutex_lock(&lock);
#endif
    if (may) balance -= 10;
    gp_end("atomic");
    pthread_mutex_unlock(&lock);
    return none;
}

int main(void) {
    pthread_t threads[2];
    for (int i = 0; i < 2; i++) pthread_create(&threads[i], NULL, withdraw, NULL);
    pthread_mutex_lock(&lock);
    closed = 1;
    pthread_mutex_unlock(&lock);
    for (int i = 0; i < 2; i++) pthread_join(threads[i], NULL);
    printf("%d left\n", balance);
    return 0;
}
