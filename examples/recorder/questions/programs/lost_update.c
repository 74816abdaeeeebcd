/* A deposit reads the balance in one section and writes it in another; between them the account may be emptied. */
#include <pthread.h>
#include <stdio.h>

static pthread_mutex_t lock = PTHREAD_MUTEX_INITIALIZER;
static int balance;

static void *deposit(void *none) {
    pthread_mutex_lock(&lock);
    int found = balance;
#ifndef MENDED
    pthread_mutex_unlock(&lock);
    pthread_mutex_lock(&lock);
#endif
    balance = found + 10;
    pthread_mutex_unlock(&lock);
    return none;
}

static void *empty(void *none) {
    pthread_mutex_lock(&lock);
    balance = 0;
    pthread_mutex_unlock(&lock);
    return none;
}

int main(void) {
    pthread_t threads[2];
    pthread_create(&threads[0], NULL, deposit, NULL);
    pthread_create(&threads[1], NULL, empty, NULL);
    for (int i = 0; i < 2; i++) pthread_join(threads[i], NULL);
    printf("%d left\n", balance);
    return 0;
}
