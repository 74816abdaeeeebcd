/* A bank account. Two customers withdraw from it, and a clerk, who has a page to fill before, closes it.
 *
 * Each access to the account is locked, but a withdrawal has two sections: it looks at the account in one, and
 * takes the money in another. Between them the clerk may close the account. */
#include <pthread.h>
#include <stdbool.h>
#include <stdio.h>

#include "gprecord.h"

enum { WITHDRAWALS = 3, LINES = 60 };

static pthread_mutex_t lock = PTHREAD_MUTEX_INITIALIZER;
static int balance = 100;
static bool closed;
static int page[LINES];

static bool may_take(int amount) {
    pthread_mutex_lock(&lock);
    bool may = !closed && balance >= amount;
    pthread_mutex_unlock(&lock);
    return may;
}

static void take(int amount) {
    pthread_mutex_lock(&lock);
    balance -= amount;
    gp_op("pay");
    pthread_mutex_unlock(&lock);
}

static void withdraw(int amount) {
    gp_begin("withdrawal");
    if (may_take(amount)) {
        gp_op("agreed");
        take(amount);
    }
    gp_end("withdrawal");
}

static void *customer(void *amount) {
    for (int i = 0; i < WITHDRAWALS; i++) withdraw(*(const int *)amount);
    return NULL;
}

static void *clerk(void *none) {
    for (int i = 0; i < LINES; i++) page[i] = i;
    pthread_mutex_lock(&lock);
    closed = true;
    pthread_mutex_unlock(&lock);
    return none;
}

int main(void) {
    static int ten = 10, twenty = 20;
    pthread_t threads[3];
    pthread_create(&threads[0], NULL, customer, &ten);
    pthread_create(&threads[1], NULL, customer, &twenty);
    pthread_create(&threads[2], NULL, clerk, NULL);
    for (int i = 0; i < 3; i++) pthread_join(threads[i], NULL);
    printf("%d left\n", balance);
    return 0;
}
