/* Two clerks move money between two accounts, one to and one fro. */
#include <stdio.h>

#include "ledger.h"

static struct account savings, current;

static void *to_savings(void *none) {
    account_move(&current, &savings, 10);
    return none;
}

static void *from_savings(void *none) {
    account_move(&savings, &current, 5);
    return none;
}

int main(void) {
    account_open(&savings, 100);
    account_open(&current, 100);
    pthread_t clerks[2];
    pthread_create(&clerks[0], NULL, to_savings, NULL);
    pthread_create(&clerks[1], NULL, from_savings, NULL);
    for (int i = 0; i < 2; i++) pthread_join(clerks[i], NULL);
    long sum = account_balance(&savings) + account_balance(&current);
    printf("%ld in all\n", sum);
    return sum != 200;
}
