/* A clerk moves money while the owner looks at an account. */
#include <stdio.h>

#include "ledger.h"

static struct account savings, current;

static void *clerk(void *none) {
    account_move(&current, &savings, 10);
    return none;
}

int main(void) {
    account_open(&savings, 100);
    account_open(&current, 100);
    pthread_t thread;
    pthread_create(&thread, NULL, clerk, NULL);
    long seen = account_balance(&savings);
    pthread_join(thread, NULL);
    printf("%ld seen, %ld there\n", seen, account_balance(&savings));
    return seen < 100;
}
