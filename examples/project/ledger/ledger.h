/* Accounts between which several threads move money. Each account has a lock of its own. */
#ifndef LEDGER_H
#define LEDGER_H

#include <pthread.h>

struct account {
    pthread_mutex_t lock;
    long balance;
};

void account_open(struct account *account, long balance);
void account_move(struct account *from, struct account *to, long amount);
long account_balance(struct account *account);

#endif
