#include "ledger.h"

void account_open(struct account *account, long balance) {
    pthread_mutex_init(&account->lock, NULL);
    account->balance = balance;
}

/* Both locks are taken in the order of the words, so two threads that move money to and fro can come to wait for each other. The mended
 * one takes them in the order of their addresses. */
static void lock_both(struct account *one, struct account *other) {
#ifdef MENDED
    struct account *first = one < other ? one : other;
    other = first == one ? other : one;
    one = first;
#endif
    pthread_mutex_lock(&one->lock);
    pthread_mutex_lock(&other->lock);
}

void account_move(struct account *from, struct account *to, long amount) {
    lock_both(from, to);
    from->balance -= amount;
    to->balance += amount;
    pthread_mutex_unlock(&to->lock);
    pthread_mutex_unlock(&from->lock);
}

long account_balance(struct account *account) {
#ifdef MENDED
    pthread_mutex_lock(&account->lock);
    long found = account->balance;
    pthread_mutex_unlock(&account->lock);
    return found;
#else
    return account->balance;
#endif
}
