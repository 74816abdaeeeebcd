/* A thread uses the table that main makes, and is started before it is made. */
#include <pthread.h>
#include <stdio.h>

#include "gprecord.h"

static pthread_mutex_t lock = PTHREAD_MUTEX_INITIALIZER;
static int table[2], found;

static void make_table(void) {
    pthread_mutex_lock(&lock);
    table[1] = 7;
    gp_op("init", "table");
    pthread_mutex_unlock(&lock);
}

static void *user(void *none) {
    pthread_mutex_lock(&lock);
    gp_op("use", "table");
    found = table[1];
    pthread_mutex_unlock(&lock);
    return none;
}

int main(void) {
    pthread_t thread;
#ifdef MENDED
    make_table();
    pthread_create(&thread, NULL, user, NULL);
#else
    pthread_create(&thread, NULL, user, NULL);
    make_table();
#endif
    pthread_join(thread, NULL);
    printf("found %d\n", found);
    return 0;
}
