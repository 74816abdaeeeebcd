/* A thread waits for a flag by code that is built without the recorder (is_made, set_made), so that no trace tells of it. */
#include <pthread.h>
#include <sched.h>
#include <stdio.h>

#include "gprecord.h"

static volatile int made;

__attribute__((noinline)) static int is_made(void) { return made; }
__attribute__((noinline)) static void set_made(void) { made = 1; }

static void *user(void *none) {
    while (!is_made()) sched_yield();
    gp_op("use", "table");
    return none;
}

int main(void) {
    pthread_t thread;
    pthread_create(&thread, NULL, user, NULL);
    gp_op("init", "table");
    set_made();
    pthread_join(thread, NULL);
    puts("done");
    return 0;
}
