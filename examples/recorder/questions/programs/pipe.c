/* A byte in a pipe says that the table is made. No trace tells of it, so a schedule may have the use come first. */
#include <pthread.h>
#include <stdio.h>
#include <unistd.h>

#include "gprecord.h"

static int ends[2];

static void *user(void *none) {
    char byte;
    if (read(ends[0], &byte, 1) != 1) return none;
    gp_op("use", "table");
    return none;
}

int main(void) {
    pthread_t thread;
    if (pipe(ends)) return 1;
    pthread_create(&thread, NULL, user, NULL);
    gp_op("init", "table");
    if (write(ends[1], "x", 1) != 1) return 1;
    pthread_join(thread, NULL);
    puts("done");
    return 0;
}
