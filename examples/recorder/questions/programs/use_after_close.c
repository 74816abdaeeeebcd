/* A thread writes to a log that main closes before it has joined the thread. */
#include <pthread.h>
#include <stdio.h>

#include "gprecord.h"

static pthread_mutex_t lock = PTHREAD_MUTEX_INITIALIZER;
static int lines, is_open = 1;

static void *writer(void *none) {
    pthread_mutex_lock(&lock);
    gp_op("use", "log");
    if (is_open) lines++;
    pthread_mutex_unlock(&lock);
    return none;
}

static void close_log(void) {
    pthread_mutex_lock(&lock);
    gp_op("close", "log");
    is_open = 0;
    pthread_mutex_unlock(&lock);
}

int main(void) {
    pthread_t thread;
    pthread_create(&thread, NULL, writer, NULL);
#ifdef MENDED
    pthread_join(thread, NULL);
    close_log();
#else
    close_log();
    pthread_join(thread, NULL);
#endif
    printf("%d lines\n", lines);
    return 0;
}
