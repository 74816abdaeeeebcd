/* A worker reads a block that main frees before it has joined the worker. */
#include <pthread.h>
#include <stdio.h>
#include <stdlib.h>

static pthread_mutex_t lock = PTHREAD_MUTEX_INITIALIZER;
static int seen;

static void *worker(void *block) {
    pthread_mutex_lock(&lock);
    seen = *(int *)block;
    pthread_mutex_unlock(&lock);
    return NULL;
}

static int is_seen(void) {
    pthread_mutex_lock(&lock);
    int found = seen;
    pthread_mutex_unlock(&lock);
    return found;
}

int main(void) {
    int *block = malloc(64);
    if (!block) return 1;
    *block = 7;
    pthread_t thread;
    pthread_create(&thread, NULL, worker, block);
#ifdef MENDED
    pthread_join(thread, NULL);
    free(block);
#else
    free(block);
    pthread_join(thread, NULL);
#endif
    printf("seen %d\n", is_seen());
    return seen != 7;
}
