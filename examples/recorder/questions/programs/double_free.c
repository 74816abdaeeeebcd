/* Who drops the block frees it where it is still there, and says that it is not any more. */
#include <pthread.h>
#include <stdio.h>
#include <stdlib.h>

#include "gprecord.h"

static pthread_mutex_t lock = PTHREAD_MUTEX_INITIALIZER;
static int *block;

#ifdef MENDED
static void take(void) { pthread_mutex_lock(&lock); }
static void give(void) { pthread_mutex_unlock(&lock); }
#else
static void take(void) { (void)lock; }
static void give(void) {}
#endif

static void *drop(void *none) {
    take();
    gp_begin("drop");
    if (block) {
        free(block);
        block = NULL;
    }
    gp_end("drop");
    give();
    return none;
}

static void *fill(void *none) {
    take();
    if (block) *block = 1;
    give();
    return none;
}

int main(void) {
    block = malloc(64);
    pthread_t threads[3];
    pthread_create(&threads[0], NULL, fill, NULL);
    pthread_join(threads[0], NULL);
    for (int i = 1; i < 3; i++) pthread_create(&threads[i], NULL, drop, NULL);
    for (int i = 1; i < 3; i++) pthread_join(threads[i], NULL);
    puts("dropped");
    return 0;
}
