/* A thread reads a number in a block that another one gave it, and makes a block of its own. The giver frees the block
 * when the reader has told that it is done, under the lock; where EARLY says so, without asking. The kernel gives the new
 * block the address of the old one. */
#include <malloc.h>
#include <pthread.h>
#include <stdio.h>
#include <stdlib.h>

enum { SIZE = 1 << 20 };

static pthread_mutex_t lock = PTHREAD_MUTEX_INITIALIZER;
static int *given, done, freed, seen;

static int load(const int *from) {
    pthread_mutex_lock(&lock);
    int now = *from;
    pthread_mutex_unlock(&lock);
    return now;
}

static void tell(int *to) {
    pthread_mutex_lock(&lock);
    *to = 1;
    pthread_mutex_unlock(&lock);
}

static void *reader(void *block) {
    seen = *(int *)block;
    tell(&done);
    while (!load(&freed)) {
    }
    int *again = malloc(SIZE);
    *again = again == block ? 7 : 8;
    return again;
}

int main(void) {
    pthread_t thread;
    mallopt(M_MMAP_THRESHOLD, SIZE / 2);
    int *block = malloc(SIZE), *again;
    *block = 1;
    given = block;
    pthread_create(&thread, NULL, reader, given);
    while (!EARLY && !load(&done)) {
    }
    free(block);
    tell(&freed);
    pthread_join(thread, (void **)&again);
    printf("%d %d\n", seen, *again);
    free(again);
    return 0;
}
