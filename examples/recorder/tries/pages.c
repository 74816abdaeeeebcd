/* Two threads write to pages of their own, which then are gone, or may not be read; and to one that they share. */
#include <pthread.h>
#include <stdio.h>
#include <sys/mman.h>

enum { ROUNDS = 3, SIZE = 4096 };

static int *volatile shared;
static pthread_mutex_t lock = PTHREAD_MUTEX_INITIALIZER;

static int *new_page(void) {
    return mmap(NULL, SIZE, PROT_READ | PROT_WRITE, MAP_PRIVATE | MAP_ANONYMOUS, -1, 0);
}

static void *worker(void *none) {
    for (int i = 0; i < ROUNDS; i++) {
        int *gone = new_page(), *hidden = new_page();
        *gone = i;
        munmap(gone, SIZE);
        *hidden = i;
        mprotect(hidden, SIZE, PROT_NONE);
        pthread_mutex_lock(&lock);
        ++*shared;
        pthread_mutex_unlock(&lock);
        munmap(hidden, SIZE);
    }
    return none;
}

int main(void) {
    pthread_t threads[2];
    shared = new_page();
    for (int i = 0; i < 2; i++) pthread_create(&threads[i], NULL, worker, NULL);
    for (int i = 0; i < 2; i++) pthread_join(threads[i], NULL);
    printf("%d\n", *shared);
    return munmap(shared, SIZE);
}
