/* A hundred threads, one after another, each tenth of which adds to a number. */
#include <pthread.h>
#include <stdio.h>

static int count;

static void *worker(void *adds) {
    if (adds) count++;
    return NULL;
}

int main(void) {
    for (int i = 0; i < 100; i++) {
        pthread_t thread;
        pthread_create(&thread, NULL, worker, i % 10 ? NULL : &count);
        pthread_join(thread, NULL);
    }
    printf("%d\n", count);
    return 0;
}
