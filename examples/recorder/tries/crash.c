/* A thread writes to where nothing is. */
#include <pthread.h>

static int steps;
static int *volatile nowhere;

static void *worker(void *none) {
    steps++;
    *nowhere = steps;
    return none;
}

int main(void) {
    pthread_t thread;
    pthread_create(&thread, NULL, worker, NULL);
    steps++;
    pthread_join(thread, NULL);
    return 0;
}
