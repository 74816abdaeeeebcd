/* A thread is asked to end by a call that the recorder does not know. */
#include <pthread.h>
#include <unistd.h>

static int steps;

static void *worker(void *none) {
    for (;;) {
        steps++;
        usleep(1000);
    }
    return none;
}

int main(void) {
    pthread_t thread;
    pthread_create(&thread, NULL, worker, NULL);
    usleep(10000);
    steps++;
    pthread_cancel(thread);
    pthread_join(thread, NULL);
    return 0;
}
