/* A thread has done its work, and two wait for what never comes. */
#include <pthread.h>
#include <stdio.h>
#include <unistd.h>

static pthread_mutex_t lock = PTHREAD_MUTEX_INITIALIZER;
static int steps, ends[2];

static void *worker(void *none) {
    char byte;
    for (int i = 0; i < 5; i++) {
        pthread_mutex_lock(&lock);
        steps++;
        pthread_mutex_unlock(&lock);
    }
    return read(ends[0], &byte, 1) == 1 ? NULL : none;
}

int main(void) {
    pthread_t thread;
    if (pipe(ends)) return 1;
    pthread_create(&thread, NULL, worker, NULL);
    for (int i = 0; i < 5; i++) {
        pthread_mutex_lock(&lock);
        steps++;
        pthread_mutex_unlock(&lock);
    }
    pause();
    return 0;
}
