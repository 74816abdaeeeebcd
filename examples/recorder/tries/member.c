/* A thread waits until another one has changed a member of a variable on its stack, whose address it has left for it. */
#include <pthread.h>
#include <stdio.h>

struct waiter {
    int done;
    pthread_cond_t changed;
};

static struct waiter *volatile waiting;
static pthread_mutex_t lock = PTHREAD_MUTEX_INITIALIZER;

static void *worker(void *none) {
    pthread_mutex_lock(&lock);
    waiting->done = 1;
    pthread_cond_signal(&waiting->changed);
    pthread_mutex_unlock(&lock);
    return none;
}

int main(void) {
    struct waiter own = {0, PTHREAD_COND_INITIALIZER};
    pthread_t thread;
    waiting = &own;
    pthread_create(&thread, NULL, worker, NULL);
    pthread_mutex_lock(&lock);
    while (!own.done) pthread_cond_wait(&own.changed, &lock);
    pthread_mutex_unlock(&lock);
    pthread_join(thread, NULL);
    printf("%d\n", own.done);
    return 0;
}
