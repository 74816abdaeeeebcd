/* What a thread waits for is changed without the condition's lock, so also between its look and its sleep. */
#include <pthread.h>
#include <stdio.h>

static pthread_mutex_t lock = PTHREAD_MUTEX_INITIALIZER;
static pthread_cond_t filled = PTHREAD_COND_INITIALIZER;
static int ready;

static void *filler(void *none) {
#ifdef MENDED
    pthread_mutex_lock(&lock);
#endif
    ready = 1;
    pthread_cond_signal(&filled);
#ifdef MENDED
    pthread_mutex_unlock(&lock);
#endif
    return none;
}

int main(void) {
    pthread_t thread;
    pthread_create(&thread, NULL, filler, NULL);
    pthread_mutex_lock(&lock);
    while (!ready) pthread_cond_wait(&filled, &lock);
    pthread_mutex_unlock(&lock);
    pthread_join(thread, NULL);
    puts("ready");
    return 0;
}
