/* A thread looks without the lock whether it has to wait; the notify may come before it sleeps, and then it sleeps on. */
#include <pthread.h>
#include <stdio.h>

static pthread_mutex_t lock = PTHREAD_MUTEX_INITIALIZER;
static pthread_cond_t filled = PTHREAD_COND_INITIALIZER;
static int ready;

static void await_ready(void) {
#ifdef MENDED
    pthread_mutex_lock(&lock);
    while (!ready) pthread_cond_wait(&filled, &lock);
    pthread_mutex_unlock(&lock);
#else
    if (ready) return;
    pthread_mutex_lock(&lock);
    pthread_cond_wait(&filled, &lock);
    pthread_mutex_unlock(&lock);
#endif
}

static void *filler(void *none) {
    pthread_mutex_lock(&lock);
    ready = 1;
    pthread_cond_signal(&filled);
    pthread_mutex_unlock(&lock);
    return none;
}

int main(void) {
    pthread_t thread;
    pthread_create(&thread, NULL, filler, NULL);
    await_ready();
    pthread_join(thread, NULL);
    puts("ready");
    return 0;
}
