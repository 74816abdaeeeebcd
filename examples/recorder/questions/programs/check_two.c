/* A guest looks whether the door is open, and comes in, in another section; the door may be shut in between. */
#include <pthread.h>
#include <stdio.h>

static pthread_mutex_t lock = PTHREAD_MUTEX_INITIALIZER;
static int is_open = 1, inside;

static void *guest(void *none) {
    pthread_mutex_lock(&lock);
    int may = is_open;
#ifndef MENDED
    pthread_mutex_unlock(&lock);
    pthread_mutex_lock(&lock);
#endif
    if (may) inside = 1;
    pthread_mutex_unlock(&lock);
    return none;
}

static int count(void) {
    pthread_mutex_lock(&lock);
    int found = inside;
    pthread_mutex_unlock(&lock);
    return found;
}

int main(void) {
    pthread_t thread;
    pthread_create(&thread, NULL, guest, NULL);
    pthread_mutex_lock(&lock);
    is_open = 0;
    pthread_mutex_unlock(&lock);
    pthread_join(thread, NULL);
    printf("%d inside\n", count());
    return 0;
}
