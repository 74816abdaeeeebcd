/* A list is built anew: its length is 0 meanwhile. A reader should see the old list or the new one. */
#include <pthread.h>
#include <stdio.h>

static pthread_mutex_t lock = PTHREAD_MUTEX_INITIALIZER;
static int length, items[3];

static void *rebuild(void *none) {
    pthread_mutex_lock(&lock);
    length = 0;
#ifndef MENDED
    pthread_mutex_unlock(&lock);
    pthread_mutex_lock(&lock);
#endif
    for (int i = 0; i < 3; i++) items[i] = i + 1;
    length = 3;
    pthread_mutex_unlock(&lock);
    return none;
}

int main(void) {
    pthread_t thread;
    pthread_create(&thread, NULL, rebuild, NULL);
    pthread_mutex_lock(&lock);
    int found = length;
    pthread_mutex_unlock(&lock);
    pthread_join(thread, NULL);
    printf("%d items\n", found);
    return 0;
}
