/* A reader takes two looks at the version, and thinks that nothing changed as both find 0. The writer puts it back. */
#include <pthread.h>
#include <stdio.h>

static pthread_mutex_t lock = PTHREAD_MUTEX_INITIALIZER;
static volatile int version, number;

static void set(volatile int *place, int value) {
    pthread_mutex_lock(&lock);
    *place = value;
    pthread_mutex_unlock(&lock);
}

static void *writer(void *none) {
    set(&version, 1);
    set(&number, 5);
    set(&version, 0);
    return none;
}

static void next_section(void) {
#ifndef MENDED
    pthread_mutex_unlock(&lock);
    pthread_mutex_lock(&lock);
#endif
}

int main(void) {
    pthread_t thread;
    pthread_create(&thread, NULL, writer, NULL);
    pthread_mutex_lock(&lock);
    int before = version;
    next_section();
    int found = number;
    next_section();
    int behind = version;
    pthread_mutex_unlock(&lock);
    pthread_join(thread, NULL);
    printf("%d, %s\n", found, before == behind ? "sure" : "unsure");
    return 0;
}
