/* A thread looks at a number, waits for the one that sets it, and adds to what it reads then: so the write rests on the second look. */
#include <pthread.h>
#include <stdio.h>

static pthread_mutex_t lock = PTHREAD_MUTEX_INITIALIZER;
static int number;

static void *set(void *none) {
    pthread_mutex_lock(&lock);
    number = 5;
    pthread_mutex_unlock(&lock);
    return none;
}

int main(void) {
    pthread_t thread;
    pthread_create(&thread, NULL, set, NULL);
    pthread_mutex_lock(&lock);
    int before = number;
    pthread_mutex_unlock(&lock);
    pthread_join(thread, NULL);
    pthread_mutex_lock(&lock);
    number = number + 1;
    pthread_mutex_unlock(&lock);
    printf("%d, then %d\n", before, number);
    return 0;
}
