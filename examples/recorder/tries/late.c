/* Two threads count for a while, and then change a number that was 7 until then. */
#include <pthread.h>
#include <stdio.h>

static pthread_mutex_t lock = PTHREAD_MUTEX_INITIALIZER;
static int count, late = 7;

static void *work(void *none) {
    for (int round = 0; round < 20; round++) {
        pthread_mutex_lock(&lock);
        count++;
        if (count > 35) late++;
        pthread_mutex_unlock(&lock);
    }
    return none;
}

int main(void) {
    pthread_t threads[2];
    for (int i = 0; i < 2; i++) pthread_create(&threads[i], NULL, work, NULL);
    for (int i = 0; i < 2; i++) pthread_join(threads[i], NULL);
    printf("%d %d\n", count, late);
    return 0;
}
