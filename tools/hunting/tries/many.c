/* Two threads add to a number under a lock, as often as the first word says. */
#include <pthread.h>
#include <stdio.h>
#include <stdlib.h>

static pthread_mutex_t lock = PTHREAD_MUTEX_INITIALIZER;
static int number, times;

static void *add(void *none) {
    for (int i = 0; i < times; i++) {
        pthread_mutex_lock(&lock);
        number++;
        pthread_mutex_unlock(&lock);
    }
    return none;
}

int main(int count, char **words) {
    times = count > 1 ? atoi(words[1]) : 1;
    pthread_t threads[2];
    for (int i = 0; i < 2; i++) pthread_create(&threads[i], NULL, add, NULL);
    for (int i = 0; i < 2; i++) pthread_join(threads[i], NULL);
    printf("%d\n", number);
    return 0;
}
