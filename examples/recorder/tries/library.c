/* Two threads add to a number, each time under the lock of a library. */
#include <pthread.h>
#include <stdio.h>

void locked_call(void (*function)(void));

static int number;

static void add(void) { number++; }

static void *worker(void *none) {
    for (int i = 0; i < 3; i++) locked_call(add);
    return none;
}

int main(void) {
    pthread_t threads[2];
    for (int i = 0; i < 2; i++) pthread_create(&threads[i], NULL, worker, NULL);
    for (int i = 0; i < 2; i++) pthread_join(threads[i], NULL);
    printf("%d\n", number);
    return 0;
}
