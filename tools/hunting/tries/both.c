/* Two threads write one number in two functions without a lock. */
#include <pthread.h>
#include <stdio.h>

static int number;

static void *put_one(void *none) {
    number = 1;
    return none;
}

static void *put_two(void *none) {
    number = 2;
    return none;
}

int main(void) {
    pthread_t threads[2];
    pthread_create(&threads[0], NULL, put_one, NULL);
    pthread_create(&threads[1], NULL, put_two, NULL);
    for (int i = 0; i < 2; i++) pthread_join(threads[i], NULL);
    printf("%d\n", number);
    return 0;
}
