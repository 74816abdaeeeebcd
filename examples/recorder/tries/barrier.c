/* Three threads each write a cell, meet at a barrier, and read the next one's; twice. No two accesses to a cell, one of
 * them a write, can stand side by side. */
#include <pthread.h>
#include <stdio.h>

enum { THREADS = 3, ROUNDS = 2 };

static pthread_barrier_t barrier;
static int cell[THREADS], sum[THREADS];

static void *worker(void *place) {
    int own = *(int *)place;
    for (int round = 1; round <= ROUNDS; round++) {
        cell[own] = 10 * round + own;
        pthread_barrier_wait(&barrier);
        sum[own] += cell[(own + 1) % THREADS];
        pthread_barrier_wait(&barrier);
    }
    return NULL;
}

int main(void) {
    static int places[THREADS] = {0, 1, 2};
    pthread_t threads[THREADS];
    pthread_barrier_init(&barrier, NULL, THREADS);
    for (int i = 0; i < THREADS; i++) pthread_create(&threads[i], NULL, worker, &places[i]);
    for (int i = 0; i < THREADS; i++) pthread_join(threads[i], NULL);
    pthread_barrier_destroy(&barrier);
    printf("%d\n", sum[0] + sum[1] + sum[2]);
    return 0;
}
