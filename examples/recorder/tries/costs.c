/* What an access costs: to cells that nobody else touches, and to cells that two threads touch. */
#include <pthread.h>
#include <stdio.h>
#include <stdlib.h>
#include <time.h>

enum { CELLS = 1 << 18, ROUNDS = 1 << 22, TOGETHER = 1 << 18, SHARED = 64 };

static long shared[SHARED];

static double nanoseconds(void) {
    struct timespec now;
    clock_gettime(CLOCK_MONOTONIC, &now);
    return (double)now.tv_sec * 1e9 + (double)now.tv_nsec;
}

static void *alone(void *none) {
    long *cells = calloc(CELLS, sizeof *cells);
    if (!cells) return none;
    for (int i = 0; i < CELLS; i++) cells[i] = i;
    double begin = nanoseconds();
    unsigned at = 1;
    for (int i = 0; i < ROUNDS; i++) {
        at = at * 1664525 + 1013904223;
        cells[at % CELLS] += i;
    }
    double middle = nanoseconds();
    for (int round = 0; round < ROUNDS / CELLS; round++)
        for (int i = 0; i < CELLS; i++) cells[i]++;
    double end = nanoseconds();
    printf("random %.0f\nrow %.0f\n", (middle - begin) / (2.0 * ROUNDS), (end - middle) / (2.0 * ROUNDS));
    free(cells);
    return none;
}

static void *together(void *none) {
    for (int i = 0; i < TOGETHER; i++) shared[i % SHARED]++;
    return none;
}

int main(void) {
    pthread_t thread, other;
    pthread_create(&thread, NULL, alone, NULL);
    pthread_join(thread, NULL);
    double begin = nanoseconds();
    pthread_create(&thread, NULL, together, NULL);
    pthread_create(&other, NULL, together, NULL);
    pthread_join(thread, NULL);
    pthread_join(other, NULL);
    printf("shared %.0f\n", (nanoseconds() - begin) / (4.0 * TOGETHER));
    return 0;
}
