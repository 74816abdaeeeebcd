/* A thread reads and writes the same bytes in parts of many sizes and orders, and then another one does; what each finds
 * is what was left there. */
#include <pthread.h>
#include <stdio.h>

enum { CELLS = 64, STEPS = 4000 };

static volatile union {
    long all;
    int halves[2];
    short quarters[4];
    char bytes[8];
} cells[CELLS];
static pthread_mutex_t lock = PTHREAD_MUTEX_INITIALIZER;
static int turns;

static unsigned drawn = 1;
static unsigned draw(unsigned below) {
    drawn = drawn * 1664525 + 1013904223;
    return (drawn >> 16) % below;
}

static long touch(unsigned cell, unsigned part, unsigned size, int adds) {
    switch (size) {
    case 0: return cells[cell].bytes[part] = (char)(cells[cell].bytes[part] + adds);
    case 1: return adds ? (cells[cell].quarters[part % 4] = (short)adds) : cells[cell].quarters[part % 4];
    case 2: return adds ? (cells[cell].halves[part % 2] += adds) : cells[cell].halves[part % 2];
    default: return adds ? (cells[cell].all = adds) : cells[cell].all;
    }
}

static void *worker(void *sum) {
    pthread_mutex_lock(&lock);
    for (int i = 0; i < STEPS; i++) {
        *(long *)sum += touch(draw(CELLS), draw(8), draw(4), (int)draw(3));
        if (draw(500) == 0) {
            pthread_mutex_unlock(&lock);
            pthread_mutex_lock(&lock);
        }
    }
    turns++;
    pthread_mutex_unlock(&lock);
    return NULL;
}

int main(void) {
    static long sums[2];
    pthread_t threads[2];
    for (int i = 0; i < 2; i++) pthread_create(&threads[i], NULL, worker, &sums[i]);
    for (int i = 0; i < 2; i++) pthread_join(threads[i], NULL);
    printf("%d\n", turns);
    return 0;
}
