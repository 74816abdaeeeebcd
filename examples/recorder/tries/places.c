/* Blocks are made at three places in a loop, of which the first two put them into variables that say of what type they
 * are; two threads touch them. */
#include <pthread.h>
#include <stdio.h>
#include <stdlib.h>

enum { BLOCKS = 3 };

struct node {
    long key, value;
};

struct node *nodes[BLOCKS];
short *rows[BLOCKS];
void *others[BLOCKS];
static pthread_mutex_t lock = PTHREAD_MUTEX_INITIALIZER;

__attribute__((noinline)) static void *make_other(void) {
    return calloc(1, 32);
}

static void make(int i) {
    struct node *node = malloc(sizeof *node);
    node->value = i;
    nodes[i] = node;
    short *row = calloc(4, sizeof *row);
    row[1] = 1;
    rows[i] = row;
    others[i] = make_other();
}

static void *worker(void *none) {
    for (int i = 0; i < BLOCKS; i++) {
        pthread_mutex_lock(&lock);
        nodes[i]->value++;
        rows[i][2]++;
        ((long *)others[i])[1]++;
        pthread_mutex_unlock(&lock);
    }
    return none;
}

int main(void) {
    pthread_t thread;
    for (int i = 0; i < BLOCKS; i++) make(i);
    pthread_create(&thread, NULL, worker, NULL);
    worker(NULL);
    pthread_join(thread, NULL);
    printf("%ld\n", nodes[2]->value);
    return 0;
}
