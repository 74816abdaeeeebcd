/* Three philosophers at a round table, each of whom takes the left fork first.
 *
 * Where all three hold their left fork, none of them comes to eat. Most runs end well. */
#include <pthread.h>
#include <stdio.h>

#include "gprecord.h"

enum { PHILOSOPHERS = 3, MEALS = 2 };

static pthread_mutex_t fork_of[PHILOSOPHERS];
static int eaten[PHILOSOPHERS];

static void eat(int place) {
    pthread_mutex_t *left = &fork_of[place], *right = &fork_of[(place + 1) % PHILOSOPHERS];
    pthread_mutex_lock(left);
    gp_op("left", gp_nth("p", place));
    pthread_mutex_lock(right);
    gp_op("eat", gp_nth("p", place));
    eaten[place]++;
    pthread_mutex_unlock(right);
    pthread_mutex_unlock(left);
}

static void *philosopher(void *place) {
    for (int i = 0; i < MEALS; i++) eat(*(const int *)place);
    return NULL;
}

int main(void) {
    static int places[PHILOSOPHERS];
    pthread_t threads[PHILOSOPHERS];
    for (int i = 0; i < PHILOSOPHERS; i++) pthread_mutex_init(&fork_of[i], NULL);
    for (int i = 0; i < PHILOSOPHERS; i++) {
        places[i] = i;
        pthread_create(&threads[i], NULL, philosopher, &places[i]);
    }
    int meals = 0;
    for (int i = 0; i < PHILOSOPHERS; i++) {
        pthread_join(threads[i], NULL);
        meals += eaten[i];
    }
    printf("%d meals\n", meals);
    return 0;
}
