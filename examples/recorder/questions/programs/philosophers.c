/* Three philosophers take the left fork first; those of the mended table take the lesser one first. */
#include <pthread.h>
#include <stdio.h>

enum { PHILOSOPHERS = 3 };

static pthread_mutex_t fork_of[PHILOSOPHERS] = {PTHREAD_MUTEX_INITIALIZER, PTHREAD_MUTEX_INITIALIZER, PTHREAD_MUTEX_INITIALIZER};
static pthread_mutex_t door = PTHREAD_MUTEX_INITIALIZER;
static int places[PHILOSOPHERS] = {0, 1, 2}, meals;

static void *philosopher(void *place) {
    int left = *(const int *)place, right = (left + 1) % PHILOSOPHERS;
#ifdef MENDED
    int lesser = left < right ? left : right;
    right = left + right - lesser;
    left = lesser;
#endif
    pthread_mutex_lock(&door);
    meals++;
    pthread_mutex_unlock(&door);
    pthread_mutex_lock(&fork_of[left]);
    pthread_mutex_lock(&fork_of[right]);
    pthread_mutex_unlock(&fork_of[right]);
    pthread_mutex_unlock(&fork_of[left]);
    return NULL;
}

int main(void) {
    pthread_t threads[PHILOSOPHERS];
    for (int i = 0; i < PHILOSOPHERS; i++) pthread_create(&threads[i], NULL, philosopher, &places[i]);
    for (int i = 0; i < PHILOSOPHERS; i++) pthread_join(threads[i], NULL);
    printf("%d meals\n", meals);
    return 0;
}
