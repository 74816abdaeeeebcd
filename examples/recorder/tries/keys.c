/* A thread's lock is given back when what the thread kept by a key is put away, at the thread's end. */
#include <pthread.h>
#include <stdio.h>

static pthread_mutex_t lock = PTHREAD_MUTEX_INITIALIZER;
static pthread_key_t key;
static int count;

static void put_away(void *held) {
    count++;
    pthread_mutex_unlock(held);
}

static void *worker(void *none) {
    pthread_mutex_lock(&lock);
    pthread_setspecific(key, &lock);
    return none;
}

int main(void) {
    pthread_t threads[3];
    pthread_key_create(&key, put_away);
    for (int i = 0; i < 3; i++) pthread_create(&threads[i], NULL, worker, NULL);
    for (int i = 0; i < 3; i++) pthread_join(threads[i], NULL);
    printf("%d\n", count);
    return 0;
}
