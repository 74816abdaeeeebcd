/* One thread takes a lock and another one gives it back; so the recorder leaves the lock out. */
#include <pthread.h>
#include <semaphore.h>
#include <stdio.h>

static pthread_mutex_t lock = PTHREAD_MUTEX_INITIALIZER;
static sem_t taken;
static int number;

static void *give(void *none) {
    sem_wait(&taken);
    number = 1;
    pthread_mutex_unlock(&lock);
    return none;
}

int main(void) {
    pthread_t thread;
    sem_init(&taken, 0, 0);
    pthread_create(&thread, NULL, give, NULL);
    pthread_mutex_lock(&lock);
    sem_post(&taken);
    pthread_join(thread, NULL);
    printf("%d\n", number);
    return 0;
}
