/* A thread asks a hundred times whether another one is done, which works for a while and sleeps. */
#include <pthread.h>
#include <stdio.h>
#include <unistd.h>

static pthread_mutex_t lock = PTHREAD_MUTEX_INITIALIZER;
static int done;

static int is_done(void) {
    pthread_mutex_lock(&lock);
    int now = done;
    pthread_mutex_unlock(&lock);
    return now;
}

static void *worker(void *none) {
    usleep(200000);
    pthread_mutex_lock(&lock);
    done = 1;
    pthread_mutex_unlock(&lock);
    return none;
}

int main(void) {
    pthread_t thread;
    pthread_create(&thread, NULL, worker, NULL);
    while (!is_done()) usleep(1000);
    pthread_join(thread, NULL);
    printf("done\n");
    return 0;
}
