/* The threads and locks of <threads.h>, locks with a time limit, a semaphore that is tried, and a read of a 128-bit number. */
#include <errno.h>
#include <pthread.h>
#include <semaphore.h>
#include <stdio.h>
#include <threads.h>
#include <time.h>

static mtx_t lock;
static cnd_t changed;
static pthread_mutex_t timed = PTHREAD_MUTEX_INITIALIZER;
static sem_t places;
static int stage, kept, refused;
static __int128 wide;

static struct timespec soon(void) {
    struct timespec limit;
    clock_gettime(CLOCK_REALTIME, &limit);
    limit.tv_nsec += 1000000;
    if (limit.tv_nsec >= 1000000000) limit = (struct timespec){limit.tv_sec + 1, 0};
    return limit;
}

static int other(void *none) {
    (void)none;
    struct timespec limit = soon();
    if (pthread_mutex_timedlock(&timed, &limit) == ETIMEDOUT) refused++;
    while (sem_trywait(&places)) thrd_yield();
    __atomic_fetch_add(&wide, 1, __ATOMIC_SEQ_CST);
    mtx_lock(&lock);
    stage = 1;
    cnd_signal(&changed);
    mtx_unlock(&lock);
    return 7;
}

int main(void) {
    thrd_t thread;
    int result;
    mtx_init(&lock, mtx_plain);
    cnd_init(&changed);
    sem_init(&places, 0, 0);
    pthread_mutex_lock(&timed);
    thrd_create(&thread, other, NULL);
    kept = 5;
    sem_post(&places);
    mtx_lock(&lock);
    while (!stage) cnd_wait(&changed, &lock);
    mtx_unlock(&lock);
    pthread_mutex_unlock(&timed);
    thrd_join(thread, &result);
    printf("%d %d %d %d\n", result, kept, refused, (int)wide);
    mtx_destroy(&lock);
    return 0;
}
