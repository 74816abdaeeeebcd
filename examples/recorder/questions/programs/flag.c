/* A flag says that the data are there, and nothing keeps who looks at it from who sets it. */
#include <pthread.h>
#include <stdio.h>

static pthread_mutex_t lock = PTHREAD_MUTEX_INITIALIZER;
static int ready, data;

#ifdef MENDED
static void take(void) { pthread_mutex_lock(&lock); }
static void give(void) { pthread_mutex_unlock(&lock); }
#else
static void take(void) { (void)lock; }
static void give(void) {}
#endif

static void *publisher(void *none) {
    take();
    data = 7;
    ready = 1;
    give();
    return none;
}

int main(void) {
    pthread_t thread;
    pthread_create(&thread, NULL, publisher, NULL);
    take();
    int found = ready ? data : 0;
    give();
    pthread_join(thread, NULL);
    printf("found %d\n", found);
    return 0;
}
