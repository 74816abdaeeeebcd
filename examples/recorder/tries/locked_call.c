/* A library: it calls a function while it holds a lock of its own. */
#include <pthread.h>

void locked_call(void (*function)(void));

static pthread_mutex_t lock = PTHREAD_MUTEX_INITIALIZER;

void locked_call(void (*function)(void)) {
    pthread_mutex_lock(&lock);
    function();
    pthread_mutex_unlock(&lock);
}
