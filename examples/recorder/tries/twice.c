/* Two files have a variable of one name each; two threads touch both. */
#include <pthread.h>
#include <stdio.h>

void change(int i);

static int number;
static pthread_mutex_t lock = PTHREAD_MUTEX_INITIALIZER;

static void *worker(void *none) {
    pthread_mutex_lock(&lock);
    number++;
    change(1);
    pthread_mutex_unlock(&lock);
    return none;
}

int main(void) {
    pthread_t thread;
    pthread_create(&thread, NULL, worker, NULL);
    worker(NULL);
    pthread_join(thread, NULL);
    printf("%d\n", number);
    return 0;
}
