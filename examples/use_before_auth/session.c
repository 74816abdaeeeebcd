/* Thread 1 starts thread 2 and authorises it for r. Thread 2 uses r, and waits for nothing. */
#include <pthread.h>

void authorise(char object);
void use(char object);

static void *work(void *nothing) {
    use('r');
    return nothing;
}

int main(void) {
    pthread_t other;
    pthread_create(&other, NULL, work, NULL);
    authorise('r');
    return pthread_join(other, NULL);
}
