/* Signals come to a thread while it works, and to one that waits for its end. */
#include <pthread.h>
#include <signal.h>
#include <stdatomic.h>
#include <stdio.h>

static atomic_int caught;
static int work[64];
static pthread_t root;

static void on_signal(int signal) { caught += signal == SIGUSR1; }

static void *worker(void *none) {
    for (int i = 0; i < 64; i++) {
        work[i] = i;
        if (i % 8 == 0) pthread_kill(i % 16 ? root : pthread_self(), SIGUSR1);
    }
    while (caught < 2) {
    }
    return none;
}

int main(void) {
    struct sigaction action = {.sa_handler = on_signal};
    sigaction(SIGUSR1, &action, NULL);
    root = pthread_self();
    pthread_t thread;
    pthread_create(&thread, NULL, worker, NULL);
    pthread_join(thread, NULL);
    printf("%d\n", caught >= 2);
    return 0;
}
