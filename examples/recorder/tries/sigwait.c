/* A thread waits in sigwait for another one, which has left something for it before. */
#include <pthread.h>
#include <signal.h>
#include <stdio.h>

static int left;
static sigset_t set;

static void *waiter(void *sum) {
    int signal;
    for (int i = 0; i < 2; i++) {
        sigwait(&set, &signal);
        *(int *)sum += left;
    }
    return NULL;
}

int main(void) {
    static int sum;
    sigemptyset(&set);
    sigaddset(&set, SIGUSR1);
    sigaddset(&set, SIGUSR2);
    pthread_sigmask(SIG_BLOCK, &set, NULL);
    pthread_t thread;
    pthread_create(&thread, NULL, waiter, &sum);
    left = 20;
    pthread_kill(thread, SIGUSR1);
    left = 22;
    pthread_kill(thread, SIGUSR2);
    pthread_join(thread, NULL);
    printf("%d\n", sum);
    return 0;
}
