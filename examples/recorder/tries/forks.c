/* A process is made while two threads run; it takes the lock and ends with what it found, for which its parent waits. */
#include <pthread.h>
#include <stdio.h>
#include <sys/wait.h>
#include <unistd.h>

static pthread_mutex_t lock = PTHREAD_MUTEX_INITIALIZER;
static int number;

static void add(int times) {
    for (int i = 0; i < times; i++) {
        pthread_mutex_lock(&lock);
        number++;
        pthread_mutex_unlock(&lock);
    }
}

static void *worker(void *none) {
    add(5);
    return none;
}

int main(void) {
    pthread_t thread;
    int status;
    pthread_create(&thread, NULL, worker, NULL);
    pthread_mutex_lock(&lock);
    pid_t child = fork();
    if (!child) {
        pthread_mutex_unlock(&lock);
        add(100);
        _exit(number >= 100 ? 3 : 4);
    }
    pthread_mutex_unlock(&lock);
    waitpid(child, &status, 0);
    add(5);
    pthread_join(thread, NULL);
    printf("%d %d\n", number, WEXITSTATUS(status));
    return 0;
}
