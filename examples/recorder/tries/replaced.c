/* The program becomes another one while a thread runs. */
#include <pthread.h>
#include <unistd.h>

static int steps;

static void *worker(void *none) {
    steps++;
    return none;
}

int main(void) {
    pthread_t thread;
    pthread_create(&thread, NULL, worker, NULL);
    steps++;
    pthread_join(thread, NULL);
    execl("/bin/true", "true", (char *)NULL);
    return 1;
}
