/* A thread waits by epoll for numbers that come through pipes, and adds them up under a lock. */
#include <pthread.h>
#include <stdio.h>
#include <sys/epoll.h>
#include <unistd.h>

enum { PIPES = 2, NUMBERS = 3 };

static int ends[PIPES][2], total;
static pthread_mutex_t lock = PTHREAD_MUTEX_INITIALIZER;

static void *server(void *none) {
    int events = epoll_create1(0);
    for (int i = 0; i < PIPES; i++) {
        struct epoll_event event = {.events = EPOLLIN, .data.fd = ends[i][0]};
        epoll_ctl(events, EPOLL_CTL_ADD, ends[i][0], &event);
    }
    for (int got = 0; got < PIPES * NUMBERS; got++) {
        struct epoll_event event;
        int number;
        epoll_wait(events, &event, 1, -1);
        if (read(event.data.fd, &number, sizeof number) != sizeof number) break;
        pthread_mutex_lock(&lock);
        total += number;
        pthread_mutex_unlock(&lock);
    }
    close(events);
    return none;
}

static void *client(void *end) {
    for (int i = 1; i <= NUMBERS; i++) {
        pthread_mutex_lock(&lock);
        int seen = total;
        pthread_mutex_unlock(&lock);
        if (write(*(int *)end, &i, sizeof i) != sizeof i || seen < 0) break;
    }
    return NULL;
}

int main(void) {
    pthread_t threads[PIPES + 1];
    for (int i = 0; i < PIPES; i++)
        if (pipe(ends[i])) return 1;
    pthread_create(&threads[PIPES], NULL, server, NULL);
    for (int i = 0; i < PIPES; i++) pthread_create(&threads[i], NULL, client, &ends[i][1]);
    for (int i = 0; i <= PIPES; i++) pthread_join(threads[i], NULL);
    printf("%d\n", total);
    return 0;
}
