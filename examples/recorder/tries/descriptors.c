/* Two threads each open and close a file: the kernel gives the second the number of the first. */
#include <fcntl.h>
#include <pthread.h>
#include <stdio.h>
#include <unistd.h>

#include "gprecord.h"

static void *user(void *none) {
    int file = open("/dev/null", O_RDONLY);
    gp_op("use", gp_nth("file", file));
    close(file);
    return none;
}

int main(void) {
    for (int i = 0; i < 2; i++) {
        pthread_t thread;
        pthread_create(&thread, NULL, user, NULL);
        pthread_join(thread, NULL);
    }
    printf("closed\n");
    return 0;
}
