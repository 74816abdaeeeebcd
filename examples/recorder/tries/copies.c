/* Two threads copy into one buffer, with nothing between them. */
#include <pthread.h>
#include <stdio.h>
#include <string.h>

static char buffer[16];
static volatile size_t length = 8;

static void *copier(void *text) {
    memcpy(buffer, text, length);
    return NULL;
}

int main(void) {
    static char one[] = "onceonce", two[] = "twotwice";
    pthread_t threads[2];
    pthread_create(&threads[0], NULL, copier, one);
    pthread_create(&threads[1], NULL, copier, two);
    for (int i = 0; i < 2; i++) pthread_join(threads[i], NULL);
    printf("%zu\n", strlen(buffer));
    return 0;
}
