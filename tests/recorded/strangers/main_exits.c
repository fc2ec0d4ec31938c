/* main ends by pthread_exit, and its threads go on. */
#include <pthread.h>
#include <stdio.h>
#include <unistd.h>
static int x;
static void *work(void *p) {
    usleep(2000);
    x++; /* RACE */
    puts("thread");
    return p;
}
static void __attribute__((destructor)) last(void) { puts("last"); }
int main(void) {
    pthread_t t;
    for (int k = 0; k < 2; k++) pthread_create(&t, NULL, work, NULL), pthread_detach(t);
    puts("main");
    fflush(stdout);
    pthread_exit(NULL);
}
