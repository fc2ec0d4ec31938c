/* How a thread ends its process, by the word that is given. */
#include <pthread.h>
#include <signal.h>
#include <stdio.h>
#include <stdlib.h>
#include <string.h>
#include <unistd.h>
static const char *how;
static volatile int racy;
static void bye(void) { write(1, "bye\n", 4); }
static void *work(void *p) {
    racy++; /* RACE */
    if (!strcmp(how, "exit")) exit(5);
    if (!strcmp(how, "quick")) quick_exit(6);
    if (!strcmp(how, "under")) _exit(7);
    if (!strcmp(how, "abort")) abort();
    if (!strcmp(how, "crash")) *(volatile int *)8 = 1;
    if (!strcmp(how, "kill")) kill(getpid(), SIGTERM);
    if (!strcmp(how, "raise")) raise(SIGUSR1);
    if (!strcmp(how, "trap")) __builtin_trap();
    for (;;) pause();
    return p;
}
static void *waits(void *p) {
    racy++; /* RACE */
    for (;;) pause();
    return p;
}
int main(int count, char **words) {
    pthread_t t[2];
    how = count > 1 ? words[1] : "exit";
    atexit(bye), at_quick_exit(bye);
    pthread_create(&t[0], NULL, waits, NULL);
    pthread_create(&t[1], NULL, work, NULL);
    if (!strcmp(how, "main")) pthread_exit(NULL);
    pthread_join(t[1], NULL);
    return 0;
}
