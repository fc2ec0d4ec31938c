/* A thread waits for what no hook sees sent, while another thread runs again and again until that thread goes on. */
#define _GNU_SOURCE
#include <pthread.h>
#include <sched.h>
#include <stdatomic.h>
#include <stdio.h>
#include <stdlib.h>
#include <sys/syscall.h>
#include <unistd.h>
static int ends[2];
static atomic_int has_come;
static int both;

/* A write that is not a call, so that no hook sees it. */
static long unseen_write(int to, const char *text, long size) {
    long done;
    __asm__ volatile("syscall" : "=a"(done) : "a"(SYS_write), "D"(to), "S"(text), "d"(size) : "rcx", "r11", "memory");
    return done;
}

static void *hears(void *p) {
    char c;
    if (read(ends[0], &c, 1) != 1) abort();
    both++; /* RACE */
    has_come = c == 'x';
    return p;
}

int main(void) {
    pthread_t t;
    if (pipe(ends) || pthread_create(&t, NULL, hears, NULL)) abort();
    both++; /* RACE */
    sched_yield();
    if (unseen_write(ends[1], "x", 1) != 1) abort();
    while (!has_come) usleep(5000);
    pthread_join(t, NULL);
    printf("%d\n", both);
    return 0;
}
