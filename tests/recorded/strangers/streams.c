/* The lock of a stream guards plain data: it is taken again by who has it, tried, and waited for. What lies outside of it
 * is a race, also beside a call that takes the lock for itself. */
#include <pthread.h>
#include <sched.h>
#include <stdio.h>
#include <stdlib.h>
static FILE *out;
static int lines, words, beside;

static void says(int k) {
    flockfile(out);
    lines++;
    flockfile(out);
    words += 2;
    funlockfile(out);
    if (fprintf(out, "%d %d\n", lines, words) < 4) abort();
    words += k;
    funlockfile(out);
    while (ftrylockfile(out)) sched_yield();
    putc_unlocked('\n', out);
    lines++;
    funlockfile(out);
}

static void *work(void *p) {
    for (int k = 0; k < 3; k++) {
        says(k);
        fputs("beside\n", out);
        beside++; /* RACE */
    }
    return p;
}

int main(void) {
    pthread_t a, b;
    out = fopen("/dev/null", "w");
    if (!out || pthread_create(&a, NULL, work, NULL) || pthread_create(&b, NULL, work, NULL)) abort();
    pthread_join(a, NULL), pthread_join(b, NULL);
    printf("%d %d\n", lines, words);
    return fclose(out);
}
