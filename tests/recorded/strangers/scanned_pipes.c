/* Threads that talk through streams of pipes by formats, by whole lines, and by a call that flushes all streams. What
 * follows a message comes after what precedes it. Nobody reads a stream while all are flushed: that would wait for it. */
#define _GNU_SOURCE
#include <pthread.h>
#include <stdio.h>
#include <stdlib.h>
#include <unistd.h>
static FILE *questions[2], *answers[2];
static int before_all, before_number, before_words, before_line, before_input, by_all, by_number, by_words, by_line, heard, after;
static char *line;
static size_t room;

static void opens(FILE *two[2], int reads_input) {
    int ends[2];
    if (pipe(ends)) abort();
    if (reads_input) dup2(ends[0], 0), close(ends[0]);
    two[0] = reads_input ? stdin : fdopen(ends[0], "r"), two[1] = fdopen(ends[1], "w");
}

static void *asks(void *p) {
    FILE *to = questions[1];
    int number = 0;
    before_all = 1, fputs("all", to), fflush(NULL);
    if (write(fileno(to), "g", 1) != 1 || read(0, &number, 1) != 1) abort();
    before_number = by_all, fprintf(to, "%d\n", 12), fflush(to);
    if (scanf("%d", &number) != 1 || number != 13) abort();
    before_words = by_number, fputs("two words\n", to), fflush(to);
    if (scanf("%d", &number) != 1 || number != 14) abort();
    before_line = by_words, fputs("a line\n", to), fflush(to);
    if (scanf("%d", &number) != 1 || number != 15) abort();
    before_input = by_line;
    after = 1; /* RACE */
    return p;
}

static void *hears(void *p) {
    FILE *from = questions[0], *to = answers[1];
    char first[8], second[8];
    if (read(fileno(from), first, 3) != 3) abort();
    by_all = before_all;
    if (read(fileno(from), first, 1) != 1 || write(fileno(to), "k", 1) != 1) abort();
    if (fscanf(from, "%d", &heard) != 1 || heard != 12) abort();
    by_number = before_number, fprintf(to, "%d\n", 13), fflush(to);
    if (fscanf(from, "%7s%7s%*c", first, second) != 2) abort();
    by_words = before_words, fprintf(to, "%d\n", 14), fflush(to);
    if (getline(&line, &room, from) != 7) abort();
    by_line = before_line, fprintf(to, "%d\n", 15), fclose(to);
    printf("%s %s %s", first, second, line);
    return after ? p : NULL; /* RACE */
}

int main(void) {
    pthread_t a, b;
    opens(questions, 0), opens(answers, 1);
    if (pthread_create(&a, NULL, hears, NULL) || pthread_create(&b, NULL, asks, NULL)) abort();
    pthread_join(a, NULL), pthread_join(b, NULL);
    return before_input ? 0 : 1;
}
