/* Threads that talk through streams that fdopen made of pipes; what follows a message comes after what precedes it. */
#include <pthread.h>
#include <stdio.h>
#include <stdlib.h>
#include <unistd.h>
static FILE *questions[2], *answers[2];
static int before_put, before_text, before_print, before_write, before_close, by_char, by_line, by_text, after;

static void opens(FILE *two[2]) {
    int ends[2];
    if (pipe(ends)) abort();
    two[0] = fdopen(ends[0], "r"), two[1] = fdopen(ends[1], "w");
}

static void *asks(void *p) {
    FILE *to = questions[1];
    before_put = 1, fputc('a', to), fputs("bc\n", to), fflush(to);
    if (getc(answers[0]) != 'A') abort();
    before_text = by_char;
    fputs("text\n", to), fflush(to);
    char line[20];
    if (!fgets(line, sizeof line, answers[0])) abort();
    before_print = by_line;
    fprintf(to, "%s %d\n", "number", 7), fflush(to);
    if (fread(line, 1, 3, answers[0]) != 3) abort();
    before_write = by_text;
    setvbuf(to, NULL, _IONBF, 0);
    if (fwrite("raw\n", 1, 4, to) != 4) abort();
    before_close = 1, fclose(to);
    after = 1; /* RACE */
    return p;
}

static void *hears(void *p) {
    FILE *from = questions[0], *to = answers[1];
    char *line = NULL, text[20];
    size_t n = 0;
    if (getline(&line, &n, from) != 4) abort();
    by_char = before_put, putc('A', to), fflush(to);
    if (!fgets(text, sizeof text, from)) abort();
    by_line = before_text, dprintf(fileno(to), "%s\n", "line");
    if (getline(&line, &n, from) != 9) abort();
    by_text = before_print, write(fileno(to), "xyz", 3);
    if (getdelim(&line, &n, 'w', from) != 3 || getc(from) != '\n') abort();
    printf("%d\n", before_write);
    if (fgetc(from) != EOF) abort();
    printf("%d\n", before_close);
    free(line);
    return after ? p : NULL; /* RACE */
}

int main(void) {
    pthread_t a, b;
    opens(questions), opens(answers);
    if (pthread_create(&a, NULL, hears, NULL) || pthread_create(&b, NULL, asks, NULL)) abort();
    pthread_join(a, NULL), pthread_join(b, NULL);
    return 0;
}
