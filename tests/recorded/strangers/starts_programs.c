/* Threads that start programs and read what they print: posix_spawn and popen; getline, strtok_r and qsort of what came. */
#define _GNU_SOURCE
#include <pthread.h>
#include <spawn.h>
#include <stdio.h>
#include <stdlib.h>
#include <string.h>
#include <sys/wait.h>
#include <unistd.h>
extern char **environ;
static int sums[2], statuses;
static volatile int plain;
static int compare(const void *a, const void *b) { return *(const int *)a - *(const int *)b; }
static int sorted_sum(char *line) {
    int numbers[8], n = 0, sum = 0;
    char *rest;
    for (char *word = strtok_r(line, " \n", &rest); word && n < 8; word = strtok_r(NULL, " \n", &rest))
        numbers[n++] = atoi(word);
    qsort(numbers, (size_t)n, sizeof *numbers, compare);
    for (int k = 0; k < n; k++) sum += (k + 1) * numbers[k];
    return sum;
}
static void *works(void *p) {
    int self = *(int *)p;
    char *line = NULL, *words[] = {"sh", "-c", "exit 3", NULL};
    size_t room = 0;
    FILE *from = popen("echo 3 1 2", "r");
    if (!from || getline(&line, &room, from) < 0) abort();
    sums[self] = sorted_sum(line);
    free(line), pclose(from);
    pid_t child;
    int status;
    if (posix_spawnp(&child, "sh", NULL, NULL, words, environ) || waitpid(child, &status, 0) != child) abort();
    sums[self] += WEXITSTATUS(status);
    plain++; /* RACE */
    return p;
}
int main(void) {
    pthread_t t[2];
    int id[2] = {0, 1};
    for (int k = 0; k < 2; k++) pthread_create(&t[k], NULL, works, &id[k]);
    for (int k = 0; k < 2; k++) pthread_join(t[k], NULL);
    printf("%d %d\n", sums[0], sums[1] + statuses);
    return 0;
}
