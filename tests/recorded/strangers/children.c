/* Child processes of each kind beside threads. */
#define _GNU_SOURCE
#include <pthread.h>
#include <spawn.h>
#include <stdio.h>
#include <stdlib.h>
#include <string.h>
#include <sys/wait.h>
#include <unistd.h>
extern char **environ;
static pthread_mutex_t m = PTHREAD_MUTEX_INITIALIZER;
static int sum;
static volatile int racy;
static int run_popen(void) {
    char word[64] = "";
    FILE *f = popen("echo hello", "r");
    if (!f || !fgets(word, sizeof word, f)) return 1;
    return pclose(f) + (strcmp(word, "hello\n") != 0);
}
static int run_spawn(void) {
    char *words[] = {"sh", "-c", "exit 3", NULL};
    pid_t p;
    int status;
    if (posix_spawnp(&p, "sh", NULL, NULL, words, environ)) return 1;
    waitpid(p, &status, 0);
    return WEXITSTATUS(status) != 3;
}
static int run_vfork(void) {
    int status;
    pid_t p = vfork();
    if (p == 0) execlp("sh", "sh", "-c", "exit 4", (char *)NULL), _exit(9);
    waitpid(p, &status, 0);
    return WEXITSTATUS(status) != 4;
}
static int run_fork(void) {
    int ends[2], status;
    char word[16] = "";
    if (pipe(ends)) return 1;
    pid_t p = fork();
    if (p == 0) {
        dup2(ends[1], 1), close(ends[0]), close(ends[1]);
        execlp("echo", "echo", "there", (char *)NULL);
        _exit(9);
    }
    close(ends[1]);
    ssize_t n = read(ends[0], word, sizeof word);
    close(ends[0]);
    waitpid(p, &status, 0);
    return n != 6 || strcmp(word, "there\n");
}
static void *work(void *p) {
    int bad =
        run_popen() + 10 * run_spawn() + 100 * run_vfork() + 1000 * run_fork() + 10000 * (system("exit 2") != 512);
    pthread_mutex_lock(&m), sum += bad, pthread_mutex_unlock(&m);
    racy++; /* RACE */
    return p;
}
int main(void) {
    pthread_t t[2];
    for (int k = 0; k < 2; k++) pthread_create(&t[k], NULL, work, NULL);
    for (int k = 0; k < 2; k++) pthread_join(t[k], NULL);
    printf("%d\n", sum);
    return 0;
}
