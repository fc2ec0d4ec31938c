/* The program asks again and again whether its child has ended: how often is another number in each run. */
#include <pthread.h>
#include <sys/wait.h>
#include <unistd.h>
static volatile int x;
static int status;
static void *work(void *none) {
    x = 1;
    return none;
}
int main(void) {
    pthread_t t;
    pid_t child = fork();
    if (!child) usleep(5000), _exit(0);
    while (waitpid(child, &status, WNOHANG) != child) {}
    pthread_create(&t, NULL, work, NULL);
    x = 2;
    pthread_join(t, NULL);
    return status;
}
