/* Queues of messages of POSIX and of System V, and semaphores of System V, hand plain data on. */
#include <fcntl.h>
#include <mqueue.h>
#include <pthread.h>
#include <stdio.h>
#include <stdlib.h>
#include <sys/ipc.h>
#include <sys/msg.h>
#include <sys/sem.h>
#include <unistd.h>
static int by_queue, by_message, by_semaphore;
static volatile int racy;
static mqd_t queue;
static int messages, semaphores;
struct text {
    long type;
    char word[8];
};
static void *sends(void *p) {
    struct text t = {1, "x"};
    struct sembuf up = {0, 1, 0};
    by_queue = 1, mq_send(queue, "a", 1, 0);
    by_message = 1, msgsnd(messages, &t, sizeof t.word, 0);
    by_semaphore = 1, semop(semaphores, &up, 1);
    racy = 1; /* RACE */
    return p;
}
static void *receives(void *p) {
    char word[128];
    struct text t;
    struct sembuf down = {0, -1, 0};
    if (mq_receive(queue, word, sizeof word, NULL) != 1) abort();
    int sum = by_queue;
    msgrcv(messages, &t, sizeof t.word, 0, 0);
    sum += by_message;
    semop(semaphores, &down, 1);
    *(int *)p = sum + by_semaphore;
    racy = 2; /* RACE */
    return NULL;
}
int main(void) {
    pthread_t t[2];
    int sum = 0;
    char name[64];
    struct mq_attr attributes = {.mq_maxmsg = 4, .mq_msgsize = 64};
    snprintf(name, sizeof name, "/recorded-%d", (int)getpid());
    queue = mq_open(name, O_CREAT | O_RDWR, 0600, &attributes);
    if (queue == (mqd_t)-1) return 1;
    mq_unlink(name);
    messages = msgget(IPC_PRIVATE, 0600), semaphores = semget(IPC_PRIVATE, 1, 0600);
    pthread_create(&t[0], NULL, sends, NULL);
    pthread_create(&t[1], NULL, receives, &sum);
    for (int k = 0; k < 2; k++) pthread_join(t[k], NULL);
    msgctl(messages, IPC_RMID, NULL), semctl(semaphores, 0, IPC_RMID);
    printf("%d\n", sum);
    return 0;
}
