/* Variables and locks of each kind, whose names are judged. Two threads use each. */
#include <pthread.h>
#include <stdlib.h>

struct host {
    char name[16];
    int state, tries;
    struct host *next;
};
struct flags {
    unsigned ready : 1, busy : 3;
    int level;
    union {
        int i;
        float f;
    } u;
};
struct shop {
    int visits;
    pthread_mutex_t door;
    struct {
        int a, b;
    } in;
};
struct host hosts[20];
static struct flags flags;
int grid[3][4];
static char text[8];
static struct shop shop = {0, PTHREAD_MUTEX_INITIALIZER, {0, 0}};
static pthread_mutex_t table_lock = PTHREAD_MUTEX_INITIALIZER;

static int counter(void) {
    static int count;
    return ++count;
}

static void *work(void *p) {
    pthread_mutex_lock(&table_lock);
    hosts[12].state++;
    hosts[3].next = &hosts[4];
    grid[1][2]++;
    pthread_mutex_unlock(&table_lock);
    pthread_mutex_lock(&shop.door);
    shop.visits++;
    shop.in.b++;
    pthread_mutex_unlock(&shop.door);
    flags.ready = 1;
    flags.level++;
    flags.u.i++;
    text[5]++;
    counter();
    return p;
}

int main(void) {
    pthread_t t[2];
    for (int k = 0; k < 2; k++)
        if (pthread_create(&t[k], NULL, work, NULL)) return 1;
    for (int k = 0; k < 2; k++) pthread_join(t[k], NULL);
    return 0;
}
