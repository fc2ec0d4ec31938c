/* Blocks whose types the source names, and such whose types nobody can say. Two threads use each. */
#include <pthread.h>
#include <stdlib.h>

struct config {
    int limit;
    pthread_mutex_t lock;
    struct {
        int a, b;
    } in;
};
typedef struct {
    int x, y;
} point_t;
struct item {
    struct item *next;
    long value;
};
struct head {
    struct item *first;
    int count;
};
struct note {
    struct note *next;
    int length;
    struct {
        short from, to;
    } marks[];
};
static struct head head;
static struct config *config;
static point_t *points;
static int *counts;
static struct item **table;
static struct head *whole;
static char *text;
static struct note *note;
static long *cells;

static size_t bytes_of_note(int marks) { return sizeof(struct note) + (size_t)marks * 4; }

static void *xmalloc(size_t n) {
    void *p = malloc(n);
    if (!p) abort();
    return p;
}

/* A block with two numbers before it, which its caller does not see. */
static void *with_head(size_t n) {
    int *p = (int *)malloc(n + 2 * sizeof(int));
    if (!p) abort();
    return p + 2;
}

static void *work(void *p) {
    pthread_mutex_lock(&config->lock);
    config->limit++;
    config->in.b++;
    pthread_mutex_unlock(&config->lock);
    points[2].y++;
    counts[3]++;
    head.first->value++;
    table[1] = NULL;
    whole->count++;
    text[5]++;
    note->length++;
    note->marks[9].to++;
    cells[4]++;
    return p;
}

int main(void) {
    pthread_t t[2];
    config = xmalloc(sizeof *config);
    pthread_mutex_init(&config->lock, NULL);
    points = malloc(3 * sizeof(point_t));
    counts = (int *)calloc(4, sizeof(int));
    head.first = calloc(1,
                        sizeof(*head.first));
    table = malloc(4 * sizeof(struct item *));
    whole = calloc(1, sizeof(struct head) + 2 * sizeof(struct item));
    text = malloc(20);
    note = xmalloc(bytes_of_note(10));
    cells = with_head(6 * sizeof(long));
    for (int k = 0; k < 2; k++)
        if (pthread_create(&t[k], NULL, work, NULL)) return 1;
    for (int k = 0; k < 2; k++) pthread_join(t[k], NULL);
    return 0;
}
