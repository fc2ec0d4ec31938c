/* A part of a local variable that another thread knows of: a member, an element, and memory of alloca. */
#include <alloca.h>
#include <pthread.h>
#include <stdio.h>
#include <string.h>
static pthread_mutex_t m = PTHREAD_MUTEX_INITIALIZER;
struct place {
    double x, y;
};
struct work {
    int first, second, locked;
    struct place places[3];
    int *counts;
    char *text;
};
static void *work(void *p) {
    struct work *w = p;
    w->first++;              /* RACE first */
    w->second++;             /* RACE second */
    w->places[2].y = 1;      /* RACE member */
    w->counts[1]++;          /* RACE element */
    memset(w->text, 'b', 4); /* RACE text */
    pthread_mutex_lock(&m);
    w->locked++;
    pthread_mutex_unlock(&m);
    return NULL;
}
static int both(int n) {
    pthread_t t;
    int counts[n], seen = 0;
    struct work w = {0};
    for (int k = 0; k < n; k++) counts[k] = k;
    w.counts = counts, w.text = alloca((size_t)n);
    w.text[3] = 'a';
    pthread_create(&t, NULL, work, &w);
    w.first++;                 /* RACE first */
    w.second++;                /* RACE second */
    seen += w.places[2].y < 5; /* RACE member */
    seen += counts[1] < 5;     /* RACE element */
    seen += w.text[3] >= 'a';  /* RACE text */
    pthread_mutex_lock(&m);
    w.locked++;
    pthread_mutex_unlock(&m);
    pthread_join(t, NULL);
    return seen + w.locked;
}
int main(void) {
    printf("%d\n", both(4));
    return 0;
}
