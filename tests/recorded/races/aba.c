/* ABA: a lock-free stack with compare-and-swap; the next pointer is read from a node that others may have taken and put
 * back. */
#include <assert.h>
#include <pthread.h>
#include <stdatomic.h>
#include <stdio.h>
struct node { struct node *next; int value; };
static _Atomic(struct node *) top; static struct node pool[4]; static int popped[4];
static struct node *pop(void) {
    struct node *n, *next;
    do {
        n = atomic_load(&top);
        if (!n) return NULL;
        next = n->next;
    } while (!atomic_compare_exchange_strong(&top, &n, next));
    return n;
}
static void push(struct node *n) {
    struct node *old = atomic_load(&top);
    do n->next = old; while (!atomic_compare_exchange_strong(&top, &old, n));
}
static void *one(void *none) { struct node *n = pop(); if (n) popped[n->value]++; return none; }
static void *other(void *none) {
    struct node *a = pop(), *b = pop();
    if (b) popped[b->value]++;
    if (a) push(a);
    return none;
}
int main(void) {
    pthread_t a, b;
    for (int k = 0; k < 4; k++) { pool[k].value = k; push(&pool[k]); }
    pthread_create(&a, NULL, one, NULL); pthread_create(&b, NULL, other, NULL);
    pthread_join(a, NULL); pthread_join(b, NULL);
    for (struct node *n; (n = pop());) popped[n->value]++;
    for (int k = 0; k < 4; k++) { printf("%d ", popped[k]); assert(popped[k] == 1); }
    printf("\n");
}
