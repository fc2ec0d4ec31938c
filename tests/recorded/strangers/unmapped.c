/* Memory that is given back to the system or moved while a thread may still use it. What comes after a join, or in a
 * part that stays, is no race. */
#define _GNU_SOURCE
#include <pthread.h>
#include <stdatomic.h>
#include <stdio.h>
#include <sys/mman.h>
#define SIZE 8192
enum { BACK, MOVED, CUT, KEPT, JOINED, ALL };
static char *areas[ALL];
static atomic_int done;
static int sum;

static char *area(void) {
    return mmap(NULL, SIZE, PROT_READ | PROT_WRITE, MAP_PRIVATE | MAP_ANONYMOUS, -1, 0);
}

static void *work(void *p) {
    areas[BACK][SIZE - 1] = 1;  /* RACE back */
    areas[MOVED][SIZE - 1] = 1; /* RACE moved */
    areas[CUT][5000] = 1;       /* RACE cut */
    areas[KEPT][4095] = 1;
    areas[JOINED][5] = 1;
    atomic_store_explicit(&done, 1, memory_order_relaxed);
    return p;
}

int main(void) {
    pthread_t t;
    for (int k = 0; k < ALL; k++) areas[k] = area();
    char *cut = areas[CUT], *kept = areas[KEPT], *moved = areas[MOVED], *back = areas[BACK], *target = area();
    pthread_create(&t, NULL, work, NULL);
    while (!atomic_load_explicit(&done, memory_order_relaxed)) {}
    munmap(back, SIZE);                                                           /* RACE back */
    char *now = mremap(moved, SIZE, SIZE, MREMAP_MAYMOVE | MREMAP_FIXED, target); /* RACE moved */
    if (mremap(cut, SIZE, 4096, 0) != cut) return 1;                              /* RACE cut */
    if (mremap(kept, SIZE, 4096, 0) != kept || mremap(back, SIZE, 4096, 0) != MAP_FAILED) return 1;
    sum = now[SIZE - 1];
    pthread_join(t, NULL);
    munmap(areas[JOINED], SIZE);
    printf("%d\n", sum + kept[4095]);
    return 0;
}
