/* Memory that is mapped: shared by name, moved by mremap, given back in part, with a mutex for processes in it. */
#define _GNU_SOURCE
#include <pthread.h>
#include <stdio.h>
#include <stdlib.h>
#include <string.h>
#include <sys/mman.h>
#include <unistd.h>
struct page {
    pthread_mutex_t m;
    int counted, plain;
    char text[64];
};
static struct page *page;
static char *moved;
static size_t size = 4096;
static void *work(void *p) {
    for (int k = 0; k < 6; k++) {
        pthread_mutex_lock(&page->m);
        page->counted++;
        moved = mremap(moved, size, 2 * size, MREMAP_MAYMOVE), size *= 2;
        if (moved == MAP_FAILED) abort();
        moved[size - 1] = (char)k;
        pthread_mutex_unlock(&page->m);
        page->plain++; /* RACE */
    }
    return p;
}
int main(void) {
    pthread_t t[2];
    pthread_mutexattr_t a;
    int file = memfd_create("page", 0);
    if (file < 0 || ftruncate(file, 4096)) return 1;
    page = mmap(NULL, 4096, PROT_READ | PROT_WRITE, MAP_SHARED, file, 0);
    moved = mmap(NULL, size, PROT_READ | PROT_WRITE, MAP_PRIVATE | MAP_ANONYMOUS, -1, 0);
    pthread_mutexattr_init(&a), pthread_mutexattr_setpshared(&a, PTHREAD_PROCESS_SHARED);
    pthread_mutex_init(&page->m, &a);
    for (int k = 0; k < 2; k++) pthread_create(&t[k], NULL, work, NULL);
    for (int k = 0; k < 2; k++) pthread_join(t[k], NULL);
    strcpy(page->text, "done");
    printf("%d %zu %s\n", page->counted, size, page->text);
    munmap(moved + size / 2, size / 2), munmap(moved, size / 2), munmap(page, 4096);
    return 0;
}
