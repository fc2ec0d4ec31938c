/* A plugin that a thread opens late, in a program that ends by abort. */
#include <dlfcn.h>
#include <pthread.h>
#include <stdio.h>
#include <stdlib.h>
static pthread_barrier_t b;
static void *work(void *p) {
    static pthread_mutex_t m = PTHREAD_MUTEX_INITIALIZER;
    pthread_barrier_wait(&b);
    pthread_mutex_lock(&m);
    void *h = dlopen("./plugin.so", RTLD_NOW);
    pthread_mutex_unlock(&m);
    if (!h) {
        puts(dlerror());
        return p;
    }
    void (*f)(void) = (void (*)(void))dlsym(h, "touch");
    f();
    return p;
}
int main(int count, char **words) {
    pthread_t t[2];
    pthread_barrier_init(&b, NULL, 2);
    for (int k = 0; k < 2; k++) pthread_create(&t[k], NULL, work, NULL);
    for (int k = 0; k < 2; k++) pthread_join(t[k], NULL);
    puts("done"), fflush(stdout);
    if (count > 1) abort();
    (void)words;
    return 0;
}
