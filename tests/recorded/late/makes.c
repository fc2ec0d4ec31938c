/* One thread opens a library, and the first one makes threads meanwhile. */
#include <dlfcn.h>
#include <pthread.h>
#include <stdio.h>
static int made;
static pthread_mutex_t m = PTHREAD_MUTEX_INITIALIZER;
static void *open_it(void *p) { return dlopen("./slow.so", RTLD_NOW) ? p : &made; }
static void *count(void *p) {
    pthread_mutex_lock(&m);
    made++;
    pthread_mutex_unlock(&m);
    return p;
}
int main(void) {
    pthread_t opener, t[8];
    void *failed;
    pthread_create(&opener, NULL, open_it, NULL);
    for (int k = 0; k < 8; k++) pthread_create(&t[k], NULL, count, NULL);
    for (int k = 0; k < 8; k++) pthread_join(t[k], NULL);
    pthread_join(opener, &failed);
    printf("%d\n", failed ? -1 : made);
    return 0;
}
