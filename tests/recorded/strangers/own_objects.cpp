// What the destructors of a thread's own objects do.
#include <atomic>
#include <cstdio>
#include <thread>
#include <pthread.h>
static int ended;
static volatile int racy;
static pthread_key_t key;
static int by_key;
struct Own {
    int n = 1;
    ~Own() { racy += n; } // RACE
};
struct Sole {
    int n = 1;
    ~Sole() {
        if (n == 4) ended += n;
    }
};
static thread_local Own own;
static thread_local Sole sole;
static void at_end(void *p) {
    by_key += *static_cast<int *>(p);
    delete static_cast<int *>(p);
}
int main() {
    pthread_key_create(&key, at_end);
    std::thread a([] { own.n = 2; }), b([] { own.n = 3; });
    a.join(), b.join();
    std::thread c([] {
        sole.n = 4;
        pthread_setspecific(key, new int(5));
    });
    c.join();
    std::printf("%d %d\n", ended, by_key);
}
