/* A thread hands data over by a write under a lock. The compiler puts no hook at the write, or none at what reads it,
 * so our pass does. With RACY the data is written after the lock: each HAND is a race with itself. */
#include <pthread.h>
#include <string.h>

struct small {
    int is;
};
struct pair {
    long is, b;
};
struct odd {
    char is, b, c;
};
struct big {
    long is, b[8];
};

#define MAKE(type) \
    __attribute__((noinline)) static struct type make_##type(int is) { \
        struct type made; \
        memset(&made, 0, sizeof made); \
        made.is = is; \
        return made; \
    } \
    __attribute__((noinline)) static int is_##type(struct type taken) { return taken.is; }
MAKE(small)
MAKE(pair)
MAKE(odd)
MAKE(big)

#ifdef RACY
#define BEFORE(statement)
#define AFTER(statement) statement
#else
#define BEFORE(statement) statement
#define AFTER(statement)
#endif

static volatile long seen;

/* `write` hands over, and `read` is not 0 from then on. Each name has its own lock and data. */
#define HAND(name, write, read) \
    static pthread_mutex_t lock_##name = PTHREAD_MUTEX_INITIALIZER; \
    static long data_##name; \
    static void hand_##name(void) { \
        BEFORE(data_##name = 42;) \
        pthread_mutex_lock(&lock_##name); \
        write; \
        pthread_mutex_unlock(&lock_##name); \
        AFTER(data_##name = 42;) \
    } \
    static void await_##name(void) { \
        for (int is = 0; !is;) { \
            pthread_mutex_lock(&lock_##name); \
            is = read; \
            pthread_mutex_unlock(&lock_##name); \
        } \
        seen = data_##name; \
    }

static struct small small;
static struct pair pair, taken_pair;
static struct odd odd;
static struct big big, behind, taken_big, *pointer = &behind;
static char copied[40];
static const char text[40] = "a text";
HAND(small, small = make_small(1), small.is)
HAND(pair, pair = make_pair(1), pair.is)
HAND(odd, odd = make_odd(1), odd.is)
HAND(big, big = make_big(1), big.is)
HAND(pointer, *pointer = make_big(1), behind.is)
HAND(taken_pair, taken_pair.is = 1, is_pair(taken_pair))
HAND(taken_big, taken_big.is = 1, is_big(taken_big))
HAND(copied, __builtin_memcpy(copied, text, 30), copied[0])
#if defined __x86_64__
static int moved, raised, locked;
HAND(moved, __asm__ volatile("movl $1, %0" : "=m"(moved)), moved)
HAND(raised, __asm__ volatile("incl %0" : "+m"(raised)), raised)
HAND(locked, __asm__ volatile("lock; incl %0" : "+m"(locked)::"memory"), locked)
#endif

static void *hand(void *none) {
    hand_small();
    hand_pair();
    hand_odd();
    hand_big();
    hand_pointer();
    hand_taken_pair();
    hand_taken_big();
    hand_copied();
#if defined __x86_64__
    hand_moved();
    hand_raised();
    hand_locked();
#endif
    return none;
}

static void *await(void *none) {
    await_small();
    await_pair();
    await_odd();
    await_big();
    await_pointer();
    await_taken_pair();
    await_taken_big();
    await_copied();
#if defined __x86_64__
    await_moved();
    await_raised();
    await_locked();
#endif
    return none;
}

int main(void) {
    pthread_t first, second;
    if (pthread_create(&first, NULL, await, NULL) || pthread_create(&second, NULL, hand, NULL)) return 1;
    pthread_join(first, NULL);
    pthread_join(second, NULL);
    return 0;
}
