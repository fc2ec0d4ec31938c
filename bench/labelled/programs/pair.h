/* What the programs share. Each is compiled twice: with RACY it has the race between its lines marked RACE, and
 * without RACY it has no race. */
#pragma once
#ifndef _GNU_SOURCE
#define _GNU_SOURCE
#endif
#include <errno.h>
#include <fcntl.h>
#include <pthread.h>
#include <semaphore.h>
#include <stdint.h>
#include <stdio.h>
#include <stdlib.h>
#include <string.h>
#include <sys/socket.h>
#include <sys/stat.h>
#include <sys/uio.h>
#include <unistd.h>

#ifdef RACY
#define IF_RACY(...) __VA_ARGS__
#define IF_CLEAN(...)
#else
#define IF_RACY(...)
#define IF_CLEAN(...) __VA_ARGS__
#endif

#define THREAD(name) static void *name(void *argument)
#define LOCK(mutex) pthread_mutex_lock(&(mutex))
#define UNLOCK(mutex) pthread_mutex_unlock(&(mutex))

static pthread_t first_thread, second_thread;

static inline void start_both(void *(*first)(void *), void *(*second)(void *)) {
    pthread_create(&first_thread, NULL, first, NULL);
    pthread_create(&second_thread, NULL, second, NULL);
}

static inline void join_both(void) {
    pthread_join(first_thread, NULL);
    pthread_join(second_thread, NULL);
}

/* Runs two threads to their ends. */
static inline void run_both(void *(*first)(void *), void *(*second)(void *)) {
    start_both(first, second);
    join_both();
}

/* Ends the program if a call failed that can't fail here. */
static inline void need(int succeeded) {
    if (!succeeded) _exit(99);
}
