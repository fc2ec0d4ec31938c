/* Numbers and dates that the C library makes of memory that two threads share, or writes there. What a conversion does
 * not come to is not read. */
#define _GNU_SOURCE
#include <inttypes.h>
#include <pthread.h>
#include <stdio.h>
#include <stdlib.h>
#include <string.h>
#include <sys/time.h>
#include <time.h>
static char a[16] = "12 34", b[16] = "2.5x9", c[16] = "77", d[16] = "8", e[16] = "5 6", f[40], g[40];
static char *end_a, *volatile end_b;
static struct tm day, other, parts = {.tm_mday = 1};
static __thread struct tm *volatile shown;
static time_t now, moment = 86400, date = 86400;
static struct timespec stamp;
static struct timeval old_stamp;
static int first, second, third;
static short little[2];
static char word[8], letters[4], set[8];
static double real;
static int (*volatile to_number)(const char *) = atoi;
static __thread volatile long n;

static void *converts(void *p) {
    n += strtol(a, &end_a, 10); /* RACE a */
    n += (long)strtod(b, NULL); /* RACE b */
    n += strtoul(c, (char **)&end_b, 0); /* RACE c */
    n += to_number(d); /* RACE d */
    n += sscanf(e, "%d", &first); /* RACE e */
    n += sscanf(p, "%*d %d %hd %5s %2c %[a-z] %lf%n", &second, &little[0], word, letters, set, &real, &third); /* RACE f */
    localtime_r(&moment, &day); /* RACE g */
    n += strftime(f, sizeof f, "%Y", &parts); /* RACE h */
    n += time(&now); /* RACE i */
    n += clock_gettime(CLOCK_MONOTONIC, &stamp); /* RACE j */
    n += gettimeofday(&old_stamp, NULL); /* RACE k */
    n += mktime(&other); /* RACE l */
    asctime_r(&parts, g); /* RACE m */
    shown = gmtime(&date); /* RACE o */
    return p;
}

static void *reads(void *p) {
    a[2] = ' '; /* RACE a */
    b[3] = 'x'; /* RACE b */
    n += end_b != NULL; /* RACE c */
    d[1] = 0; /* RACE d */
    n += first; /* RACE e */
    n += second + little[0] + (long)real + third; /* RACE f */
    n += word[5] + letters[1] + set[2]; /* RACE f */
    n += day.tm_year; /* RACE g */
    n += f[4] + parts.tm_mday; /* RACE h */
    n += now; /* RACE i */
    n += stamp.tv_nsec; /* RACE j */
    n += old_stamp.tv_usec; /* RACE k */
    n += other.tm_mon; /* RACE l */
    n += g[25]; /* RACE m */
    n += gmtime(&date)->tm_hour; /* RACE o */
    a[3] = a[4] = b[4] = b[5] = d[2] = f[5] = g[26] = 'z';
    n += little[1] + letters[2] + word[6] + set[3];
    return p;
}

static void *ends(void *p) {
    n += (long)end_a; /* RACE p */
    return p;
}

static void *begins(void *p) {
    n += strtoimax(p, &end_a, 10); /* RACE p */
    return p;
}

int main(void) {
    pthread_t t[4];
    pthread_create(&t[0], NULL, converts, "1 2 3 words xyabc 1.5");
    pthread_create(&t[1], NULL, reads, NULL);
    for (int k = 0; k < 2; k++) pthread_join(t[k], NULL);
    pthread_create(&t[2], NULL, begins, "9");
    pthread_create(&t[3], NULL, ends, NULL);
    for (int k = 2; k < 4; k++) pthread_join(t[k], NULL);
    printf("%d %d %d %s %.2s %s %d %d\n", first, second, little[0], word, letters, set, (int)real, third);
    return 0;
}
