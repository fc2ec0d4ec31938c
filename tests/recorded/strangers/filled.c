/* Wide characters, buffers that calls fill, numbers of chance with a state of the caller, and the environment. */
#define _GNU_SOURCE
#include <arpa/inet.h>
#include <math.h>
#include <pthread.h>
#include <semaphore.h>
#include <stdio.h>
#include <stdlib.h>
#include <sys/resource.h>
#include <sys/stat.h>
#include <sys/utsname.h>
#include <unistd.h>
#include <wchar.h>
static wchar_t a[16], b[16] = L"wide text", c[16], d[16] = L"some";
static char e[300], f[300], g[64];
static unsigned seed = 5;
static int count, exponent, sorted[4] = {4, 2, 3, 1};
static double whole;
static volatile double five = 5.25;
static struct stat of_path, of_file;
static struct utsname system_name;
static struct rusage used;
static wchar_t h[16], i[16];
static char j[16];
static sem_t semaphore;
static struct in_addr address;
static __thread volatile long n;

static int compares(const void *x, const void *y, void *sign) { return (*(int *)x - *(int *)y) * *(int *)sign; }

static void *fills(void *p) {
    wcscpy(a, p);                                     /* RACE a */
    n += wcslen(b);                                   /* RACE b */
    wmemset(c, L'x', 3);                              /* RACE c */
    n += wcscmp(d, L"soz");                           /* RACE d */
    n += getcwd(e, sizeof e) != NULL;                 /* RACE e */
    n += readlink("/proc/self/exe", f, sizeof f);     /* RACE f */
    n += inet_ntop(AF_INET, &address, g, 64) != NULL; /* RACE g */
    n += rand_r(&seed);                               /* RACE h */
    n += sem_getvalue(&semaphore, &count);            /* RACE i */
    setenv("OF_THIS_TEST", "1", 1);                   /* RACE j */
    n += stat("/", &of_path);                         /* RACE k */
    n += fstat(0, &of_file);                          /* RACE l */
    n += uname(&system_name);                         /* RACE m */
    n += getrusage(RUSAGE_SELF, &used);               /* RACE o */
    n += frexp(five, &exponent) < 1;                  /* RACE q */
    n += modf(five, &whole) < 1;                      /* RACE r */
    qsort_r(sorted, 4, 4, compares, (int[]){1});      /* RACE s */
    n += mbstowcs(h, "wide", 16);                     /* RACE t */
    n += swprintf(i, 16, L"%d", 345);                 /* RACE u */
    n += wcstombs(j, L"thin", 16);                    /* RACE v */
    return p;
}

static void *reads(void *p) {
    n += a[4];                          /* RACE a */
    b[9] = 0;                           /* RACE b */
    n += c[2];                          /* RACE c */
    d[2] = L'm';                        /* RACE d */
    n += e[0];                          /* RACE e */
    n += f[0];                          /* RACE f */
    n += g[6];                          /* RACE g */
    n += rand_r(&seed);                 /* RACE h */
    n += count;                         /* RACE i */
    n += getenv("OF_THAT_ONE") != NULL; /* RACE j */
    n += of_path.st_mtime;              /* RACE k */
    n += (long)of_file.st_ino;          /* RACE l */
    n += system_name.machine[0];        /* RACE m */
    n += used.ru_nivcsw;                /* RACE o */
    n += exponent;                      /* RACE q */
    n += whole > 1;                     /* RACE r */
    n += sorted[3];                     /* RACE s */
    n += h[4];                          /* RACE t */
    n += i[3];                          /* RACE u */
    n += j[4];                          /* RACE v */
    n += a[5] + c[3] + g[8] + h[5] + i[4] + j[5], b[10] = d[3] = L'e';
    return p;
}

int main(void) {
    pthread_t t[2];
    sem_init(&semaphore, 0, 3);
    pthread_create(&t[0], NULL, fills, (void *)L"text");
    pthread_create(&t[1], NULL, reads, NULL);
    for (int k = 0; k < 2; k++) pthread_join(t[k], NULL);
    printf("%ls %s %d\n", a, g, count);
    return 0;
}
