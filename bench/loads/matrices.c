/* Four threads multiply two matrices of N times N numbers. Forks and joins alone order all accesses. */
#include <pthread.h>
#include <stdio.h>
#include <stdlib.h>

enum { THREADS = 4 };
static size_t n;
static double *a, *b, *product;

static void *multiply(void *first) {
    for (size_t i = (size_t)first; i < n; i += THREADS) {
        for (size_t j = 0; j < n; j++) {
            double sum = 0;
            for (size_t k = 0; k < n; k++) sum += a[i * n + k] * b[k * n + j];
            product[i * n + j] = sum;
        }
    }
    return NULL;
}

int main(int count, char **arguments) {
    n = count > 1 ? strtoul(arguments[1], NULL, 10) : 60;
    a = malloc(n * n * sizeof *a), b = malloc(n * n * sizeof *b), product = malloc(n * n * sizeof *product);
    if (!a || !b || !product) return 1;
    for (size_t i = 0; i < n * n; i++) a[i] = (double)i, b[i] = (double)n - (double)i;
    pthread_t threads[THREADS];
    for (size_t k = 0; k < THREADS; k++)
        if (pthread_create(&threads[k], NULL, multiply, (void *)k)) return 1;
    for (size_t k = 0; k < THREADS; k++) pthread_join(threads[k], NULL);
    double sum = 0;
    for (size_t i = 0; i < n * n; i++) sum += product[i];
    printf("%f\n", sum);
    free(a), free(b), free(product);
    return 0;
}
