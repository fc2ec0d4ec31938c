/* A program whose words say whether it has a race. */
#include <pthread.h>
#include <string.h>

static int counted;

static void *work(void *none) {
    counted++; /* the race */
    return none;
}

int main(int count, char **words) {
    pthread_t ids[2];
    if (count != 4 || strcmp(words[1], "h[1-8] %h") || *words[2] || strcmp(words[3], "it's")) return 3;
    for (int k = 0; k < 2; k++) if (pthread_create(&ids[k], NULL, work, NULL)) return 1;
    for (int k = 0; k < 2; k++) pthread_join(ids[k], NULL);
    return 0;
}
