/* A race whose order is seen in the output or is not (SHOWN), beside four threads that come in any order. */
#include <pthread.h>
#include <stdio.h>
#include <stdlib.h>
#include <string.h>
#include <unistd.h>
int shared, seen, order[4], n;
pthread_mutex_t m = PTHREAD_MUTEX_INITIALIZER;
void *writer(void *p) {
  shared = 1;
  return p;
}
void *reader(void *p) {
  seen = shared;
  return p;
}
void *other(void *p) {
  pthread_mutex_lock(&m);
  order[n++] = *(int *)p;
  pthread_mutex_unlock(&m);
  return p;
}
int main(void) {
  const char *what = getenv("SHOWN") ? getenv("SHOWN") : "";
  pthread_t t[6];
  int id[4];
  pthread_create(&t[0], NULL, writer, NULL);
  pthread_create(&t[1], NULL, reader, NULL);
  for (int i = 0; i < 4; i++) {
    id[i] = i;
    pthread_create(&t[2 + i], NULL, other, &id[i]);
  }
  for (int i = 0; i < 6; i++)
    pthread_join(t[i], NULL);
  if (strstr(what, "seen"))
    printf("seen %d\n", seen);
  if (strstr(what, "order"))
    printf("order %d %d %d %d\n", order[0], order[1], order[2], order[3]);
  if (strstr(what, "half"))
    printf("half %d\n", order[0] < 2);
  if (strstr(what, "process"))
    printf("process %d\n", (int)getpid());
}
