/* A library whose constructor takes many turns. */
int begun;
__attribute__((constructor)) static void begin(void) {
    for (int k = 0; k < 500; k++) begun++;
}
