/* A library that sets a variable when it is opened. */
static int value;

__attribute__((constructor)) static void begin(void) { value = 4; }

int plugin_value(int more) {
#ifdef RACY
    value += more; /* RACE */
#endif
    return value; /* RACE */
}
