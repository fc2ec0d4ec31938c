/* PLUGIN opened_plugin.c
 * Two threads open one library, whose constructor sets a variable before the call returns. The racy twin changes it
 * once more. */
#include "pair.h"
#include <dlfcn.h>

THREAD(opens) {
    void *library = dlopen("./plugin.so", RTLD_NOW);
    need(library != NULL);
    int (*value)(int) = (int (*)(int))dlsym(library, "plugin_value");
    need(value != NULL);
    return value(0) == 9 ? argument : NULL;
}

int main(void) {
    run_both(opens, opens);
    return 0;
}
