/* A fault by what was tested and its number. */
#include "report.h"

static void check(int holds, const char *name, const char *what, size_t number) {
    if (!holds)
        report("%s, %zu: %s", name, number, what);
}
