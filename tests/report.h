/* A test's faults: each is a line, and they are counted. */
#include <stdarg.h>
#include <stdio.h>

static unsigned faults;

static void report(const char *format, ...) {
    va_list values;
    va_start(values, format);
    vprintf(format, values);
    va_end(values);
    putchar('\n');
    faults++;
}
