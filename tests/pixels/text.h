/* The text of a file that a comparison makes, piece by piece: MOST_TEXT bytes, which whoever includes this has set. */
#include <stdarg.h>
#include <stdio.h>

static char text[MOST_TEXT];
static size_t length;

static void put(const char *form, ...) {
    va_list list;
    va_start(list, form);
    length += (size_t)vsnprintf(text + length, MOST_TEXT - length, form, list);
    va_end(list);
}
