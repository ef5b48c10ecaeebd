/* Ends a program at the first error. */
#include "icysixel.h"
#include <stdio.h>
#include <stdlib.h>

/* Writes the text of an error code and ends the program. */
static void want(uint32_t code)
{
    char text[64];
    if (code == ICYSIXEL_OK) return;
    icysixel_strerror(code, text, sizeof text);
    fprintf(stderr, "%s\n", text);
    exit(1);
}
