/* The payloads of files, for tests of code that hosts use. */
#include <stdio.h>
#include <stdlib.h>
#include <string.h>

/* Reads what follows the first `q` of a file, with a zero at its end; returns its length. */
static size_t read_payload(const char *name, char *payload, size_t capacity)
{
    FILE *file = fopen(name, "rb");
    if (file == NULL) abort();
    size_t length = fread(payload, 1, capacity - 1, file);
    fclose(file);
    payload[length] = '\0';
    char *q = memchr(payload, 'q', length);
    if (q == NULL) return 0;
    length -= (size_t)(q + 1 - payload);
    memmove(payload, q + 1, length + 1);
    return length;
}
