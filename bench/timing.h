/* Shared by programs that time calls in process: clock, best and median turn, bytes of a file. */
#include <stdint.h>
#include <stdio.h>
#include <stdlib.h>
#include <string.h>
#include <time.h>

/* Nanoseconds of the processor that this process has used. */
static double now(void)
{
    struct timespec time;
    clock_gettime(CLOCK_PROCESS_CPUTIME_ID, &time);
    return 1e9 * (double)time.tv_sec + (double)time.tv_nsec;
}

static int by_value(const void *left, const void *right)
{
    double a = *(const double *)left, b = *(const double *)right;
    return (a > b) - (a < b);
}

/* Writes a line: the word, nanoseconds per pixel of the best and of the median turn, and bytes. */
static void report(const char *word, double *times, size_t turns, size_t pixels, size_t bytes)
{
    qsort(times, turns, sizeof *times, by_value);
    printf("%s %.3f %.3f %zu\n", word, times[0] / (double)pixels,
           times[turns / 2] / (double)pixels, bytes);
}

/* The bytes of a file, for the caller to free. */
static uint8_t *read_file(const char *name, size_t *length)
{
    FILE *file = fopen(name, "rb");
    uint8_t *bytes = NULL;
    if (file != NULL && fseek(file, 0, SEEK_END) == 0 &&
        (bytes = malloc((size_t)ftell(file) + 1)) != NULL) {
        rewind(file);
        *length = fread(bytes, 1, (size_t)1 << 31, file);
        fclose(file);
    }
    return bytes;
}

/* Cuts the size of raw pixels off a name FILE:WIDTHxHEIGHT; returns whether there is one. */
static int part_size(char *name, size_t *width, size_t *height)
{
    char *colon = strrchr(name, ':');
    if (colon == NULL || sscanf(colon, ":%zux%zu", width, height) != 2) return 0;
    *colon = 0;
    return 1;
}
