/* Times libsixel in process, as speed.c times this library: libsixel FILE TURNS [COLORS [KIND]]
 *
 * Each turn of decoding ends with pixels of four bytes. Each turn of encoding begins with such
 * pixels, converts them to three bytes each, and has the quality that img2sixel chooses for more
 * than eight colors. It diffuses errors (Floyd and Steinberg) with the KIND `diffused`, and chooses
 * the smallest output with `compact`. */
#define _POSIX_C_SOURCE 200809L
#include "timing.h"
#include <sixel.h>

/* Writes the text of an error status and ends the program. */
static void want(SIXELSTATUS status)
{
    if (SIXEL_SUCCEEDED(status)) return;
    fprintf(stderr, "libsixel: %s\n", sixel_helper_format_error(status));
    exit(1);
}

/* Allocates a buffer. */
static uint8_t *room_for(size_t bytes)
{
    uint8_t *room = malloc(bytes);
    if (room == NULL) want(SIXEL_BAD_ALLOCATION);
    return room;
}

/* The pixels of a DCS sequence, for the caller to free. */
static uint8_t *decoded(uint8_t *bytes, size_t length, size_t *width, size_t *height)
{
    uint8_t *indices, *palette, colors[256][4] = {0};
    int wide, high, count;
    want(sixel_decode_raw(bytes, (int)length, &indices, &wide, &high, &palette, &count, NULL));
    for (int color = 0; color < count && color < 256; color++) {
        memcpy(colors[color], palette + 3 * color, 3);
        colors[color][3] = 255;
    }
    *width = (size_t)wide;
    *height = (size_t)high;
    uint8_t *pixels = room_for(4 * *width * *height);
    for (size_t pixel = 0; pixel < *width * *height; pixel++)
        memcpy(pixels + 4 * pixel, colors[indices[pixel]], 4);
    free(indices);
    free(palette);
    return pixels;
}

/* A buffer that grows. */
typedef struct {
    char *bytes;
    size_t length;
    size_t room;
} text;

static int append(char *bytes, int length, void *to)
{
    text *whole = to;
    while (whole->length + (size_t)length > whole->room) {
        whole->room = whole->room > 0 ? 2 * whole->room : 1 << 16;
        whole->bytes = realloc(whole->bytes, whole->room);
        if (whole->bytes == NULL) want(SIXEL_BAD_ALLOCATION);
    }
    memcpy(whole->bytes + whole->length, bytes, (size_t)length);
    whole->length += (size_t)length;
    return length;
}

/* The number of bytes of the SIXEL output of these pixels. */
static size_t encoded(const uint8_t *pixels, size_t width, size_t height, int colors,
                      const char *kind)
{
    sixel_dither_t *dither;
    sixel_output_t *output;
    text whole = {0};
    uint8_t *rgb = room_for(3 * width * height);
    for (size_t pixel = 0; pixel < width * height; pixel++)
        memcpy(rgb + 3 * pixel, pixels + 4 * pixel, 3);
    want(sixel_dither_new(&dither, colors, NULL));
    want(sixel_dither_initialize(dither, rgb, (int)width, (int)height, SIXEL_PIXELFORMAT_RGB888,
                                 SIXEL_LARGE_AUTO, SIXEL_REP_AUTO, SIXEL_QUALITY_LOW));
    int is_diffused = strcmp(kind, "diffused") == 0, is_small = strcmp(kind, "compact") == 0;
    sixel_dither_set_diffusion_type(dither, is_diffused ? SIXEL_DIFFUSE_FS : SIXEL_DIFFUSE_NONE);
    want(sixel_output_new(&output, append, &whole, NULL));
    if (is_small) sixel_output_set_encode_policy(output, SIXEL_ENCODEPOLICY_SIZE);
    want(sixel_encode(rgb, (int)width, (int)height, 3, dither, output));
    sixel_output_unref(output);
    sixel_dither_unref(dither);
    free(rgb);
    free(whole.bytes);
    return whole.length;
}

int main(int argc, char **argv)
{
    size_t length = 0, width, height, turns = argc > 2 ? strtoull(argv[2], NULL, 10) : 0;
    int colors = argc > 3 ? atoi(argv[3]) : 256;
    int is_raw = turns > 0 && part_size(argv[1], &width, &height);
    uint8_t *file = turns > 0 ? read_file(argv[1], &length) : NULL;
    double *times = calloc(turns, sizeof *times);
    if (file == NULL || times == NULL)
        return fputs("usage: libsixel FILE TURNS [COLORS [KIND]]\n", stderr), 2;
    size_t text = length;
    for (size_t turn = 0; turn < turns; turn++) {
        double begun = now();
        if (is_raw)
            text = encoded(file, width, height, colors, argc > 4 ? argv[4] : "");
        else
            free(decoded(file, length, &width, &height));
        times[turn] = now() - begun;
    }
    report(is_raw ? "encode" : "decode", times, turns, width * height, text);
    free(times);
    free(file);
    return 0;
}
