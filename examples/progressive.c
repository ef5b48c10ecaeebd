/* Draws an image on standard input, band by band, to the memory of a window. */
#include "icysixel.h"
#include <stdio.h>

enum { COLUMNS = 640, ROWS = 480 };

/* The memory of the window, and how rows lie in it. */
static uint8_t window[4 * COLUMNS * ROWS];
static const icysixel_layout layout = {4 * COLUMNS, COLUMNS, ICYSIXEL_ORDER_BGRA};

/* Whether the image needs more data. */
static int goes_on(const icysixel_fed *fed)
{
    return fed->status == ICYSIXEL_MORE || fed->status == ICYSIXEL_ROWS;
}

/* Reads a chunk band by band, and draws the rows that are final then, below those drawn before. */
static uint32_t draw_bands(icysixel *sixel, const uint8_t *chunk, size_t length, icysixel_fed *fed,
                           size_t *drawn)
{
    uint32_t code = ICYSIXEL_OK;
    for (size_t at = 0; at < length && goes_on(fed); at += fed->consumed) {
        code = icysixel_feed_band(sixel, chunk + at, length - at, fed);
        if (code != ICYSIXEL_OK) break;
        if (fed->status != ICYSIXEL_ROWS) continue;
        size_t rows = icysixel_get_rows_so_far(sixel), start = *drawn * layout.stride;
        code = icysixel_copy_rows(sixel, *drawn, rows - *drawn, &layout, window + start,
                                  sizeof window - start);
        if (code == ICYSIXEL_OK) code = icysixel_release_rows(sixel, rows);
        if (code != ICYSIXEL_OK) break;
        printf("rows %zu to %zu\n", *drawn, rows - 1);
        *drawn = rows;
    }
    return code;
}

/* Ends the image, and draws the rows that are left. */
static uint32_t draw_rest(icysixel *sixel, size_t drawn)
{
    icysixel_shape shape;
    size_t start = drawn * layout.stride;
    uint32_t code = icysixel_finish(sixel, &shape);
    if (code == ICYSIXEL_OK)
        code = icysixel_copy_pixels(sixel, drawn, shape.height - drawn, &layout, window + start,
                                    sizeof window - start);
    if (code == ICYSIXEL_OK)
        printf("%zu x %zu pixels, the first is %02x%02x%02x\n", shape.width, shape.height,
               window[2], window[1], window[0]);
    return code;
}

int main(void)
{
    icysixel sixel = {0};
    icysixel_fed fed = {0};
    uint8_t chunk[4096];
    size_t length, drawn = 0;
    uint32_t code = icysixel_new(&sixel);
    icysixel_set_clip(&sixel, COLUMNS, ROWS);
    icysixel_begin_dcs(&sixel);
    while (code == ICYSIXEL_OK && goes_on(&fed)
           && (length = fread(chunk, 1, sizeof chunk, stdin)) > 0)
        code = draw_bands(&sixel, chunk, length, &fed, &drawn);
    if (code == ICYSIXEL_OK) code = draw_rest(&sixel, drawn);
    if (code != ICYSIXEL_OK) {
        char text[64];
        icysixel_strerror(code, text, sizeof text);
        fprintf(stderr, "%s\n", text);
    }
    icysixel_free(&sixel);
    return code == ICYSIXEL_OK ? 0 : 1;
}
