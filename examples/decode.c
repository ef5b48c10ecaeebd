/* Decodes a DCS sequence on standard input to raw RGBA pixels on standard output. */
#include "icysixel.h"
#include <stdio.h>

int main(void)
{
    icysixel decoder = {0};
    icysixel_fed fed = {0};
    icysixel_shape shape = {0};
    icysixel_bytes pixels = {0};
    uint8_t chunk[4096];
    size_t length;

    uint32_t code = icysixel_new(&decoder);
    icysixel_set_height(&decoder, ICYSIXEL_HEIGHT_RASTER);
    icysixel_begin_dcs(&decoder);
    while (code == ICYSIXEL_OK && fed.status == ICYSIXEL_MORE
           && (length = fread(chunk, 1, sizeof chunk, stdin)) > 0)
        code = icysixel_feed(&decoder, chunk, length, &fed);
    if (code == ICYSIXEL_OK) code = icysixel_finish(&decoder, &shape);
    if (code == ICYSIXEL_OK) code = icysixel_take_pixels(&decoder, ICYSIXEL_ORDER_RGBA, &pixels);

    if (code == ICYSIXEL_OK) {
        fprintf(stderr, "%zu x %zu pixels\n", shape.width, shape.height);
        fwrite(pixels.data, 1, pixels.length, stdout);
    } else {
        char text[64];
        icysixel_strerror(code, text, sizeof text);
        fprintf(stderr, "%s\n", text);
    }
    icysixel_free_bytes(&pixels);
    icysixel_free(&decoder);
    return code == ICYSIXEL_OK ? 0 : 1;
}
