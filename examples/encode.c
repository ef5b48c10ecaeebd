/* Writes a red square to standard output, as compact SIXEL in a refined palette. */
#include "icysixel.h"
#include <stdio.h>

enum { WIDTH = 12, HEIGHT = 6 };

int main(void)
{
    uint8_t pixels[4 * WIDTH * HEIGHT];
    for (size_t i = 0; i < sizeof pixels; i++) pixels[i] = i % 4 == 0 || i % 4 == 3 ? 255 : 0;

    icysixel_encoding encoding = {.width = WIDTH, .height = HEIGHT, .max_colors = 16};
    encoding.dithering.kind = ICYSIXEL_DITHER_DIFFUSION;
    encoding.tolerance = ICYSIXEL_AUTO;
    encoding.form = ICYSIXEL_FORM_COMPACT;
    icysixel_bytes text = {0};
    uint32_t code = icysixel_encode(pixels, sizeof pixels, &encoding, &text);

    if (code == ICYSIXEL_OK) {
        fwrite(text.data, 1, text.length, stdout);
    } else {
        char message[64];
        icysixel_strerror(code, message, sizeof message);
        fprintf(stderr, "%s\n", message);
    }
    icysixel_free_bytes(&text);
    return code == ICYSIXEL_OK ? 0 : 1;
}
