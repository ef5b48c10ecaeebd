/* Times decoding or encoding in process: speed FILE TURNS [COLORS [CHUNK | KIND]]
 *
 * A FILE of a DCS sequence is decoded, fed in chunks of CHUNK bytes or as one. A FILE of raw
 * pixels, named FILE:WIDTHxHEIGHT, is encoded. With the KIND `compact` the output has the compact
 * form, with `refined` a refined palette, and with `diffused` it is diffused in such a palette by
 * the automatic strength and tolerance. The line has `decode` or `encode`, nanoseconds per pixel of
 * the best turn and of the median, and the bytes of the SIXEL output. */
#define _POSIX_C_SOURCE 200809L
#include "timing.h"
#include "want.h"

/* Decodes the bytes in chunks, and frees the pixels. */
static void decode(icysixel *decoder, const uint8_t *bytes, size_t length, size_t chunk,
                   icysixel_shape *shape)
{
    icysixel_bytes pixels = {0};
    icysixel_fed fed;
    icysixel_begin_dcs(decoder);
    for (size_t at = 0; at < length; at += chunk) {
        if (chunk > length - at) chunk = length - at;
        want(icysixel_feed(decoder, bytes + at, chunk, &fed));
    }
    want(icysixel_finish(decoder, shape));
    want(icysixel_take_pixels(decoder, ICYSIXEL_ORDER_RGBA, &pixels));
    icysixel_free_bytes(&pixels);
}

/* The settings of a kind of output. */
static icysixel_encoding encoding_of(const char *kind)
{
    icysixel_encoding it = {.palette = ICYSIXEL_PALETTE_FARTHEST};
    if (strcmp(kind, "compact") == 0) it.form = ICYSIXEL_FORM_COMPACT;
    if (strcmp(kind, "refined") == 0 || strcmp(kind, "diffused") == 0)
        it.palette = ICYSIXEL_PALETTE_REFINED;
    if (strcmp(kind, "diffused") == 0) {
        it.dithering.kind = ICYSIXEL_DITHER_DIFFUSION;
        it.tolerance = ICYSIXEL_AUTO;
    }
    return it;
}

int main(int argc, char **argv)
{
    size_t length = 0, turns = argc > 2 ? strtoull(argv[2], NULL, 10) : 0;
    uint16_t colors = argc > 3 ? (uint16_t)strtoul(argv[3], NULL, 10) : 256;
    const char *kind = argc > 4 ? argv[4] : "";
    size_t chunk = *kind ? strtoull(kind, NULL, 10) : SIZE_MAX;
    icysixel_shape shape = {0};
    int is_raw = turns > 0 && part_size(argv[1], &shape.width, &shape.height);
    icysixel_encoding encoding = encoding_of(kind);
    encoding.width = shape.width;
    encoding.height = shape.height;
    encoding.max_colors = colors;
    uint8_t *bytes = turns > 0 ? read_file(argv[1], &length) : NULL;
    double *times = calloc(turns, sizeof *times);
    if (bytes == NULL || times == NULL || (*kind && is_raw != (chunk == 0)))
        return fputs("usage: speed FILE TURNS [COLORS [CHUNK | KIND]]\n", stderr), 2;
    icysixel handle = {0};
    icysixel_bytes text = {0};
    want(icysixel_new(&handle));
    for (size_t turn = 0; turn < turns; turn++) {
        if (is_raw) icysixel_free_bytes(&text);
        double begun = now();
        if (is_raw)
            want(icysixel_encode(bytes, length, &encoding, &text));
        else
            decode(&handle, bytes, length, chunk, &shape);
        times[turn] = now() - begun;
    }
    report(is_raw ? "encode" : "decode", times, turns, shape.width * shape.height,
           is_raw ? text.length : length);
    icysixel_free_bytes(&text);
    icysixel_free(&handle);
    free(times);
    free(bytes);
    return 0;
}
