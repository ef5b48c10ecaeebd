/* libsixel's sixel_encode by this library, for programs that call it, such as img2sixel and mpv.
 * Built as a shared object and preloaded, it encodes RGB images in place of libsixel.
 *
 * An image gets a palette of its own, with at most as many colors as its dither has. It is not
 * dithered. 8-bit controls and HLS colors are not written. libsixel still encodes other pixels,
 * payloads without their DCS sequence or palette, and output that a multiplexer passes on. */
#define _GNU_SOURCE
#include "icysixel.h"
#include <dlfcn.h>
#include <sixel.h>
#include <string.h>

/* Declares `next`, the function of libsixel that this file replaces. */
#define NEXT(name)                           \
    __typeof__(name) *next;                  \
    void *address = dlsym(RTLD_NEXT, #name); \
    memcpy(&next, &address, sizeof next)

/* What a program has set in an output or in a dither. */
struct settings {
    const void *object;
    sixel_write_function write;
    void *data;
    int format, is_partial, is_passed_on;
};

/* The settings by address. One that is found with another object is lost, and libsixel encodes. */
static struct settings *settings_of(const void *object)
{
    static struct settings table[256];
    return &table[(uintptr_t)object / 16 % 256];
}

/* Defines a function of libsixel that sets a number, and stores it in the settings too. */
#define SETTER(name, type, member)           \
    void name(type *object, int value)       \
    {                                        \
        NEXT(name);                          \
        settings_of(object)->member = value; \
        next(object, value);                 \
    }

SETTER(sixel_output_set_skip_dcs_envelope, sixel_output_t, is_partial)
SETTER(sixel_output_set_penetrate_multiplexer, sixel_output_t, is_passed_on)
SETTER(sixel_dither_set_pixelformat, sixel_dither_t, format)
SETTER(sixel_dither_set_body_only, sixel_dither_t, is_partial)

SIXELSTATUS sixel_output_new(sixel_output_t **output, sixel_write_function write, void *data,
                             sixel_allocator_t *allocator)
{
    NEXT(sixel_output_new);
    SIXELSTATUS status = next(output, write, data, allocator);
    if (SIXEL_SUCCEEDED(status))
        *settings_of(*output) = (struct settings){.object = *output, .write = write, .data = data};
    return status;
}

SIXELSTATUS sixel_dither_new(sixel_dither_t **dither, int colors, sixel_allocator_t *allocator)
{
    NEXT(sixel_dither_new);
    SIXELSTATUS status = next(dither, colors, allocator);
    if (SIXEL_SUCCEEDED(status))
        *settings_of(*dither) =
            (struct settings){.object = *dither, .format = SIXEL_PIXELFORMAT_RGB888};
    return status;
}

SIXELSTATUS sixel_encode(unsigned char *pixels, int width, int height, int depth,
                         sixel_dither_t *dither, sixel_output_t *output)
{
    NEXT(sixel_encode);
    const struct settings *of_output = settings_of(output), *of_dither = settings_of(dither);
    int colors = sixel_dither_get_num_of_palette_colors(dither);
    if (of_output->object != output || of_output->is_partial || of_output->is_passed_on ||
        of_dither->object != dither || of_dither->is_partial || width <= 0 || height <= 0 ||
        of_dither->format != SIXEL_PIXELFORMAT_RGB888 || colors < 1 || colors > 256)
        return next(pixels, width, height, depth, dither, output);
    icysixel_encoding encoding = {.width = (size_t)width, .height = (size_t)height};
    icysixel_bytes text = {0};
    encoding.format = ICYSIXEL_FORMAT_RGB;
    encoding.background = ICYSIXEL_BACKGROUND_OPAQUE;
    encoding.palette = ICYSIXEL_PALETTE_FARTHEST;
    encoding.form = ICYSIXEL_FORM_COMPACT;
    encoding.max_colors = (uint16_t)colors;
    size_t length = 3 * encoding.width * encoding.height;
    uint32_t code = icysixel_encode(pixels, length, &encoding, &text);
    if (code == ICYSIXEL_OK)
        of_output->write((char *)text.data, (int)text.length, of_output->data);
    icysixel_free_bytes(&text);
    return code == ICYSIXEL_OK ? SIXEL_OK : SIXEL_BAD_INPUT;
}
