/* Shared by the tests of the C library: checks, bytes, registers and images. */
#ifndef CHECKS_H
#define CHECKS_H

#include "icysixel.h"
#include <stdbool.h>
#include <stdio.h>
#include <stdlib.h>
#include <string.h>

#define COUNT_OF(table) (sizeof(table) / sizeof *(table))
#define CHECK(fact) ((fact) ? (void)0 : stop(__FILE__, __LINE__, #fact))

/* The input that is tried, as a failed check names it: a file or a table, and a line of it. */
static _Thread_local const char *subject = "";
static _Thread_local size_t line_number;

/* Ends the program because a check failed. */
static inline void stop(const char *file, int line, const char *fact)
{
    printf("%s:%d: %s:%zu: failed: %s\n", file, line, subject, line_number, fact);
    exit(1);
}

/* Bytes in a block of their own, or a part of one. */
struct bytes { uint8_t *at; size_t length; };

/* Up to `length` of the bytes from a place on. */
static inline struct bytes part(struct bytes bytes, size_t from, size_t length)
{
    size_t left = bytes.length - from;
    return (struct bytes){bytes.at + from, length < left ? length : left};
}

/* Appends bytes. A block is exactly as long as its bytes, so that tools see each access beyond. */
static inline void append(struct bytes *bytes, const void *more, size_t length)
{
    if (length == 0) return;
    bytes->at = realloc(bytes->at, bytes->length + length);
    CHECK(bytes->at != NULL);
    memcpy(bytes->at + bytes->length, more, length);
    bytes->length += length;
}

/* A handle with a new decoder. */
static inline icysixel new_handle(void)
{
    icysixel handle = {0};
    CHECK(icysixel_new(&handle) == ICYSIXEL_OK);
    return handle;
}

/* The text of these pixels. */
static inline icysixel_bytes text_of(struct bytes pixels, const icysixel_encoding *encoding)
{
    icysixel_bytes text = {0};
    CHECK(icysixel_encode(pixels.at, pixels.length, encoding, &text) == ICYSIXEL_OK);
    return text;
}

/* All 256 registers of a decoder. */
struct registers { icysixel_color colors[256]; };

static inline struct registers registers_of(const icysixel *decoder)
{
    struct registers registers;
    CHECK(icysixel_get_registers(decoder, 0, registers.colors, 256) == ICYSIXEL_OK);
    return registers;
}

static inline bool has_registers(const icysixel *decoder, const struct registers *expected)
{
    struct registers found = registers_of(decoder);
    return memcmp(&found, expected, sizeof found) == 0;
}

/* After an error each feed and finish fails in the same way, and no count is left. */
static inline void check_failed(icysixel *decoder, uint32_t failed)
{
    icysixel_fed fed;
    icysixel_shape shape;
    icysixel_size size;
    CHECK(icysixel_feed(decoder, NULL, 0, &fed) == failed);
    CHECK(icysixel_feed(decoder, (const uint8_t *)"~", 1, &fed) == failed);
    CHECK(icysixel_get_drawn_height(decoder) == 0);
    CHECK(icysixel_get_size_so_far(decoder, &size) == ICYSIXEL_NO_SIZE);
    CHECK(icysixel_finish(decoder, &shape) == failed);
}

/* An image, or the code of the error in place of one. */
struct outcome {
    uint32_t code;
    icysixel_shape shape;
    uint8_t *pixels;
};

/* Copies the stored image into the outcome if the code is that of success. */
static inline struct outcome outcome_of(const icysixel *decoder, uint32_t code,
                                        icysixel_shape shape)
{
    struct outcome outcome = {code, shape, NULL};
    if (code != ICYSIXEL_OK) return outcome;
    CHECK(shape.bytes == 4 * shape.width * shape.height);
    outcome.pixels = malloc(shape.bytes);
    CHECK(icysixel_copy_pixels(decoder, 0, shape.height, &(icysixel_layout){0}, outcome.pixels,
                               shape.bytes) == ICYSIXEL_OK);
    return outcome;
}

/* Whether two outcomes are the same. In the second one a drawn height and a raster width of
 * SIZE_MAX are unknown. */
static inline bool is_same(const struct outcome *one, const struct outcome *other)
{
    const icysixel_shape *a = &one->shape, *b = &other->shape;
    if (one->code != other->code || one->code != ICYSIXEL_OK) return one->code == other->code;
    return a->width == b->width && a->height == b->height && a->pixel_width == b->pixel_width
        && a->pixel_height == b->pixel_height && a->p1 == b->p1 && a->p2 == b->p2
        && (a->drawn_height == b->drawn_height || b->drawn_height == SIZE_MAX)
        && (b->raster_width == SIZE_MAX
            || (a->raster_width == b->raster_width && a->raster_height == b->raster_height
                && a->is_empty == b->is_empty))
        && a->bytes == b->bytes && memcmp(one->pixels, other->pixels, a->bytes) == 0;
}

#endif
