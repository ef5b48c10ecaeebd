/* A filter for a terminal's stream: clips each SIXEL image and encodes it again in fewer bytes.
 *
 *     filter [-w COLUMNS] [-h ROWS] <input >output
 *
 * -w and -h are the greatest size of an image in pixels. An image is written with at most 256
 * colors, and keeps its pixel shape, its background (P2) and its height: that of the raster
 * attributes, or below at the last row drawn. All other bytes are copied: text, OSC, APC, other DCS
 * sequences, and the content that tmux passes on (ESC P tmux; .. ESC \).
 *
 * Commands with a fault are ignored, as terminals do. An image without pixels inside that size is
 * left out. One without an end is copied, and so is one that memory does not suffice for.
 *
 * The output of each chunk is written before the next one is read. A chunk can end anywhere.
 * Exit status 1: a read or a write fails, or memory to store an image. Exit status 2: the arguments
 * are wrong. */
#define _POSIX_C_SOURCE 200809L
#include "icysixel.h"
#include <stdio.h>
#include <stdlib.h>
#include <string.h>
#include <unistd.h>

/* Controls: a DCS sequence begins with ESC P or with its 8-bit form. */
enum { ESC = 0x1b, DCS = 0x90 };

struct filter {
    icysixel decoder; /* all images share its color registers, as in a terminal */
    enum { TEXT, ESCAPE, IMAGE, PASSED_ON } state;
    uint8_t previous;        /* the byte before the next one, outside of images */
    uint8_t *stored;         /* the open DCS sequence, in case it is copied */
    size_t length, capacity; /* bytes at `stored` */
};

static void stop(int status, const char *reason)
{
    fprintf(stderr, "%s\n", reason);
    exit(status);
}

static void store(struct filter *filter, const void *bytes, size_t count)
{
    if (filter->capacity - filter->length < count) {
        filter->capacity = 2 * (filter->length + count);
        filter->stored = realloc(filter->stored, filter->capacity);
        if (filter->stored == NULL) stop(1, "out of memory");
    }
    memcpy(filter->stored + filter->length, bytes, count);
    filter->length += count;
}

/* Copies the DCS sequence that is stored. */
static void copy_stored(struct filter *filter)
{
    if (filter->length > 0) fwrite(filter->stored, 1, filter->length, stdout);
    filter->length = 0;
}

/* Writes an image of this shape, which was finished, unless it has no pixels; returns whether it
 * succeeds. */
static int write_image(icysixel *decoder, const icysixel_shape *shape)
{
    icysixel_encoding encoding = {.width = shape->width, .height = shape->height};
    icysixel_bytes pixels = {0}, text = {0};
    encoding.pixel_height = (uint8_t)shape->pixel_height;
    if (shape->p2 != 1) encoding.background = ICYSIXEL_BACKGROUND_OPAQUE;
    encoding.palette = ICYSIXEL_PALETTE_FARTHEST;
    encoding.form = ICYSIXEL_FORM_COMPACT;
    if (shape->bytes == 0) return 1;
    if (icysixel_take_pixels(decoder, ICYSIXEL_ORDER_RGBA, &pixels) == ICYSIXEL_OK)
        icysixel_encode(pixels.data, pixels.length, &encoding, &text);
    int is_written = text.data != NULL;
    if (is_written) fwrite(text.data, 1, text.length, stdout);
    icysixel_free_bytes(&pixels);
    icysixel_free_bytes(&text);
    return is_written;
}

/* Opens a DCS sequence at `P` after ESC, or at the 8-bit control. */
static void begin_image(struct filter *filter, uint8_t byte)
{
    icysixel_fed fed;
    const char *introducer = byte == 'P' ? "\x1bP" : "\x90";
    store(filter, introducer, strlen(introducer));
    icysixel_begin_dcs(&filter->decoder);
    icysixel_feed(&filter->decoder, filter->stored, filter->length, &fed);
    filter->state = IMAGE;
    filter->previous = 0;
}

/* Reads bytes of the open DCS sequence; returns how many belong to an image. */
static size_t read_image(struct filter *filter, const uint8_t *bytes, size_t length)
{
    icysixel_fed fed;
    icysixel_shape shape;
    if (icysixel_feed(&filter->decoder, bytes, length, &fed) != ICYSIXEL_OK) {
        /* tmux has the only DCS sequences whose first byte after ESC P is `t`. */
        int is_tmux = filter->stored[0] == ESC && filter->length == 2 && bytes[0] == 't';
        filter->state = is_tmux ? PASSED_ON : TEXT;
        icysixel_abort(&filter->decoder);
        copy_stored(filter);
        return 0;
    }
    store(filter, bytes, fed.consumed);
    if (fed.status == ICYSIXEL_MORE) return length;
    /* An ESC that interrupts the image was consumed, and begins what follows. */
    int is_cut = fed.status == ICYSIXEL_INTERRUPTED && fed.byte == ESC;
    filter->length -= (size_t)is_cut;
    filter->state = is_cut ? ESCAPE : TEXT;
    if (icysixel_finish(&filter->decoder, &shape) != ICYSIXEL_OK ||
        !write_image(&filter->decoder, &shape))
        copy_stored(filter);
    filter->length = 0;
    return fed.consumed;
}

/* Reads a byte of the content that tmux passes on, which ESC \ ends. ESC ESC is an ESC of it. */
static void read_passed_on(struct filter *filter, uint8_t byte)
{
    int is_escaped = filter->previous == ESC;
    putchar(byte);
    if (is_escaped && byte == '\\') filter->state = TEXT;
    filter->previous = is_escaped ? 0 : byte;
}

/* Reads a byte outside of images. An ESC is written once the byte after it is known. */
static void read_byte(struct filter *filter, uint8_t byte)
{
    int is_escaped = filter->state == ESCAPE;
    /* After a byte of a UTF-8 character another one is no control. */
    int is_control = byte == DCS && filter->previous < 0x80;
    if (is_escaped && byte != 'P') putchar(ESC);
    if (is_control || (is_escaped && byte == 'P')) {
        begin_image(filter, byte);
        return;
    }
    filter->state = byte == ESC ? ESCAPE : TEXT;
    if (byte != ESC) putchar(byte);
    filter->previous = byte;
}

static void read_chunk(struct filter *filter, const uint8_t *bytes, size_t length)
{
    for (size_t at = 0; at < length;)
        if (filter->state == IMAGE)
            at += read_image(filter, bytes + at, length - at);
        else if (filter->state == PASSED_ON)
            read_passed_on(filter, bytes[at++]);
        else
            read_byte(filter, bytes[at++]);
}

/* The clip that the arguments ask for. */
static icysixel_size read_arguments(int count, char **words)
{
    static const char *usage = "usage: filter [-w COLUMNS] [-h ROWS]";
    icysixel_size clip = {SIZE_MAX, SIZE_MAX};
    for (int option; (option = getopt(count, words, "w:h:")) != -1;) {
        char *end = NULL;
        size_t pixels = option == '?' ? 0 : strtoul(optarg, &end, 10);
        if (pixels == 0 || *end != '\0') stop(2, usage);
        *(option == 'w' ? &clip.width : &clip.height) = pixels;
    }
    if (optind < count) stop(2, usage);
    return clip;
}

int main(int count, char **words)
{
    struct filter filter = {0};
    icysixel_size clip = read_arguments(count, words);
    uint8_t chunk[65536];
    ssize_t length;
    if (icysixel_new(&filter.decoder) != ICYSIXEL_OK) stop(1, "out of memory");
    icysixel_set_clip(&filter.decoder, clip.width, clip.height);
    icysixel_set_height(&filter.decoder, ICYSIXEL_HEIGHT_DRAWN);
    icysixel_set_lenient(&filter.decoder, 1);
    icysixel_set_transparent(&filter.decoder, 1);
    do {
        length = read(STDIN_FILENO, chunk, sizeof chunk);
        if (length < 0) stop(1, "input fault");
        read_chunk(&filter, chunk, (size_t)length);
        if (length == 0) copy_stored(&filter);
        if (length == 0 && filter.state == ESCAPE) putchar(ESC);
        if (fflush(stdout) != 0) stop(1, "output fault");
    } while (length > 0);
    icysixel_free(&filter.decoder);
    free(filter.stored);
    return 0;
}
