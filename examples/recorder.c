/* Records a terminal's stream: crops each SIXEL image to the screen and encodes it again.
 *
 *     recorder COLUMNSxROWS WIDTHxHEIGHT <stream >recording
 *
 * The screen has that many cells, of that many pixels each. An image without pixels is left out.
 * All other bytes are copied, also an image that tmux passes on, whose ESC P is ESC ESC P.
 *
 * Exit status 1: a picture is not exact, because it has more than 256 colors or one that no palette
 * can have; or memory, a read or a write fails. Exit status 2: the arguments are wrong. */
#define _POSIX_C_SOURCE 200809L
#include "icysixel.h"
#include <stdio.h>
#include <stdlib.h>
#include <string.h>
#include <unistd.h>

/* A DCS sequence begins with ESC P or with its 8-bit form. */
enum { ESC = 0x1b, DCS = 0x90 };

struct recorder {
    icysixel stream, recording; /* the registers of a terminal that shows the one or the other */
    size_t columns, rows;       /* pixels of the screen */
    enum { TEXT, HEADER, IMAGE } state;
    uint8_t previous;   /* the byte before, outside of payloads */
    uint8_t header[64]; /* from the introducer to `q`; no header of an image is longer */
    size_t length;      /* bytes of the header */
    int is_lossy;
};

/* Stops at an error. Images are lenient, so the library has no other one. */
static void check(uint32_t code)
{
    if (code == ICYSIXEL_OK) return;
    fputs("out of memory\n", stderr);
    exit(1);
}

/* Encodes what the screen shows of an image, exactly if a palette can have its colors. */
static void encode(struct recorder *it, icysixel_bytes pixels, const icysixel_shape *shape,
                   icysixel_bytes *text)
{
    icysixel_encoding encoding = {.stride = 4 * shape->width};
    encoding.width = shape->width < it->columns ? shape->width : it->columns;
    encoding.height = shape->height < it->rows ? shape->height : it->rows;
    encoding.pixel_height = (uint8_t)shape->pixel_height;
    if (shape->p2 != 1) encoding.background = ICYSIXEL_BACKGROUND_OPAQUE;
    encoding.form = ICYSIXEL_FORM_COMPACT;
    check(icysixel_encode(pixels.data, pixels.length, &encoding, text));
}

/* Writes the image that has ended, and compares what the stream and the recording show. */
static void write_image(struct recorder *it)
{
    icysixel_shape shape, cropped;
    icysixel_bytes pixels = {0}, text = {0}, shown = {0};
    icysixel_color color; /* of the background, as the image began */
    check(icysixel_get_register(&it->stream, 0, &color));
    check(icysixel_finish(&it->stream, &shape));
    it->state = TEXT;
    if (shape.bytes == 0) return;
    check(icysixel_take_pixels(&it->stream, ICYSIXEL_ORDER_RGBA, &pixels));
    encode(it, pixels, &shape, &text);
    fwrite(text.data, 1, text.length, stdout);
    check(icysixel_decode(&it->recording, text.data, text.length, &cropped));
    check(icysixel_take_pixels(&it->recording, ICYSIXEL_ORDER_RGBA, &shown));
    const uint8_t background[4] = {color.red, color.green, color.blue, 255};
    for (size_t at = 0; at < shown.length && !it->is_lossy; at += 4) {
        size_t row = at / 4 / cropped.width, column = at / 4 % cropped.width;
        const uint8_t *pixel = pixels.data + 4 * (row * shape.width + column);
        if (pixel[3] == 0 && shape.p2 != 1) pixel = background;
        it->is_lossy = memcmp(shown.data + at, pixel, 4) != 0;
    }
    icysixel_free_bytes(&pixels);
    icysixel_free_bytes(&text);
    icysixel_free_bytes(&shown);
}

/* Reads a byte of text or of a header. A header that is none of an image is text, too. */
static void read_byte(struct recorder *it, uint8_t byte)
{
    icysixel_fed fed;
    int is_introducer = byte == ESC ? it->previous != ESC : byte == DCS && it->previous < 0x80;
    if (it->state == TEXT && is_introducer) {
        icysixel_begin_dcs(&it->stream);
        it->state = HEADER;
        it->length = 0;
    }
    if (it->state == TEXT) {
        putchar(byte);
        it->previous = byte;
        return;
    }
    uint32_t code = icysixel_feed(&it->stream, &byte, 1, &fed);
    if (code == ICYSIXEL_OUT_OF_MEMORY) check(code);
    if (code == ICYSIXEL_OK && it->length < sizeof it->header) {
        it->header[it->length++] = it->previous = byte;
        if (icysixel_in_payload(&it->stream)) it->state = IMAGE;
    } else {
        fwrite(it->header, 1, it->length, stdout);
        it->state = TEXT;
        read_byte(it, byte);
    }
}

/* Reads bytes of a payload; returns how many belong to it. */
static size_t read_payload(struct recorder *it, const uint8_t *bytes, size_t length)
{
    icysixel_fed fed;
    check(icysixel_feed(&it->stream, bytes, length, &fed));
    if (fed.status == ICYSIXEL_MORE) return length;
    write_image(it);
    /* An ESC that interrupts the image was consumed, and begins what follows. */
    if (fed.status == ICYSIXEL_INTERRUPTED && fed.byte == ESC) read_byte(it, ESC);
    return fed.consumed;
}

int main(int count, char **words)
{
    struct recorder it = {0};
    size_t width, height;
    uint8_t chunk[65536];
    ssize_t length;
    if (count != 3 || sscanf(words[1], "%4zux%4zu", &it.columns, &it.rows) != 2 ||
        sscanf(words[2], "%4zux%4zu", &width, &height) != 2) {
        fputs("usage: recorder COLUMNSxROWS WIDTHxHEIGHT\n", stderr);
        return 2;
    }
    check(icysixel_new(&it.stream));
    check(icysixel_new(&it.recording));
    it.columns = it.columns * width > 0 ? it.columns * width : 1;
    it.rows = it.rows * height > 0 ? it.rows * height : 1;
    icysixel_set_lenient(&it.stream, 1);
    icysixel_set_transparent(&it.stream, 1);
    icysixel_set_height(&it.stream, ICYSIXEL_HEIGHT_DRAWN);
    icysixel_set_height(&it.recording, ICYSIXEL_HEIGHT_DRAWN);
    while ((length = read(STDIN_FILENO, chunk, sizeof chunk)) > 0) {
        for (size_t at = 0; at < (size_t)length;)
            if (it.state != IMAGE) read_byte(&it, chunk[at++]);
            else at += read_payload(&it, chunk + at, (size_t)length - at);
        if (fflush(stdout) != 0) break;
    }
    if (it.state == IMAGE) write_image(&it);
    if (it.state == HEADER) fwrite(it.header, 1, it.length, stdout);
    icysixel_free(&it.stream);
    icysixel_free(&it.recording);
    if (fflush(stdout) == 0 && !ferror(stdout) && length == 0) return it.is_lossy;
    perror("recorder");
    return 1;
}
