/* A terminal in short: it copies text, and shows a line for each image.
 *
 * The terminal's own parser reads DCS, its parameters and `q`, and passes the payload on. */
#include "icysixel.h"
#include <stdio.h>

enum { CELL_HEIGHT = 20, SCREEN_WIDTH = 800, SCREEN_HEIGHT = 480 };

/* The terminal's own colors. Register 0 is its background, on which opaque images are drawn. */
static const icysixel_color palette[] = {{40, 42, 54}, {255, 85, 85}, {80, 250, 123}};

struct terminal {
    icysixel sixel; /* zeroed, and created with the first image */
    enum { TEXT, ESCAPE, PARAMETERS, PAYLOAD, SKIPPED } state;
    int32_t parameters[3], count; /* later ones go to the third */
    size_t rows;    /* rows of cells that are reserved for the open image */
    uint32_t error; /* the last error that was shown for the image, or 0 */
};

/* Opens an image with the parameters that the parser has read. */
static uint32_t begin_image(struct terminal *term)
{
    const int32_t *p = term->parameters;
    term->rows = term->error = 0;
    if (icysixel_is_empty(&term->sixel)) {
        uint32_t code = icysixel_new(&term->sixel);
        if (code != ICYSIXEL_OK) return code;
        icysixel_set_height(&term->sixel, ICYSIXEL_HEIGHT_DRAWN);
        icysixel_set_lenient(&term->sixel, 1);
        icysixel_set_registers(&term->sixel, 0, palette, sizeof palette / sizeof *palette);
        icysixel_set_first_register(&term->sixel, 15);
        icysixel_set_clip(&term->sixel, SCREEN_WIDTH, SCREEN_HEIGHT);
    }
    icysixel_begin_payload(&term->sixel, p[0], p[1]);
    return ICYSIXEL_OK;
}

/* Reserves the rows of cells for an image of this height, and scrolls. */
static void reserve_rows(struct terminal *term, size_t height)
{
    for (; term->rows * CELL_HEIGHT < height; term->rows++) putchar('\n');
}

/* Finishes the image and draws it. The cursor stays where it is if the image is empty. */
static uint32_t end_image(struct terminal *term)
{
    icysixel_shape shape;
    icysixel_bytes pixels = {0};
    uint32_t code = icysixel_finish(&term->sixel, &shape);
    if (code != ICYSIXEL_OK || shape.is_empty) return code;
    code = icysixel_take_pixels(&term->sixel, ICYSIXEL_ORDER_RGBA, &pixels);
    if (code != ICYSIXEL_OK) return code;
    reserve_rows(term, shape.height);
    const uint8_t *last = pixels.data + pixels.length - 4;
    printf("[%zu x %zu pixels on %zu rows, the last pixel is %02x%02x%02x]", shape.width,
           shape.height, term->rows, last[0], last[1], last[2]);
    icysixel_free_bytes(&pixels);
    return ICYSIXEL_OK;
}

/* Shows the error of an image once: an allocation failed. */
static void show_error(struct terminal *term, uint32_t code)
{
    char text[64];
    if (code == ICYSIXEL_OK || code == term->error) return;
    term->error = code;
    icysixel_strerror(code, text, sizeof text);
    printf("[%s]", text);
}

/* Reads a part of the payload, and returns how many bytes belong to it, also after an error. */
static size_t read_payload(struct terminal *term, const uint8_t *bytes, size_t length)
{
    icysixel_fed fed = {0};
    show_error(term, icysixel_feed(&term->sixel, bytes, length, &fed));
    reserve_rows(term, icysixel_get_drawn_height(&term->sixel));
    if (fed.status == ICYSIXEL_COMPLETE) {
        show_error(term, end_image(term));
        term->state = TEXT; /* the terminator is not consumed: the parser reads it */
    }
    return fed.consumed;
}

/* Reads a byte that belongs to no payload. */
static void parse(struct terminal *term, uint8_t byte)
{
    int32_t *last = &term->parameters[term->count];
    if (byte == 0x1b) {
        term->state = ESCAPE;
    } else if (term->state == ESCAPE && byte == 'P') {
        term->state = PARAMETERS;
        term->count = 0;
        for (int i = 0; i < 3; i++) term->parameters[i] = -1; /* absent */
    } else if (term->state == PARAMETERS && byte >= '0' && byte <= '9') {
        if (*last < 6553) *last = (*last < 0 ? 0 : 10 * *last) + byte - '0';
    } else if (term->state == PARAMETERS && byte == ';') {
        term->count += term->count < 2;
    } else if (term->state == PARAMETERS && byte == 'q') {
        uint32_t code = begin_image(term);
        term->state = code == ICYSIXEL_OK ? PAYLOAD : SKIPPED;
        show_error(term, code);
    } else if (term->state == PARAMETERS) {
        term->state = SKIPPED; /* a DCS sequence that is not SIXEL */
    } else if (term->state == TEXT) {
        putchar(byte);
    } else if (term->state != SKIPPED) {
        term->state = TEXT;
    }
}

int main(void)
{
    struct terminal term = {0};
    uint8_t bytes[4096];
    size_t length;
    while ((length = fread(bytes, 1, sizeof bytes, stdin)) > 0)
        for (size_t at = 0; at < length;)
            if (term.state == PAYLOAD)
                at += read_payload(&term, bytes + at, length - at);
            else
                parse(&term, bytes[at++]);
    icysixel_free(&term.sixel);
    return 0;
}
