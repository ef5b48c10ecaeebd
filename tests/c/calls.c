/* Tests each call on an empty handle, and on a handle with a decoder in each of its states. */
#include "checks.h"

_Static_assert(sizeof(icysixel) == 16 && sizeof(icysixel_fed) == 16 && sizeof(icysixel_size) == 16
    && sizeof(icysixel_shape) == 72 && sizeof(icysixel_color) == 3 && sizeof(icysixel_bytes) == 24
    && sizeof(icysixel_palette) == 24 && sizeof(icysixel_refined) == 16
    && sizeof(icysixel_distinct) == 4 && sizeof(icysixel_dithering) == 2
    && sizeof(icysixel_encoding) == 808
    && sizeof(icysixel_layout) == 24, "the sizes of the structs");

/* Checks that a call returns the code of this name. */
#define RETURNS(name, call) CHECK((call) == ICYSIXEL_##name)

#define SIZED(array) (array), sizeof(array)
#define BYTES(text) (const uint8_t *)(text), strlen(text)
#define DECODE(text) icysixel_decode(h, BYTES(text), &shape)
#define FEED(text) icysixel_feed(h, BYTES(text), &fed)
#define ENCODE(pixels) encode(SIZED(pixels), &e)
#define HAS_IMAGE                                                                                  \
    (icysixel_copy_pixels(h, 0, 0, &(icysixel_layout){0}, NULL, 0) != ICYSIXEL_NO_IMAGE)
#define RED "\377\0\0\377"
#define FOUR_RED RED RED RED RED
#define IS_RED(pixels, count) are_rows(pixels, count, RED, 4)

enum {
    OK = ICYSIXEL_OK, BAD = ICYSIXEL_MALFORMED,
    SMALL = ICYSIXEL_BUFFER_TOO_SMALL, STRIDE = ICYSIXEL_BAD_STRIDE, NO_SIZE = ICYSIXEL_NO_SIZE,
    MISMATCH = ICYSIXEL_BUFFER_MISMATCH, COLORS = ICYSIXEL_COLOR_COUNT,
};

/* Begins a loop over the rows of a table, which a failed check names. */
#define EACH(row, table)                                                                           \
    for (const __typeof__(*(table)) *row = (table);                                                \
         line_number = (size_t)(row - (table)), line_number < COUNT_OF(table); row++)

/* The handle, and what the calls write. */
static icysixel handle, *const h = &handle;
static icysixel_fed fed;
static icysixel_shape shape;
static icysixel_size size;
static icysixel_color color;
static icysixel_bytes text;

/* Twelve columns of six red pixels, and four bytes that are not part of the image. */
static const char red[] = "\033P9;1q#1;2;100;0;0!12~\033\\more";

/* Whether a block of the library is aligned as those of malloc. */
static bool is_aligned(icysixel_bytes block)
{
    return (uintptr_t)block.data % _Alignof(max_align_t) == 0;
}

/* Encodes pixels, and frees the text before. */
static uint32_t encode(const uint8_t *pixels, size_t length, const icysixel_encoding *encoding)
{
    icysixel_free_bytes(&text);
    uint32_t code = icysixel_encode(pixels, length, encoding, &text);
    CHECK(is_aligned(text));
    return code;
}

/* The red of register 1: 51 in a new decoder. */
static uint8_t red_of_1(void)
{
    RETURNS(OK, icysixel_get_register(h, 1, &color));
    return color.red;
}

/* Whether each of `count` rows has these bytes. */
static bool are_rows(const uint8_t *rows, size_t count, const void *row, size_t length)
{
    for (size_t i = 0; i < count; i++)
        if (memcmp(rows + length * i, row, length) != 0) return false;
    return true;
}

/* Calls that return nothing do nothing on an empty handle. */
static void make_silent_calls(void)
{
    icysixel_begin_dcs(h), icysixel_begin_payload(h, 9, 1), icysixel_abort(h);
    icysixel_discard_image(h), icysixel_set_register(h, 1, 2, 3, 4);
    icysixel_set_registers(h, 1, &color, 1), icysixel_reset_registers(h);
    icysixel_set_lenient(h, 1), icysixel_set_transparent(h, 1), icysixel_set_limit(h, 1);
    icysixel_set_clip(h, 1, 1), icysixel_set_first_register(h, 1);
}

/* On an empty handle each call reports that, and writes nothing. */
static void test_empty_handle(void)
{
    icysixel_bytes block = {&(uint8_t){7}, 7, 7};
    icysixel_layout layout = {4, 1, ICYSIXEL_ORDER_RGBA};
    uint8_t buffer[4] = {7, 7, 7, 7};
    fed.consumed = shape.width = shape.bytes = size.width = color.red = 7;
    make_silent_calls();
    CHECK(icysixel_is_empty(h) == 1);
    const uint32_t codes[] = {
        FEED("~"), icysixel_feed_band(h, BYTES("~"), &fed), icysixel_finish(h, &shape),
        icysixel_release_rows(h, 0), icysixel_get_size_so_far(h, &size),
        icysixel_copy_rows(h, 0, 1, &layout, buffer, 4),
        DECODE(red), icysixel_decode_payload(h, BYTES("~"), 9, 1, &shape),
        icysixel_copy_pixels(h, 0, 1, &layout, buffer, 4), icysixel_take_pixels(h, 0, &block),
        icysixel_get_register(h, 1, &color), icysixel_get_registers(h, 1, &color, 1),
        icysixel_get_clip(h, &size), icysixel_set_height(h, 9),
    };
    EACH(code, codes) CHECK(*code == ICYSIXEL_NO_HANDLE);
    CHECK(fed.consumed == 7 && shape.width == 7 && shape.bytes == 7 && size.width == 7);
    CHECK(block.length == 7 && color.red == 7 && memcmp(buffer, "\7\7\7\7", 4) == 0);
    CHECK((icysixel_is_receiving(h) | icysixel_in_payload(h) | icysixel_get_drawn_height(h)
           | icysixel_get_rows_so_far(h) | icysixel_get_height(h)
           | icysixel_get_lenient(h) | icysixel_get_transparent(h) | icysixel_get_limit(h)
           | icysixel_get_first_register(h)) == 0);
    icysixel_free(h);
}

/* A session reports its progress. Rows of the image above the band of the next sixel are final. */
static void test_progress(void)
{
    static const struct {
        const char *chunk;
        uint32_t code;
        size_t rows, drawn_height, width, height;
    } chunks[] = {
        {"~~", OK, 0, 6, 2, 6}, {"-", OK, 6, 6, 2, 6}, {"---", OK, 6, 6, 2, 6},
        {"!9B", OK, 24, 26, 9, 30}, {"!0", OK, 24, 26, 9, 30}, {"!65536~", BAD, 0, 0, 0, 0},
    };
    CHECK(icysixel_get_rows_so_far(h) == 0);
    icysixel_begin_dcs(h);
    RETURNS(OK, FEED("\033P"));
    CHECK(icysixel_is_receiving(h) == 1 && icysixel_in_payload(h) == 0);
    CHECK(icysixel_get_size_so_far(h, &size) == NO_SIZE && FEED("q") == OK);
    EACH(row, chunks) {
        CHECK(FEED(row->chunk) == row->code && icysixel_get_rows_so_far(h) == row->rows);
        CHECK(icysixel_in_payload(h) == (row->code == OK) && icysixel_is_receiving(h) == 1);
        CHECK(icysixel_get_size_so_far(h, &size) == (row->code == OK ? OK : NO_SIZE));
        CHECK(row->code == BAD || (size.width == row->width && size.height == row->height));
        CHECK(icysixel_get_drawn_height(h) == row->drawn_height);
    }
    icysixel_abort(h);
    CHECK(!icysixel_is_receiving(h) && icysixel_get_rows_so_far(h) == 0);
}

/* A feed that fails writes which bytes belong to the image, and later ones return its error.
 * Without an image it writes nothing. */
static void test_failed_feeds(void)
{
    static const struct { const char *chunk; uint32_t code; size_t consumed; uint32_t status; }
    chunks[] = {
        {"~!65536~", BAD, 8, ICYSIXEL_MORE},
        {"~-\033", BAD, 3, ICYSIXEL_MORE},
        {"\\text", BAD, 1, ICYSIXEL_COMPLETE},
        {"text", BAD, 0, ICYSIXEL_COMPLETE},
    };
    icysixel_begin_dcs(h);
    RETURNS(OK, FEED("\033Pq"));
    EACH(row, chunks) {
        CHECK(FEED(row->chunk) == row->code && fed.consumed == row->consumed);
        CHECK(fed.status == row->status && fed.byte == 0);
    }
    icysixel_abort(h);
    CHECK(FEED("~") == ICYSIXEL_NO_SESSION && fed.status == ICYSIXEL_COMPLETE);
}

/* A feed up to a new line reports rows if they became final: those of blank bands do so later. */
static void test_bands(void)
{
    static const struct { const char *rest; uint32_t consumed, status, rows; } bands[] = {
        {"#1~-~-~", 4, ICYSIXEL_ROWS, 6}, {"~-~", 2, ICYSIXEL_ROWS, 12},
        {"~", 1, ICYSIXEL_MORE, 12}, {"--~", 1, ICYSIXEL_ROWS, 18}, {"-~", 1, ICYSIXEL_MORE, 18},
        {"~", 1, ICYSIXEL_ROWS, 24}, {"~\033-~-", 1, ICYSIXEL_COMPLETE, 24},
    };
    icysixel_begin_payload(h, 9, 1);
    EACH(row, bands) {
        RETURNS(OK, icysixel_feed_band(h, BYTES(row->rest), &fed));
        CHECK(fed.consumed == row->consumed && fed.status == row->status);
        CHECK(icysixel_get_rows_so_far(h) == row->rows);
    }
    icysixel_begin_payload(h, 9, 1);
    CHECK(FEED("---") == OK && icysixel_get_rows_so_far(h) == 1);
    CHECK(FEED("\"1;1;2;20-") == OK && icysixel_get_rows_so_far(h) == 20);
    icysixel_abort(h);
}

/* Final rows are copied to memory with a stride, and the others from the finished image. */
static void test_copied_rows(void)
{
    enum { NOT_FINAL = ICYSIXEL_ROWS_NOT_FINAL };
    static const icysixel_layout rgba = {12, 2, ICYSIXEL_ORDER_RGBA};
    static const icysixel_layout bgra = {12, 2, ICYSIXEL_ORDER_BGRA};
    static const struct { uint32_t code; size_t first, rows, size; icysixel_layout to; } wrong[] = {
        {NOT_FINAL, 1, 6, 72, {12, 2, 0}}, {NOT_FINAL, SIZE_MAX, 1, 72, {12, 2, 0}},
        {STRIDE, 0, 1, 72, {7, 2, 0}}, {STRIDE, 0, 1, 72, {3, 0, 0}},
        {SMALL, 0, 6, 23, {0, 0, 0}}, {STRIDE, 0, 0, 72, {0, SIZE_MAX, 0}},
        {ICYSIXEL_OVERFLOW, 0, 3, 72, {SIZE_MAX, 2, 0}}, {SMALL, 0, 6, 67, {12, 2, 0}},
    }, wrong_pixels[] = {
        {NOT_FINAL, 6, 7, 72, {12, 2, 0}}, {NOT_FINAL, SIZE_MAX, 1, 72, {12, 2, 0}},
        {ICYSIXEL_ROWS_RELEASED, 5, 7, 72, {12, 2, 0}}, {STRIDE, 6, 1, 72, {11, 0, 0}},
        {ICYSIXEL_OVERFLOW, 6, 3, 72, {SIZE_MAX, 2, 0}}, {SMALL, 6, 6, 67, {12, 2, 0}},
        {SMALL, 6, 6, 71, {0, 0, 0}},
    };
    uint8_t rows[72], dense[24];
    icysixel_bytes block = {0};
    memset(rows, 7, sizeof rows);
    RETURNS(NO_SESSION, icysixel_copy_rows(h, 0, 0, &rgba, rows, 72));
    RETURNS(NO_SESSION, icysixel_release_rows(h, 0));
    icysixel_begin_payload(h, 3, 1);
    RETURNS(OK, icysixel_feed_band(h, BYTES("#1;2;100;0;0~-~-"), &fed));
    CHECK(fed.consumed == 14 && fed.status == ICYSIXEL_ROWS && icysixel_get_rows_so_far(h) == 6);
    EACH(it, wrong)
        CHECK(icysixel_copy_rows(h, it->first, it->rows, &it->to, rows, it->size) == it->code);
    CHECK(are_rows(rows, 6, "\7\7\7\7\7\7\7\7\7\7\7\7", 12));
    RETURNS(OK, icysixel_copy_rows(h, 0, 6, &rgba, rows, 68));
    CHECK(are_rows(rows, 6, "\377\0\0\377\0\0\0\0\7\7\7\7", 12));
    RETURNS(OK, icysixel_copy_rows(h, 4, 2, &bgra, rows, 72));
    CHECK(are_rows(rows, 2, "\0\0\377\377\0\0\0\0\7\7\7\7", 12));
    RETURNS(OK, icysixel_copy_rows(h, 0, 6, &(icysixel_layout){.columns = 1}, dense, 24));
    CHECK(IS_RED(dense, 6));
    CHECK(FEED("!3~$") == OK && icysixel_copy_rows(h, 0, 6, &rgba, rows, 68) == OK);
    CHECK(are_rows(rows, 2, "\377\0\0\377\0\0\0\0\7\7\7\7", 12));
    RETURNS(ROWS_NOT_FINAL, icysixel_release_rows(h, 7));
    CHECK((icysixel_release_rows(h, 6) | icysixel_release_rows(h, 2)) == OK);
    RETURNS(ROWS_RELEASED, icysixel_copy_rows(h, 5, 1, &rgba, rows, 72));
    RETURNS(OK, icysixel_feed_band(h, BYTES("!3~"), &fed));
    CHECK(fed.consumed == 3 && fed.status == ICYSIXEL_MORE);
    RETURNS(OK, icysixel_finish(h, &shape));
    CHECK(shape.width == 3 && shape.height == 12 && shape.drawn_height == 12);
    CHECK(shape.first_row == 6 && shape.bytes == 72 && shape.is_complete == 0);
    CHECK(shape.p1 == 3 && shape.p2 == 1 && shape.pixel_width == 1 && shape.pixel_height == 3);
    EACH(it, wrong_pixels)
        CHECK(icysixel_copy_pixels(h, it->first, it->rows, &it->to, rows, it->size) == it->code);
    CHECK(are_rows(rows, 2, "\377\0\0\377\0\0\0\0\7\7\7\7", 12));
    RETURNS(OK, icysixel_copy_pixels(h, 6, 6, &rgba, rows, 68));
    CHECK(are_rows(rows, 6, "\377\0\0\377\377\0\0\377\7\7\7\7", 12) && red_of_1() == 255);
    RETURNS(OK, icysixel_take_pixels(h, ICYSIXEL_ORDER_BGRA, &block));
    CHECK(block.length == 72 && are_rows(block.data, 18, "\0\0\377\377", 4));
    icysixel_free_bytes(&block);
    RETURNS(NO_SESSION, icysixel_finish(h, &shape));
    RETURNS(NO_SESSION, icysixel_feed_band(h, BYTES("~"), &fed));
    icysixel_begin_payload(h, 9, 1);
    CHECK(FEED("~-~") == OK && icysixel_release_rows(h, 6) == OK && FEED("!65536~") == BAD);
    RETURNS(ROWS_NOT_FINAL, icysixel_copy_rows(h, 6, 1, &rgba, rows, 72));
}

/* The end of an image can make it wider than it was so far. A copy writes only the columns that its
 * layout names. */
static void test_wider_end(void)
{
    uint8_t *rows = malloc(24);
    memset(rows, 7, 24);
    icysixel_reset_registers(h), icysixel_begin_payload(h, 9, 1);
    CHECK(FEED("#1~\"1;1;100;6") == OK && icysixel_get_size_so_far(h, &size) == OK);
    CHECK(size.width == 1 && size.height == 6 && icysixel_finish(h, &shape) == OK);
    CHECK(shape.width == 100 && shape.bytes == 2400);
    RETURNS(BUFFER_TOO_SMALL, icysixel_copy_pixels(h, 0, 6, &(icysixel_layout){0}, rows, 24));
    RETURNS(BAD_STRIDE, icysixel_copy_pixels(h, 0, 6, &(icysixel_layout){.stride = 4}, rows, 24));
    CHECK(are_rows(rows, 6, "\7\7\7\7", 4));
    RETURNS(OK, icysixel_copy_pixels(h, 0, 6, &(icysixel_layout){.columns = 1}, rows, 24));
    CHECK(are_rows(rows, 6, "\63\63\314\377", 4));
    free(rows);
}

/* A layout of 0 columns copies all columns that the open image has so far. */
static void test_whole_rows(void)
{
    static const icysixel_layout whole = {0}, gaps = {.stride = 16};
    uint8_t *rows = malloc(48);
    icysixel_reset_registers(h), icysixel_begin_dcs(h);
    RETURNS(BAD_STRIDE, icysixel_copy_rows(h, 0, 0, &whole, rows, 48));
    CHECK(FEED("\033P9;1q#1~-") == OK && icysixel_get_size_so_far(h, &size) == OK);
    CHECK(size.width == 1 && icysixel_copy_rows(h, 0, 6, &whole, rows, 24) == OK);
    CHECK(are_rows(rows, 6, "\63\63\314\377", 4) && FEED("\"1;1;2;6$") == OK);
    RETURNS(BUFFER_TOO_SMALL, icysixel_copy_rows(h, 0, 6, &whole, rows, 24));
    RETURNS(OK, icysixel_copy_rows(h, 0, 6, &whole, rows, 48));
    CHECK(are_rows(rows, 6, "\63\63\314\377\0\0\0\0", 8));
    RETURNS(OK, icysixel_copy_rows(h, 0, 3, &gaps, rows, 40));
    CHECK(FEED("!5~$") == OK);
    RETURNS(BAD_STRIDE, icysixel_copy_rows(h, 0, 1, &gaps, rows, 48));
    RETURNS(OK, icysixel_copy_rows(h, 0, 6, &(icysixel_layout){.columns = 1}, rows, 24));
    CHECK(are_rows(rows, 6, "\63\63\314\377", 4));
    icysixel_abort(h);
    free(rows);
}

/* A lenient image ignores commands with a fault, and a DCS sequence may end without terminator. */
static void test_lenient(void)
{
    static const struct { const char *data; size_t width; uint8_t is_complete; } images[] = {
        {"\033Pq~!65536~~", 3, 0}, {"\033Pq~!65536~~\033\\", 3, 1}, {"\033Pq~!65536~~\030", 3, 1},
        {"\033Pq!999999~~\234", 2, 1},
    };
    icysixel_set_lenient(h, 2);
    CHECK(icysixel_get_lenient(h) == 1);
    EACH(image, images) {
        icysixel_begin_dcs(h);
        CHECK(FEED(image->data) == OK && icysixel_finish(h, &shape) == OK);
        CHECK(shape.width == image->width && shape.ignored == 1);
        CHECK(shape.is_complete == image->is_complete);
    }
    CHECK(DECODE("~!65536~~") == OK && shape.width == 3 && shape.ignored == 1);
    icysixel_begin_dcs(h);
    CHECK(FEED("\033P") == OK && icysixel_finish(h, &shape) == ICYSIXEL_INCOMPLETE);
    icysixel_begin_payload(h, 9, 1), icysixel_set_lenient(h, 0);
    CHECK(icysixel_get_lenient(h) == 0 && FEED("!65536~") == OK);
    icysixel_begin_payload(h, 9, 1);
    RETURNS(MALFORMED, FEED("!65536~"));
}

/* What is not drawn is transparent whatever P2 says, and the shape has the P2 of the sequence. */
static void test_transparent(void)
{
    static const char *const data[] = {"\033Pq@!2?A\033\\", "\033P9;1q@!2?A\033\\"};
    uint8_t whole[96], chunks[96];
    icysixel_layout layout = {0};
    icysixel_reset_registers(h), icysixel_begin_dcs(h), icysixel_set_transparent(h, 2);
    CHECK(icysixel_get_transparent(h) == 1);
    CHECK(FEED("\033Pq?") == OK && icysixel_finish(h, &shape) == ICYSIXEL_INCOMPLETE);
    icysixel_set_register(h, 0, 9, 9, 9);
    EACH(it, data) {
        CHECK(DECODE(*it) == OK && shape.p2 == line_number && shape.bytes == 96);
        RETURNS(OK, icysixel_copy_pixels(h, 0, 6, &layout, whole, 96));
        CHECK(memcmp(whole, "\t\t\t\377\0\0\0\0\0\0\0\0\0\0\0\0", 16) == 0);
        CHECK(memcmp(whole + 16, "\0\0\0\0\0\0\0\0\0\0\0\0\t\t\t\377", 16) == 0);
        CHECK(are_rows(whole + 32, 16, "\0\0\0\0", 4));
        icysixel_begin_dcs(h);
        for (size_t i = 0; (*it)[i] != 0; i++)
            RETURNS(OK, icysixel_feed(h, (const uint8_t *)*it + i, 1, &fed));
        CHECK(icysixel_finish(h, &shape) == OK && shape.p2 == line_number && shape.is_complete);
        RETURNS(OK, icysixel_copy_pixels(h, 0, 6, &layout, chunks, 96));
        CHECK(memcmp(whole, chunks, 96) == 0);
    }
    icysixel_begin_payload(h, 9, 0), icysixel_set_transparent(h, 0);
    layout.columns = 2;
    CHECK(FEED("@-") == OK && icysixel_copy_rows(h, 0, 1, &layout, whole, 8) == OK);
    CHECK(memcmp(whole, "\t\t\t\377\0\0\0\0", 8) == 0 && icysixel_get_transparent(h) == 0);
    RETURNS(OK, icysixel_decode_payload(h, BYTES("@"), 9, 0, &shape));
    RETURNS(OK, icysixel_copy_pixels(h, 0, 6, &(icysixel_layout){0}, whole, 24));
    CHECK(are_rows(whole, 6, "\t\t\t\377", 4));
    icysixel_reset_registers(h);
}

/* An image draws in the first register until it selects one, and its background is register 0. */
static void test_first_register(void)
{
    uint8_t pixel[8];
    icysixel_layout layout = {0};
    CHECK(icysixel_get_first_register(h) == 0);
    icysixel_begin_payload(h, 9, 0), icysixel_set_first_register(h, 15);
    CHECK(FEED("@") == OK && icysixel_finish(h, &shape) == OK);
    RETURNS(OK, icysixel_copy_pixels(h, 0, 2, &layout, pixel, 8));
    CHECK(memcmp(pixel, "\0\0\0\377\0\0\0\377", 8) == 0);
    icysixel_begin_payload(h, 9, 0), icysixel_set_first_register(h, 255);
    CHECK(FEED("@") == OK && icysixel_finish(h, &shape) == OK);
    RETURNS(OK, icysixel_copy_pixels(h, 0, 2, &layout, pixel, 8));
    CHECK(memcmp(pixel, "\314\314\314\377\0\0\0\377", 8) == 0);
    CHECK(icysixel_get_first_register(h) == 255);
    CHECK(DECODE("@") == OK && icysixel_copy_pixels(h, 0, 2, &layout, pixel, 8) == OK);
    CHECK(memcmp(pixel, "\377\377\377\377\0\0\0\377", 8) == 0);
    CHECK(DECODE("#2@") == OK && icysixel_copy_pixels(h, 0, 2, &layout, pixel, 8) == OK);
    CHECK(memcmp(pixel, "\314!!\377\0\0\0\377", 8) == 0);
    icysixel_set_first_register(h, 0);
}

/* Rows below the end of an image are not stored, whether they were released or not. */
static void test_cropped_rows(void)
{
    static const struct { const char *data; uint8_t end; size_t height, first; } images[] = {
        {"\"1;1;1;3~-~", 1, 3, 3}, {"\"1;1;1;9~-~", 1, 9, 6}, {"\"1;1;1;3~-@", 2, 7, 6},
        {"\"1;1;1;3A-?", 2, 3, 3}, {"A-?", 2, 2, 2}, {"?-?", 2, 0, 0}, {"A-?", 1, 12, 6},
    };
    EACH(row, images) {
        icysixel_bytes pixels = {0};
        icysixel_begin_payload(h, 9, 1), icysixel_set_height(h, row->end);
        CHECK(FEED(row->data) == OK && icysixel_release_rows(h, 6) == OK);
        RETURNS(OK, icysixel_finish(h, &shape));
        CHECK(shape.height == row->height && shape.first_row == row->first);
        CHECK(shape.bytes == 4 * (row->height - row->first) && HAS_IMAGE);
        RETURNS(OK, icysixel_take_pixels(h, 0, &pixels));
        CHECK(pixels.length == shape.bytes);
        icysixel_free_bytes(&pixels);
    }
    icysixel_set_height(h, ICYSIXEL_HEIGHT_BANDS);
}

/* Stored pixels are copied row by row with a stride, as often as wanted. */
static void test_pixels(void)
{
    static const struct { size_t rows, size; icysixel_layout to; uint32_t code; } copies[] = {
        {6, 287, {0}, SMALL}, {6, 0, {0}, SMALL}, {6, 312, {47, 0, 0}, STRIDE},
        {6, 307, {52, 0, 0}, SMALL}, {6, 308, {52, 0, 0}, OK}, {6, 308, {52, 12, 0}, OK},
        {0, 0, {0}, OK},
    };
    uint8_t buffer[6 * 52];
    RETURNS(OK, DECODE(red));
    CHECK(shape.is_complete == 1 && shape.first_row == 0 && shape.ignored == 0);
    memset(buffer, 7, sizeof buffer);
    EACH(it, copies) {
        uint8_t *start = it->size == 0 ? NULL : buffer;
        CHECK(icysixel_copy_pixels(h, 0, it->rows, &it->to, start, it->size) == it->code);
    }
    CHECK(are_rows(buffer, 6, FOUR_RED FOUR_RED FOUR_RED "\7\7\7\7", 52));
    RETURNS(OK, icysixel_copy_pixels(h, 5, 1, &(icysixel_layout){0, 1, 1}, buffer, 4));
    CHECK(memcmp(buffer, "\0\0\377\377\377", 5) == 0 && HAS_IMAGE);
}

/* The library's own block belongs to the caller, and outlives later images and the handle. */
static void test_take_pixels(void)
{
    icysixel_bytes first = {0}, second = {0};
    CHECK(DECODE(red) == OK && icysixel_take_pixels(h, 0, &first) == OK);
    CHECK(first.length == 288 && first.capacity >= 288 && !HAS_IMAGE);
    RETURNS(NO_IMAGE, icysixel_take_pixels(h, 0, &second));
    CHECK(second.data == NULL && second.length == 0 && second.capacity == 0);
    CHECK(DECODE("\033P9;1q!5~\033\\") == OK && icysixel_take_pixels(h, 0, &second) == OK);
    icysixel_discard_image(h);
    CHECK(is_aligned(first) && is_aligned(second) && IS_RED(first.data, 72));
    memset(first.data, 7, first.capacity);
    icysixel_free_bytes(&first), icysixel_free_bytes(&first);
    CHECK(first.data == NULL && first.length == 0 && first.capacity == 0 && second.length == 120);
    icysixel_free(h);
    CHECK(memcmp(second.data, "\0\0\0\377", 4) == 0);
    icysixel_free_bytes(&second);
}

/* A block of no bytes is no block, so free(data) is valid too: rows all released, an empty image. */
static void test_take_no_pixels(void)
{
    icysixel_bytes block = {&(uint8_t){7}, 7, 7};
    icysixel_begin_payload(h, 9, 1);
    CHECK(FEED("~-") == OK && icysixel_release_rows(h, 6) == OK);
    RETURNS(OK, icysixel_finish(h, &shape));
    CHECK(shape.bytes == 0 && shape.first_row == 6);
    RETURNS(OK, icysixel_take_pixels(h, ICYSIXEL_ORDER_BGRA, &block));
    CHECK(block.data == NULL && block.length == 0 && block.capacity == 0 && !HAS_IMAGE);
    free(block.data);
    block = (icysixel_bytes){&(uint8_t){7}, 7, 7};
    icysixel_set_height(h, ICYSIXEL_HEIGHT_DRAWN);
    RETURNS(OK, icysixel_decode_payload(h, BYTES("?"), 9, 1, &shape));
    RETURNS(OK, icysixel_take_pixels(h, ICYSIXEL_ORDER_RGBA, &block));
    CHECK(block.data == NULL && block.length == 0 && block.capacity == 0);
    icysixel_set_height(h, ICYSIXEL_HEIGHT_BANDS);
}

/* A new decoder replaces one in any state: with an open image, and an image. */
static void test_new_on_full_handle(void)
{
    for (line_number = 0; line_number < 3; line_number++) {
        CHECK(icysixel_new(h) == OK && icysixel_is_empty(h) == 0 && red_of_1() == 51);
        CHECK(icysixel_is_receiving(h) == 0);
        CHECK(!HAS_IMAGE && icysixel_get_limit(h) == 67108864 && icysixel_get_height(h) == 0);
        CHECK(DECODE(red) == OK && red_of_1() == 255);
        icysixel_set_limit(h, 99), icysixel_set_height(h, 1);
        icysixel_begin_payload(h, 9, 1);
        if (line_number > 0) RETURNS(OK, FEED("!7~"));
        if (line_number > 1) RETURNS(MALFORMED, FEED("!65536~"));
    }
    RETURNS(OK, icysixel_new(h));
}

/* An error is returned again until the image is closed, and leaves no image. */
static void test_errors(void)
{
    RETURNS(NO_SESSION, FEED("~"));
    RETURNS(NO_SESSION, icysixel_finish(h, &shape));
    RETURNS(OK, DECODE(red));
    icysixel_begin_payload(h, -1, -1);
    CHECK(FEED("!9~!65536~") == BAD && icysixel_in_payload(h) == 0);
    CHECK(icysixel_is_receiving(h) == 1 && icysixel_finish(h, &shape) == BAD && !HAS_IMAGE);
    CHECK(DECODE(red) == OK && DECODE("!65536~") == BAD && !HAS_IMAGE);
}

/* The last row with a set pixel, plus one: of an open image, and in the shape of a finished one,
 * where it is at most the height. */
static void test_drawn_height(void)
{
    static const struct { const char *data; uint8_t end; size_t rows, height, drawn; } images[] = {
        {"", 0, 99, 1, 0}, {"?", 0, 99, 6, 0}, {"~-@", 0, 99, 12, 7}, {"~-B", 0, 2, 2, 2},
        {"~-B", 0, 8, 8, 8}, {"~-B", 0, 11, 11, 8}, {"\"1;1;1;3~", 0, 99, 6, 6},
        {"\"1;1;1;3~", 1, 99, 3, 3}, {"\"1;1;1;9~", 1, 99, 9, 6}, {"\"1;1;1;2@-@", 1, 99, 2, 2},
        {"\"1;1;1;9~-~", 1, 4, 4, 4}, {"~\"1;1;1;3", 1, 99, 3, 3}, {"@!3", 0, 99, 6, 1},
        {"A@", 0, 99, 6, 2}, {"@A", 0, 99, 6, 2}, {"_?", 0, 99, 6, 6}, {"~-~-~-B", 0, 99, 24, 20},
        {"-@", 0, 99, 12, 7}, {"-----", 0, 99, 1, 0}, {"~-?-???", 0, 99, 18, 6},
        {"B-!9?$#1A", 0, 99, 12, 8}, {"!300A-!300@", 0, 99, 12, 7}, {"\"1;1;5;20B", 0, 99, 20, 2},
        {"\"1;1;20;12@@@@@@@@@@A@@@@", 0, 99, 12, 2}, {"@-B!5", 0, 99, 12, 8},
        {"\"1;1;20;12AAAAAAAAAA-@@@@@@@@@@", 0, 99, 12, 7}, {"@", 0, 99, 6, 1},
        {"", 2, 99, 0, 0}, {"?-???", 2, 99, 0, 0}, {"~-B", 2, 99, 8, 8}, {"~-B", 2, 7, 7, 7},
        {"\"1;1;1;3~", 2, 99, 6, 6}, {"\"1;1;1;9~", 2, 99, 9, 6}, {"\"1;1;1;9", 2, 4, 4, 0},
        {"\"1;1;1;9~-?", 2, 99, 9, 6}, {"~\"1;1;1;3", 2, 99, 6, 6}, {"?-", 1, 99, 6, 0},
    };
    EACH(row, images) {
        icysixel_set_height(h, row->end), icysixel_set_clip(h, 999, row->rows);
        for (int call = 0; call < 3; call++) {
            icysixel_begin_payload(h, 9, 1);
            RETURNS(OK, FEED(row->data));
            CHECK(row->end == 1 || icysixel_get_drawn_height(h) == row->drawn);
            const uint32_t code = call == 0 ? DECODE(row->data)
                : call == 1 ? icysixel_decode_payload(h, BYTES(row->data), 9, 1, &shape)
                : icysixel_finish(h, &shape);
            CHECK(code == OK && shape.height == row->height && shape.drawn_height == row->drawn);
            shape = (icysixel_shape){0};
        }
    }
    icysixel_set_height(h, 0), icysixel_set_clip(h, SIZE_MAX, SIZE_MAX);
}

/* A clip has no effect on the rows of an image and of its drawn part, but that it ends them. */
static void test_clipped_heights(void)
{
    static const char *const data[] = {"??~", "?~", "~-?~-?", "\"1;1;3;7!3?@-@", "\"1;1;1;3~-~", "!9@"};
    for (uint8_t end = 0; end < 3; end++)
        EACH(it, data) {
            icysixel_set_height(h, end), icysixel_set_clip(h, SIZE_MAX, SIZE_MAX);
            CHECK(DECODE(*it) == OK);
            const icysixel_shape whole = shape;
            for (size_t rows = 1; rows < 20; rows++) {
                icysixel_set_clip(h, 1 + rows % 2, rows);
                CHECK(DECODE(*it) == OK);
                CHECK(shape.height == (whole.height < rows ? whole.height : rows));
                const size_t drawn = whole.drawn_height;
                CHECK(shape.drawn_height == (drawn < rows ? drawn : rows));
            }
        }
    icysixel_set_height(h, ICYSIXEL_HEIGHT_DRAWN), icysixel_set_clip(h, 2, SIZE_MAX);
    CHECK(DECODE("??~") == OK && shape.width == 2 && shape.height == 6 && !shape.is_empty);
    icysixel_set_height(h, 0), icysixel_set_clip(h, SIZE_MAX, SIZE_MAX);
}

/* The size in raster attributes, as the data have it, and whether an image is empty, so that a
 * terminal does not move its cursor. */
static void test_raster_size(void)
{
    static const struct { const char *data; size_t width, height; uint8_t is_empty; } images[] = {
        {"", 0, 0, 1}, {"#1;2;100;0;0", 0, 0, 1}, {"?-!9?", 0, 0, 1}, {"@", 0, 0, 0},
        {"\"1;1;7;3", 7, 3, 0}, {"\"1;1;7", 7, 0, 1}, {"\"2", 0, 0, 1}, {"\"1;1;9;9@", 9, 9, 0},
        {"\"1;1;7;3~\"1;1;0;9\"1;1;2", 2, 9, 0},
    };
    EACH(row, images) {
        for (int call = 0; call < 3; call++) {
            icysixel_begin_payload(h, 9, 1);
            RETURNS(OK, FEED(row->data));
            const uint32_t code = call == 0 ? DECODE(row->data)
                : call == 1 ? icysixel_decode_payload(h, BYTES(row->data), 9, 1, &shape)
                : icysixel_finish(h, &shape);
            CHECK(code == OK && shape.raster_width == row->width);
            CHECK(shape.raster_height == row->height && shape.is_empty == row->is_empty);
            shape = (icysixel_shape){0};
        }
    }
    icysixel_begin_dcs(h);
    CHECK(FEED("\033Pq\033\\") == OK && icysixel_finish(h, &shape) == OK);
    CHECK(shape.is_empty == 1 && shape.width == 1 && shape.height == 1);
    icysixel_set_clip(h, 4, 4);
    CHECK(DECODE("\"1;1;9;9!5?@") == OK && shape.width == 4 && shape.height == 4);
    CHECK(shape.raster_width == 9 && shape.raster_height == 9);
    icysixel_set_clip(h, SIZE_MAX, SIZE_MAX);
}

/* Registers are set and read together: not past the last one, and not past the buffer. */
static void test_registers(void)
{
    static const icysixel_color three[] = {{1, 2, 3}, {4, 5, 6}, {7, 8, 9}};
    icysixel_color colors[257] = {[256] = {7, 7, 7}};
    uint8_t pixels[24];
    icysixel_reset_registers(h), icysixel_set_registers(h, 1, three, 2);
    icysixel_set_registers(h, 254, three, 3), icysixel_set_registers(h, 9, NULL, 0);
    RETURNS(OK, icysixel_get_registers(h, 0, NULL, 0));
    RETURNS(OK, icysixel_get_registers(h, 0, colors, 257));
    CHECK(memcmp(colors, "\0\0\0\1\2\3\4\5\6\x33\xcc\x33", 12) == 0);
    CHECK(memcmp(colors + 253, "\xe8\xe8\xe8\1\2\3\4\5\6\7", 10) == 0);
    for (line_number = 0; line_number < 256; line_number++) {
        RETURNS(OK, icysixel_get_register(h, (uint8_t)line_number, &color));
        CHECK(memcmp(&color, &colors[line_number], 3) == 0);
    }
    RETURNS(OK, icysixel_get_registers(h, 2, colors, 1));
    CHECK(memcmp(colors, "\4\5\6\1\2\3", 6) == 0);
    RETURNS(OK, icysixel_get_registers(h, 255, colors, 2));
    CHECK(memcmp(colors, "\4\5\6\1\2\3", 6) == 0);
    icysixel_set_register(h, 1, 255, 1, 2);
    CHECK(red_of_1() == 255 && color.green == 1 && color.blue == 2);
    RETURNS(OK, icysixel_decode(h, BYTES("..\033P0;1q#1@\033\\"), &shape));
    RETURNS(OK, icysixel_copy_pixels(h, 0, 6, &(icysixel_layout){0}, pixels, sizeof pixels));
    CHECK(memcmp(pixels, "\377\1\2\377\0\0\0\0", 8) == 0);
    icysixel_reset_registers(h);
    CHECK(red_of_1() == 51);
}

/* Height, lenience, limit and clip are set and reported. */
static void test_settings(void)
{
    static const size_t limits[][2] = {{71, 71}, {0, 1}, {SIZE_MAX, 67108864}};
    for (uint8_t height = 0; height <= ICYSIXEL_HEIGHT_DRAWN; height++) {
        RETURNS(OK, icysixel_set_height(h, height));
        CHECK(icysixel_get_height(h) == height);
    }
    RETURNS(BAD_OPTION, icysixel_set_height(h, 3));
    CHECK(icysixel_get_height(h) == 2 && icysixel_set_height(h, 0) == OK);
    CHECK(icysixel_get_lenient(h) == 0);
    EACH(row, limits) {
        icysixel_set_limit(h, (*row)[0]);
        CHECK(icysixel_get_limit(h) == (*row)[1]);
    }
    icysixel_set_clip(h, 2, 0);
    RETURNS(OK, icysixel_get_clip(h, &size));
    CHECK(size.width == 2 && size.height == 1);
    RETURNS(OK, DECODE("\033Pq!9~-~\033\\"));
    CHECK(shape.width == 2 && shape.height == 1 && shape.bytes == 8);
    icysixel_begin_payload(h, 9, 1);
    RETURNS(OK, FEED("!9~-~"));
    RETURNS(OK, icysixel_get_size_so_far(h, &size));
    CHECK(size.width == 2 && size.height == 1 && icysixel_get_drawn_height(h) == 1);
    CHECK(icysixel_get_rows_so_far(h) == 1);
    icysixel_abort(h), icysixel_set_clip(h, SIZE_MAX, SIZE_MAX);
    RETURNS(OK, icysixel_get_clip(h, &size));
    CHECK(size.width == 1000000 && size.height == 1000000);
}

/* Whether a call with this code has transferred a text of these two parts. */
static bool has_text(uint32_t code, const char *start, const char *end)
{
    size_t at = strlen(start);
    return code == ICYSIXEL_OK && text.length == at + strlen(end)
        && memcmp(text.data, start, at) == 0 && memcmp(text.data + at, end, text.length - at) == 0;
}

/* Pixels that do not fit are rejected, and write nothing. Rows may be apart. The library's own
 * block of a text belongs to the caller. */
static void test_encode(void)
{
    static const uint8_t rgba[] = {255, 0, 0, 255, 7, 7, 7, 7, 7, 0, 0, 255, 255};
    static const char expected[] = "\033P9;1;0q\"1;1;1;2#0;2;0;0;100#1;2;100;0;0#0A$#1@$-\033\\";
    icysixel_encoding e = {
        .width = 1, .height = 2, .stride = 3, .palette = ICYSIXEL_PALETTE_FARTHEST};
    text = (icysixel_bytes){&(uint8_t){7}, 7, 7};
    RETURNS(BAD_STRIDE, icysixel_encode(SIZED(rgba), &e, &text));
    e.stride = 10;
    RETURNS(BUFFER_MISMATCH, icysixel_encode(SIZED(rgba), &e, &text));
    CHECK(*text.data == 7 && text.length == 7 && text.capacity == 7);
    e.stride = 9;
    RETURNS(OK, icysixel_encode(SIZED(rgba), &e, &text));
    CHECK(has_text(OK, expected, "") && text.capacity >= text.length);
    icysixel_free_bytes(&text);
    CHECK(text.data == NULL && text.length == 0 && text.capacity == 0);
}

/* The shape of a pixel and the background are those of P1, P2 and the raster attributes. */
static void test_shapes(void)
{
    static const struct { uint8_t height, background; const char *start; } shapes[] = {
        {0, 0, "\033P9;1;0q\"1;1;1;1"}, {1, 1, "\033P9;0;0q\"1;1;1;1"},
        {2, 0, "\033P0;1;0q\"2;1;1;1"}, {3, 1, "\033P3;0;0q\"3;1;1;1"},
        {5, 0, "\033P2;1;0q\"5;1;1;1"}, {4, 0, "\033P9;1;0q\"1;1;1;1"},
    };
    EACH(it, shapes) {
        icysixel_encoding e = {.width = 1, .height = 1, .pixel_height = it->height};
        e.background = it->background;
        uint32_t code = encode((const uint8_t *)RED, 4, &e);
        CHECK(has_text(code, it->start, "#0;2;100;0;0#0@$-\033\\"));
    }
}

/* Register 0 has the first color of an opaque image, in both forms and though no pixel has it: that
 * of a given palette, or one before a refined palette. The mean of black and 10 of 255 red is 2
 * percent of red, and that with white 35 percent. */
static void test_backgrounds(void)
{
    enum { REFINED, GIVEN = ICYSIXEL_PALETTE_GIVEN };
    static const uint8_t pixels[] = {0, 0, 0, 255, 10, 0, 0, 255, 255, 255, 255, 255, 9, 9, 9, 0};
#define GREEN "\033P9;0;0q\"1;1;4;1#0;2;0;100;0"
    static const struct {
        uint8_t palette, background, form;
        uint16_t max;
        const char *end;
    } texts[] = {
        {REFINED, 2, 1, 1, "#1;2;35;33;33#1@@@\033\\"},
        {REFINED, 2, 1, 2, "#1;2;35;33;33#1@@@\033\\"},
        {REFINED, 2, 1, 3, "#1;2;2;0;0#2;2;100;100;100#1@@#2@\033\\"},
        {REFINED, 2, 0, 3, "#1;2;2;0;0#2;2;100;100;100#1@@??$#2??@?$-\033\\"},
        {GIVEN, 1, 1, 0, "#1;2;0;0;0#2;2;100;100;100#1@@#2@\033\\"},
        {GIVEN, 2, 1, 0, "#1;2;0;0;0#2;2;100;100;100#1@@#2@\033\\"},
        {GIVEN, 2, 0, 0, "#1;2;0;0;0#2;2;100;100;100#1@@??$#2??@?$-\033\\"},
    };
    icysixel_encoding e = {.width = 4, .height = 1, .color_count = 3};
    memcpy(e.colors, "\0\377\0\0\0\0\377\377\377", 9);
    EACH(it, texts) {
        e.palette = it->palette, e.background = it->background, e.form = it->form;
        e.max_colors = it->max;
        CHECK(has_text(encode(pixels, sizeof pixels, &e), GREEN, it->end));
    }
    e.palette = REFINED, e.max_colors = 257;
    RETURNS(COLOR_COUNT, encode(pixels, sizeof pixels, &e));
}

/* Black, 10 of 255 red and white, and the text of a row of them in black and white. */
#define ROW "\033P9;1;0q\"1;1;3;1"
#define BLACK_WHITE ROW "#0;2;0;0;0#1;2;100;100;100"
static const uint8_t row[] = {0, 0, 0, 255, 10, 0, 0, 255, 255, 255, 255, 255};
static const icysixel_color black_white[] = {{0, 0, 0}, {255, 255, 255}};

/* Palettes of the library and of the caller, in both forms. The mean of the first two pixels is 2
 * percent of red. Compact rows end at their last pixel, and both fit one pass. */
static void test_encodings(void)
{
    enum { REFINED, FARTHEST, GIVEN, OPAQUE = ICYSIXEL_FORMAT_INDEXED, CLEAR };
    static const char *const ends[] = {"#0@@?$#1??@$-\033\\", "#0@@#1@\033\\"};
    static const char mean[] = ROW "#0;2;2;0;0#1;2;100;100;100";
    static const uint8_t nearest[] = {0, 0, 1}, others[] = {1, 0, 1}, above[] = {0, 2, 1};
    icysixel_encoding e = {.width = 3, .height = 1, .max_colors = 2, .color_count = 2};
    memcpy(e.colors, black_white, sizeof black_white);
    for (; e.form <= ICYSIXEL_FORM_COMPACT; e.form++) {
        e.format = 0, e.palette = REFINED;
        CHECK(has_text(ENCODE(row), mean, ends[e.form]));
        e.palette = FARTHEST;
        CHECK(has_text(ENCODE(row), BLACK_WHITE, ends[e.form]));
        e.palette = GIVEN;
        CHECK(has_text(ENCODE(row), BLACK_WHITE, ends[e.form]));
        for (e.format = OPAQUE, e.palette = 0; e.palette <= GIVEN; e.palette++)
            CHECK(has_text(ENCODE(nearest), BLACK_WHITE, ends[e.form]));
    }
    e.form = ICYSIXEL_FORM_PLAIN, e.palette = GIVEN;
    CHECK(has_text(ENCODE(others), BLACK_WHITE, "#0?@?$#1@?@$-\033\\"));
    e.format = CLEAR, e.transparent = 2;
    CHECK(has_text(ENCODE(above), BLACK_WHITE, "#0@??$#1??@$-\033\\"));
    e.transparent = 1;
    RETURNS(INDEX_RANGE, ENCODE(above));
    CHECK(text.data == NULL && text.length == 0);
    e.format = OPAQUE;
    RETURNS(INDEX_RANGE, ENCODE(above));
    static const struct {
        uint8_t format, palette;
        uint16_t max, count;
        uint32_t code;
    } counts[] = {
        {0, REFINED, 257, 0, COLORS}, {0, REFINED, 256, 0, OK}, {0, REFINED, 1, 0, OK},
        {0, FARTHEST, 1, 0, OK}, {0, FARTHEST, 65535, 0, OK}, {0, GIVEN, 0, 0, COLORS},
        {0, GIVEN, 0, 1, OK}, {0, GIVEN, 0, 256, OK}, {0, GIVEN, 0, 257, COLORS},
        {OPAQUE, REFINED, 9, 0, COLORS},
        {OPAQUE, REFINED, 9, 257, COLORS},
    };
    EACH(it, counts) {
        e.format = it->format, e.palette = it->palette;
        e.max_colors = it->max, e.color_count = it->count;
        CHECK(ENCODE(row) == it->code);
    }
    static const struct { size_t stride, width, height; uint32_t code; } wrong[] = {
        {11, 3, 2, STRIDE}, {SIZE_MAX, 3, 3, ICYSIXEL_OVERFLOW}, {0, 3, 2, MISMATCH},
        {0, 3, 0, ICYSIXEL_BAD_DIMENSIONS}, {0, 1000001, 1, ICYSIXEL_BAD_DIMENSIONS},
        {0, SIZE_MAX, 2, ICYSIXEL_OVERFLOW},
    };
    EACH(it, wrong) {
        e = (icysixel_encoding){.width = it->width, .height = it->height, .stride = it->stride};
        CHECK(ENCODE(row) == it->code && text.data == NULL);
    }
}

/* A number above those of an enum is rejected before any other error. */
static void test_options(void)
{
    icysixel_encoding e = {.format = 6};
    const uint32_t of_encoding[] = {
        ENCODE(row), (e.format = 0, e.background = 3, ENCODE(row)),
        (e.background = 2, e.palette = 1, ENCODE(row)),
        (e.background = 0, e.palette = 3, ENCODE(row)),
        (e.palette = 0, e.dithering.kind = 3, ENCODE(row)),
        (e.dithering.kind = 0, e.form = 2, ENCODE(row)),
    };
    EACH(code, of_encoding) CHECK(*code == ICYSIXEL_BAD_OPTION);
    e.form = 0;
    RETURNS(BAD_DIMENSIONS, ENCODE(row));
    icysixel_layout layout = {.order = 2};
    icysixel_bytes block = {&(uint8_t){7}, 7, 7};
    uint8_t buffer[4] = {7};
    RETURNS(BAD_OPTION, icysixel_copy_rows(h, 0, 1, &layout, buffer, 0));
    RETURNS(OK, DECODE(red));
    RETURNS(BAD_OPTION, icysixel_copy_pixels(h, 0, 99, &layout, buffer, 4));
    RETURNS(BAD_OPTION, icysixel_take_pixels(h, 2, &block));
    CHECK(buffer[0] == 7 && block.length == 7 && HAS_IMAGE);
}

/* The bytes of a pixel in a format. Index 9 is transparent. */
static struct bytes pixel_in(uint8_t format, icysixel_color c, uint8_t index, bool is_opaque)
{
    static const size_t lengths[] = {4, 4, 3, 3, 1, 1};
    static uint8_t pixel[4];
    uint8_t alpha = is_opaque ? 128 : 127;
    const uint8_t in[][4] = {
        {c.red, c.green, c.blue, alpha}, {c.blue, c.green, c.red, alpha},
        {c.red, c.green, c.blue}, {c.blue, c.green, c.red}, {index}, {is_opaque ? index : 9},
    };
    return (struct bytes){memcpy(pixel, in[format], 4), lengths[format]};
}

/* The picture in a format, in rows that are some bytes apart. Every fifth pixel is transparent if
 * there are holes. */
enum { COLUMNS = 7, ROWS = 8 };
static const icysixel_color four[] = {{0, 0, 0}, {200, 10, 30}, {10, 200, 90}, {255, 254, 253}};
static struct bytes picture_in(uint8_t format, size_t gap, bool has_holes)
{
    struct bytes picture = {0};
    for (size_t i = 0; i < COLUMNS * ROWS; i++) {
        if (i > 0 && i % COLUMNS == 0) append(&picture, "\1\2\3\4\5\6\7", gap);
        uint8_t index = (uint8_t)((i * i % 5 + i / COLUMNS) % 4);
        struct bytes pixel = pixel_in(format, four[index], index, i % 5 > 0 || !has_holes);
        append(&picture, pixel.at, pixel.length);
    }
    return picture;
}

/* One picture has one text in all formats, with and without gaps, whatever the palette. */
static void test_formats(void)
{
    icysixel_encoding e = {.width = COLUMNS, .height = ROWS, .max_colors = 3, .color_count = 4};
    memcpy(e.colors, four, sizeof four);
    e.transparent = 9;
    for (line_number = 0; line_number < 12; line_number++) {
        bool has_holes = line_number % 2 > 0;
        uint8_t palette = (uint8_t)(line_number / 4);
        struct bytes expected = {0};
        e.form = line_number / 2 % 2, e.format = 0, e.stride = 0;
        for (uint8_t format = 0; format <= ICYSIXEL_FORMAT_INDEXED_TRANSPARENT; format++) {
            bool is_indexed = format >= ICYSIXEL_FORMAT_INDEXED;
            bool has_alpha = format < 2 || format == ICYSIXEL_FORMAT_INDEXED_TRANSPARENT;
            if (has_holes && !has_alpha) continue;
            if (is_indexed && palette != ICYSIXEL_PALETTE_GIVEN) continue;
            for (size_t gap = 0; gap < 8; gap += 7) {
                struct bytes picture = picture_in(format, gap, has_holes);
                e.format = format, e.palette = palette;
                e.stride = gap > 0 ? (picture.length + gap) / ROWS : 0;
                RETURNS(OK, encode(picture.at, picture.length, &e));
                if (expected.at == NULL) append(&expected, text.data, text.length);
                CHECK(text.length == expected.length
                      && memcmp(text.data, expected.at, text.length) == 0);
                RETURNS(BUFFER_MISMATCH, encode(picture.at, picture.length - 1, &e));
                free(picture.at);
            }
        }
        free(expected.at);
    }
}

/* An image of the greatest width, 15 * 65535 + 16975 columns, in both forms of output. The last
 * pixel of the other images is blue. Blue is the first entry of the refined palette. */
#define WIDEST "\033P9;1;0q\"1;1;1000000;1#0;2;100;0;0"
#define FIVE(text) text text text text text
#define FIFTEEN(text) FIVE(text) FIVE(text) FIVE(text)
#define LONG_RUNS FIFTEEN("!65535@")
static void test_widest(void)
{
    static const icysixel_color red_blue[] = {{255, 0, 0}, {0, 0, 255}};
    static const char *const reds[] = {"!16975@$-\033\\", "!16975@\033\\"};
    static const char start[] = WIDEST "#1;2;0;0;100#0" LONG_RUNS;
    static const char *const blues[] = {
        "!16974@?$#1" FIFTEEN("!65535?") "!16974?@$-\033\\", "!16974@#1@\033\\"};
    static uint8_t pixels[4000000], indices[1000000] = {[999999] = 1}, found[1000000];
    static const icysixel_dithering dithers[] = {
        {ICYSIXEL_DITHER_OFF, 0}, {ICYSIXEL_DITHER_ORDERED, 64}, {ICYSIXEL_DITHER_DIFFUSION, 8}};
    icysixel_encoding e = {.width = 1000000, .height = 1, .color_count = 2};
    icysixel_color colors[2];
    icysixel_refined r;
    memcpy(e.colors, red_blue, sizeof red_blue);
    for (size_t i = 0; i < 1000000; i++) memcpy(pixels + 4 * i, (uint8_t[]){255, 0, 0, 255}, 4);
    for (; e.form <= ICYSIXEL_FORM_COMPACT; e.form++) {
        e.format = ICYSIXEL_FORMAT_RGBA;
        CHECK(has_text(ENCODE(pixels), WIDEST "#0" LONG_RUNS, reds[e.form]));
        e.format = ICYSIXEL_FORMAT_INDEXED;
        CHECK(has_text(ENCODE(indices), start, blues[e.form]));
    }
    memcpy(pixels + 3999996, (uint8_t[]){0, 0, 255, 255}, 4);
    e.format = ICYSIXEL_FORMAT_RGBA, e.palette = ICYSIXEL_PALETTE_GIVEN;
    EACH(row, dithers) {
        e.dithering = *row;
        for (e.form = 0; e.form <= ICYSIXEL_FORM_COMPACT; e.form++)
            CHECK(has_text(ENCODE(pixels), start, blues[e.form]));
        RETURNS(OK, icysixel_palette_indices(SIZED(pixels), 1000000, red_blue, 2, row, 0,
                                             SIZED(found)));
        CHECK(memcmp(found, indices, sizeof found) == 0);
    }
    RETURNS(OK, icysixel_refine_palette(SIZED(pixels), 2, colors, 2, SIZED(found), &r));
    CHECK(r.colors == 2 && r.error == 0);
    CHECK(memcmp(colors, "\0\0\377\377\0\0", 6) == 0);
    for (size_t i = 0; i < sizeof found; i++) CHECK(found[i] == 1 - indices[i]);
}

/* Three pixels of gray 100. The first passes 700 of 1600 sixteenths on, so the second is white.
 * Thresholds of the third pixel are 238, 254 and 14, which add 110, 126 and -114. */
static void test_indices(void)
{
    static const uint8_t gray[] = {100, 100, 100, 255, 100, 100, 100, 255, 100, 100, 100, 255};
    static const struct { icysixel_dithering dithering; uint8_t indices[4]; } found[] = {
        {{ICYSIXEL_DITHER_DIFFUSION, 8}, {0, 1, 0, 7}}, {{0, 8}, {0, 0, 0, 7}},
        {{ICYSIXEL_DITHER_ORDERED, 255}, {0, 0, 1, 7}}, {{0, 0}, {0, 0, 0, 7}},
    };
    const icysixel_dithering *off = &(icysixel_dithering){0};
    const icysixel_color *two = black_white;
    uint8_t i[4] = {7, 7, 7, 7};
    const icysixel_dithering *unknown = &(icysixel_dithering){3, 0};
    RETURNS(BAD_OPTION, icysixel_palette_indices(gray, 12, 3, two, 2, unknown, 0, i, 2));
    RETURNS(BUFFER_TOO_SMALL, icysixel_palette_indices(gray, 12, 3, two, 2, off, 0, i, 2));
    RETURNS(BAD_DIMENSIONS, icysixel_palette_indices(gray, 12, 0, two, 2, off, 0, i, 4));
    RETURNS(BUFFER_MISMATCH, icysixel_palette_indices(gray, 12, 2, two, 2, off, 0, i, 4));
    RETURNS(COLOR_COUNT, icysixel_palette_indices(gray, 12, 3, NULL, 0, off, 0, i, 4));
    CHECK(memcmp(i, "\7\7\7\7", 4) == 0);
    EACH(row, found) {
        RETURNS(OK, icysixel_palette_indices(gray, 12, 3, two, 2, &row->dithering, 0, i, 3));
        CHECK(memcmp(i, row->indices, 4) == 0);
    }
}

/* The second pixel has squared distances of 36 and 16 to the entries, the first one of 0 and 100.
 * Both columns beside lack the nearest entry, and one lacks the other. So the second pixel has the
 * first entry above 40, and the first pixel the second one above 200. The mean squared error is 8,
 * so the automatic tolerance is 36. */
static void test_tolerance(void)
{
    static const uint8_t pixels[] = {0, 0, 0, 255, 6, 0, 0, 255};
    static const icysixel_color dark[] = {{0, 0, 0}, {10, 0, 0}};
    static const struct { uint32_t tolerance; uint8_t first, second; const char *end; } runs[] = {
        {0, 0, 1, "#0@?$#1?@$-\033\\"}, {40, 0, 1, "#0@?$#1?@$-\033\\"},
        {41, 0, 0, "#0@@$-\033\\"}, {200, 0, 0, "#0@@$-\033\\"}, {201, 1, 1, "#1@@$-\033\\"},
        {ICYSIXEL_AUTO - 1, 1, 1, "#1@@$-\033\\"}, {ICYSIXEL_AUTO, 0, 1, "#0@?$#1?@$-\033\\"},
    };
    icysixel_encoding e = {.width = 2, .height = 1, .palette = ICYSIXEL_PALETTE_GIVEN};
    memcpy(e.colors, dark, sizeof dark);
    e.color_count = 2;
    EACH(it, runs) {
        uint8_t found[2] = {7, 7};
        e.tolerance = it->tolerance;
        CHECK(has_text(ENCODE(pixels), "\033P9;1;0q\"1;1;2;1#0;2;0;0;0#1;2;4;0;0", it->end));
        RETURNS(OK, icysixel_palette_indices(SIZED(pixels), 2, dark, 2, &e.dithering, it->tolerance,
                                             SIZED(found)));
        CHECK(found[0] == it->first && found[1] == it->second);
    }
}

/* Buffers of palettes: those that are too small, and what is left of larger ones. Both darker
 * pixels have the refined entry of their mean, 5 from each. */
static void test_palettes(void)
{
    static const uint8_t rgba[] = {255, 255, 255, 255, 10, 0, 0, 128, 0, 0, 0, 200, 9, 9, 9, 127};
    static const struct { uint32_t code; uint16_t most; size_t length, c, w, i; } wrong[] = {
        {SMALL, 2, 16, 1, 3, 4}, {SMALL, 2, 16, 2, 2, 4}, {SMALL, 2, 16, 2, 3, 3},
        {MISMATCH, 2, 15, 2, 3, 4}, {COLORS, 0, 16, 2, 3, 4}, {COLORS, 257, 16, 256, 257, 4},
    };
    struct { icysixel_color c[256], w[257]; uint8_t i[5]; } of, untouched;
    icysixel_palette p = {7, 7, 7};
    icysixel_refined r = {7, 7};
    memset(&of, 7, sizeof of), memset(&untouched, 7, sizeof untouched);
    EACH(it, wrong) {
        size_t c = it->c, w = it->w, i = it->i;
        uint32_t code = w > it->most ? it->code : OK;
        CHECK(code == OK
              || icysixel_refine_palette(rgba, it->length, it->most, of.c, c, of.i, i, &r) == code);
        if (it->code == COLORS) continue;
        CHECK(icysixel_choose_palette(rgba, it->length, it->most, of.c, c, of.w, w, of.i, i, &p)
              == it->code);
    }
    CHECK(p.colors == 7 && p.error == 7 && r.colors == 7 && r.error == 7);
    CHECK(memcmp(&of, &untouched, sizeof of) == 0);
    RETURNS(OK, icysixel_choose_palette(rgba, 16, 2, of.c, 2, of.w, 3, of.i, 4, &p));
    CHECK(p.colors == 2 && p.witnesses == 3 && p.error == 100);
    CHECK(memcmp(of.c, "\0\0\0\377\377\377\7", 7) == 0 && memcmp(of.i, "\1\0\0\0\7", 5) == 0);
    CHECK(memcmp(of.w, "\0\0\0\377\377\377\n\0\0\7", 10) == 0);
    memset(&of, 7, sizeof of);
    RETURNS(OK, icysixel_refine_palette(rgba, 16, 2, of.c, 3, of.i, 5, &r));
    CHECK(r.colors == 2 && r.error == 50);
    CHECK(memcmp(of.c, "\5\0\0\377\377\377\7", 7) == 0 && memcmp(of.i, "\1\0\0\0\7", 5) == 0);
}

/* Percentages are exact: 51 is 20, and 52 is none. Of 300 colors 257 are counted. */
static void test_distinct(void)
{
    static const uint8_t three[] = {255, 0, 0, 255, 51, 0, 0, 128, 52, 0, 0, 127};
    static uint8_t many[1200];
    icysixel_distinct d;
    RETURNS(OK, icysixel_count_colors(NULL, 0, &d));
    CHECK(d.count == 0 && d.are_exact == 1);
    RETURNS(OK, icysixel_count_colors(three, 12, &d));
    CHECK(d.count == 2 && d.are_exact == 1);
    RETURNS(OK, icysixel_count_colors(three + 4, 8, &d));
    CHECK(d.count == 1 && d.are_exact == 1);
    RETURNS(OK, icysixel_count_colors((const uint8_t[]){52, 0, 0, 128}, 4, &d));
    CHECK(d.count == 1 && d.are_exact == 0);
    for (size_t i = 0; i < 300; i++)
        memcpy(many + 4 * i, (uint8_t[]){(uint8_t)i, 0, (uint8_t)(i / 256), 255}, 4);
    for (size_t i = 255; i <= 300; i++) {
        RETURNS(OK, icysixel_count_colors(many, 4 * i, &d));
        CHECK(d.count == (i < 257 ? i : 257) && d.are_exact == 0);
    }
}

/* The text of each code, in buffers that are large enough and one byte too small. */
static void test_code_texts(void)
{
    char buffer[64];
    for (line_number = 0; line_number <= 24; line_number++) {
        uint32_t code = (uint32_t)line_number;
        size_t length = icysixel_strerror(code, buffer, sizeof buffer);
        CHECK(length > 0 && length < sizeof buffer && strlen(buffer) == length);
        bool is_code = code <= ICYSIXEL_ROWS_RELEASED && code != 18 && code != 19;
        CHECK((strcmp(buffer, "unknown code") == 0) == !is_code);
        CHECK(icysixel_strerror(code, buffer, length) == length && buffer[0] == 0);
        CHECK(icysixel_strerror(code, buffer, length + 1) == length && strlen(buffer) == length);
    }
}

#define TEST(name) {#name, test_##name}

/* The library and the header are of one version. */
static void test_version(void)
{
    CHECK(icysixel_version() == ICYSIXEL_VERSION_NUMBER);
}

int main(void)
{
    static const struct { const char *name; void (*test)(void); } tests[] = {
        TEST(empty_handle), TEST(new_on_full_handle), TEST(progress), TEST(failed_feeds),
        TEST(bands), TEST(copied_rows), TEST(wider_end), TEST(whole_rows),
        TEST(lenient), TEST(transparent), TEST(first_register), TEST(cropped_rows), TEST(pixels), TEST(errors),
        TEST(drawn_height), TEST(clipped_heights), TEST(raster_size), TEST(take_pixels), TEST(new_on_full_handle),
        TEST(take_no_pixels),
        TEST(registers), TEST(settings), TEST(encode), TEST(shapes), TEST(backgrounds),
        TEST(encodings), TEST(options), TEST(formats), TEST(widest), TEST(palettes), TEST(indices),
        TEST(tolerance), TEST(distinct), TEST(code_texts), TEST(version),
    };
    for (size_t i = 0; i < COUNT_OF(tests); i++) subject = tests[i].name, tests[i].test();
    icysixel_free_bytes(&text);
    icysixel_free(h);
    test_empty_handle();
    return 0;
}
