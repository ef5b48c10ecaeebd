/* Each allocation of each call fails in turn, until a call meets no failure. Then a call that met
 * one reports ICYSIXEL_OUT_OF_MEMORY, no register has changed, and the same call succeeds with
 * memory. Calls that do not allocate succeed while every allocation fails. */
#include "checks.h"
#include "memory.h"

#define OK(call) CHECK((call) == ICYSIXEL_OK)

/* Rows grow three times, never under a run of 256 columns over drawn pixels. */
#define PAYLOAD "\"1;1;40;14#1;2;100;0;0!5~-!50N$#2;2;0;100;0!7B-#1!90A$#3?!120~!9@"
static const uint8_t payload[] = PAYLOAD, string[] = "\033P0;1q" PAYLOAD "\033\\";

/* Bytes of an image of 32x40 pixels in 64 colors. */
static uint8_t pixels[32 * 40 * 4];

static void make_pixels(void)
{
    for (size_t i = 0; i < sizeof pixels / 4; i++) {
        uint8_t color[] = {i % 8 * 30, i / 32 % 8 * 30, 9, 255};
        memcpy(pixels + 4 * i, color, 4);
    }
}

/* A call, or the calls of a session, and what is left to compare: bytes in `made`. */
struct call {
    const char *name;
    uint32_t (*make)(icysixel *handle, int kind, struct bytes *made);
    int kind; /* one of the calls that `make` makes */
};

enum {
    DECODE, CLIPPED, DECODE_PAYLOAD, DECODE_TAGS, OF_DCS, OF_PAYLOAD, OF_TAGS, IN_BANDS,
    ENCODE_16, ENCODE_64, COMPACT, REFINED, REFINED_PLAIN, REFINED_ORDERED, ON_BACKGROUND,
    IN_PALETTE, BGRA, RGB, DENSE_BGR, INDEXED, CLEAR, CHOOSE, REFINE, NEAREST, ORDERED, DIFFUSED,
    COUNT, NEW,
};

/* Wide runs over drawn pixels, which set tags, also in chunks. */
#define WIDE "$#1!65535N$#2!65535~"
static const uint8_t tags[] = WIDE WIDE WIDE WIDE WIDE WIDE, run[] = "#1!300N$#2!300~";

#define INPUT(bytes) {bytes, sizeof bytes - 1}
static const struct { const uint8_t *at; size_t length; } inputs[] = {
    INPUT(string), INPUT(string), INPUT(payload), INPUT(tags),
    INPUT(string), INPUT(payload), INPUT(run),
};

/* Feeds chunks of seven bytes, and ends the image. */
static uint32_t make_session(icysixel *h, int kind, icysixel_shape *shape)
{
    size_t length = inputs[kind].length;
    icysixel_fed fed;
    uint32_t code = ICYSIXEL_OK;
    if (kind == OF_DCS) icysixel_begin_dcs(h);
    else icysixel_begin_payload(h, 9, 1);
    for (size_t at = 0; code == ICYSIXEL_OK && at < length; at += 7)
        code = icysixel_feed(h, inputs[kind].at + at, length - at < 7 ? length - at : 7, &fed);
    if (code == ICYSIXEL_OK) return icysixel_finish(h, shape);
    check_failed(h, code);
    return code;
}

/* The width of the image of each input. */
static size_t width_of(int kind)
{
    return kind == CLIPPED ? 50 : kind == DECODE_TAGS ? 65535 : kind == OF_TAGS ? 300 : 130;
}

/* Copies the stored image. After an error there is none. */
static uint32_t make_image(icysixel *h, int kind, struct bytes *made)
{
    const uint8_t *input = inputs[kind].at;
    size_t length = inputs[kind].length;
    icysixel_shape shape = {0};
    if (kind == CLIPPED) icysixel_set_clip(h, 50, 9);
    uint32_t code = kind <= CLIPPED ? icysixel_decode(h, input, length, &shape)
        : kind <= DECODE_TAGS ? icysixel_decode_payload(h, input, length, 9, 1, &shape)
        : make_session(h, kind, &shape);
    CHECK(icysixel_is_receiving(h) == 0);
    if (code == ICYSIXEL_OK) {
        CHECK(shape.width == width_of(kind));
        *made = (struct bytes){outcome_of(h, code, shape).pixels, shape.bytes};
    } else {
        CHECK(icysixel_take_pixels(h, 0, &(icysixel_bytes){0}) == ICYSIXEL_NO_IMAGE);
    }
    return code;
}

/* Copies and releases the final rows after each band. Only a feed allocates. */
static uint32_t make_rows(icysixel *h, int kind, struct bytes *made)
{
    static uint8_t rows[18][520];
    size_t length = sizeof payload - 1, final = 0;
    icysixel_layout layout = {.columns = 130};
    icysixel_shape shape;
    icysixel_fed fed;
    icysixel_begin_payload(h, 9, 1);
    for (size_t at = 0, from = 0; at < length; at += fed.consumed, from = final) {
        uint32_t code = icysixel_feed_band(h, payload + at, length - at, &fed);
        if (code != ICYSIXEL_OK) return check_failed(h, code), (void)kind, code;
        final = icysixel_get_rows_so_far(h);
        OK(icysixel_copy_rows(h, from, final - from, &layout, rows[from], (18 - from) * 520));
        OK(icysixel_release_rows(h, final));
    }
    OK(icysixel_finish(h, &shape));
    CHECK(shape.width == 130 && shape.height == 18 && shape.first_row == final);
    OK(icysixel_copy_pixels(h, final, 18 - final, &layout, rows[final], (18 - final) * 520));
    append(made, rows, sizeof rows);
    return ICYSIXEL_OK;
}

/* How 31 of 32 columns are encoded, so that the rows are copied. Other formats than RGBA find their
 * pixels in the same bytes. */
#define COLUMNS(bytes) .stride = (bytes) * 32, .width = 31, .height = 40
#define TWO .color_count = 2, .colors = {{0, 0, 9}, {200, 200, 9}}
#define DIFFUSED_BY_6 .dithering = {ICYSIXEL_DITHER_DIFFUSION, 6}
#define TO_COMPACT .form = ICYSIXEL_FORM_COMPACT
#define FARTHEST .palette = ICYSIXEL_PALETTE_FARTHEST
#define IN_TWO .palette = ICYSIXEL_PALETTE_GIVEN, TWO
static const icysixel_encoding encodings[] = {
    [ENCODE_16] = {COLUMNS(4), .max_colors = 16, FARTHEST},
    [ENCODE_64] = {COLUMNS(4), .max_colors = 64, FARTHEST},
    [COMPACT] = {COLUMNS(4), .max_colors = 16, FARTHEST, TO_COMPACT},
    [REFINED] = {COLUMNS(4), .max_colors = 16, DIFFUSED_BY_6, TO_COMPACT},
    [REFINED_PLAIN] = {COLUMNS(4), .max_colors = 16},
    [REFINED_ORDERED]
    = {COLUMNS(4), .max_colors = 16, .dithering = {ICYSIXEL_DITHER_ORDERED, 8}, TO_COMPACT},
    [ON_BACKGROUND] = {COLUMNS(4), .max_colors = 16, .background = ICYSIXEL_BACKGROUND_COLOR},
    [IN_PALETTE] = {COLUMNS(4), IN_TWO, DIFFUSED_BY_6, TO_COMPACT, .tolerance = ICYSIXEL_AUTO},
    [BGRA] = {COLUMNS(4), IN_TWO, .format = ICYSIXEL_FORMAT_BGRA},
    [RGB] = {COLUMNS(3), .max_colors = 16, .format = ICYSIXEL_FORMAT_RGB},
    [DENSE_BGR] = {.width = 32, .height = 40, FARTHEST, .format = ICYSIXEL_FORMAT_BGR},
    [INDEXED] = {COLUMNS(1), TWO, .format = ICYSIXEL_FORMAT_INDEXED},
    [CLEAR] = {COLUMNS(1), TWO, .format = ICYSIXEL_FORMAT_INDEXED_TRANSPARENT, .transparent = 0},
};

/* Encodes the columns and copies the text. After an error there is none. */
static uint32_t make_text(icysixel *h, int kind, struct bytes *made)
{
    static const uint8_t indices[32 * 40] = {1};
    icysixel_bytes text = {0};
    (void)h;
    uint32_t code = kind >= INDEXED
        ? icysixel_encode(indices, sizeof indices, &encodings[kind], &text)
        : icysixel_encode(pixels, sizeof pixels, &encodings[kind], &text);
    CHECK((code == ICYSIXEL_OK) == (text.length > 0));
    append(made, text.data, text.length);
    icysixel_free_bytes(&text);
    return code;
}

/* Finds a palette, counts colors, or finds indices in a palette of two. Indices are compared. */
static uint32_t make_palette(icysixel *h, int kind, struct bytes *made)
{
    icysixel_color colors[16], witnesses[17];
    icysixel_palette chosen = {0};
    icysixel_refined refined = {0};
    icysixel_distinct distinct;
    uint8_t indices[sizeof pixels / 4] = {0};
    size_t size = sizeof pixels, count = sizeof indices;
    const icysixel_color *two = encodings[IN_PALETTE].colors;
    const icysixel_dithering *dithering
        = &encodings[kind == NEAREST ? REFINED_PLAIN : kind == ORDERED ? REFINED_ORDERED : REFINED]
               .dithering;
    uint32_t code
        = kind == CHOOSE ? icysixel_choose_palette(pixels, size, 16, colors, 16, witnesses, 17,
                                                   indices, count, &chosen)
        : kind == REFINE ? icysixel_refine_palette(pixels, size, 16, colors, 16, indices, count,
                                                   &refined)
        : kind == COUNT ? icysixel_count_colors(pixels, size, &distinct)
        : icysixel_palette_indices(pixels, size, 32, two, 2, dithering, 0, indices, count);
    CHECK(chosen.colors + refined.colors == (code == ICYSIXEL_OK && kind < NEAREST ? 16 : 0));
    append(made, indices, code == ICYSIXEL_OK ? count : 0);
    return (void)h, code;
}

/* A new decoder in place of one that has an image and a text. A failure leaves an empty handle. */
static uint32_t make_new(icysixel *h, int kind, struct bytes *made)
{
    (void)kind;
    uint32_t code = icysixel_new(h), is_ok = code == ICYSIXEL_OK;
    CHECK(icysixel_get_limit(h) == (is_ok ? 67108864 : 0));
    return append(made, "new", is_ok ? 3 : 0), code;
}

#define CALL(make, kind) {#kind, make_##make, kind}
static const struct call calls[] = {
    CALL(image, OF_DCS), CALL(image, OF_PAYLOAD), CALL(image, OF_TAGS), CALL(rows, IN_BANDS),
    CALL(image, DECODE), CALL(image, CLIPPED), CALL(image, DECODE_PAYLOAD),
    CALL(image, DECODE_TAGS), CALL(text, ENCODE_16), CALL(text, ENCODE_64), CALL(text, COMPACT),
    CALL(text, REFINED), CALL(text, REFINED_PLAIN), CALL(text, REFINED_ORDERED),
    CALL(text, ON_BACKGROUND), CALL(text, IN_PALETTE), CALL(text, BGRA), CALL(text, RGB),
    CALL(text, DENSE_BGR), CALL(text, INDEXED), CALL(text, CLEAR), CALL(palette, CHOOSE),
    CALL(palette, REFINE), CALL(palette, NEAREST), CALL(palette, ORDERED), CALL(palette, DIFFUSED),
    CALL(palette, COUNT), CALL(new, NEW),
};

/* A decoder with a register that no new one has, and an image. */
static icysixel full_decoder(void)
{
    icysixel h = {0};
    icysixel_shape shape;
    OK(icysixel_new(&h));
    icysixel_set_register(&h, 200, 1, 2, 3);
    OK(icysixel_decode(&h, (const uint8_t *)"#1;2;9;9;9!9~", 13, &shape));
    return h;
}

/* Makes the call with this allocation failing, and again if it failed; `expected` is made. */
static bool meets_failure(const struct call *call, size_t failing, const struct bytes *expected)
{
    icysixel h = full_decoder();
    struct registers before = registers_of(&h);
    struct bytes made = {0};
    memory.requests = 0, memory.failing = failing;
    uint32_t code = call->make(&h, call->kind, &made);
    bool has_failed = memory.requests >= failing;
    memory.failing = 0;
    CHECK(code == (has_failed ? ICYSIXEL_OUT_OF_MEMORY : ICYSIXEL_OK));
    CHECK(!has_failed || call->make == make_new || has_registers(&h, &before));
    if (has_failed) OK(call->make(&h, call->kind, &made));
    CHECK(made.length == expected->length && memcmp(made.at, expected->at, made.length) == 0);
    free(made.at);
    icysixel_free(&h);
    CHECK(memory.blocks == 0 && memory.bytes == 0);
    return has_failed;
}

static void test_each_allocation(const struct call *call)
{
    icysixel h = full_decoder();
    struct bytes expected = {0};
    size_t failing = 1;
    subject = call->name, line_number = 0;
    CHECK(call->make(&h, call->kind, &expected) == ICYSIXEL_OK && expected.length > 0);
    icysixel_free(&h);
    while (line_number = failing, meets_failure(call, failing, &expected)) failing++;
    CHECK(failing > 1);
    printf("%s: %zu allocations\n", call->name, failing - 1);
    free(expected.at);
}

/* Sizes and buffers are rejected before anything is allocated. */
static void test_rejected(void)
{
    icysixel_color colors[3];
    icysixel_palette chosen;
    icysixel_refined refined;
    icysixel_bytes text;
    icysixel_encoding none = {.height = 4}, four = {.width = 2, .height = 2};
    icysixel_encoding all = {.width = SIZE_MAX, .height = 2};
    CHECK(icysixel_encode(pixels, 0, &none, &text) == ICYSIXEL_BAD_DIMENSIONS);
    CHECK(icysixel_encode(pixels, 9, &four, &text) == ICYSIXEL_BUFFER_MISMATCH);
    CHECK(icysixel_encode(pixels, 0, &all, &text) == ICYSIXEL_OVERFLOW);
    CHECK(icysixel_choose_palette(pixels, 3, 2, colors, 2, colors, 3, NULL, 0, &chosen)
          == ICYSIXEL_BUFFER_MISMATCH);
    CHECK(icysixel_refine_palette(pixels, 3, 2, colors, 2, NULL, 0, &refined)
          == ICYSIXEL_BUFFER_MISMATCH);
    CHECK(icysixel_refine_palette(pixels, 0, 0, colors, 2, NULL, 0, &refined)
          == ICYSIXEL_COLOR_COUNT);
}

/* Makes the calls on a decoder with an image, while every allocation fails. */
static void test_no_allocation(void)
{
    icysixel h = full_decoder();
    icysixel_fed fed;
    icysixel_shape shape;
    icysixel_size size;
    icysixel_color color;
    icysixel_bytes block = {0};
    uint8_t buffer[512];
    subject = "calls that do not allocate", line_number = 0;
    memory.requests = 0, memory.all_fail = true;
    OK(icysixel_copy_pixels(&h, 0, 1, &(icysixel_layout){.columns = 1}, buffer, sizeof buffer));
    icysixel_set_register(&h, 1, 1, 2, 3);
    OK(icysixel_get_register(&h, 1, &color));
    icysixel_reset_registers(&h), icysixel_set_registers(&h, 2, &color, 1);
    icysixel_set_height(&h, 1), icysixel_set_limit(&h, 99), icysixel_set_clip(&h, 9, 8);
    CHECK(color.green == 2 && icysixel_get_height(&h) == 1 && icysixel_get_limit(&h) == 99);
    OK(icysixel_get_clip(&h, &size));
    icysixel_begin_dcs(&h);
    OK(icysixel_feed(&h, (const uint8_t *)"\033P9;1q#1;2;9;9;9$-!", 19, &fed));
    OK(icysixel_get_size_so_far(&h, &size));
    CHECK(icysixel_in_payload(&h) == 1);
    icysixel_abort(&h);
    CHECK(icysixel_is_receiving(&h) == 0);
    icysixel_begin_payload(&h, 9, 1);
    OK(icysixel_feed(&h, (const uint8_t *)"!65536", 6, &fed));
    CHECK(icysixel_feed(&h, (const uint8_t *)"~", 1, &fed) == ICYSIXEL_MALFORMED);
    CHECK(icysixel_strerror(ICYSIXEL_MALFORMED, (char *)buffer, sizeof buffer) == 20);
    test_rejected();
    icysixel_discard_image(&h);
    CHECK(memory.requests == 0);
    memory.all_fail = false;
    icysixel_set_limit(&h, SIZE_MAX), icysixel_set_clip(&h, SIZE_MAX, SIZE_MAX);
    OK(icysixel_decode(&h, string, sizeof string - 1, &shape));
    memory.requests = 0, memory.all_fail = true;
    OK(icysixel_take_pixels(&h, 0, &block)), CHECK(block.length == shape.bytes);
    icysixel_free(&h);
    icysixel_free_bytes(&block);
    CHECK(memory.requests == 0 && memory.blocks == 0 && memory.bytes == 0);
    memory.all_fail = false;
}

int main(void)
{
    make_pixels();
    for (size_t i = 0; i < COUNT_OF(calls); i++) test_each_allocation(&calls[i]);
    test_no_allocation();
    return 0;
}
