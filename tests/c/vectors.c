/* Tests the C library with test vectors: vectors FILE [brief]
 *
 * vectors.py writes the file. A vector is decoded at once and by sessions: in one chunk, in single
 * bytes, in two chunks cut at each place, and in uneven chunks. With `brief` the cuts are few,
 * because valgrind is slow. */
#include "checks.h"

/* A vector in the file. The bytes of its blocks follow it. */
struct vector {
    char place[32];
    struct bytes data;    /* SIXEL data, or the expected output */
    struct bytes pixels;  /* the expected image, or an image to encode */
    struct bytes error;   /* the text of the expected error, or none */
    icysixel_shape shape; /* the pixels may be fewer or more than its sizes need */
    int32_t p1, p2;
    int32_t colors; /* of the output; -1 if the data are decoded */
    bool is_payload, is_cropped, is_decoded_at_once, has_sessions;
    size_t limit;
    icysixel_size clip;
    size_t ends_after; /* bytes after which the session has ended */
    size_t fails_at;   /* the byte whose feed fails, or the end; SIZE_MAX if that is unknown */
    icysixel_fed end;  /* the bytes that feeds consume, and the status after the last one */
};

static bool is_brief;

/* The code of the expected error, whose text may have details after it. */
static uint32_t code_of(const struct vector *vector)
{
    char text[64];
    for (uint32_t code = 1; code <= ICYSIXEL_ROWS_RELEASED; code++) {
        size_t length = icysixel_strerror(code, text, sizeof text);
        if (length > vector->error.length) continue;
        if (memcmp(vector->error.at, text, length) == 0) return code;
    }
    return vector->error.length == 0 ? ICYSIXEL_OK : UINT32_MAX;
}

/* Checks that the result of a call is the expected image or error. */
static void check_outcome(icysixel *decoder, uint32_t code, icysixel_shape shape,
                          const struct vector *vector)
{
    struct outcome found = outcome_of(decoder, code, shape);
    CHECK(is_same(&found, &(struct outcome){code_of(vector), vector->shape, vector->pixels.at}));
    free(found.pixels);
}

static icysixel decoder_of(const struct vector *vector)
{
    icysixel decoder = new_handle();
    icysixel_set_height(&decoder, vector->is_cropped);
    icysixel_set_limit(&decoder, vector->limit);
    icysixel_set_clip(&decoder, vector->clip.width, vector->clip.height);
    return decoder;
}

/* Decodes at once, and returns the registers. */
static struct registers decode(const struct vector *vector)
{
    icysixel decoder = decoder_of(vector);
    struct registers before = registers_of(&decoder), after;
    struct bytes in = vector->data;
    icysixel_shape shape = {0};
    uint32_t code = vector->is_payload
        ? icysixel_decode_payload(&decoder, in.at, in.length, vector->p1, vector->p2, &shape)
        : icysixel_decode(&decoder, in.at, in.length, &shape);
    check_outcome(&decoder, code, shape, vector);
    CHECK(code == ICYSIXEL_OK || has_registers(&decoder, &before));
    after = registers_of(&decoder);
    icysixel_free(&decoder);
    return after;
}

static size_t least(size_t one, size_t other) { return one < other ? one : other; }

/* Feeds up to `length` bytes in a block of their own, and checks what the feed reports. */
static uint32_t feed(icysixel *decoder, const struct vector *vector, size_t from, size_t length)
{
    struct bytes chunk = {0}, fed_part = part(vector->data, from, length);
    icysixel_fed fed = {0};
    size_t to = from + fed_part.length, consumed = vector->end.consumed;
    bool has_ended = to >= vector->ends_after;
    append(&chunk, fed_part.at, fed_part.length);
    uint32_t code = icysixel_feed(decoder, chunk.at, chunk.length, &fed);
    free(chunk.at);
    CHECK(vector->fails_at == SIZE_MAX || (code != ICYSIXEL_OK) == (to > vector->fails_at));
    if (code != ICYSIXEL_OK) return code;
    CHECK(fed.consumed == least(to, consumed) - least(from, consumed));
    CHECK(fed.status == (has_ended ? vector->end.status : ICYSIXEL_MORE));
    CHECK(fed.byte == (has_ended ? vector->end.byte : 0));
    return ICYSIXEL_OK;
}

/* Decodes by a session, and checks the result and the registers. After the first chunk the others
 * have the same length; if that is 0, all are uneven, by a seed. */
static void try_session(const struct vector *vector, const struct registers *after, size_t first,
                        size_t others)
{
    icysixel decoder = decoder_of(vector);
    struct registers before = registers_of(&decoder);
    icysixel_shape shape = {0};
    uint32_t seed = (uint32_t)first;
    size_t at = others == 0 ? 0 : first;
    if (vector->is_payload) icysixel_begin_payload(&decoder, vector->p1, vector->p2);
    else icysixel_begin_dcs(&decoder);
    uint32_t code = feed(&decoder, vector, 0, at);
    while (code == ICYSIXEL_OK && at < vector->data.length) {
        seed = seed * 1664525 + 1013904223;
        size_t length = others > 0 ? others : 1 + seed % 97;
        code = feed(&decoder, vector, at, 0);
        if (code == ICYSIXEL_OK) code = feed(&decoder, vector, at, length);
        at += length;
    }
    if (code != ICYSIXEL_OK) {
        check_failed(&decoder, code);
    } else {
        code = icysixel_finish(&decoder, &shape);
        CHECK(vector->fails_at >= vector->data.length);
    }
    CHECK(icysixel_is_receiving(&decoder) == 0);
    check_outcome(&decoder, code, shape, vector);
    CHECK(has_registers(&decoder, code == ICYSIXEL_OK ? after : &before));
    icysixel_free(&decoder);
}

/* Decodes by sessions with many cuts; with few, where the image or the input is large. */
static void try_sessions(const struct vector *vector, const struct registers *after)
{
    size_t length = vector->data.length;
    bool is_small = vector->shape.bytes < 1 << 16 && length <= 120 && !is_brief;
    try_session(vector, after, length, 1);
    if (length <= 1 << 16) try_session(vector, after, 0, 1);
    for (size_t cut = 0; is_small && cut <= length; cut++)
        try_session(vector, after, cut, length + 1);
    for (size_t seed = 1; seed <= (is_small ? 16 : 1); seed++) try_session(vector, after, seed, 0);
}

/* Encodes pixels, and checks the output or the error. */
static void encode(const struct vector *vector)
{
    icysixel_shape shape = vector->shape;
    struct bytes pixels = vector->pixels;
    icysixel_bytes text = {0};
    icysixel_encoding encoding = {.width = shape.width, .height = shape.height};
    encoding.max_colors = (uint16_t)(vector->colors > 0 ? vector->colors : 1);
    encoding.palette = ICYSIXEL_PALETTE_FARTHEST;
    encoding.pixel_height = (uint8_t)shape.pixel_height, encoding.background = !shape.p2;
    uint32_t code = icysixel_encode(pixels.at, pixels.length, &encoding, &text);
    /* Bytes after the last row are no error in C. */
    bool is_longer = code == ICYSIXEL_OK && vector->error.length > 0;
    CHECK(code_of(vector) == (is_longer ? ICYSIXEL_BUFFER_MISMATCH : code));
    CHECK(!is_longer || pixels.length > 4 * shape.width * shape.height);
    CHECK(vector->error.length > 0 || (text.length == vector->data.length
          && memcmp(text.data, vector->data.at, text.length) == 0));
    icysixel_free_bytes(&text);
}

int main(int argc, char **argv)
{
    struct vector vector;
    struct bytes *const blocks[] = {&vector.data, &vector.pixels, &vector.error};
    FILE *file = fopen(argv[1], "rb");
    is_brief = argc > 2;
    CHECK(file != NULL);
    for (; fread(&vector, sizeof vector, 1, file) == 1; line_number++) {
        subject = vector.place;
        for (int i = 0; i < 3; i++) {
            blocks[i]->at = malloc(blocks[i]->length);
            CHECK(fread(blocks[i]->at, 1, blocks[i]->length, file) == blocks[i]->length);
        }
        if (vector.colors >= 0) {
            encode(&vector);
        } else {
            struct registers after = {0};
            if (vector.is_decoded_at_once) after = decode(&vector);
            if (vector.has_sessions) try_sessions(&vector, &after);
        }
        for (int i = 0; i < 3; i++) free(blocks[i]->at);
    }
    CHECK(feof(file) && line_number > 0 && fclose(file) == 0);
    return 0;
}
