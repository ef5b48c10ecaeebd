/* Random inputs for the builds by two compilers, which must agree: random COUNT SEED
 *
 * Writes a line for each case with a digest of all results: images, codes, registers, counts, texts
 * and palettes. Then four threads make a tenth of the cases at the same time, each with a handle of
 * its own, and continue with the handle of another. They have the same results. */
#include "checks.h"
#include <pthread.h>

enum { THREADS = 4 };

static size_t count;
static uint64_t seed, *digests;
static _Thread_local uint64_t state, digest;

/* The generator SplitMix64. */
static uint32_t below(uint32_t bound)
{
    uint64_t word = state += 0x9e3779b97f4a7c15;
    word = (word ^ word >> 30) * 0xbf58476d1ce4e5b9;
    word = (word ^ word >> 27) * 0x94d049bb133111eb;
    return (uint32_t)((word ^ word >> 31) % bound);
}

/* Adds bytes to the digest: FNV-1a. */
static void add(const void *bytes, size_t length)
{
    for (size_t i = 0; i < length; i++)
        digest = (digest ^ ((const uint8_t *)bytes)[i]) * 0x100000001b3;
}

/* The outcome of a call, which is added with the registers after it. */
static struct outcome add_outcome(const icysixel *decoder, uint32_t code, icysixel_shape shape)
{
    uint64_t numbers[] = {code, shape.width, shape.height, shape.drawn_height, shape.p1, shape.p2};
    struct outcome outcome = outcome_of(decoder, code, shape);
    struct registers registers = registers_of(decoder);
    add(numbers, sizeof numbers);
    add(outcome.pixels, code == ICYSIXEL_OK ? shape.bytes : 0);
    add(&registers, sizeof registers);
    return outcome;
}

/* SIXEL data: sixels between commands, terminators and bytes of any value. */
static struct bytes random_data(bool is_string)
{
    static const char *const headers[] = {"\033Pq", "\x90q", "\033P9;1q", "\033P2;1;0q"};
    static const char *const parts[] = {
        "~~~~", "?@AC", "N", "_^", "!", "!3", "!70", "!300", "!65536", "#", "#1", "#2;2;100;0;0",
        "#3;1;120;50;99", "#300;1;7;7;7", "\"1;1;9;9", "\"2;1;30;4", "$", "-", ";", "0", "12",
        "\n", " ", "\xff", "\x18", "\033", "\x9c", "\x9b" "0m"};
    struct bytes data = {0};
    const char *part = is_string ? headers[below(COUNT_OF(headers))] : "";
    append(&data, part, strlen(part));
    for (uint32_t left = below(60); left > 0; left--) {
        uint8_t byte = (uint8_t)below(256), sixel = (uint8_t)(63 + below(64));
        uint32_t rare = below(20) == 0 ? 0 : 4;
        append(&data, &sixel, 1);
        part = parts[below((uint32_t)COUNT_OF(parts) - rare)];
        append(&data, part, strlen(part));
        append(&data, &byte, below(100) == 0);
    }
    append(&data, "\033\\", is_string ? 2 : 0);
    return data;
}

/* How data are decoded: a payload's parameters, the height, and whether they are a sequence. */
static _Thread_local struct { bool is_string, is_lenient; uint8_t height; int32_t p1, p2; } settings;

static icysixel new_decoder(void)
{
    icysixel decoder = new_handle();
    icysixel_set_limit(&decoder, 20000), icysixel_set_height(&decoder, settings.height);
    icysixel_set_lenient(&decoder, settings.is_lenient);
    if (settings.is_string) icysixel_begin_dcs(&decoder);
    else icysixel_begin_payload(&decoder, settings.p1, settings.p2);
    return decoder;
}

/* Feeds random chunks and copies each band once it is final. The rows are those of the image. */
static void try_rows(struct bytes data, const struct outcome *image)
{
    icysixel decoder = new_decoder();
    icysixel_fed fed = {0};
    icysixel_shape shape = {0};
    bool is_image = image->code == ICYSIXEL_OK;
    icysixel_layout layout = {.columns = is_image ? image->shape.width : 1};
    size_t row = 4 * layout.columns, size = is_image ? row * image->shape.height : 0;
    size_t copied = 0, seen = 0;
    struct outcome rows = {ICYSIXEL_OK, shape, malloc(size)};
    for (size_t at = 0; rows.code == ICYSIXEL_OK && at < data.length; at += fed.consumed) {
        struct bytes chunk = part(data, at, 1 + below(30));
        rows.code = icysixel_feed_band(&decoder, chunk.at, chunk.length, &fed);
        if (rows.code != ICYSIXEL_OK) continue;
        size_t final = icysixel_get_rows_so_far(&decoder);
        CHECK(fed.status != ICYSIXEL_ROWS || final > seen);
        CHECK(fed.status != ICYSIXEL_MORE || final == seen);
        seen = final;
        if (fed.status != ICYSIXEL_MORE && fed.status != ICYSIXEL_ROWS) break;
        if (final <= copied || final * row > size) continue;
        CHECK(icysixel_copy_rows(&decoder, copied, final - copied, &layout,
                                 rows.pixels + copied * row, size - copied * row) == ICYSIXEL_OK);
        if (below(2)) CHECK(icysixel_release_rows(&decoder, final) == ICYSIXEL_OK);
        copied = final;
    }
    if (rows.code == ICYSIXEL_OK) rows.code = icysixel_finish(&decoder, &rows.shape);
    if (rows.code == ICYSIXEL_OK) {
        size_t height = rows.shape.height, from = copied < height ? copied : height;
        CHECK(icysixel_copy_pixels(&decoder, from, height - from, &layout,
                                   rows.pixels + from * row, size - from * row) == ICYSIXEL_OK);
        rows.shape.bytes = size;
    }
    CHECK(is_same(&rows, image));
    free(rows.pixels), icysixel_free(&decoder);
}

/* Feeds chunks of a length, and returns how many bytes belong to the image and how it ended. */
static icysixel_fed feed_all(struct bytes data, size_t length, bool is_lenient)
{
    settings.is_lenient = is_lenient;
    icysixel decoder = new_decoder();
    icysixel_fed all = {0};
    for (size_t at = 0; at < data.length && all.status == ICYSIXEL_MORE; at += length) {
        struct bytes chunk = part(data, at, length);
        icysixel_fed fed = {0};
        icysixel_feed(&decoder, chunk.at, chunk.length, &fed);
        all = (icysixel_fed){all.consumed + fed.consumed, fed.status, fed.byte};
    }
    settings.is_lenient = false;
    icysixel_free(&decoder);
    return all;
}

/* A strict image that fails has the bytes of a lenient one. Without a header both fail. */
static void try_counts(struct bytes data)
{
    static const size_t lengths[] = {1, 7, 4096};
    icysixel_fed lenient = feed_all(data, 4096, true);
    for (size_t i = 0; i < COUNT_OF(lengths); i++) {
        icysixel_fed strict = feed_all(data, lengths[i], false);
        CHECK(strict.consumed == lenient.consumed);
        CHECK(strict.status == lenient.status && strict.byte == lenient.byte);
    }
    add(&lenient.consumed, sizeof lenient.consumed);
}

/* Decodes at once and by a session in random chunks. A payload comes to the same both times. */
static void try_data(bool is_string)
{
    struct bytes data = random_data(is_string);
    settings.is_string = is_string, settings.height = (uint8_t)below(3);
    settings.p1 = (int32_t)below(12) - 1, settings.p2 = (int32_t)below(4) - 1;
    icysixel whole = new_decoder(), parts = new_decoder();
    icysixel_shape shape = {0};
    icysixel_fed fed = {0};
    uint32_t code = is_string
        ? icysixel_decode(&whole, data.at, data.length, &shape)
        : icysixel_decode_payload(&whole, data.at, data.length, settings.p1, settings.p2,
                                  &shape);
    struct outcome at_once = add_outcome(&whole, code, shape);
    code = ICYSIXEL_OK;
    for (size_t at = 0; code == ICYSIXEL_OK && at < data.length;) {
        struct bytes chunk = part(data, at, below(30));
        code = icysixel_feed(&parts, chunk.at, chunk.length, &fed);
        uint64_t numbers[] = {code, fed.consumed, fed.status, fed.byte};
        add(numbers, sizeof numbers);
        at += chunk.length;
    }
    if (code == ICYSIXEL_OK) code = icysixel_finish(&parts, &shape);
    struct outcome fed_outcome = add_outcome(&parts, code, shape);
    CHECK(is_string || is_same(&fed_outcome, &at_once));
    try_rows(data, &fed_outcome);
    try_counts(data);
    if (data.length > 0) data.at[below((uint32_t)data.length)] = (uint8_t)below(256);
    try_counts(data);
    free(data.at), free(at_once.pixels), free(fed_outcome.pixels);
    icysixel_free(&whole), icysixel_free(&parts);
}

/* Chooses a palette for random pixels, encodes them, and decodes the text. */
static void try_pixels(icysixel *h)
{
    uint32_t width = 1 + below(40), height = 1 + below(30), levels = 2 + below(254);
    uint16_t colors = (uint16_t)below(300);
    struct bytes pixels = {0}, indices = {malloc(width * height), width * height};
    icysixel_color entries[256], witnesses[257];
    icysixel_palette palette = {0};
    icysixel_shape shape = {0};
    for (uint32_t left = width * height; left > 0; left--) {
        uint8_t rgba[4];
        for (int i = 0; i < 4; i++) rgba[i] = (uint8_t)(below(levels) * 255 / (levels - 1));
        append(&pixels, rgba, 4);
    }
    CHECK(icysixel_choose_palette(pixels.at, pixels.length, colors, entries, 256, witnesses, 257,
                                  indices.at, indices.length, &palette) == ICYSIXEL_OK);
    add(entries, 3 * palette.colors), add(witnesses, 3 * palette.witnesses);
    add(&palette.error, 4), add(indices.at, indices.length);
    CHECK(icysixel_new(h) == ICYSIXEL_OK);
    icysixel_encoding encoding = {.width = width, .height = height};
    encoding.max_colors = colors > 0 ? colors : 1;
    encoding.palette = ICYSIXEL_PALETTE_FARTHEST;
    encoding.pixel_height = (uint8_t)below(6), encoding.background = (uint8_t)below(2);
    icysixel_bytes text = text_of(pixels, &encoding);
    add(text.data, text.length);
    CHECK(icysixel_decode(h, text.data, text.length, &shape) == ICYSIXEL_OK);
    struct outcome outcome = add_outcome(h, ICYSIXEL_OK, shape);
    free(pixels.at), free(indices.at), icysixel_free_bytes(&text), free(outcome.pixels);
}

/* Makes a case. The handle may have been used for another one. */
static uint64_t digest_of(icysixel *h, size_t number)
{
    subject = "case", line_number = number;
    state = seed * 1000003 + number, digest = 0xcbf29ce484222325;
    if (number % 3 == 2) try_pixels(h);
    else try_data(number % 3 == 1);
    return digest;
}

static void *work(void *handle)
{
    for (size_t i = 0; i < count / 10; i++) CHECK(digest_of(handle, i) == digests[i]);
    return NULL;
}

int main(int argc, char **argv)
{
    icysixel handles[THREADS] = {0};
    pthread_t threads[THREADS];
    CHECK(argc == 3);
    count = strtoull(argv[1], NULL, 10), seed = strtoull(argv[2], NULL, 10);
    digests = malloc(count * sizeof *digests);
    for (size_t i = 0; i < count; i++) {
        digests[i] = digest_of(&handles[0], i);
        printf("%zu %016llx\n", i, (unsigned long long)digests[i]);
    }
    for (int round = 0; round < 2; round++) {
        for (int i = 0; i < THREADS; i++)
            CHECK(pthread_create(&threads[i], NULL, work, &handles[(i + round) % THREADS]) == 0);
        for (int i = 0; i < THREADS; i++) CHECK(pthread_join(threads[i], NULL) == 0);
    }
    for (int i = 0; i < THREADS; i++) icysixel_free(&handles[i]);
    free(digests);
    return 0;
}
