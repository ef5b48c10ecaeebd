/* The most memory that encoding and decoding use at one time: peak FOLDER
 *
 * Six images are made and encoded, and the texts are written to FOLDER as NAME.six. For each image
 * and each way the peak of the heap may be a fifth above what the table says. */
#include "checks.h"
#include "memory.h"
#include <time.h>

/* Slopes of color with grain: many colors, which change from pixel to pixel. */
static uint32_t photograph(size_t x, size_t y)
{
    size_t grain = (x * x * 7 + y * 31 + x * y * 3) % 24;
    size_t red = x * 200 / 320 + grain, green = y * 200 / 240 + grain;
    return (uint32_t)(red << 24 | green << 16 | ((x + y) % 231 + grain) << 8 | 255);
}

/* Bars with a frame on white. */
static uint32_t chart(size_t x, size_t y)
{
    static const uint32_t bars[] = {0xcc3333ff, 0x33cc33ff, 0x3333ccff, 0xcccc33ff};
    if (x < 2 || y >= 400) return 0x000000ff;
    return x % 80 > 20 && 402 - y < x * 37 % 391 ? bars[x / 80 % 4] : 0xffffffff;
}

/* Stripes, which are a run of three pixels each in one direction. */
static uint32_t stripes(size_t x, size_t y)
{
    return 0x204080ff + ((uint32_t)((x + y) / 3 % 7) << 29);
}

enum { ENCODE_16, ENCODE_256, DECODE, SESSION, BANDS, WAYS };
static const char *const ways[WAYS] = {"encode, 16", "encode, 256", "decode", "session", "bands"};

/* Images, and the bytes that encoding and decoding take, and that decoding takes if rows are
 * released after each band. */
static const struct {
    const char *name;
    icysixel_size size;
    uint32_t (*color)(size_t x, size_t y);
    size_t encoding, decoding, bands;
} images[] = {
    {"photograph", {320, 240}, photograph, 3663150, 473392, 25168},
    {"chart", {640, 402}, chart, 329640, 1424080, 41680},
    {"icon", {48, 48}, stripes, 73428, 16576, 6424},
    {"wide", {20000, 6}, stripes, 394060, 1518136, 1518136},
    {"tall", {6, 20004}, stripes, 254126, 520840, 3520},
    {"raster", {1000, 1002}, NULL, 1071276, 4010944, 2944},
};

static struct bytes make_pixels(size_t width, size_t height, uint32_t (*color)(size_t, size_t))
{
    struct bytes pixels = {malloc(4 * width * height), 4 * width * height};
    for (size_t i = 0; i < width * height; i++) {
        uint32_t c = color == NULL ? 0 : color(i % width, i / width);
        memcpy(pixels.at + 4 * i, (uint8_t[]){c >> 24, c >> 16 & 255, c >> 8 & 255, c & 255}, 4);
    }
    return pixels;
}

/* Encodes the pixels or decodes the text, and returns the most bytes of the heap meanwhile. */
static size_t peak_of(int way, struct bytes pixels, icysixel_size size, struct bytes *text)
{
    CHECK(memory.bytes == 0);
    memory.peak = 0;
    icysixel h = new_handle();
    icysixel_shape shape = {.width = size.width, .height = size.height};
    icysixel_fed fed = {0};
    if (way == DECODE) {
        CHECK(icysixel_decode(&h, text->at, text->length, &shape) == ICYSIXEL_OK);
    } else if (way == SESSION || way == BANDS) {
        icysixel_begin_dcs(&h);
        for (size_t at = 0; fed.status == ICYSIXEL_MORE || fed.status == ICYSIXEL_ROWS;
             at += fed.consumed) {
            struct bytes chunk = part(*text, at, 4096);
            uint32_t code = way == BANDS ? icysixel_feed_band(&h, chunk.at, chunk.length, &fed)
                                         : icysixel_feed(&h, chunk.at, chunk.length, &fed);
            if (way == BANDS) code |= icysixel_release_rows(&h, icysixel_get_rows_so_far(&h));
            CHECK(code == ICYSIXEL_OK);
        }
        CHECK(icysixel_finish(&h, &shape) == ICYSIXEL_OK);
    } else {
        icysixel_encoding encoding = {.width = size.width, .height = size.height};
        encoding.max_colors = way == ENCODE_16 ? 16 : 256;
        encoding.palette = ICYSIXEL_PALETTE_FARTHEST;
        icysixel_bytes made = text_of(pixels, &encoding);
        free(text->at), *text = (struct bytes){0};
        append(text, made.data, made.length), icysixel_free_bytes(&made);
    }
    CHECK(shape.width == size.width && shape.height == size.height);
    icysixel_free(&h);
    return memory.peak;
}

/* An image whose last band is wider than all above it, so that their rows move. */
static void check_late_width(void)
{
    enum { LATE = 2430000 };
    struct bytes text = {0};
    append(&text, "\033Pq", 3);
    for (int band = 0; band < 1000; band++) append(&text, "~-", 2);
    append(&text, "!100~\033\\", 7);
    for (int way = DECODE; way < WAYS; way++) {
        size_t peak = peak_of(way, (struct bytes){0}, (icysixel_size){100, 6006}, &text);
        printf("late width, %s: %zu bytes\n", ways[way], peak);
        CHECK(5 * peak <= 6 * (size_t)LATE);
    }
    free(text.at);
}

/* The most memory beside the band for 19 kB within the default limit: rows that are laid out in
 * nearly twice the width of the image take three times its memory. */
static void check_wide_rows(void)
{
    enum { WIDTH = 4096, NARROW = 340, ROWS = 16380, BAND = 4 * 6 * (2 * WIDTH + 16) };
    struct bytes text = {0};
    append(&text, "\033Pq", 3);
    for (int band = 0; band < ROWS / 6; band++)
        append(&text, band < NARROW ? "!4095~-" : "!4096~-", 7);
    append(&text, "\033\\", 2);
    for (int way = DECODE; way <= SESSION; way++) {
        size_t peak = peak_of(way, (struct bytes){0}, (icysixel_size){WIDTH, ROWS}, &text);
        printf("wide rows, %s: %zu bytes\n", ways[way], peak);
        CHECK(peak <= 3 * (size_t)(4 * WIDTH * ROWS) + BAND + 16384);
    }
    free(text.at);
}

/* Rows that are released six at a time after one large feed: each moves about once. */
static void check_release_in_steps(void)
{
    enum { COUNT = 20000 };
    struct bytes text = {0};
    for (int band = 0; band < COUNT; band++) append(&text, "!100~-", 6);
    icysixel h = new_handle();
    icysixel_fed fed = {0};
    icysixel_begin_payload(&h, -1, -1);
    CHECK(icysixel_feed(&h, text.at, text.length, &fed) == ICYSIXEL_OK);
    clock_t start = clock();
    for (size_t rows = 6; rows <= 6 * COUNT; rows += 6)
        CHECK(icysixel_release_rows(&h, rows) == ICYSIXEL_OK);
    double seconds = (double)(clock() - start) / CLOCKS_PER_SEC;
    CHECK(seconds < 2);
    icysixel_free(&h);
    free(text.at);
}

int main(int argc, char **argv)
{
    CHECK(argc == 2);
    check_late_width();
    check_wide_rows();
    check_release_in_steps();
    for (size_t i = 0; i < COUNT_OF(images); i++) {
        icysixel_size size = images[i].size;
        struct bytes pixels = make_pixels(size.width, size.height, images[i].color), text = {0};
        for (int way = 0; way < WAYS; way++) {
            size_t peak = peak_of(way, pixels, size, &text);
            size_t expected = way < DECODE ? images[i].encoding
                              : way < BANDS ? images[i].decoding : images[i].bands;
            printf("%s, %s: %zu bytes, %.2f of the image\n", images[i].name, ways[way], peak,
                   (double)peak / (double)pixels.length);
            CHECK(5 * peak <= 6 * expected);
        }
        char path[4096];
        snprintf(path, sizeof path, "%s/%s.six", argv[1], images[i].name);
        FILE *file = fopen(path, "wb");
        CHECK(file != NULL && fwrite(text.at, 1, text.length, file) == text.length);
        CHECK(fclose(file) == 0);
        free(text.at), free(pixels.at);
    }
    return 0;
}
