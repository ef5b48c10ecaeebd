/* Digests of what the library returns, which is the same on each processor: digests
 *
 * Writes a line for each encoding of four images, for each of their palettes, and for decodings of
 * what was encoded. No digest depends on the order of bytes in a number. */
#include "checks.h"

enum { WIDTH = 96, HEIGHT = 61, PIXELS = WIDTH * HEIGHT };

static uint64_t digest;

/* Adds bytes to the digest: FNV-1a. */
static void add(const void *bytes, size_t length)
{
    for (size_t i = 0; i < length; i++)
        digest = (digest ^ ((const uint8_t *)bytes)[i]) * 0x100000001b3;
}

static void add_number(uint64_t number)
{
    for (int shift = 0; shift < 64; shift += 8) add(&(uint8_t){(uint8_t)(number >> shift)}, 1);
}

static void write_line(const char *what, size_t image, const int numbers[5])
{
    printf("%s %zu", what, image);
    for (int i = 0; i < 5; i++) printf(" %d", numbers[i]);
    printf(" %016llx\n", (unsigned long long)digest);
    digest = 0xcbf29ce484222325;
}

/* A smooth image, noise, a chart of few colors, and a disk on a transparent background. */
static void draw(size_t image, uint8_t *pixels)
{
    uint32_t noise = 1;
    for (uint32_t i = 0; i < PIXELS; i++) {
        uint32_t x = i % WIDTH, y = i / WIDTH;
        uint32_t far = (x - 48) * (x - 48) + (y - 30) * (y - 30);
        noise = noise * 1664525 + 1013904223;
        const uint8_t colors[][4] = {
            {(uint8_t)(x * 2), (uint8_t)(y * 4), (uint8_t)(x + y), 255},
            {(uint8_t)(noise >> 24), (uint8_t)(noise >> 16), (uint8_t)(noise >> 8), 255},
            {x * y % 7 < 2 ? 255 : 20, x / 12 % 2 ? 200 : 0, y > x ? 90 : 250, 255},
            {(uint8_t)far, 80, (uint8_t)(y * 4), far < 900 ? 255 : 0},
        };
        memcpy(pixels + 4 * i, colors[image], 4);
    }
}

/* Decodes a text in chunks of a length by these settings. */
static void decode(struct bytes text, size_t image, const int settings[5])
{
    static const size_t lengths[] = {SIZE_MAX, 61, 1};
    icysixel decoder = new_handle();
    icysixel_fed fed = {0};
    icysixel_shape shape = {0};
    icysixel_set_height(&decoder, (uint8_t)settings[1]);
    icysixel_set_lenient(&decoder, (uint8_t)settings[2]);
    icysixel_set_transparent(&decoder, (uint8_t)settings[3]);
    if (settings[4]) icysixel_set_clip(&decoder, 41, 27);
    icysixel_begin_dcs(&decoder);
    uint32_t code = ICYSIXEL_OK;
    for (size_t at = 0; code == ICYSIXEL_OK && at < text.length; at += fed.consumed) {
        struct bytes chunk = part(text, at, lengths[settings[0]]);
        code = icysixel_feed(&decoder, chunk.at, chunk.length, &fed);
        if (fed.consumed == 0) break;
    }
    add_number(code), add_number(fed.status);
    struct outcome outcome = outcome_of(&decoder, icysixel_finish(&decoder, &shape), shape);
    struct registers registers = registers_of(&decoder);
    add_number(outcome.code), add_number(shape.width), add_number(shape.height);
    add_number(shape.drawn_height), add_number(shape.ignored);
    add(outcome.pixels, outcome.code == ICYSIXEL_OK ? shape.bytes : 0);
    add(&registers, sizeof registers);
    write_line("decode", image, settings);
    free(outcome.pixels), icysixel_free(&decoder);
}

/* Encodes an image by these settings, and decodes the text by many. */
static void encode(const uint8_t *pixels, size_t image, const int settings[5])
{
    icysixel_encoding encoding = {.width = WIDTH, .height = HEIGHT};
    icysixel_bytes text = {0};
    encoding.palette = (uint8_t)settings[0], encoding.max_colors = (uint16_t)settings[1];
    encoding.form = (uint8_t)settings[2], encoding.dithering.kind = (uint8_t)settings[3];
    encoding.tolerance = settings[4] ? ICYSIXEL_AUTO : 0;
    CHECK(icysixel_encode(pixels, 4 * PIXELS, &encoding, &text) == ICYSIXEL_OK);
    add(text.data, text.length);
    write_line("encode", image, settings);
    for (int i = 0; settings[2] == ICYSIXEL_FORM_PLAIN && settings[3] == 0 && i < 72; i++)
        decode((struct bytes){text.data, text.length}, image,
               (int[5]){i % 3, i / 3 % 3, i / 9 % 2, i / 18 % 2, i / 36});
    icysixel_free_bytes(&text);
}

/* Chooses both palettes, one with its certificate. */
static void choose(const uint8_t *pixels, size_t image, int colors)
{
    icysixel_color entries[256] = {0}, witnesses[257] = {0};
    uint8_t indices[PIXELS];
    icysixel_palette palette = {0};
    icysixel_refined refined = {0};
    CHECK(icysixel_choose_palette(pixels, 4 * PIXELS, (uint16_t)colors, entries, 256, witnesses,
                                  257, indices, PIXELS, &palette) == ICYSIXEL_OK);
    add_number(palette.colors), add_number(palette.witnesses), add_number(palette.error);
    add(entries, sizeof entries), add(witnesses, sizeof witnesses), add(indices, PIXELS);
    CHECK(icysixel_refine_palette(pixels, 4 * PIXELS, (uint16_t)colors, entries, 256, indices,
                                  PIXELS, &refined) == ICYSIXEL_OK);
    add_number(refined.colors), add_number(refined.error);
    add(entries, sizeof entries), add(indices, PIXELS);
    write_line("palettes", image, (int[5]){colors});
}

int main(void)
{
    static const int colors[] = {256, 64, 16, 2};
    static const int kinds[] = {
        ICYSIXEL_DITHER_OFF, ICYSIXEL_DITHER_DIFFUSION, ICYSIXEL_DITHER_ORDERED};
    static uint8_t pixels[4 * PIXELS];
    digest = 0xcbf29ce484222325;
    for (size_t image = 0; image < 4; image++) {
        draw(image, pixels);
        for (size_t i = 0; i < 4; i++) {
            choose(pixels, image, colors[i]);
            for (int form = 0; form < 2; form++) {
                encode(pixels, image, (int[5]){ICYSIXEL_PALETTE_FARTHEST, colors[i], form});
                for (int k = 0; k < 6; k++)
                    encode(pixels, image, (int[5]){ICYSIXEL_PALETTE_REFINED, colors[i], form,
                                                   kinds[k / 2], k % 2});
            }
        }
    }
    return 0;
}
