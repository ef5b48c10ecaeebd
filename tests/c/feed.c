/* Feeds its input, a DCS sequence of at most a megabyte, in chunks of LENGTH bytes, and can release the
 * final rows after each chunk: feed LENGTH [release] */
#include "checks.h"

int main(int argc, char **argv)
{
    static uint8_t input[1 << 20];
    struct bytes text = {input, fread(input, 1, sizeof input, stdin)};
    CHECK(argc == 2 || argc == 3);
    size_t length = strtoul(argv[1], NULL, 10);
    icysixel h = new_handle();
    icysixel_fed fed;
    icysixel_shape shape;
    icysixel_begin_dcs(&h);
    for (size_t at = 0; at < text.length; at += length) {
        struct bytes chunk = part(text, at, length);
        CHECK(icysixel_feed(&h, chunk.at, chunk.length, &fed) == ICYSIXEL_OK);
        if (argc == 2) continue;
        CHECK(icysixel_release_rows(&h, icysixel_get_rows_so_far(&h)) == ICYSIXEL_OK);
    }
    CHECK(icysixel_finish(&h, &shape) == ICYSIXEL_OK);
    icysixel_free(&h);
}
