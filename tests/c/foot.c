/* Runs the code of examples/hosts/foot.md, which is page.c, on the payloads of files. */
#include "page.c"
#include "payload.h"

#define MIN(a, b) ((a) < (b) ? (a) : (b))

int main(int count, char **files)
{
    static char payload[1 << 20];
    icysixel decoder = {0};
    size_t shown = 0;
    for (int file = 1; file < count; file++) {
        const int32_t parameters[3] = {-1, file % 3, -1};
        size_t length = read_payload(files[file], payload, sizeof payload);
        if (!begin_sixel(&decoder, parameters, 0x282828, (icysixel_size){800, 480}, file % 2))
            abort();
        for (size_t at = 0, consumed = 1; at < length && consumed > 0; at += consumed)
            consumed = put_sixel(&decoder, (uint8_t *)payload + at, MIN(7, length - at));
        size_t width, height;
        uint32_t *pixels = end_sixel(&decoder, &width, &height);
        if (pixels == NULL) continue;
        if (width == 0 || width > 800 || height == 0 || height > 480) abort();
        for (size_t it = 0; it < width * height; it++) shown += pixels[it] != 0;
        free(pixels);
    }
    icysixel_free(&decoder);
    return shown == 0;
}
