/* Runs the code of examples/hosts/tmux.md, which is page.c, on the payloads of files. */
#include "page.c"
#include "payload.h"

int main(int count, char **files)
{
    static char payload[1 << 20];
    size_t printed = 0;
    for (int file = 1; file < count; file++) {
        struct pane_image image, scaled = {.width = 16, .height = 31};
        size_t length = read_payload(files[file], payload, sizeof payload), written = 0;
        char *text;
        if (parse_image((uint8_t *)payload, length, 800 * 480, &image) != ICYSIXEL_OK) continue;
        if (image.width * image.height > 800 * 480) abort();
        if (scale_image(&image, 1, 2, image.width, image.height, &scaled) != ICYSIXEL_OK) abort();
        if (print_image(&scaled, 256, &text, &written) != ICYSIXEL_OK) abort();
        if (strlen(text) != written) abort();
        printed += written;
        free(text);
        free(scaled.rgba);
        free(image.rgba);
    }
    return printed == 0;
}
