/* Runs the code of examples/hosts/xterm.md, which is page.c, on the payloads of files. */
#include "page.c"
#include "payload.h"

enum { WIDTH = 800, HEIGHT = 480 };

static ColorRegister shared[MAX_COLOR_REGISTERS], own[MAX_COLOR_REGISTERS];

void update_color_register(Graphic *graphic, unsigned number, int red, int green, int blue)
{
    if (number >= MAX_COLOR_REGISTERS || red > 100 || green > 100 || blue > 100) abort();
    ColorRegister color = {(short)red, (short)green, (short)blue};
    (graphic->private_colors ? own : shared)[number] = color;
}

RegisterNum find_color_register(const ColorRegister *colors, int red, int green, int blue)
{
    (void)colors, (void)red, (void)green, (void)blue;
    return 0;
}

int main(int count, char **files)
{
    static char payload[1 << 20];
    static RegisterNum pixels[WIDTH * HEIGHT];
    size_t shown = 0;
    for (int file = 1; file < count; file++) {
        const int32_t parameters[2] = {-1, file % 3};
        Graphic graphic = {pixels, own, file % 2 ? own : shared, WIDTH, HEIGHT, 0, 0, file % 2};
        icysixel_shape shape;
        read_payload(files[file], payload, sizeof payload);
        if (decode_sixel(&graphic, payload, parameters, &shape) != ICYSIXEL_OK) abort();
        if (graphic.actual_width > WIDTH || graphic.actual_height > HEIGHT) abort();
        for (int y = 0; y < graphic.actual_height; y++)
            for (int x = 0; x < graphic.actual_width; x++) {
                RegisterNum number = pixels[y * WIDTH + x];
                if (number >= MAX_COLOR_REGISTERS && number != COLOR_HOLE) abort();
                shown += number != COLOR_HOLE;
            }
    }
    return shown == 0;
}
