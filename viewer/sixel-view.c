/* Shows images in a terminal: SIXEL files, and each format that gdk-pixbuf has a loader for. */
#define _GNU_SOURCE
#define GLIB_DISABLE_DEPRECATION_WARNINGS /* GTimeVal is the clock of animations. */
#include "icysixel.h"
#include <errno.h>
#include <gdk-pixbuf/gdk-pixbuf.h>
#include <poll.h>
#include <signal.h>
#include <stdio.h>
#include <stdlib.h>
#include <string.h>
#include <sys/ioctl.h>
#include <termios.h>
#include <unistd.h>

/* The screen of a terminal that does not report its size, and the milliseconds for its answers. */
enum { USUAL_WIDTH = 800, USUAL_HEIGHT = 480, USUAL_ROWS = 24, TIMEOUT = 1000 };
/* The most pixels of a frame, and bytes of all, for a palette; bytes that a loader gets at once. */
enum { FRAME_SAMPLES = 1 << 16, MAX_SAMPLES = 1 << 27, CHUNK = 1 << 16 };

static const char help[] =
    "usage: sixel-view [OPTION ..] [FILE ..], where - or no file is standard input\n"
    "  -c COLORS  the most colors, 1 to 256\n"
    "  -d DITHER  none, diffusion or ordered\n"
    "  -h HEIGHT  the most rows in pixels, by default those of the terminal without its last line\n"
    "  -l         loop: repeat an animation until Ctrl-C\n"
    "  -o off     ignore the orientation that a photograph has stored\n"
    "  -w WIDTH   the most columns in pixels, by default those of the terminal\n";

static const char *const kinds[] = {"none", "diffusion", "ordered", NULL}; /* icysixel_dither */
static int colors = 256, dither = -1, max_width, max_height, is_looping, is_unturned;
static int is_terminal, is_tmux, cell_height; /* of the screen */
static icysixel decoder;

/* What each exit path undoes, also that of a signal. */
static struct termios usual;
static char below[32]; /* moves the cursor below the image */
static volatile sig_atomic_t is_asking, is_drawing, is_placed, is_hidden;

static void try_write(const char *text)
{
    (void)!write(STDOUT_FILENO, text, strlen(text));
}

/* Restores the terminal. CAN ends a DCS sequence that is not complete. */
static void restore(void)
{
    if (is_drawing) try_write("\030");
    if (is_placed) try_write(below);
    if (is_hidden) try_write("\033[?25h");
    if (is_asking) tcsetattr(STDOUT_FILENO, TCSAFLUSH, &usual);
    is_drawing = is_placed = is_hidden = is_asking = 0;
}

/* Restores the terminal, and does then what the signal usually does. */
static void on_signal(int number)
{
    restore();
    signal(number, SIG_DFL);
    raise(number);
}

static void stop(const char *reason)
{
    restore();
    fprintf(stderr, "sixel-view: %s\n", reason);
    exit(1);
}

static void check(uint32_t code)
{
    char text[64];
    icysixel_strerror(code, text, sizeof text);
    if (code != ICYSIXEL_OK) stop(text);
}

static void put(const char *text)
{
    const char *end = text + strlen(text);
    while (text < end) {
        ssize_t count = write(STDOUT_FILENO, text, (size_t)(end - text));
        if (count < 0 && errno != EINTR) stop(g_strerror(errno));
        text += MAX(count, 0);
    }
}

/* Asks the terminal for its size in pixels and for its attributes (DA1), which each terminal
 * reports. Returns whether SIXEL, number 4, is one of them. */
static int ask(int *width, int *height)
{
    char answers[256] = "", *size;
    size_t length = 0;
    struct pollfd input = {STDOUT_FILENO, POLLIN, 0};
    tcgetattr(STDOUT_FILENO, &usual);
    struct termios raw = usual;
    raw.c_lflag &= ~(tcflag_t)(ICANON | ECHO);
    is_asking = 1;
    tcsetattr(STDOUT_FILENO, TCSAFLUSH, &raw);
    put("\033[14t\033[c");
    while (!g_regex_match_simple("\033\\[\\?[\\d;]*c", answers, G_REGEX_RAW, 0) &&
           length < sizeof answers - 1 && poll(&input, 1, TIMEOUT) == 1 &&
           read(STDOUT_FILENO, answers + length, 1) == 1)
        length += answers[length] != '\0';
    restore();
    if ((size = strstr(answers, "\033[4;")) != NULL) sscanf(size, "\033[4;%d;%dt", height, width);
    return g_regex_match_simple("\033\\[\\?[\\d;]*;4[;c]", answers, G_REGEX_RAW, 0);
}

/* Finds out what the terminal is, and the greatest size of an image on it. */
static void measure(void)
{
    struct winsize size = {0};
    int width = USUAL_WIDTH, height = USUAL_HEIGHT;
    if (!(is_terminal = isatty(STDOUT_FILENO))) return;
    int has_sixel = ask(&width, &height);
    is_tmux = getenv("TMUX") != NULL && !has_sixel;
    if (!has_sixel && !is_tmux) stop("the terminal does not report SIXEL");
    ioctl(STDOUT_FILENO, TIOCGWINSZ, &size);
    if (size.ws_xpixel > 0 && size.ws_ypixel > 0) width = size.ws_xpixel, height = size.ws_ypixel;
    cell_height = MAX(1, height / (size.ws_row > 0 ? size.ws_row : USUAL_ROWS));
    if (max_width == 0) max_width = MAX(1, width);
    if (max_height == 0) max_height = MAX(1, height - cell_height);
}

/* Makes lines for an image of this height from that of the cursor on, or goes back to them. */
static void place(int height)
{
    int lines = (height + cell_height - 1) / cell_height;
    char above[32];
    for (int line = 0; line < lines && !is_placed; line++) put("\n");
    g_snprintf(above, sizeof above, is_placed ? "\0338" : "\033[%dA\0337", lines);
    put(above);
    if (is_tmux) put("\033[K"); /* this moves the cursor of the terminal, too */
    g_snprintf(below, sizeof below, "\0338\033[%dB\r", lines);
    is_placed = 1;
}

/* Draws an image. tmux passes it on in a DCS sequence of its own, in which each ESC is two. */
static void draw(const icysixel_bytes *text, int height)
{
    GString *output = g_string_new(is_tmux ? "\033Ptmux;" : NULL);
    for (size_t at = 0; at < text->length; at++) {
        if (is_tmux && text->data[at] == '\033') g_string_append_c(output, '\033');
        g_string_append_c(output, (char)text->data[at]);
    }
    g_string_append(output, is_tmux ? "\033\\" : is_terminal ? "" : "\n");
    if (is_terminal) place(height);
    is_drawing = is_terminal;
    put(output->str);
    is_drawing = 0;
    g_string_free(output, TRUE);
}

/* Makes an image fit the screen. Its pixels are this much higher than wide. A frame is put on
 * black, because it covers the frame before it. */
static GdkPixbuf *fit(const GdkPixbuf *image, int pixel_height, int is_frame)
{
    double width = gdk_pixbuf_get_width(image), by = 1;
    double height = (double)gdk_pixbuf_get_height(image) * pixel_height;
    if (max_width > 0) by = MIN(by, max_width / width);
    if (max_height > 0) by = MIN(by, max_height / height);
    int columns = MAX(1, (int)(width * by + 0.5)), rows = MAX(1, (int)(height * by + 0.5));
    GdkPixbuf *fitted = gdk_pixbuf_new(GDK_COLORSPACE_RGB, TRUE, 8, columns, rows);
    if (fitted == NULL) stop("out of memory");
    gdk_pixbuf_fill(fitted, is_frame ? 0xff : 0);
    gdk_pixbuf_composite(image, fitted, 0, 0, columns, rows, 0, 0, columns / width,
                         rows * pixel_height / height,
                         by < 1 ? GDK_INTERP_BILINEAR : GDK_INTERP_NEAREST, 255);
    return fitted;
}

/* Draws an image that fits, or a frame in the palette of all frames, and frees it. */
static void show(GdkPixbuf *image, icysixel_encoding encoding)
{
    int is_frame = encoding.color_count > 0;
    icysixel_bytes text = {0};
    size_t length = gdk_pixbuf_get_byte_length(image);
    encoding.width = (size_t)gdk_pixbuf_get_width(image);
    encoding.height = (size_t)gdk_pixbuf_get_height(image);
    encoding.max_colors = (uint16_t)colors;
    encoding.palette = is_frame ? ICYSIXEL_PALETTE_GIVEN : ICYSIXEL_PALETTE_REFINED;
    encoding.dithering.kind = is_frame ? ICYSIXEL_DITHER_ORDERED : ICYSIXEL_DITHER_DIFFUSION;
    if (dither >= 0) encoding.dithering.kind = (uint8_t)dither;
    encoding.tolerance = ICYSIXEL_AUTO;
    encoding.form = ICYSIXEL_FORM_COMPACT;
    check(icysixel_encode(gdk_pixbuf_read_pixels(image), length, &encoding, &text));
    draw(&text, (int)encoding.height);
    icysixel_free_bytes(&text);
    g_object_unref(image);
}

/* Goes to the next frame by the clock. Returns 0 at the last one, which counts as "loading". */
static int go_on(GdkPixbufAnimationIter *frames, GTimeVal *clock)
{
    int delay = gdk_pixbuf_animation_iter_get_delay_time(frames);
    if (delay < 0 || gdk_pixbuf_animation_iter_on_currently_loading_frame(frames)) return 0;
    g_time_val_add(clock, 1000L * MAX(delay, 1));
    gdk_pixbuf_animation_iter_advance(frames, clock);
    return 1;
}

/* Chooses one palette for all frames. Of large frames it takes one row in `step`. */
static icysixel_encoding choose_palette(GdkPixbufAnimation *animation)
{
    icysixel_encoding encoding = {0};
    icysixel_refined refined;
    GTimeVal clock = {0};
    GByteArray *samples = g_byte_array_new();
    GdkPixbufAnimationIter *frames = gdk_pixbuf_animation_get_iter(animation, &clock);
    do {
        GdkPixbuf *frame = fit(gdk_pixbuf_animation_iter_get_pixbuf(frames), 1, 1);
        int width = gdk_pixbuf_get_width(frame), height = gdk_pixbuf_get_height(frame);
        int step = 1 + width * height / FRAME_SAMPLES;
        for (int row = 0; row < height; row += step)
            g_byte_array_append(samples, gdk_pixbuf_read_pixels(frame) + 4 * row * width,
                                4 * (guint)width);
        g_object_unref(frame);
    } while (samples->len < MAX_SAMPLES && go_on(frames, &clock));
    uint8_t *indices = g_malloc(samples->len / 4);
    check(icysixel_refine_palette(samples->data, samples->len, (uint16_t)colors, encoding.colors,
                                  256, indices, samples->len / 4, &refined));
    encoding.color_count = (uint16_t)refined.colors;
    g_free(indices);
    g_byte_array_unref(samples);
    g_object_unref(frames);
    return encoding;
}

/* Plays an animation in a terminal. */
static void play(GdkPixbufAnimation *animation)
{
    icysixel_encoding encoding = choose_palette(animation);
    gint64 due = g_get_monotonic_time();
    is_hidden = 1;
    put("\033[?25l");
    do {
        GTimeVal clock = {0};
        GdkPixbufAnimationIter *frames = gdk_pixbuf_animation_get_iter(animation, &clock);
        do {
            show(fit(gdk_pixbuf_animation_iter_get_pixbuf(frames), 1, 1), encoding);
            due += 1000 * gdk_pixbuf_animation_iter_get_delay_time(frames);
            poll(NULL, 0, (int)MAX(0, (due - g_get_monotonic_time()) / 1000));
        } while (go_on(frames, &clock));
        g_object_unref(frames);
    } while (is_looping);
}

/* Shows the image of a SIXEL file. */
static void show_sixel(const char *bytes, size_t length, GError **error)
{
    icysixel_shape shape = {0};
    icysixel_bytes pixels = {0};
    if (icysixel_decode(&decoder, (const uint8_t *)bytes, length, &shape) == ICYSIXEL_OUT_OF_MEMORY)
        stop("out of memory");
    if (shape.bytes == 0) {
        g_set_error(error, GDK_PIXBUF_ERROR, GDK_PIXBUF_ERROR_CORRUPT_IMAGE, "no SIXEL image");
        return;
    }
    check(icysixel_take_pixels(&decoder, ICYSIXEL_ORDER_RGBA, &pixels));
    GdkPixbuf *image = gdk_pixbuf_new_from_data(pixels.data, GDK_COLORSPACE_RGB, TRUE, 8,
                                                (int)shape.width, (int)shape.height,
                                                4 * (int)shape.width, NULL, NULL);
    show(fit(image, shape.pixel_height, 0), (icysixel_encoding){0});
    g_object_unref(image);
    icysixel_free_bytes(&pixels);
}

/* Shows an image, an animation, or the first frame of one without a terminal. The loader gets the
 * file in chunks, because that of GIF moves the rest of a chunk at each block. */
static void show_loaded(const uint8_t *bytes, size_t length, GError **error)
{
    GdkPixbufLoader *loader = gdk_pixbuf_loader_new();
    int is_whole = 1;
    for (size_t at = 0; at < length && is_whole; at += CHUNK)
        is_whole = gdk_pixbuf_loader_write(loader, bytes + at, MIN(CHUNK, length - at), error);
    is_whole &= gdk_pixbuf_loader_close(loader, is_whole ? error : NULL);
    GdkPixbufAnimation *animation = gdk_pixbuf_loader_get_animation(loader);
    if (is_whole && is_terminal && !gdk_pixbuf_animation_is_static_image(animation)) {
        play(animation);
    } else if (is_whole) {
        GdkPixbuf *image = gdk_pixbuf_animation_get_static_image(animation);
        image = is_unturned ? g_object_ref(image) : gdk_pixbuf_apply_embedded_orientation(image);
        show(fit(image, 1, 0), (icysixel_encoding){0});
        g_object_unref(image);
    }
    g_object_unref(loader);
}

/* Shows the image of a file. Returns 0, or 1 after it has written an error. */
static int show_file(const char *name)
{
    GError *error = NULL;
    char *bytes = NULL;
    size_t length;
    const char *path = strcmp(name, "-") == 0 ? "/dev/stdin" : name;
    int is_read = g_file_get_contents(path, &bytes, &length, &error);
    if (is_read && (bytes[0] == '\033' || bytes[0] == '\x90'))
        show_sixel(bytes, length, &error);
    else if (is_read)
        show_loaded((const uint8_t *)bytes, length, &error);
    restore();
    g_free(bytes);
    if (error == NULL) return 0;
    fprintf(stderr, "%s: %s\n", name, error->message);
    g_error_free(error);
    return 1;
}

static void read_options(int count, char **words)
{
    int is_right = 1;
    if (count > 1 && strcmp(words[1], "--help") == 0) {
        put(help);
        exit(0);
    }
    for (int option; (option = getopt(count, words, "c:d:h:lo:w:")) != -1;) {
        int number = optarg != NULL ? atoi(optarg) : 0;
        if (option == 'c') is_right &= (colors = number) > 0 && number <= 256;
        if (option == 'w') is_right &= (max_width = number) > 0;
        if (option == 'h') is_right &= (max_height = number) > 0;
        if (option == 'o') is_right &= is_unturned = strcmp(optarg, "off") == 0;
        if (option == 'd')
            for (dither = 0; kinds[dither] != NULL && strcmp(kinds[dither], optarg) != 0;) dither++;
        is_looping |= option == 'l';
        is_right &= option != '?';
    }
    is_right &= dither < 0 || kinds[dither] != NULL;
    if (is_right && (optind < count || !isatty(STDIN_FILENO))) return;
    fputs(help, stderr);
    exit(2);
}

int main(int count, char **words)
{
    static const int signals[] = {SIGINT, SIGTERM, SIGHUP, SIGQUIT, SIGABRT, SIGTRAP};
    int status = 0;
    read_options(count, words);
    check(icysixel_new(&decoder));
    icysixel_set_height(&decoder, ICYSIXEL_HEIGHT_DRAWN);
    icysixel_set_lenient(&decoder, 1);
    icysixel_set_transparent(&decoder, 1);
    for (size_t it = 0; it < G_N_ELEMENTS(signals); it++)
        if (signal(signals[it], on_signal) == SIG_IGN) signal(signals[it], SIG_IGN);
    signal(SIGTSTP, SIG_IGN); /* a DCS sequence would not go on after Ctrl-Z */
    measure();
    for (int word = optind; word < count; word++) status |= show_file(words[word]);
    if (optind == count) status = show_file("-");
    icysixel_free(&decoder);
    return status;
}
