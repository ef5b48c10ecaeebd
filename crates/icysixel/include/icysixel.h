/* icysixel: a SIXEL encoder and a streaming decoder for C and C++, for 64-bit processors.
 *
 *     icysixel handle = {0};
 *     icysixel_new(&handle);
 *     ..
 *     icysixel_free(&handle);
 *
 * Handles. An `icysixel` is 16 bytes of the caller's memory, and refers to a decoder. A zeroed
 * handle is valid and empty, and so is a handle after icysixel_free. Every function can be called
 * on an empty handle. icysixel_new creates its decoder. All others that return a code return
 * ICYSIXEL_NO_HANDLE. icysixel_is_empty returns 1. Calls that return another number return 0. Void
 * calls do nothing. A call that takes a const handle changes nothing behind it. Do not write to the
 * members of a handle. Do not use two copies of it: it can be moved to another address between
 * calls if the old copy is not used again.
 *
 * Ownership. icysixel_free frees all memory behind a handle. The library stores no pointer that the
 * caller passes. It copies input, and it copies pixels to the caller's buffers. Only
 * icysixel_take_pixels and icysixel_encode transfer a block of memory to the caller. A pointer to
 * bytes may be null if their number is 0. Other pointers must not be null. The arguments of a call
 * must not overlap.
 *
 * Threads. Different handles can be used by different threads at the same time, because the library
 * has no global state. Calls on one handle must not overlap in time. No function is safe in a
 * signal handler.
 *
 * Memory. The library allocates by three functions, which the archive defines as weak symbols over
 * malloc, realloc and free. A program that links the archive can define its own:
 *
 *     typedef struct { bool given; uint8_t *at; } icysixel_block;
 *     icysixel_block rattle_alloc(size_t size, size_t align);
 *     icysixel_block rattle_realloc(uint8_t *at, size_t held, size_t size, size_t align);
 *     void rattle_dealloc(uint8_t *at);
 *
 * `given` is true if the allocation succeeded. `at` must not be null even if it failed: return the
 * address of any static byte then. `align` is at most 16, and 1 for a block that is transferred.
 * `held` is the size of the block so far, and `size` the new one. The shared library always uses
 * malloc, and exports none of the three. If an allocation fails, the call returns
 * ICYSIXEL_OUT_OF_MEMORY. No function aborts the process.
 *
 * Sizes are in bytes unless a comment names another unit. A pixel is four bytes: red, green, blue
 * and alpha, unless an icysixel_encoding names another format. Pixels are stored row by row from
 * the top, and each row from the left. A stride is the number of bytes from the start of a row to
 * the start of the next. A stride of 0 means rows without gaps.
 *
 * Results. A function that returns uint32_t returns an enum icysixel_code, except for
 * icysixel_version. With ICYSIXEL_OK it has written to each output argument. With an error it
 * leaves them unchanged, except for the result of a feed. Some members and arguments are numbers
 * of an enum. Any other number there is rejected with ICYSIXEL_BAD_OPTION.
 *
 * Stored image. An image is stored by icysixel_finish, icysixel_decode and icysixel_decode_payload.
 * Each error of these calls drops an image that was stored before, and so does icysixel_new. No
 * error of another call drops it.
 */
#ifndef ICYSIXEL_H
#define ICYSIXEL_H

#include <stddef.h>
#include <stdint.h>

#define ICYSIXEL_VERSION_MAJOR 0
#define ICYSIXEL_VERSION_MINOR 7
#define ICYSIXEL_VERSION_PATCH 0
#define ICYSIXEL_VERSION "0.7.0"

/* The version of this header, in the form of icysixel_version. */
#define ICYSIXEL_VERSION_NUMBER \
    (ICYSIXEL_VERSION_MAJOR << 16 | ICYSIXEL_VERSION_MINOR << 8 | ICYSIXEL_VERSION_PATCH)

#ifdef __cplusplus
extern "C" {
#endif

/* A decoder, or nothing. The members are private. */
typedef struct {
    uint8_t held;
    void *state;
} icysixel;

/* The result of a feed. */
typedef struct {
    size_t consumed; /* bytes of the chunk that belong to the image; the caller parses the rest */
    uint32_t status; /* an enum icysixel_status: what to do next */
    uint8_t byte;    /* the control byte that ended a payload or cut a DCS sequence short, or 0 */
} icysixel_fed;

/* A size in pixels. */
typedef struct {
    size_t width;
    size_t height;
} icysixel_size;

/* The properties of an image, without its pixels. */
typedef struct {
    size_t width;          /* pixels in a row */
    size_t height;         /* rows, with those that were released */
    size_t drawn_height;   /* rows down to the last one with a set pixel, at most height; or 0 */
    size_t raster_width;   /* the last width above 0 in raster attributes, or 0 */
    size_t raster_height;  /* the last height above 0 in raster attributes, or 0 */
    size_t first_row;      /* rows from the top that were released, at most height */
    size_t bytes;          /* 4 * width * (height - first_row), the size of the stored rows */
    uint64_t ignored;      /* commands that were ignored, if the image is lenient; it saturates */
    uint16_t pixel_width;  /* the displayed width of a pixel: 1 */
    uint16_t pixel_height; /* the displayed height of a pixel in the same unit: 1, 2, 3 or 5 */
    uint8_t p1;            /* the DCS parameter P1 for this shape of a pixel: 9, 0, 3 or 2 */
    uint8_t p2;            /* the background: 1 is transparent, 0 is the color of register 0 */
    uint8_t is_complete;   /* 1 if the end of the image was fed, and 0 if not */
    uint8_t is_empty;      /* 1 if drawn_height and raster_height are 0: the cursor stays */
} icysixel_shape;

/* A color, one byte for each channel. */
typedef struct {
    uint8_t red;
    uint8_t green;
    uint8_t blue;
} icysixel_color;

/* A block of memory that the library has transferred to the caller. Zeros mean no block. With the
 * default memory functions malloc allocates it, so it is aligned for every type. */
typedef struct {
    uint8_t *data;
    size_t length;   /* bytes in use */
    size_t capacity; /* bytes allocated */
} icysixel_bytes;

/* The properties of a palette, without its colors. icysixel_choose_palette explains witnesses. */
typedef struct {
    size_t colors;    /* number of entries */
    size_t witnesses; /* number of witnesses: colors + 1, or 0 if every opaque color is an entry */
    uint32_t error;   /* the maximum squared distance of an opaque color to its nearest entry */
} icysixel_palette;

/* The properties of a refined palette, without its colors. */
typedef struct {
    size_t colors;  /* number of entries */
    uint64_t error; /* the summed squared distances of opaque pixels to their nearest entries */
} icysixel_refined;

/* The different colors of opaque pixels. */
typedef struct {
    uint16_t count;    /* how many there are, where 257 means more than 256 */
    uint8_t are_exact; /* 1 if every channel is a whole percentage, rounded to a byte; else 0 */
} icysixel_distinct;

/* How each pixel gets an entry of the palette. Zeros mean no dithering. An amount of 0 means the
 * default. For diffusion it is 7. For ordered dithering it is the square root of the palette's mean
 * squared error, and twice that root in a given palette. With this default, a color is not moved if
 * its squared distance to the nearest entry is at most a quarter of the mean squared error. In a
 * given palette, as in icysixel_palette_indices, it is also at most 12. */
typedef struct {
    uint8_t kind;   /* an enum icysixel_dither */
    uint8_t amount; /* diffusion: eighths of the error; ordered: the amplitude in levels; or 0 */
} icysixel_dithering;

/* Pixels, and how they are encoded. Set `width` and `height`. Zeros elsewhere mean RGBA rows
 * without gaps, square pixels, a transparent background, and a refined palette of up to 256 colors
 * without dithering. */
typedef struct {
    size_t width;         /* pixels in a row */
    size_t height;        /* rows */
    size_t stride;        /* bytes from the start of a row to the next, or 0 for no gaps */
    uint32_t tolerance;   /* a squared distance, for longer runs; or ICYSIXEL_AUTO */
    uint16_t max_colors;  /* most entries of a refined or farthest palette, or 0 for 256 */
    uint16_t color_count; /* colors at `colors` */
    uint8_t format;       /* an enum icysixel_format */
    uint8_t pixel_height; /* the height of a pixel of width 1: 2, 3 or 5; others mean 1 */
    uint8_t background;   /* an enum icysixel_background */
    uint8_t palette;      /* an enum icysixel_palette_mode */
    icysixel_dithering dithering; /* for refined and given palettes */
    uint8_t form;                 /* an enum icysixel_form */
    uint8_t transparent;          /* the transparent index, if the format has one */
    icysixel_color colors[256];   /* the given palette: the first is register 0 if P2 is 0 */
} icysixel_encoding;

/* How rows of pixels lie in a buffer. */
typedef struct {
    size_t stride;  /* bytes from the start of a row to the next, or 0 for 4 * columns */
    size_t columns; /* pixels of a row that are written, or 0 for all of the image so far */
    uint8_t order;  /* an enum icysixel_order */
} icysixel_layout;

/* Result codes. */
enum icysixel_code {
    ICYSIXEL_OK = 0,
    /* about the handle */
    ICYSIXEL_NO_HANDLE = 1,  /* the handle is empty */
    ICYSIXEL_NO_SESSION = 2, /* no image is open: begin one */
    ICYSIXEL_NO_SIZE = 3,    /* the payload has not begun, or an earlier feed failed */
    ICYSIXEL_NO_IMAGE = 4,   /* no image is stored */
    /* about the caller's numbers and buffers */
    ICYSIXEL_BAD_OPTION = 5,       /* an enum does not have the number, or two options conflict */
    ICYSIXEL_BUFFER_TOO_SMALL = 6, /* the buffer is smaller than the documented size */
    ICYSIXEL_BAD_STRIDE = 7,       /* it is shorter than a row or a pixel */
    /* about memory and sizes */
    ICYSIXEL_OUT_OF_MEMORY = 8,
    ICYSIXEL_OVERFLOW = 9,         /* a size overflows its type, as with too many new lines */
    ICYSIXEL_BAD_DIMENSIONS = 10,  /* a size is zero, or above the limits of the format */
    ICYSIXEL_BUFFER_MISMATCH = 11, /* too few pixels, or an incomplete pixel or row at the end */
    /* about SIXEL data */
    ICYSIXEL_NO_SIXEL_DATA = 12,     /* the data do not begin with an introducer, ESC P or 0x90 */
    ICYSIXEL_MALFORMED = 13,         /* a limit is exceeded, or a control ends the header */
    ICYSIXEL_TOO_LARGE = 14,         /* the image has more pixels than the limit */
    ICYSIXEL_BAD_HEADER = 15,        /* the header has an invalid byte: another DCS sequence */
    ICYSIXEL_MISSING_COMMAND = 16,   /* the data end in the header; from icysixel_decode only */
    ICYSIXEL_INCOMPLETE = 17,        /* the DCS sequence has no terminator yet */
    /* about palettes */
    ICYSIXEL_COLOR_COUNT = 20, /* the number of colors is not 1 to 256 */
    ICYSIXEL_INDEX_RANGE = 21, /* the palette index of an opaque pixel is past the palette */
    /* about rows of an image */
    ICYSIXEL_ROWS_NOT_FINAL = 22, /* bytes to come can change the rows, or the image lacks them */
    ICYSIXEL_ROWS_RELEASED = 23   /* the rows were released */
};

/* Orders of a pixel's bytes. */
enum icysixel_order {
    ICYSIXEL_ORDER_RGBA = 0, /* red, green, blue, alpha */
    ICYSIXEL_ORDER_BGRA = 1  /* blue, green, red, alpha, as most window systems have them */
};

/* Formats of pixels to encode. A pixel with an alpha below 128 is transparent. */
enum icysixel_format {
    ICYSIXEL_FORMAT_RGBA = 0,    /* red, green, blue, alpha */
    ICYSIXEL_FORMAT_BGRA = 1,    /* blue, green, red, alpha, as most window systems have them */
    ICYSIXEL_FORMAT_RGB = 2,     /* red, green, blue: opaque */
    ICYSIXEL_FORMAT_BGR = 3,     /* blue, green, red: opaque */
    ICYSIXEL_FORMAT_INDEXED = 4, /* one byte, the index of a given color: opaque */
    /* The same, but pixels with the index `transparent` are transparent. */
    ICYSIXEL_FORMAT_INDEXED_TRANSPARENT = 5
};

/* Backgrounds of encoded images. */
enum icysixel_background {
    ICYSIXEL_BACKGROUND_TRANSPARENT = 0, /* transparent pixels stay as they are: P2 is 1 */
    ICYSIXEL_BACKGROUND_OPAQUE = 1,      /* they get the color of register 0: P2 is 0 */
    /* The same, and register 0 has the first of `colors`. With a refined palette no pixel is drawn
     * in register 0, so the palette has at most max_colors - 1 entries, but at least one. With a
     * farthest palette the error is ICYSIXEL_BAD_OPTION. */
    ICYSIXEL_BACKGROUND_COLOR = 2
};

/* A tolerance that depends on the mean squared error of the palette. If this error is 0, so is the
 * tolerance. Otherwise an error below 12 counts as 12. With diffusion the tolerance is this error.
 * With ordered dithering it is twice the error, and without dithering three times the error. In a
 * palette of grays the error is that of the brightness. */
#define ICYSIXEL_AUTO UINT32_MAX

/* Palettes of encoded images. Indexed pixels use the given palette in each mode. */
enum icysixel_palette_mode {
    ICYSIXEL_PALETTE_REFINED = 0,  /* that of icysixel_refine_palette, best for most images */
    ICYSIXEL_PALETTE_FARTHEST = 1, /* that of icysixel_choose_palette, which keeps rare colors */
    ICYSIXEL_PALETTE_GIVEN = 2     /* the color_count colors of the caller */
};

/* Where images end. */
enum icysixel_height {
    ICYSIXEL_HEIGHT_BANDS = 0,  /* at the last band of six rows, or the raster height if greater */
    ICYSIXEL_HEIGHT_RASTER = 1, /* at the raster height, or without one as ICYSIXEL_HEIGHT_BANDS */
    ICYSIXEL_HEIGHT_DRAWN = 2   /* at the drawn height, or the raster height if greater */
};

/* Kinds of dithering. */
enum icysixel_dither {
    ICYSIXEL_DITHER_OFF = 0,       /* none: with a tolerance of 0, the nearest entries */
    ICYSIXEL_DITHER_DIFFUSION = 1, /* error diffusion (Floyd and Steinberg), serpentine */
    ICYSIXEL_DITHER_ORDERED = 2    /* a fixed pattern, stable from frame to frame */
};

/* Forms of output. A decoder returns the same image from both. */
enum icysixel_form {
    ICYSIXEL_FORM_PLAIN = 0,  /* each entry of a band in a pass of its own */
    ICYSIXEL_FORM_COMPACT = 1 /* the same pixels in fewer bytes */
};

/* What to do after a feed. */
enum icysixel_status {
    ICYSIXEL_MORE = 0,        /* feed the next chunk */
    ICYSIXEL_COMPLETE = 1,    /* the image has ended: finish */
    ICYSIXEL_CANCELLED = 2,   /* CAN or SUB, in `byte`, ended a DCS sequence: finish or abort */
    ICYSIXEL_INTERRUPTED = 3, /* ESC or C1, in `byte`, ended a DCS sequence: finish or abort */
    ICYSIXEL_ROWS = 4         /* from icysixel_feed_band: rows became final; feed the next bytes */
};

/* -- Handles -- */

/* Creates a decoder with default registers, no clip and a limit of 67,108,864 pixels. Its images
 * end by ICYSIXEL_HEIGHT_BANDS, are not lenient, have the background of P2 and begin with register
 * 0. What the handle contained is freed first. With ICYSIXEL_OUT_OF_MEMORY the handle is empty. */
uint32_t icysixel_new(icysixel *handle);

/* Frees the decoder and all that it stores, and empties the handle. */
void icysixel_free(icysixel *handle);

/* Returns 1 if the handle is empty, and 0 if it has a decoder. */
uint8_t icysixel_is_empty(const icysixel *handle);

/* -- Streaming -- */

/* Opens a DCS sequence, from its introducer to its terminator. It starts with the decoder's current
 * registers and settings. An open image is aborted. */
void icysixel_begin_dcs(icysixel *handle);

/* Opens a payload: the data between the `q` and the terminator of a DCS sequence. p1 and p2 are the
 * parameters P1 and P2 before the `q`. A number outside of 0 to 65535, such as -1, means that the
 * parameter is absent. P3 has no effect on an image. An open image is aborted. */
void icysixel_begin_payload(icysixel *handle, int32_t p1, int32_t p2);

/* Reads a chunk of the open image. A chunk can end anywhere, and chunk boundaries have no effect on
 * the image. After the end of the image a feed consumes nothing and returns the same status again.
 * The errors are ICYSIXEL_NO_SESSION if no image is open, those of the data so far, and
 * ICYSIXEL_OUT_OF_MEMORY. After an error each later feed of the image returns that error again. So
 * does icysixel_finish, which closes the image.
 *
 * Errors have no effect on which bytes belong to the image. If an image is open, a feed that fails
 * writes the number of bytes consumed and the status, too. So the caller goes on to feed until the
 * status is not ICYSIXEL_MORE, and drops what is consumed. Then it aborts the image. A DCS sequence
 * with a wrong header, or without an introducer, goes on up to its first terminator. */
uint32_t icysixel_feed(icysixel *handle, const uint8_t *chunk, size_t length, icysixel_fed *fed);

/* Reads a chunk of the open image as icysixel_feed does, but only up to its first graphics new
 * line, the byte `-`. So a host can draw each band of six rows before it feeds the next one. The
 * caller feeds the rest of the chunk after the bytes consumed. The status is ICYSIXEL_ROWS in place
 * of ICYSIXEL_MORE if icysixel_get_rows_so_far has become greater. */
uint32_t icysixel_feed_band(icysixel *handle, const uint8_t *chunk, size_t length,
                            icysixel_fed *fed);

/* Returns 1 if an image is open: it was begun, and neither finished nor aborted. */
uint8_t icysixel_is_receiving(const icysixel *handle);

/* Returns 1 if the payload of the open image has begun and no feed has failed. */
uint8_t icysixel_in_payload(const icysixel *handle);

/* Writes the size of the open image so far. The errors are ICYSIXEL_NO_SESSION if no image is open,
 * and ICYSIXEL_NO_SIZE before the payload and after an error. It does not allocate. */
uint32_t icysixel_get_size_so_far(const icysixel *handle, icysixel_size *size);

/* Returns the last row of the open image with a set pixel, plus one. It is 0 if there is none, if
 * no image is open, and after an error. The size so far grows by whole bands of six rows, so its
 * height can be greater than this number. Pixels outside of the clip count, too, but the number is
 * at most the clip's height. In the shape of the finished image `drawn_height` is this number, but
 * at most the height. It does not allocate. */
size_t icysixel_get_drawn_height(const icysixel *handle);

/* Returns how many rows from the top of the open image are final. No byte that follows changes a
 * pixel of these rows, and the number never becomes smaller while the image is open and no feed
 * fails. The image may still become wider, and then these rows show the background on the right.
 * The finished image may end above them, by icysixel_set_height. The number is 0 before the
 * payload, after an error, and if no image is open. It does not allocate. */
size_t icysixel_get_rows_so_far(const icysixel *handle);

/* Copies `rows` final rows of the open image, from row `first` on, to `buf`. The first of them
 * starts at buf[0]. Columns on the right of the image so far are background. If the layout says 0
 * columns, all columns that the image has so far are copied, and it may become wider. Rows already
 * copied stay valid after a later error. It does not allocate. The errors, in this order, are:
 *
 * - ICYSIXEL_BAD_OPTION;
 * - ICYSIXEL_NO_SESSION if no image is open;
 * - ICYSIXEL_ROWS_NOT_FINAL if first + rows is above icysixel_get_rows_so_far;
 * - ICYSIXEL_ROWS_RELEASED if rows from `first` on were released;
 * - ICYSIXEL_BAD_STRIDE if the stride is shorter than a row or than 4 bytes, or a row has more
 *   than SIZE_MAX bytes;
 * - ICYSIXEL_OVERFLOW if the rows overflow size_t;
 * - ICYSIXEL_BUFFER_TOO_SMALL. */
uint32_t icysixel_copy_rows(const icysixel *handle, size_t first, size_t rows,
                            const icysixel_layout *layout, uint8_t *buf, size_t size);

/* Frees rows 0 to `rows` - 1 of the open image. Copy them first. A host that copies and frees after
 * each band needs memory for one band only. icysixel_finish stores the rows that are left. The call
 * does not allocate. The errors are ICYSIXEL_NO_SESSION if no image is open, and
 * ICYSIXEL_ROWS_NOT_FINAL if `rows` is above icysixel_get_rows_so_far. */
uint32_t icysixel_release_rows(icysixel *handle, size_t rows);

/* Closes the open image, stores it and writes its properties. It replaces an image that is stored.
 * Rows that were released are not stored. The decoder takes over the image's registers.
 * `is_complete` is 1 if the image has ended: complete, cancelled or interrupted. The image of a
 * payload that has not ended is stored, too. The errors are those of icysixel_feed, and
 * ICYSIXEL_INCOMPLETE for a DCS sequence without terminator. An error closes the image too. Then no
 * image is stored and no register changes. */
uint32_t icysixel_finish(icysixel *handle, icysixel_shape *shape);

/* Aborts the open image, if there is one. The decoder is unchanged. */
void icysixel_abort(icysixel *handle);

/* -- Decoding in one call -- */

/* Decodes the first DCS sequence in the bytes, or all of them as a payload if there is none. It
 * stores the image and writes its properties, as icysixel_finish does. The sequence needs no
 * terminator. All bytes are given, so `is_complete` is 1. The errors are those of the data and
 * ICYSIXEL_OUT_OF_MEMORY. An open image is aborted. */
uint32_t icysixel_decode(icysixel *handle, const uint8_t *bytes, size_t length,
                         icysixel_shape *shape);

/* Decodes one payload in the same way, with the parameters of icysixel_begin_payload. */
uint32_t icysixel_decode_payload(icysixel *handle, const uint8_t *bytes, size_t length, int32_t p1,
                                 int32_t p2, icysixel_shape *shape);

/* -- The stored image -- */

/* Copies `rows` rows of the stored image to `buf`, starting with row `first`. That row starts at
 * buf[0]. Bytes between rows are unchanged. The image stays stored, so rows can be copied more than
 * once. With a zeroed layout all columns are copied, in RGBA and without gaps. Columns on the
 * right of the image are transparent. It does not allocate. The errors, in this order, are:
 *
 * - ICYSIXEL_BAD_OPTION;
 * - ICYSIXEL_NO_IMAGE;
 * - ICYSIXEL_ROWS_NOT_FINAL if first + rows is above the height;
 * - ICYSIXEL_ROWS_RELEASED if `first` is less than `first_row` of the shape;
 * - ICYSIXEL_BAD_STRIDE if the stride is shorter than a row or than 4 bytes, or a row has more
 *   than SIZE_MAX bytes;
 * - ICYSIXEL_OVERFLOW if the rows overflow size_t;
 * - ICYSIXEL_BUFFER_TOO_SMALL. */
uint32_t icysixel_copy_pixels(const icysixel *handle, size_t first, size_t rows,
                              const icysixel_layout *layout, uint8_t *buf, size_t size);

/* Transfers the pixels of the stored rows to the caller, without gaps and without a copy. `order`
 * is an enum icysixel_order. For BGRA red and blue are exchanged in place. The errors are
 * ICYSIXEL_BAD_OPTION and ICYSIXEL_NO_IMAGE. The call does not allocate, and does not free an
 * earlier block in `pixels`. Without a stored row `pixels` becomes zeros. The block stays valid
 * after icysixel_free. icysixel_free_bytes frees it, and so does free(pixels->data) with the
 * default memory functions. */
uint32_t icysixel_take_pixels(icysixel *handle, uint8_t order, icysixel_bytes *pixels);

/* Frees a block that the library has transferred, if there is one, and zeroes `bytes`. The caller
 * may have written to its data, but not to `length` or `capacity`. */
void icysixel_free_bytes(icysixel_bytes *bytes);

/* Frees the stored image. */
void icysixel_discard_image(icysixel *handle);

/* -- Registers and settings -- */

/* Writes the current color of a register. An open image changes it only when it is finished. */
uint32_t icysixel_get_register(const icysixel *handle, uint8_t number, icysixel_color *color);

/* Sets the color of a register, for images that are begun afterwards. */
void icysixel_set_register(icysixel *handle, uint8_t number, uint8_t red, uint8_t green,
                           uint8_t blue);

/* Writes the colors of up to `count` registers to `colors`, starting with register `first`. It
 * stops after register 255. icysixel_get_registers(&handle, 0, colors, 256) writes all. */
uint32_t icysixel_get_registers(const icysixel *handle, uint8_t first, icysixel_color *colors,
                                size_t count);

/* Sets the registers from `first` on to `count` colors, for images that are begun afterwards. A
 * terminal sets its palette by icysixel_set_registers(&handle, 0, palette, 16). Register 0 is the
 * background of an opaque image. Colors that are left after register 255 have no effect. */
void icysixel_set_registers(icysixel *handle, uint8_t first, const icysixel_color *colors,
                            size_t count);

/* Resets all registers to those of a new decoder, for images that are begun afterwards. */
void icysixel_reset_registers(icysixel *handle);

/* Returns where images end, an enum icysixel_height. */
uint8_t icysixel_get_height(const icysixel *handle);

/* Sets where images end, for images that are finished or decoded afterwards. `height` is an enum
 * icysixel_height; the error is ICYSIXEL_BAD_OPTION. Most images have a height that is no multiple
 * of six. With ICYSIXEL_HEIGHT_BANDS they have background rows at the bottom. ICYSIXEL_HEIGHT_DRAWN
 * is the height of foot, xterm and libsixel: the greater of the raster height and the drawn height.
 * It is 0 for an empty image, which then has no rows. No setting adds a row to an image, or shows
 * one below the clip. icysixel_get_size_so_far does not depend on this setting. */
uint32_t icysixel_set_height(icysixel *handle, uint8_t height);

/* Returns 1 if images of this handle are lenient. */
uint8_t icysixel_get_lenient(const icysixel *handle);

/* Sets whether images that are begun or decoded afterwards are lenient: 0 is off, any other number
 * is on. A command with a fault is then ignored, in place of an error. So a terminal shows what it
 * can.
 *
 * - A repeat count, raster attributes or a graphics new line past a limit changes nothing.
 * - A sixel outside of the limits is not drawn and does not move the position. Its repeat count is
 *   used up.
 * - A payload fails only with ICYSIXEL_OUT_OF_MEMORY. A DCS sequence also fails if it has no
 *   introducer or an invalid header, or ends in its header.
 * - icysixel_finish of a DCS sequence without terminator stores its image so far, once its payload
 *   has begun. Then `is_complete` of the shape is 0. */
void icysixel_set_lenient(icysixel *handle, uint8_t on);

/* Returns 1 if images have a transparent background whatever P2 says. */
uint8_t icysixel_get_transparent(const icysixel *handle);

/* Sets whether pixels that are not drawn are transparent in images that are begun or decoded
 * afterwards, whatever P2 says: 0 is off, any other number is on. `p2` of the shape stays that of
 * the sequence. So a multiplexer can encode an image again with its P2, and the terminal that shows
 * it paints the background. */
void icysixel_set_transparent(icysixel *handle, uint8_t on);

/* Returns the register in which an image draws until it selects one. */
uint8_t icysixel_get_first_register(const icysixel *handle);

/* Sets the register in which an image draws until it selects one, for images that are begun or
 * decoded afterwards. It is 0 in a new decoder. Register 0 is also the background of opaque images,
 * so an image that selects no register is invisible in it. foot and libsixel begin with register
 * 15, xterm with 3. */
void icysixel_set_first_register(icysixel *handle, uint8_t number);

/* Returns how many pixels an image can have, or 0 if the handle is empty. */
size_t icysixel_get_limit(const icysixel *handle);

/* Sets how many pixels an image can have, for images that are begun afterwards. 0 is taken as 1,
 * and a number above 67,108,864 as 67,108,864. The whole picture counts, clipped or not. */
void icysixel_set_limit(icysixel *handle, size_t pixels);

/* Writes how many columns from the left and rows from the top an image can have: 1,000,000 each in
 * a new decoder, which clips nothing. */
uint32_t icysixel_get_clip(const icysixel *handle, icysixel_size *clip);

/* Sets how many columns and rows an image can have, for images that are begun afterwards. The image
 * is the picture restricted to them. What lies outside is not stored. 0 is taken as 1, and a number
 * above 1,000,000 as 1,000,000. */
void icysixel_set_clip(icysixel *handle, size_t width, size_t height);

/* -- Encoding -- */

/* Encodes pixels as a DCS sequence and transfers this text to the caller. The text has no zero at
 * its end. The call needs no handle. `length` is the number of bytes at `pixels`. Bytes after the
 * last row have no effect. Pixels of other formats than RGBA, and rows with gaps, are copied first.
 *
 * - A refined palette has at most max_colors entries. A decoder shows them without rounding. With
 *   diffusion and a max_colors of at most 64, the entries are moved away from the mean color. Those
 *   of flat art are not moved. In flat art, at least a quarter of the opaque pixels have a squared
 *   distance of at most 12 to their nearest entry.
 * - A farthest palette has at most max_colors entries, where 1 is taken as 2 and a number above 256
 *   as 256. With it, dithering and tolerance are ignored.
 * - A given palette has color_count entries. Indexed pixels have their own indices. With them,
 *   dithering and tolerance are ignored.
 *
 * With diffusion and a tolerance a pixel keeps the entry of an opaque neighbor, unless the nearest
 * entry is nearer by the tolerance or more. Neighbors are the pixel above in the same band of six
 * rows, and the pixel before: on the left in even rows, and on the right in odd ones.
 *
 * Without diffusion a pixel has the cheapest of up to four entries: its nearest one, those of the
 * opaque pixels on the left and above in its band, and the nearest one of the opaque pixel on the
 * right. An entry costs twice its squared distance to the pixel's color, after any ordered
 * dithering. The tolerance is added for each of the two adjacent columns that does not contain the
 * entry in this band. Nothing is added if the pixel above in the band has the entry. So runs are
 * longer, and the output is shorter.
 *
 * In a palette of grays, the brightness of the pixels is mapped in place of their colors, and the
 * mean squared error is that of the brightness. The colors are mapped only without dithering and
 * with a tolerance other than ICYSIXEL_AUTO.
 *
 * The errors, in this order, are:
 *
 * - ICYSIXEL_BAD_OPTION;
 * - ICYSIXEL_BAD_DIMENSIONS for a zero size;
 * - ICYSIXEL_OVERFLOW if 4 * width * height overflows size_t;
 * - ICYSIXEL_BAD_DIMENSIONS for a size above the limits of the format;
 * - ICYSIXEL_BAD_STRIDE;
 * - ICYSIXEL_OVERFLOW if the rows overflow size_t;
 * - ICYSIXEL_BUFFER_MISMATCH if there are too few pixels;
 * - ICYSIXEL_COLOR_COUNT for a refined palette if max_colors is above 256, and for a given one
 *   unless color_count is 1 to 256;
 * - ICYSIXEL_INDEX_RANGE if the index of an opaque pixel is not below color_count;
 * - ICYSIXEL_OUT_OF_MEMORY, which can precede the two above if pixels are copied.
 *
 * The call does not free an earlier block in `text`. icysixel_free_bytes frees the block, and so
 * does free(text->data) with the default memory functions. */
uint32_t icysixel_encode(const uint8_t *pixels, size_t length, const icysixel_encoding *encoding,
                         icysixel_bytes *text);

/* -- Palettes -- */

/* Chooses the palette of pixels farthest first, with a certificate of its quality. It needs no
 * handle.
 *
 * A pixel with an alpha of at least 128 is opaque. The palette has at most max_colors entries,
 * where 0 and 1 are taken as 2 and a number above 256 as 256. If there are no more opaque colors
 * than that, they are the entries. Otherwise the entries are chosen by a farthest-first traversal
 * (Gonzalez). Opaque colors are ordered by red, then green, then blue, and the first entry is the
 * lowest one. Each next entry is the color that is farthest from its nearest entry so far, the
 * lowest of equals. A distance is the sum of the squared differences of the channels.
 *
 * `colors` receives the entries. `indices` receives one byte for each pixel: the index of its
 * nearest entry, the first of equals, and 0 for a transparent pixel. `witnesses` receives the
 * certificate, unless every opaque color is an entry. The certificate is a list of opaque colors,
 * one more than there are entries, each two of them at least `error` apart. In any palette with as
 * many entries two of these colors share an entry, so its error is at least a fourth of `error`.
 *
 * The capacities are in colors, and in bytes for the indices. The errors are
 * ICYSIXEL_BUFFER_MISMATCH if `length` is no multiple of four, ICYSIXEL_OUT_OF_MEMORY, and
 * ICYSIXEL_BUFFER_TOO_SMALL. A buffer is too small if `colors` has fewer than max_colors,
 * `witnesses` fewer than max_colors + 1, or `indices` fewer than one byte for each pixel. Here,
 * too, a max_colors of 0 or 1 counts as 2, and one above 256 as 256. What the palette does not fill
 * is unchanged. */
uint32_t icysixel_choose_palette(const uint8_t *pixels, size_t length, uint16_t max_colors,
                                 icysixel_color *colors, size_t color_capacity,
                                 icysixel_color *witnesses, size_t witness_capacity,
                                 uint8_t *indices, size_t index_capacity,
                                 icysixel_palette *palette);

/* Refines a palette of pixels for a small summed squared error. It needs no handle.
 *
 * The palette has at most max_colors entries, 1 to 256. Each channel of an entry is the byte of a
 * whole percentage. If there are no more opaque colors than max_colors, each has an entry: the
 * color, rounded to percentages. Otherwise the colors are divided into boxes, each time by the cut
 * that lowers the error most, where green counts twice. Each box has an entry. Two rounds of
 * Lloyd's algorithm move these entries if that lowers the error. At least a sixteenth of
 * max_colors, rounded down, is left for further entries. They are chosen farthest first, until the
 * palette is full or no color has a squared distance above 6 to its nearest entry.
 *
 * `colors` and `indices` receive what those of icysixel_choose_palette receive. A buffer is too
 * small if `colors` has fewer than max_colors, or `indices` fewer than one byte for each pixel.
 * Here a max_colors above 256 counts as 256.
 *
 * The errors, in this order, are:
 *
 * - ICYSIXEL_BUFFER_MISMATCH if `length` is no multiple of four;
 * - ICYSIXEL_BUFFER_TOO_SMALL;
 * - ICYSIXEL_COLOR_COUNT unless max_colors is 1 to 256;
 * - ICYSIXEL_TOO_LARGE for more than 67,108,864 pixels;
 * - ICYSIXEL_OUT_OF_MEMORY. */
uint32_t icysixel_refine_palette(const uint8_t *pixels, size_t length, uint16_t max_colors,
                                 icysixel_color *colors, size_t color_capacity,
                                 uint8_t *indices, size_t index_capacity,
                                 icysixel_refined *refined);

/* Counts the different colors of opaque pixels, whose alpha is at least 128. It needs no handle.
 *
 * If there are at most 256 and all are exact, a refined palette without dithering and tolerance has
 * them all. Then a decoder returns each opaque pixel as it is. Each color that SIXEL data define in
 * RGB is exact. Few of those in HLS are. The only error is ICYSIXEL_OUT_OF_MEMORY. */
uint32_t icysixel_count_colors(const uint8_t *pixels, size_t length, icysixel_distinct *distinct);

/* Writes the palette index of each pixel in a given palette of 1 to 256 colors. It needs no handle.
 *
 * The pixels are rows of `width` without gaps. With a tolerance of 0 and without dithering an
 * opaque pixel has the index of its nearest entry, the first of equals. Otherwise its index is
 * chosen as in icysixel_encode, in a palette of grays too. A transparent pixel has index 0, and its
 * color has no effect. The tolerance is that of icysixel_encoding. `indices` has a capacity of at
 * least one byte for each pixel, and the bytes after these are unchanged. The errors, in this
 * order, are:
 *
 * - ICYSIXEL_BAD_OPTION;
 * - ICYSIXEL_BUFFER_TOO_SMALL;
 * - ICYSIXEL_BAD_DIMENSIONS if `width` is 0;
 * - ICYSIXEL_BUFFER_MISMATCH if the pixels are not whole rows;
 * - ICYSIXEL_COLOR_COUNT;
 * - ICYSIXEL_OUT_OF_MEMORY. */
uint32_t icysixel_palette_indices(const uint8_t *pixels, size_t length, size_t width,
                                  const icysixel_color *colors, size_t count,
                                  const icysixel_dithering *dithering, uint32_t tolerance,
                                  uint8_t *indices, size_t index_capacity);

/* -- Errors -- */

/* Writes a description of a result code in English to `buf`, and a zero after it. If `size` is too
 * small for both, it writes only the zero, and nothing if `size` is 0. Other bytes are unchanged.
 * Returns the length of the description without the zero. Any other number is described as "unknown
 * code". */
size_t icysixel_strerror(uint32_t code, char *buf, size_t size);

/* -- Version -- */

/* Returns the version of the library as one number: the major number in bits 16 and up, the minor
 * one in bits 8 to 15, and the patch in bits 0 to 7. It is 0x000700 for 0.7.0. A host of the shared
 * library compares it with ICYSIXEL_VERSION_NUMBER, the version that it was compiled for. */
uint32_t icysixel_version(void);

#ifdef __cplusplus
}
#endif

#endif
