/* The memory functions of icysixel, over malloc, realloc and free.
 *
 * They are weak symbols: a program that defines these three functions itself uses its own. They are
 * hidden: a shared library that contains the archive does not export them, and does not take those
 * of another shared library. A result says whether the allocation succeeded, and where the block
 * is. After a failure it has the address of a static byte. Each block is aligned as malloc's are,
 * whatever alignment the library asks for. It needs none above 16 bytes. */
#include <stdbool.h>
#include <stddef.h>
#include <stdint.h>
#include <stdlib.h>

#define HOOK __attribute__((weak, visibility("hidden")))

typedef struct { bool given; uint8_t *at; } icysixel_block;

static uint8_t nothing;

static icysixel_block block(void *at)
{
    return (icysixel_block){at != NULL, at != NULL ? at : &nothing};
}

HOOK icysixel_block rattle_alloc(size_t size, size_t align)
{
    (void)align;
    return block(malloc(size ? size : 1));
}

HOOK icysixel_block rattle_realloc(uint8_t *at, size_t held, size_t size, size_t align)
{
    (void)held, (void)align;
    return block(realloc(at, size ? size : 1));
}

HOOK void rattle_dealloc(uint8_t *at) { free(at); }
