/* The three memory hooks of the library, which count what it allocates and fail on request. */
#ifndef MEMORY_H
#define MEMORY_H

#include <stdbool.h>
#include <stddef.h>
#include <stdint.h>
#include <stdlib.h>
#include <string.h>

/* The result of an allocation. The pointer is never null. */
typedef struct { bool given; uint8_t *at; } block;

static struct {
    size_t requests;   /* allocations since `failing` was set */
    size_t failing;    /* the number of the allocation that fails, from 1; 0 for none */
    bool all_fail;     /* whether every allocation fails */
    size_t blocks;     /* blocks that are allocated */
    size_t bytes;      /* their bytes */
    size_t peak;       /* the most bytes at one time */
} memory;

/* A block is preceded by its size in 16 bytes. */
enum { HEADER = 16 };

/* Moves a block, or allocates one where there is none. */
static block resized(uint8_t *at, size_t size)
{
    size_t before = 0;
    bool fails = ++memory.requests == memory.failing || memory.all_fail;
    if (at != NULL) memcpy(&before, at - HEADER, sizeof before);
    uint8_t *start = fails ? NULL : realloc(at == NULL ? NULL : at - HEADER, HEADER + size);
    if (start == NULL) return (block){false, (uint8_t *)&memory};
    memcpy(start, &size, sizeof size);
    memory.blocks += at == NULL;
    memory.bytes += size - before;
    if (memory.bytes > memory.peak) memory.peak = memory.bytes;
    return (block){true, start + HEADER};
}

block rattle_alloc(size_t size, size_t align) { return (void)align, resized(NULL, size); }

block rattle_realloc(uint8_t *at, size_t held, size_t size, size_t align)
{
    return (void)held, (void)align, resized(at, size);
}

void rattle_dealloc(uint8_t *at)
{
    size_t size;
    memcpy(&size, at - HEADER, sizeof size);
    memory.blocks--;
    memory.bytes -= size;
    free(at - HEADER);
}

#endif
