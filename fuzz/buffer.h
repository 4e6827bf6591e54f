/*
 * Buffers whose last byte stands before a page that may not be touched, so that one byte read or written behind is a
 * crash; what stands before the first byte is checked for writes.
 */
#ifndef BUFFER_H
#define BUFFER_H

#include <stdint.h>
#include <stdio.h>
#include <stdlib.h>
#include <string.h>
#include <sys/mman.h>
#include <unistd.h>

enum { ROOM = 16384, GUARD = 64, GUARD_BYTE = 0xa7 };

struct buffer {
    uint8_t *end;
    uint8_t *at;
    size_t length;
};

static struct buffer new_buffer(void)
{
    size_t page = (size_t)sysconf(_SC_PAGESIZE);
    uint8_t *low = mmap(NULL, ROOM + page, PROT_READ | PROT_WRITE, MAP_PRIVATE | MAP_ANONYMOUS, -1, 0);
    if (low == MAP_FAILED || mprotect(low + ROOM, page, PROT_NONE) != 0) {
        perror("mmap");
        exit(2);
    }
    memset(low, GUARD_BYTE, ROOM);
    return (struct buffer){low + ROOM, low + ROOM, 0};
}

/* Gives the buffer so many bytes, with guard bytes before them. */
static void set_length(struct buffer *buffer, size_t length)
{
    buffer->length = length;
    buffer->at = buffer->end - length;
    memset(buffer->at - GUARD, GUARD_BYTE, GUARD);
}

static void put(struct buffer *buffer, const void *bytes, size_t length)
{
    set_length(buffer, length);
    memcpy(buffer->at, bytes, length);
}

static int guard_is_whole(const struct buffer *buffer)
{
    for (size_t k = 1; k <= GUARD; k++) {
        if (buffer->at[-(ptrdiff_t)k] != GUARD_BYTE) {
            return 0;
        }
    }
    return 1;
}

#endif
