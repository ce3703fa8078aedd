#include "bytes.h"

#include <stdio.h>
#include <stdlib.h>
#include <string.h>

static void make_room(struct bytes *bytes, size_t more)
{
    if (bytes->room - bytes->length >= more)
        return;
    size_t room = bytes->room * 2 + more + 64;
    uint8_t *data = realloc(bytes->data, room);
    if (data == NULL) {
        fprintf(stderr, "second: no memory\n");
        exit(2);
    }
    bytes->data = data;
    bytes->room = room;
}

void add_bytes(struct bytes *to, const uint8_t *from, size_t count)
{
    if (count == 0)
        return;
    make_room(to, count);
    memcpy(to->data + to->length, from, count);
    to->length += count;
}

void add_byte(struct bytes *to, uint8_t byte)
{
    add_bytes(to, &byte, 1);
}

void insert_bytes(struct bytes *to, size_t at, const uint8_t *from, size_t count)
{
    if (count == 0)
        return;
    make_room(to, count);
    memmove(to->data + at + count, to->data + at, to->length - at);
    memcpy(to->data + at, from, count);
    to->length += count;
}

void remove_bytes(struct bytes *from, size_t at, size_t count)
{
    if (count == 0)
        return;
    memmove(from->data + at, from->data + at + count, from->length - at - count);
    from->length -= count;
}

void free_bytes(struct bytes *bytes)
{
    free(bytes->data);
    bytes->data = NULL;
    bytes->length = bytes->room = 0;
}
