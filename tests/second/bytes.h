/* A growing run of bytes. */
#ifndef SECOND_BYTES_H
#define SECOND_BYTES_H

#include <stddef.h>
#include <stdint.h>

struct bytes {
    uint8_t *data;
    size_t length;
    size_t room;
};

void add_bytes(struct bytes *to, const uint8_t *from, size_t count);
void add_byte(struct bytes *to, uint8_t byte);

/* Opens a gap of `count` bytes at `at` and fills it; `from` lies elsewhere. */
void insert_bytes(struct bytes *to, size_t at, const uint8_t *from, size_t count);
void remove_bytes(struct bytes *from, size_t at, size_t count);
void free_bytes(struct bytes *bytes);

#endif
