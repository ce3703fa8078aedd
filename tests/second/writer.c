#include "writer.h"

#include <string.h>

static bool header_right(const struct header *header, const uint8_t modes[RADARS])
{
    if (!is_picture_code(header->picture) || header->clock >= CLOCKS)
        return false;
    if (!is_minute(header->minute) || !radars_allowed(header->radars))
        return false;
    for (int i = 0; i < RADARS; i++) {
        bool right = header->radars[i] == 0 ? modes[i] == 0 : modes[i] >= 1 && modes[i] <= 3;
        if (!right)
            return false;
    }
    return true;
}

static bool payload_right(const struct writing *what)
{
    if (what->payload_length != payload_length(what->part))
        return false;
    for (size_t i = 0; i < what->payload_length; i++)
        if (!payload_byte_allowed(what->part, what->payload[i]))
            return false;
    return true;
}

static bool all_zero(const uint8_t *bytes, size_t length)
{
    for (size_t i = 0; i < length; i++)
        if (bytes[i] != 0)
            return false;
    return true;
}

static void begin_block(uint8_t *block, const struct writing *what, unsigned low)
{
    block[0] = 0xFD;
    block[AT_PICTURE] = what->header->picture;
    block[AT_KIND] = (uint8_t)(what->part << 4 | (int)low);
}

static size_t put_start(uint8_t *out, const struct writing *what, bool no_echo)
{
    const struct header *header = what->header;
    uint8_t block[SHORT_BLOCK] = {0};
    begin_block(block, what, 0x00);
    block[AT_STATUS_1] = no_echo ? NO_ECHO_BIT : 0;
    block[AT_STATUS_2] = byte_of_mode(highest_mode(what->modes));
    put_fields(block, header);
    return put_text(out, block, sizeof block);
}

static size_t put_data(uint8_t *out, const struct writing *what, unsigned k, size_t each)
{
    uint8_t block[LONGEST_TEXT];
    begin_block(block, what, k);
    memcpy(block + AT_PAYLOAD, what->payload + each * (k - 1), each);
    return put_text(out, block, each + AT_PAYLOAD);
}

static size_t put_end(uint8_t *out, const struct writing *what)
{
    uint8_t block[SHORT_BLOCK] = {0};
    begin_block(block, what, 0x0F);
    for (int i = 0; i < RADARS; i++)
        block[AT_MODES + i] = byte_of_mode(what->modes[i]);
    return put_text(out, block, sizeof block);
}

int write_part(const struct writing *what, uint8_t *out, size_t room, size_t *length)
{
    *length = 0;
    if (what->part < INTENSITY || what->part > QUALITY)
        return WRONG_PART;
    if (!header_right(what->header, what->modes))
        return WRONG_HEADER;
    if (!payload_right(what))
        return WRONG_PAYLOAD;
    /* NO ECHO exactly for an intensity or top payload of all zeros. */
    bool no_echo = what->part != QUALITY && all_zero(what->payload, what->payload_length);
    size_t count = data_texts(what->part, no_echo);
    size_t each = what->payload_length / data_texts(what->part, false);
    size_t whole = 2 * (SHORT_BLOCK + FRAME_BYTES) + count * (each + AT_PAYLOAD + FRAME_BYTES);
    if (room < whole)
        return SHORT_OUTPUT;
    size_t done = put_start(out, what, no_echo);
    for (unsigned k = 1; k <= count; k++)
        done += put_data(out + done, what, k, each);
    done += put_end(out + done, what);
    *length = done;
    return WRITTEN;
}
