#include "texts.h"

#include <string.h>

const uint8_t OPENING[OPENING_BYTES] = {0x16, 0x16, 0x16, 0x10, 0x02, 0xFD};

const uint8_t PICTURES[PICTURE_CODES] = {
    0xC0, 0xC1, 0xC2, 0xC4, 0xC5, 0xC8, 0xC9, 0xCC, 0xD2, 0xD3,
    0xD4, 0xD5, 0xD8, 0xDC, 0xE0, 0xE1, 0xE4, 0xE5, 0xF0, 0xF1};

const uint8_t RADAR_LIST[RADAR_CODES] = {
    0xA0, 0xA1, 0xA2, 0xA3, 0xA4, 0xA5, 0xA7, 0xA8, 0xA9, 0xAA, 0xAB,
    0xAC, 0xAD, 0xAE, 0xAF, 0xB0, 0xB1, 0xB3, 0xB4, 0xB5, 0xB6};

bool is_picture_code(uint8_t byte)
{
    return memchr(PICTURES, byte, sizeof PICTURES) != NULL;
}

bool is_radar_code(uint8_t byte)
{
    return memchr(RADAR_LIST, byte, sizeof RADAR_LIST) != NULL;
}

int part_of_kind(uint8_t kind)
{
    return kind >> 4;
}

bool is_start_kind(uint8_t kind)
{
    return kind == 0x10 || kind == 0x20 || kind == 0x30;
}

bool is_end_kind(uint8_t kind)
{
    return kind == 0x1F || kind == 0x2F || kind == 0x3F;
}

/* The 18 kinds of 01's table: three starts, 10 + 1 + 1 data texts, three ends. */
bool is_kind(uint8_t byte)
{
    bool data = (byte >= 0x11 && byte <= 0x1A) || byte == 0x21 || byte == 0x31;
    return data || is_start_kind(byte) || is_end_kind(byte);
}

size_t block_length(uint8_t kind)
{
    if (is_start_kind(kind) || is_end_kind(kind))
        return SHORT_BLOCK;
    switch (part_of_kind(kind)) {
    case INTENSITY: return 2003;
    case ECHO_TOP: return 403;
    default: return 103;
    }
}

/* NO ECHO takes the data texts away from intensity and echo top only. */
size_t data_texts(int part, bool no_echo)
{
    if (part == QUALITY)
        return 1;
    if (no_echo)
        return 0;
    return part == INTENSITY ? 10 : 1;
}

size_t payload_length(int part)
{
    switch (part) {
    case INTENSITY: return 20000;
    case ECHO_TOP: return 400;
    case QUALITY: return 100;
    default: return 0;
    }
}

/* Exclusive or of all block bytes and the FE. */
uint8_t check_byte(const uint8_t *block, size_t length)
{
    uint8_t sum = BLOCK_END;
    for (size_t i = 0; i < length; i++)
        sum ^= block[i];
    return sum;
}

int mode_of_byte(uint8_t byte)
{
    switch (byte & MODE_BITS) {
    case 0x04: return 1;
    case 0x10: return 2;
    case 0x40: return 3;
    default: return 0;
    }
}

uint8_t byte_of_mode(int mode)
{
    static const uint8_t bytes[4] = {0x00, 0x04, 0x10, 0x40};
    return bytes[mode];
}

int highest_mode(const uint8_t modes[RADARS])
{
    int highest = 0;
    for (int i = 0; i < RADARS; i++)
        if (modes[i] > highest)
            highest = modes[i];
    return highest;
}

int digit_at(size_t time_place)
{
    static const int8_t digits[TIME_BYTES] = {0, 1, 2, 3, -1, 4, 5, -1, 6, 7, -1, 8, 9, -1, 10, 11};
    return digits[time_place];
}

bool read_time(const uint8_t *time, int64_t *minute)
{
    uint8_t digits[TIME_DIGITS];
    for (size_t i = 0; i < TIME_BYTES; i++) {
        int digit = digit_at(i);
        if (digit < 0) {
            if (time[i] != 0x2E)
                return false;
        } else {
            digits[digit] = (uint8_t)(time[i] - '0'); /* no digit gives 10 or more */
        }
    }
    return minute_of(digits, minute);
}

bool first_radar_allowed(uint8_t byte)
{
    return is_radar_code(byte);
}

/* Strictly rising codes, then 00: a 00 may follow anything, a code only a
   lower code. */
bool next_radar_allowed(uint8_t before, uint8_t byte)
{
    if (byte == 0)
        return true;
    return before != 0 && before < byte && is_radar_code(byte);
}

bool radars_allowed(const uint8_t radars[RADARS])
{
    if (!first_radar_allowed(radars[0]))
        return false;
    for (int i = 1; i < RADARS; i++)
        if (!next_radar_allowed(radars[i - 1], radars[i]))
            return false;
    return true;
}

/* Request #107: "The sender's sheet now has seven named causes in bits 0 to 6,
   and 'cause unknown' in bit 7, alone.  Allowed are 00 to 7F, and 80."  Where
   the cause is unknown none is named, so FD, FE and FF stay out of payload. */
static bool quality_allowed(uint8_t byte)
{
    return (byte & CAUSE_UNKNOWN) == 0 || byte == CAUSE_UNKNOWN;
}

bool payload_byte_allowed(int part, uint8_t byte)
{
    switch (part) {
    case INTENSITY: return (byte >> 4) <= 14 && (byte & 0x0F) <= 14;
    case ECHO_TOP: return byte <= 8;
    default: return quality_allowed(byte);
    }
}

bool mode_byte_allowed(uint8_t radar, uint8_t byte)
{
    return radar == 0 ? byte == 0 : mode_of_byte(byte) != 0;
}

bool start_block_undamaged(const uint8_t *block)
{
    int64_t minute;
    return block[AT_RESERVED] == 0 && mode_of_byte(block[AT_STATUS_2]) != 0 &&
           block[AT_CLOCK] < 0x80 && block[AT_CLOCK + 1] < 0x80 &&
           read_time(block + AT_TIME, &minute) && radars_allowed(block + AT_RADARS);
}

bool data_block_undamaged(const uint8_t *block)
{
    size_t length = block_length(block[AT_KIND]);
    for (size_t i = AT_PAYLOAD; i < length; i++)
        if (!payload_byte_allowed(part_of_kind(block[AT_KIND]), block[i]))
            return false;
    return true;
}

bool end_block_undamaged(const uint8_t *block, const uint8_t radars[RADARS])
{
    for (int i = 0; i < RADARS; i++)
        if (!mode_byte_allowed(radars[i], block[AT_MODES + i]))
            return false;
    for (int i = AT_END_ZEROS; i < SHORT_BLOCK; i++)
        if (block[i] != 0)
            return false;
    return true;
}

/* Opening, codes and closing of a text of this kind; the block's own rules
   are not judged here.  Returns the text's length, 0 where it is none. */
static size_t frame_of_kind(const uint8_t *bytes, size_t length, uint8_t kind)
{
    size_t inside = block_length(kind);
    if (length < inside + FRAME_BYTES || memcmp(bytes, OPENING, OPENING_BYTES) != 0)
        return 0;
    const uint8_t *block = bytes + CONTROL_BYTES;
    if (!is_picture_code(block[AT_PICTURE]) || block[AT_KIND] != kind)
        return 0;
    if (block[inside] != BLOCK_END || block[inside + 2] != TEXT_END)
        return 0;
    return block[inside + 1] == check_byte(block, inside) ? inside + FRAME_BYTES : 0;
}

/* The end block's rules, and status 2 being the highest mode of the end block. */
static bool end_fits_start(const uint8_t *end, const uint8_t *start)
{
    if (!end_block_undamaged(end, start + AT_RADARS))
        return false;
    uint8_t modes[RADARS];
    for (int i = 0; i < RADARS; i++)
        modes[i] = (uint8_t)mode_of_byte(end[AT_MODES + i]);
    return highest_mode(modes) == mode_of_byte(start[AT_STATUS_2]);
}

size_t undamaged_part(const uint8_t *bytes, size_t length)
{
    if (length < OPENING_BYTES + 2 || !is_start_kind(bytes[CONTROL_BYTES + AT_KIND]))
        return 0;
    uint8_t start_kind = bytes[CONTROL_BYTES + AT_KIND];
    size_t done = frame_of_kind(bytes, length, start_kind);
    const uint8_t *start = bytes + CONTROL_BYTES;
    if (done == 0 || !start_block_undamaged(start))
        return 0;
    size_t count = data_texts(part_of_kind(start_kind), (start[AT_STATUS_1] & NO_ECHO_BIT) != 0);
    for (size_t k = 1; k <= count + 1; k++) {
        bool last = k > count;
        uint8_t kind = (uint8_t)(start_kind + (last ? 0x0F : k));
        size_t taken = frame_of_kind(bytes + done, length - done, kind);
        const uint8_t *block = bytes + done + CONTROL_BYTES;
        if (taken == 0 || block[AT_PICTURE] != start[AT_PICTURE])
            return 0;
        if (last ? !end_fits_start(block, start) : !data_block_undamaged(block))
            return 0;
        done += taken;
    }
    return done;
}

void put_fields(uint8_t *block, const struct header *header)
{
    uint8_t digits[TIME_DIGITS];
    put_digits(header->minute, digits);
    block[AT_CLOCK] = (uint8_t)(header->clock >> 7);
    block[AT_CLOCK + 1] = (uint8_t)(header->clock & 0x7F);
    for (size_t i = 0; i < TIME_BYTES; i++) {
        int digit = digit_at(i);
        block[AT_TIME + i] = digit < 0 ? 0x2E : (uint8_t)('0' + digits[digit]);
    }
    memcpy(block + AT_RADARS, header->radars, RADARS);
}

size_t put_text(uint8_t *out, const uint8_t *block, size_t length)
{
    memcpy(out, OPENING, CONTROL_BYTES);
    memcpy(out + CONTROL_BYTES, block, length);
    uint8_t *closing = out + CONTROL_BYTES + length;
    closing[0] = BLOCK_END;
    closing[1] = check_byte(block, length);
    closing[2] = TEXT_END;
    return length + FRAME_BYTES;
}
