#include "critical_texts.h"

#include <string.h>

enum {
    LAST_DATA = 10,                           /* of an intensity part; its end text follows */
    INNER_BYTES = CONTROL_BYTES + SHORT_BLOCK /* 37: what a start text has before its FE */
};

static bool is_data(const struct draft *draft, size_t i)
{
    return i > 0 && i + 1 < draft->count;
}

static uint8_t *payload_of(struct text *text)
{
    return block_of(text) + AT_PAYLOAD;
}

static size_t payload_size(const struct text *text)
{
    return block_size(text) - AT_PAYLOAD;
}

static size_t place_of_block_end(const struct text *text)
{
    return text->length - 3;
}

/* Makes the check byte the wanted one by two payload bytes, from `at` on: bits
   that one byte may have together go into the first, the others into the
   second.  Not for echo top, whose bytes have too few. */
static void steer_check(struct text *text, int part, size_t at, uint8_t wanted)
{
    const uint8_t together = part == INTENSITY ? 0x77 : 0x7F;
    uint8_t *byte = payload_of(text) + at;
    byte[0] = byte[1] = 0;
    mend_check(text);
    uint8_t turn = text->bytes[text->length - 2] ^ wanted;
    byte[0] = turn & together;
    byte[1] = turn & (uint8_t)~together;
    mend_check(text);
}

size_t critical_check_fd(struct numbers *n, struct draft *draft, size_t i)
{
    if (!is_data(draft, i) || draft->part == ECHO_TOP) /* whose payload has no 16 */
        return 0;
    struct text *text = &draft->texts[i];
    size_t before = payload_size(text) - 4;
    memcpy(payload_of(text) + before, OPENING, 4);
    steer_check(text, draft->part, below(n, before - 1), 0xFD);
    return place_of_block_end(text);
}

size_t critical_control_bytes(struct numbers *n, struct draft *draft, size_t i)
{
    if (!is_data(draft, i) || draft->part == ECHO_TOP)
        return 0;
    struct text *text = &draft->texts[i];
    size_t last = payload_size(text) - CONTROL_BYTES;
    size_t at = chance(n, 50) ? last : below(n, last + 1);
    memcpy(payload_of(text) + at, OPENING, CONTROL_BYTES);
    mend_check(text);
    return CONTROL_BYTES + AT_PAYLOAD + at + CONTROL_BYTES;
}

/* FD has the NO ECHO bit, which no intensity or top part with data texts has. */
size_t critical_status_fd(struct numbers *n, struct draft *draft, size_t i)
{
    if (i != 0 || (draft->part != QUALITY && !draft->no_echo))
        return 0;
    block_of(&draft->texts[0])[AT_STATUS_1] = 0xFD;
    mend_check(&draft->texts[0]);
    return CONTROL_BYTES + (chance(n, 70) ? AT_RESERVED : AT_STATUS_2);
}

/* Echo top payload may have the first few bytes, quality those up to the radar
   codes, intensity all where no level 15 is among them. */
size_t critical_start_in_payload(struct numbers *n, struct draft *draft, size_t i)
{
    (void)n;
    if (!is_data(draft, i))
        return 0;
    const uint8_t *start = block_of(&draft->texts[0]);
    uint8_t *block = block_of(&draft->texts[i]);
    for (size_t at = AT_RESERVED; at < SHORT_BLOCK && payload_byte_allowed(draft->part, start[at]); at++)
        block[at] = start[at];
    mend_check(&draft->texts[i]);
    return CONTROL_BYTES + AT_KIND;
}

/* ---- a start text in payload ---- */

/* Are all these bytes levels 0 to 14? */
static bool is_payload(const uint8_t *bytes, size_t length)
{
    for (size_t i = 0; i < length; i++)
        if (!payload_byte_allowed(INTENSITY, bytes[i]))
            return false;
    return true;
}

/* A byte of two levels, the high one below a limit. */
static uint8_t some_levels(struct numbers *n, size_t limit)
{
    size_t high = below(n, limit); /* apart, so that the order of calls is fixed */
    return (uint8_t)(high << 4 | below(n, 15));
}

/* A clock and radar codes that payload may have; as many radars as before, so
   that the part's end text suits them. */
static void change_header(struct numbers *n, struct header *header)
{
    size_t from = below(n, 7); /* of the codes before AF, which are fourteen */
    for (size_t i = 0; i < RADARS && header->radars[i] != 0; i++)
        header->radars[i] = RADAR_LIST[from + i];
    uint8_t high = some_levels(n, 8);
    header->clock = (uint16_t)(high << 7 | some_levels(n, 8));
}

/* A start block of NO ECHO that the part's end text completes. */
static void put_inner(struct numbers *n, const struct draft *draft, uint8_t block[SHORT_BLOCK])
{
    struct header header = draft->header;
    change_header(n, &header);
    memset(block, 0, SHORT_BLOCK);
    block[0] = 0xFD;
    block[AT_PICTURE] = header.picture;
    block[AT_KIND] = 0x10;
    block[AT_STATUS_1] = NO_ECHO_BIT;
    block[AT_STATUS_2] = byte_of_mode(header.mode);
    put_fields(block, &header);
}

/* Pictures F0 and F1 would be level 15. */
size_t critical_inner_start(struct numbers *n, struct draft *draft, size_t i)
{
    uint8_t inner[SHORT_BLOCK];
    if (draft->part != INTENSITY || !is_data(draft, i) || i != LAST_DATA)
        return 0;
    put_inner(n, draft, inner);
    if (!is_payload(inner + 1, SHORT_BLOCK - 1))
        return 0;
    struct text *text = &draft->texts[i];
    size_t before = payload_size(text) - INNER_BYTES;
    uint8_t *to = payload_of(text) + before;
    memcpy(to, OPENING, CONTROL_BYTES);
    to[CONTROL_BYTES] = some_levels(n, 15);
    memcpy(to + OPENING_BYTES, inner + 1, SHORT_BLOCK - 1);
    steer_check(text, INTENSITY, below(n, before - 1), check_byte(inner, SHORT_BLOCK));
    return place_of_block_end(text) - SHORT_BLOCK;
}
