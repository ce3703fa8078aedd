#include "damage.h"

#include "time_limits.h"

#include <string.h>

/* ---- likely bytes and near-openings ---- */

uint8_t likely_byte(struct numbers *n)
{
    static const uint8_t control[] = {0x16, 0x16, 0x16, 0x10, 0x02, 0xFD, 0xFE, 0xFF, 0x00};
    static const uint8_t inside[] = {0x10, 0x11, 0x12, 0x1A, 0x1B, 0x1F, 0x20, 0x21, 0x22, 0x2F,
                                     0x30, 0x31, 0x3F, 0x04, 0x08, 0x40, 0x2E, 0x32, 0x39, 0xCC,
                                     0xC0, 0xC3, 0xF1, 0xA5, 0xA6, 0xB6, 0xEE, 0xEF, 0x41, 0x7F,
                                     0x80, 0x81};
    return chance(n, 60) ? one_of(n, control, sizeof control) : one_of(n, inside, sizeof inside);
}

void add_near_opening(struct numbers *n, struct bytes *to)
{
    static const uint8_t without_fd[] = {0x16, 0x16, 0x16, 0x10, 0x02};
    static const uint8_t one_too_many[] = {0x16, 0x16, 0x16, 0x16, 0x10, 0x02, 0xFD};
    static const uint8_t doubled_10[] = {0x16, 0x16, 0x16, 0x10, 0x10, 0x02, 0xFD};
    static const uint8_t started_anew[] = {0x16, 0x16, 0x16, 0x10, 0x16, 0x16, 0x16, 0x10, 0x02, 0xFD};
    static const uint8_t two_16[] = {0x16, 0x16, 0x10, 0x02, 0xFD};
    switch (below(n, 8)) {
    case 0: add_bytes(to, without_fd, sizeof without_fd); break;
    case 1: add_bytes(to, one_too_many, sizeof one_too_many); break;
    case 2: add_bytes(to, doubled_10, sizeof doubled_10); break;
    case 3: add_bytes(to, started_anew, sizeof started_anew); break;
    case 4: add_bytes(to, two_16, sizeof two_16); break;
    case 5: add_bytes(to, OPENING, below(n, OPENING_BYTES)); break;
    case 6: { /* its last bytes alone */
        size_t from = below(n, OPENING_BYTES);
        add_bytes(to, OPENING + from, OPENING_BYTES - from);
        break;
    }
    default: add_bytes(to, OPENING, OPENING_BYTES);
    }
}

/* ---- fields ---- */

static struct text *some_text(struct numbers *n, struct draft *draft)
{
    return &draft->texts[below(n, draft->count)];
}

static uint8_t *start_block(struct draft *draft)
{
    return block_of(&draft->texts[0]);
}

static uint8_t *end_block(struct draft *draft)
{
    return block_of(&draft->texts[draft->count - 1]);
}

static void wrong_picture(struct numbers *n, struct draft *draft)
{
    uint8_t *block = block_of(some_text(n, draft));
    block[AT_PICTURE] = chance(n, 60) ? one_of(n, PICTURES, PICTURE_CODES) : any_byte(n);
}

static void wrong_kind(struct numbers *n, struct draft *draft)
{
    static const uint8_t kinds[] = {0x10, 0x11, 0x12, 0x15, 0x1A, 0x1F, 0x20, 0x21, 0x2F, 0x30,
                                    0x31, 0x3F, 0x1B, 0x1E, 0x22, 0x2E, 0x32, 0x3E, 0x00, 0x0F, 0x40};
    uint8_t *block = block_of(some_text(n, draft));
    if (chance(n, 30))
        block[AT_KIND] = (uint8_t)(block[AT_KIND] + (chance(n, 50) ? 1 : 0xFF));
    else
        block[AT_KIND] = chance(n, 80) ? one_of(n, kinds, sizeof kinds) : any_byte(n);
}

/* A time at a limit, on either side of it, or a character beside the digits. */
static void odd_time(struct numbers *n, struct draft *draft)
{
    static const uint8_t beside[] = {0x2F, 0x3A, 0x2E, 0x20, 0xB0, 0x30, 0x39, 0x00, 0x16, 0xFD};
    uint8_t *block = start_block(draft);
    if (chance(n, 70)) {
        memcpy(block + AT_TIME, time_limit(below(n, time_limits()))->text, TIME_BYTES);
    } else {
        size_t at = between(n, AT_TIME, AT_TIME_LAST);
        block[at] = one_of(n, beside, sizeof beside);
    }
}

static void odd_radars(struct numbers *n, struct draft *draft)
{
    static const uint8_t unknown[] = {0xA6, 0xB2, 0xB7, 0x9F, 0xBF, 0xC0, 0x20, 0xFD};
    static const uint8_t edges[] = {0x9F, 0xA0, 0xA5, 0xA6, 0xA7, 0xAF, 0xB0, 0xB1, 0xB2, 0xB3, 0xB6, 0xB7};
    uint8_t *radars = start_block(draft) + AT_RADARS;
    size_t place = below(n, RADARS);
    switch (below(n, 6)) {
    case 0: radars[place] = one_of(n, unknown, sizeof unknown); break;
    case 1: radars[place] = 0; break;             /* none, or a gap */
    case 2: radars[RADARS - 1] = RADAR_LIST[below(n, RADAR_CODES)]; break;
    case 3: radars[1] = radars[0]; break;         /* not strictly rising */
    case 4:                                       /* one code, known or not */
        memset(radars, 0, RADARS);
        radars[0] = chance(n, 60) ? one_of(n, edges, sizeof edges) : (uint8_t)between(n, 0x9E, 0xB8);
        break;
    default: {                                    /* falling */
        uint8_t first = radars[0];
        radars[0] = radars[1];
        radars[1] = first;
    }
    }
}

static void wrong_status(struct numbers *n, struct draft *draft)
{
    uint8_t *block = start_block(draft);
    if (chance(n, 50))
        block[AT_STATUS_2] = any_byte(n);
    else /* a rightly built status 2 that is too high or too low for the end block */
        block[AT_STATUS_2] = byte_of_mode((int)between(n, 1, 3));
}

static void turned_no_echo(struct numbers *n, struct draft *draft)
{
    (void)n;
    start_block(draft)[AT_STATUS_1] ^= NO_ECHO_BIT;
}

static void wrong_modes(struct numbers *n, struct draft *draft)
{
    static const uint8_t modes[] = {0x00, 0x04, 0x10, 0x40, 0x14, 0x44, 0x50, 0x54, 0x2B, 0x80, 0xFD};
    size_t place = chance(n, 60) ? 0 : below(n, RADARS);
    end_block(draft)[AT_MODES + place] = one_of(n, modes, sizeof modes);
}

static void wrong_zero(struct numbers *n, struct draft *draft)
{
    uint8_t byte = chance(n, 50) ? likely_byte(n) : any_byte(n);
    if (chance(n, 40))
        start_block(draft)[AT_RESERVED] = byte;
    else
        end_block(draft)[between(n, AT_END_ZEROS, SHORT_BLOCK - 1)] = byte;
}

static void wrong_clock(struct numbers *n, struct draft *draft)
{
    start_block(draft)[AT_CLOCK + below(n, 2)] |= 0x80;
}

/* Bytes on both sides of each part's limits, and any others. */
static uint8_t edge_of_payload(struct numbers *n, int part)
{
    static const uint8_t intensity[] = {0xEE, 0xEF, 0xFE, 0x0E, 0x0F, 0xE0, 0xF0, 0xFF, 0xFD, 0x1F};
    static const uint8_t top[] = {0x07, 0x08, 0x09, 0x0A, 0x10, 0x18, 0x80, 0xFE};
    /* 3F, 40 and 41 lie around the last cause; from 81 on a cause is named and yet unknown. */
    static const uint8_t quality[] = {0x3F, 0x40, 0x41, 0x7F, 0x80, 0x81, 0xC0, 0xFD, 0xFE, 0xFF};
    if (chance(n, 20))
        return any_byte(n);
    switch (part) {
    case INTENSITY: return one_of(n, intensity, sizeof intensity);
    case ECHO_TOP: return one_of(n, top, sizeof top);
    default: return one_of(n, quality, sizeof quality);
    }
}

/* A payload byte of a data text, often its first or last. */
static uint8_t *byte_in_payload(struct numbers *n, struct text *text)
{
    size_t last = block_size(text) - 1;
    size_t at = chance(n, 20) ? AT_PAYLOAD : chance(n, 30) ? last : between(n, AT_PAYLOAD, last);
    return block_of(text) + at;
}

static void odd_payload(struct numbers *n, struct draft *draft)
{
    if (draft->count < 3)
        return;
    struct text *text = &draft->texts[between(n, 1, draft->count - 2)];
    uint8_t *byte = byte_in_payload(n, text);
    *byte = edge_of_payload(n, draft->part);
}

static void wrong_length(struct numbers *n, struct draft *draft)
{
    struct text *text = some_text(n, draft);
    size_t at = CONTROL_BYTES + between(n, AT_PAYLOAD, block_size(text) - 1);
    if (chance(n, 50)) {
        memmove(text->bytes + at + 1, text->bytes + at, text->length - at);
        text->length++;
    } else {
        memmove(text->bytes + at, text->bytes + at + 1, text->length - at - 1);
        text->length--;
    }
}

/* The three bytes behind a block; here the check byte is not mended. */
static void wrong_closing(struct numbers *n, struct draft *draft)
{
    bool of_end = chance(n, 40); /* where row 22 comes behind row 21 */
    struct text *text = of_end ? &draft->texts[draft->count - 1] : some_text(n, draft);
    uint8_t *byte = text->bytes + text->length - between(n, 1, 3);
    if (chance(n, 40))
        *byte ^= (uint8_t)(1u << below(n, 8));
    else
        *byte = chance(n, 50) ? likely_byte(n) : any_byte(n);
}

void damage_field(struct numbers *n, struct draft *draft)
{
    typedef void damage(struct numbers *, struct draft *);
    static damage *const sorts[] = {
        wrong_picture, wrong_picture, wrong_kind, wrong_kind, odd_time, odd_time,
        odd_radars, odd_radars, odd_radars, wrong_status, wrong_status, wrong_modes, wrong_modes,
        turned_no_echo, wrong_zero, wrong_clock, odd_payload, odd_payload, odd_payload, wrong_length};
    /* Two at a time now and then: the order of the checks must show. */
    for (size_t times = chance(n, 80) ? 1 : 2; times > 0; times--)
        sorts[below(n, sizeof sorts / sizeof sorts[0])](n, draft);
    for (size_t i = 0; i < draft->count; i++)
        mend_check(&draft->texts[i]);
    if (chance(n, 20))
        wrong_closing(n, draft);
}

/* A forbidden byte breaks its rule under any check byte; an allowed one gets
   through under a right check byte only, and shows at a wrong one. */
void damage_quality(struct numbers *n, struct draft *draft)
{
    static const uint8_t limits[] = {0x3F, 0x40, 0x41, 0x7F, 0x80, 0x81, 0xFF};
    struct text *data = &draft->texts[1];
    uint8_t *byte = byte_in_payload(n, data);
    *byte = one_of(n, limits, sizeof limits);
    mend_check(data);
    if (chance(n, 50))
        data->bytes[data->length - 2] ^= (uint8_t)(1u << below(n, 8));
}

void set_time(struct draft *draft, const char *time)
{
    memcpy(start_block(draft) + AT_TIME, time, TIME_BYTES);
    mend_check(&draft->texts[0]);
}

/* ---- order of texts ---- */

static void double_text(struct numbers *n, struct draft *draft)
{
    size_t at = below(n, draft->count);
    if (draft->count == TEXTS_ROOM)
        return;
    memmove(&draft->texts[at + 1], &draft->texts[at], (draft->count - at) * sizeof draft->texts[0]);
    draft->count++;
}

static void lose_text(struct numbers *n, struct draft *draft)
{
    size_t at = below(n, draft->count);
    draft->count--;
    memmove(&draft->texts[at], &draft->texts[at + 1], (draft->count - at) * sizeof draft->texts[0]);
}

static void swap_texts(struct numbers *n, struct draft *draft)
{
    struct text *one = some_text(n, draft), *two = some_text(n, draft);
    struct text kept = *one;
    *one = *two;
    *two = kept;
}

void damage_order(struct numbers *n, struct draft *draft, const struct draft *other)
{
    switch (below(n, 4)) {
    case 0: double_text(n, draft); break;
    case 1: lose_text(n, draft); break;
    case 2: swap_texts(n, draft); break;
    default: {
        struct text *text = some_text(n, draft);
        *text = other->texts[below(n, other->count)];
    }
    }
}

/* ---- bytes ---- */

void add_draft(struct bytes *to, const struct draft *draft)
{
    for (size_t i = 0; i < draft->count; i++)
        add_bytes(to, draft->texts[i].bytes, draft->texts[i].length);
}

/* A place in the draft's bytes; every second one near the seam of two texts,
   where the rules change from byte to byte. */
static size_t some_place(struct numbers *n, const struct draft *draft)
{
    size_t chosen = below(n, draft->count), before = 0;
    for (size_t i = 0; i < chosen; i++)
        before += draft->texts[i].length;
    size_t length = draft->texts[chosen].length;
    if (chance(n, 50))
        return before + below(n, length);
    return before + (chance(n, 60) ? below(n, 9) : length - 1 - below(n, 4));
}

static size_t at_most(size_t wanted, size_t limit)
{
    return wanted < limit ? wanted : limit;
}

static void put_in(struct numbers *n, struct bytes *bytes, size_t at)
{
    struct bytes more = {0};
    if (chance(n, 50))
        add_near_opening(n, &more);
    else if (chance(n, 50))
        add_byte(&more, likely_byte(n));
    else
        for (size_t i = between(n, 1, 12); i > 0; i--)
            add_byte(&more, any_byte(n));
    insert_bytes(bytes, at, more.data, more.length);
    free_bytes(&more);
}

/* A seam inside the payload of a data text, its very end among the places; a
   part without data texts has none. */
size_t place_in_payload(struct numbers *n, const struct draft *draft)
{
    if (draft->count < 3)
        return 0;
    size_t chosen = between(n, 1, draft->count - 2), before = 0;
    for (size_t i = 0; i < chosen; i++)
        before += draft->texts[i].length;
    size_t last = draft->texts[chosen].length - 3; /* the FE's place */
    size_t inside = chance(n, 25) ? last : between(n, CONTROL_BYTES + AT_PAYLOAD, last);
    return before + inside;
}

/* An opening over what stood there: no byte is lost, and its FD may fall on a
   check byte or the place behind a block. */
static void write_over(struct bytes *bytes, size_t at)
{
    memcpy(bytes->data + at, OPENING, at_most(OPENING_BYTES, bytes->length - at));
}

static void double_bytes(struct numbers *n, struct bytes *bytes, size_t at)
{
    uint8_t copy[40];
    size_t count = at_most(chance(n, 60) ? 1 : between(n, 1, sizeof copy), bytes->length - at);
    memcpy(copy, bytes->data + at, count);
    insert_bytes(bytes, at, copy, count);
}

static void lose_bytes(struct numbers *n, struct bytes *bytes, size_t at)
{
    size_t left = bytes->length - at;
    size_t count = chance(n, 60) ? 1 : chance(n, 70) ? between(n, 1, 40) : between(n, 1, left);
    remove_bytes(bytes, at, at_most(count, left));
}

void damage_bytes(struct numbers *n, const struct draft *draft, struct bytes *bytes)
{
    size_t at = some_place(n, draft);
    if (at >= bytes->length)
        return; /* an earlier damage took that place away */
    switch (below(n, 10)) {
    case 0: case 1: lose_bytes(n, bytes, at); break;
    case 2: double_bytes(n, bytes, at); break;
    case 3: bytes->data[at] = any_byte(n); break;
    case 4: bytes->data[at] = likely_byte(n); break;
    case 5: bytes->data[at] ^= (uint8_t)(1u << below(n, 8)); break;
    case 6: case 7: put_in(n, bytes, at); break;
    case 8: write_over(bytes, at); break;
    default: bytes->length = at; /* cut off here */
    }
}
