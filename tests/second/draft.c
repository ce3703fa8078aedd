#include "draft.h"

#include "time_limits.h"

#include <stdio.h>
#include <string.h>

uint8_t *block_of(struct text *text)
{
    return text->bytes + CONTROL_BYTES;
}

size_t block_size(const struct text *text)
{
    return text->length - FRAME_BYTES;
}

void mend_check(struct text *text)
{
    text->bytes[text->length - 2] = check_byte(block_of(text), block_size(text));
}

/* ---- header ---- */

static unsigned some_year(struct numbers *n)
{
    static const unsigned odd_years[] = {0, 9999, 4, 100, 400, 1900, 1999, 2000, 2004, 2100};
    if (chance(n, 40))
        return odd_years[below(n, sizeof odd_years / sizeof odd_years[0])];
    return (unsigned)(chance(n, 50) ? between(n, 1980, 2030) : below(n, 10000));
}

/* One of the list that is a time. */
static int64_t minute_at_limit(struct numbers *n)
{
    int64_t minute = 0;
    const struct time_limit *limit;
    do
        limit = time_limit(below(n, time_limits()));
    while (!limit->valid || !read_time((const uint8_t *)limit->text, &minute));
    return minute;
}

/* First, last and leap days often; the day is lowered until the date is right,
   which gives the last day of a month its share. */
static int64_t some_minute(struct numbers *n)
{
    if (chance(n, 25))
        return minute_at_limit(n);
    unsigned month = chance(n, 30) ? 2 : (unsigned)between(n, 1, 12);
    unsigned day = chance(n, 25) ? 1 : chance(n, 50) ? 31 : (unsigned)between(n, 1, 31);
    unsigned of_hour = chance(n, 20) ? 23 : (unsigned)below(n, 24);
    unsigned of_minute = chance(n, 20) ? 59 : (unsigned)below(n, 60);
    unsigned year = some_year(n);
    char text[60]; /* more than the 16 bytes, for any number */
    int64_t minute;
    do
        snprintf(text, sizeof text, "%04u.%02u.%02u.%02u.%02u", year, month, day--, of_hour, of_minute);
    while (!read_time((const uint8_t *)text, &minute));
    return minute;
}

/* Between one and eight codes of the list, in its rising order. */
static void some_radars(struct numbers *n, uint8_t radars[RADARS])
{
    size_t wanted = chance(n, 25) ? 1 : chance(n, 25) ? RADARS : between(n, 1, RADARS);
    size_t taken = 0;
    memset(radars, 0, RADARS);
    for (size_t i = 0; i < RADAR_CODES; i++) {
        size_t left = RADAR_CODES - i;
        if (below(n, left) < wanted - taken)
            radars[taken++] = RADAR_LIST[i];
    }
}

static void some_modes(struct numbers *n, const uint8_t radars[RADARS], uint8_t modes[RADARS])
{
    size_t highest = between(n, 1, 3);
    for (int i = 0; i < RADARS; i++)
        modes[i] = radars[i] == 0 ? 0 : (uint8_t)between(n, 1, highest);
}

static void some_header(struct numbers *n, const struct habits *habits, struct draft *draft)
{
    struct header *header = &draft->header;
    header->picture = chance(n, 70) ? one_of(n, habits->favourites, FAVOURITES)
                                    : one_of(n, PICTURES, PICTURE_CODES);
    header->clock = (uint16_t)(chance(n, 15) ? 0 : chance(n, 15) ? CLOCKS - 1 : below(n, CLOCKS));
    header->minute = some_minute(n);
    some_radars(n, header->radars);
    some_modes(n, header->radars, draft->modes);
    header->mode = (uint8_t)highest_mode(draft->modes);
}

/* ---- payload ---- */

/* Any byte of request #107's sheet, and often one where it turns: 7F names all
   seven causes, 80 none of them, and 3F, 40 and 41 lie around the last one. */
static uint8_t some_quality_byte(struct numbers *n)
{
    static const uint8_t turns[] = {0x3F, 0x40, 0x41, 0x7F, 0x80};
    return chance(n, 40) ? one_of(n, turns, sizeof turns) : (uint8_t)between(n, 0x00, 0x80);
}

static uint8_t some_payload_byte(struct numbers *n, int part)
{
    switch (part) {
    case INTENSITY: {
        size_t high = below(n, 15); /* apart, so that the order of calls is fixed */
        return (uint8_t)(high << 4 | below(n, 15));
    }
    case ECHO_TOP: return (uint8_t)below(n, 9);
    default: return some_quality_byte(n);
    }
}

static void fill_anyhow(struct numbers *n, struct draft *draft, size_t length)
{
    for (size_t i = 0; i < length; i++)
        draft->payload[i] = some_payload_byte(n, draft->part);
}

static void fill_runs(struct numbers *n, struct draft *draft, size_t length)
{
    size_t longest = chance(n, 30) ? length / 4 : 60;
    size_t done = 0;
    while (done < length) {
        size_t run = between(n, 1, longest);
        if (run > length - done)
            run = length - done;
        memset(draft->payload + done, some_payload_byte(n, draft->part), run);
        done += run;
    }
}

/* As much of the control bytes as the part allows: openings without their FD
   one behind the other, out of step here and there. */
static void fill_control(struct numbers *n, struct draft *draft, size_t length)
{
    size_t step = below(n, CONTROL_BYTES);
    for (size_t i = 0; i < length; i++) {
        uint8_t byte = OPENING[(i + step) % CONTROL_BYTES];
        if (chance(n, 4))
            step++;
        if (chance(n, 4))
            byte = OPENING[below(n, CONTROL_BYTES)];
        bool allowed = payload_byte_allowed(draft->part, byte);
        draft->payload[i] = allowed ? byte : chance(n, 70) ? 0x02 : some_payload_byte(n, draft->part);
    }
}

/* Level of mesh 1 to 40,000, two a byte, the odd number in the high four bits. */
static void raise_level(uint8_t *payload, size_t mesh, unsigned level)
{
    uint8_t *byte = payload + (mesh - 1) / 2;
    unsigned high = *byte >> 4, low = *byte & 0x0F;
    if (mesh % 2 == 1)
        high = high > level ? high : level;
    else
        low = low > level ? low : level;
    *byte = (uint8_t)(high << 4 | low);
}

/* A shower: a round of meshes, the level falling towards its rim. */
static void put_shower(struct numbers *n, uint8_t *payload)
{
    enum { SIDE = 200 };
    int radius = (int)between(n, 1, 8), top = (int)between(n, 1, 14);
    int row = (int)below(n, SIDE), column = (int)below(n, SIDE);
    for (int y = row - radius; y <= row + radius; y++)
        for (int x = column - radius; x <= column + radius; x++) {
            int far = (y - row) * (y - row) + (x - column) * (x - column);
            int level = top - top * far / (radius * radius + 1);
            if (x >= 0 && y >= 0 && x < SIDE && y < SIDE && level > 0)
                raise_level(payload, (size_t)(y * SIDE + x + 1), (unsigned)level);
        }
}

static void fill_sparse(struct numbers *n, struct draft *draft, size_t length)
{
    size_t patches = between(n, 1, 12);
    for (size_t i = 0; i < patches; i++) {
        if (draft->part == INTENSITY) {
            put_shower(n, draft->payload);
        } else {
            size_t at = below(n, length);
            draft->payload[at] = some_payload_byte(n, draft->part);
        }
    }
}

/* All zeros is a sort of its own: sent with data texts all the same. */
static void some_payload(struct numbers *n, struct draft *draft)
{
    size_t length = payload_length(draft->part);
    memset(draft->payload, 0, sizeof draft->payload);
    size_t sort = below(n, 100);
    if (sort < 14)
        return;
    if (sort < 60)
        fill_sparse(n, draft, length);
    else if (sort < 76)
        fill_runs(n, draft, length);
    else if (sort < 90)
        fill_control(n, draft, length);
    else
        fill_anyhow(n, draft, length);
}

/* ---- texts ---- */

/* Bits without meaning, set now and then. */
static uint8_t idle_bits(struct numbers *n, uint8_t meaning)
{
    return chance(n, 30) ? (uint8_t)(any_byte(n) & ~meaning) : 0;
}

static void begin_block(uint8_t *block, const struct draft *draft, unsigned low)
{
    block[0] = 0xFD;
    block[AT_PICTURE] = draft->header.picture;
    block[AT_KIND] = (uint8_t)(draft->part << 4 | (int)low);
}

static void add_text(struct draft *draft, const uint8_t *block, size_t length)
{
    struct text *text = &draft->texts[draft->count++];
    text->length = put_text(text->bytes, block, length);
}

static void add_start(struct numbers *n, struct draft *draft)
{
    const struct header *header = &draft->header;
    uint8_t block[SHORT_BLOCK] = {0};
    begin_block(block, draft, 0x00);
    block[AT_STATUS_1] = (uint8_t)((header->no_echo ? NO_ECHO_BIT : 0) | idle_bits(n, NO_ECHO_BIT));
    block[AT_STATUS_2] = (uint8_t)(byte_of_mode(header->mode) | idle_bits(n, MODE_BITS));
    put_fields(block, header);
    add_text(draft, block, sizeof block);
}

static void add_data(struct draft *draft, unsigned k)
{
    uint8_t block[LONGEST_TEXT];
    size_t length = block_length((uint8_t)(draft->part << 4 | (int)k));
    size_t each = length - AT_PAYLOAD;
    begin_block(block, draft, k);
    memcpy(block + AT_PAYLOAD, draft->payload + each * (k - 1), each);
    add_text(draft, block, length);
}

static void add_end(struct numbers *n, struct draft *draft)
{
    uint8_t block[SHORT_BLOCK] = {0};
    begin_block(block, draft, 0x0F);
    for (int i = 0; i < RADARS && draft->header.radars[i] != 0; i++)
        block[AT_MODES + i] = (uint8_t)(byte_of_mode(draft->modes[i]) | idle_bits(n, MODE_BITS));
    add_text(draft, block, sizeof block);
}

/* Turns some bits so that the check byte becomes a telling one (FD, FE, FF or
   a control byte) while the text stays undamaged; gives up where that fails. */
static void wish_check(struct numbers *n, struct text *text, int part)
{
    static const uint8_t telling[] = {0xFD, 0xFD, 0xFE, 0xFF, 0x16, 0x10, 0x02, 0x00};
    uint8_t *block = block_of(text);
    uint8_t turn = text->bytes[text->length - 2] ^ one_of(n, telling, sizeof telling);
    if (is_start_kind(block[AT_KIND])) {
        block[AT_STATUS_1] ^= turn & (uint8_t)~NO_ECHO_BIT;
        block[AT_STATUS_2] ^= turn & NO_ECHO_BIT; /* has no meaning in status 2 */
    } else if (is_end_kind(block[AT_KIND])) {
        if ((turn & MODE_BITS) == 0)
            block[AT_MODES] ^= turn;
    } else {
        /* Zeros stay zeros, so that an all-zero grid remains one. */
        uint8_t *byte = block + between(n, AT_PAYLOAD, block_size(text) - 1);
        if (*byte != 0 && payload_byte_allowed(part, *byte ^ turn))
            *byte ^= turn;
    }
    mend_check(text);
}

static void write_texts(struct numbers *n, struct draft *draft)
{
    draft->count = 0;
    add_start(n, draft);
    size_t count = data_texts(draft->part, draft->no_echo);
    for (unsigned k = 1; k <= count; k++)
        add_data(draft, k);
    add_end(n, draft);
    for (size_t i = 0; i < draft->count; i++)
        if (chance(n, 20))
            wish_check(n, &draft->texts[i], draft->part);
}

/* NO ECHO of a quality part: it is without effect there. */
static bool idle_no_echo(struct numbers *n)
{
    return chance(n, 35);
}

/* Whole intensity parts are long: their share is small, so that the short
   parts with their many events stay frequent in a stream. */
static void some_part(struct numbers *n, struct draft *draft)
{
    size_t sort = below(n, 100);
    draft->part = sort < 24 ? INTENSITY : sort < 54 ? ECHO_TOP : QUALITY;
    if (draft->part == QUALITY)
        draft->no_echo = idle_no_echo(n);
    else
        draft->no_echo = draft->part == INTENSITY ? sort >= 2 : chance(n, 40);
    draft->header.no_echo = draft->no_echo;
}

void draft_part(struct numbers *n, const struct habits *habits, struct draft *draft)
{
    some_part(n, draft);
    some_header(n, habits, draft);
    some_payload(n, draft);
    write_texts(n, draft);
}

void draft_sort(struct numbers *n, const struct habits *habits, int part, bool no_echo, struct draft *draft)
{
    draft->part = part;
    draft->no_echo = no_echo;
    draft->header.no_echo = no_echo;
    some_header(n, habits, draft);
    some_payload(n, draft);
    write_texts(n, draft);
}

void draft_quality(struct numbers *n, const struct habits *habits, struct draft *draft)
{
    draft_sort(n, habits, QUALITY, idle_no_echo(n), draft);
}

void draft_like(struct numbers *n, const struct habits *habits, const struct draft *model,
                struct draft *draft)
{
    draft->part = model->part;
    draft->no_echo = model->no_echo;
    some_header(n, habits, draft);
    draft->header.no_echo = model->no_echo;
    draft->header.picture = model->header.picture;
    if (chance(n, 60)) {
        memcpy(draft->header.radars, model->header.radars, RADARS);
        some_modes(n, draft->header.radars, draft->modes);
        draft->header.mode = (uint8_t)highest_mode(draft->modes);
    }
    some_payload(n, draft);
    write_texts(n, draft);
}
