#include "altered.h"

#include "bytes.h"
#include "damage.h"
#include "critical_texts.h"

#include <string.h>

enum { PLACE_OF_CODE = CONTROL_BYTES + AT_PICTURE, PLACE_OF_KIND = CONTROL_BYTES + AT_KIND };

/* ---- one byte ---- */

/* Every alteration is made here.  False, with nothing altered, where the value
   is FD, stands there already, or the text has its alteration. */
static bool put_value(struct transfer *c, size_t i, size_t at, uint8_t value)
{
    const struct text *sent = &c->sent.texts[i];
    struct text *come = &c->come.texts[i];
    bool taken = memcmp(sent->bytes, come->bytes, sent->length) != 0;
    if (taken || value == 0xFD || value == come->bytes[at])
        return false;
    come->bytes[at] = value;
    return true;
}

static bool turn_bits(struct transfer *c, size_t i, size_t at, uint8_t bits)
{
    return put_value(c, i, at, c->come.texts[i].bytes[at] ^ bits);
}

static uint8_t one_bit(struct numbers *n)
{
    return (uint8_t)(1u << below(n, 8));
}

static uint8_t some_value(struct numbers *n)
{
    return chance(n, 60) ? likely_byte(n) : any_byte(n);
}

static uint8_t kind_of(const struct transfer *c, size_t i)
{
    return c->sent.texts[i].bytes[PLACE_OF_KIND];
}

/* ---- aims: one byte of one text ---- */

/* False where nothing was altered. */
typedef bool aim(struct numbers *n, struct transfer *c, size_t i);

static bool hit_opening(struct numbers *n, struct transfer *c, size_t i)
{
    size_t at = below(n, OPENING_BYTES);
    return put_value(c, i, at, chance(n, 60) ? one_of(n, OPENING, CONTROL_BYTES) : some_value(n));
}

static bool hit_code(struct numbers *n, struct transfer *c, size_t i)
{
    uint8_t value = chance(n, 70) ? one_of(n, PICTURES, PICTURE_CODES) : some_value(n);
    return put_value(c, i, PLACE_OF_CODE, value);
}

/* A start kind, a kind that is due elsewhere in this part, the same text of
   another part, any data or end kind, one next to its own. */
static bool hit_kind(struct numbers *n, struct transfer *c, size_t i)
{
    static const uint8_t starts[] = {0x10, 0x20, 0x30};
    static const uint8_t listed[] = {0x11, 0x12, 0x13, 0x14, 0x15, 0x16, 0x17, 0x18, 0x19,
                                     0x1A, 0x1F, 0x21, 0x2F, 0x31, 0x3F};
    uint8_t own = kind_of(c, i), other;
    switch (below(n, 5)) {
    case 0: other = one_of(n, starts, sizeof starts); break;
    case 1: other = kind_of(c, below(n, c->sent.count)); break;
    case 2: other = (uint8_t)(between(n, 1, 3) << 4 | (own & 0x0F)); break;
    case 3: other = one_of(n, listed, sizeof listed); break;
    default: other = (uint8_t)(own + (chance(n, 50) ? 1 : 0xFF));
    }
    return put_value(c, i, PLACE_OF_KIND, other);
}

/* A value that the place may have, so that only the check byte tells. */
static bool hit_start_field(struct numbers *n, struct transfer *c)
{
    static const uint8_t places[] = {AT_STATUS_1, AT_STATUS_1, AT_STATUS_2, AT_CLOCK, AT_CLOCK + 1,
                                     AT_TIME, AT_RADARS};
    size_t field = one_of(n, places, sizeof places), at = CONTROL_BYTES + field;
    switch (field) {
    case AT_STATUS_1: return turn_bits(c, 0, at, chance(n, 50) ? NO_ECHO_BIT : one_bit(n));
    case AT_STATUS_2: return put_value(c, 0, at, byte_of_mode((int)between(n, 1, 3)));
    case AT_TIME:
        at += below(n, TIME_BYTES);
        return put_value(c, 0, at, (uint8_t)('0' + below(n, 10)));
    case AT_RADARS:
        at += below(n, RADARS);
        return put_value(c, 0, at, one_of(n, RADAR_LIST, RADAR_CODES));
    default: return turn_bits(c, 0, at, one_bit(n) & 0x7F);
    }
}

static bool hit_end_field(struct numbers *n, struct transfer *c, size_t i)
{
    size_t at = CONTROL_BYTES + AT_MODES + (chance(n, 50) ? 0 : below(n, RADARS));
    if (chance(n, 50))
        return turn_bits(c, i, at, one_bit(n));
    return put_value(c, i, at, byte_of_mode((int)between(n, 1, 3)));
}

/* A place in a block behind its kind, often the first or the last. */
static size_t place_in_block(struct numbers *n, const struct text *text)
{
    size_t last = block_size(text) - 1;
    size_t at = chance(n, 15) ? AT_PAYLOAD : chance(n, 20) ? last : between(n, AT_PAYLOAD, last);
    return CONTROL_BYTES + at;
}

static bool hit_data_field(struct numbers *n, struct transfer *c, size_t i)
{
    uint8_t value;
    do
        value = any_byte(n);
    while (!payload_byte_allowed(c->sent.part, value));
    return put_value(c, i, place_in_block(n, &c->sent.texts[i]), value);
}

static bool hit_field(struct numbers *n, struct transfer *c, size_t i)
{
    if (i == 0)
        return hit_start_field(n, c);
    return i + 1 == c->sent.count ? hit_end_field(n, c, i) : hit_data_field(n, c, i);
}

/* Bytes of openings, and both sides of the limits of payload, digits, stops,
   clocks, radar codes and modes. */
static bool hit_block(struct numbers *n, struct transfer *c, size_t i)
{
    static const uint8_t edges[] = {0xEE, 0xEF, 0xF0, 0xFE, 0x0F, 0x08, 0x09, 0x7F, 0x80, 0x81,
                                    0x2E, 0x2F, 0x3A, 0xA6, 0xB2, 0xB6, 0xB7, 0x14, 0x54, 0x00};
    size_t at = place_in_block(n, &c->sent.texts[i]);
    switch (below(n, 4)) {
    case 0: return put_value(c, i, at, one_of(n, OPENING, CONTROL_BYTES));
    case 1: return put_value(c, i, at, one_of(n, edges, sizeof edges));
    case 2: return turn_bits(c, i, at, one_bit(n));
    default: return put_value(c, i, at, some_value(n));
    }
}

/* The FE, the check byte, often as it would be without the FE in it, or the FF. */
static bool hit_closing(struct numbers *n, struct transfer *c, size_t i)
{
    static const uint8_t telling[] = {0x02, 0x16, 0x10, 0xFE, 0xFF, 0x00};
    size_t at = c->sent.texts[i].length - between(n, 1, 3);
    switch (below(n, 4)) {
    case 0: return put_value(c, i, at, one_of(n, telling, sizeof telling));
    case 1: return turn_bits(c, i, at, BLOCK_END);
    case 2: return turn_bits(c, i, at, one_bit(n));
    default: return put_value(c, i, at, some_value(n));
    }
}

static bool hit_anywhere(struct numbers *n, struct transfer *c, size_t i)
{
    size_t at = below(n, c->sent.texts[i].length);
    return chance(n, 30) ? turn_bits(c, i, at, one_bit(n)) : put_value(c, i, at, some_value(n));
}

/* Chance alone would not bring payload and check byte together so. */
static bool hit_critical(struct numbers *n, struct transfer *c, size_t i)
{
    static const struct {
        critical_text *make;
        uint8_t values[5]; /* those behind an opening's five bytes are near to FD */
    } critical[] = {
        {critical_check_fd, {0x02, 0x02, 0x02, 0x16, 0xFF}},
        {critical_control_bytes, {0xFC, 0xFF, 0xFE, 0xED, 0x7D}},
        {critical_status_fd, {0x02, 0x02, 0x02, 0x10, 0x01}},
        {critical_start_in_payload, {0x10, 0x20, 0x30, 0x1F, 0x11}},
        {critical_inner_start, {0xFC, 0xFF, 0xFE, 0xF9, 0x7D}},
    };
    size_t chosen = below(n, sizeof critical / sizeof critical[0]);
    size_t at = critical[chosen].make(n, &c->sent, i);
    uint8_t value = one_of(n, critical[chosen].values, sizeof critical[chosen].values);
    c->come.texts[i] = c->sent.texts[i];
    return at > 0 && put_value(c, i, at, value);
}

struct share {
    aim *take;
    unsigned percent;
};

/* Together 100. */
static const struct share AIMS[] = {
    {hit_opening, 14},
    {hit_code, 9},
    {hit_kind, 14},
    {hit_field, 16},
    {hit_block, 12},
    {hit_closing, 15},
    {hit_critical, 14},
    {hit_anywhere, 6},
};

static aim *some_aim(struct numbers *n)
{
    size_t ticket = below(n, 100), i = 0;
    while (ticket >= AIMS[i].percent)
        ticket -= AIMS[i++].percent;
    return AIMS[i].take;
}

void hit_text(struct numbers *n, struct transfer *c, size_t i)
{
    while (!some_aim(n)(n, c, i))
        ;
}

/* ---- several texts ---- */

/* Each text from this one on with such a chance, and one of them for sure. */
static void hit_some(struct numbers *n, struct transfer *c, size_t from, unsigned percent)
{
    size_t sure = between(n, from, c->sent.count - 1);
    for (size_t i = from; i < c->sent.count; i++)
        if (i == sure || chance(n, percent))
            hit_text(n, c, i);
}

/* The ways below hit texts from `from` on alike: all, or all but the start text. */
typedef void way(struct numbers *n, struct transfer *c, size_t from);

/* All of another picture, and of one. */
static void recode_all(struct numbers *n, struct transfer *c, size_t from)
{
    uint8_t code = one_of(n, PICTURES, PICTURE_CODES);
    for (size_t i = from; i < c->sent.count; i++)
        put_value(c, i, PLACE_OF_CODE, code);
}

/* All kinds those of another part: of NO ECHO, intensity and echo top have
   texts of one length. */
static void change_part(struct numbers *n, struct transfer *c, size_t from)
{
    uint8_t bits = (uint8_t)(between(n, 1, 3) << 4);
    for (size_t i = from; i < c->sent.count; i++)
        turn_bits(c, i, PLACE_OF_KIND, bits);
}

/* Two texts, neighbours mostly, that have each other's kind. */
static void exchange_kinds(struct numbers *n, struct transfer *c, size_t from)
{
    size_t last = c->sent.count - 1;
    if (from == last)
        return;
    size_t one = between(n, from, last - 1);
    size_t two = chance(n, 70) ? one + 1 : between(n, one + 1, last);
    put_value(c, one, PLACE_OF_KIND, kind_of(c, two));
    put_value(c, two, PLACE_OF_KIND, kind_of(c, one));
}

/* Another mode in status 2 and in the end text, the highest where it is higher
   than before or there is one radar. */
static void change_mode(struct numbers *n, struct transfer *c, size_t from)
{
    uint8_t mode = byte_of_mode((int)between(n, 1, 3));
    if (from == 0)
        put_value(c, 0, CONTROL_BYTES + AT_STATUS_2, mode);
    put_value(c, c->sent.count - 1, CONTROL_BYTES + AT_MODES, mode);
}

/* One place counted from the front or the end of each text, up to the kind and
   from the FE on, and the same alteration of it. */
static void hit_same_place(struct numbers *n, struct transfer *c, size_t from)
{
    bool front = chance(n, 60), turned = chance(n, 50);
    size_t from_end = between(n, 1, 3), from_front = below(n, PLACE_OF_KIND + 1);
    uint8_t byte = turned ? one_bit(n) : some_value(n);
    if (!front && chance(n, 30)) { /* each check byte as it is without the FE */
        from_end = 2;
        turned = true;
        byte = BLOCK_END;
    }
    for (size_t i = from; i < c->sent.count; i++) {
        size_t at = front ? from_front : c->sent.texts[i].length - from_end;
        if (turned)
            turn_bits(c, i, at, byte);
        else
            put_value(c, i, at, byte);
    }
}

/* The same bits turned in a block byte of each text, or of two: a check byte
   that ran on from text to text would come out right. */
static void turn_same_bits(struct numbers *n, struct transfer *c, size_t from)
{
    uint8_t bits = one_bit(n);
    size_t last = c->sent.count - 1, one = between(n, from, last), two = between(n, from, last);
    bool all = chance(n, 50);
    for (size_t i = from; i <= last; i++)
        if (all || i == one || i == two)
            turn_bits(c, i, place_in_block(n, &c->sent.texts[i]), bits);
}

static void hit_alike(struct numbers *n, struct transfer *c)
{
    static way *const ways[] = {recode_all, change_part, exchange_kinds, change_mode,
                                hit_same_place, hit_same_place, turn_same_bits, turn_same_bits};
    size_t from = chance(n, 35) ? 1 : 0;
    ways[below(n, sizeof ways / sizeof ways[0])](n, c, from);
}

void alter_part(struct numbers *n, struct transfer *c)
{
    size_t sort = below(n, 100);
    if (sort < 12)
        hit_some(n, c, 0, 0); /* one text alone */
    else if (sort < 27)
        hit_some(n, c, 0, 50);
    else if (sort < 50)
        hit_some(n, c, 0, 100); /* every text */
    else if (sort < 62)
        hit_some(n, c, 1, 0); /* the start text is whole */
    else if (sort < 80)
        hit_some(n, c, 1, 60);
    else
        hit_alike(n, c);
    if (count_altered(c) == 0) /* what was to be put stood there */
        hit_some(n, c, 0, 50);
}

/* Drafting has few intensity parts with data texts, for its streams; here each
   sort must come often. */
void send_part(struct numbers *n, const struct habits *habits, struct transfer *c)
{
    size_t sort = below(n, 100);
    int part = sort < 20 ? INTENSITY : sort < 58 ? ECHO_TOP : QUALITY;
    bool no_echo = part == INTENSITY ? sort >= 6 : part == ECHO_TOP ? sort >= 40 : chance(n, 35);
    draft_sort(n, habits, part, no_echo, &c->sent);
    c->come = c->sent;
}

/* ---- judging ---- */

static size_t altered_in(const struct text *sent, const struct text *come)
{
    size_t count = 0;
    for (size_t at = 0; at < sent->length; at++)
        count += come->bytes[at] != sent->bytes[at];
    return count;
}

size_t count_altered(const struct transfer *c)
{
    size_t count = 0;
    for (size_t i = 0; i < c->sent.count; i++)
        count += altered_in(&c->sent.texts[i], &c->come.texts[i]);
    return count;
}

bool has_become_fd(const struct transfer *c)
{
    for (size_t i = 0; i < c->sent.count; i++)
        for (size_t at = 0; at < c->sent.texts[i].length; at++)
            if (c->come.texts[i].bytes[at] == 0xFD && c->sent.texts[i].bytes[at] != 0xFD)
                return true;
    return false;
}

bool is_undamaged(const struct draft *draft)
{
    struct bytes bytes = {0};
    add_draft(&bytes, draft);
    bool whole = undamaged_part(bytes.data, bytes.length) == bytes.length;
    free_bytes(&bytes);
    return whole;
}

bool is_altered_part(const struct transfer *c)
{
    if (!is_undamaged(&c->sent) || c->come.count != c->sent.count)
        return false;
    for (size_t i = 0; i < c->sent.count; i++)
        if (c->come.texts[i].length != c->sent.texts[i].length ||
            altered_in(&c->sent.texts[i], &c->come.texts[i]) > 1)
            return false;
    return count_altered(c) >= 1 && !has_become_fd(c);
}
