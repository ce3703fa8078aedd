#include "receiver.h"

#include <string.h>

static const uint64_t FIVE_BYTES = 0xFFFFFFFFFFu;
static const uint64_t OPENING_WINDOW = 0x1616161002FDu;

static void clear_grid(struct grid *grid)
{
    memset(grid->bytes, 0, grid->used);
    grid->used = 0;
}

void make_fresh(struct receiver *r, struct grid *grid, uint32_t number)
{
    memset(r, 0, sizeof *r);
    memset(grid, 0, sizeof *grid);
    r->marks = marks_given(number);
}

/* 01's "dropped": state and grid as fresh, the last bytes seen are kept; so
   are the marks, for a receiver "keeps them for good". */
static int drop(struct receiver *r, struct grid *grid, int answer)
{
    uint64_t seen = r->seen;
    unsigned count = r->seen_count;
    uint32_t marks = r->marks;
    memset(r, 0, sizeof *r);
    r->marks = marks;
    r->seen = seen;
    r->seen_count = count;
    clear_grid(grid);
    return answer;
}

/* An opening has ended.  Between texts it is no event, and an open part stays
   open; inside a text it is row 11: all is dropped and the new text goes on. */
static int begin_text(struct receiver *r, struct grid *grid)
{
    int answer = QUIET;
    if (r->place != 0)
        answer = drop(r, grid, OPENED_IN_TEXT);
    r->place = 1;
    r->check = 0xFD;
    return answer;
}

/* The byte after the longest run, at the end of the bytes seen, with which an
   opening begins. */
static uint8_t due_byte(uint64_t seen)
{
    for (unsigned run = CONTROL_BYTES; run > 0; run--) {
        uint64_t begun = OPENING_WINDOW >> (8 * (OPENING_BYTES - run));
        uint64_t mask = ((uint64_t)1 << (8 * run)) - 1;
        if ((seen & mask) == begun)
            return OPENING[run];
    }
    return OPENING[0];
}

/* Place 0: free bytes without a part, row 12 with one. */
static int take_between(struct receiver *r, struct grid *grid, uint64_t seen_before, uint8_t byte)
{
    if (r->part != NO_PART && byte != due_byte(seen_before))
        return drop(r, grid, NOT_DUE_BYTE);
    return QUIET;
}

/* Block byte 1: row 13, and behind it 51, in every text alike. */
static int take_picture(struct receiver *r, struct grid *grid, uint8_t byte)
{
    if (!is_picture_code(byte))
        return drop(r, grid, NO_PICTURE_CODE);
    if (!is_marked(r->marks, byte))
        return drop(r, grid, UNMARKED_PICTURE);
    r->picture = byte;
    r->check ^= byte;
    r->place = 2;
    return QUIET;
}

/* Taking a start kind sets header and modes to 0; the picture code enters
   the header first.  No digit waits yet. */
static void enter_start(struct receiver *r)
{
    memset(r->digits, 0, sizeof r->digits);
    memset(&r->header, 0, sizeof r->header);
    memset(r->modes, 0, sizeof r->modes);
    r->header.picture = r->picture;
}

static uint8_t due_kind(const struct receiver *r)
{
    unsigned low = r->due == DUE_END ? 0x0F : r->due;
    return (uint8_t)(r->part << 4 | (int)low);
}

/* Row 15: the part is dropped, this text goes on with place, kind, check byte
   and picture code. */
static int start_over(struct receiver *r, struct grid *grid, uint8_t kind)
{
    uint8_t picture = r->picture;
    uint8_t check = r->check;
    drop(r, grid, START_IN_PART);
    r->place = 3;
    r->kind = kind;
    r->picture = picture;
    r->check = check ^ kind;
    enter_start(r);
    return START_IN_PART;
}

/* Block byte 2: rows 14 to 17 from the top down. */
static int take_kind(struct receiver *r, struct grid *grid, uint8_t byte)
{
    if (!is_kind(byte))
        return drop(r, grid, NO_KIND);
    if (is_start_kind(byte)) {
        if (r->part != NO_PART)
            return start_over(r, grid, byte);
        enter_start(r);
    } else {
        if (r->part == NO_PART || byte != due_kind(r))
            return drop(r, grid, NOT_DUE_KIND);
        if (r->picture != r->header.picture)
            return drop(r, grid, OTHER_PICTURE);
    }
    r->kind = byte;
    r->check ^= byte;
    r->place = 3;
    return QUIET;
}

/* Byte 23 has come: "let it give the signed count of minutes .. or invalid".
   The header gets that number, and no digit waits from here on. */
static bool take_minute(struct receiver *r)
{
    bool valid = minute_of(r->digits, &r->header.minute);
    memset(r->digits, 0, sizeof r->digits);
    return valid;
}

/* Digits and stops are judged at their own byte, date and time of day at the
   last one. */
static bool take_time_byte(struct receiver *r, unsigned place, uint8_t byte)
{
    int digit = digit_at(place - AT_TIME);
    if (digit < 0)
        return byte == 0x2E;
    if (byte < '0' || byte > '9')
        return false;
    r->digits[digit] = (uint8_t)(byte - '0');
    return place < AT_TIME_LAST || take_minute(r);
}

static bool take_radar_byte(struct header *header, unsigned index, uint8_t byte)
{
    bool right = index == 0 ? first_radar_allowed(byte)
                            : next_radar_allowed(header->radars[index - 1], byte);
    header->radars[index] = byte;
    return right;
}

/* One byte of a start block, from byte 3 on; false where it breaks its rule. */
static bool take_start_byte(struct receiver *r, unsigned place, uint8_t byte)
{
    struct header *header = &r->header;
    if (place >= AT_RADARS)
        return take_radar_byte(header, place - AT_RADARS, byte);
    if (place >= AT_TIME)
        return take_time_byte(r, place, byte);
    switch (place) {
    case AT_RESERVED:
        return byte == 0;
    case AT_STATUS_1:
        header->no_echo = (byte & NO_ECHO_BIT) != 0;
        return true;
    case AT_STATUS_2:
        header->mode = (uint8_t)mode_of_byte(byte);
        return header->mode != 0;
    default: /* the clock's two bytes, seven bits each, high part first */
        header->clock = (uint16_t)(header->clock << 7 | (byte & 0x7F));
        return byte < 0x80;
    }
}

static bool take_end_byte(struct receiver *r, unsigned place, uint8_t byte)
{
    if (place >= AT_END_ZEROS)
        return byte == 0;
    unsigned index = place - AT_MODES;
    r->modes[index] = (uint8_t)mode_of_byte(byte);
    return mode_byte_allowed(r->header.radars[index], byte);
}

/* Payload enters the grid as it comes, data text k from byte 2,000 x (k - 1). */
static bool take_payload_byte(struct receiver *r, struct grid *grid, uint8_t byte)
{
    if (!payload_byte_allowed(r->part, byte))
        return false;
    size_t at = 2000 * (size_t)(r->due - 1) + r->place - AT_PAYLOAD;
    grid->bytes[at] = byte;
    if (at >= grid->used)
        grid->used = at + 1;
    return true;
}

/* Block bytes from byte 3 on: row 18. */
static int take_block_byte(struct receiver *r, struct grid *grid, uint8_t byte)
{
    bool right;
    if (is_start_kind(r->kind))
        right = take_start_byte(r, r->place, byte);
    else if (is_end_kind(r->kind))
        right = take_end_byte(r, r->place, byte);
    else
        right = take_payload_byte(r, grid, byte);
    if (!right)
        return drop(r, grid, RULE_BROKEN);
    r->check ^= byte;
    r->place++;
    return QUIET;
}

static void leave_text(struct receiver *r)
{
    r->place = 0;
    r->kind = 0;
    r->picture = 0;
    r->check = 0;
}

/* An accepted start text opens its part; with NO ECHO the end is due at once,
   but for quality. */
static int accept_start(struct receiver *r, struct grid *grid)
{
    r->part = part_of_kind(r->kind);
    r->due = data_texts(r->part, r->header.no_echo) == 0 ? DUE_END : 1;
    clear_grid(grid);
    leave_text(r);
    return BEGUN;
}

static int accept_data(struct receiver *r)
{
    bool last = r->due == data_texts(r->part, r->header.no_echo);
    r->due = last ? DUE_END : r->due + 1;
    leave_text(r);
    return TAKEN;
}

static int accept_end(struct receiver *r, struct grid *grid)
{
    if (highest_mode(r->modes) != r->header.mode)
        return drop(r, grid, NOT_HIGHEST_MODE);
    r->part = NO_PART;
    r->due = 0;
    leave_text(r);
    return COMPLETE;
}

/* The three bytes behind a block: rows 19 to 22 and the answers 1 to 3. */
static int take_closing(struct receiver *r, struct grid *grid, unsigned behind, uint8_t byte)
{
    if (behind == 0) {
        if (byte != BLOCK_END)
            return drop(r, grid, NO_BLOCK_END);
        r->check ^= byte;
    } else if (behind == 1) {
        if (byte != r->check)
            return drop(r, grid, WRONG_CHECK);
    } else {
        if (byte != TEXT_END)
            return drop(r, grid, NO_TEXT_END);
        if (is_start_kind(r->kind))
            return accept_start(r, grid);
        return is_end_kind(r->kind) ? accept_end(r, grid) : accept_data(r);
    }
    r->place++;
    return QUIET;
}

int receive_byte(struct receiver *r, struct grid *grid, uint8_t byte)
{
    uint64_t seen_before = r->seen;
    r->seen = (seen_before << 8 | byte) & FIVE_BYTES;
    r->seen_count += r->seen_count < CONTROL_BYTES;
    /* The opening comes before every other check.  Fewer than six bytes leave
       zeros in front, which no opening has. */
    if (byte == 0xFD && (seen_before << 8 | byte) == OPENING_WINDOW)
        return begin_text(r, grid);
    if (r->place == 0)
        return take_between(r, grid, seen_before, byte);
    if (r->place == AT_PICTURE)
        return take_picture(r, grid, byte);
    if (r->place == AT_KIND)
        return take_kind(r, grid, byte);
    unsigned length = (unsigned)block_length(r->kind);
    if (r->place < length)
        return take_block_byte(r, grid, byte);
    return take_closing(r, grid, r->place - length, byte);
}
