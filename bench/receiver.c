/* The receiver of 01-scope.md, section "The receiver", written plainly in C from that paper, to be
 * measured against. Rows are those of 01's table, and what stands in quotes is 01's; for the quality
 * bits it is that of request #107, which put a new sheet in place of 01's, marks and row 51 are those
 * of Request 101, and the minute and the digits that wait for it those of Request 111.
 *
 *   byte_call           one byte, the state by pointer
 *   slice_call          a slice, byte by byte, up to the first answer other than 0
 *   slice_call_payload  the same, with an inner loop for payload bytes
 *
 * None of the three looks for refusals 1 and 2: the state is the caller's own, made by fresh() and
 * changed by these calls alone. refusal() has these two rows, for a caller who wants them asked first.
 *
 * With -DLISTEN this file is a program by itself: see main.
 */

#include <stddef.h>
#include <stdint.h>
#include <string.h>

enum { GRID = 20000, EDGE_BLOCK = 32 };
enum { NONE = 0, INTENSITY = 1, TOP = 2, QUALITY = 3 };
enum { ALL_MARKS = 0xFFFFF };
enum { DIGITS = 12 };  /* YYYYMMDDhhmm */
enum { START = 0, END = 11 };  /* a text's number within its part; data texts are 1 to 10 */

/* "The opening is the five control bytes and the `FD`." */
#define OPENING 0x1616161002FDu
#define FIVE_BYTES 0xFFFFFFFFFFu

struct header {
    int64_t minute;     /* "the signed count of minutes from 1 January 2000, 00:00" */
    uint16_t clock;
    uint8_t picture;
    uint8_t no_echo;
    uint8_t mode;
    uint8_t radars[8];
};

struct receiver {
    uint64_t seen;      /* the last five bytes seen, the latest lowest; 0 is in no opening, and so it does
                           not matter how many were seen */
    uint32_t marks;     /* "one for each picture code in 01's order .. with `C0` at bit 0" */
    uint16_t place;     /* "0 between texts, else the count of bytes taken from `FD` on" */
    uint8_t kind;       /* "0 until read and at place 0" */
    uint8_t picture;    /* the same, of the text under way */
    uint8_t part;       /* "the part open or none" */
    uint8_t due;        /* "0 with no part open, 1 to 10 for data .. and 11 for the end" */
    uint8_t check;      /* "the running check byte (0 at place 0)" */
    uint8_t digits[DIGITS];  /* "wait in the state until byte 23 and are 0 from then on" */
    struct header header;
    uint8_t modes[8];
};

struct taken {
    size_t count;       /* bytes taken */
    int answer;
};

/* ---- "A text" */

/* The mark of a picture code; 0 for every other byte, so that this is the list of codes too */
static const uint32_t mark_of[256] = {
    [0xC0] = 1u << 0, [0xC1] = 1u << 1, [0xC2] = 1u << 2, [0xC4] = 1u << 3, [0xC5] = 1u << 4,
    [0xC8] = 1u << 5, [0xC9] = 1u << 6, [0xCC] = 1u << 7, [0xD2] = 1u << 8, [0xD3] = 1u << 9,
    [0xD4] = 1u << 10, [0xD5] = 1u << 11, [0xD8] = 1u << 12, [0xDC] = 1u << 13, [0xE0] = 1u << 14,
    [0xE1] = 1u << 15, [0xE4] = 1u << 16, [0xE5] = 1u << 17, [0xF0] = 1u << 18, [0xF1] = 1u << 19,
};

/* "`A0` to `A5`, `A7` to `AF`, `B0 B1 B3 B4 B5 B6`" */
static int is_radar(uint8_t b)
{
    return b >= 0xA0 && b <= 0xB6 && b != 0xA6 && b != 0xB2;
}

/* One of the 18 kinds */
static int is_kind(uint8_t b)
{
    return (b >= 0x10 && b <= 0x1A) || b == 0x1F || b == 0x20 || b == 0x21 || b == 0x2F
        || b == 0x30 || b == 0x31 || b == 0x3F;
}

/* The part and the text's number, of one of the 18 kinds */
static int part_of_kind(uint8_t kind)
{
    return kind >> 4;
}

static int text_of_kind(uint8_t kind)
{
    int low = kind & 0x0F;
    return low == 0x0F ? END : low;
}

/* "Start block, 32 bytes", "End block, 32 bytes", and the column "Data block" */
static int block_length(uint8_t kind)
{
    int text = text_of_kind(kind);
    if (text == START || text == END)
        return EDGE_BLOCK;
    switch (part_of_kind(kind)) {
    case INTENSITY: return 2003;
    case TOP: return 403;
    default: return 103;
    }
}

/* "bit 6 mode 3, bit 4 mode 2, bit 2 mode 1, exactly one of these set"; else 0 */
static int mode_of(uint8_t b)
{
    switch (b & 0x54) {
    case 0x04: return 1;
    case 0x10: return 2;
    case 0x40: return 3;
    }
    return 0;
}

/* "levels 0 to 14"; "0 to 8"; #107: "Allowed are `00` to `7F`, and `80`." */
static inline int is_payload(int part, uint8_t b)
{
    switch (part) {
    case INTENSITY: return b < 0xF0 && (b & 0x0F) != 0x0F;
    case TOP: return b <= 8;
    default: return b <= 0x80;
    }
}

/* "a Gregorian date (years 0000 to 9999), hour 00 to 23, minute 00 to 59"; its minute, "or invalid",
 * which is 0. The days are those of years that begin in March, the leap day being a year's last; they
 * are counted 400 years late, so that no number is below 0. */
static int minute_of(const uint8_t *d, int64_t *count)
{
    enum { DAYS_TO_2000 = 6 * 146097 - 60 };  /* 1 March 2000 is 2,400 years from the first day counted */
    static const uint8_t days[] = { 31, 28, 31, 30, 31, 30, 31, 31, 30, 31, 30, 31 };
    int year = d[0] * 1000 + d[1] * 100 + d[2] * 10 + d[3];
    int month = d[4] * 10 + d[5], day = d[6] * 10 + d[7];
    int hour = d[8] * 10 + d[9], minute = d[10] * 10 + d[11];
    int leap = (year % 4 == 0 && year % 100 != 0) || year % 400 == 0;
    if (month < 1 || month > 12 || hour > 23 || minute > 59)
        return 0;
    if (day < 1 || day > days[month - 1] + (month == 2 && leap))
        return 0;
    int m = month > 2 ? month - 3 : month + 9, y = year + 400 - (month <= 2);
    int since = 365 * y + y / 4 - y / 100 + y / 400 + (153 * m + 2) / 5 + day - 1;
    *count = (int64_t)(since - DAYS_TO_2000) * 1440 + hour * 60 + minute;
    return 1;
}

/* ---- "The receiver" */

/* "Dropped: state and grid as fresh, but the last bytes seen are kept"; a receiver "keeps [its marks] for
 * good" */
static void drop(struct receiver *r, uint8_t *grid)
{
    uint64_t seen = r->seen;
    uint32_t marks = r->marks;
    memset(r, 0, sizeof *r);
    r->seen = seen;
    r->marks = marks;
    memset(grid, 0, GRID);
}

static int dropped(struct receiver *r, uint8_t *grid, int answer)
{
    drop(r, grid);
    return answer;
}

/* "Fresh: nothing seen, place 0, no part, all else 0, grid all 0."; with marks beyond the twentieth it
 * "has no mark at all" */
void fresh(struct receiver *r, uint8_t *grid, uint32_t marks)
{
    memset(r, 0, sizeof *r);
    r->marks = marks > ALL_MARKS ? 0 : marks;
    memset(grid, 0, GRID);
}

/* "its due byte is the one after the longest run, at the end of the bytes seen, with which an opening
 * begins" */
static uint8_t due_byte(uint64_t seen)
{
    for (int n = 5; n > 0; n--)
        if ((seen & (FIVE_BYTES >> (8 * (5 - n)))) == OPENING >> (8 * (6 - n)))
            return (uint8_t)(OPENING >> (8 * (5 - n)));
    return 0x16;
}

/* Block byte 2: rows 14 to 17, "from the top down" */
static int kind_byte(struct receiver *r, uint8_t *grid, uint8_t b)
{
    int answer = 0;
    if (!is_kind(b))
        return dropped(r, grid, 14);
    if (text_of_kind(b) == START) {
        uint8_t picture = r->picture, check = r->check;
        if (r->part != NONE)        /* row 15: "part dropped; this text goes on" */
            answer = dropped(r, grid, 15);
        r->picture = picture;
        r->check = check;
        /* "Taking a start kind sets header and modes to 0; .. the picture code first" */
        memset(&r->header, 0, sizeof r->header);
        memset(r->modes, 0, sizeof r->modes);
        r->header.picture = picture;
    } else if (part_of_kind(b) != r->part || text_of_kind(b) != r->due) {
        return dropped(r, grid, 16);
    } else if (r->picture != r->header.picture) {
        return dropped(r, grid, 17);
    }
    r->kind = b;
    r->check ^= b;
    r->place = 3;
    return answer;
}

/* Bytes 3 to 31 of a start block: does the byte keep its rule? Its field enters. */
static int start_byte(struct receiver *r, uint8_t b)
{
    /* Which of the twelve digits stands at bytes 8 to 23 of `YYYY.MM.DD.hh.mm`; 12 for a stop */
    static const uint8_t digit[] = { 0, 1, 2, 3, 12, 4, 5, 12, 6, 7, 12, 8, 9, 12, 10, 11 };
    struct header *h = &r->header;
    int place = r->place;
    switch (place) {
    case 3:
        return b == 0;
    case 4:
        h->no_echo = b >> 3 & 1;
        return 1;
    case 5:
        h->mode = mode_of(b);
        return h->mode != 0;
    case 6:
        h->clock = b * 128;
        return b < 0x80;
    case 7:
        h->clock += b;
        return b < 0x80;
    }
    if (place <= 23) {
        int i = digit[place - 8];
        if (i == 12)
            return b == '.';
        if (b < '0' || b > '9')
            return 0;
        r->digits[i] = b - '0';
        if (place != 23)
            return 1;
        int keeps = minute_of(r->digits, &h->minute);
        memset(r->digits, 0, sizeof r->digits);
        return keeps;
    }
    /* "one to eight radar codes, strictly rising, then `00`" */
    int i = place - 24;
    h->radars[i] = b;
    if (i == 0)
        return is_radar(b);
    return b == 0 || (h->radars[i - 1] != 0 && h->radars[i - 1] < b && is_radar(b));
}

/* Bytes 3 to 31 of an end block, the same */
static int end_byte(struct receiver *r, uint8_t b)
{
    int i = r->place - 3;
    if (i >= 8)
        return b == 0;
    if (r->header.radars[i] == 0)
        return b == 0;
    r->modes[i] = mode_of(b);
    return r->modes[i] != 0;
}

/* The `FF`: row 22 and answers 1 to 3 */
static int text_ends(struct receiver *r, uint8_t *grid)
{
    int part = part_of_kind(r->kind), text = text_of_kind(r->kind);
    if (text == END) {
        int highest = 0;
        for (int i = 0; i < 8; i++)
            if (r->modes[i] > highest)
                highest = r->modes[i];
        if (r->header.mode != highest)
            return dropped(r, grid, 22);
    }
    r->place = 0;
    r->kind = r->picture = r->check = 0;
    if (text == START) {
        /* "With NO ECHO, intensity and echo top have no data texts; quality always has one." */
        r->part = part;
        r->due = r->header.no_echo && part != QUALITY ? END : 1;
        memset(r->modes, 0, sizeof r->modes);
        memset(grid, 0, GRID);
        return 1;
    }
    if (text == END) {
        r->part = NONE;
        r->due = 0;
        return 3;
    }
    r->due = part == INTENSITY && text < 10 ? text + 1 : END;
    return 2;
}

/* One byte, and its answer */
static inline int step(struct receiver *r, uint8_t *restrict grid, uint8_t b)
{
    uint64_t before = r->seen;
    uint64_t six = before << 8 | b;
    r->seen = six & FIVE_BYTES;
    /* "An opening is looked for among the last six bytes always, .. before every other check, and
     * starts a text at place 1; an open part's header stays." */
    if (six == OPENING) {
        int answer = 0;
        if (r->place != 0)          /* row 11: "dropped; the new text goes on" */
            answer = dropped(r, grid, 11);
        r->place = 1;
        r->check = 0xFD;
        return answer;
    }
    if (r->place == 0) {
        if (r->part != NONE && b != due_byte(before))
            return dropped(r, grid, 12);
        return 0;                   /* "With no part open, bytes between texts are free." */
    }
    if (r->place == 1) {
        uint32_t mark = mark_of[b];
        if (mark == 0)
            return dropped(r, grid, 13);
        if ((r->marks & mark) == 0)
            return dropped(r, grid, 51);
        r->picture = b;
        r->check ^= b;
        r->place = 2;
        return 0;
    }
    if (r->place == 2)
        return kind_byte(r, grid, b);

    int after = r->place - block_length(r->kind);
    if (after < 0) {
        int text = text_of_kind(r->kind), keeps;
        if (text == START) {
            keeps = start_byte(r, b);
        } else if (text == END) {
            keeps = end_byte(r, b);
        } else {
            /* "Payload bytes enter the grid as they come, data text k from byte 2,000 × (k − 1)" */
            keeps = is_payload(part_of_kind(r->kind), b);
            if (keeps)
                grid[2000 * (text - 1) + r->place - 3] = b;
        }
        if (!keeps)
            return dropped(r, grid, 18);
        r->check ^= b;
        r->place++;
        return 0;
    }
    if (after == 0) {
        if (b != 0xFE)
            return dropped(r, grid, 19);
        r->check ^= 0xFE;           /* "The `FE` comes in last." */
        r->place++;
        return 0;
    }
    if (after == 1) {
        if (b != r->check)
            return dropped(r, grid, 20);
        r->place++;
        return 0;
    }
    if (b != 0xFF)
        return dropped(r, grid, 21);
    return text_ends(r, grid);
}

/* (a) The byte call. A host calls it from another file, and so it is kept a call here. */
__attribute__((noinline))
int byte_call(struct receiver *r, uint8_t *restrict grid, uint8_t b)
{
    return step(r, grid, b);
}

/* (b) The slice call: "stops after the first byte answered other than 0, and returns that answer, or 0
 * where there is none, and the count of bytes taken" */
struct taken slice_call(struct receiver *r, uint8_t *restrict grid, const uint8_t *bytes, size_t len)
{
    for (size_t i = 0; i < len; i++) {
        int answer = step(r, grid, bytes[i]);
        if (answer != 0)
            return (struct taken){ i + 1, answer };
    }
    return (struct taken){ len, 0 };
}

/* At most n bytes as far as they are payload of this part, into the grid; how many, and their check */
static inline size_t payload_run(int part, uint8_t *restrict grid, const uint8_t *bytes, size_t n, uint8_t *check)
{
    size_t i = 0;
    uint8_t sum = *check;
    for (; i < n && is_payload(part, bytes[i]); i++) {
        sum ^= bytes[i];
        grid[i] = bytes[i];
    }
    *check = sum;
    return i;
}

/* (c) The same with an inner loop over payload bytes. No opening can end among these, for `FD` is not one;
 * the byte that ends the run goes the usual way, and so does the rest of the text. */
struct taken slice_call_payload(struct receiver *r, uint8_t *restrict grid, const uint8_t *bytes, size_t len)
{
    size_t i = 0;
    while (i < len) {
        int text = text_of_kind(r->kind);
        if (r->place >= 3 && text != START && text != END && r->place < block_length(r->kind)) {
            uint8_t *to = grid + 2000 * (text - 1) + r->place - 3;
            size_t n = block_length(r->kind) - r->place, run;
            if (n > len - i)
                n = len - i;
            switch (part_of_kind(r->kind)) {
            case INTENSITY: run = payload_run(INTENSITY, to, bytes + i, n, &r->check); break;
            case TOP: run = payload_run(TOP, to, bytes + i, n, &r->check); break;
            default: run = payload_run(QUALITY, to, bytes + i, n, &r->check); break;
            }
            r->place += run;
            i += run;
            for (size_t j = run < 5 ? i - run : i - 5; j < i; j++)
                r->seen = (r->seen << 8 | bytes[j]) & FIVE_BYTES;
            if (i == len)
                break;
        }
        int answer = step(r, grid, bytes[i++]);
        if (answer != 0)
            return (struct taken){ i, answer };
    }
    return (struct taken){ len, 0 };
}

/* "a digit above 9, or one not 0 other than at places 9 to 23 of a start text" */
static int digits_refused(const struct receiver *r)
{
    static const uint8_t none[DIGITS];
    if (memcmp(r->digits, none, DIGITS) == 0)
        return 0;
    if (r->place < 9 || r->place > 23 || text_of_kind(r->kind) != START)
        return 1;
    for (int i = 0; i < DIGITS; i++)
        if (r->digits[i] > 9)
            return 1;
    return 0;
}

/* Rows 1 and 2; else 0. The count seen and the check byte under way have no other value here. */
int refusal(const struct receiver *r, size_t grid_len)
{
    if (grid_len != GRID)
        return 1;
    if (r->marks > ALL_MARKS || digits_refused(r))
        return 2;
    if (r->part == NONE ? r->due != 0 : r->part > QUALITY || r->due == 0 || r->due > END)
        return 2;
    if (r->part > INTENSITY && r->due != 1 && r->due != END)
        return 2;
    if (r->place == 0 && r->check != 0)
        return 2;
    if (r->place <= 1 ? r->picture != 0 : mark_of[r->picture] == 0)
        return 2;
    if (r->place <= 2)
        return r->kind != 0 ? 2 : 0;
    if (!is_kind(r->kind) || r->place > block_length(r->kind) + 2)
        return 2;
    /* "a read kind not the due one of an open part, or not a start kind with none" */
    if (r->part == NONE)
        return text_of_kind(r->kind) != START ? 2 : 0;
    return part_of_kind(r->kind) != r->part || text_of_kind(r->kind) != r->due ? 2 : 0;
}

/* ---- The listening program
 *
 *     receiver byte|asked|slice|payload [slice length, 0 for all that is left [lines|states [marks]]]
 *
 * reads standard input and prints 01's lines; "asked" is the byte call with refusals 1 and 2 asked before
 * each byte, as 01's byte call does. With "states" it prints a line after each call instead, with the answer,
 * the state and the CRC-32 of the grid, and stops at a state that would be refused. The receiver has all
 * twenty marks, or those of the number that is given.
 *
 *     receiver refusals [digits]
 *
 * reads states of eleven bytes (place in two, high first, kind, picture code, part, due text, check byte,
 * and marks in four, high first), or of 23 with the digits that wait behind these, and prints for each what
 * refusal() says. tests/compare_c.py compares all with the model. */
#ifdef LISTEN
#include <stdio.h>
#include <stdlib.h>

static uint32_t crc_table[256];

static void make_crc_table(void)
{
    for (uint32_t n = 0; n < 256; n++) {
        uint32_t c = n;
        for (int k = 0; k < 8; k++)
            c = c & 1 ? 0xEDB88320u ^ c >> 1 : c >> 1;
        crc_table[n] = c;
    }
}

static uint32_t crc(const uint8_t *bytes, size_t len)
{
    uint32_t c = 0xFFFFFFFFu;
    for (size_t i = 0; i < len; i++)
        c = crc_table[(c ^ bytes[i]) & 0xFF] ^ c >> 8;
    return ~c;
}

static void print_numbers(const uint8_t *numbers, int count)
{
    for (int i = 0; i < count; i++)
        printf(" %d", numbers[i]);
}

static void print_state(const struct receiver *r, const uint8_t *grid)
{
    const struct header *h = &r->header;
    printf(" %010llx %d %d %d %d %d %d", (unsigned long long)r->seen, r->place, r->kind, r->picture, r->part,
           r->due, r->check);
    printf(" %lld", (long long)h->minute);
    print_numbers(h->radars, 8);
    printf(" %d %d %d %d", h->clock, h->picture, h->mode, h->no_echo);
    print_numbers(r->modes, 8);
    printf(" %u %u\n", r->marks, crc(grid, GRID));
}

static void print_refusals(const uint8_t *bytes, size_t len, int digits)
{
    size_t each = 11 + digits;
    for (; len >= each; bytes += each, len -= each) {
        uint32_t marks = (uint32_t)bytes[7] << 24 | bytes[8] << 16 | bytes[9] << 8 | bytes[10];
        struct receiver r = { .place = bytes[0] << 8 | bytes[1], .kind = bytes[2], .picture = bytes[3],
                              .part = bytes[4], .due = bytes[5], .check = bytes[6], .marks = marks };
        memcpy(r.digits, bytes + 11, digits);
        printf("%d\n", refusal(&r, GRID));
    }
}

enum way { BYTE, ASKED, SLICE, PAYLOAD };

static enum way way_of(const char *name)
{
    return !strcmp(name, "slice") ? SLICE : !strcmp(name, "payload") ? PAYLOAD : !strcmp(name, "asked") ? ASKED : BYTE;
}

int main(int argc, char **argv)
{
    const char *entry = argc > 1 ? argv[1] : "byte";
    enum way way = way_of(entry);
    size_t most = argc > 2 ? strtoul(argv[2], NULL, 10) : 0;
    int states = argc > 3 && strcmp(argv[3], "states") == 0;
    uint32_t marks = argc > 4 ? strtoul(argv[4], NULL, 10) : ALL_MARKS;
    size_t len = 0, room = 1 << 16, got;
    uint8_t *bytes = malloc(room), *grid = malloc(GRID);
    struct receiver r;
    if (bytes == NULL || grid == NULL)
        return 1;
    while ((got = fread(bytes + len, 1, room - len, stdin)) > 0) {
        len += got;
        if (len == room && (bytes = realloc(bytes, room *= 2)) == NULL)
            return 1;
    }
    if (strcmp(entry, "refusals") == 0) {
        print_refusals(bytes, len, argc > 2 && strcmp(argv[2], "digits") == 0 ? DIGITS : 0);
        len = 0;
    }
    make_crc_table();
    fresh(&r, grid, marks);
    for (size_t i = 0; i < len;) {
        size_t n = most == 0 || most > len - i ? len - i : most;
        struct taken t = { 1, 0 };
        if (way == SLICE)
            t = slice_call(&r, grid, bytes + i, n);
        else if (way == PAYLOAD)
            t = slice_call_payload(&r, grid, bytes + i, n);
        else if (way == BYTE || (t.answer = refusal(&r, GRID)) == 0)
            t.answer = byte_call(&r, grid, bytes[i]);
        i += t.count;
        if (states) {
            if (refusal(&r, GRID) != 0) {
                printf("after %zu bytes the state would be refused\n", i);
                return 1;
            }
            printf("%zu %d", i, t.answer);
            print_state(&r, grid);
        } else if (t.answer != 0) {
            printf("%zu %d\n", i, t.answer);
        }
    }
    free(bytes);
    free(grid);
    return 0;
}
#endif
