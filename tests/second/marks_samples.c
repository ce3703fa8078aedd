#include "marks_samples.h"

#include "bytes.h"
#include "hostile.h"
#include "receiver.h"
#include "texts.h"
#include "writer.h"

#include <stdio.h>
#include <string.h>

/* The papers' figures once more, so that marks are not held against the list
   that they were worked out from. */
enum {
    MARK_C0 = 1, MARK_C1 = 2, MARK_CC = 128, MARK_F1 = 524288,
    ALL_TWENTY = 1048575, TWENTY_FIRST = 1048576
};

static expecter *expect;

/* ---- texts ---- */

/* S or E with another picture code, under its right check byte. */
static void add_recoded(struct bytes *to, size_t put(uint8_t *out), uint8_t code)
{
    uint8_t text[64];
    size_t length = put(text);
    text[CONTROL_BYTES + AT_PICTURE] = code;
    text[length - 2] = check_byte(text + CONTROL_BYTES, length - FRAME_BYTES);
    add_bytes(to, text, length);
}

static void add_s(struct bytes *to)
{
    add_recoded(to, put_s, 0xCC);
}

static void add_e(struct bytes *to)
{
    add_recoded(to, put_e, 0xCC);
}

enum { QUALITY_BYTES = 191, DATA_FROM = 40, END_FROM = 151 };

/* A quality part of F1 whose payload begins with the five control bytes. */
static void put_quality_part(uint8_t *out)
{
    static const struct header header = {
        .picture = 0xF1, .clock = 1, .minute = -1051898400, .radars = {0xA0}}; /* 0000.01.01.00.00 */
    static const uint8_t modes[RADARS] = {1};
    static const uint8_t payload[100] = {0x16, 0x16, 0x16, 0x10, 0x02};
    struct writing what = {QUALITY, &header, modes, payload, sizeof payload};
    size_t length;
    write_part(&what, out, QUALITY_BYTES, &length);
}

/* ---- listening with marks ---- */

static void expect_lines(const struct bytes *bytes, uint32_t marks, const char *wanted, const char *what)
{
    static struct grid grid;
    struct receiver r;
    char got[400] = "";
    size_t done = 0;
    make_fresh(&r, &grid, marks);
    for (size_t i = 0; i < bytes->length; i++) {
        int answer = receive_byte(&r, &grid, bytes->data[i]);
        if (answer != QUIET && done < sizeof got)
            done += (size_t)snprintf(got + done, sizeof got - done, "%zu %d\n", i + 1, answer);
    }
    expect(strcmp(got, wanted) == 0, what);
}

/* S and E are of CC. */
static void try_marked_or_not(void)
{
    struct bytes bytes = {0};
    add_s(&bytes);
    add_e(&bytes);
    expect_lines(&bytes, ALL_TWENTY, "40 1\n80 3\n", "S and E, all marked");
    expect_lines(&bytes, MARK_CC, "40 1\n80 3\n", "S and E, CC marked alone");
    expect_lines(&bytes, ALL_TWENTY - MARK_CC, "7 51\n47 51\n", "S and E, all but CC");
    expect_lines(&bytes, 0, "7 51\n47 51\n", "S and E, none marked");
    free_bytes(&bytes);
}

/* "A receiver asked for with such has no mark at all." */
static void try_bad_numbers(void)
{
    static const uint32_t bad[] = {TWENTY_FIRST, TWENTY_FIRST + MARK_CC, TWENTY_FIRST + ALL_TWENTY,
                                   0x80000000u, 0x80000000u + MARK_CC, 4294967295u};
    struct bytes bytes = {0};
    add_s(&bytes);
    add_e(&bytes);
    for (size_t i = 0; i < sizeof bad / sizeof bad[0]; i++)
        expect_lines(&bytes, bad[i], "7 51\n47 51\n", "a mark beyond the twentieth gives none");
    free_bytes(&bytes);
}

/* Row 13 comes before 51: it does not hang on the marks. */
static void try_unlisted(void)
{
    static const uint8_t unlisted[] = {0xC3, 0xCD, 0xF2, 0x00, 0x16, 0xFD, 0xFF};
    static const uint32_t marks[] = {0, MARK_CC, ALL_TWENTY, 4294967295u};
    struct bytes bytes = {0};
    for (size_t i = 0; i < sizeof unlisted; i++)
        for (size_t k = 0; k < sizeof marks / sizeof marks[0]; k++) {
            bytes.length = 0;
            add_recoded(&bytes, put_s, unlisted[i]);
            expect_lines(&bytes, marks[k], "7 13\n", "an unlisted code gets 13 whatever the marks");
        }
    free_bytes(&bytes);
}

static void try_first_and_last(void)
{
    struct bytes bytes = {0};
    add_recoded(&bytes, put_s, 0xC0);
    expect_lines(&bytes, MARK_C0, "40 1\n", "C0 marked alone");
    expect_lines(&bytes, ALL_TWENTY - MARK_C0, "7 51\n", "all but C0");
    bytes.length = 0;
    add_recoded(&bytes, put_s, 0xF1);
    expect_lines(&bytes, MARK_F1, "40 1\n", "F1 marked alone");
    expect_lines(&bytes, ALL_TWENTY - MARK_F1, "7 51\n", "all but F1");
    free_bytes(&bytes);
}

/* 51 at byte 1 comes before 16 and 17 at byte 2; the part is dropped with it. */
static void try_open_part(void)
{
    struct bytes bytes = {0};
    add_s(&bytes);
    add_recoded(&bytes, put_e, 0xC0);
    add_e(&bytes);
    expect_lines(&bytes, MARK_CC, "40 1\n47 51\n88 16\n", "an unmarked end text in an open part");
    expect_lines(&bytes, MARK_CC + MARK_C0, "40 1\n48 17\n88 16\n", "the same, marked");
    bytes.length = 0;
    add_s(&bytes);
    add_recoded(&bytes, put_s, 0xC0);
    add_e(&bytes);
    expect_lines(&bytes, MARK_CC, "40 1\n47 51\n88 16\n", "an unmarked start text in an open part");
    expect_lines(&bytes, MARK_CC + MARK_C0, "40 1\n48 15\n80 1\n88 17\n", "the same, marked");
    bytes.length = 0;
    add_recoded(&bytes, put_s, 0xC0);
    add_s(&bytes);
    add_e(&bytes);
    expect_lines(&bytes, MARK_CC, "7 51\n80 1\n120 3\n", "an unmarked start text before a part");
    free_bytes(&bytes);
}

/* The same at a data text, whose end text then finds no part. */
static void try_data_text(void)
{
    uint8_t part[QUALITY_BYTES];
    struct bytes bytes = {0};
    put_quality_part(part);
    add_bytes(&bytes, part, sizeof part);
    expect_lines(&bytes, MARK_F1, "40 1\n151 2\n191 3\n", "a quality part of F1");
    bytes.data[DATA_FROM + CONTROL_BYTES + AT_PICTURE] = 0xC0;
    expect_lines(&bytes, MARK_F1, "40 1\n47 51\n159 16\n", "an unmarked data text");
    expect_lines(&bytes, MARK_F1 + MARK_C0, "40 1\n48 17\n159 16\n", "the same, marked");
    bytes.data[DATA_FROM + CONTROL_BYTES + AT_PICTURE] = 0xF1;
    bytes.data[END_FROM + CONTROL_BYTES + AT_PICTURE] = 0xC1;
    expect_lines(&bytes, MARK_F1, "40 1\n151 2\n158 51\n", "an unmarked end text behind data");
    expect_lines(&bytes, MARK_F1 + MARK_C1, "40 1\n151 2\n159 17\n", "the same, marked");
    free_bytes(&bytes);
}

/* An opening is found right behind an unmarked code: no part is open then and
   no text under way, so it is neither row 11 nor 12. */
static void try_opening_behind(void)
{
    struct bytes bytes = {0};
    add_bytes(&bytes, OPENING, OPENING_BYTES);
    add_byte(&bytes, 0xC0);
    add_s(&bytes);
    expect_lines(&bytes, MARK_CC, "7 51\n47 1\n", "an opening behind an unmarked code");
    bytes.length = 0;
    add_s(&bytes);
    add_bytes(&bytes, OPENING, OPENING_BYTES);
    add_byte(&bytes, 0xC0);
    add_e(&bytes);
    expect_lines(&bytes, MARK_CC, "40 1\n47 51\n55 16\n", "the same in an open part");
    free_bytes(&bytes);
}

/* Rows 11 and 15 go on with the marks: what was unmarked is so still. */
static void try_text_goes_on(void)
{
    uint8_t part[QUALITY_BYTES];
    struct bytes bytes = {0};
    add_s(&bytes);
    add_s(&bytes);
    add_recoded(&bytes, put_s, 0xC0);
    add_s(&bytes);
    add_e(&bytes);
    expect_lines(&bytes, MARK_CC, "40 1\n48 15\n80 1\n87 51\n160 1\n200 3\n", "marks after row 15");
    bytes.length = 0;
    put_quality_part(part);
    add_bytes(&bytes, part, 53); /* the control bytes are the payload's first five */
    add_byte(&bytes, 0xFD);
    add_byte(&bytes, 0xCC);
    expect_lines(&bytes, MARK_F1, "40 1\n54 11\n55 51\n", "an unmarked code after row 11");
    bytes.length = 53;
    add_bytes(&bytes, part + CONTROL_BYTES, QUALITY_BYTES - CONTROL_BYTES);
    expect_lines(&bytes, MARK_F1, "40 1\n54 11\n88 1\n199 2\n239 3\n", "a marked part after row 11");
    free_bytes(&bytes);
}

/* ---- states ---- */

/* Dropped "as 13 does": as fresh with the same marks, the bytes seen kept. */
static void try_dropped_state(void)
{
    static struct grid grid, zeros;
    static struct receiver r, wanted;
    uint8_t part[QUALITY_BYTES];
    put_quality_part(part);
    make_fresh(&r, &grid, MARK_F1);
    for (size_t i = 0; i < END_FROM + OPENING_BYTES; i++)
        receive_byte(&r, &grid, part[i]);
    expect(grid.bytes[0] == 0x16 && r.part == QUALITY, "a part open, with payload in the grid");
    expect(receive_byte(&r, &grid, 0xCC) == 51, "an unmarked code gets 51");
    make_fresh(&wanted, &zeros, MARK_F1);
    wanted.seen = 0x161002FDCC;
    wanted.seen_count = 5;
    expect(memcmp(&r, &wanted, sizeof r) == 0, "dropped with 51: the state");
    expect(memcmp(&grid, &zeros, sizeof grid) == 0, "dropped with 51: the grid");
}

/* At place 1 the last byte seen is FD, so no stream has an opening end there;
   in a state made up by hand it comes before 13 and 51. */
static void try_opening_first(void)
{
    static struct grid grid;
    static const uint32_t marks[] = {0, MARK_CC, ALL_TWENTY};
    for (size_t i = 0; i < 3; i++) {
        struct receiver r;
        make_fresh(&r, &grid, marks[i]);
        r.seen = 0x1616161002;
        r.seen_count = 5;
        r.place = 1;
        r.check = 0xFD;
        expect(receive_byte(&r, &grid, 0xFD) == 11, "an opening comes before 13 and 51");
        expect(r.place == 1 && r.marks == marks[i], "and starts a text");
    }
}

/* An open part's picture is marked in every stream; in a state made up by hand
   it need not be, and 51 asks for the mark alone. */
static void try_open_unmarked(void)
{
    static struct grid grid;
    struct receiver r;
    make_fresh(&r, &grid, MARK_CC);
    r.place = 1;
    r.check = 0xFD;
    r.part = QUALITY;
    r.due = 1;
    r.header.picture = 0xF1;
    expect(receive_byte(&r, &grid, 0xF1) == 51, "51 in an open part whose picture is unmarked");
    expect(r.part == NO_PART && r.marks == MARK_CC, "which is dropped");
}

/* Every byte as a code, with each mark alone. */
static void try_every_code(void)
{
    static const uint8_t order[20] = {
        0xC0, 0xC1, 0xC2, 0xC4, 0xC5, 0xC8, 0xC9, 0xCC, 0xD2, 0xD3,
        0xD4, 0xD5, 0xD8, 0xDC, 0xE0, 0xE1, 0xE4, 0xE5, 0xF0, 0xF1};
    static struct grid grid;
    for (unsigned bit = 0; bit < 20; bit++)
        for (unsigned byte = 0; byte <= 0xFF; byte++) {
            struct receiver r;
            make_fresh(&r, &grid, 1u << bit);
            for (size_t i = 0; i < OPENING_BYTES; i++)
                receive_byte(&r, &grid, OPENING[i]);
            bool listed = memchr(order, (int)byte, sizeof order) != NULL;
            int wanted = byte == order[bit] ? 0 : listed ? 51 : 13;
            expect(receive_byte(&r, &grid, (uint8_t)byte) == wanted, "every byte under one mark");
        }
}

/* "Keeps them for good": whatever comes. */
static void try_kept(void)
{
    static const uint32_t marks[] = {0, MARK_C0, MARK_F1, MARK_CC + MARK_F1, 0xAAAAA, ALL_TWENTY};
    static struct grid grid;
    struct bytes stream = {0};
    generate(101, 20000, &stream);
    for (size_t k = 0; k < sizeof marks / sizeof marks[0]; k++) {
        struct receiver r;
        bool kept = true;
        make_fresh(&r, &grid, marks[k]);
        for (size_t i = 0; i < stream.length; i++) {
            receive_byte(&r, &grid, stream.data[i]);
            kept = kept && r.marks == marks[k];
        }
        expect(kept, "marks are kept");
    }
    free_bytes(&stream);
}

static void try_counting(void)
{
    static const uint32_t counted[][2] = {
        {0, 0}, {MARK_C0, 1}, {MARK_F1, 1}, {MARK_C0 + MARK_F1, 2}, {699050, 10}, {349525, 10},
        {ALL_TWENTY - 1, 19}, {ALL_TWENTY, 20},
        /* beyond the twentieth: not counted */
        {TWENTY_FIRST, 0}, {TWENTY_FIRST + 1, 1}, {2147483648u, 0}, {2147483648u + MARK_F1, 1},
        {4294967295u, 20}, {4294967295u - ALL_TWENTY, 0}};
    for (size_t i = 0; i < sizeof counted / sizeof counted[0]; i++)
        expect(marks_set(counted[i][0]) == counted[i][1], "marks counted");
}

void try_marks(expecter *told)
{
    expect = told;
    try_marked_or_not();
    try_bad_numbers();
    try_unlisted();
    try_first_and_last();
    try_open_part();
    try_data_text();
    try_opening_behind();
    try_text_goes_on();
    try_dropped_state();
    try_opening_first();
    try_open_unmarked();
    try_every_code();
    try_kept();
    try_counting();
}
