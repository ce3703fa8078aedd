#include "altered_samples.h"

#include "altered.h"
#include "outside_limits.h"
#include "bytes.h"
#include "damage.h"
#include "receiver.h"
#include "writer.h"

#include <stdio.h>
#include <string.h>

/* 01's figures once more.  A text's bytes are numbered from 1, as the listening
   program counts them: 1 to 5 are the control bytes, 6 the FD, 7 the picture
   code, 8 the kind, 9 block byte 3; the last three are FE, check byte and FF. */
enum { SHORT_PART = 80, TOP_PART = 491, QUALITY_PART = 191, INTENSITY_PART = 20190, INTENSITY_TEXT = 2011 };

static expecter *expect;

/* ---- parts ---- */

/* A part with the header of S and the mode of E. */
static void put_part(uint8_t *out, int part, const uint8_t *payload)
{
    static const struct header header = {
        .picture = 0xCC, .clock = 9983, .minute = -298790, .radars = {0xA5}};
    static const uint8_t modes[RADARS] = {1};
    struct writing what = {part, &header, modes, payload, payload_length(part)};
    size_t length;
    expect(write_part(&what, out, INTENSITY_PART, &length) == WRITTEN, "a part to be altered");
}

static void put_short(uint8_t *out)
{
    put_s(out);
    put_e(out + 40);
}

/* ---- alterations ---- */

/* The byte with this number of the part becomes that; number 0 ends a list. */
struct hit {
    size_t number;
    uint8_t value;
};

static void put_lines(const uint8_t *part, size_t length, char *out, size_t room)
{
    static struct grid grid;
    struct receiver r;
    size_t done = 0;
    make_fresh(&r, &grid, ALL_MARKS);
    out[0] = 0;
    for (size_t i = 0; i < length; i++) {
        int answer = receive_byte(&r, &grid, part[i]);
        if (answer != QUIET && done < room)
            done += (size_t)snprintf(out + done, room - done, "%zu %d\n", i + 1, answer);
    }
}

/* The part with these bytes altered gets these lines; the part stays. */
static void expect_hits(const uint8_t *part, size_t length, const struct hit *hits,
                        const char *wanted, const char *what)
{
    static uint8_t come[INTENSITY_PART];
    char got[400];
    expect(undamaged_part(part, length) == length, what);
    memcpy(come, part, length);
    for (; hits->number != 0; hits++) {
        expect(come[hits->number - 1] != hits->value, what);
        come[hits->number - 1] = hits->value;
    }
    put_lines(come, length, got, sizeof got);
    expect(strcmp(got, wanted) == 0, what);
}

/* ---- intensity with NO ECHO: S and E, bytes 1 to 40 and 41 to 80 ---- */

static void try_both_texts(void)
{
    static const struct {
        struct hit hits[3];
        const char *wanted;
    } tries[] = {
        {{{17, '8'}, {49, 0x10}}, "39 20\n48 16\n"},  /* 1998; mode 2 */
        {{{10, 0x00}, {49, 0x40}}, "39 20\n48 16\n"}, /* NO ECHO off; mode 3 */
        {{{11, 0x10}, {49, 0x10}}, "39 20\n48 16\n"}, /* mode 2 in both */
        {{{7, 0xC0}, {47, 0xC0}}, "39 20\n48 16\n"},  /* picture C0 in both */
        {{{8, 0x20}, {48, 0x2F}}, "39 20\n48 16\n"},  /* echo top's kinds */
        {{{8, 0x1F}, {48, 0x10}}, "8 16\n49 18\n"},   /* each other's kind: 04 is not 00 */
        {{{38, 0xFF}, {48, 0x20}}, "38 19\n49 18\n"},
        {{{39, 0xB1}, {79, 0x2A}}, "39 20\n48 16\n"}, /* check bytes without the FE */
        {{{40, 0x16}, {80, 0x16}}, "40 21\n48 16\n"},
        {{{40, 0x16}, {41, 0x00}}, "40 21\n"},        /* 16 00 16 16 10 02 FD is no opening */
        {{{1, 0x00}, {80, 0xFE}}, "48 16\n"},         /* no start text is found */
        {{{6, 0xFE}, {46, 0xFE}}, ""},                /* no text at all */
    };
    uint8_t part[SHORT_PART];
    put_short(part);
    for (size_t i = 0; i < sizeof tries / sizeof tries[0]; i++)
        expect_hits(part, SHORT_PART, tries[i].hits, tries[i].wanted, tries[i].wanted);
}

/* Each byte of E that its place has a row for. */
static void try_end_text_alone(void)
{
    static const struct {
        struct hit hits[2];
        const char *wanted;
    } tries[] = {
        {{{41, 0x10}}, "40 1\n41 12\n"},
        {{{43, 0x10}}, "40 1\n43 12\n"},
        {{{44, 0x16}}, "40 1\n44 12\n"},
        {{{45, 0x10}}, "40 1\n45 12\n"},
        {{{46, 0xFE}}, "40 1\n46 12\n"},
        {{{47, 0xCD}}, "40 1\n47 13\n"},
        {{{47, 0xC0}}, "40 1\n48 17\n"},
        {{{48, 0x1E}}, "40 1\n48 14\n"},
        {{{48, 0x11}}, "40 1\n48 16\n"},
        {{{48, 0x10}}, "40 1\n48 15\n49 18\n"},
        {{{49, 0x40}}, "40 1\n79 20\n"}, /* and not 22, which comes at the FF */
        {{{49, 0x84}}, "40 1\n79 20\n"}, /* a bit without meaning */
        {{{50, 0x04}}, "40 1\n50 18\n"}, /* no radar there */
        {{{76, 0x02}}, "40 1\n76 18\n"},
        {{{78, 0x02}}, "40 1\n78 19\n"},
        {{{79, 0x2A}}, "40 1\n79 20\n"},
        {{{80, 0xFE}}, "40 1\n80 21\n"},
    };
    uint8_t part[SHORT_PART];
    put_short(part);
    for (size_t i = 0; i < sizeof tries / sizeof tries[0]; i++)
        expect_hits(part, SHORT_PART, tries[i].hits, tries[i].wanted, tries[i].wanted);
}

/* ---- echo top: bytes 1 to 40, 41 to 451, 452 to 491 ---- */

static void try_top(void)
{
    /* Of a start block echo top payload may have byte 3, the status bytes and
       the clock: 08 is no digit of the year. */
    static const uint8_t payload[400] = {0x00, 0x08, 0x04, 0x01, 0x02, 0x08};
    static const struct hit all[] = {{10, 0x08}, {48, 0x20}, {491, 0x00}, {0, 0}};
    static const struct hit later[] = {{48, 0x2F}, {459, 0x21}, {0, 0}};
    static const struct hit codes[] = {{7, 0xE5}, {47, 0xE5}, {458, 0xE5}, {0, 0}};
    uint8_t part[INTENSITY_PART];
    put_part(part, ECHO_TOP, payload);
    expect_hits(part, TOP_PART, all, "39 20\n54 18\n459 16\n", "every text of an echo top part");
    expect_hits(part, TOP_PART, later, "40 1\n48 16\n459 16\n", "data and end text with each other's kind");
    expect_hits(part, TOP_PART, codes, "39 20\n48 16\n459 16\n", "an echo top part recoded throughout");
}

/* ---- quality: bytes 1 to 40, 41 to 151, 152 to 191 ---- */

/* The payload ends 16 16 16 10, and its other bytes make the check byte FD: over
   FD, CC and 31 with the FE it is FE, the four give 06, so FD wants 05. */
static void put_critical_quality(uint8_t *part)
{
    static const uint8_t payload[100] = {[50] = 0x05, [96] = 0x16, 0x16, 0x16, 0x10};
    put_part(part, QUALITY, payload);
    expect(part[149] == 0xFD, "a quality data text with the check byte FD");
}

static void try_quality(void)
{
    static const struct hit all[] = {{9, 0x02}, {149, 0x02}, {191, 0xFE}, {0, 0}};
    static const struct hit later[] = {{149, 0x02}, {0, 0}};
    static const struct hit fields[] = {{13, 0x7E}, {60, 0x7F}, {160, 0x10}, {0, 0}};
    uint8_t part[INTENSITY_PART];
    put_critical_quality(part);
    part[9] = 0xFD; /* status 1, with its check byte */
    part[38] ^= 0xFD;
    /* 02 FD in the start text is no opening; 16 16 16 10 02 FD at the end of
       the data text is one, and the FF behind it no picture code. */
    expect_hits(part, QUALITY_PART, all, "9 18\n48 16\n151 13\n159 16\n", "every text of a quality part");
    expect_hits(part, QUALITY_PART, later, "40 1\n149 19\n151 13\n159 16\n", "an opening in its closing");
    expect_hits(part, QUALITY_PART, fields, "39 20\n48 16\n159 16\n", "fields of a quality part");
}

/* ---- intensity: data text k from byte 41 + 2,011 (k - 1) on, the end text from 20,151 on ---- */

/* Data text 3 has a start block in its payload, behind its kind; data text 6
   ends as the quality text above. */
static void put_critical_intensity(uint8_t *part)
{
    static uint8_t payload[20000];
    uint8_t s[64];
    put_s(s);
    s[12] = 0x7E; /* the clock's 7F is level 15 */
    memset(payload, 0x21, sizeof payload);
    memcpy(payload + 4000, s + 8, 29);
    memset(payload + 10000, 0, 2000);
    memcpy(payload + 11996, OPENING, 4);
    payload[10000] = 0x22; /* FD CC 16 and FE give D9, the four bytes 06 */
    put_part(part, INTENSITY, payload);
    expect(part[12104] == 0xFD, "an intensity data text with the check byte FD");
}

static void try_intensity(void)
{
    enum { K = INTENSITY_TEXT };
    static const struct hit all[] = {
        {13, 0x7E},                /* start: the clock */
        {40 + 7, 0xF1},            /* 1: another picture */
        {40 + K + 3, 0x10},        /* 2: no opening */
        {40 + 2 * K + 8, 0x10},    /* 3: a start kind; 21 stands where its FE is due */
        {40 + 3 * K + 8, 0x15},    /* 4: the next kind */
        {40 + 4 * K + 900, 0x22},  /* 5: payload */
        {40 + 5 * K + 2009, 0x02}, /* 6: the FE, and an opening ends behind it */
        {40 + 6 * K + 2010, 0x26}, /* 7: the check byte D8 without the FE */
        {40 + 7 * K + 2011, 0x16}, /* 8: the FF */
        {40 + 8 * K + 6, 0xFF},    /* 9: the FD */
        {40 + 9 * K + 7, 0x00},    /* 10: no picture */
        {20158, 0x1A},             /* end: the kind before */
        {0, 0}};
    static const struct hit later[] = {{4062, 0x00}, {20159, 0x10}, {0, 0}};
    static uint8_t part[INTENSITY_PART];
    put_critical_intensity(part);
    expect_hits(part, INTENSITY_PART, all,
                "39 20\n48 16\n4100 19\n6081 16\n8092 16\n10103 16\n12106 13\n12114 16\n14125 16\n"
                "18146 13\n20158 16\n", "every text of an intensity part");
    expect_hits(part, INTENSITY_PART, later,
                "40 1\n2051 2\n4062 21\n4070 16\n6081 16\n8092 16\n10103 16\n12114 16\n14125 16\n"
                "16136 16\n18147 16\n20158 16\n", "the FF of data text 2, and the end text");
}

/* ---- outside the limits ---- */

/* Two in one text: clock 9,982 and its check byte; two payload bytes, both by
   03; a bit without meaning and its check byte. */
static void try_twice(void)
{
    static const uint8_t payload[100] = {0x01, 0x40};
    static const struct hit clock[] = {{13, 0x7E}, {39, 0x4E}, {0, 0}};
    static const struct hit both[] = {{49, 0x02}, {50, 0x43}, {0, 0}};
    static const struct hit mode[] = {{160, 0x05}, {190, 0xF5}, {0, 0}};
    uint8_t part[INTENSITY_PART];
    put_short(part);
    expect_hits(part, SHORT_PART, clock, "40 1\n80 3\n", "the clock and the check byte of S");
    put_part(part, QUALITY, payload);
    expect(part[189] == 0xF4, "the end text of quality has check byte F4");
    expect_hits(part, QUALITY_PART, both, "40 1\n151 2\n191 3\n", "two payload bytes of one text");
    expect_hits(part, QUALITY_PART, mode, "40 1\n151 2\n191 3\n", "a mode byte and the check byte");
}

/* Data text 10 ends with S of clock 9,982 (4D 7E, check byte 4E), 00 standing
   for its FD, and its own check byte is 4E too: over FD, CC, 1A and FE it is
   D5, the five control bytes give 04, the other 31 bytes of that S 4D, so that
   D2 is wanted, which stands first in the payload. */
static void put_inner_start(uint8_t *part)
{
    static uint8_t payload[20000];
    uint8_t s[64];
    put_s(s);
    s[5] = 0x00;
    s[12] = 0x7E;
    memset(payload, 0, sizeof payload);
    payload[18000] = 0xD2;
    memcpy(payload + 20000 - 37, s, 37);
    put_part(part, INTENSITY, payload);
    expect(part[20148] == 0x4E, "the check byte of data text 10 and of S with clock 9,982");
}

#define NINE_TAKEN "40 1\n2051 2\n4062 2\n6073 2\n8084 2\n10095 2\n12106 2\n14117 2\n16128 2\n18139 2\n"

static void try_to_fd(void)
{
    static const struct hit none[] = {{0, 0}}, fd[] = {{20116, 0xFD}, {0, 0}};
    static const struct hit near[] = {{20116, 0xFC}, {0, 0}}, levels[] = {{20116, 0xED}, {0, 0}};
    static const struct hit many[] = {{1, 0x00}, {2059, 0x10}, {18139, 0x00}, {20116, 0xFD}, {0, 0}};
    static const struct hit two[] = {{20116, 0xFD}, {20180, 0x01}, {0, 0}};
    static uint8_t part[INTENSITY_PART];
    put_inner_start(part);
    expect_hits(part, INTENSITY_PART, none, NINE_TAKEN "20150 2\n20190 3\n", "a part that ends so");
    expect_hits(part, INTENSITY_PART, fd, NINE_TAKEN "20116 11\n20150 1\n20190 3\n", "a byte altered to FD");
    expect_hits(part, INTENSITY_PART, near, NINE_TAKEN "20116 18\n20158 16\n", "the same byte to FC");
    expect_hits(part, INTENSITY_PART, levels, NINE_TAKEN "20149 20\n20158 16\n", "the same byte to ED");
    /* Whatever has come before: no start text; a start kind in data text 2, whose 00
       is no status 2; no FF of data text 9.  No text is under way at the FD. */
    expect_hits(part, INTENSITY_PART, many,
                "48 16\n2062 18\n4070 16\n6081 16\n8092 16\n10103 16\n12114 16\n14125 16\n16136 16\n"
                "18147 16\n20150 1\n20190 3\n", "altered to FD, and three texts before it altered");
    expect_hits(part, INTENSITY_PART, two, NINE_TAKEN "20116 11\n20150 1\n20180 18\n", "the end text too");
}

/* ---- by chance ---- */

enum { PARTS = 3000 };

/* "Yields no complete": a fresh receiver with all marks. */
static bool yields_complete(const struct draft *draft)
{
    static struct receiver r;
    static struct grid grid;
    bool complete = false;
    make_fresh(&r, &grid, ALL_MARKS);
    for (size_t i = 0; i < draft->count; i++)
        for (size_t at = 0; at < draft->texts[i].length; at++)
            complete = receive_byte(&r, &grid, draft->texts[i].bytes[at]) == COMPLETE || complete;
    return complete;
}

/* A judge that let all pass would let these pass too. */
static void try_judge(struct numbers *n, const struct habits *habits, struct transfer *c)
{
    send_part(n, habits, c);
    expect(!is_altered_part(c), "a whole part is not altered");
    alter_twice(n, c);
    expect(!is_altered_part(c), "two in one text are too many");
    expect(yields_complete(&c->come), "two in one text: complete");
    alter_to_fd(n, habits, c);
    expect(!is_altered_part(c), "no byte may be altered to FD");
    expect(yields_complete(&c->come), "altered to FD: complete");
}

static void try_by_chance(void)
{
    static const struct habits habits = {{0xC0, 0xCC, 0xF1}};
    static struct transfer c;
    struct numbers numbers = {113};
    size_t every = 0, start_whole = 0;
    for (size_t i = 0; i < PARTS; i++) {
        send_part(&numbers, &habits, &c);
        expect(yields_complete(&c.come), "a part as it was sent: complete");
        alter_part(&numbers, &c);
        expect(is_altered_part(&c), "a part altered as Request 113 says");
        expect(!yields_complete(&c.come), "an altered part: no complete");
        every += count_altered(&c) == c.sent.count;
        start_whole += memcmp(c.sent.texts[0].bytes, c.come.texts[0].bytes, c.sent.texts[0].length) == 0;
    }
    expect(every >= PARTS / 5 && start_whole >= PARTS / 5, "both shares come often");
    for (size_t i = 0; i < PARTS / 30; i++)
        try_judge(&numbers, &habits, &c);
}

void try_alterations(expecter *told)
{
    expect = told;
    try_both_texts();
    try_end_text_alone();
    try_top();
    try_quality();
    try_intensity();
    try_twice();
    try_to_fd();
    try_by_chance();
}
