#include "samples.h"

#include "altered_samples.h"
#include "bytes.h"
#include "countdown.h"
#include "marks_samples.h"
#include "minutes_samples.h"
#include "receiver.h"
#include "services.h"
#include "texts.h"
#include "writer.h"

#include <stdio.h>
#include <string.h>

static int right_count, wrong_count;

static void expect(bool right, const char *what)
{
    if (right) {
        right_count++;
    } else {
        wrong_count++;
        fprintf(stderr, "samples: wrong: %s\n", what);
    }
}

/* ---- the texts of the samples ---- */

size_t put_s(uint8_t *out)
{
    static const uint8_t head[] = {0xFD, 0xCC, 0x10, 0x00, 0x08, 0x04, 0x4D, 0x7F};
    uint8_t block[SHORT_BLOCK] = {0};
    memcpy(block, head, sizeof head);
    memcpy(block + AT_TIME, "1999.06.07.12.10", TIME_BYTES);
    block[AT_RADARS] = 0xA5;
    return put_text(out, block, sizeof block);
}

size_t put_e(uint8_t *out)
{
    static const uint8_t head[] = {0xFD, 0xCC, 0x1F, 0x04};
    uint8_t block[SHORT_BLOCK] = {0};
    memcpy(block, head, sizeof head);
    return put_text(out, block, sizeof block);
}

/* ---- rows marked P ---- */

static bool time_valid(const char *text)
{
    int64_t minute;
    return read_time((const uint8_t *)text, &minute);
}

static void try_times_and_payload(void)
{
    expect(time_valid("1987.08.15.12.15"), "1987.08.15.12.15 valid");
    expect(time_valid("2000.02.29.00.00"), "29 February valid in 2000");
    expect(!time_valid("1999.02.29.00.00"), "29 February invalid in 1999");
    expect((0x1E >> 4) == 1 && (0x1E & 0x0F) == 14, "1E is levels 1 and 14");
    expect(payload_byte_allowed(INTENSITY, 0xEE), "EE allowed");
    expect(!payload_byte_allowed(INTENSITY, 0xEF), "EF not");
    expect(!payload_byte_allowed(INTENSITY, 0xF0), "F0 not");
    expect(payload_byte_allowed(ECHO_TOP, 0x08), "top 08 allowed");
    expect(!payload_byte_allowed(ECHO_TOP, 0x09), "top 09 not");
}

/* Request #107: "Of the samples, 40 and 41 are now both allowed, 80 is allowed,
   81 is not .. no payload byte becomes FD, FE or FF." */
static void try_quality_sheet(void)
{
    expect(payload_byte_allowed(QUALITY, 0x05), "quality 05 allowed");
    expect(payload_byte_allowed(QUALITY, 0x40), "quality 40 allowed");
    expect(payload_byte_allowed(QUALITY, 0x41), "quality 41 allowed");
    expect(payload_byte_allowed(QUALITY, 0x7F), "quality 7F allowed");
    expect(payload_byte_allowed(QUALITY, 0x80), "quality 80 allowed");
    expect(!payload_byte_allowed(QUALITY, 0x81), "quality 81 not");
    expect(!payload_byte_allowed(QUALITY, 0xC0), "quality C0 not");
    expect(!payload_byte_allowed(QUALITY, 0xFD), "quality FD not");
    expect(!payload_byte_allowed(QUALITY, 0xFE), "quality FE not");
    expect(!payload_byte_allowed(QUALITY, 0xFF), "quality FF not");
}

static void try_modes_and_radars(void)
{
    static const uint8_t up[RADARS] = {1, 2, 3}, two[RADARS] = {2, 1, 1, 1};
    static const uint8_t rising[RADARS] = {0xA3, 0xA5}, falling[RADARS] = {0xA5, 0xA3};
    static const uint8_t equal[RADARS] = {0xA5, 0xA5}, unknown[RADARS] = {0xA6};
    expect(byte_of_mode(highest_mode(up)) == 0x40, "modes 1, 2, 3 give 40");
    expect(byte_of_mode(highest_mode(two)) == 0x10, "modes 2, 1, 1, 1 give 10");
    expect(radars_allowed(rising), "radars A3 A5 valid");
    expect(!radars_allowed(falling), "radars A5 A3 not");
    expect(!radars_allowed(equal), "radars A5 A5 not");
    expect(!radars_allowed(unknown), "radar A6 not");
}

static void try_check_bytes(void)
{
    uint8_t text[64];
    size_t length = put_e(text);
    expect(length == 40 && text[38] == 0xD4, "end block has check byte D4");
    length = put_s(text);
    expect(length == 40 && text[38] == 0x4F, "start block has check byte 4F");
    expect((text[11] << 7 | text[12]) == 9983, "clock 9,983 is 4D 7F");
}

/* ---- listening ---- */

/* What the listening program prints, in a string. */
static void listen_to(const struct bytes *bytes, char *out, size_t room)
{
    static struct grid grid;
    struct receiver r;
    size_t done = 0;
    make_fresh(&r, &grid, ALL_MARKS);
    out[0] = 0;
    for (size_t i = 0; i < bytes->length; i++) {
        int answer = receive_byte(&r, &grid, bytes->data[i]);
        if (answer != QUIET && done < room)
            done += (size_t)snprintf(out + done, room - done, "%zu %d\n", i + 1, answer);
    }
}

static void expect_answers(struct bytes *bytes, const char *wanted, const char *what)
{
    char got[400];
    listen_to(bytes, got, sizeof got);
    expect(strcmp(got, wanted) == 0, what);
    bytes->length = 0;
}

static void try_listening(void)
{
    uint8_t s[64], e[64];
    struct bytes bytes = {0};
    put_s(s);
    put_e(e);
    add_bytes(&bytes, s, 40);
    add_bytes(&bytes, e, 40);
    expect(undamaged_part(bytes.data, bytes.length) == 80, "S and the end text are an undamaged part");
    expect_answers(&bytes, "40 1\n80 3\n", "S and the end text");
    add_bytes(&bytes, s, 40);
    add_bytes(&bytes, s, 40);
    expect_answers(&bytes, "40 1\n48 15\n80 1\n", "S twice");
    add_bytes(&bytes, s, 20);
    add_bytes(&bytes, s, 40);
    expect_answers(&bytes, "21 18\n60 1\n", "20 bytes of S, then S");
    free_bytes(&bytes);
}

/* ---- misreadings ---- */

static void try_openings(void)
{
    static const uint8_t idle[] = {0x16, 0xFF};
    uint8_t s[64], e[64];
    struct bytes bytes = {0};
    put_s(s);
    put_e(e);
    add_bytes(&bytes, OPENING, CONTROL_BYTES); /* no FD: free bytes, no event */
    add_bytes(&bytes, s, 40);
    expect_answers(&bytes, "45 1\n", "five control bytes are no opening");
    add_bytes(&bytes, s, 40); /* a 16 too many in an open part */
    add_bytes(&bytes, idle, 1);
    add_bytes(&bytes, e, 40);
    expect_answers(&bytes, "40 1\n44 12\n49 16\n", "a fourth 16 with a part open");
    add_bytes(&bytes, s, 40); /* free bytes are not free there */
    add_bytes(&bytes, idle + 1, 1);
    expect_answers(&bytes, "40 1\n41 12\n", "a byte between the texts of a part");
    add_bytes(&bytes, s, 8); /* bytes lost: no skipping by length */
    add_bytes(&bytes, OPENING, OPENING_BYTES);
    add_bytes(&bytes, s + 6, 34);
    expect_answers(&bytes, "9 18\n48 1\n", "an opening after lost bytes");
    free_bytes(&bytes);
}

/* Status 1 sets no echo and idle bits so that S has check byte FD. */
static void try_check_byte_fd(void)
{
    uint8_t s[64], e[64];
    struct bytes bytes = {0};
    put_s(s);
    put_e(e);
    s[5 + AT_STATUS_1] ^= (0x4F ^ 0xFD) & ~NO_ECHO_BIT;
    s[38] = check_byte(s + 5, SHORT_BLOCK);
    expect(s[38] == 0xFD, "S with check byte FD");
    add_bytes(&bytes, s, 40);
    add_bytes(&bytes, e, 40);
    expect_answers(&bytes, "40 1\n80 3\n", "FD as a check byte opens nothing");
    free_bytes(&bytes);
}

/* ---- quality parts ---- */

enum {
    QUALITY_PART = 191,
    QUALITY_PAYLOAD = 100,
    QUALITY_FROM = SHORT_BLOCK + FRAME_BYTES + CONTROL_BYTES + AT_PAYLOAD, /* payload in the part */
    QUALITY_CHECK = QUALITY_FROM + QUALITY_PAYLOAD + 1
};

/* The writer on a quality payload, with one header and one mode. */
static int put_quality(uint8_t *out, const uint8_t *payload, size_t *length)
{
    static const struct header header = {
        .picture = 0xF1, .clock = 9983, .minute = -1051898400, .radars = {0xB6}}; /* 0000.01.01.00.00 */
    static const uint8_t modes[RADARS] = {1};
    struct writing what = {QUALITY, &header, modes, payload, QUALITY_PAYLOAD};
    return write_part(&what, out, QUALITY_PART, length);
}

/* A quality part with NO ECHO set still has its data text. */
static void try_quality_no_echo(void)
{
    static const uint8_t payload[QUALITY_PAYLOAD] = {0x80, 0x16, 0x16, 0x16, 0x10, 0x02};
    uint8_t part[QUALITY_PART];
    struct bytes bytes = {0};
    size_t length;
    expect(put_quality(part, payload, &length) == WRITTEN && length == QUALITY_PART, "a quality part");
    part[5 + AT_STATUS_1] |= NO_ECHO_BIT;
    part[38] ^= NO_ECHO_BIT;
    add_bytes(&bytes, part, sizeof part);
    expect_answers(&bytes, "40 1\n151 2\n191 3\n", "quality with NO ECHO keeps its data text");
    free_bytes(&bytes);
}

/* ---- every byte in a quality payload ---- */

enum { MIDDLE = 50 };

/* The part of zeros with this byte in the middle of its payload, under its
   right check byte, whatever the sheet says of it. */
static void make_quality(uint8_t *part, uint8_t byte)
{
    static const uint8_t zeros[QUALITY_PAYLOAD];
    size_t length;
    put_quality(part, zeros, &length);
    part[QUALITY_FROM + MIDDLE] = byte;
    part[QUALITY_CHECK] ^= byte;
}

static void try_quality_written(uint8_t byte, bool allowed, const char *what)
{
    uint8_t payload[QUALITY_PAYLOAD] = {[MIDDLE] = byte};
    uint8_t out[QUALITY_PART], wanted[QUALITY_PART];
    size_t length;
    memset(out, 0xA5, sizeof out);
    memset(wanted, 0xA5, sizeof wanted); /* a refusal leaves the output alone */
    if (allowed)
        make_quality(wanted, byte);
    int refusal = put_quality(out, payload, &length);
    expect(refusal == (allowed ? WRITTEN : WRONG_PAYLOAD), what);
    expect(length == (allowed ? QUALITY_PART : 0) && memcmp(out, wanted, sizeof out) == 0, what);
}

static void try_quality_received(uint8_t byte, bool allowed, const char *what)
{
    uint8_t part[QUALITY_PART];
    struct bytes bytes = {0};
    make_quality(part, byte);
    expect(undamaged_part(part, sizeof part) == (allowed ? QUALITY_PART : 0), what);
    add_bytes(&bytes, part, sizeof part);
    expect_answers(&bytes, allowed ? "40 1\n151 2\n191 3\n" : "40 1\n99 18\n159 16\n", what);
    part[QUALITY_CHECK] ^= 0x01; /* a forbidden byte is met before the check byte */
    add_bytes(&bytes, part, sizeof part);
    expect_answers(&bytes, allowed ? "40 1\n150 20\n159 16\n" : "40 1\n99 18\n159 16\n", what);
    free_bytes(&bytes);
}

/* A received part written again: nothing in it is without meaning, so it comes
   back byte for byte. */
static void try_quality_rewritten(uint8_t byte, const char *what)
{
    static struct grid grid;
    struct receiver r;
    uint8_t part[QUALITY_PART], out[QUALITY_PART] = {0};
    size_t length;
    make_quality(part, byte);
    make_fresh(&r, &grid, ALL_MARKS);
    for (size_t i = 0; i < sizeof part; i++)
        receive_byte(&r, &grid, part[i]);
    struct writing again = {QUALITY, &r.header, r.modes, grid.bytes, QUALITY_PAYLOAD};
    expect(write_part(&again, out, sizeof out, &length) == WRITTEN, what);
    expect(memcmp(out, part, sizeof out) == 0, what);
}

/* Writer, receiver, the part judged at one go and rewriting have one sheet. */
static void try_quality_bytes(void)
{
    for (unsigned byte = 0x00; byte <= 0xFF; byte++) {
        bool allowed = byte <= 0x7F || byte == 0x80;
        char what[40];
        snprintf(what, sizeof what, "quality %02X in a part", byte);
        try_quality_written((uint8_t)byte, allowed, what);
        try_quality_received((uint8_t)byte, allowed, what);
        if (allowed)
            try_quality_rewritten((uint8_t)byte, what);
    }
}

/* ---- bytes left ---- */

/* What is left after all these bytes. */
static size_t left_after(const struct bytes *bytes)
{
    static struct grid grid;
    struct receiver r;
    make_fresh(&r, &grid, ALL_MARKS);
    for (size_t i = 0; i < bytes->length; i++)
        receive_byte(&r, &grid, bytes->data[i]);
    return bytes_left(&r);
}

/* Every figure of S behind these bytes: its eighth byte is the kind. */
static void expect_s_counts(struct bytes *bytes, const char *what)
{
    uint8_t s[64];
    put_s(s);
    for (size_t come = 1; come <= 40; come++) {
        add_byte(bytes, s[come - 1]);
        expect(left_after(bytes) == (come < 8 ? 0 : 40 - come), what);
    }
}

/* Row 15, where this text goes on, and row 18, where all is dropped. */
static void try_left_of_s(void)
{
    uint8_t s[64];
    struct bytes bytes = {0};
    expect(left_after(&bytes) == 0, "nothing is left of nothing");
    expect_s_counts(&bytes, "bytes left of S");
    expect_s_counts(&bytes, "bytes left of S behind S");
    bytes.length = 0;
    put_s(s);
    add_bytes(&bytes, s, 20);
    expect(left_after(&bytes) == 20, "bytes left after 20 bytes of S");
    expect_s_counts(&bytes, "bytes left of S behind 20 bytes of S");
    free_bytes(&bytes);
}

/* Row 11: an opening in a quality payload, after which the kind is not yet read. */
static void try_left_at_opening(void)
{
    static const uint8_t payload[QUALITY_PAYLOAD] = {0x16, 0x16, 0x16, 0x10, 0x02};
    static const uint8_t again[] = {0xFD, 0xF1, 0x30};
    static const size_t wanted[] = {0, 0, 32};
    uint8_t part[QUALITY_PART];
    struct bytes bytes = {0};
    size_t length;
    put_quality(part, payload, &length);
    add_bytes(&bytes, part, QUALITY_FROM + CONTROL_BYTES);
    expect(left_after(&bytes) == 98, "95 payload bytes and three are left");
    for (size_t i = 0; i < sizeof again; i++) {
        add_byte(&bytes, again[i]);
        expect(left_after(&bytes) == wanted[i], "bytes left after an opening in a payload");
    }
    free_bytes(&bytes);
}

int run_samples(void)
{
    try_times_and_payload();
    try_quality_sheet();
    try_modes_and_radars();
    try_check_bytes();
    try_listening();
    try_openings();
    try_check_byte_fd();
    try_quality_no_echo();
    try_quality_bytes();
    try_left_of_s();
    try_left_at_opening();
    try_minutes(expect);
    try_countdown(expect);
    try_marks(expect);
    try_alterations(expect);
    if (wrong_count == 0)
        printf("samples: %d right\n", right_count);
    return wrong_count == 0 ? 0 : 1;
}
