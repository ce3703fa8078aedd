#include "minutes_samples.h"

#include "bytes.h"
#include "receiver.h"
#include "time_limits.h"
#include "writer.h"

#include <stdio.h>
#include <string.h>

/* Figures worked by hand, so that minutes are not held against what they were
   worked out from. */
static const int64_t LEAST = -1051898400, GREATEST = 4207593599;
enum { S_MINUTE = -298790, PER_DAY = 1440 };

static expecter *expect;

/* ---- single times ---- */

struct pair {
    const char *time;
    int64_t minute;
};

static bool read_text(const char *time, int64_t *minute)
{
    return read_time((const uint8_t *)time, minute);
}

/* The digits of a time that is written out, without any judgement. */
static void split_text(const char *time, uint8_t digits[TIME_DIGITS])
{
    int done = 0;
    for (; *time != 0; time++)
        if (*time != '.')
            digits[done++] = (uint8_t)(*time - '0');
}

static void try_pair(const struct pair *pair)
{
    uint8_t wanted[TIME_DIGITS], got[TIME_DIGITS];
    int64_t minute = 7;
    split_text(pair->time, wanted);
    put_digits(pair->minute, got);
    expect(read_text(pair->time, &minute) && minute == pair->minute, pair->time);
    expect(is_minute(pair->minute) && memcmp(got, wanted, sizeof got) == 0, pair->time);
}

static void try_worked_minutes(void)
{
    static const struct pair pairs[] = {
        {"0000.01.01.00.00", -1051898400}, {"0000.02.29.00.00", -1051813440},
        {"1900.02.28.23.59", -52509601}, {"1900.03.01.00.00", -52509600},
        {"1987.08.15.12.15", -6510945}, {"1999.06.07.12.10", -298790},
        {"1999.12.31.23.59", -1}, {"2000.01.01.00.00", 0}, {"2000.01.01.00.01", 1},
        {"2000.02.29.00.00", 84960}, {"2000.03.01.00.00", 86400},
        {"2100.02.28.23.59", 52680959}, {"2100.03.01.00.00", 52680960},
        {"9999.12.31.23.59", 4207593599}};
    for (size_t i = 0; i < sizeof pairs / sizeof pairs[0]; i++)
        try_pair(&pairs[i]);
}

/* "Or invalid": no number is given then. */
static void try_invalid(void)
{
    static const char *const times[] = {
        "1999.02.29.00.00", "1900.02.29.00.00", "2100.02.29.23.59", "2000.02.30.00.00",
        "2000.00.01.00.00", "2000.13.01.00.00", "2000.01.00.00.00", "2000.01.32.00.00",
        "2000.01.01.24.00", "2000.01.01.00.60", "9999.99.99.99.99", "0000.00.00.00.00",
        "2000.01.01.00-00", "2000.01.01.00.:0", "2000.01.01.00./0", "2000:01.01.00.00"};
    for (size_t i = 0; i < sizeof times / sizeof times[0]; i++) {
        int64_t minute = 7;
        expect(!read_text(times[i], &minute) && minute == 7, times[i]);
    }
    for (int i = 0; i < TIME_DIGITS; i++) {
        uint8_t digits[TIME_DIGITS] = {2, 0, 0, 0, 0, 1, 0, 1, 0, 0, 0, 0};
        int64_t minute = 7;
        digits[i] = 10;
        expect(!minute_of(digits, &minute) && minute == 7, "a digit above 9");
    }
}

static void try_years(void)
{
    expect(is_minute(LEAST) && !is_minute(LEAST - 1), "the first minute of the years");
    expect(is_minute(GREATEST) && !is_minute(GREATEST + 1), "the last minute of the years");
    expect(is_minute(-1) && is_minute(0), "minutes -1 and 0");
    expect(!is_minute(INT64_MIN) && !is_minute(INT64_MAX), "numbers far from any year");
}

/* ---- every day ---- */

/* A calendar that is turned day by day, beside the count of minutes. */
struct calendar {
    int year, month, day;
    int64_t minute; /* 00:00 of that day */
};

static int last_day(const struct calendar *c)
{
    switch (c->month) {
    case 4: case 6: case 9: case 11: return 30;
    case 2: break;
    default: return 31;
    }
    if (c->year % 400 == 0)
        return 29;
    return c->year % 4 == 0 && c->year % 100 != 0 ? 29 : 28;
}

static void turn(struct calendar *c)
{
    c->minute += PER_DAY;
    if (c->day++ < last_day(c))
        return;
    c->day = 1;
    if (c->month++ < 12)
        return;
    c->month = 1;
    c->year++;
}

static void put_two(uint8_t *digits, int number)
{
    digits[0] = (uint8_t)(number / 10);
    digits[1] = (uint8_t)(number % 10);
}

static void put_all(uint8_t digits[TIME_DIGITS], const struct calendar *c, int of_hour, int of_minute)
{
    put_two(digits, c->year / 100);
    put_two(digits + 2, c->year % 100);
    put_two(digits + 4, c->month);
    put_two(digits + 6, c->day);
    put_two(digits + 8, of_hour);
    put_two(digits + 10, of_minute);
}

/* Both directions at a minute of this day. */
static bool both_right(const struct calendar *c, int of_day)
{
    uint8_t wanted[TIME_DIGITS], got[TIME_DIGITS];
    int64_t minute;
    put_all(wanted, c, of_day / 60, of_day % 60);
    put_digits(c->minute + of_day, got);
    return minute_of(wanted, &minute) && minute == c->minute + of_day && memcmp(got, wanted, sizeof got) == 0;
}

/* The months of a year have no other day than those of the calendar. */
static bool no_other_day(const struct calendar *c)
{
    struct calendar other = *c;
    uint8_t digits[TIME_DIGITS];
    int64_t minute;
    for (other.day = 0; other.day <= 99; other.day = other.day == 0 ? last_day(c) + 1 : other.day + 1) {
        put_all(digits, &other, 12, 30);
        if (minute_of(digits, &minute))
            return false;
    }
    return true;
}

/* All minutes of the days about a turn of the month, two of any other. */
static bool day_right(const struct calendar *c)
{
    bool turns = (c->day == 1 || c->day == last_day(c)) && (c->year % 100 == 0 || c->year % 400 == 399);
    for (int of_day = 0; of_day < PER_DAY; of_day += turns ? 1 : PER_DAY - 1)
        if (!both_right(c, of_day))
            return false;
    return c->day != 1 || no_other_day(c);
}

/* From the first day of the years to their last, told century by century. */
static void try_every_day(void)
{
    struct calendar c = {0, 1, 1, LEAST};
    while (c.year <= 9999) {
        int century = c.year / 100;
        bool right = true;
        for (; c.year / 100 == century; turn(&c))
            right = day_right(&c) && right;
        char what[60];
        snprintf(what, sizeof what, "each day of years %02d00 to %02d99", century, century);
        expect(right, what);
    }
    expect(c.minute == GREATEST + 1, "the years end with the last minute");
}

/* Hours and minutes of one day, all that two digits can write. */
static void try_hours(void)
{
    static const struct calendar c = {1987, 8, 15, -6510945 - 12 * 60 - 15};
    for (int of_hour = 0; of_hour <= 99; of_hour++) {
        bool right = true;
        for (int of_minute = 0; of_minute <= 99; of_minute++) {
            uint8_t digits[TIME_DIGITS];
            int64_t minute = 7, wanted = 7;
            bool valid = of_hour < 24 && of_minute < 60;
            if (valid)
                wanted = c.minute + 60 * of_hour + of_minute;
            put_all(digits, &c, of_hour, of_minute);
            right = minute_of(digits, &minute) == valid && minute == wanted && right;
        }
        expect(right, "the minutes of an hour");
    }
}

static void try_months(void)
{
    struct calendar c = {2000, 0, 1, 0};
    for (; c.month <= 99; c.month++) {
        uint8_t digits[TIME_DIGITS];
        int64_t minute;
        put_all(digits, &c, 0, 0);
        expect(minute_of(digits, &minute) == (c.month >= 1 && c.month <= 12), "a month of 2000");
    }
}

/* ---- digits that wait ---- */

/* S with another time, under its right check byte. */
static void put_s_at(uint8_t *out, const char *time)
{
    put_s(out);
    memcpy(out + CONTROL_BYTES + AT_TIME, time, TIME_BYTES);
    out[38] = check_byte(out + CONTROL_BYTES, SHORT_BLOCK);
}

static struct receiver r;
static struct grid grid;

static bool waits(const char *digits)
{
    uint8_t wanted[TIME_DIGITS] = {0};
    split_text(digits, wanted);
    return memcmp(r.digits, wanted, sizeof wanted) == 0;
}

/* What waits after each of the sixteen bytes, the rest being 0; at the last
   none.  1999.06.07.12.10 has 0 in two tens, which do not show. */
static const char *const WAITING[TIME_BYTES] = {
    "1", "19", "199", "1999", "1999", "1999", "199906", "199906",
    "199906", "19990607", "19990607", "199906071", "1999060712", "1999060712", "19990607121", ""};

/* S byte by byte: its byte 14 is block byte 8, which leaves place 9, and its byte
   29 is block byte 23, which leaves place 24. */
static void try_s_waiting(int answer_at_kind, const char *what)
{
    uint8_t s[64];
    put_s(s);
    for (size_t come = 1; come <= 40; come++) {
        int answer = receive_byte(&r, &grid, s[come - 1]);
        const char *waiting = come >= 14 && come <= 29 ? WAITING[come - 14] : "";
        expect(answer == (come == 8 ? answer_at_kind : come == 40 ? BEGUN : QUIET), what);
        expect(waits(waiting), what);
        expect(come == 40 || r.place == (come < 6 ? 0 : come - 5), what);
        if (come >= 8)
            expect(r.header.minute == (come < 29 ? 0 : S_MINUTE), what);
    }
}

/* Alone; then in its own open part, whose minute goes with the start kind; and
   with the end text, which leaves minute and digits as they are. */
static void try_waiting(void)
{
    uint8_t e[64];
    make_fresh(&r, &grid, ALL_MARKS);
    expect(r.header.minute == 0 && waits(""), "fresh: minute 0, and no digit waits");
    try_s_waiting(QUIET, "S byte by byte");
    try_s_waiting(START_IN_PART, "S in the part of S byte by byte");
    put_e(e);
    for (size_t i = 0; i < 40; i++) {
        int answer = receive_byte(&r, &grid, e[i]);
        expect(answer == (i == 39 ? COMPLETE : QUIET), "E behind S");
        expect(r.header.minute == S_MINUTE && waits(""), "E behind S: the minute stays");
    }
    try_s_waiting(QUIET, "S behind its part");
}

/* Is the state as after a drop, with nothing of the time left? */
static bool is_dropped(void)
{
    return r.place == 0 && r.kind == 0 && r.part == NO_PART && r.header.minute == 0 && waits("");
}

/* A byte that breaks its rule in place of each byte of the time, alone and in
   an open part; then S as ever. */
static void try_dropped_waiting(void)
{
    static const uint8_t wrong[] = {0x2F, 0x3A, 0x16, 0xFD, 0x00};
    uint8_t s[64];
    put_s(s);
    for (size_t come = 14; come <= 29; come++)
        for (size_t i = 0; i < sizeof wrong; i++) {
            make_fresh(&r, &grid, ALL_MARKS);
            if (i % 2 == 1)
                for (size_t j = 0; j < 40; j++)
                    receive_byte(&r, &grid, s[j]);
            for (size_t j = 0; j + 1 < come; j++)
                receive_byte(&r, &grid, s[j]);
            expect(waits(come == 14 ? "" : WAITING[come - 15]), "digits before the wrong byte");
            expect(receive_byte(&r, &grid, wrong[i]) == RULE_BROKEN, "a wrong byte in the time");
            expect(is_dropped(), "a wrong byte in the time leaves nothing");
            try_s_waiting(QUIET, "S behind a time that broke off");
        }
}

/* Each of the list in S: the digits wait as far as they have come; the minute
   stands from byte 23 on, or all is dropped there. */
static void try_limit(const struct time_limit *limit)
{
    uint8_t s[64];
    char come[TIME_BYTES + 1] = "";
    int64_t minute = 0;
    put_s_at(s, limit->text);
    expect(read_text(limit->text, &minute) == limit->valid, limit->text);
    make_fresh(&r, &grid, ALL_MARKS);
    for (size_t i = 0; i < 28; i++) {
        if (i >= CONTROL_BYTES + AT_TIME)
            come[i - CONTROL_BYTES - AT_TIME] = (char)s[i];
        expect(receive_byte(&r, &grid, s[i]) == QUIET && r.header.minute == 0 && waits(come), limit->text);
    }
    expect(receive_byte(&r, &grid, s[28]) == (limit->valid ? QUIET : RULE_BROKEN), limit->text);
    expect(limit->valid ? r.place == 24 && r.header.minute == minute && waits("") : is_dropped(), limit->text);
    for (size_t i = 29; i < 40; i++)
        expect(receive_byte(&r, &grid, s[i]) == (limit->valid && i == 39 ? BEGUN : QUIET), limit->text);
}

/* These bytes to a fresh receiver, all but the last quiet or a part begun: before
   the last the minute stands, and after it no more. */
static void expect_dropped(const struct bytes *bytes, int answer, const char *what)
{
    size_t last = bytes->length - 1;
    make_fresh(&r, &grid, ALL_MARKS);
    for (size_t i = 0; i < last; i++)
        receive_byte(&r, &grid, bytes->data[i]);
    expect(r.header.minute == S_MINUTE, what);
    expect(receive_byte(&r, &grid, bytes->data[last]) == answer, what);
    expect(r.header.minute == 0 && r.part == NO_PART && waits(""), what);
}

/* Rows 20, 12, 22 and 11, which come when byte 23 is long past: the minute goes
   with all else. */
static void try_dropped_minute(void)
{
    static const uint8_t control[] = {0x31, 0x16, 0x16, 0x16, 0x10, 0x02, 0xFD}; /* a quality text's */
    uint8_t s[64], e[64];
    struct bytes bytes = {0};
    put_s(s);
    put_e(e);
    add_bytes(&bytes, s, 38);
    add_byte(&bytes, 0x4E);
    expect_dropped(&bytes, WRONG_CHECK, "S with a wrong check byte");
    bytes.length = 0;
    add_bytes(&bytes, s, 40);
    add_byte(&bytes, 0x00);
    expect_dropped(&bytes, NOT_DUE_BYTE, "S and a byte that is not due");
    e[CONTROL_BYTES + AT_MODES] = 0x10;
    e[38] ^= 0x04 ^ 0x10;
    bytes.length = 40;
    add_bytes(&bytes, e, 40);
    expect_dropped(&bytes, NOT_HIGHEST_MODE, "S and an end text of mode 2");
    bytes.length = 40;
    bytes.data[CONTROL_BYTES + AT_KIND] = 0x30;
    bytes.data[38] ^= 0x10 ^ 0x30;
    add_bytes(&bytes, s, 7);
    add_bytes(&bytes, control, sizeof control);
    expect_dropped(&bytes, OPENED_IN_TEXT, "an opening in the payload of quality");
    free_bytes(&bytes);
}

/* ---- the writer ---- */

/* S and E as the writer makes them, but for the minute. */
static int write_at(int64_t minute, int part, size_t payload, size_t room, uint8_t *out, size_t *length)
{
    static const uint8_t modes[RADARS] = {1}, zeros[GRID_BYTES];
    const struct header header = {.picture = 0xCC, .clock = 9983, .minute = minute, .radars = {0xA5}};
    struct writing what = {part, &header, modes, zeros, payload};
    return write_part(&what, out, room, length);
}

/* "The written bytes are those of before", and they read back. */
static void try_written(const char *time)
{
    uint8_t wanted[80], out[80] = {0};
    int64_t minute = 0;
    size_t length;
    put_s_at(wanted, time);
    put_e(wanted + 40);
    read_text(time, &minute);
    expect(write_at(minute, INTENSITY, 20000, sizeof out, out, &length) == WRITTEN && length == 80, time);
    expect(memcmp(out, wanted, sizeof out) == 0, time);
    make_fresh(&r, &grid, ALL_MARKS);
    int answer = QUIET;
    for (size_t i = 0; i < sizeof out; i++)
        answer = receive_byte(&r, &grid, out[i]);
    expect(answer == COMPLETE && r.header.minute == minute, time);
}

/* 32 stands behind 31 and before 33 and 34, and leaves the output alone. */
static void try_refused(int64_t minute)
{
    static const struct {
        int part;
        size_t payload, room;
        int refusal;
    } tries[] = {{INTENSITY, 20000, 80, WRONG_HEADER}, {4, 20000, 80, WRONG_PART},
                 {INTENSITY, 19999, 80, WRONG_HEADER}, {INTENSITY, 20000, 79, WRONG_HEADER}};
    for (size_t i = 0; i < sizeof tries / sizeof tries[0]; i++) {
        uint8_t out[80], before[80];
        size_t length = 7;
        memset(out, 0xA5, sizeof out);
        memset(before, 0xA5, sizeof before);
        int refusal = write_at(minute, tries[i].part, tries[i].payload, tries[i].room, out, &length);
        expect(refusal == tries[i].refusal && length == 0, "a minute outside years 0000 to 9999");
        expect(memcmp(out, before, sizeof out) == 0, "such a minute leaves the output alone");
    }
}

static void try_writer(void)
{
    const int64_t outside[] = {LEAST - 1, GREATEST + 1, INT64_MIN, INT64_MAX, LEAST - PER_DAY,
                               GREATEST + PER_DAY, -((int64_t)1 << 32), ((int64_t)1 << 32)};
    for (size_t i = 0; i < sizeof outside / sizeof outside[0]; i++)
        try_refused(outside[i]);
    for (size_t i = 0; i < time_limits(); i++)
        if (time_limit(i)->valid)
            try_written(time_limit(i)->text);
}

void try_minutes(expecter *told)
{
    expect = told;
    try_worked_minutes();
    try_invalid();
    try_years();
    try_every_day();
    try_hours();
    try_months();
    try_waiting();
    try_dropped_waiting();
    for (size_t i = 0; i < time_limits(); i++)
        try_limit(time_limit(i));
    try_dropped_minute();
    try_writer();
}
