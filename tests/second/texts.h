/* 01, "A text": codes, kinds, check byte and the rules of blocks, texts and
   parts; the quality bits have the sheet of request #107, and the time is a
   minute by request #111.  Second model, written from these papers alone. */
#ifndef SECOND_TEXTS_H
#define SECOND_TEXTS_H

#include "minutes.h"

#include <stdbool.h>
#include <stddef.h>
#include <stdint.h>

/* The parts by the numbers that 01's writer takes; a kind's high four bits
   are the same number. */
enum { NO_PART = 0, INTENSITY = 1, ECHO_TOP = 2, QUALITY = 3 };

enum {
    PICTURE_CODES = 20,
    RADAR_CODES = 21,
    RADARS = 8,
    TIME_BYTES = 16,   /* YYYY.MM.DD.hh.mm */
    CLOCKS = 16384,
    GRID_BYTES = 20000,
    CONTROL_BYTES = 5, /* 16 16 16 10 02 */
    OPENING_BYTES = 6, /* the control bytes and the FD */
    FRAME_BYTES = 8,   /* what a text has beside its block: 5 before, 3 after */
    SHORT_BLOCK = 32,  /* start and end block */
    LONGEST_TEXT = 2011,
    LONGEST_PART = 20190
};

/* Places in a block, as 01 counts them. */
enum {
    AT_PICTURE = 1, AT_KIND = 2, AT_RESERVED = 3, AT_STATUS_1 = 4, AT_STATUS_2 = 5,
    AT_CLOCK = 6, AT_TIME = 8, AT_TIME_LAST = 23, AT_RADARS = 24,
    AT_PAYLOAD = 3, AT_MODES = 3, AT_END_ZEROS = 11
};

enum { NO_ECHO_BIT = 0x08, MODE_BITS = 0x54, BLOCK_END = 0xFE, TEXT_END = 0xFF };

/* A quality byte: bits 0 to 6 name a cause each, this one is "cause unknown". */
enum { CAUSE_UNKNOWN = 0x80 };

extern const uint8_t OPENING[OPENING_BYTES];
extern const uint8_t PICTURES[PICTURE_CODES];
extern const uint8_t RADAR_LIST[RADAR_CODES];

/* A header as 01's receiver holds it; the writer takes it without the last two. */
struct header {
    uint8_t picture;
    uint16_t clock;
    int64_t minute;         /* of the time, from 1 January 2000, 00:00 */
    uint8_t radars[RADARS]; /* 0 where there is none */
    bool no_echo;
    uint8_t mode;           /* the mode of status 2, 1 to 3 */
};

bool is_picture_code(uint8_t byte);
bool is_radar_code(uint8_t byte);

/* Kinds. */
bool is_kind(uint8_t byte);
int part_of_kind(uint8_t kind);
bool is_start_kind(uint8_t kind);
bool is_end_kind(uint8_t kind);
size_t block_length(uint8_t kind);
size_t data_texts(int part, bool no_echo);
size_t payload_length(int part);

uint8_t check_byte(const uint8_t *block, size_t length);

/* 1 to 3 where exactly one of the three mode bits is set, else 0. */
int mode_of_byte(uint8_t byte);
uint8_t byte_of_mode(int mode);
int highest_mode(const uint8_t modes[RADARS]);

/* The digit (0 to 11) that stands at this place of YYYY.MM.DD.hh.mm; -1 for a stop. */
int digit_at(size_t time_place);

/* The minute of these 16 bytes; false, with *minute as it was, where a stop or a
   digit is none or the time is invalid. */
bool read_time(const uint8_t *time, int64_t *minute);

/* May this byte stand behind that one in the list of radar codes?  The first
   has nothing before it and must be a code. */
bool first_radar_allowed(uint8_t byte);
bool next_radar_allowed(uint8_t before, uint8_t byte);
bool radars_allowed(const uint8_t radars[RADARS]);

bool payload_byte_allowed(int part, uint8_t byte);
bool mode_byte_allowed(uint8_t radar, uint8_t byte);

/* Whole blocks, texts and parts, judged at one go and not byte by byte. */
bool start_block_undamaged(const uint8_t *block);
bool data_block_undamaged(const uint8_t *block);
bool end_block_undamaged(const uint8_t *block, const uint8_t radars[RADARS]);

/* The length of the undamaged part with which these bytes begin; 0 for none. */
size_t undamaged_part(const uint8_t *bytes, size_t length);

/* Puts clock, time and radar codes into a start block; the minute is one of
   years 0000 to 9999. */
void put_fields(uint8_t *block, const struct header *header);

/* Writes a text around a block; returns its length, the block's and 8. */
size_t put_text(uint8_t *out, const uint8_t *block, size_t length);

#endif
