/* 01, "The receiver", with the marks of Request 101 and the minute of Request
   111: a plain automaton that takes one byte at a time. */
#ifndef SECOND_RECEIVER_H
#define SECOND_RECEIVER_H

#include "marks.h"
#include "texts.h"

/* 01's answers of the byte call on a grid of 20,000 bytes and a state that
   came from here: refusals 1 and 2 cannot arise. */
enum {
    QUIET = 0, BEGUN = 1, TAKEN = 2, COMPLETE = 3,
    OPENED_IN_TEXT = 11, NOT_DUE_BYTE = 12, NO_PICTURE_CODE = 13, NO_KIND = 14,
    START_IN_PART = 15, NOT_DUE_KIND = 16, OTHER_PICTURE = 17, RULE_BROKEN = 18,
    NO_BLOCK_END = 19, WRONG_CHECK = 20, NO_TEXT_END = 21, NOT_HIGHEST_MODE = 22,
    UNMARKED_PICTURE = 51,
    LAST_ANSWER = 51
};

enum { DUE_END = 11 };

struct receiver {
    uint32_t marks;     /* of make_fresh; nothing changes them */
    uint64_t seen;      /* the last five bytes, the latest in the lowest eight bits */
    unsigned seen_count; /* 0 to 5 */
    unsigned place;     /* 0 between texts, else bytes taken from FD on */
    uint8_t kind;       /* under way; 0 until read */
    uint8_t picture;    /* under way; 0 until read */
    int part;           /* the part open, or NO_PART */
    unsigned due;       /* 0, 1 to 10, or DUE_END */
    uint8_t check;      /* running check byte */
    uint8_t digits[TIME_DIGITS]; /* of a start text's time; "wait in the state
                                    until byte 23 and are 0 from then on" */
    struct header header;
    uint8_t modes[RADARS];
};

/* The lent grid.  Beyond `used` all bytes are 0, so that clearing costs no
   more than was written. */
struct grid {
    size_t used;
    uint8_t bytes[GRID_BYTES];
};

/* The number is the marks; with one beyond the twentieth there is none. */
void make_fresh(struct receiver *r, struct grid *grid, uint32_t number);
int receive_byte(struct receiver *r, struct grid *grid, uint8_t byte);

#endif
