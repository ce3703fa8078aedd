/* Damage of every sort that 01's table has a row for. */
#ifndef SECOND_DAMAGE_H
#define SECOND_DAMAGE_H

#include "bytes.h"
#include "draft.h"

/* A field breaks its rule while the check byte is made right again; now and
   then a closing byte is wrong too. */
void damage_field(struct numbers *n, struct draft *draft);

/* A quality part has a byte on either side of a limit of its sheet, under a
   right check byte or a wrong one. */
void damage_quality(struct numbers *n, struct draft *draft);

/* The start text has this time, YYYY.MM.DD.hh.mm, under its right check byte. */
void set_time(struct draft *draft, const char *time);

/* Whole texts lost, doubled, swapped, or taken from another part. */
void damage_order(struct numbers *n, struct draft *draft, const struct draft *other);

/* The texts of a draft, byte upon byte. */
void add_draft(struct bytes *to, const struct draft *draft);

/* Bytes lost, doubled, altered, put in, cut off.  The bytes are the draft's. */
void damage_bytes(struct numbers *n, const struct draft *draft, struct bytes *bytes);

/* A place inside the payload of one of the draft's data texts; 0 for none. */
size_t place_in_payload(struct numbers *n, const struct draft *draft);

/* Bytes that a text is made of, and so likely to lead a receiver astray. */
uint8_t likely_byte(struct numbers *n);

/* Near-openings: cut, doubled, without FD, with a 16 too many. */
void add_near_opening(struct numbers *n, struct bytes *to);

#endif
