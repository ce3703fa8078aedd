/* Request 113: "an undamaged part with at least one altered byte, at most one in
   each text, and none altered to FD, given to a fresh receiver, yields no
   complete". */
#ifndef SECOND_ALTERED_H
#define SECOND_ALTERED_H

#include "draft.h"

/* A part as it was sent and as it has come. */
struct transfer {
    struct draft sent; /* undamaged */
    struct draft come; /* the same, with bytes altered */
};

/* A part of any sort, intensity with data texts more often than elsewhere, that
   has come as it was sent. */
void send_part(struct numbers *n, const struct habits *habits, struct transfer *c);

/* Alters what has come as it was sent, by the request's words.  What was sent
   may become another undamaged part of its sort, where a text is made a critical one. */
void alter_part(struct numbers *n, struct transfer *c);

/* Alters one byte of text i, which has come as it was sent, and not to FD. */
void hit_text(struct numbers *n, struct transfer *c, size_t i);

/* How many bytes have come otherwise than they were sent, and whether one of
   these has come as FD. */
size_t count_altered(const struct transfer *c);
bool has_become_fd(const struct transfer *c);

/* Undamaged, by the papers' definition and without a receiver. */
bool is_undamaged(const struct draft *draft);

/* The request's words, judged by what was sent and what has come. */
bool is_altered_part(const struct transfer *c);

#endif
