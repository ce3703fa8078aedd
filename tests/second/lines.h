/* Lines of words and decimal numbers: what the programs print of an answer, and
   of the part that is held after answer 3. */
#ifndef SECOND_LINES_H
#define SECOND_LINES_H

#include "bytes.h"
#include "receiver.h"

/* One answer other than 0: after how many bytes, of which part, with what held. */
struct event {
    unsigned long long offset;
    int answer;
    int part; /* the part open before the byte; the one completed at answer 3 */
    const struct receiver *receiver;
    const struct grid *grid;
};

/* The character and the number, without printf's cost: a grid may have 20,000 runs. */
void add_number(struct bytes *text, char before, unsigned long long number);
void add_signed(struct bytes *text, char before, int64_t number);
void add_word(struct bytes *text, const char *word);

/* Bytes so far and the answer, behind the word that names the call; after
   answer 3 the lines `held` and `grid`. */
void add_event(struct bytes *text, const struct event *event);

#endif
