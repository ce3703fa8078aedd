#include "outside_limits.h"

#include "critical_texts.h"

enum { LAST_DATA = 10 };

/* ---- two in one text ---- */

static void turn_both(struct text *text, size_t one, size_t two, uint8_t bits)
{
    text->bytes[one] ^= bits;
    text->bytes[two] ^= bits;
}

/* Bits that leave the start block undamaged, and the check byte or another byte
   that may have them turned too. */
static void twice_in_start(struct numbers *n, struct transfer *c)
{
    struct text *text = &c->come.texts[0];
    size_t check = text->length - 2, clock = CONTROL_BYTES + AT_CLOCK + below(n, 2);
    size_t status = CONTROL_BYTES + AT_STATUS_1;
    uint8_t bit = (uint8_t)(1u << below(n, 7));
    if (chance(n, 40))
        turn_both(text, clock, check, bit);
    else if (chance(n, 50))
        turn_both(text, status, check, bit & (uint8_t)~NO_ECHO_BIT);
    else
        turn_both(text, clock, status, bit & (uint8_t)~NO_ECHO_BIT);
}

/* A payload byte and the check byte, or two payload bytes. */
static void twice_in_data(struct numbers *n, struct transfer *c, size_t i)
{
    struct text *text = &c->come.texts[i];
    size_t first = CONTROL_BYTES + AT_PAYLOAD, last = text->length - 4;
    size_t one = between(n, first, last);
    size_t two = chance(n, 50) ? last + 2 : between(n, first, last);
    turn_both(text, one, two, (uint8_t)(1u << below(n, 8)));
}

/* A mode byte's bits without meaning, and the check byte or another mode byte. */
static void twice_in_end(struct numbers *n, struct transfer *c)
{
    struct text *text = &c->come.texts[c->come.count - 1];
    size_t one = CONTROL_BYTES + AT_MODES;
    size_t two = chance(n, 50) ? text->length - 2 : one + 1;
    turn_both(text, one, two, any_byte(n) & (uint8_t)~MODE_BITS);
}

/* Tried until the part is undamaged again. */
void alter_twice(struct numbers *n, struct transfer *c)
{
    do {
        size_t i = below(n, c->sent.count);
        c->come = c->sent;
        if (i == 0)
            twice_in_start(n, c);
        else if (i + 1 == c->sent.count)
            twice_in_end(n, c);
        else
            twice_in_data(n, c, i);
    } while (!is_undamaged(&c->come) || count_altered(c) != 2 || has_become_fd(c));
}

/* ---- one altered to FD ---- */

void alter_to_fd(struct numbers *n, const struct habits *habits, struct transfer *c)
{
    size_t at;
    do { /* until the picture is one that payload may have */
        draft_sort(n, habits, INTENSITY, false, &c->sent);
        at = critical_inner_start(n, &c->sent, LAST_DATA);
    } while (at == 0);
    c->come = c->sent;
    c->come.texts[LAST_DATA].bytes[at] = 0xFD;
    unsigned percent = chance(n, 40) ? 0 : chance(n, 50) ? 100 : 30;
    for (size_t i = 0; i < LAST_DATA; i++)
        if (chance(n, percent))
            hit_text(n, c, i);
}
