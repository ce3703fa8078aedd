#include "bought.h"

#include "damage.h"
#include "draft.h"
#include "hostile.h"
#include "marks.h"

#include <stdio.h>
#include <stdlib.h>

/* All that a scene needs: which pictures are bought, and a part of one of them
   and one of another picture. */
struct market {
    struct numbers numbers;
    uint32_t bought; /* some of the twenty marks, neither none nor all */
    struct habits habits;
    struct bytes *stream;
    struct draft mine;
    struct draft other;
};

/* ---- picture codes ---- */

/* A listed code; the first and the last one often, whose marks are at the ends. */
static uint8_t some_code(struct market *m, bool marked)
{
    uint8_t code;
    do {
        code = one_of(&m->numbers, PICTURES, PICTURE_CODES);
        if (chance(&m->numbers, 30))
            code = PICTURES[chance(&m->numbers, 50) ? 0 : PICTURE_CODES - 1];
    } while (is_marked(m->bought, code) != marked);
    return code;
}

/* No picture code: bytes beside the listed ones, or any. */
static uint8_t unlisted_code(struct numbers *n)
{
    static const uint8_t beside[] = {0xBF, 0xC3, 0xC6, 0xC7, 0xCA, 0xCB, 0xCD, 0xD1, 0xD6, 0xDD,
                                     0xDF, 0xE2, 0xE6, 0xEF, 0xF2, 0xFD, 0xFE, 0xFF, 0x00, 0x16};
    uint8_t code;
    do
        code = chance(n, 70) ? one_of(n, beside, sizeof beside) : any_byte(n);
    while (is_picture_code(code));
    return code;
}

static void set_code(struct text *text, uint8_t code)
{
    block_of(text)[AT_PICTURE] = code;
    mend_check(text);
}

/* Makes the whole part one of this picture; it stays undamaged. */
static void set_picture(struct draft *draft, uint8_t code)
{
    draft->header.picture = code;
    for (size_t i = 0; i < draft->count; i++)
        set_code(&draft->texts[i], code);
}

static void draft_both(struct market *m)
{
    draft_part(&m->numbers, &m->habits, &m->mine);
    if (chance(&m->numbers, 50))
        draft_like(&m->numbers, &m->habits, &m->mine, &m->other);
    else
        draft_part(&m->numbers, &m->habits, &m->other);
    set_picture(&m->mine, some_code(m, true));
    set_picture(&m->other, some_code(m, false));
}

/* ---- scenes ---- */

static void add_texts(struct market *m, const struct draft *draft, size_t from, size_t to)
{
    for (size_t i = from; i < to; i++)
        add_bytes(m->stream, draft->texts[i].bytes, draft->texts[i].length);
}

/* The texts of the bought part up to one of them, often the start text alone,
   which leaves room for other parts: it stays open.  Returns how many. */
static size_t add_begun(struct market *m)
{
    size_t until = chance(&m->numbers, 50) ? 1 : between(&m->numbers, 1, m->mine.count - 1);
    add_texts(m, &m->mine, 0, until);
    return until;
}

/* Undamaged parts of both, in either order. */
static void parts_of_both(struct market *m)
{
    bool mine_first = chance(&m->numbers, 50);
    add_draft(m->stream, mine_first ? &m->mine : &m->other);
    add_draft(m->stream, mine_first ? &m->other : &m->mine);
}

/* A start text, or the whole part, of another picture in an open part, whose
   rest may be lost. */
static void other_part_inside(struct market *m)
{
    size_t until = add_begun(m);
    add_texts(m, &m->other, 0, chance(&m->numbers, 50) ? 1 : m->other.count);
    if (chance(&m->numbers, 50))
        add_texts(m, &m->mine, until, m->mine.count);
}

/* The other way round: the other part is not taken up, and so does not hinder
   the bought one. */
static void mine_inside_other(struct market *m)
{
    size_t until = between(&m->numbers, 1, m->other.count - 1);
    add_texts(m, &m->other, 0, until);
    add_draft(m->stream, &m->mine);
    add_texts(m, &m->other, until, m->other.count);
}

/* A bought part breaks off in its payload, where row 11 may come, and the other
   one follows. */
static void cut_short_by_other(struct market *m)
{
    struct bytes bytes = {0};
    add_draft(&bytes, &m->mine);
    add_bytes(m->stream, bytes.data, place_in_payload(&m->numbers, &m->mine));
    add_draft(m->stream, &m->other);
    free_bytes(&bytes);
}

/* One data or end text, now and then the start text, has another code under
   its right check byte: of another picture, of one bought too, or of none. */
static void text_of_other_picture(struct market *m)
{
    struct numbers *n = &m->numbers;
    size_t at = chance(n, 15) ? 0 : between(n, 1, m->mine.count - 1);
    uint8_t code;
    switch (below(n, 4)) {
    case 0: code = some_code(m, true); break;
    case 1: code = unlisted_code(n); break;
    default: code = some_code(m, false);
    }
    set_code(&m->mine.texts[at], code);
    add_draft(m->stream, &m->mine);
}

/* A code altered on the way, with the check byte of before. */
static void altered_code(struct market *m)
{
    struct numbers *n = &m->numbers;
    uint8_t *code = block_of(&m->mine.texts[below(n, m->mine.count)]) + AT_PICTURE;
    if (chance(n, 60))
        *code ^= (uint8_t)(1u << below(n, 8));
    else
        *code = chance(n, 50) ? some_code(m, false) : unlisted_code(n);
    add_draft(m->stream, &m->mine);
}

/* An opening and a code, with an opening right behind: that of a whole part or
   of an open part's next text.  A code that is not bought leaves no part open
   and no text under way. */
static void opening_behind_code(struct market *m)
{
    struct numbers *n = &m->numbers;
    size_t until = chance(n, 50) ? add_begun(m) : 0;
    add_bytes(m->stream, OPENING, OPENING_BYTES);
    add_byte(m->stream, some_code(m, chance(n, 20)));
    add_texts(m, &m->mine, chance(n, 50) ? until : 0, m->mine.count);
}

/* An opening's FD, or more of its end, where the code is due: that is no picture
   code.  No opening ends at that FD but where all six bytes are there; these
   start a text. */
static void fd_for_code(struct market *m)
{
    struct numbers *n = &m->numbers;
    size_t until = chance(n, 50) ? add_begun(m) : 0;
    add_bytes(m->stream, OPENING, OPENING_BYTES);
    size_t from = chance(n, 50) ? CONTROL_BYTES : below(n, OPENING_BYTES);
    add_bytes(m->stream, OPENING + from, OPENING_BYTES - from);
    if (chance(n, 50))
        add_byte(m->stream, some_code(m, chance(n, 50)));
    add_texts(m, &m->mine, chance(n, 30) ? until : 0, m->mine.count);
}

/* Any scene of the other hostile traffic. */
static void usual_scene(struct market *m)
{
    generate_with(next_number(&m->numbers), &m->habits, 1, m->stream);
}

/* ---- the stream ---- */

typedef void scene(struct market *);

struct share {
    scene *play;
    unsigned percent;
};

/* Together 100. */
static const struct share SHARES[] = {
    {usual_scene, 42},
    {text_of_other_picture, 12},
    {parts_of_both, 10},
    {other_part_inside, 8},
    {altered_code, 8},
    {opening_behind_code, 6},
    {cut_short_by_other, 5},
    {fd_for_code, 5},
    {mine_inside_other, 4},
};

static scene *some_scene(struct numbers *n)
{
    size_t ticket = below(n, 100), i = 0;
    while (ticket >= SHARES[i].percent)
        ticket -= SHARES[i++].percent;
    return SHARES[i].play;
}

/* ---- the numbers ---- */

/* So many of the twenty marks, anywhere. */
static uint32_t some_marks(struct numbers *n, size_t count)
{
    uint32_t marks = 0;
    while (marks_set(marks) < count)
        marks |= 1u << below(n, PICTURE_CODES);
    return marks;
}

static void add_four(struct bytes *out, uint32_t number)
{
    for (int shift = 24; shift >= 0; shift -= 8)
        add_byte(out, (uint8_t)(number >> shift));
}

/* What is bought, and the rest: a part that is marked for the one is unmarked
   for the other.  Then none and all, the first and the last code alone, and
   numbers beyond the twentieth, alone and beside good marks. */
static void add_numbers(struct numbers *n, uint32_t bought, struct bytes *out)
{
    const uint32_t beyond = ALL_MARKS + 1;
    const uint32_t numbers[] = {
        bought, ALL_MARKS ^ bought, 0, ALL_MARKS, 1, 1u << (PICTURE_CODES - 1),
        beyond, UINT32_MAX, beyond | bought, (uint32_t)next_number(n) & ALL_MARKS};
    const size_t count = sizeof numbers / sizeof numbers[0];
    add_byte(out, (uint8_t)count);
    for (size_t i = 0; i < count; i++)
        add_four(out, numbers[i]);
}

static struct market *open_market(uint64_t seed, struct bytes *stream)
{
    struct market *m = calloc(1, sizeof *m);
    if (m == NULL) {
        fprintf(stderr, "second: no memory\n");
        exit(2);
    }
    m->numbers.state = seed;
    m->bought = some_marks(&m->numbers, between(&m->numbers, 2, 8));
    m->habits.favourites[0] = some_code(m, true);
    m->habits.favourites[1] = some_code(m, true);
    m->habits.favourites[2] = some_code(m, false);
    m->stream = stream;
    return m;
}

size_t generate_marks(uint64_t seed, size_t length, struct bytes *out)
{
    size_t before = out->length;
    struct market *m = open_market(seed, out);
    add_numbers(&m->numbers, m->bought, out);
    size_t head = out->length - before;
    while (out->length - before < head + length) {
        draft_both(m);
        some_scene(&m->numbers)(m);
    }
    free(m);
    return head;
}
