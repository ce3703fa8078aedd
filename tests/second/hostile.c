#include "hostile.h"

#include "damage.h"
#include "draft.h"
#include "time_limits.h"

#include <stdio.h>
#include <stdlib.h>
#include <string.h>

/* All that a scene needs: numbers, the stream, and two parts to play with. */
struct stage {
    struct numbers numbers;
    struct habits habits;
    struct bytes *stream;
    size_t limit; /* of the times at limits, the next one */
    struct draft one;
    struct draft two;
};

/* ---- scenes ---- */

static void whole_part(struct stage *s)
{
    add_draft(s->stream, &s->one);
}

static void part_with_wrong_field(struct stage *s)
{
    damage_field(&s->numbers, &s->one);
    add_draft(s->stream, &s->one);
}

/* The limits of the quality sheet are single bytes out of 256, which chance
   would seldom meet; a quality part is short, so a few go together. */
static void quality_at_limits(struct stage *s)
{
    for (size_t i = between(&s->numbers, 2, 4); i > 0; i--) {
        draft_quality(&s->numbers, &s->habits, &s->one);
        damage_quality(&s->numbers, &s->one);
        add_draft(s->stream, &s->one);
    }
}

/* A short part: without data texts, or of quality now and then. */
static void draft_short(struct stage *s)
{
    struct numbers *n = &s->numbers;
    if (chance(n, 10))
        draft_quality(n, &s->habits, &s->one);
    else
        draft_sort(n, &s->habits, chance(n, 50) ? INTENSITY : ECHO_TOP, true, &s->one);
}

/* Breaks off in its time, where digits wait, or right behind it; what comes next
   is no byte of either. */
static void time_cut_short(struct stage *s)
{
    size_t until = CONTROL_BYTES + between(&s->numbers, AT_TIME + 1, AT_TIME_LAST + 1);
    draft_short(s);
    add_bytes(s->stream, s->one.texts[0].bytes, until);
}

/* A limit of the time is a single minute, which chance would not meet: the list
   is gone through, a stretch of it each time. */
static void times_at_limits(struct stage *s)
{
    for (size_t i = between(&s->numbers, 8, 14); i > 0; i--) {
        if (chance(&s->numbers, 10))
            time_cut_short(s);
        draft_short(s);
        set_time(&s->one, time_limit(s->limit++)->text);
        add_draft(s->stream, &s->one);
    }
}

/* The second part is a near relation or any other one. */
static void draft_second(struct stage *s, unsigned percent_alike)
{
    if (chance(&s->numbers, percent_alike))
        draft_like(&s->numbers, &s->habits, &s->one, &s->two);
    else
        draft_part(&s->numbers, &s->habits, &s->two);
}

static void part_with_wrong_order(struct stage *s)
{
    draft_second(s, 40);
    damage_order(&s->numbers, &s->one, &s->two);
    add_draft(s->stream, &s->one);
}

static void part_with_wrong_bytes(struct stage *s)
{
    struct bytes bytes = {0};
    add_draft(&bytes, &s->one);
    for (size_t i = chance(&s->numbers, 70) ? 1 : between(&s->numbers, 2, 5); i > 0; i--)
        damage_bytes(&s->numbers, &s->one, &bytes);
    add_bytes(s->stream, bytes.data, bytes.length);
    free_bytes(&bytes);
}

/* Row 11 arises only where payload allows 16, 10 and 02: a data text breaks
   off in its payload, and an opening, a near-opening or a whole part follows. */
static void payload_cut_short(struct stage *s)
{
    struct bytes bytes = {0};
    add_draft(&bytes, &s->one);
    size_t at = place_in_payload(&s->numbers, &s->one);
    if (chance(&s->numbers, 30)) { /* the five bytes stand in the payload, FD falls behind them */
        size_t from = at > 2 * OPENING_BYTES ? at - CONTROL_BYTES : at;
        memcpy(bytes.data + from, OPENING, OPENING_BYTES);
        add_bytes(s->stream, bytes.data, bytes.length);
    } else {
        add_bytes(s->stream, bytes.data, at);
        if (chance(&s->numbers, 30))
            add_near_opening(&s->numbers, s->stream);
        draft_second(s, 50);
        add_draft(s->stream, &s->two);
    }
    free_bytes(&bytes);
}

/* Begins as one part and goes on as another: lost bytes in a real stream. */
static void spliced_parts(struct stage *s)
{
    struct bytes first = {0}, second = {0};
    draft_second(s, 60);
    add_draft(&first, &s->one);
    add_draft(&second, &s->two);
    size_t until = below(&s->numbers, first.length);
    size_t from = below(&s->numbers, second.length);
    if (chance(&s->numbers, 40) && until < second.length)
        from = until; /* the seam keeps the place */
    add_bytes(s->stream, first.data, until);
    add_bytes(s->stream, second.data + from, second.length - from);
    free_bytes(&first);
    free_bytes(&second);
}

/* Each text from one of two like parts: undamaged where radars and modes agree. */
static void parts_gone_together(struct stage *s)
{
    draft_like(&s->numbers, &s->habits, &s->one, &s->two);
    for (size_t i = 0; i < s->one.count; i++)
        if (chance(&s->numbers, 50))
            s->one.texts[i] = s->two.texts[i];
    add_draft(s->stream, &s->one);
}

/* Texts of one part between those of another. */
static void interleaved_texts(struct stage *s)
{
    size_t first = 0, second = 0;
    draft_second(s, 50);
    while (first < s->one.count || second < s->two.count) {
        bool from_first = second == s->two.count || (first < s->one.count && chance(&s->numbers, 60));
        const struct text *text = from_first ? &s->one.texts[first++] : &s->two.texts[second++];
        add_bytes(s->stream, text->bytes, text->length);
    }
}

/* Bytes of one part between those of another. */
static void interleaved_bytes(struct stage *s)
{
    struct bytes each[2] = {{0}, {0}};
    size_t done[2] = {0, 0}, longest = chance(&s->numbers, 50) ? 8 : 120;
    draft_second(s, 50);
    add_draft(&each[0], &s->one);
    add_draft(&each[1], &s->two);
    while (done[0] < each[0].length || done[1] < each[1].length) {
        size_t from = below(&s->numbers, 2);
        size_t count = between(&s->numbers, 1, longest), left = each[from].length - done[from];
        count = count < left ? count : left;
        add_bytes(s->stream, each[from].data + done[from], count);
        done[from] += count;
    }
    free_bytes(&each[0]);
    free_bytes(&each[1]);
}

/* Something between the texts of an open part. */
static void part_with_gaps(struct stage *s)
{
    for (size_t i = 0; i < s->one.count; i++) {
        add_bytes(s->stream, s->one.texts[i].bytes, s->one.texts[i].length);
        if (!chance(&s->numbers, 50))
            continue;
        if (chance(&s->numbers, 60))
            add_near_opening(&s->numbers, s->stream);
        else
            add_byte(s->stream, likely_byte(&s->numbers));
    }
}

static void near_openings(struct stage *s)
{
    for (size_t i = between(&s->numbers, 1, 6); i > 0; i--) {
        add_near_opening(&s->numbers, s->stream);
        if (chance(&s->numbers, 40))
            add_byte(s->stream, one_of(&s->numbers, PICTURES, PICTURE_CODES));
        for (size_t more = below(&s->numbers, 4); more > 0; more--)
            add_byte(s->stream, likely_byte(&s->numbers));
    }
}

static void noise(struct stage *s)
{
    bool likely = chance(&s->numbers, 60);
    for (size_t i = between(&s->numbers, 1, 200); i > 0; i--)
        add_byte(s->stream, likely ? likely_byte(&s->numbers) : any_byte(&s->numbers));
}

/* ---- the stream ---- */

typedef void scene(struct stage *);

struct share {
    scene *play;
    unsigned percent;
};

/* Together 100.  About half of all parts sent come through complete. */
static const struct share SHARES[] = {
    {whole_part, 35},
    {part_with_wrong_field, 15},
    {part_with_wrong_bytes, 11},
    {times_at_limits, 5},
    {quality_at_limits, 4},
    {part_with_wrong_order, 6},
    {payload_cut_short, 5},
    {spliced_parts, 4},
    {parts_gone_together, 4},
    {part_with_gaps, 4},
    {interleaved_texts, 2},
    {interleaved_bytes, 1},
    {near_openings, 2},
    {noise, 2},
};

static scene *some_scene(struct numbers *n)
{
    size_t ticket = below(n, 100), i = 0;
    while (ticket >= SHARES[i].percent)
        ticket -= SHARES[i++].percent;
    return SHARES[i].play;
}

/* What a line carries between parts: idle 16s, a few stray bytes, a lure. */
static void add_idle(struct stage *s)
{
    struct numbers *n = &s->numbers;
    if (chance(n, 65))
        return;
    switch (below(n, 3)) {
    case 0:
        for (size_t i = between(n, 1, 6); i > 0; i--)
            add_byte(s->stream, 0x16);
        break;
    case 1:
        for (size_t i = between(n, 1, 20); i > 0; i--)
            add_byte(s->stream, chance(n, 50) ? likely_byte(n) : any_byte(n));
        break;
    default:
        add_near_opening(n, s->stream);
    }
}

void generate_with(uint64_t seed, const struct habits *habits, size_t length, struct bytes *stream)
{
    struct stage *s = calloc(1, sizeof *s);
    if (s == NULL) {
        fprintf(stderr, "second: no memory\n");
        exit(2);
    }
    s->numbers.state = seed;
    s->habits = *habits;
    s->stream = stream;
    s->limit = below(&s->numbers, time_limits());
    size_t before = stream->length;
    while (stream->length - before < length) {
        draft_part(&s->numbers, &s->habits, &s->one);
        scene *play = some_scene(&s->numbers);
        add_idle(s);
        play(s);
    }
    free(s);
}

void generate(uint64_t seed, size_t length, struct bytes *stream)
{
    struct numbers numbers = {seed};
    struct habits habits;
    for (size_t i = 0; i < FAVOURITES; i++)
        habits.favourites[i] = one_of(&numbers, PICTURES, PICTURE_CODES);
    generate_with(numbers.state, &habits, length, stream); /* where the numbers have come to */
}
