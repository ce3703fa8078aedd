#include "countdown.h"

#include "bytes.h"
#include "damage.h"
#include "draft.h"
#include "services.h"
#include "writer.h"

#include <stdio.h>

/* 01's figures once more, so that bytes_left is not held against what it was
   worked out from: a start or end block has 32 bytes, a data block 2,003, 403
   or 103, and a text eight more; the eighth byte of a text is its kind. */
enum { SHORT_TEXT = 40, UP_TO_KIND = 8, SORTS = 6 };

struct sort {
    const char *name;
    int part;
    bool no_echo;
    size_t data_texts;
    size_t data_text; /* the bytes of each */
    size_t whole;     /* the bytes of the part, as 01's writer returns them */
};

static const struct sort SORT_LIST[SORTS] = {
    {"intensity", INTENSITY, false, 10, 2011, 20190},
    {"intensity with NO ECHO", INTENSITY, true, 0, 0, 80},
    {"echo top", ECHO_TOP, false, 1, 411, 491},
    {"echo top with NO ECHO", ECHO_TOP, true, 0, 0, 80},
    {"quality", QUALITY, false, 1, 111, 191},
    {"quality with NO ECHO", QUALITY, true, 1, 111, 191},
};

/* ---- one part ---- */

/* A receiver on its way along a part. */
struct walk {
    struct receiver receiver;
    struct grid grid;
    const uint8_t *bytes;
    size_t taken;
};

/* The next byte of a part, number `come` of a text of `length` bytes: what is
   left after it is 0 before the kind, and from the kind on the bytes to the
   text's end; it falls by one with each byte, is 1 before the FF and 0 after. */
static bool byte_counts(struct walk *walk, size_t come, size_t length, int answer_at_end)
{
    uint8_t byte = walk->bytes[walk->taken++];
    size_t before = bytes_left(&walk->receiver);
    int answer = receive_byte(&walk->receiver, &walk->grid, byte);
    size_t after = bytes_left(&walk->receiver);
    bool last = come == length;
    if (after != (come < UP_TO_KIND ? 0 : length - come))
        return false;
    if (come <= UP_TO_KIND ? before != 0 : before != after + 1)
        return false;
    if (last && (byte != TEXT_END || before != 1 || after != 0))
        return false;
    return answer == (last ? answer_at_end : QUIET);
}

static bool text_counts(struct walk *walk, size_t length, int answer_at_end)
{
    for (size_t come = 1; come <= length; come++)
        if (!byte_counts(walk, come, length, answer_at_end))
            return false;
    return true;
}

/* All texts of a part of this sort; where it fails, walk->taken is the byte. */
static bool part_counts(struct walk *walk, const struct sort *sort)
{
    if (!text_counts(walk, SHORT_TEXT, BEGUN))
        return false;
    for (size_t k = 1; k <= sort->data_texts; k++)
        if (!text_counts(walk, sort->data_text, TAKEN))
            return false;
    return text_counts(walk, SHORT_TEXT, COMPLETE);
}

/* ---- parts of every sort ---- */

/* The sort of a part, by the kind and status 1 of its start block. */
static size_t sort_of(const struct bytes *part)
{
    const uint8_t *start = part->data + CONTROL_BYTES;
    int number = part_of_kind(start[AT_KIND]);
    bool no_echo = (start[AT_STATUS_1] & NO_ECHO_BIT) != 0;
    size_t sort = SORTS - 1;
    while (sort > 0 && (SORT_LIST[sort].part != number || SORT_LIST[sort].no_echo != no_echo))
        sort--;
    return sort;
}

/* Feeds one part to a fresh receiver; returns its sort. */
static size_t try_part(expecter *expect, const struct bytes *part, const char *builder)
{
    static struct walk walk;
    char what[100];
    size_t number = sort_of(part);
    const struct sort *sort = &SORT_LIST[number];
    snprintf(what, sizeof what, "%s by the %s is undamaged, %zu bytes", sort->name, builder, sort->whole);
    bool whole = part->length == sort->whole && undamaged_part(part->data, part->length) == sort->whole;
    expect(whole, what);
    if (!whole) /* too short, perhaps, to walk along */
        return number;
    make_fresh(&walk.receiver, &walk.grid, ALL_MARKS);
    walk.bytes = part->data;
    walk.taken = 0;
    bool right = part_counts(&walk, sort);
    snprintf(what, sizeof what, "bytes left, %s by the %s, at byte %zu", sort->name, builder, walk.taken);
    expect(right, what);
    return number;
}

/* The writer's part of what a draft holds: status bytes and NO ECHO are its own. */
static void add_written(struct bytes *to, const struct draft *draft)
{
    static uint8_t out[LONGEST_PART];
    struct writing what = {draft->part, &draft->header, draft->modes, draft->payload,
                           payload_length(draft->part)};
    size_t length;
    write_part(&what, out, sizeof out, &length);
    add_bytes(to, out, length);
}

enum { DRAFTS = 1000, FEWEST = 10 };

static void expect_enough(expecter *expect, const size_t *tried, size_t sorts, const char *builder)
{
    for (size_t i = 0; i < sorts; i++) {
        char what[100];
        snprintf(what, sizeof what, "%s by the %s: %zu parts tried", SORT_LIST[i].name, builder, tried[i]);
        expect(tried[i] >= FEWEST, what);
    }
}

void try_countdown(expecter *expect)
{
    static const struct habits habits = {{0xC0, 0xCC, 0xF1}};
    static struct draft draft;
    struct numbers numbers = {106};
    struct bytes part = {0};
    size_t drafted[SORTS] = {0}, written[SORTS] = {0};
    for (size_t i = 0; i < DRAFTS; i++) {
        draft_part(&numbers, &habits, &draft);
        part.length = 0;
        add_draft(&part, &draft);
        drafted[try_part(expect, &part, "draft")]++;
        part.length = 0;
        add_written(&part, &draft);
        written[try_part(expect, &part, "writer")]++;
    }
    expect_enough(expect, drafted, SORTS, "draft");
    expect_enough(expect, written, SORTS - 1, "writer"); /* which sets no NO ECHO in quality */
    free_bytes(&part);
}
