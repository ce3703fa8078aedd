#include "altered_traffic.h"

#include "altered.h"
#include "outside_limits.h"
#include "damage.h"
#include "receiver.h"

#include <stdio.h>
#include <stdlib.h>

/* The numbers, the pictures liked, and the part under way. */
struct traffic {
    struct numbers numbers;
    struct habits habits;
    struct transfer transfer;
};

static struct traffic *begin_traffic(uint64_t seed)
{
    struct traffic *a = calloc(1, sizeof *a);
    if (a == NULL) {
        fprintf(stderr, "second: no memory\n");
        exit(2);
    }
    a->numbers.state = seed;
    for (size_t i = 0; i < FAVOURITES; i++)
        a->habits.favourites[i] = one_of(&a->numbers, PICTURES, PICTURE_CODES);
    return a;
}

/* An altered part by the request's words; a whole one has come as it was sent,
   and one outside the limits was undamaged and has as many altered bytes. */
static bool is_of_sort(const struct transfer *c, int sort)
{
    if (sort == ALTERED)
        return is_altered_part(c);
    size_t altered = count_altered(c);
    bool as_many = sort == WHOLE ? altered == 0 : sort == TWICE ? altered == 2 : altered >= 1;
    return is_undamaged(&c->sent) && as_many && has_become_fd(c) == (sort == TO_FD);
}

/* The parts are held to that before anybody gets them. */
static void make_part(struct traffic *a, int sort)
{
    struct transfer *c = &a->transfer;
    if (sort == TO_FD)
        alter_to_fd(&a->numbers, &a->habits, c);
    else
        send_part(&a->numbers, &a->habits, c);
    if (sort == ALTERED)
        alter_part(&a->numbers, c);
    else if (sort == TWICE)
        alter_twice(&a->numbers, c);
    if (!is_of_sort(c, sort)) {
        fprintf(stderr, "second: a part is not of the sort that was asked for\n");
        exit(2);
    }
}

/* ---- records ---- */

static void add_record(struct bytes *out, int sort, const struct transfer *c)
{
    struct bytes part = {0};
    add_draft(&part, &c->come);
    add_byte(out, (uint8_t)sort);
    add_byte(out, (uint8_t)count_altered(c));
    for (int shift = 24; shift >= 0; shift -= 8)
        add_byte(out, (uint8_t)(part.length >> shift));
    add_bytes(out, part.data, part.length);
    free_bytes(&part);
}

/* Behind an altered part: another at once, or a part that must be complete.
   One altered to FD is long, and so seldom. */
static int some_sort_behind(struct numbers *n)
{
    size_t sort = below(n, 100);
    return sort < 35 ? ALTERED : sort < 87 ? WHOLE : sort < 97 ? TWICE : TO_FD;
}

void generate_altered(uint64_t seed, size_t count, struct bytes *out)
{
    struct traffic *a = begin_traffic(seed);
    while (count > 0) {
        make_part(a, ALTERED);
        add_record(out, ALTERED, &a->transfer);
        count--;
        int behind = some_sort_behind(&a->numbers);
        if (behind == ALTERED)
            continue;
        make_part(a, behind);
        add_record(out, behind, &a->transfer);
    }
    free(a);
}

/* ---- this model's receiver ---- */

struct figures {
    unsigned long long parts, alterations, others, runs, wrong;
    unsigned long long answers[LAST_ANSWER + 1]; /* to altered parts, all pictures marked */
};

/* Gives a part to a fresh receiver.  Counts the answers 3, and tells whether
   the last byte has one. */
static size_t count_complete(const struct bytes *part, uint32_t marks, struct figures *f, bool *at_end)
{
    static struct receiver receiver;
    static struct grid grid;
    size_t complete = 0;
    int answer = QUIET;
    make_fresh(&receiver, &grid, marks);
    for (size_t i = 0; i < part->length; i++) {
        answer = receive_byte(&receiver, &grid, part->data[i]);
        complete += answer == COMPLETE;
        if (f != NULL)
            f->answers[answer]++;
    }
    *at_end = answer == COMPLETE;
    return complete;
}

static uint32_t mark_of(uint8_t code)
{
    uint32_t mark = 1;
    while (!is_marked(mark, code))
        mark <<= 1;
    return mark;
}

/* One part to receivers with all marks, its picture's alone, all but that, any,
   and such as are none.  An altered part is complete for none of them, any
   other one exactly for those that have its mark. */
static void try_part(struct traffic *a, int sort, struct figures *f)
{
    struct bytes part = {0};
    uint8_t code = a->transfer.sent.header.picture;
    const uint32_t any = (uint32_t)next_number(&a->numbers), own = mark_of(code);
    const uint32_t marks[] = {ALL_MARKS, own, ALL_MARKS ^ own, any & ALL_MARKS, any | (ALL_MARKS + 1)};
    add_draft(&part, &a->transfer.come);
    for (size_t i = 0; i < sizeof marks / sizeof marks[0]; i++) {
        bool at_end, wanted = sort != ALTERED && is_marked(marks_given(marks[i]), code);
        size_t complete = count_complete(&part, marks[i], i == 0 && sort == ALTERED ? f : NULL, &at_end);
        f->runs++;
        if (complete == (wanted ? 1 : 0) && at_end == wanted)
            continue;
        f->wrong++;
        fprintf(stderr, "second: wrong: sort %d, altered part %llu, marks %lu: %zu times complete\n",
                sort, f->parts, (unsigned long)marks[i], complete);
    }
    free_bytes(&part);
}

static void print_figures(const struct figures *f)
{
    printf("parts %llu\nalterations %llu\nothers %llu\nruns %llu\nwrong %llu\n",
           f->parts, f->alterations, f->others, f->runs, f->wrong);
    for (int answer = 1; answer <= LAST_ANSWER; answer++)
        if (f->answers[answer] > 0)
            printf("answer %d %llu\n", answer, f->answers[answer]);
}

bool try_altered(uint64_t seed, size_t count)
{
    struct traffic *a = begin_traffic(seed);
    struct figures f = {0};
    while (f.parts < count) {
        make_part(a, ALTERED);
        f.parts++;
        f.alterations += count_altered(&a->transfer);
        try_part(a, ALTERED, &f);
        int behind = some_sort_behind(&a->numbers);
        if (behind == ALTERED)
            continue;
        make_part(a, behind);
        f.others++;
        try_part(a, behind, &f);
    }
    print_figures(&f);
    free(a);
    return f.wrong == 0;
}
