/* second: the second model of 01 and its hostile traffic.

     second generate SEED LENGTH         a stream of LENGTH bytes
     second generate-marks SEED LENGTH   numbers of marks, and a stream for them
     second generate-altered SEED COUNT  so many parts altered by Request 113, each
                                         a record, with others between them
     second try-altered SEED COUNT       the like, each alone tried on this model
     second answers [MARKS]              01's listening program
     second totals [MARKS]               how many bytes had each answer
     second traffic [MARKS]              answers, and what is held after answer 3
     second resend [MARKS]               the parts that 01's writer makes of those held
     second parts [MARKS]                undamaged parts of marked pictures, by the
                                         papers' definition alone
     second left [MARKS]                 bytes left before and after each answer
     second marks                        receivers with the marks that the input gives
     second samples                      01's sample traffic tried on this model, what
                                         bytes left means, marks, minutes, and altered
                                         parts

   All but those with a SEED, and samples, read standard input to its end.
   MARKS is the number that a fresh receiver is made from, in decimal; where it
   is not given, all twenty are marked. */
#include "altered_traffic.h"
#include "bought.h"
#include "bytes.h"
#include "hostile.h"
#include "lines.h"
#include "receiver.h"
#include "samples.h"
#include "services.h"
#include "try_marks.h"
#include "writer.h"

#include <stdio.h>
#include <stdlib.h>
#include <string.h>

enum { CHUNK = 1 << 16 };

typedef void teller(const struct event *event);

/* Reads standard input through a receiver with these marks and tells each
   answer but 0. */
static void receive_input(teller *tell, uint32_t marks)
{
    static struct receiver receiver;
    static struct grid grid;
    static uint8_t chunk[CHUNK];
    struct event event = {0, 0, NO_PART, &receiver, &grid};
    size_t count;
    make_fresh(&receiver, &grid, marks);
    while ((count = fread(chunk, 1, sizeof chunk, stdin)) > 0)
        for (size_t i = 0; i < count; i++) {
            int part = receiver.part;
            int answer = receive_byte(&receiver, &grid, chunk[i]);
            event.offset++;
            if (answer == QUIET)
                continue;
            event.answer = answer;
            event.part = part;
            tell(&event);
        }
}

/* ---- answers and totals ---- */

static void tell_answer(const struct event *event)
{
    printf("%llu %d\n", event->offset, event->answer);
}

static unsigned long long totals[LAST_ANSWER + 1];

static void count_answer(const struct event *event)
{
    totals[event->answer]++;
}

static void print_totals(void)
{
    for (int answer = 1; answer <= LAST_ANSWER; answer++)
        if (totals[answer] > 0)
            printf("%d %llu\n", answer, totals[answer]);
}

/* ---- traffic ---- */

/* The program compared with this takes each stretch by the byte call and by
   the slice call, which must agree: the same lines under both words. */
static void tell_traffic(const struct event *event)
{
    static struct bytes text;
    text.length = 0;
    add_event(&text, event);
    fputs("byte", stdout);
    fwrite(text.data, 1, text.length, stdout);
    fputs("slice", stdout);
    fwrite(text.data, 1, text.length, stdout);
}

/* ---- resend ---- */

static void tell_resent(const struct event *event)
{
    static uint8_t out[LONGEST_PART];
    if (event->answer != COMPLETE)
        return;
    struct writing what = {event->part, &event->receiver->header, event->receiver->modes,
                           event->grid->bytes, payload_length(event->part)};
    size_t length;
    int refusal = write_part(&what, out, sizeof out, &length);
    if (refusal != WRITTEN) {
        fprintf(stderr, "second: the writer refuses with %d after byte %llu\n", refusal, event->offset);
        exit(2);
    }
    fwrite(out, 1, length, stdout);
}

/* ---- parts ---- */

static void read_input(struct bytes *all)
{
    static uint8_t chunk[CHUNK];
    size_t count;
    while ((count = fread(chunk, 1, sizeof chunk, stdin)) > 0)
        add_bytes(all, chunk, count);
}

/* The length of the part that is called complete at its end by Request 101,
   "exactly the undamaged parts of marked pictures"; 0 for none. */
static size_t part_called(const uint8_t *bytes, size_t length, uint32_t marks)
{
    size_t whole = bytes[0] == OPENING[0] ? undamaged_part(bytes, length) : 0;
    if (whole > 0 && is_marked(marks_given(marks), bytes[CONTROL_BYTES + AT_PICTURE]))
        return whole;
    return 0;
}

/* The ends of all these, found by definition and without a receiver; the same
   lines as the answers 3. */
static void print_parts(uint32_t marks)
{
    struct bytes all = {0};
    read_input(&all);
    for (size_t at = 0; at < all.length; at++) {
        size_t length = part_called(all.data + at, all.length - at, marks);
        if (length > 0)
            printf("%zu %d\n", at + length, COMPLETE);
    }
    free_bytes(&all);
}

/* ---- left ---- */

/* Adler-32 begun at 0. */
struct sum {
    uint32_t low;
    uint32_t high;
};

static void sum_byte(struct sum *sum, uint8_t byte)
{
    sum->low = (sum->low + byte) % 65521;
    sum->high = (sum->high + sum->low) % 65521;
}

static void sum_figure(struct sum *sum, size_t figure)
{
    sum_byte(sum, (uint8_t)(figure >> 8));
    sum_byte(sum, (uint8_t)figure);
}

static unsigned long long sum_number(const struct sum *sum)
{
    return sum->high * 65536ull + sum->low;
}

/* Asks after every byte how many are left.  A line for each answer but 0: bytes
   so far, the answer, what was left before this byte and is left after it, and
   the sum over the figures after every byte so far; at last a line with bytes,
   what is left, and that sum. */
static void print_left(uint32_t marks)
{
    static struct receiver receiver;
    static struct grid grid;
    static uint8_t chunk[CHUNK];
    struct sum sum = {0, 0};
    unsigned long long total = 0;
    size_t count;
    make_fresh(&receiver, &grid, marks);
    size_t left = bytes_left(&receiver);
    while ((count = fread(chunk, 1, sizeof chunk, stdin)) > 0)
        for (size_t i = 0; i < count; i++) {
            size_t before = left;
            int answer = receive_byte(&receiver, &grid, chunk[i]);
            left = bytes_left(&receiver);
            sum_figure(&sum, left);
            total++;
            if (answer != QUIET)
                printf("%llu %d %zu %zu %llu\n", total, answer, before, left, sum_number(&sum));
        }
    printf("%llu %zu %llu\n", total, left, sum_number(&sum));
}

/* ---- the program ---- */

static int usage(void)
{
    fprintf(stderr, "usage: second generate | generate-marks SEED LENGTH\n"
                    "       second generate-altered | try-altered SEED COUNT\n"
                    "       second answers | totals | traffic | resend | parts | left [MARKS]  < stream\n"
                    "       second marks  < numbers and stream\n"
                    "       second samples\n");
    return 2;
}

/* A decimal number up to a limit. */
static bool read_number(const char *word, unsigned long long limit, unsigned long long *number)
{
    char *end;
    *number = strtoull(word, &end, 10);
    return *word != 0 && *end == 0 && *number <= limit;
}

/* Cut at any place, as a line may be. */
static int write_stream(const char *seed, const char *length)
{
    unsigned long long number, count;
    if (!read_number(seed, UINT64_MAX, &number) || !read_number(length, SIZE_MAX, &count))
        return usage();
    struct bytes stream = {0};
    generate(number, (size_t)count, &stream);
    if (count > 0)
        fwrite(stream.data, 1, (size_t)count, stdout);
    free_bytes(&stream);
    return 0;
}

/* The same with the numbers before it. */
static int write_marks(const char *seed, const char *length)
{
    unsigned long long number, count;
    if (!read_number(seed, UINT64_MAX, &number) || !read_number(length, SIZE_MAX, &count))
        return usage();
    struct bytes out = {0};
    size_t head = generate_marks(number, (size_t)count, &out);
    fwrite(out.data, 1, head + (size_t)count, stdout);
    free_bytes(&out);
    return 0;
}

/* All records, or the trial of such parts. */
static int write_altered(const char *name, const char *seed, const char *parts)
{
    unsigned long long number, count;
    if (!read_number(seed, UINT64_MAX, &number) || !read_number(parts, SIZE_MAX, &count))
        return usage();
    if (strcmp(name, "try-altered") == 0)
        return try_altered(number, (size_t)count) ? 0 : 1;
    struct bytes out = {0};
    generate_altered(number, (size_t)count, &out);
    if (out.length > 0)
        fwrite(out.data, 1, out.length, stdout);
    free_bytes(&out);
    return 0;
}

static int show_marks(void)
{
    struct bytes input = {0};
    read_input(&input);
    bool right = print_marks(&input);
    free_bytes(&input);
    if (!right)
        fprintf(stderr, "second: not so many numbers as the first byte says\n");
    return right ? 0 : 2;
}

static int receive(const char *name, uint32_t marks)
{
    if (strcmp(name, "answers") == 0)
        receive_input(tell_answer, marks);
    else if (strcmp(name, "traffic") == 0)
        receive_input(tell_traffic, marks);
    else if (strcmp(name, "resend") == 0)
        receive_input(tell_resent, marks);
    else if (strcmp(name, "parts") == 0)
        print_parts(marks);
    else if (strcmp(name, "left") == 0)
        print_left(marks);
    else if (strcmp(name, "totals") == 0) {
        receive_input(count_answer, marks);
        print_totals();
    } else
        return usage();
    return 0;
}

static int run(int argc, char **argv)
{
    const char *name = argc > 1 ? argv[1] : "";
    unsigned long long marks = ALL_MARKS;
    if (strcmp(name, "generate") == 0 && argc == 4)
        return write_stream(argv[2], argv[3]);
    if (strcmp(name, "generate-marks") == 0 && argc == 4)
        return write_marks(argv[2], argv[3]);
    if ((strcmp(name, "generate-altered") == 0 || strcmp(name, "try-altered") == 0) && argc == 4)
        return write_altered(name, argv[2], argv[3]);
    if (strcmp(name, "samples") == 0 && argc == 2)
        return run_samples();
    if (strcmp(name, "marks") == 0 && argc == 2)
        return show_marks();
    if (argc == 3 && !read_number(argv[2], UINT32_MAX, &marks))
        return usage();
    return argc == 2 || argc == 3 ? receive(name, (uint32_t)marks) : usage();
}

int main(int argc, char **argv)
{
    static char buffer[CHUNK];
    setvbuf(stdout, buffer, _IOFBF, sizeof buffer);
    int status = run(argc, argv);
    /* A read error or a full disc must not pass for a short stream. */
    if (ferror(stdin) || fflush(stdout) != 0 || ferror(stdout)) {
        fprintf(stderr, "second: reading or writing failed\n");
        return 2;
    }
    return status;
}
