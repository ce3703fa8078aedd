#include "try_marks.h"

#include "lines.h"
#include "receiver.h"

#include <stdio.h>

enum { NUMBER_BYTES = 4 };

static void flush_text(struct bytes *text)
{
    fwrite(text->data, 1, text->length, stdout);
    text->length = 0;
}

/* What a fresh receiver has of the marks asked for, and what is counted where
   the number itself stands in the state. */
static void add_marks(struct bytes *text, uint32_t number)
{
    add_word(text, "marks");
    add_number(text, ' ', number);
    add_number(text, ' ', marks_set(marks_given(number)));
    add_number(text, ' ', marks_set(number));
    add_word(text, "\n");
}

/* The stream to a fresh receiver; both calls must give the same lines, under
   their own words.  Returns the marks of the last state. */
static uint32_t add_run(struct bytes *text, const char *call, uint32_t number,
                        const uint8_t *stream, size_t length)
{
    static struct receiver receiver;
    static struct grid grid;
    make_fresh(&receiver, &grid, number);
    for (size_t i = 0; i < length; i++) {
        int part = receiver.part;
        int answer = receive_byte(&receiver, &grid, stream[i]);
        if (answer == QUIET)
            continue;
        struct event event = {i + 1, answer, part, &receiver, &grid};
        add_word(text, call);
        add_event(text, &event);
        flush_text(text);
    }
    return receiver.marks;
}

static void add_end(struct bytes *text, uint32_t by_slices, uint32_t by_bytes)
{
    add_word(text, "end");
    add_number(text, ' ', by_slices);
    add_number(text, ' ', marks_set(by_slices));
    add_number(text, ' ', by_bytes);
    add_number(text, ' ', marks_set(by_bytes));
    add_word(text, "\n");
}

static uint32_t number_at(const uint8_t *bytes)
{
    return (uint32_t)bytes[0] << 24 | (uint32_t)bytes[1] << 16 | (uint32_t)bytes[2] << 8 | bytes[3];
}

bool print_marks(const struct bytes *input)
{
    size_t count = input->length > 0 ? input->data[0] : 0;
    size_t head = 1 + NUMBER_BYTES * count;
    if (input->length < head)
        return false;
    const uint8_t *stream = input->data + head;
    size_t length = input->length - head;
    struct bytes text = {0};
    for (size_t i = 0; i < count; i++) {
        uint32_t number = number_at(input->data + 1 + NUMBER_BYTES * i);
        add_marks(&text, number);
        uint32_t by_slices = add_run(&text, "slice", number, stream, length);
        uint32_t by_bytes = add_run(&text, "byte", number, stream, length);
        add_end(&text, by_slices, by_bytes);
    }
    flush_text(&text);
    free_bytes(&text);
    return true;
}
