#include "lines.h"

#include <string.h>

void add_number(struct bytes *text, char before, unsigned long long number)
{
    char digits[24];
    size_t at = sizeof digits;
    do
        digits[--at] = (char)('0' + number % 10);
    while ((number /= 10) > 0);
    digits[--at] = before;
    add_bytes(text, (const uint8_t *)digits + at, sizeof digits - at);
}

void add_signed(struct bytes *text, char before, int64_t number)
{
    if (number >= 0) {
        add_number(text, before, (unsigned long long)number);
        return;
    }
    add_byte(text, (uint8_t)before);
    add_number(text, '-', 0 - (unsigned long long)number);
}

void add_word(struct bytes *text, const char *word)
{
    add_bytes(text, (const uint8_t *)word, strlen(word));
}

static void add_held(struct bytes *text, const struct event *event)
{
    const struct header *header = &event->receiver->header;
    add_word(text, "held");
    add_number(text, ' ', (unsigned)event->part);
    add_number(text, ' ', header->picture);
    add_number(text, ' ', header->clock);
    add_number(text, ' ', header->no_echo);
    add_number(text, ' ', header->mode);
    add_signed(text, ' ', header->minute);
    for (int i = 0; i < RADARS; i++)
        add_number(text, ' ', header->radars[i]);
    for (int i = 0; i < RADARS; i++)
        add_number(text, ' ', event->receiver->modes[i]);
    add_word(text, "\n");
}

/* The whole grid as longest runs of equal bytes. */
static void add_grid(struct bytes *text, const uint8_t *grid)
{
    add_word(text, "grid");
    for (size_t at = 0; at < GRID_BYTES;) {
        size_t run = 1;
        while (at + run < GRID_BYTES && grid[at + run] == grid[at])
            run++;
        add_number(text, ' ', run);
        add_number(text, 'x', grid[at]);
        at += run;
    }
    add_word(text, "\n");
}

void add_event(struct bytes *text, const struct event *event)
{
    add_number(text, ' ', event->offset);
    add_number(text, ' ', (unsigned)event->answer);
    add_word(text, "\n");
    if (event->answer == COMPLETE) {
        add_held(text, event);
        add_grid(text, event->grid->bytes);
    }
}
