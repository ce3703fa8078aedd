#include "marks.h"

bool is_marked(uint32_t marks, uint8_t picture)
{
    for (unsigned i = 0; i < PICTURE_CODES; i++)
        if (PICTURES[i] == picture)
            return (marks >> i & 1) != 0;
    return false;
}

uint32_t marks_given(uint32_t number)
{
    return number > ALL_MARKS ? 0 : number;
}

unsigned marks_set(uint32_t marks)
{
    unsigned set = 0;
    for (unsigned i = 0; i < PICTURE_CODES; i++)
        set += marks >> i & 1;
    return set;
}
