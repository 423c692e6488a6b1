/* Numbers drawn from a seed, of the kinds that questions need. */
#include "draw.h"

#include "splitmix.h"

static uint64_t state;

void draw_seed(uint64_t seed)
{
    state = seed;
}

uint32_t draw(void)
{
    return splitmix(&state);
}

uint32_t draw_below(uint32_t bound)
{
    return (uint32_t)(((uint64_t)draw() * bound) >> 32);
}

int draw_once_in(uint32_t times)
{
    return draw_below(times) == 0;
}

uint32_t draw_value(void)
{
    static const uint32_t edges[] = {0, 1, 0x7FFFFFFFu, 0x80000000u, 0xFFFFFFFEu, 0xFFFFFFFFu};
    switch (draw_below(4)) {
    case 0: return draw_below(4);
    case 1: return draw_below(300);
    case 2: return edges[draw_below(6)];
    default: return draw();
    }
}

uint32_t draw_high_bit(uint32_t number)
{
    return number ^ ((uint32_t)1 << (8 + draw_below(24)));
}

static int is_among(const uint32_t *list, size_t count, uint32_t value)
{
    for (size_t i = 0; i < count; i++) {
        if (list[i] == value)
            return 1;
    }
    return 0;
}

void draw_distinct(uint32_t *list, size_t count)
{
    for (size_t i = 0; i < count; i++) {
        list[i] = draw_value();
        while (is_among(list, i, list[i]))
            list[i]++;
    }
}
