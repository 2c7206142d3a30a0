/* Seeded random numbers: xorshift64*. */
#ifndef DRAW_H
#define DRAW_H

#include <stdbool.h>
#include <stddef.h>
#include <stdint.h>

static uint64_t random_state;

static inline void start_draw(uint64_t seed)
{
    random_state = seed * 0x9E3779B97F4A7C15u + 0x1234567u;
    if (random_state == 0)
        random_state = 1;
}

static inline uint64_t draw(void)
{
    random_state ^= random_state >> 12;
    random_state ^= random_state << 25;
    random_state ^= random_state >> 27;
    return random_state * 0x2545F4914F6CDD1Du;
}

static inline uint32_t below(uint32_t limit)
{
    return (uint32_t)((draw() >> 32) * limit >> 32);
}

static inline bool one_in(uint32_t n)
{
    return below(n) == 0;
}

static inline uint16_t some_word(void)
{
    static const uint16_t edges[] = {0, 1, 2, 10, 100, 0x7FFE, 0x7FFF, 0x8000, 0x8001, 0xFFFE, 0xFFFF};
    switch (below(4)) {
    case 0: return edges[below(sizeof edges / sizeof *edges)];
    case 1: return (uint16_t)below(200);
    case 2: return (uint16_t)below(20000);
    default: return (uint16_t)draw();
    }
}

static inline int16_t some_current(void)
{
    int32_t word = some_word();
    return (int16_t)(word < 0x8000 ? word : word - 0x10000);
}

static inline void fill(uint8_t *at, size_t length)
{
    for (size_t i = 0; i < length; i++)
        at[i] = (uint8_t)(draw() >> 56);
}

#endif
