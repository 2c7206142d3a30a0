/* A lent area with guard bytes on both sides, as room.h's, which stands before this. A test names AREA_MOST, the most
 * bytes that it lends. */
#ifndef AREA_H
#define AREA_H

static uint8_t area_memory[GUARD + AREA_MOST + GUARD], before[sizeof area_memory];
static uint8_t *const area = area_memory + GUARD;

static void new_area(void)
{
    memset(area_memory, MARK, sizeof area_memory);
}

static void remember(void)
{
    memcpy(before, area_memory, sizeof before);
}

/* Whether the area and the guard bytes around it are as they were. */
static bool area_stays(void)
{
    return memcmp(before, area_memory, sizeof before) == 0;
}

#include "fields.h"

#endif
