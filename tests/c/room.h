/* A lent room with guard bytes on both sides. A test names ROOM_MOST, the room's most bytes, before it includes this. */
#ifndef ROOM_H
#define ROOM_H

#include <stdbool.h>
#include <stddef.h>
#include <stdint.h>
#include <string.h>

enum { GUARD = 24, MARK = 0xA5 };

static uint8_t memory[GUARD + ROOM_MOST + GUARD];
static uint8_t *const room = memory + GUARD;

static void new_room(void)
{
    memset(memory, MARK, sizeof memory);
}

/* Whether the room begins with these bytes and all the rest is as it was. */
static bool room_is(const uint8_t *bytes, size_t length)
{
    for (size_t i = 0; i < sizeof memory; i++) {
        bool inside = i >= GUARD && i - GUARD < length;
        if (memory[i] != (inside ? bytes[i - GUARD] : MARK))
            return false;
    }
    return true;
}

#endif
