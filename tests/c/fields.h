/* Numbers in a test's own `area`, low byte first; that stands before this is included. */
#ifndef FIELDS_H
#define FIELDS_H

static inline void put(size_t at, size_t bytes, uint64_t value)
{
    for (size_t i = 0; i < bytes; i++)
        area[at + i] = (uint8_t)(value >> 8 * i & 0xFF);
}

static inline uint64_t number_at(size_t at, size_t bytes)
{
    uint64_t value = 0;
    for (size_t i = 0; i < bytes; i++)
        value |= (uint64_t)area[at + i] << 8 * i;
    return value;
}

#endif
