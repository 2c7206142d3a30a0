/* Words read and written over a test's own `transact` and `room`, which stand before this is included. */
#ifndef WORDS_H
#define WORDS_H

/* A word that is whole: answered 0, with three bytes. */
static inline uint16_t word(uint8_t command)
{
    const uint8_t ask[3] = {0x16, command, 0x17};
    CHECK(transact(true, ask, sizeof ask), 3u << 8);
    return (uint16_t)(room[0] | room[1] << 8);
}

static inline void write_word(uint8_t command, uint16_t value)
{
    const uint8_t message[4] = {0x16, command, (uint8_t)(value & 0xFF), (uint8_t)(value >> 8)};
    CHECK(transact(false, message, sizeof message), 0);
}

#endif
