/* Check bytes: CRC-8 with x^8+x^2+x+1, the exchange check and the comparison. */
#include "snatchblock2.h"

/* The remainder of byte v: division is linear, so it is the sum of those of v's bits. */
#define REMAINDER(v)                                                                                              \
    (uint8_t)(((v)&0x01 ? 0x07 : 0) ^ ((v)&0x02 ? 0x0E : 0) ^ ((v)&0x04 ? 0x1C : 0) ^ ((v)&0x08 ? 0x38 : 0) ^     \
              ((v)&0x10 ? 0x70 : 0) ^ ((v)&0x20 ? 0xE0 : 0) ^ ((v)&0x40 ? 0xC7 : 0) ^ ((v)&0x80 ? 0x89 : 0))
#define FOUR(v) REMAINDER(v), REMAINDER((v) + 1), REMAINDER((v) + 2), REMAINDER((v) + 3)
#define SIXTEEN(v) FOUR(v), FOUR((v) + 4), FOUR((v) + 8), FOUR((v) + 12)
#define SIXTY_FOUR(v) SIXTEEN(v), SIXTEEN((v) + 16), SIXTEEN((v) + 32), SIXTEEN((v) + 48)

static const uint8_t remainders[256] = {SIXTY_FOUR(0), SIXTY_FOUR(64), SIXTY_FOUR(128), SIXTY_FOUR(192)};

/* Start 0, each byte in order through the table (rule: PEC). */
uint8_t sb2_pec(struct sb2_bytes message)
{
    uint8_t pec = 0;
    for (size_t i = 0; i < message.length; i++)
        pec = remainders[pec ^ message.at[i]];
    return pec;
}

/* 15 outside 2 to 37 bytes; accepted exactly when the last byte is the PEC of the rest (rule: PEC). */
int sb2_check_exchange(struct sb2_bytes exchange, bool *accepted)
{
    *accepted = false;
    if (exchange.length < 2 || exchange.length > SB2_MESSAGE_MOST)
        return SB2_OUT_OF_RANGE;
    struct sb2_bytes before = {exchange.at, exchange.length - 1};
    *accepted = sb2_pec(before) == exchange.at[exchange.length - 1];
    return SB2_SERVED;
}

/* 15 for unequal lengths or over 37; else the ones of the exclusive or, summed (rule: PEC). */
int sb2_compare(struct sb2_bytes a, struct sb2_bytes b, uint32_t *bits)
{
    *bits = 0;
    if (a.length != b.length || a.length > SB2_MESSAGE_MOST)
        return SB2_OUT_OF_RANGE;
    for (size_t i = 0; i < a.length; i++)
        for (unsigned rest = a.at[i] ^ b.at[i]; rest != 0; rest &= rest - 1)
            ++*bits;
    return SB2_SERVED;
}
