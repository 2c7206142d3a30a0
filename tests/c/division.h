/* The check byte of a message by long division, bit by bit: the library's table has no part in it. */
#ifndef DIVISION_H
#define DIVISION_H

#include <stddef.h>
#include <stdint.h>

static uint8_t check_byte(const uint8_t *bytes, size_t length)
{
    unsigned rest = 0;
    for (size_t i = 0; i < length; i++) {
        rest ^= bytes[i];
        for (int bit = 0; bit < 8; bit++)
            rest = rest & 0x80 ? rest << 1 ^ 0x107 : rest << 1;
    }
    return (uint8_t)rest;
}

#endif
