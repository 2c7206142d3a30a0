/* Every way to alter one, two or three of a message's 40 bits. */
#ifndef ALTERED_H
#define ALTERED_H

#include <stdint.h>
#include <string.h>

static inline void each_altered(const uint8_t message[5], void (*tried)(const uint8_t altered[5]))
{
    unsigned ways = 0;
    for (unsigned i = 0; i < 40; i++)
        for (unsigned j = i; j < 40; j++)
            for (unsigned k = j; k < 40; k++) {
                uint8_t other[5];
                if (i == j && j < k)
                    continue; /* i = j = k alters one bit, j = k two */
                memcpy(other, message, 5);
                other[i / 8] ^= (uint8_t)(1u << i % 8);
                if (j != i)
                    other[j / 8] ^= (uint8_t)(1u << j % 8);
                if (k != j)
                    other[k / 8] ^= (uint8_t)(1u << k % 8);
                tried(other);
                ways++;
            }
    CHECK(ways, 40 + 780 + 9880);
}

#endif
