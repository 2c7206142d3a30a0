/* Shared between the library's own files. What takes a state wants a sound one. */
#ifndef SNATCHBLOCK2_INSIDE_H
#define SNATCHBLOCK2_INSIDE_H

#include "snatchblock2.h"

/* What a read shows: a word, and whether it was cut off, for it says less than there is (rule: R-6). */
struct sb2_shown {
    uint16_t word;
    bool cut_off;
};

/* What a read of command 00 to 1C shows, a whole 0 for any other (rules: Registers; R-6). */
struct sb2_shown sb2_register(const struct sb2_state *s, uint8_t command);

/* The word of BatteryStatus, error code included (rule: Registers, 16). */
uint16_t sb2_status(const struct sb2_state *s);

/* The total of the complete second at a place under 60, the newest at 0; beyond the count what its place holds. */
int32_t sb2_second_at(const struct sb2_minute *minute, uint32_t place);

/* Puts a word, low byte first; gives how many bytes that are (rule: Transactions). */
size_t sb2_put_word(uint16_t word, uint8_t *room);

/* Puts behind a reply of so many bytes the PEC over the read's three bytes and it; gives how many there are now (rule:
 * Transactions). */
size_t sb2_put_pec(struct sb2_bytes message, uint8_t *room, size_t place);

/* The error code that an answer leaves, `before` where it leaves it as it was (rule: Answer numbers). */
uint32_t sb2_error_left(int answer, uint32_t before);

#endif
