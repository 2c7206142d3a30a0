/* A program over the installed library: sets a pack up, reads its Voltage over the bus, checks the exchange and
 * prints the voltage in mV. */
#include <snatchblock.h>

#include <stdio.h>
#include <string.h>

int main(void)
{
    uint8_t area[SNATCHBLOCK_AREA], room[SNATCHBLOCK_REPLY_ROOM] = {0};
    const uint8_t no_names[] = {0}; /* a sheet of no entries */
    const uint8_t ask[] = {0x16, 0x09, 0x17};

    uint32_t made = snatchblock_set_up(area, sizeof area, 4000, 4000, 2000, 14800, 2, 7, 0x526F, 17, 2000, 16800, 3182, 11000,
                                       false, 14800, -1500, 2981, 0);
    uint32_t read = snatchblock_transact(area, sizeof area, no_names, sizeof no_names, no_names, sizeof no_names, true, ask,
                                         sizeof ask, room, sizeof room);
    /* two bytes of data and one of PEC, after the three that asked */
    uint8_t exchange[sizeof ask + 3];
    memcpy(exchange, ask, sizeof ask);
    memcpy(exchange + sizeof ask, room, 3);
    uint32_t checked = snatchblock_exchange_check(exchange, sizeof exchange);
    if (made != 0 || read != 3u << 8 || checked != 1u << 8) {
        fprintf(stderr, "set-up %u, read %u, check %u\n", (unsigned)made, (unsigned)read, (unsigned)checked);
        return 1;
    }
    printf("%d mV\n", room[0] | room[1] << 8);
    return 0;
}
