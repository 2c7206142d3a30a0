/* RelativeStateOfCharge without a cap, by request R-8: floor(100 x charge / full) of every full capacity at its borders,
 * and of a few at each percent. 100 goes with FULLY_CHARGED, and charge above full is served by no call. */
#include "check.h"
#include "snatchblock.h"

#include <string.h>

#define MS_PER_HOUR UINT64_C(3600000)

/* ---- the pack */

static uint8_t area[SNATCHBLOCK_AREA], room[SNATCHBLOCK_REPLY_ROOM];

/* 4,000 mAh by design, and any other full capacity. */
static void set_up(uint16_t full)
{
    memset(area, 0xA5, sizeof area);
    CHECK(snatchblock_set_up(area, sizeof area, 4000, full, 0, 14800, 2, 9, 0x526F, 17, 2000, 16800, 3182, 12000, false,
                             14800, 0, 2981, 0), 0);
}

static uint32_t transact(bool read, const uint8_t *bytes, size_t length)
{
    static const uint8_t no_names[1] = {0};
    return snatchblock_transact(area, sizeof area, no_names, 1, no_names, 1, read, bytes, length, room, sizeof room);
}

#include "words.h"

static void charge(uint64_t amount)
{
    for (size_t i = 0; i < 8; i++)
        area[SNATCHBLOCK_TANK + i] = (uint8_t)(amount >> 8 * i & 0xFF);
}

/* ---- at full, and one mA·ms to either side */

static void about_full(uint16_t full)
{
    static const uint8_t ask[3] = {0x16, 0x0D, 0x17};
    uint64_t top = full * MS_PER_HOUR;
    set_up(full);
    charge(top - 1);
    CHECK(word(0x0D), 99);
    CHECK(word(0x16) & 0x20, 0);
    charge(top);
    CHECK(word(0x0D), 100);
    CHECK(word(0x16) & 0x20, 0x20);
    charge(top + 1);
    CHECK(snatchblock_sound(area, sizeof area), false);
    CHECK(transact(true, ask, sizeof ask), 1);
}

/* ---- each percent, a hundredth of full: 36,000 mA·ms of each mAh */

static void each_percent(uint16_t full)
{
    set_up(full);
    for (unsigned percent = 1; percent <= 100; percent++) {
        uint64_t least = UINT64_C(36000) * full * percent;
        charge(least - 1);
        CHECK(word(0x0D), percent - 1);
        charge(least);
        CHECK(word(0x0D), percent);
    }
}

/* ---- charge that flows: of 39 million mAh no pack takes more than it holds */

static void charging(uint16_t full)
{
    set_up(full);
    CHECK(snatchblock_answer_of(snatchblock_sample(area, sizeof area, 16000, 32767, 2981, 4294967295u, room,
                                                   SNATCHBLOCK_BROADCAST_ROOM)), SNATCHBLOCK_SERVED);
    CHECK(word(0x0D), 100);
    CHECK(word(0x0F), full);
}

int main(void)
{
    static const uint16_t some[] = {1, 2, 3, 7, 99, 100, 101, 3999, 4000, 4001, 32767, 32768, 65534, 65535};
    for (uint32_t full = 1; full <= 65535; full++)
        about_full((uint16_t)full);
    for (size_t i = 0; i < sizeof some / sizeof *some; i++) {
        each_percent(some[i]);
        charging(some[i]);
    }
    return checked("hundred");
}
