/* Areas of the versions before: each is answered 1 as it is, and goes on in this version as the header says. The bytes
 * are those that versions 1, 2 and 3 stored, laid out by hand from their headers. */
#include "check.h"
#include "snatchblock.h"

#include <string.h>

/* Versions 1 and 2 have these places; in version 3 the tank's counts stand before TIMERS. */
enum { OLD_SETTINGS = 1, OLD_HOST = 19, OLD_LATEST = 30, OLD_TANK = 40, OLD_TIMERS = 53, OLD_RECENT = 65 };
enum { VERSION_1 = 186, VERSION_2 = 312, VERSION_3 = 329, COUNTS = 17 };
enum { WITH_PEC = 0, PLAIN = 1, PLAIN_ROOM = 16 };

static uint8_t area[SNATCHBLOCK_AREA], room[SNATCHBLOCK_REPLY_ROOM];
static const uint8_t no_names[1] = {0};

/* ---- an area of before */

/* 1,500 of 4,000 mAh (5,400,000,000 mA·ms), 7 cycles; latest 14,000 mV, -1,000 mA, 298.1 K, counter 3,000; 01 is 1,234,
 * 02 is 10; the alarm timer is at 10,000 ms, the charger timer at 2,300. */
static const uint8_t front[OLD_RECENT] = {
    0, 0xA0, 0x0F, 0xD0, 0x39, 2, 0, 0x6F, 0x52, 17, 0, 0xD0, 0x07, 0xA0, 0x41, 0x6E, 0x0C, 0xF8, 0x2A,
    0, 0, 0xD2, 0x04, 10, 0, 0, 0, 0, 0, 0,
    0xB0, 0x36, 0x18, 0xFC, 0xA5, 0x0B, 0xB8, 0x0B, 0, 0,
    0x00, 0xF6, 0xDD, 0x41, 1, 0, 0, 0, 0xA0, 0x0F, 7, 0, 0,
    0, 0, 0, 0, 0x10, 0x27, 0, 0, 0xFC, 0x08, 0, 0};

/* The newest sample's current first, and one byte for how many: two, of -1,000 and of 500 mA. */
static void version_1(uint8_t old[VERSION_1])
{
    static const uint8_t currents[4] = {0x18, 0xFC, 0xF4, 0x01};
    memset(old, 0, VERSION_1);
    memcpy(old, front, sizeof front);
    memcpy(old + OLD_RECENT, currents, sizeof currents);
    old[VERSION_1 - 1] = 2;
}

/* Seconds of -1,000,000 and 500,000 mA·ms, two, and 300 ms begun with -300,000 mA·ms. */
static void version_2(uint8_t old[VERSION_2])
{
    static const uint8_t totals[8] = {0xC0, 0xBD, 0xF0, 0xFF, 0x20, 0xA1, 0x07, 0x00};
    static const uint8_t end[7] = {2, 0x2C, 0x01, 0x20, 0x6C, 0xFB, 0xFF};
    memset(old, 0, VERSION_2);
    memcpy(old, front, sizeof front);
    memcpy(old + OLD_RECENT, totals, sizeof totals);
    memcpy(old + VERSION_2 - sizeof end, end, sizeof end);
}

/* 1,000 mAh (3,600,000,000 mA·ms) toward the next cycle, and a run of 2,500 mAh (9,000,000,000). */
static const uint8_t counts[COUNTS] = {0x00, 0xA4, 0x93, 0xD6, 0, 0, 0, 0, 0x00, 0x1A, 0x71, 0x18, 2, 0, 0, 0, 1};
static const uint8_t no_counts[COUNTS] = {0};

/* The same minute. */
static void version_3(uint8_t old[VERSION_3])
{
    uint8_t before[VERSION_2];
    version_2(before);
    memcpy(old, before, OLD_TIMERS);
    memcpy(old + OLD_TIMERS, counts, COUNTS);
    memcpy(old + OLD_TIMERS + COUNTS, before + OLD_TIMERS, VERSION_2 - OLD_TIMERS);
}

/* ---- how one goes on, word by word as the header says it */

static size_t filled;

static void take(const uint8_t *bytes, size_t length)
{
    memcpy(area + filled, bytes, length);
    filled += length;
}

static void zeros(size_t length)
{
    memset(area + filled, 0, length);
    filled += length;
}

/* The first 19 bytes, and the one that is new. */
static void begin(const uint8_t *old, uint8_t plain)
{
    memset(area, 0xA5, sizeof area);
    filled = 0;
    take(old, 19);
    take(&plain, 1);
}

static void from_version_1(uint8_t plain)
{
    uint8_t old[VERSION_1];
    version_1(old);
    begin(old, plain);
    take(old + 19, 34);
    zeros(17);
    take(old + 53, 12);
    zeros(sizeof area - filled);
}

static void from_version_2(uint8_t plain)
{
    uint8_t old[VERSION_2];
    version_2(old);
    begin(old, plain);
    take(old + 19, 34);
    zeros(17);
    take(old + 53, sizeof old - 53);
    CHECK(filled, sizeof area);
}

static void from_version_3(uint8_t plain)
{
    uint8_t old[VERSION_3];
    version_3(old);
    begin(old, plain);
    take(old + 19, sizeof old - 19);
    CHECK(filled, sizeof area);
}

/* ---- the pack */

static uint32_t sample_in(size_t room_length, uint16_t voltage, int16_t current, uint32_t counter)
{
    return snatchblock_sample(area, sizeof area, voltage, current, 2981, counter, room, room_length);
}

static uint32_t sample(uint16_t voltage, int16_t current, uint32_t counter)
{
    return sample_in(SNATCHBLOCK_BROADCAST_ROOM, voltage, current, counter);
}

static uint16_t word(uint8_t command)
{
    const uint8_t ask[3] = {0x16, command, 0x17};
    CHECK(snatchblock_transact(area, sizeof area, no_names, 1, no_names, 1, true, ask, 3, room, sizeof room), 3u << 8);
    return (uint16_t)(room[0] | room[1] << 8);
}

static void refused_at(int line, uint8_t *old, size_t length)
{
    static const uint8_t ask[3] = {0x16, 0x0F, 0x17};
    uint8_t before[VERSION_3];
    memcpy(before, old, length);
    uint32_t read = snatchblock_transact(old, length, no_names, 1, no_names, 1, true, ask, 3, room, sizeof room);
    check_at(line, "sound", snatchblock_sound(old, length), false);
    check_at(line, "a read", read, 1);
    check_at(line, "a sample", snatchblock_sample(old, length, 14000, 0, 2981, 3000, room, sizeof room), 1);
    check_at(line, "its bytes", (unsigned)memcmp(before, old, length), 0);
}

static void as_they_are(void)
{
    uint8_t first[VERSION_1], second[VERSION_2], third[VERSION_3];
    version_1(first);
    version_2(second);
    version_3(third);
    refused_at(__LINE__, first, sizeof first);
    refused_at(__LINE__, second, sizeof second);
    refused_at(__LINE__, third, sizeof third);
    CHECK(SNATCHBLOCK_AREA, VERSION_3 + 1);
}

/* The parts stand where the header has them now, and the pack shows what it showed. */
static void the_same_pack(uint8_t plain, const uint8_t drawn[COUNTS])
{
    CHECK(snatchblock_sound(area, sizeof area), true);
    CHECK(area[SNATCHBLOCK_PLAIN], plain);
    CHECK(snatchblock_message_length(area), plain == PLAIN ? 4 : 5);
    CHECK(memcmp(area + SNATCHBLOCK_SETTINGS, front + OLD_SETTINGS, OLD_HOST - OLD_SETTINGS), 0);
    CHECK(memcmp(area + SNATCHBLOCK_HOST, front + OLD_HOST, OLD_LATEST - OLD_HOST), 0);
    CHECK(memcmp(area + SNATCHBLOCK_LATEST, front + OLD_LATEST, OLD_TANK - OLD_LATEST), 0);
    CHECK(memcmp(area + SNATCHBLOCK_TANK, front + OLD_TANK, OLD_TIMERS - OLD_TANK), 0);
    CHECK(memcmp(area + SNATCHBLOCK_TANK + 13, drawn, COUNTS), 0);
    CHECK(memcmp(area + SNATCHBLOCK_TIMERS, front + OLD_TIMERS, OLD_RECENT - OLD_TIMERS), 0);
    CHECK(word(0x01), 1234);
    CHECK(word(0x09), 14000);
    CHECK(word(0x0A), 0x10000 - 1000);
    CHECK(word(0x0F), 1500);
    CHECK(word(0x10), 4000);
    CHECK(word(0x17), 7);
}

/* The charger's words at 2,300 + 27,700 ms: in plain as before, in the room of before; else with PECs, which are of a
 * long division done elsewhere, bit by bit. */
static void goes_on_broadcasting(uint8_t plain)
{
    static const uint8_t words[] = {0x12, 0x14, 0xD0, 0x07, 0xED, 0x12, 0x15, 0xA0, 0x41, 0xF1};
    static const uint8_t words_in_plain[] = {0x12, 0x14, 0xD0, 0x07, 0x12, 0x15, 0xA0, 0x41};
    CHECK(snatchblock_answer_of(sample(14000, -1000, 3000 + 27699)), 0);
    if (plain == PLAIN) {
        CHECK(sample_in(PLAIN_ROOM, 14000, 0, 3000 + 27700), 8u << 8);
        CHECK(memcmp(room, words_in_plain, 8), 0);
        return;
    }
    CHECK(sample_in(PLAIN_ROOM, 14000, 0, 3000 + 27700), 2);
    CHECK(sample(14000, 0, 3000 + 27700), 10u << 8);
    CHECK(memcmp(room, words, 10), 0);
}

/* Charge and cycles go on from 30,700 ms; no run is open, so none closes until the pack was full. */
static void goes_on_counting(void)
{
    CHECK(snatchblock_answer_of(sample(10999, -1000, 30700 + 3572301)), 0); /* 3,600,000,000 mA·ms since it went on */
    CHECK(word(0x0F), 500);
    CHECK(word(0x10), 4000);
    CHECK(word(0x17), 7);
    CHECK(snatchblock_answer_of(sample(10999, -3000, 3603001 + 3599999)), 0); /* 3,000 mA·ms short of a cycle */
    CHECK(word(0x17), 7);
    CHECK(snatchblock_answer_of(sample(10999, -3000, 7203001)), 0);
    CHECK(word(0x17), 8);
    CHECK(word(0x10), 4000);
    CHECK(snatchblock_answer_of(sample(16000, 4000, 7203001 + 3600000)), 0);
    CHECK(word(0x0F), 4000);
    CHECK(snatchblock_answer_of(sample(10999, -3900, 10803001 + 3600000)), 0); /* the first run: 3,900 mAh */
    CHECK(word(0x10), 3900);
    CHECK(word(0x0F), 0);
}

/* Of version 3 the counts go on, and the run closes: 27,699,000 mA·ms before 30,700 ms, and 3,572,301,000 after it. */
static void goes_on_learning(void)
{
    CHECK(snatchblock_answer_of(sample(10999, -1000, 30700 + 3572301)), 0);
    CHECK(word(0x0F), 0);
    CHECK(word(0x10), 3500);
    CHECK(word(0x17), 7);
    CHECK(snatchblock_answer_of(sample(10999, -2000, 3603001 + 3599999)), 0); /* 2,000 mA·ms short of a cycle */
    CHECK(word(0x17), 7);
    CHECK(snatchblock_answer_of(sample(10999, -2000, 7203001)), 0);
    CHECK(word(0x17), 8);
    CHECK(word(0x10), 3500);
}

/* Of version 1 no second is complete; of 2 and 3 the minute goes on: -500,000 ÷ 2,000; 700 ms complete a third. */
static void the_minute(void)
{
    from_version_1(PLAIN);
    CHECK(word(0x0B), 0x10000 - 1000);
    CHECK(snatchblock_answer_of(sample(14000, 20, 4000)), 0);
    CHECK(word(0x0B), 20);
    for (int version = 2; version <= 3; version++) {
        if (version == 2)
            from_version_2(PLAIN);
        else
            from_version_3(PLAIN);
        CHECK(word(0x0B), 0x10000 - 250);
        CHECK(snatchblock_answer_of(sample(14000, 0, 3700)), 0);
        CHECK(word(0x0B), 0x10000 - 266); /* -800,000 ÷ 3,000 */
    }
}

/* Each version with either byte; any other byte is no flag. */
static void each_version(void)
{
    for (uint8_t plain = WITH_PEC; plain <= PLAIN; plain++) {
        from_version_1(plain);
        the_same_pack(plain, no_counts);
        goes_on_broadcasting(plain);
        goes_on_counting();
        from_version_2(plain);
        the_same_pack(plain, no_counts);
        goes_on_broadcasting(plain);
        goes_on_counting();
        from_version_3(plain);
        the_same_pack(plain, counts);
        goes_on_broadcasting(plain);
        goes_on_learning();
    }
    from_version_3(2);
    CHECK(snatchblock_sound(area, sizeof area), false);
    CHECK(sample(14000, 0, 4000), 1);
}

int main(void)
{
    as_they_are();
    each_version();
    the_minute();
    return checked("upgrade");
}
