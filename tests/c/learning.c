/* Cycles and the learned full capacity, held to figures worked by hand from request R-4; what the area keeps of them,
 * and which areas are sound. 1 mAh is 3,600,000 mA·ms. */
#include "check.h"
#include "snatchblock.h"

#include <string.h>

enum { DESIGN = 100, LIMIT = 12000, CYCLES = SNATCHBLOCK_TANK + 10, DISCHARGED = SNATCHBLOCK_TANK + 12 };
enum { TOWARD = SNATCHBLOCK_TANK + 13, DRAWN = SNATCHBLOCK_TANK + 21, OPEN = SNATCHBLOCK_TANK + 29 };

/* One design capacity, and the most that a run counts, 65,535 mAh, in mA·ms. */
#define ONE_CYCLE UINT64_C(360000000)
#define RUN_MOST UINT64_C(235926000000)

/* ---- the pack */

static uint8_t area[SNATCHBLOCK_AREA], room[SNATCHBLOCK_REPLY_ROOM];
static uint32_t counter;

/* A pack of 100 mAh by design, so many of them left; below 12,000 mV it is empty. */
static void set_up_for(bool plain, uint16_t remaining, uint16_t cycles)
{
    counter = 4294967000u; /* over the counter's wrap */
    memset(area, 0xA5, sizeof area);
    CHECK(snatchblock_set_up(area, sizeof area, DESIGN, DESIGN, remaining, 14800, 2, cycles, 0x526F, 17, 2000, 16800,
                             3182, LIMIT, plain, 14800, 0, 2981, counter), 0);
}

static void set_up(uint16_t remaining, uint16_t cycles)
{
    set_up_for(false, remaining, cycles);
}

static uint32_t sample_in(size_t room_length, uint16_t voltage, int16_t current, uint32_t reading)
{
    return snatchblock_sample(area, sizeof area, voltage, current, 2981, reading, room, room_length);
}

/* A current that flowed for so many ms, at the limit or just below it; the broadcasts' bytes. */
static size_t flow_at(uint16_t voltage, int16_t current, uint32_t ms)
{
    counter += ms;
    uint32_t result = sample_in(SNATCHBLOCK_BROADCAST_ROOM, voltage, current, counter);
    CHECK(snatchblock_answer_of(result), SNATCHBLOCK_SERVED);
    CHECK(snatchblock_sound(area, sizeof area), true);
    return snatchblock_length_of(result);
}

static size_t flow(int16_t current, uint32_t ms)
{
    return flow_at(LIMIT, current, ms);
}

static size_t low(int16_t current, uint32_t ms)
{
    return flow_at(LIMIT - 1, current, ms);
}

static uint32_t transact(bool read, const uint8_t *bytes, size_t length)
{
    static const uint8_t no_names[1] = {0};
    return snatchblock_transact(area, sizeof area, no_names, 1, no_names, 1, read, bytes, length, room, sizeof room);
}

#include "words.h"

#include "fields.h"

static void counts_at(int line, uint16_t cycles, uint64_t toward)
{
    check_at(line, "CycleCount", word(0x17), cycles);
    check_at(line, "its bytes", number_at(CYCLES, 2), cycles);
    check_at(line, "toward the next", number_at(TOWARD, 8), toward);
}
#define COUNTS(cycles, toward) counts_at(__LINE__, cycles, toward)

static void run_at(int line, bool open, uint64_t drawn)
{
    check_at(line, "a run is open", area[OPEN], open);
    check_at(line, "drawn in it", number_at(DRAWN, 8), drawn);
}
#define RUN(open, drawn) run_at(__LINE__, open, drawn)

/* What a close leaves, beside full: charge 0, bit 4, no run. */
static void learned_at(int line, uint16_t full)
{
    run_at(line, false, 0);
    check_at(line, "FullChargeCapacity", word(0x10), full);
    check_at(line, "RemainingCapacity", word(0x0F), 0);
    check_at(line, "charge", number_at(SNATCHBLOCK_TANK, 8), 0);
    check_at(line, "FULLY_DISCHARGED", word(0x16) & 0x10, 0x10);
}
#define LEARNED(full) learned_at(__LINE__, full)

/* ---- cycles */

static void cycles(void)
{
    set_up(0, 7); /* an empty pack: what is drawn counts all the same */
    COUNTS(7, 0);
    flow(-1000, 359999);
    flow(-999, 1);
    COUNTS(7, ONE_CYCLE - 1);
    flow(-1, 1);
    COUNTS(8, 0);
    flow(32767, 4294967295u); /* charging and rest draw nothing */
    flow(0, 4294967295u);
    COUNTS(8, 0);
    flow(-1000, 400000); /* 400,000,000 less one cycle */
    COUNTS(9, 40000000);
    flow(-1000, 320000);
    COUNTS(10, 0);
    flow(-2000, 360000);
    COUNTS(12, 0);
}

/* 32,768 mA for 2^32 - 1 ms are 140,737,488,322,560 mA·ms: 390,937 x 360,000,000 and 168,322,560. */
static void many_cycles(void)
{
    set_up(50, 65533);
    flow(-3600, 100000);
    COUNTS(65534, 0);
    flow(-3600, 250000); /* two and a half: the count stops, the rest is kept */
    COUNTS(65535, 180000000);
    flow(-3600, 49999);
    COUNTS(65535, 359996400);
    flow(-3600, 1);
    COUNTS(65535, 0);
    flow(-32768, 4294967295u);
    COUNTS(65535, 168322560);
    set_up(50, 0);
    flow(-32768, 4294967295u);
    COUNTS(65535, 168322560);
    /* 4,000 mAh by design: 9,773 x 14,400,000,000 and 6,288,322,560 */
    put(SNATCHBLOCK_SETTINGS, 2, 4000);
    put(CYCLES, 2, 10);
    put(TOWARD, 8, 0);
    flow(-32768, 4294967295u);
    COUNTS(9783, 6288322560);
}

/* ---- runs */

static void runs_open(void)
{
    set_up(99, 0);
    RUN(false, 0);
    low(-1000, 3600); /* none is open, none closes */
    CHECK(word(0x0F), 98);
    CHECK(word(0x10), DESIGN);
    flow(1000, 7199);
    RUN(false, 0);
    flow(1000, 1);
    RUN(true, 0);
    set_up(100, 0);
    RUN(true, 0);
    flow(-1000, 36000);
    low(0, 36000);
    RUN(true, 36000000);
    flow(1000, 36000); /* full again */
    RUN(true, 0);
    flow(-1000, 36000);
    flow(32767, 36000);
    RUN(true, 0);
}

/* Charged between, but not to full: nothing is learned. */
static void run_ends(void)
{
    set_up(100, 0);
    flow(-1000, 36000);
    flow(1000, 35999);
    RUN(false, 0);
    low(-1000, 36000);
    RUN(false, 0);
    CHECK(word(0x10), DESIGN);
    CHECK(number_at(SNATCHBLOCK_TANK, 8), ONE_CYCLE - 36001000);
    CHECK(area[DISCHARGED], 0);
    set_up(100, 0);
    flow(-1, 1);
    flow(1, 0); /* and so in no time */
    RUN(false, 0);
}

/* 10 mAh, 10 mAh and 35,999,000 mA·ms: 29 whole mAh. The alarm has bits 11, 9, 8, 7, 6 and 4, and the low four. */
static void run_closes(void)
{
    set_up_for(true, 100, 3); /* the alarm is looked at, in its four bytes */
    flow(-1000, 36000);
    flow(-1000, 36000);
    RUN(true, 72000000);
    CHECK(word(0x0F), 80);
    CHECK(low(-1000, 35999), 12);
    CHECK(memcmp(room, "\x10\x16\xDF\x0B", 4), 0);
    LEARNED(29);
    COUNTS(3, 107999000);
    low(-1000, 36000); /* none is open now */
    LEARNED(29);
    flow(1000, 104399); /* 29 mAh are 104,400,000 mA·ms */
    RUN(false, 0);
    flow(1000, 1);
    RUN(true, 0);
    CHECK(word(0x0D), 100);
    CHECK(word(0x0E), 29);
    low(-2000, 36000); /* at the first sample after full */
    LEARNED(20);
    /* drawn since full, not since set-up */
    set_up(40, 0);
    flow(-1000, 36000);
    flow(1000, 360000);
    flow(-1000, 36000);
    low(-1000, 36000);
    LEARNED(20);
    COUNTS(0, 108000000);
}

static void at_full(void)
{
    set_up(100, 0);
    low(-1000, 0); /* TERMINATE_DISCHARGE, and still full */
    CHECK(word(0x16) & 0x0830, 0x0820);
    RUN(true, 0);
    CHECK(word(0x10), DESIGN);
    CHECK(word(0x0F), DESIGN);
}

/* 1 mA·ms is no mAh; 30,000 x 7,864,199 and 29,999 are one mA·ms less than 65,535 mAh. */
static void least_and_most(void)
{
    set_up(100, 0);
    low(-1, 1);
    LEARNED(1);
    set_up(100, 0);
    low(-1, 7199999);
    LEARNED(1);
    set_up(100, 0);
    low(-1, 7200000);
    LEARNED(2);
    set_up(100, 0);
    flow(-30000, 7864199);
    flow(-29999, 1);
    RUN(true, RUN_MOST - 1);
    low(-1, 0);
    LEARNED(65534);
    set_up(100, 0);
    flow(-30000, 7864199);
    flow(-30000, 1);
    RUN(true, RUN_MOST);
    flow(-32768, 4294967295u);
    RUN(true, RUN_MOST);
    low(-1, 1);
    LEARNED(65535);
    set_up(100, 0);
    low(-32768, 4294967295u);
    LEARNED(65535);
}

/* 150 mAh come out of 100; then 0E passes 100 and 0D doesn't. What the host wrote stays. */
static void above_design(void)
{
    static const uint8_t write[4] = {0x16, 0x01, 33, 0};
    set_up(100, 0);
    CHECK(transact(false, write, sizeof write), 0);
    flow(-1000, 539999);
    low(-1000, 1);
    LEARNED(150);
    COUNTS(1, 180000000);
    flow(1000, 540000);
    CHECK(word(0x0F), 150);
    CHECK(word(0x0E), 150);
    CHECK(word(0x0D), 100);
    CHECK(word(0x18), DESIGN);
    CHECK(word(0x01), 33);
    RUN(true, 0);
}

/* ---- the area */

static uint32_t any_sample(void)
{
    return sample_in(sizeof room, 14800, 0, counter);
}

#include "sound.h"

static void soundness(void)
{
    static const size_t flags[] = {DISCHARGED, OPEN};
    set_up(100, 0);
    for (size_t i = 0; i < 2; i++) {
        uint8_t before = area[flags[i]];
        for (unsigned flag = 0; flag <= 255; flag++) {
            area[flags[i]] = (uint8_t)flag;
            SOUND(flag <= 1);
        }
        area[flags[i]] = before;
    }
    put(TOWARD, 8, ONE_CYCLE - 1);
    SOUND(true);
    put(TOWARD, 8, ONE_CYCLE);
    SOUND(false);
    for (size_t bit = 29; bit < 64; bit++) { /* 2^29 is above 360,000,000 */
        put(TOWARD, 8, UINT64_C(1) << bit);
        SOUND(false);
    }
    put(TOWARD, 8, 0);
    put(DRAWN, 8, RUN_MOST);
    SOUND(true);
    put(DRAWN, 8, RUN_MOST + 1);
    SOUND(false);
    for (size_t bit = 0; bit < 64; bit++) { /* 2^38 is above 235,926,000,000, 2^37 isn't */
        put(DRAWN, 8, UINT64_C(1) << bit);
        SOUND(bit < 38);
        area[OPEN] = 0;
        SOUND(false);
        area[OPEN] = 1;
    }
    put(DRAWN, 8, 0);
    area[OPEN] = 0; /* full with no run open is sound */
    SOUND(true);
    CHECK(word(0x0D), 100);
}

static void capacities_at(int line, uint16_t remaining, uint16_t full, uint16_t cycles)
{
    check_at(line, "RemainingCapacity", word(0x0F), remaining);
    check_at(line, "FullChargeCapacity", word(0x10), full);
    check_at(line, "CycleCount", word(0x17), cycles);
}
#define CAPACITIES(remaining, full, cycles) capacities_at(__LINE__, remaining, full, cycles)

/* 0D and 0E. */
static void percents_at(int line, uint16_t of_full, uint16_t of_design)
{
    check_at(line, "RelativeStateOfCharge", word(0x0D), of_full);
    check_at(line, "AbsoluteStateOfCharge", word(0x0E), of_design);
}
#define PERCENTS(of_full, of_design) percents_at(__LINE__, of_full, of_design)

/* The worked examples that are proved of the definitions: 4,000 mAh by design, worn to 3,750; -1,000 mA for 3 h 30 min,
 * then for 15 min below the limit, then for 15 min more; charged again, to one ms before full and to full. A minute of
 * charging in place of the close: nothing is learned. */
static void worked_example(void)
{
    uint8_t low_area[sizeof area];
    counter = 0;
    CHECK(snatchblock_set_up(area, sizeof area, 4000, 4000, 4000, 14800, 0, 5, 0, 0, 0, 0, 4000, LIMIT, false, 16000, 0,
                             2981, counter), 0);
    CAPACITIES(4000, 4000, 5);
    PERCENTS(100, 100);
    flow_at(12500, -1000, 12600000);
    CAPACITIES(500, 4000, 5);
    PERCENTS(12, 12);
    memcpy(low_area, area, sizeof area);
    flow_at(11900, -1000, 900000);
    CAPACITIES(0, 3750, 5);
    PERCENTS(0, 0);
    flow_at(11000, -1000, 900000);
    CAPACITIES(0, 3750, 6);
    flow_at(16000, 1000, 13499999);
    PERCENTS(99, 93);
    flow_at(16000, 1000, 1);
    CAPACITIES(3750, 3750, 6);
    PERCENTS(100, 93);
    memcpy(area, low_area, sizeof area);
    counter = 12600000;
    flow_at(15000, 1000, 60000); /* 16 2/3 mAh */
    flow_at(11900, -1000, 900000);
    CAPACITIES(266, 4000, 5);
}

/* Unused bytes of the counts are 0, and a refused sample moves nothing. */
static void places(void)
{
    static const uint8_t tank[30] = {0x00, 0xD9, 0x4F, 0x13, 0, 0, 0, 0, 100, 0, 0x02, 0x01, 0,
                                     0x00, 0x51, 0x25, 0x02, 0, 0, 0, 0, 0x00, 0x51, 0x25, 0x02, 0, 0, 0, 0, 1};
    uint8_t before[sizeof area];
    set_up(100, 258);
    flow(-1000, 36000); /* 324,000,000 mA·ms left, 36,000,000 drawn in both counts */
    CHECK(memcmp(area + SNATCHBLOCK_TANK, tank, sizeof tank), 0);
    CHECK(SNATCHBLOCK_TIMERS, SNATCHBLOCK_TANK + sizeof tank);
    memcpy(before, area, sizeof before);
    CHECK(sample_in(SNATCHBLOCK_BROADCAST_ROOM - 1, LIMIT - 1, -1000, counter + 36000), 2);
    CHECK(memcmp(before, area, sizeof before), 0);
}

int main(void)
{
    cycles();
    many_cycles();
    runs_open();
    run_ends();
    run_closes();
    at_full();
    least_and_most();
    above_design();
    soundness();
    places();
    worked_example();
    return checked("learning");
}
