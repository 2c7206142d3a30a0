/* Minutes that were cut off, held to figures worked by hand from request R-6: commands 05, 06, 11, 12 and 13 show
 * minutes to 65,534, answered 0; beyond that 65,534, answered 10 with error code 5; 65,535 where the rate is 0 or goes
 * the other way, answered 0. Each reply's PEC is worked out here bit by bit; those of FE FF are written out too. */
#include "check.h"
#include "snatchblock.h"

#include <string.h>

enum { REPLY_ROOM = 34 };
#define ROOM_MOST REPLY_ROOM
#include "room.h"

enum { BEYOND = 65534, NOT_MOVING = 65535, CUT_OFF = 10, OVERFLOW_CODE = 5 };

/* The places in the area where a rate comes from, and the mode. */
enum { AT_RATE = SNATCHBLOCK_HOST + 6, POWER = SNATCHBLOCK_HOST + 10, VOLTAGE = SNATCHBLOCK_LATEST,
       CURRENT = SNATCHBLOCK_LATEST + 2, NEWEST = SNATCHBLOCK_RECENT, KEPT = SNATCHBLOCK_RECENT + 240 };

#define PACKED(answer, rest) ((uint32_t)(answer) | (uint32_t)(rest) << 8)

/* ---- the pack */

static uint8_t area[SNATCHBLOCK_AREA];

#include "fields.h"

/* So many of so many mAh, designed for 14,800 mV, at rest; the voltage measured, and the mode. */
static void set_up(uint16_t remaining, uint16_t full, uint16_t millivolts, bool power)
{
    const struct snatchblock_setup setup = {.DesignCapacity = full, .full = full, .remaining = remaining,
                                            .DesignVoltage = 14800, .TemperatureLimit = 3182};
    const struct snatchblock_reading first = {.voltage = millivolts, .temperature = 2981};
    memset(area, MARK, sizeof area);
    CHECK(snatchblock_set_up_from(area, sizeof area, &setup, &first), 0);
    put(POWER, 1, power);
}

static uint32_t transact_in(size_t room_length, bool read, const uint8_t *bytes, size_t length)
{
    static const uint8_t no_names[1] = {0};
    new_room();
    return snatchblock_transact(area, sizeof area, no_names, 1, no_names, 1, read, bytes, length, room, room_length);
}

static uint32_t transact(bool read, const uint8_t *bytes, size_t length)
{
    return transact_in(REPLY_ROOM, read, bytes, length);
}

#include "words.h"

/* The check byte of a read, bit by bit. */
static uint8_t check_byte(const uint8_t exchange[5])
{
    unsigned rest = 0;
    for (size_t i = 0; i < 5; i++) {
        rest ^= exchange[i];
        for (int bit = 0; bit < 8; bit++)
            rest = rest & 0x80 ? rest << 1 ^ 0x107 : rest << 1;
    }
    return (uint8_t)rest;
}

/* Reads a time: its answer, the word and its PEC alone in the room, the code alone in the area. Then BatteryStatus
 * shows that code, and the next time 0. */
static void reads_at(int line, uint8_t command, uint32_t answer, uint16_t shown)
{
    uint8_t exchange[6] = {0x16, command, 0x17, (uint8_t)(shown & 0xFF), (uint8_t)(shown >> 8)};
    uint8_t before[sizeof area];
    exchange[5] = check_byte(exchange);
    area[0] = 3; /* the code of another transaction */
    memcpy(before, area, sizeof area);
    before[0] = answer == CUT_OFF ? OVERFLOW_CODE : 0;
    check_at(line, "answer and length", transact(true, exchange, 3), PACKED(answer, 3));
    check_at(line, "reply", room_is(exchange + 3, 3), true);
    check_at(line, "word", (unsigned)(room[0] | room[1] << 8), shown);
    check_at(line, "code", area[0], before[0]);
    check_at(line, "area", (unsigned)memcmp(before, area, sizeof area), 0);
    check_at(line, "code shown", word(0x16) & 0xF, before[0]);
    check_at(line, "code shown after it", word(0x16) & 0xF, 0);
}
#define READS(command, answer, shown) reads_at(__LINE__, command, answer, shown)

/* ---- the five commands */

/* Where a command finds its rate; the mean is the latest current while no second is complete. */
enum source { OF_HOST, OF_LATEST, OF_MEAN, OF_LATEST_AS_MEAN };
struct command {
    uint8_t command;
    bool to_full;
    enum source source;
};
static const struct command commands[] = {
    {0x05, true, OF_HOST},  {0x06, false, OF_HOST},           {0x11, false, OF_LATEST},
    {0x12, false, OF_MEAN}, {0x12, false, OF_LATEST_AS_MEAN}, {0x13, true, OF_MEAN},
    {0x13, true, OF_LATEST_AS_MEAN},
};
enum { COMMANDS = sizeof commands / sizeof *commands };

/* Lets a rate flow where the command looks for it, above 0 the command's way. Elsewhere it flows so that a look at the
 * wrong place shows: the other way, or where the command has to find it not moving, at a rate that gives minutes. */
static void flow(const struct command *c, int32_t rate)
{
    int32_t sign = c->to_full ? 1 : -1, elsewhere = rate > 0 ? -sign : 1000 * sign;
    bool latest = c->source == OF_LATEST || c->source == OF_LATEST_AS_MEAN;
    put(AT_RATE, 2, c->source == OF_HOST ? sign * rate : elsewhere);
    put(CURRENT, 2, latest ? sign * rate : elsewhere);
    put(NEWEST, 4, 1000 * (c->source == OF_MEAN ? sign * rate : elsewhere)); /* mA·ms of one second */
    put(KEPT, 1, c->source != OF_LATEST_AS_MEAN);
    CHECK(snatchblock_sound(area, sizeof area), true);
}

/* A pack in mAh with so much to go: to empty, or to full. */
static void pack_in_mah(const struct command *c, uint16_t capacity)
{
    set_up(c->to_full ? (uint16_t)(65535 - capacity) : capacity, 65535, 14800, false);
}

/* ---- mAh: 60 x capacity ÷ rate */

static const struct {
    uint16_t capacity, rate, word;
    uint8_t answer;
} in_mah[] = {
    {0, 1, 0, 0},
    {2000, 1000, 120, 0},
    {65533, 60, 65533, 0},      /* 3,931,980 ÷ 60 */
    {14199, 13, 65533, 0},      /* 851,940 ÷ 13, 11 over */
    {32767, 30, 65534, 0},      /* 1,966,020 ÷ 30: exactly the most that the word can say */
    {65534, 60, 65534, 0},      /* 3,932,040 ÷ 60 */
    {62258, 57, 65534, 0},      /* 3,735,480 ÷ 57, 42 over */
    {4369, 4, BEYOND, CUT_OFF}, /* 262,140 ÷ 4: 65,535 */
    {65535, 60, BEYOND, CUT_OFF},
    {33860, 31, BEYOND, CUT_OFF}, /* 2,031,600 ÷ 31: 65,535, 15 over */
    {16384, 15, BEYOND, CUT_OFF}, /* 983,040 ÷ 15: 65,536, in 16 bits 0 */
    {32767, 29, BEYOND, CUT_OFF}, /* 1,966,020 ÷ 29: 67,793, 23 over */
    {2000, 1, BEYOND, CUT_OFF},   /* worked example 9: 120,000 */
    {32768, 15, BEYOND, CUT_OFF}, /* 1,966,080 ÷ 15: 131,072 */
    {65535, 1, BEYOND, CUT_OFF},  /* 3,932,100 */
};

static void borders_in_mah(void)
{
    for (size_t i = 0; i < COMMANDS; i++)
        for (size_t j = 0; j < sizeof in_mah / sizeof *in_mah; j++) {
            pack_in_mah(&commands[i], in_mah[j].capacity);
            flow(&commands[i], in_mah[j].rate);
            READS(commands[i].command, in_mah[j].answer, in_mah[j].word);
        }
}

/* 3,932,100 ÷ 60 is 65,535: with 65,535 mAh to go every rate to 60 is beyond, and none above it. */
static void rates_in_mah(void)
{
    for (size_t i = 0; i < COMMANDS; i++)
        for (int32_t rate = 1; rate <= 200; rate++) {
            pack_in_mah(&commands[i], 65535);
            flow(&commands[i], rate);
            READS(commands[i].command, rate > 60 ? 0 : CUT_OFF, rate > 60 ? (uint16_t)(3932100 / rate) : BEYOND);
        }
}

/* ---- not moving that way */

/* A rate of 0 or of the other sign, in both modes: answered 0, and 05 in mAh alone. */
static void not_moving(void)
{
    static const int32_t rates[] = {0, -1, -60, -1000, -32767};
    for (unsigned power = 0; power < 2; power++)
        for (size_t i = power; i < COMMANDS; i++)
            for (size_t j = 0; j < sizeof rates / sizeof *rates; j++) {
                set_up(2000, 4000, 14800, power);
                flow(&commands[i], rates[j]);
                READS(commands[i].command, 0, NOT_MOVING);
            }
}

/* -32,768 goes one way alone: 60 x 2,000 ÷ 32,768 is 3, worked example 7, 65,535 mAh have 119. */
static void lowest_rate(void)
{
    for (size_t i = 0; i < COMMANDS; i++) {
        const struct command *c = &commands[i];
        set_up(2000, 4000, 14800, false);
        flow(c, c->to_full ? -32768 : 32768);
        READS(c->command, 0, c->to_full ? NOT_MOVING : 3);
        set_up(65535, 65535, 14800, false);
        flow(c, c->to_full ? -32768 : 32768);
        READS(c->command, 0, c->to_full ? NOT_MOVING : 119);
    }
}

/* ---- power mode: capacities in 10 mWh at 14,800 mV, the rate of a current at the latest voltage, here 12,500 mV */

static const struct {
    uint16_t capacity; /* mAh */
    uint16_t current;  /* mA, for 11, 12 and 13 */
    uint16_t rate;     /* the same in 10 mW, AtRate for 06 */
    uint16_t word;
    uint8_t answer;
} in_power_mode[] = {
    {0, 1, 1, 0, 0},
    {9594, 11, 13, 65533, 0},  /* 14,199.12 in 10 mWh, 13.75 in 10 mW: 851,940 ÷ 13, 11 over */
    {22140, 24, 30, 65534, 0}, /* 32,767.2 and 30: 1,966,020 ÷ 30 */
    {12546, 14, 17, 65534, 0}, /* 18,568.08 and 17.5: 1,114,080 ÷ 17, 2 over */
    {22879, 25, 31, BEYOND, CUT_OFF}, /* 33,860.92 and 31.25: 2,031,600 ÷ 31, 65,535, 15 over */
    {22141, 24, 30, BEYOND, CUT_OFF}, /* 32,768.68 and 30: 1,966,080 ÷ 30, 65,536 */
    {30000, 1, 1, BEYOND, CUT_OFF},   /* 44,400 and 1.25: 2,664,000 */
    {44281, 48, 60, BEYOND, CUT_OFF}, /* 65,535.88 and 60: 65,535 */
    {44280, 48, 60, 65534, 0},        /* 65,534.4 and 60 */
};

/* A pack with so many mAh to go: down from them, or up from none, but where none is to go, from full. */
static void pack_in_power_mode(const struct command *c, uint16_t capacity)
{
    if (c->to_full && capacity > 0)
        set_up(0, capacity, 12500, true);
    else
        set_up(c->to_full ? 65535 : capacity, 65535, 12500, true);
}

/* 05 has none of these. */
static void borders_in_power_mode(void)
{
    for (size_t i = 1; i < COMMANDS; i++)
        for (size_t j = 0; j < sizeof in_power_mode / sizeof *in_power_mode; j++) {
            const struct command *c = &commands[i];
            pack_in_power_mode(c, in_power_mode[j].capacity);
            flow(c, c->source == OF_HOST ? in_power_mode[j].rate : in_power_mode[j].current);
            READS(c->command, in_power_mode[j].answer, in_power_mode[j].word);
        }
}

/* What is missing is the difference of two words: of 22,142 and 2 mAh that of 32,770.16 and 2.96, so 32,768, though
 * 22,140 mAh are 32,767. */
static void missing_in_power_mode(void)
{
    for (size_t i = 5; i < COMMANDS; i++) {
        set_up(2, 22142, 12500, true);
        flow(&commands[i], 24);
        READS(0x13, CUT_OFF, BEYOND); /* 65,536 */
        set_up(1, 22141, 12500, true);
        flow(&commands[i], 24);
        READS(0x13, 0, 65534); /* 32,768 - 1 */
    }
}

/* The rate of 11, 12 and 13 rounds to 0: beyond the range the command's way, be nothing left to go, and not moving
 * against it. */
static void rounded_rates(void)
{
    static const struct {
        uint16_t millivolts;
        int32_t current;
    } rounds[] = {{4999, 2}, {9999, 1}, {1, 9999}, {3333, 3}, {0, 1}, {0, 32767}};
    for (size_t i = 2; i < COMMANDS; i++)
        for (size_t j = 0; j < sizeof rounds / sizeof *rounds; j++)
            for (unsigned to_go = 0; to_go < 2; to_go++) {
                const struct command *c = &commands[i];
                set_up(to_go ? 2000 : c->to_full ? 4000 : 0, 4000, rounds[j].millivolts, true);
                flow(c, rounds[j].current);
                READS(c->command, CUT_OFF, BEYOND);
                flow(c, -rounds[j].current);
                READS(c->command, 0, NOT_MOVING);
            }
}

/* Just not rounded to 0, in mAh, and of AtRate, which is in 10 mW and never rounds. */
static void rates_not_rounded(void)
{
    for (size_t i = 2; i < COMMANDS; i++) {
        const struct command *c = &commands[i];
        set_up(c->to_full ? 4000 : 0, 4000, 5000, true); /* 2 mA at 5,000 mV are 10 mW, nothing is left to go */
        flow(c, 2);
        READS(c->command, 0, 0);
        set_up(1000, 2000, 4999, false); /* 60,000 ÷ 2 */
        flow(c, 2);
        READS(c->command, 0, 30000);
    }
    set_up(0, 4000, 0, true);
    flow(&commands[1], 1);
    READS(0x06, 0, 0);
}

/* 05 has no minutes in power mode: 65,535, answered 10 as before, whatever AtRate is. */
static void to_full_in_power_mode(void)
{
    static const int32_t rates[] = {0, 1, 60, 32767, -1, -32768};
    for (size_t j = 0; j < sizeof rates / sizeof *rates; j++)
        for (unsigned full = 0; full < 2; full++) {
            set_up(full ? 4000 : 2000, 4000, 14800, true);
            put(AT_RATE, 2, rates[j]);
            READS(0x05, CUT_OFF, NOT_MOVING);
        }
}

/* ---- the bytes */

static void check_bytes(void)
{
    static const uint8_t replies[][4] = {
        {0x05, 0xFE, 0xFF, 0xB2}, {0x06, 0xFE, 0xFF, 0x88}, {0x11, 0xFE, 0xFF, 0x8D},
        {0x12, 0xFE, 0xFF, 0xB7}, {0x13, 0xFE, 0xFF, 0xA1},
    };
    for (size_t i = 0; i < COMMANDS; i++)
        for (size_t j = 0; j < sizeof replies / sizeof *replies; j++) {
            const uint8_t ask[3] = {0x16, commands[i].command, 0x17};
            if (replies[j][0] != commands[i].command)
                continue;
            pack_in_mah(&commands[i], 4369); /* 65,535 minutes at 4 mA */
            flow(&commands[i], 4);
            CHECK(transact(true, ask, 3), PACKED(CUT_OFF, 3));
            CHECK(room_is(replies[j] + 1, 3), true);
            pack_in_mah(&commands[i], 32767); /* 65,534 at 30 mA: the very same bytes */
            flow(&commands[i], 30);
            CHECK(transact(true, ask, 3), PACKED(0, 3));
            CHECK(room_is(replies[j] + 1, 3), true);
        }
    set_up(2000, 4000, 14800, true);
    CHECK(transact(true, (const uint8_t[]){0x16, 0x05, 0x17}, 3), PACKED(CUT_OFF, 3));
    CHECK(room_is((const uint8_t[]){0xFF, 0xFF, 0xA7}, 3), true);
}

/* ---- the error code */

/* 2,000 of 4,000 mAh and AtRate -1, just read as beyond the range. */
static void cut_off(void)
{
    set_up(2000, 4000, 14800, false);
    write_word(0x04, 0xFFFF);
    CHECK(transact(true, (const uint8_t[]){0x16, 0x06, 0x17}, 3), PACKED(CUT_OFF, 3));
    CHECK(area[0], OVERFLOW_CODE);
}

/* What ends the code: each transaction past answer 3. What leaves it: answers 2 and 3, and a sample. */
static void codes(void)
{
    static const uint8_t ask[3] = {0x16, 0x06, 0x17}, other[3] = {0x14, 0x06, 0x15}, short_read[2] = {0x16, 0x06};
    static const uint8_t write[4] = {0x16, 0x06, 0x01, 0x00}, block[3] = {0x16, 0x20, 0x17};
    cut_off();
    CHECK(transact(true, other, 3), 3);
    CHECK(transact_in(REPLY_ROOM - 1, true, ask, 3), 2);
    CHECK(room_is(NULL, 0), true);
    CHECK(snatchblock_sample(area, sizeof area, 14800, 0, 2981, 1, room, SNATCHBLOCK_BROADCAST_ROOM), 0);
    CHECK(area[0], OVERFLOW_CODE);
    CHECK(word(0x09), 14800); /* a read answered 0 */
    CHECK(word(0x16), 0x00C0);
    cut_off();
    write_word(0x04, 0xFFFE); /* a served write; then 60,000 minutes */
    CHECK(area[0], 0);
    CHECK(word(0x06), 60000);
    cut_off();
    write_word(0x04, 0x8000);
    CHECK(word(0x06), 3);
    CHECK(area[0], 0);
    cut_off();
    CHECK(word(0x05), NOT_MOVING); /* another time, answered 0 */
    CHECK(area[0], 0);
    cut_off();
    CHECK(transact(true, block, 3), PACKED(0, 2));
    CHECK(area[0], 0);
    cut_off();
    CHECK(transact(false, write, 4), 8);
    CHECK(word(0x16), 0x00C4);
    cut_off();
    CHECK(transact(true, short_read, 2), 4);
    CHECK(word(0x16), 0x00C6);
    cut_off();
    CHECK(transact(true, ask, 3), PACKED(CUT_OFF, 3)); /* again, as long as it is asked */
    CHECK(word(0x16), 0x00C5);
    CHECK(word(0x16), 0x00C0);
}

/* Not sound goes before all: 1, and the area stays. */
static void not_sound(void)
{
    uint8_t before[sizeof area];
    cut_off();
    area[0] = 8;
    memcpy(before, area, sizeof area);
    CHECK(transact(true, (const uint8_t[]){0x16, 0x06, 0x17}, 3), 1);
    CHECK(room_is(NULL, 0), true);
    CHECK(memcmp(before, area, sizeof area), 0);
}

/* ---- who else looks at the word */

/* Bit 8 of BatteryStatus: the word 12 against RemainingTimeAlarm, each of its three cases. */
static void time_alarm(void)
{
    static const struct {
        uint16_t remaining; /* of 65,535 mAh */
        int16_t current;    /* no second is complete: the mean too */
        uint8_t answer;
        uint16_t word, alarm, status;
    } cases[] = {
        {32767, -30, 0, 65534, 65535, 0x01C0},        /* exactly 65,534 minutes */
        {32767, -30, 0, 65534, 65534, 0x00C0},
        {4369, -4, CUT_OFF, BEYOND, 65535, 0x01C0},   /* 65,535 minutes */
        {4369, -4, CUT_OFF, BEYOND, 65534, 0x00C0},
        {2000, -1, CUT_OFF, BEYOND, 65535, 0x01C0},   /* 120,000 minutes */
        {2000, -1, CUT_OFF, BEYOND, 65534, 0x00C0},
        {2000, -1, CUT_OFF, BEYOND, 10, 0x00C0},
        {65533, -60, 0, 65533, 65534, 0x01C0},
        {2000, 0, 0, NOT_MOVING, 65535, 0x00C0},      /* 65,535 isn't below 65,535 */
        {2000, 1, 0, NOT_MOVING, 65535, 0x0080},
    };
    for (size_t i = 0; i < sizeof cases / sizeof *cases; i++) {
        set_up(cases[i].remaining, 65535, 14800, false);
        put(CURRENT, 2, cases[i].current);
        write_word(0x01, 0); /* RemainingCapacityAlarm */
        write_word(0x02, cases[i].alarm);
        CHECK(word(0x16), cases[i].status);
        READS(0x12, cases[i].answer, cases[i].word);
        CHECK(word(0x16), cases[i].status);
    }
    /* in power mode 2 mA at 4,999 mV round to 0 */
    set_up(2000, 65535, 4999, true);
    put(CURRENT, 2, -2);
    write_word(0x01, 0);
    write_word(0x02, 65535);
    READS(0x12, CUT_OFF, BEYOND);
    CHECK(word(0x16), 0x01C0);
}

/* The alarm of bit 8 goes, with all four error bits set and the code left as it was. */
static void alarm_goes(void)
{
    static const uint8_t alarm[5] = {0x10, 0x16, 0xCF, 0x01, 0x91};
    set_up(2000, 4000, 14800, false);
    put(CURRENT, 2, -1);
    write_word(0x02, 65535);
    CHECK(transact(true, (const uint8_t[]){0x16, 0x12, 0x17}, 3), PACKED(CUT_OFF, 3));
    new_room();
    CHECK(snatchblock_sample(area, sizeof area, 14800, -1, 2981, 0, room, SNATCHBLOCK_BROADCAST_ROOM), PACKED(0, 5));
    CHECK(room_is(alarm, 5), true);
    CHECK(word(0x16), 0x01C5);
    CHECK(word(0x16), 0x01C0);
}

/* Every other word is answered 0, be it 65,534 or 65,535. */
static void other_words(void)
{
    static const uint8_t others[] = {0x00, 0x01, 0x02, 0x04, 0x08, 0x09, 0x0A, 0x0B, 0x0C,
                                     0x0F, 0x10, 0x14, 0x15, 0x17, 0x18, 0x19, 0x1B, 0x1C};
    static const uint8_t written[] = {0x00, 0x01, 0x02, 0x04};
    for (uint32_t most = 65534; most <= 65535; most++) {
        uint16_t w = (uint16_t)most;
        CHECK(snatchblock_set_up(area, sizeof area, w, w, w, w, w, w, w, w, w, w, w, w, false, w,
                                 (int16_t)((int32_t)most - 65536), w, 0), 0);
        for (size_t i = 0; i < sizeof written; i++)
            write_word(written[i], w);
        for (size_t i = 0; i < sizeof others; i++) {
            READS(others[i], 0, w);
            put(POWER, 1, 1); /* the words of capacity at 65,535 */
            if (others[i] == 0x0F || others[i] == 0x10 || others[i] == 0x18)
                READS(others[i], 0, 65535);
            put(POWER, 1, 0);
        }
        READS(0x11, CUT_OFF, BEYOND);
    }
    set_up(65535, 65535, 14800, false);
    put(SNATCHBLOCK_SETTINGS, 2, 1); /* designed for 1 mAh: 0E at its cap */
    READS(0x0E, 0, 65535);
}

int main(void)
{
    CHECK(SNATCHBLOCK_SERVED_CUT_OFF, CUT_OFF);
    CHECK(snatchblock_served(PACKED(CUT_OFF, 3)), true);
    borders_in_mah();
    rates_in_mah();
    not_moving();
    lowest_rate();
    borders_in_power_mode();
    missing_in_power_mode();
    rounded_rates();
    rates_not_rounded();
    to_full_in_power_mode();
    check_bytes();
    codes();
    not_sound();
    time_alarm();
    alarm_goes();
    other_words();
    return checked("cutoff");
}
