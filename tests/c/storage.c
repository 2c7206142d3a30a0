/* An area kept for sixty days, as the header says to keep one: what the first sample afterwards does to the charge, with
 * current 0 and with another one, by document 01's rule; and which damage of the stored bytes their PEC shows. */
#include "check.h"
#include "snatchblock.h"

#include <stdio.h>
#include <string.h>

enum { STORED = SNATCHBLOCK_AREA + 1, STORED_BITS = 8 * STORED };
enum { CHARGE = SNATCHBLOCK_TANK, TOWARD = CHARGE + 13, COUNTER = SNATCHBLOCK_LATEST + 6 };
enum { FULL = 12000, MS_PER_HOUR = 3600000 };

/* ---- the pack */

static uint8_t area[SNATCHBLOCK_AREA], room[SNATCHBLOCK_REPLY_ROOM];
static uint8_t stored[STORED];

static uint64_t number_at(const uint8_t *at, size_t bytes)
{
    uint64_t value = 0;
    for (size_t i = 0; i < bytes; i++)
        value |= (uint64_t)at[i] << 8 * i;
    return value;
}

static uint64_t charge(void)
{
    return number_at(area + CHARGE, 8);
}

static uint32_t counter(void)
{
    return (uint32_t)number_at(area + COUNTER, 4);
}

static uint32_t sample(int16_t current, uint32_t reading)
{
    const struct snatchblock_reading now = {.voltage = 14800, .current = current, .temperature = 2931, .counter = reading};
    return snatchblock_sample_from(area, sizeof area, &now, room, SNATCHBLOCK_BROADCAST_ROOM);
}

static uint32_t transact(bool read, const uint8_t *bytes, size_t length)
{
    static const uint8_t no_names[1] = {0};
    return snatchblock_transact(area, sizeof area, no_names, 1, no_names, 1, read, bytes, length, room, sizeof room);
}

static void write_mode(uint16_t word)
{
    const uint8_t bytes[4] = {0x16, 0x03, (uint8_t)(word & 0xFF), (uint8_t)(word >> 8)};
    CHECK(snatchblock_answer_of(transact(false, bytes, sizeof bytes)), SNATCHBLOCK_SERVED);
}

static uint16_t read_word(uint8_t command)
{
    const uint8_t bytes[3] = {0x16, command, 0x17};
    CHECK(snatchblock_served(transact(true, bytes, sizeof bytes)), true);
    return (uint16_t)number_at(room, 2);
}

/* A pack of 11,500 of 12,000 mAh that ran an hour at -500 mA; the latest reading is given, and a hold runs. It asks for
 * plain: the bytes of the charger's words are counted. */
static void autumn(uint32_t reading)
{
    const struct snatchblock_setup setup = {
        .DesignCapacity = FULL, .full = FULL, .remaining = 11500, .DesignVoltage = 14400, .ChargingCurrent = 1500,
        .ChargingVoltage = 16800, .TemperatureLimit = 3182, .DischargeLimit = 12300, .plain = true};
    const struct snatchblock_reading first = {.voltage = 14800, .temperature = 2931, .counter = reading - MS_PER_HOUR};
    CHECK(snatchblock_set_up_from(area, sizeof area, &setup, &first), 0);
    CHECK(snatchblock_answer_of(sample(-500, reading)), SNATCHBLOCK_SERVED);
    write_mode(0x2000);
    CHECK(charge(), 11000ull * MS_PER_HOUR);
    memcpy(stored, area, sizeof area);
    stored[SNATCHBLOCK_AREA] = snatchblock_pec(area, sizeof area);
}

static bool matches(const uint8_t *bytes)
{
    return snatchblock_pec(bytes, SNATCHBLOCK_AREA) == bytes[SNATCHBLOCK_AREA];
}

static void spring(void)
{
    memset(area, 0xFF, sizeof area);
    CHECK(matches(stored), true);
    memcpy(area, stored, sizeof area);
    CHECK(snatchblock_sound(area, sizeof area), true);
}

/* ---- document 01's rule, written out: current x elapsed, held between 0 and full */

static uint64_t by_rule(uint64_t before, int16_t current, uint64_t elapsed)
{
    uint64_t most = (uint64_t)FULL * MS_PER_HOUR;
    uint64_t moved = (uint64_t)(current < 0 ? -(int32_t)current : current) * elapsed;
    if (current < 0)
        return moved > before ? 0 : before - moved;
    return moved > most - before ? most : before + moved;
}

static const uint32_t readings[] = {0, 1, 999, 1000, 3600000, 889032704, 2147483647, 2147483648u, 4294967294u, 4294967295u};
enum { READINGS = sizeof readings / sizeof *readings };

/* The header's way: the first sample has current 0, whatever the counter says now; the second counts from it. */
static void with_a_sample_of_no_current(void)
{
    static const int16_t currents[] = {-32768, -2000, -10, -1, 1, 10, 1500, 32767};
    for (size_t i = 0; i < READINGS; i++)
        for (size_t j = 0; j < READINGS; j++)
            for (size_t k = 0; k < sizeof currents / sizeof *currents; k++) {
                autumn(readings[i]);
                spring();
                uint64_t before = charge();
                write_mode(0);
                CHECK(snatchblock_answer_of(sample(0, readings[j])), SNATCHBLOCK_SERVED);
                CHECK(charge(), before);
                CHECK(number_at(area + TOWARD, 8), 500ull * MS_PER_HOUR); /* autumn's hour, and nothing since */
                CHECK(counter(), readings[j]);
                CHECK(snatchblock_answer_of(sample(currents[k], readings[j] + 1000)), SNATCHBLOCK_SERVED);
                CHECK(charge(), by_rule(before, currents[k], 1000));
                CHECK(snatchblock_sound(area, sizeof area), true);
            }
}

/* The trap: a first sample with another current adds that current over whatever the counter shows. */
static void without_it(void)
{
    const uint64_t sixty_days = 60ull * 24 * MS_PER_HOUR, turn = 1ull << 32;
    const uint64_t truth = 11000ull * MS_PER_HOUR;
    /* the counter ran on through sixty days at 10 mA: 14,400 mAh flowed, one turn of 11,930 is missed */
    autumn(5000);
    spring();
    CHECK(snatchblock_answer_of(sample(-10, (uint32_t)(5000 + sixty_days))), SNATCHBLOCK_SERVED);
    CHECK(charge(), by_rule(truth, -10, sixty_days - turn));
    CHECK(by_rule(truth, -10, sixty_days), 0);
    CHECK(read_word(0x0D), 100 * by_rule(truth, -10, sixty_days - turn) / ((uint64_t)FULL * MS_PER_HOUR));
    /* the counter restarted: one second of 10 mA is counted as a turn less an hour, and the pack reads empty */
    autumn(MS_PER_HOUR);
    spring();
    CHECK(snatchblock_answer_of(sample(-10, 1000)), SNATCHBLOCK_SERVED);
    CHECK(charge(), by_rule(truth, -10, turn - MS_PER_HOUR + 1000));
    CHECK(read_word(0x0D), 0);
    CHECK(by_rule(truth, -10, 1000) / MS_PER_HOUR, 10999); /* what the rule gives for the true second */
    /* and counts a cycle: 10 x 4,291,368,296 and autumn's 1,800,000,000 mA·ms are 1,513,682,960 more than 12,000 mAh */
    CHECK(read_word(0x17), 1);
    CHECK(number_at(area + TOWARD, 8), 1513682960);
    /* and on the charger it reads full */
    autumn(MS_PER_HOUR);
    spring();
    CHECK(snatchblock_answer_of(sample(10, 1000)), SNATCHBLOCK_SERVED);
    CHECK(charge(), by_rule(truth, 10, turn - MS_PER_HOUR + 1000));
    CHECK(charge(), (uint64_t)FULL * MS_PER_HOUR);
}

/* A hold that ran into the storage: the write of BatteryMode ends it, and so does a counter a minute on. */
static void the_hold(void)
{
    autumn(70000);
    spring();
    CHECK(read_word(0x03), 0x2000);
    write_mode(0);
    CHECK(number_at(area + SNATCHBLOCK_TIMERS, 4), 0);
    autumn(70000);
    spring();
    CHECK(snatchblock_length_of(sample(0, 130000)), 8); /* the charger's words are due as well */
    CHECK(read_word(0x03), 0);
    CHECK(number_at(area + SNATCHBLOCK_TIMERS + 4, 4), 10000);
}

/* ---- what the PEC shows of stored bytes */

static uint8_t damaged[STORED];

/* Place 0 is the high bit of the first byte, as the PEC reads them. */
static void flip(size_t place)
{
    damaged[place / 8] ^= (uint8_t)(0x80 >> place % 8);
}

/* Every alteration within eight neighbouring bits, single bits among them. */
static void bursts(void)
{
    unsigned long tried = 0, unseen = 0;
    for (size_t from = 0; from < STORED_BITS; from++)
        for (unsigned more = 0; more < 128; more++) {
            if (from + 8 > STORED_BITS && more >> (STORED_BITS - from - 1) != 0)
                continue;
            memcpy(damaged, stored, sizeof damaged);
            flip(from);
            for (size_t i = 0; i < 7; i++)
                if (more >> i & 1)
                    flip(from + 1 + i);
            tried++;
            unseen += matches(damaged);
        }
    CHECK(tried, 128ul * (STORED_BITS - 7) + 127);
    CHECK(unseen, 0);
}

/* Every two bits: seen unless they stand a multiple of 127 apart. */
static void pairs(void)
{
    unsigned long wrong = 0;
    memcpy(damaged, stored, sizeof damaged);
    for (size_t i = 0; i < STORED_BITS; i++)
        for (size_t j = i + 1; j < STORED_BITS; j++) {
            flip(i);
            flip(j);
            wrong += matches(damaged) != ((j - i) % 127 == 0);
            flip(i);
            flip(j);
        }
    CHECK(wrong, 0);
    CHECK(memcmp(damaged, stored, sizeof damaged), 0);
}

static uint64_t drawn = 20211115;

static size_t some_place(void)
{
    drawn = drawn * 6364136223846793005u + 1442695040888963407u;
    return (size_t)((drawn >> 33) % STORED_BITS);
}

/* Many bits at random places: odd numbers are all seen, of even ones about one in 128 isn't. */
static unsigned unseen_of(unsigned bits, unsigned tries)
{
    unsigned unseen = 0;
    for (unsigned i = 0; i < tries; i++) {
        memcpy(damaged, stored, sizeof damaged);
        for (unsigned done = 0; done < bits;) {
            size_t place = some_place();
            if (((damaged[place / 8] ^ stored[place / 8]) & 0x80 >> place % 8) != 0)
                continue; /* altered already */
            flip(place);
            done++;
        }
        unseen += matches(damaged);
    }
    return unseen;
}

static void many_bits(void)
{
    for (unsigned bits = 3; bits <= 15; bits += 2)
        CHECK(unseen_of(bits, 20000), 0);
    for (unsigned bits = 4; bits <= 16; bits += 2) {
        unsigned unseen = unseen_of(bits, 128000);
        if (unseen < 850 || unseen > 1150)
            printf("storage: of 128000 damages of %u bits %u aren't seen\n", bits, unseen);
        CHECK(unseen >= 850 && unseen <= 1150, true);
    }
}

/* Soundness is no test of damage: most single bits leave a sound state. Nor is the PEC of a blank memory. */
static void sound_is_no_test(void)
{
    unsigned sound = 0;
    for (size_t place = 0; place < 8 * SNATCHBLOCK_AREA; place++) {
        memcpy(damaged, stored, sizeof damaged);
        flip(place);
        sound += snatchblock_sound(damaged, SNATCHBLOCK_AREA);
    }
    CHECK(2 * sound > 8 * SNATCHBLOCK_AREA, true);
    memset(damaged, 0, sizeof damaged);
    CHECK(matches(damaged), true);
    CHECK(snatchblock_sound(damaged, SNATCHBLOCK_AREA), false);
    memset(damaged, 0xFF, sizeof damaged);
    CHECK(snatchblock_sound(damaged, SNATCHBLOCK_AREA), false);
}

int main(void)
{
    with_a_sample_of_no_current();
    without_it();
    the_hold();
    autumn(3600000);
    bursts();
    pairs();
    many_bits();
    sound_is_no_test();
    return checked("storage");
}
