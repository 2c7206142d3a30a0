/* The minute in AverageCurrent, held to figures worked by hand from request R-2: the mean over the last 60 complete
 * seconds, however samples cut them; what the area keeps of it; and which areas are sound. */
#include "check.h"
#include "snatchblock.h"

#include <string.h>

/* The last part of the area: 60 totals of four bytes, how many are kept, the begun second's ms and its total. */
enum { SECONDS = 60, TOTALS = SNATCHBLOCK_RECENT, COUNT = TOTALS + 4 * SECONDS };
enum { BEGUN_MS = COUNT + 1, BEGUN = BEGUN_MS + 2, END = BEGUN + 4 };

#define PACKED(answer, rest) ((unsigned long long)(answer) | (unsigned long long)(rest) << 8)

/* ---- the pack */

static uint8_t area[SNATCHBLOCK_AREA], room[SNATCHBLOCK_REPLY_ROOM];
static uint32_t counter;

/* Remaining of 4,000 mAh; the first sample's current and the counter's reading. */
static void set_up_for(bool plain, uint16_t remaining, int16_t current, uint32_t reading)
{
    counter = reading;
    memset(area, 0xA5, sizeof area);
    CHECK(snatchblock_set_up(area, sizeof area, 4000, 4000, remaining, 14800, 2, 7, 0x526F, 17, 2000, 16800, 3182, 11000,
                             plain, 14800, current, 2981, counter), 0);
}

static void set_up(uint16_t remaining, int16_t current, uint32_t reading)
{
    set_up_for(false, remaining, current, reading);
}

/* A current that flowed for so many ms. */
static uint32_t sample(int16_t current, uint32_t ms)
{
    counter += ms;
    return snatchblock_sample(area, sizeof area, 14800, current, 2981, counter, room, SNATCHBLOCK_BROADCAST_ROOM);
}

static void flow(int16_t current, uint32_t ms)
{
    CHECK(snatchblock_answer_of(sample(current, ms)), SNATCHBLOCK_SERVED);
}

static uint32_t transact(bool read, const uint8_t *bytes, size_t length)
{
    static const uint8_t no_names[1] = {0};
    return snatchblock_transact(area, sizeof area, no_names, 1, no_names, 1, read, bytes, length, room, sizeof room);
}

#include "words.h"

/* A signed word as the bus shows it. */
static uint16_t shown(int32_t value)
{
    return (uint16_t)(value & 0xFFFF);
}

#define MEAN(wanted) CHECK(word(0x0B), shown(wanted))

#include "fields.h"

/* A signed number of four bytes as the area keeps it. */
static uint32_t kept(int64_t value)
{
    return (uint32_t)((uint64_t)value & 0xFFFFFFFFu);
}

/* ---- the mean */

static void before_a_second(void)
{
    set_up(2000, -5, 0);
    MEAN(-5); /* set-up's sample is the latest */
    flow(2, 0);
    MEAN(2);
    flow(-32768, 998);
    MEAN(-32768);
    flow(32767, 1);
    MEAN(32767);
    CHECK(number_at(COUNT, 1), 0);
    CHECK(number_at(BEGUN_MS, 2), 999);
    CHECK(number_at(BEGUN, 4), kept(-32768 * 998 + 32767));
}

static void seconds(void)
{
    set_up(2000, 77, 0); /* set-up's current counts for no time */
    flow(-5, 1000);
    MEAN(-5);
    flow(2, 1000);
    MEAN(-1); /* -3,000 mA·ms over 2,000 ms, cut toward zero */
    flow(2, 1000);
    MEAN(0); /* -1 of 3 */
    flow(2, 1000);
    MEAN(0); /* 1 of 4 */
    flow(3, 1000);
    flow(3, 1000);
    MEAN(1); /* 7 of 6 */
    set_up(2000, 0, 0);
    flow(-10, 999);
    MEAN(-10); /* none complete */
    flow(5, 1);
    MEAN(-9); /* -9,990 + 5 mA·ms */
    flow(32767, 999);
    MEAN(-9); /* the begun second isn't counted */
    flow(32767, 1);
    MEAN(16378); /* 32,757,015 ÷ 2,000 */
}

/* A sample's time is shared among the seconds that it crosses. */
static void shared(void)
{
    set_up(2000, 0, 4294967290u); /* over the counter's wrap */
    flow(100, 400);
    flow(-50, 1300); /* 40,000 - 30,000, and 700 ms of -50 */
    MEAN(10);
    CHECK(number_at(TOTALS, 4), 10000);
    CHECK(number_at(COUNT, 1), 1);
    CHECK(number_at(BEGUN_MS, 2), 700);
    CHECK(number_at(BEGUN, 4), kept(-35000));
    flow(20, 300); /* -35,000 + 6,000 */
    MEAN(-9);      /* -19,000 ÷ 2,000 */
    CHECK(number_at(TOTALS, 4), kept(-29000));
    CHECK(number_at(TOTALS + 4, 4), 10000);
    CHECK(number_at(BEGUN_MS, 2), 0);
    CHECK(number_at(BEGUN, 4), 0);
    flow(1, 2500);
    MEAN(-4); /* -17,000 ÷ 4,000 */
    flow(9, 0);
    MEAN(-4);
    CHECK(number_at(BEGUN_MS, 2), 500);
    CHECK(number_at(BEGUN, 4), 500);
}

static void sixty(void)
{
    set_up(2000, 0, 0);
    flow(32767, 1000);
    for (int i = 0; i < 59; i++)
        flow(-7, 1000);
    MEAN(539); /* 32,767 - 413 = 32,354, of 60 */
    flow(-8, 1000);
    MEAN(-7); /* the first fell out: -421 of 60 */
    CHECK(number_at(COUNT, 1), 60);
    CHECK(number_at(TOTALS, 4), kept(-8000));
    CHECK(number_at(TOTALS + 4 * 59, 4), kept(-7000));
}

static void long_samples(void)
{
    set_up(2000, 0, 0);
    flow(-5, 1000);
    flow(7, 59000);
    MEAN(6); /* -5 + 413 = 408, of 60 */
    flow(-5, 1000);
    flow(7, 61000);
    MEAN(7);
    flow(-5, 500);
    flow(7, 60000); /* a second of -2,500 + 3,500, then 59 of 7,000: 414,000 ÷ 60,000 */
    MEAN(6);
    CHECK(number_at(TOTALS + 4 * 59, 4), 1000);
    CHECK(number_at(BEGUN_MS, 2), 500);
    CHECK(number_at(BEGUN, 4), 3500);
    flow(7, 500);
    MEAN(7);
    flow(-3, 3600000); /* an hour */
    MEAN(-3);
    CHECK(number_at(BEGUN_MS, 2), 0);
    /* the longest: with 999 ms begun, 4,294,968 seconds and 294 ms */
    flow(1, 999);
    flow(-32768, 4294967295u);
    MEAN(-32768);
    for (size_t place = 0; place < SECONDS; place++)
        CHECK(number_at(TOTALS + 4 * place, 4), kept(-32768000));
    CHECK(number_at(BEGUN_MS, 2), 294);
    CHECK(number_at(BEGUN, 4), kept(-32768 * 294));
    CHECK(snatchblock_sound(area, sizeof area), true);
    flow(32767, 4294967295u); /* 4,294,967,589 ms */
    MEAN(32767);
    CHECK(number_at(BEGUN_MS, 2), 589);
    CHECK(number_at(BEGUN, 4), 32767 * 589);
    CHECK(snatchblock_sound(area, sizeof area), true);
}

/* Four samples a second, a minute of -1,000 mA and then none: sixty samples would forget the minute in 15 s. */
static void the_mechanic(void)
{
    set_up(2000, 0, 0);
    for (int i = 0; i < 240; i++)
        flow(-1000, 250);
    MEAN(-1000);
    for (int i = 0; i < 60; i++)
        flow(0, 250);
    MEAN(-750); /* 45 seconds of -1,000 and 15 of 0 */
    for (int i = 0; i < 3; i++) {
        flow(0, 250);
        MEAN(-750);
    }
    flow(0, 250);
    MEAN(-733); /* 44,000 of 60 */
    for (int i = 0; i < 4 * 44; i++)
        flow(0, 250);
    MEAN(0);
}

/* 12, 13 and bit 8, with its alarm, read the mean. */
static void readers_of_the_mean(void)
{
    set_up_for(true, 2002, -1000, 0); /* the alarm is looked at, in its four bytes */
    CHECK(word(0x12), 120);
    CHECK(word(0x13), 65535);
    flow(-1000, 1000);
    flow(-3000, 1000);
    CHECK(word(0x0F), 2000); /* 2,002 mAh less 4,000,000 mA·ms */
    CHECK(word(0x11), 40);
    CHECK(word(0x12), 60);
    write_word(0x02, 60);
    CHECK(word(0x16), 0x00C0);
    write_word(0x02, 61);
    CHECK(word(0x16), 0x01C0);
    CHECK(sample(-1, 0), PACKED(0, 4)); /* the latest current alone would leave 120,000 minutes */
    CHECK(memcmp(room, "\x10\x16\xCF\x01", 4), 0);
    set_up(1998, 1000, 0);
    CHECK(word(0x13), 120); /* 2,002 mAh missing */
    flow(1000, 1000);
    flow(3000, 1000);
    CHECK(word(0x12), 65535);
    CHECK(word(0x13), 60); /* 2,001 mAh missing */
}

/* ---- the area */

static void places(void)
{
    CHECK(SNATCHBLOCK_RECENT, 83);
    CHECK(SNATCHBLOCK_AREA, END);
    set_up(2000, -9, 0);
    for (size_t i = TOTALS; i < END; i++)
        CHECK(area[i], 0); /* no second, none begun */
    /* what stands beyond the count moves on with the seconds, and doesn't count */
    flow(1, 1000);
    flow(2, 1000);
    put(TOTALS + 4 * 2, 4, 0x7FFFFFFF);
    put(TOTALS + 4 * 54, 4, 0x12345678);
    put(TOTALS + 4 * 55, 4, 0x3ADE68B1);
    flow(3, 500);
    CHECK(number_at(TOTALS + 4 * 2, 4), 0x7FFFFFFF);
    flow(3, 4500);
    CHECK(number_at(COUNT, 1), 7);
    const uint32_t totals[8] = {3000, 3000, 3000, 3000, 3000, 2000, 1000, 0x7FFFFFFF};
    for (size_t place = 0; place < SECONDS; place++)
        CHECK(number_at(TOTALS + 4 * place, 4), place < 8 ? totals[place] : place == 59 ? 0x12345678 : 0);
    MEAN(2); /* 18 of 7 */
}

static uint32_t any_sample(void)
{
    return sample(0, 0);
}

#include "sound.h"

/* A total at a place of the area, in so many ms, from each side of both its borders. */
static void borders(size_t at, int32_t ms)
{
    const uint32_t before = number_at(at, 4);
    const struct {
        int64_t total;
        bool sound;
    } tried[] = {{INT64_C(32767) * ms, true}, {INT64_C(32767) * ms + 1, false}, {INT64_C(-32768) * ms, true},
                 {INT64_C(-32768) * ms - 1, false}, {INT32_MAX, false}, {INT32_MIN, false}};
    for (size_t i = 0; i < sizeof tried / sizeof *tried; i++) {
        put(at, 4, tried[i].total);
        SOUND(tried[i].sound);
    }
    put(at, 4, before);
    SOUND(true);
}

static void soundness(void)
{
    set_up(2000, 0, 0);
    for (size_t count = 0; count <= 255; count++) {
        put(COUNT, 1, (int64_t)count);
        SOUND(count <= SECONDS);
    }
    /* in each place under the count, and in none at it and beyond */
    for (size_t place = 0; place < SECONDS; place++) {
        put(COUNT, 1, (int64_t)place + 1);
        borders(TOTALS + 4 * place, 1000);
        put(COUNT, 1, (int64_t)place);
        put(TOTALS + 4 * place, 4, INT32_MIN);
        SOUND(true);
        put(TOTALS + 4 * place, 4, 0);
    }
    put(BEGUN_MS, 2, 999);
    SOUND(true);
    put(BEGUN_MS, 2, 1000);
    SOUND(false);
    for (int64_t ms = 1001; ms <= 65535; ms++) {
        put(BEGUN_MS, 2, ms);
        CHECK(snatchblock_sound(area, sizeof area), false);
    }
    for (int32_t ms = 0; ms < 1000; ms++) {
        put(BEGUN_MS, 2, ms);
        borders(BEGUN, ms);
    }
}

int main(void)
{
    before_a_second();
    seconds();
    shared();
    sixty();
    long_samples();
    the_mechanic();
    readers_of_the_mean();
    places();
    soundness();
    return checked("minute");
}
