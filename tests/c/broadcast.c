/* Broadcasts with their PEC and in plain, by request R-5: their bytes, the room that they want, where the area keeps the
 * choice, and that nothing else depends on it. The PECs are written out: they are of a long division done elsewhere,
 * bit by bit, which gives the worked examples of document 01 too. */
#include "check.h"
#include "altered.h"
#include "snatchblock.h"

#include <string.h>

#define ROOM_MOST 64
#include "room.h"

enum { WITH_PEC_ROOM = 20, PLAIN_ROOM = 16 };

#define PACKED(answer, rest) ((uint32_t)(answer) | (uint32_t)(rest) << 8)

/* ---- the pack */

static uint8_t area[SNATCHBLOCK_AREA];
static const uint8_t no_names[1] = {0};

/* So many of 4,000 mAh; the charger is asked for 2,000 mA and 16,800 mV, above 318.2 K it is hot. */
static struct snatchblock_setup pack_of(uint16_t remaining, bool plain)
{
    struct snatchblock_setup setup = {.DesignCapacity = 4000, .full = 4000, .remaining = remaining,
                                      .DesignVoltage = 14800, .ChargingCurrent = 2000, .ChargingVoltage = 16800,
                                      .TemperatureLimit = 3182, .DischargeLimit = 11000};
    if (plain)
        setup.plain = true; /* else the field isn't given */
    return setup;
}

static void set_up(uint16_t remaining, bool plain)
{
    const struct snatchblock_setup setup = pack_of(remaining, plain);
    const struct snatchblock_reading first = {.voltage = 14800, .temperature = 2981};
    memset(area, MARK, sizeof area);
    CHECK(snatchblock_set_up_from(area, sizeof area, &setup, &first), 0);
    CHECK(area[SNATCHBLOCK_PLAIN], plain);
    CHECK(snatchblock_message_length(area), plain ? 4 : 5);
}

static uint32_t sample_in(size_t room_length, int16_t current, uint16_t temperature, uint32_t counter)
{
    new_room();
    return snatchblock_sample(area, sizeof area, 14800, current, temperature, counter, room, room_length);
}

/* ---- the messages */

/* What one sample sends: the messages with their PECs. */
struct sending {
    int16_t current;
    uint16_t temperature;
    uint32_t counter;
    size_t messages;
    uint8_t bytes[20];
};

/* 100 mAh are below RemainingCapacityAlarm. Alarms go at once and each 10 s, the charger's words each 30 s. */
static const struct sending story[] = {
    {0, 2981, 0, 1, {0x10, 0x16, 0xCF, 0x02, 0x98}},
    {0, 2981, 9999, 0, {0}},
    {0, 2981, 10000, 1, {0x10, 0x16, 0xCF, 0x02, 0x98}},
    {0, 3183, 20000, 2, {0x10, 0x16, 0xCF, 0x12, 0xE8, 0x12, 0x16, 0xCF, 0x12, 0xC4}},
    {0, 2981, 30000, 3, {0x10, 0x16, 0xCF, 0x02, 0x98, 0x12, 0x14, 0xD0, 0x07, 0xED, 0x12, 0x15, 0xA0, 0x41, 0xF1}},
    {1, 3183, 60000, 4, {0x10, 0x16, 0x8F, 0x52, 0x74, 0x12, 0x16, 0x8F, 0x52, 0x58, 0x12, 0x14, 0x00, 0x00, 0x42, 0x12,
                         0x15, 0xA0, 0x41, 0xF1}},
    {0, 2981, 60001, 0, {0}},
};
enum { STORY = sizeof story / sizeof *story };

/* The messages of a sending as this pack has them: five bytes each, or the first four of each. */
static size_t bytes_of(const struct sending *s, bool plain, uint8_t to[20])
{
    size_t each = plain ? 4 : 5;
    for (size_t i = 0; i < s->messages; i++)
        memcpy(to + each * i, s->bytes + 5 * i, each);
    return each * s->messages;
}

static void messages(bool plain)
{
    set_up(100, plain);
    for (size_t i = 0; i < STORY; i++) {
        uint8_t wanted[20];
        size_t length = bytes_of(&story[i], plain, wanted);
        CHECK(sample_in(SNATCHBLOCK_BROADCAST_ROOM, story[i].current, story[i].temperature, story[i].counter),
              PACKED(0, length));
        CHECK(room_is(wanted, length), true);
        CHECK(area[SNATCHBLOCK_PLAIN], plain);
    }
}

/* Each message with its PEC is right by itself; its first four bytes have no PEC among them. */
static void right_by_the_check(void)
{
    for (size_t i = 0; i < STORY; i++)
        for (size_t j = 0; j < story[i].messages; j++) {
            CHECK(snatchblock_exchange_check(story[i].bytes + 5 * j, 5), PACKED(0, 1));
            CHECK(snatchblock_exchange_check(story[i].bytes + 5 * j, 4), PACKED(0, 0));
        }
}

/* ---- the room */

/* Every room, with four messages due and with none: what is due doesn't matter to answer 2. */
static void rooms(bool plain)
{
    const size_t least = plain ? PLAIN_ROOM : WITH_PEC_ROOM;
    uint8_t before[sizeof area], wanted[20];
    size_t four = bytes_of(&story[5], plain, wanted);
    CHECK(four, least);
    for (size_t length = 0; length <= ROOM_MOST; length++) {
        set_up(100, plain);
        memcpy(before, area, sizeof area);
        CHECK(sample_in(length, 1, 3183, 30000), length < least ? 2 : PACKED(0, four));
        CHECK(room_is(wanted, length < least ? 0 : four), true);
        CHECK(memcmp(before, area, sizeof area) == 0, length < least);
        set_up(2000, plain);
        memcpy(before, area, sizeof area);
        CHECK(sample_in(length, 0, 2981, 1), length < least ? 2 : 0);
        CHECK(room_is(NULL, 0), true);
        CHECK(memcmp(before, area, sizeof area) == 0, length < least);
    }
}

/* 1 goes before 2: a state that isn't sound, a flag above 1, an area of another length, in every room. */
static void not_sound(bool plain)
{
    uint8_t before[sizeof area];
    set_up(100, plain);
    for (size_t length = 0; length <= WITH_PEC_ROOM; length++) {
        area[0] = 8;
        CHECK(sample_in(length, 0, 2981, 0), 1);
        area[0] = 0;
        CHECK(snatchblock_sample(area, sizeof area - 1, 14800, 0, 2981, 0, room, length), 1);
        CHECK(room_is(NULL, 0), true);
    }
    for (unsigned flag = 2; flag <= 255; flag++) {
        static const uint8_t ask[3] = {0x16, 0x09, 0x17}, write[4] = {0x16, 0x03, 0, 0};
        area[SNATCHBLOCK_PLAIN] = (uint8_t)flag;
        memcpy(before, area, sizeof area);
        CHECK(snatchblock_sound(area, sizeof area), false);
        CHECK(sample_in(0, 0, 2981, 0), 1);
        CHECK(sample_in(ROOM_MOST, 0, 2981, 0), 1);
        CHECK(snatchblock_transact(area, sizeof area, no_names, 1, no_names, 1, true, ask, 3, room, ROOM_MOST), 1);
        CHECK(snatchblock_transact(area, sizeof area, no_names, 1, no_names, 1, false, write, 4, room, ROOM_MOST), 1);
        CHECK(memcmp(before, area, sizeof area), 0);
        CHECK(room_is(NULL, 0), true);
    }
    area[SNATCHBLOCK_PLAIN] = plain;
    CHECK(snatchblock_sound(area, sizeof area), true);
}

/* ---- set-up */

/* A refused set-up leaves the choice as it was, a served one takes its own. */
static void set_ups(void)
{
    const struct snatchblock_reading first = {.voltage = 14800, .temperature = 2981};
    for (unsigned i = 0; i < 4; i++) {
        bool was = i % 2 == 1, asked = i / 2 == 1;
        struct snatchblock_setup setup = pack_of(100, asked);
        uint8_t before[sizeof area];
        set_up(2000, was);
        memcpy(before, area, sizeof area);
        setup.full = 0;
        CHECK(snatchblock_set_up_from(area, sizeof area, &setup, &first), 11);
        CHECK(memcmp(before, area, sizeof area), 0);
        setup.full = 4000;
        CHECK(snatchblock_set_up_from(area, sizeof area, &setup, &first), 0);
        CHECK(area[SNATCHBLOCK_PLAIN], asked);
    }
}

/* ---- one history, both choices */

static uint64_t drawn = 20211120;

static uint32_t draw(void)
{
    drawn = drawn * 6364136223846793005u + 1442695040888963407u;
    return (uint32_t)(drawn >> 32);
}

static uint8_t plain_area[SNATCHBLOCK_AREA], with_pec_area[SNATCHBLOCK_AREA];

/* The areas differ in the flag's byte alone. */
static bool same_but_for_the_choice(void)
{
    return plain_area[SNATCHBLOCK_PLAIN] == 1 && with_pec_area[SNATCHBLOCK_PLAIN] == 0 &&
           memcmp(plain_area, with_pec_area, SNATCHBLOCK_PLAIN) == 0 &&
           memcmp(plain_area + SNATCHBLOCK_PLAIN + 1, with_pec_area + SNATCHBLOCK_PLAIN + 1,
                  SNATCHBLOCK_AREA - SNATCHBLOCK_PLAIN - 1) == 0;
}

/* A sample for both; gives how many messages went, each the same but for the right fifth byte. */
static size_t one_sample(uint32_t *counter)
{
    static const uint32_t steps[] = {0, 1, 999, 1000, 5000, 10000, 30000, 3600000};
    uint8_t plain[SNATCHBLOCK_BROADCAST_ROOM], with_pec[SNATCHBLOCK_BROADCAST_ROOM];
    *counter += draw() % 16 ? steps[draw() % 8] : draw();
    const struct snatchblock_reading now = {.voltage = (uint16_t)(10000 + draw() % 5000),
                                            .current = (int16_t)((int32_t)(draw() % 8001) - 4000),
                                            .temperature = (uint16_t)(3100 + draw() % 100), .counter = *counter};
    uint32_t one = snatchblock_sample_from(plain_area, sizeof plain_area, &now, plain, sizeof plain);
    uint32_t two = snatchblock_sample_from(with_pec_area, sizeof with_pec_area, &now, with_pec, sizeof with_pec);
    size_t count = snatchblock_length_of(one) / 4;
    CHECK(count <= 4, true);
    CHECK(one, PACKED(0, 4 * count));
    CHECK(two, PACKED(0, 5 * count));
    for (size_t i = 0; i < count; i++) {
        CHECK(memcmp(plain + 4 * i, with_pec + 5 * i, 4), 0);
        CHECK(snatchblock_exchange_check(with_pec + 5 * i, 5), PACKED(0, 1));
    }
    return count;
}

/* A transaction for both, served or not: the same answer, the same reply. */
static void one_transaction(void)
{
    uint8_t plain[SNATCHBLOCK_REPLY_ROOM] = {0}, with_pec[SNATCHBLOCK_REPLY_ROOM] = {0};
    uint8_t bytes[5] = {0x16, (uint8_t)(draw() % 0x28), 0x17};
    bool read = draw() % 2;
    if (!read) {
        bytes[1] = (uint8_t)(draw() % 6);
        bytes[2] = (uint8_t)draw();
        bytes[3] = (uint8_t)draw();
    }
    size_t length = read ? 3 : 4 + draw() % 2;
    bytes[4] = draw() % 4 ? snatchblock_pec(bytes, 4) : 0;
    uint32_t one = snatchblock_transact(plain_area, sizeof plain_area, no_names, 1, no_names, 1, read, bytes, length,
                                        plain, sizeof plain);
    uint32_t two = snatchblock_transact(with_pec_area, sizeof with_pec_area, no_names, 1, no_names, 1, read, bytes,
                                        length, with_pec, sizeof with_pec);
    CHECK(one, two);
    CHECK(memcmp(plain, with_pec, sizeof plain), 0);
}

static void one_history(void)
{
    unsigned sent[5] = {0};
    for (unsigned pack = 0; pack < 100; pack++) {
        uint16_t remaining = (uint16_t)(draw() % 4001);
        uint32_t counter = 0;
        set_up(remaining, true);
        memcpy(plain_area, area, sizeof area);
        set_up(remaining, false);
        memcpy(with_pec_area, area, sizeof area);
        for (unsigned call = 0; call < 100; call++) {
            if (draw() % 3)
                sent[one_sample(&counter)]++;
            else
                one_transaction();
            CHECK(same_but_for_the_choice(), true);
        }
    }
    for (unsigned count = 0; count <= 4; count++)
        CHECK(sent[count] > 100, true);
}

/* ---- alterations */

/* Every message of 40 bits with one, two or three of them altered is wrong by the check. */
static unsigned still_right;

static void count_if_right(const uint8_t altered[5])
{
    still_right += snatchblock_exchange_check(altered, 5) != PACKED(0, 0);
}

/* Four bits can be too many: x^8 + x^2 + x + 1 itself, at the end of a message. */
static void alterations(void)
{
    uint8_t other[5];
    for (size_t j = 0; j < 4; j++)
        each_altered(story[5].bytes + 5 * j, count_if_right);
    each_altered(story[0].bytes, count_if_right);
    CHECK(still_right, 0);
    memcpy(other, story[0].bytes, 5);
    other[3] ^= 0x01;
    other[4] ^= 0x07;
    CHECK(snatchblock_exchange_check(other, 5), PACKED(0, 1));
}

int main(void)
{
    CHECK(SNATCHBLOCK_BROADCAST_ROOM, WITH_PEC_ROOM);
    CHECK(SNATCHBLOCK_PLAIN, 19);
    CHECK(SNATCHBLOCK_HOST, SNATCHBLOCK_PLAIN + 1);
    for (int plain = 0; plain < 2; plain++) {
        messages(plain);
        rooms(plain);
        not_sound(plain);
    }
    right_by_the_check();
    set_ups();
    one_history();
    alterations();
    return checked("broadcast");
}
