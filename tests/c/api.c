/* Holds the C interface of the proved library to document 01's figures: every function, every answer number,
 * areas of every size to twice the right one, rooms of every size to 200 with guard bytes around, and slices
 * of no bytes. */
#include "check.h"
#include "snatchblock.h"

#include <string.h>

#define ROOM_MOST 200
#include "room.h"

enum { REPLY_ROOM = 34, BROADCAST_ROOM = 20, PLAIN_ROOM = 16, KEY_ROOM = 139, SHEET_ROOM = 145, SHELF_ROOM = 16 };
enum { AREA_MOST = 2 * SNATCHBLOCK_AREA };

/* The answer number and what stands above it in a packed result. */
#define PACKED(answer, rest) ((unsigned long long)(answer) | (unsigned long long)(rest) << 8)

/* A slice of C bytes as the interface takes it: pointer, length. */
#define BYTES(...) (const uint8_t[]){__VA_ARGS__}, sizeof((const uint8_t[]){__VA_ARGS__})
#define TEXT(string) (const uint8_t *)(string), sizeof(string) - 1

static const uint8_t nowhere[1] = {0};
#define NO_BYTES nowhere, 0

/* ---- the pack */

static uint8_t area_memory[GUARD + AREA_MOST + GUARD];
static uint8_t *const area = area_memory + GUARD;

struct figures {
    uint16_t design, full, remaining, millivolts;
};

/* In plain: broadcasts are of four bytes here, and tests/c/broadcast.c looks at those with PEC. */
static uint32_t set_up_in(size_t length, struct figures f, int16_t current, uint32_t counter)
{
    return snatchblock_set_up(area, length, f.design, f.full, f.remaining, f.millivolts, 2, 7, 0x526F, 17, 2000, 16800,
                              3182, 11000, true, 14800, current, 2981, counter);
}

static const struct figures usual = {4000, 4000, 2000, 14800};

/* The pack of the worked examples, everything in order. */
static void usual_pack(void)
{
    memset(area_memory, MARK, sizeof area_memory);
    CHECK(set_up_in(SNATCHBLOCK_AREA, usual, 0, 0), 0);
}

static const uint8_t no_names[1] = {0};

static uint32_t transact(bool read, const uint8_t *bytes, size_t length)
{
    new_room();
    return snatchblock_transact(area, SNATCHBLOCK_AREA, no_names, 1, no_names, 1, read, bytes, length, room, REPLY_ROOM);
}

static uint32_t read_word(uint8_t command)
{
    CHECK(transact(true, BYTES(0x16, command, 0x17)), PACKED(0, 3));
    return (uint32_t)(room[0] | room[1] << 8);
}

static void write_word(uint8_t command, uint16_t word)
{
    CHECK(transact(false, BYTES(0x16, command, (uint8_t)(word & 0xFF), (uint8_t)(word >> 8))), 0);
    CHECK(room_is(NULL, 0), true);
}

static uint32_t sample(uint16_t millivolts, int16_t current, uint16_t temperature, uint32_t counter)
{
    new_room();
    return snatchblock_sample(area, SNATCHBLOCK_AREA, millivolts, current, temperature, counter, room, PLAIN_ROOM);
}

/* ---- set-up, the area, soundness */

static void set_ups(void)
{
    static uint8_t before[sizeof area_memory];
    for (size_t length = 0; length <= AREA_MOST; length++) {
        memset(area_memory, MARK, sizeof area_memory);
        memcpy(before, area_memory, sizeof before);
        CHECK(set_up_in(length, usual, 0, 0), length == SNATCHBLOCK_AREA ? 0 : 1);
        CHECK(snatchblock_sound(area, length), length == SNATCHBLOCK_AREA);
        if (length == SNATCHBLOCK_AREA)
            memcpy(before + GUARD, area, SNATCHBLOCK_AREA);
        CHECK(memcmp(area_memory, before, sizeof before), 0);
    }
    const struct figures bad[] = {{0, 4000, 2000, 14800}, {4000, 0, 0, 14800}, {4000, 4000, 2000, 0}, {4000, 4000, 4001, 14800}};
    for (size_t i = 0; i < sizeof bad / sizeof *bad; i++) {
        memset(area_memory, MARK, sizeof area_memory);
        memcpy(before, area_memory, sizeof before);
        CHECK(set_up_in(SNATCHBLOCK_AREA, bad[i], 0, 0), 11);
        CHECK(set_up_in(SNATCHBLOCK_AREA - 1, bad[i], 0, 0), 1);
        CHECK(memcmp(area_memory, before, sizeof before), 0);
    }
    CHECK(set_up_in(SNATCHBLOCK_AREA, (struct figures){1, 1, 1, 1}, 0, 0), 0);
    CHECK(set_up_in(SNATCHBLOCK_AREA, (struct figures){4000, 4000, 4000, 14800}, 0, 0), 0);
}

/* The area's content, place by place, as the header lays it out. */
static void layout(void)
{
    usual_pack();
    const uint8_t front[] = {0, 0xA0, 0x0F, 0xD0, 0x39, 2, 0, 0x6F, 0x52, 17, 0, 0xD0, 0x07, 0xA0, 0x41, 0x6E, 0x0C, 0xF8, 0x2A,
                             1, /* plain */
                             0, 0, 0x90, 0x01, 10, 0, 0, 0, 0, 0, 0, 0xD0, 0x39, 0, 0, 0xA5, 0x0B, 0, 0, 0, 0,
                             /* 2,000 mAh are 7,200,000,000 mA·ms */
                             0x00, 0x48, 0x27, 0xAD, 1, 0, 0, 0, 0xA0, 0x0F, 7, 0, 0,
                             0, 0, 0, 0, 0, 0, 0, 0, 0, 0, 0, 0, 0, 0, 0, 0, 0, /* nothing drawn, no run open */
                             0, 0, 0, 0, 0x10, 0x27, 0, 0, 0, 0, 0, 0};
    CHECK(sizeof front, SNATCHBLOCK_RECENT);
    CHECK(memcmp(area, front, sizeof front), 0);
    for (size_t i = SNATCHBLOCK_RECENT; i < SNATCHBLOCK_AREA; i++)
        CHECK(area[i], 0);
    CHECK(SNATCHBLOCK_AREA, 330);
}

#include "fields.h"

/* A field of a sound area at a value that keeps it sound, and at one that doesn't. */
static void border(size_t at, size_t bytes, uint64_t good, uint64_t bad)
{
    uint64_t before = 0;
    for (size_t i = 0; i < bytes; i++)
        before |= (uint64_t)area[at + i] << 8 * i;
    put(at, bytes, good);
    CHECK(snatchblock_sound(area, SNATCHBLOCK_AREA), true);
    put(at, bytes, bad);
    CHECK(snatchblock_sound(area, SNATCHBLOCK_AREA), false);
    put(at, bytes, before);
}

static void soundness(void)
{
    memset(area_memory, 0, sizeof area_memory);
    CHECK(snatchblock_sound(area, SNATCHBLOCK_AREA), false);
    usual_pack();
    border(0, 1, 7, 8);
    border(SNATCHBLOCK_SETTINGS, 2, 1, 0);
    border(SNATCHBLOCK_SETTINGS + 2, 2, 1, 0);
    border(SNATCHBLOCK_PLAIN, 1, 0, 2);
    border(SNATCHBLOCK_PLAIN, 1, 1, 255);
    border(SNATCHBLOCK_HOST + 8, 1, 0, 1); /* ALARM_MODE without a hold */
    border(SNATCHBLOCK_HOST + 9, 1, 1, 2);
    border(SNATCHBLOCK_HOST + 10, 1, 1, 2);
    border(SNATCHBLOCK_RECENT + 240, 1, 60, 61);
    border(SNATCHBLOCK_RECENT + 241, 2, 999, 1000);
    border(SNATCHBLOCK_RECENT + 243, 4, 0, 1); /* a total without a begun second */
    border(SNATCHBLOCK_TANK, 8, 4000ull * 3600000, 4000ull * 3600000 + 1);
    border(SNATCHBLOCK_TANK, 8, 0, UINT64_MAX);
    border(SNATCHBLOCK_TANK + 8, 2, 2000, 0);
    border(SNATCHBLOCK_TANK + 12, 1, 1, 2);
    border(SNATCHBLOCK_TANK + 13, 8, 4000ull * 3600000 - 1, 4000ull * 3600000);
    border(SNATCHBLOCK_TANK + 21, 8, 0, 1); /* drawn in a run that isn't open */
    border(SNATCHBLOCK_TANK + 29, 1, 1, 2);
    border(SNATCHBLOCK_TIMERS, 4, 0, 1); /* a hold without ALARM_MODE */
    border(SNATCHBLOCK_TIMERS + 4, 4, 0, 10001);
    border(SNATCHBLOCK_TIMERS + 8, 4, 29999, 30000);
    write_word(0x03, 0x2000);
    border(SNATCHBLOCK_TIMERS, 4, 1, 0);
    border(SNATCHBLOCK_TIMERS, 4, 60000, 60001);
    border(SNATCHBLOCK_HOST + 8, 1, 1, 255);
    write_word(0x03, 0x4000);
    border(SNATCHBLOCK_TIMERS + 8, 4, 0, 1);
}

/* ---- samples */

static void sample_sizes(void)
{
    for (size_t length = 0; length <= AREA_MOST; length++) {
        if (length == SNATCHBLOCK_AREA)
            continue;
        usual_pack();
        static uint8_t before[sizeof area_memory];
        memcpy(before, area_memory, sizeof before);
        new_room();
        CHECK(snatchblock_sample(area, length, 0, 0, 0, 30000, room, PLAIN_ROOM), 1);
        CHECK(snatchblock_sample(area, length, 0, 0, 0, 30000, room, 0), 1);
        CHECK(room_is(NULL, 0) && memcmp(area_memory, before, sizeof before) == 0, true);
    }
    /* hot, charging, 30,000 ms on: four messages, which just fill the least room */
    const uint8_t four[] = {0x10, 0x16, 0x8F, 0x50, 0x12, 0x16, 0x8F, 0x50, 0x12, 0x14, 0, 0, 0x12, 0x15, 0xA0, 0x41};
    for (size_t length = 0; length <= ROOM_MOST; length++) {
        usual_pack();
        uint8_t before[SNATCHBLOCK_AREA];
        memcpy(before, area, sizeof before);
        new_room();
        uint32_t result = snatchblock_sample(area, SNATCHBLOCK_AREA, 14800, 100, 3183, 30000, room, length);
        CHECK(result, length < PLAIN_ROOM ? 2 : PACKED(0, 16));
        CHECK(room_is(four, length < PLAIN_ROOM ? 0 : 16), true);
        CHECK(memcmp(before, area, sizeof before) == 0, length < PLAIN_ROOM);
    }
}

static void samples(void)
{
    /* 100 of 4,000 mAh: bit 9 is set, its alarm goes at once, then each 10,000 ms */
    memset(area_memory, MARK, sizeof area_memory);
    CHECK(set_up_in(SNATCHBLOCK_AREA, (struct figures){4000, 4000, 100, 14800}, 0, 4294967290u), 0);
    const uint8_t low[] = {0x10, 0x16, 0xCF, 0x02};
    CHECK(sample(14800, 0, 2981, 4), PACKED(0, 4)); /* the counter wraps: 10 ms */
    CHECK(room_is(low, 4), true);
    CHECK(sample(14800, 0, 2981, 10003), 0);
    CHECK(room_is(NULL, 0), true);
    CHECK(sample(14800, 0, 2981, 10004), PACKED(0, 4));
    /* 29,999 ms and 30,000 ms after set-up */
    write_word(0x03, 0x2000);
    CHECK(sample(14800, 0, 2981, 29993), 0);
    const uint8_t charger[] = {0x12, 0x14, 0xD0, 0x07, 0x12, 0x15, 0xA0, 0x41};
    CHECK(sample(14800, 0, 2981, 29994), PACKED(0, 8));
    CHECK(room_is(charger, 8), true);
    CHECK(read_word(0x03), 0x2000);
    /* the hold of 60,000 ms began at 10,004 */
    CHECK(sample(14800, 0, 2981, 70003), PACKED(0, 8));
    CHECK(read_word(0x03), 0x2000);
    CHECK(sample(14800, 0, 2981, 70004), PACKED(0, 4));
    CHECK(read_word(0x03), 0);
    /* worked example 12: the mean of seconds of -5 and 2 is -1 */
    usual_pack();
    CHECK(sample(14800, -5, 2981, 1000), 0);
    CHECK(sample(14800, 2, 2981, 2000), 0);
    CHECK(read_word(0x0B), 0xFFFF);
    /* an unsound area answers 1 before a small room's 2 */
    area[0] = 8;
    new_room();
    CHECK(snatchblock_sample(area, SNATCHBLOCK_AREA, 0, 0, 0, 0, room, 0), 1);
    CHECK(room_is(NULL, 0), true);
}

/* ---- transactions */

static void transact_sizes(void)
{
    const uint8_t reply[] = {0xD0, 0x39, 0x7E}; /* worked example 3 */
    for (size_t length = 0; length <= AREA_MOST; length++) {
        usual_pack();
        static uint8_t before[sizeof area_memory];
        memcpy(before, area_memory, sizeof before);
        new_room();
        uint32_t result = snatchblock_transact(area, length, no_names, 1, no_names, 1, true, BYTES(0x16, 0x09, 0x17), room, REPLY_ROOM);
        CHECK(result, length == SNATCHBLOCK_AREA ? PACKED(0, 3) : 1);
        CHECK(room_is(reply, length == SNATCHBLOCK_AREA ? 3 : 0), true);
        CHECK(memcmp(area_memory, before, sizeof before), 0);
    }
    for (size_t length = 0; length <= ROOM_MOST; length++) {
        usual_pack();
        area[0] = 6;
        new_room();
        uint32_t result = snatchblock_transact(area, SNATCHBLOCK_AREA, no_names, 1, no_names, 1, true, BYTES(0x16, 0x09, 0x17), room, length);
        CHECK(result, length < REPLY_ROOM ? 2 : PACKED(0, 3));
        CHECK(room_is(reply, length < REPLY_ROOM ? 0 : 3), true);
        CHECK(area[0], length < REPLY_ROOM ? 6 : 0);
    }
}

/* A refused transaction: its number, the error code left, nothing else changed. */
static void refused_at(int line, bool read, const uint8_t *bytes, size_t length, uint32_t answer, uint8_t code)
{
    uint8_t before[SNATCHBLOCK_AREA];
    usual_pack();
    area[0] = 1;
    memcpy(before, area, sizeof before);
    before[0] = code;
    check_at(line, "answer", transact(read, bytes, length), answer);
    check_at(line, "room", room_is(NULL, 0), true);
    check_at(line, "area", (unsigned)memcmp(before, area, sizeof before), 0);
}
#define REFUSED(read, answer, code, ...) refused_at(__LINE__, read, BYTES(__VA_ARGS__), answer, code)

static void refusals(void)
{
    refused_at(__LINE__, true, NO_BYTES, 3, 1);
    refused_at(__LINE__, false, NO_BYTES, 3, 1);
    REFUSED(true, 3, 1, 0x17, 0x09, 0x17);
    REFUSED(true, 4, 6, 0x16);
    REFUSED(true, 4, 6, 0x16, 0x09, 0x16);
    REFUSED(true, 4, 6, 0x16, 0x09, 0x17, 0x00);
    REFUSED(false, 4, 6, 0x16, 0x09, 0x17);
    REFUSED(false, 4, 6, 0x16, 0x02, 0x0A, 0x00, 0x47, 0x00);
    REFUSED(false, 5, 7, 0x16, 0x02, 0x0A, 0x00, 0x46);
    REFUSED(true, 6, 2, 0x16, 0x24, 0x17);
    REFUSED(true, 6, 2, 0x16, 0x1D, 0x17);
    REFUSED(false, 6, 2, 0x16, 0xFF, 0x00, 0x00);
    REFUSED(true, 7, 3, 0x16, 0x2F, 0x17);
    REFUSED(true, 7, 3, 0x16, 0x3C, 0x17);
    REFUSED(false, 7, 3, 0x16, 0x3F, 0x00, 0x00);
    REFUSED(false, 8, 4, 0x16, 0x05, 0x00, 0x00);
    REFUSED(false, 8, 4, 0x16, 0x20, 0x00, 0x00);
    /* 9: a bad sheet, of either kind, though the name is in the good one; one of no bytes is bad */
    usual_pack();
    new_room();
    const uint8_t named[] = {1, 0x20, 1, 5, 0, 0x42};
    CHECK(snatchblock_transact(area, SNATCHBLOCK_AREA, named, sizeof named, NO_BYTES, true, BYTES(0x16, 0x20, 0x17), room, REPLY_ROOM), 9);
    CHECK(snatchblock_transact(area, SNATCHBLOCK_AREA, NO_BYTES, named, sizeof named, true, BYTES(0x16, 0x20, 0x17), room, REPLY_ROOM), 9);
    CHECK(room_is(NULL, 0), true);
    CHECK(area[0], 7);
}

/* A read whose word was cut off: answer 10 with word and PEC, and error code 5 until the next read. */
static void cut_off(uint8_t command, uint8_t low, uint8_t high)
{
    const uint8_t exchange[] = {0x16, command, 0x17, low, high};
    CHECK(transact(true, exchange, 3), PACKED(SNATCHBLOCK_SERVED_CUT_OFF, 3));
    CHECK(room_is((const uint8_t[]){low, high, snatchblock_pec(exchange, 5)}, 3), true);
    CHECK(read_word(0x16), 0x00C5);
    CHECK(read_word(0x16), 0x00C0);
}

static void served(void)
{
    usual_pack();
    CHECK(transact(false, BYTES(0x16, 0x02, 0x0A, 0x00, 0x47)), 0); /* worked example 4 */
    CHECK(room_is(NULL, 0), true);
    CHECK(read_word(0x0F), 2000);
    CHECK(read_word(0x16), 0x00C0);
    write_word(0x04, 0x8000);
    CHECK(read_word(0x06), 3); /* worked example 7 */
    write_word(0x04, 0);
    CHECK(read_word(0x06), 65535); /* 8 */
    write_word(0x04, 0xFFFF);
    cut_off(0x06, 0xFE, 0xFF); /* 9: 120,000 minutes; tests/c/cutoff.c has the borders */
    write_word(0x03, 0x8000);
    CHECK(read_word(0x0F), 2960); /* 10 */
    cut_off(0x05, 0xFF, 0xFF);
}

static void served_exchanges(void)
{
    /* each read command is served, and its exchange is right */
    usual_pack();
    for (uint8_t command = 0; command <= 0x1C; command++) {
        uint8_t exchange[6] = {0x16, command, 0x17};
        CHECK(transact(true, exchange, 3), PACKED(0, 3));
        memcpy(exchange + 3, room, 3);
        CHECK(snatchblock_exchange_check(exchange, 6), PACKED(0, 1));
    }
    CHECK(read_word(0x1A), 0x0031);
    CHECK(read_word(0x1B), 0x526F);
    /* a block of the longest name just fills the least room: count, 32 bytes, PEC */
    uint8_t sheet[37] = {1, 0x20, 32, 5, 0};
    uint8_t exchange[37] = {0x16, 0x20, 0x17, 32};
    for (uint8_t i = 0; i < 32; i++)
        exchange[4 + i] = sheet[5 + i] = (uint8_t)(200 - i);
    exchange[36] = snatchblock_pec(exchange, 36);
    new_room();
    CHECK(snatchblock_transact(area, SNATCHBLOCK_AREA, sheet, 37, no_names, 1, true, exchange, 3, room, REPLY_ROOM), PACKED(0, 34));
    CHECK(room_is(exchange + 3, 34), true);
    CHECK(transact(true, BYTES(0x16, 0x21, 0x17)), PACKED(0, 2));
    CHECK(room[0], 0);
}

/* An area copied away and back goes on as if it had stayed. */
static void winter(void)
{
    uint8_t kept[SNATCHBLOCK_AREA];
    usual_pack();
    write_word(0x01, 1234);
    CHECK(sample(14000, -500, 2981, 3600000), PACKED(0, 8));
    memcpy(kept, area, sizeof kept);
    memset(area_memory, 0, sizeof area_memory);
    CHECK(transact(true, BYTES(0x16, 0x09, 0x17)), 1);
    memcpy(area, kept, sizeof kept);
    CHECK(read_word(0x01), 1234);
    CHECK(read_word(0x0F), 1500);
    CHECK(read_word(0x09), 14000);
    /* the counter began anew: a sample without current adds nothing, and time is counted from its reading on */
    CHECK(snatchblock_answer_of(sample(14000, 0, 2981, 17)), 0);
    CHECK(read_word(0x0F), 1500);
    CHECK(snatchblock_answer_of(sample(14000, -500, 2981, 17 + 3600000)), 0);
    CHECK(read_word(0x0F), 1000);
}

/* ---- check bytes */

static void checks(void)
{
    CHECK(snatchblock_pec(NO_BYTES), 0x00);
    CHECK(snatchblock_pec(BYTES(0x16, 0x80, 0x17, 0x4D, 0x00, 0x01, 0x00)), 0x98);
    CHECK(snatchblock_pec(BYTES(0x16, 0x09, 0x17, 0xD0, 0x39)), 0x7E);
    CHECK(snatchblock_pec(BYTES(0x16, 0x02, 0x0A, 0x00)), 0x47);
    CHECK(snatchblock_pec(TEXT("123456789")), 0xF4);
    uint8_t bytes[64] = {0};
    for (size_t length = 0; length <= 40; length++) {
        bool in_range = length >= 2 && length <= 37;
        memset(bytes, 0, sizeof bytes);
        CHECK(snatchblock_exchange_check(bytes, length), in_range ? PACKED(0, 1) : 15);
        if (length > 0)
            bytes[length - 1] = 1;
        CHECK(snatchblock_exchange_check(bytes, length), in_range ? PACKED(0, 0) : 15);
        CHECK(snatchblock_bit_comparison(bytes, length, (const uint8_t[64]){0}, length),
              length > 37 ? 15 : PACKED(0, length > 0));
        CHECK(snatchblock_bit_comparison(bytes, length, bytes, length + 1), 15);
    }
    CHECK(snatchblock_bit_comparison(NO_BYTES, NO_BYTES), 0);
    CHECK(snatchblock_bit_comparison(BYTES(0xFF, 0x0F), BYTES(0x00, 0x1E)), PACKED(0, 10));
    memset(bytes, 0xFF, sizeof bytes);
    CHECK(snatchblock_bit_comparison(bytes, 37, (const uint8_t[64]){0}, 37), PACKED(0, 296));
}

/* ---- keys */

static const uint8_t slashes[33] = {0x2F, 0x2F, 0x2F, 0x2F, 0x2F, 0x2F, 0x2F, 0x2F, 0x2F, 0x2F, 0x2F, 0x2F, 0x2F, 0x2F, 0x2F, 0x2F, 0x2F,
                                    0x2F, 0x2F, 0x2F, 0x2F, 0x2F, 0x2F, 0x2F, 0x2F, 0x2F, 0x2F, 0x2F, 0x2F, 0x2F, 0x2F, 0x2F, 0x2F};

static void key_writing(void)
{
    for (size_t length = 0; length <= ROOM_MOST; length++) {
        new_room();
        uint32_t result = snatchblock_write_key(TEXT("A/B"), TEXT("P7"), 0x526F, 17, room, length);
        CHECK(result, length < KEY_ROOM ? 12 : PACKED(0, 17));
        CHECK(room_is((const uint8_t *)"A\\/B/P7/526f/0011", length < KEY_ROOM ? 0 : 17), true); /* worked example 6 */
    }
    new_room();
    CHECK(snatchblock_write_key(slashes, 33, NO_BYTES, 0, 0, room, KEY_ROOM), 12);
    CHECK(snatchblock_write_key(NO_BYTES, slashes, 33, 0, 0, room, KEY_ROOM), 12);
    CHECK(room_is(NULL, 0), true);
    CHECK(snatchblock_write_key(NO_BYTES, NO_BYTES, 0, 0xABCD, room, KEY_ROOM), PACKED(0, 11));
    CHECK(room_is((const uint8_t *)"//0000/abcd", 11), true);
    /* the longest key fills its room to the last byte */
    new_room();
    CHECK(snatchblock_write_key(slashes, 32, slashes, 32, 1, 2, room, KEY_ROOM), PACKED(0, 139));
    CHECK(room[138] == '2' && room[139] == MARK && room[-1] == MARK, true);
    CHECK(snatchblock_read_key(room, 139), 64ull << 8 | 64ull << 16 | 1ull << 24 | 2ull << 40);
    CHECK(snatchblock_read_key(room, 138), 13);
}

static void key_reading(void)
{
    CHECK(snatchblock_read_key(TEXT("A\\/B/P7/526f/0011")), 4ull << 8 | 2ull << 16 | 0x526Full << 24 | 17ull << 40);
    CHECK(snatchblock_read_key(TEXT("//0000/ffff")), 0xFFFFull << 40);
    CHECK(snatchblock_read_key(NO_BYTES), 13);
    CHECK(snatchblock_read_key(TEXT("A\\xB/P7/526f/0011")), 13);
    CHECK(snatchblock_read_key(TEXT("A/B/P7/526f/0011")), 13);
    CHECK(snatchblock_read_key(TEXT("A/P7/526F/0011")), 13);
    CHECK(snatchblock_read_key(TEXT("A/P7/526f/0011 ")), 13);
    CHECK(snatchblock_read_key(TEXT("A/P7/526f/001")), 13);
    CHECK(snatchblock_read_key(TEXT("A/P7/526f")), 13);
    CHECK(snatchblock_read_key(TEXT("A\\")), 13);
    CHECK(snatchblock_read_key(TEXT("aaaaaaaabbbbbbbbccccccccdddddddd/P7/526f/0011")), 32ull << 8 | 2ull << 16 | 0x526Full << 24 | 17ull << 40);
    CHECK(snatchblock_read_key(TEXT("aaaaaaaabbbbbbbbccccccccdddddddde/P7/526f/0011")), 13);
}

static void unescaping(void)
{
    for (size_t length = 0; length <= ROOM_MOST; length++) {
        new_room();
        CHECK(snatchblock_unescape(TEXT("A\\/\\\\"), room, length), length < 3 ? 12 : PACKED(0, 3));
        CHECK(room_is((const uint8_t *)"A/\\", length < 3 ? 0 : 3), true);
    }
    new_room();
    CHECK(snatchblock_unescape(NO_BYTES, room, 0), 0);
    CHECK(snatchblock_unescape(TEXT("A/B"), room, 8), 13);
    CHECK(snatchblock_unescape(TEXT("A\\B"), room, 8), 13);
    CHECK(snatchblock_unescape(TEXT("A\\"), room, 8), 13);
    CHECK(snatchblock_unescape(TEXT("AB\\"), room, 0), 13);
    CHECK(room_is(NULL, 0), true);
}

/* A name has up to 32 bytes, escaped or not: it is unescaped into room that just holds it. One byte more is 13. */
static void unescaping_32(void)
{
    uint8_t letters[33], strokes[66], one_more[65], last_escaped[33], plain[32], stroke_last[32];
    memset(letters, 'm', sizeof letters);
    memset(plain, 0x2F, sizeof plain);
    for (size_t i = 0; i < sizeof strokes; i++)
        strokes[i] = i % 2 == 0 ? 0x5C : 0x2F;
    memcpy(one_more, strokes, 64);
    one_more[64] = 'm';
    memcpy(last_escaped, letters, 31);
    memcpy(last_escaped + 31, strokes, 2);
    memcpy(stroke_last, letters, 31);
    stroke_last[31] = 0x2F;
    for (size_t length = 0; length <= ROOM_MOST; length++) {
        size_t served = length < 32 ? 0 : 32;
        uint32_t answer = length < 32 ? 12 : PACKED(0, 32);
        new_room();
        CHECK(snatchblock_unescape(letters, 33, room, length), 13);
        CHECK(snatchblock_unescape(strokes, 66, room, length), 13);
        CHECK(snatchblock_unescape(one_more, 65, room, length), 13);
        CHECK(snatchblock_unescape(strokes, 65, room, length), 13); /* this and the next end in an escape mark */
        CHECK(snatchblock_unescape(strokes, 63, room, length), 13);
        CHECK(room_is(NULL, 0), true);
        CHECK(snatchblock_unescape(letters, 32, room, length), answer);
        CHECK(room_is(letters, served), true);
        new_room();
        CHECK(snatchblock_unescape(strokes, 64, room, length), answer);
        CHECK(room_is(plain, served), true);
        new_room();
        CHECK(snatchblock_unescape(last_escaped, 33, room, length), answer);
        CHECK(room_is(stroke_last, served), true);
    }
}

/* Bytes of every length get an answer: megabytes without a slash, or of escapes alone, need no deep stack. */
static void long_bytes_of(uint8_t byte, size_t length)
{
    static uint8_t bytes[1 << 24];
    memset(bytes, byte, length);
    new_room();
    CHECK(snatchblock_unescape(bytes, length, room, ROOM_MOST), 13);
    CHECK(snatchblock_read_key(bytes, length), 13);
    CHECK(snatchblock_is_sheet(bytes, length), false);
    CHECK(snatchblock_open_capture(bytes, length), 14);
    CHECK(snatchblock_exchange_check(bytes, length), 15);
    CHECK(snatchblock_sound(bytes, length), false);
    CHECK(snatchblock_shelf_report(bytes, length, room, ROOM_MOST), length % 8 == 0 ? 16 : 4);
    CHECK(snatchblock_write_key(bytes, length, bytes, length, 0, 0, room, KEY_ROOM), 12);
    CHECK(room_is(NULL, 0), true);
}

static void long_bytes(void)
{
    static const uint8_t all[] = {0x00, 0x2F, 0x5C, 0x41};
    static const size_t lengths[] = {1 << 10, 1 << 16, 1 << 20, (1 << 24) - 2, (1 << 24) - 1, 1 << 24};
    for (size_t i = 0; i < sizeof all; i++)
        for (size_t j = 0; j < sizeof lengths / sizeof *lengths; j++)
            long_bytes_of(all[i], lengths[j]);
}

/* ---- sheets */

static void sheet_writing(void)
{
    const uint8_t two[] = {2, 0x20, 2, 9, 0, 0x22, 1, 11, 0, 'H', 'i', '!'};
    for (size_t length = 0; length <= ROOM_MOST; length++) {
        new_room();
        uint32_t result = snatchblock_write_sheet(room, length, true, TEXT("Hi"), false, TEXT("not given"), true, TEXT("!"), false, NO_BYTES);
        CHECK(result, length < SHEET_ROOM ? 12 : PACKED(0, 12));
        CHECK(room_is(two, length < SHEET_ROOM ? 0 : 12), true);
    }
    CHECK(snatchblock_is_sheet(two, 12), true);
    for (size_t length = 0; length < 12; length++)
        CHECK(snatchblock_is_sheet(two, length), false);
    new_room();
    CHECK(snatchblock_write_sheet(room, SHEET_ROOM, true, slashes, 33, false, NO_BYTES, false, NO_BYTES, false, NO_BYTES), 12);
    CHECK(snatchblock_write_sheet(room, SHEET_ROOM, false, NO_BYTES, false, NO_BYTES, false, NO_BYTES, true, slashes, 33), 12);
    CHECK(room_is(NULL, 0), true);
    CHECK(snatchblock_write_sheet(room, SHEET_ROOM, false, NO_BYTES, false, NO_BYTES, false, NO_BYTES, false, NO_BYTES), PACKED(0, 1));
    CHECK(room_is(no_names, 1), true);
    /* an absent body's bytes are ignored, however long */
    new_room();
    CHECK(snatchblock_write_sheet(room, SHEET_ROOM, false, NO_BYTES, false, slashes, 33, false, NO_BYTES, false, NO_BYTES), PACKED(0, 1));
    CHECK(room_is(no_names, 1), true);
    /* four names of 32 bytes fill the least room to the last byte */
    new_room();
    CHECK(snatchblock_write_sheet(room, SHEET_ROOM, true, slashes, 32, true, slashes, 32, true, slashes, 32, true, slashes, 32), PACKED(0, 145));
    CHECK(room[144] == 0x2F && room[145] == MARK && room[-1] == MARK, true);
    CHECK(snatchblock_is_sheet(room, 145), true);
}

static void blocks(void)
{
    const unsigned long long of_factory = 1ull << 32;
    const uint8_t service[] = {1, 0x21, 3, 5, 0, 'n', 'e', 'w'};
    const uint8_t factory[] = {2, 0x20, 2, 9, 0, 0x21, 3, 11, 0, 'm', 'k', 'o', 'l', 'd'};
    CHECK(snatchblock_block(service, 8, factory, 14, 0x20), 2ull << 8 | 9ull << 16 | of_factory);
    CHECK(snatchblock_block(service, 8, factory, 14, 0x21), 3ull << 8 | 5ull << 16);
    CHECK(snatchblock_block(service, 8, factory, 14, 0x22), of_factory);
    CHECK(snatchblock_block(service, 8, factory, 14, 0x05), of_factory);
    CHECK(snatchblock_block(service, 7, factory, 14, 0x20), 9);
    CHECK(snatchblock_block(service, 8, factory, 13, 0x21), 9);
    CHECK(snatchblock_block(NO_BYTES, NO_BYTES, 0x20), 9);
}

static void bad_sheets(void)
{
    CHECK(snatchblock_is_sheet(NO_BYTES), false);
    CHECK(snatchblock_is_sheet(BYTES(0)), true);
    CHECK(snatchblock_is_sheet(BYTES(0, 0)), false);
    CHECK(snatchblock_is_sheet(BYTES(5)), false);
    CHECK(snatchblock_is_sheet(BYTES(1, 0x23, 0, 5, 0)), true);
    CHECK(snatchblock_is_sheet(BYTES(1, 0x24, 0, 5, 0)), false);
    CHECK(snatchblock_is_sheet(BYTES(1, 0x1F, 0, 5, 0)), false);
    CHECK(snatchblock_is_sheet(BYTES(1, 0x20, 0, 5, 1)), false);
    CHECK(snatchblock_is_sheet(BYTES(1, 0x20, 1, 4, 0, 7)), false);
    CHECK(snatchblock_is_sheet(BYTES(2, 0x20, 0, 9, 0, 0x21, 0, 9, 0)), true);
    CHECK(snatchblock_is_sheet(BYTES(2, 0x21, 0, 9, 0, 0x20, 0, 9, 0)), false);
    CHECK(snatchblock_is_sheet(BYTES(2, 0x21, 0, 9, 0, 0x21, 0, 9, 0)), false);
    uint8_t long_body[38] = {1, 0x20, 33, 5, 0};
    CHECK(snatchblock_is_sheet(long_body, 38), false);
    long_body[2] = 32;
    CHECK(snatchblock_is_sheet(long_body, 37), true);
}

/* ---- captures */

static void captures(void)
{
    const uint8_t capture[] = {3, 0, 5, 1, 3, 0, 5, 0x16, 0x02, 0x0A, 0, 0x47, 0x16, 0x09, 0x17, 0x16, 0x02, 0x0A, 0, 0x46};
    const size_t length = sizeof capture;
    CHECK(snatchblock_open_capture(capture, length), 3ul << 8 | 7ul << 16);
    CHECK(snatchblock_step_capture(capture, length, 0, 7), 1ull << 8 | 5ull << 16 | 12ull << 32);
    CHECK(snatchblock_step_capture(capture, length, 1, 12), 1ull << 8 | 1ull << 9 | 3ull << 16 | 15ull << 32);
    CHECK(snatchblock_step_capture(capture, length, 2, 15), 1ull << 8 | 5ull << 16 | 20ull << 32);
    CHECK(snatchblock_step_capture(capture, length, 3, 20), 0);
    CHECK(snatchblock_step_capture(capture, length, SIZE_MAX, SIZE_MAX), 0);
    CHECK(snatchblock_step_capture(capture, length, 0, SIZE_MAX), 0);
    CHECK(snatchblock_step_capture(capture, length, 0, 16), 0);
    CHECK(snatchblock_step_capture(capture, length, 1, 17), 1ull << 8 | 1ull << 9 | 3ull << 16 | 20ull << 32);
    CHECK(snatchblock_step_capture(capture, length, (size_t)1 << 63, 7), 0);
    CHECK(snatchblock_step_capture(capture, length, SIZE_MAX, 0), 14);
    for (size_t row = 0; row < 5; row++)
        CHECK(snatchblock_step_capture(capture, length, row, 0), 14);
    for (size_t in_table = 1; in_table < 7; in_table++)
        CHECK(snatchblock_step_capture(capture, length, 0, in_table), 0);
    for (size_t cut = 0; cut < length; cut++) {
        CHECK(snatchblock_open_capture(capture, cut), 14);
        for (size_t row = 0; row < 4; row++)
            CHECK(snatchblock_step_capture(capture, cut, row, 0), 14);
        /* a step from another place sees a cut table; else it looks at its own row, the first of 5 bytes */
        CHECK(snatchblock_step_capture(capture, cut, 0, 7), cut < 7 ? 14 : cut < 12 ? 0 : 1ull << 8 | 5ull << 16 | 12ull << 32);
    }
    CHECK(snatchblock_open_capture(BYTES(0)), 1ul << 16);
    CHECK(snatchblock_step_capture(BYTES(0), 0, 1), 0);
    CHECK(snatchblock_open_capture(BYTES(0, 0)), 14);
    CHECK(snatchblock_step_capture(BYTES(0), 0, 0), 14);
    CHECK(snatchblock_open_capture(BYTES(1, 2, 0)), 14);
    CHECK(snatchblock_step_capture(BYTES(1, 2, 0), 0, 3), 14);
    CHECK(snatchblock_step_capture(BYTES(1, 2, 0), 1, 3), 0);
    CHECK(snatchblock_open_capture(BYTES(1, 1, 0)), 1ul << 8 | 3ul << 16);
    uint8_t long_row[41] = {1, 0, 37};
    CHECK(snatchblock_open_capture(long_row, 40), 1ul << 8 | 3ul << 16);
    long_row[2] = 38;
    CHECK(snatchblock_open_capture(long_row, 41), 14);
    CHECK(snatchblock_step_capture(long_row, 41, 0, 3), 14);
    /* the longest capture: 255 rows of 37 bytes; and a byte more */
    enum { LONGEST = 1 + 255 * 39 };
    static uint8_t longest[LONGEST + 1] = {255};
    for (size_t i = 0; i < 255; i++)
        longest[2 + 2 * i] = 37;
    CHECK(snatchblock_open_capture(longest, LONGEST), 255ul << 8 | 511ul << 16);
    CHECK(snatchblock_step_capture(longest, LONGEST, 254, LONGEST - 37), 1ull << 8 | 37ull << 16 | (unsigned long long)LONGEST << 32);
    CHECK(snatchblock_step_capture(longest, LONGEST, 0, 511), 1ull << 8 | 37ull << 16 | 548ull << 32);
    CHECK(snatchblock_open_capture(longest, LONGEST + 1), 14);
    CHECK(snatchblock_step_capture(longest, LONGEST + 1, 0, 511), 14);
    CHECK(snatchblock_step_capture(longest, LONGEST + 1, 255, LONGEST), 14);
}

/* ---- the shelf */

enum { ROW = 8, TABLE_MOST = 66 * ROW + 7 };
static uint8_t table[TABLE_MOST], table_before[TABLE_MOST];

/* The report over so many bytes of the table: an answer by its name, the figures or no byte of them, the table as it was. */
static void reported_at(int line, size_t length, size_t room_length, enum snatchblock_answer answer, const uint8_t *figures)
{
    size_t written = answer == SNATCHBLOCK_SERVED ? SHELF_ROOM : 0;
    memcpy(table_before, table, sizeof table);
    new_room();
    uint32_t result = snatchblock_shelf_report(table, length, room, room_length);
    check_at(line, "answer", snatchblock_answer_of(result), answer);
    check_at(line, "served", snatchblock_served(result), answer == SNATCHBLOCK_SERVED);
    check_at(line, "length", snatchblock_length_of(result), written);
    check_at(line, "room", room_is(figures, written), true);
    check_at(line, "table", (unsigned)memcmp(table, table_before, sizeof table), 0);
}
#define REPORTED(length, room_length, answer, figures) reported_at(__LINE__, length, room_length, answer, figures)

static void put_row(size_t place, struct snatchblock_row row)
{
    const uint16_t words[4] = {row.remaining, row.full, row.design, row.cycles};
    for (size_t i = 0; i < 4; i++) {
        table[ROW * place + 2 * i] = (uint8_t)(words[i] & 0xFF);
        table[ROW * place + 2 * i + 1] = (uint8_t)(words[i] >> 8);
    }
}

/* The report over rows in structs, last week's figures in its place. */
static void structs_at(int line, const struct snatchblock_row *rows, size_t count, enum snatchblock_answer answer,
                       struct snatchblock_figures wanted)
{
    struct snatchblock_figures got = {99, 99, 99, !wanted.is_lowest, 99, 99, 99, 99};
    uint32_t result = snatchblock_shelf_report_from(rows, count, &got);
    check_at(line, "answer", snatchblock_answer_of(result), answer);
    check_at(line, "length", snatchblock_length_of(result), answer == SNATCHBLOCK_SERVED ? SHELF_ROOM : 0);
    check_at(line, "packs", got.packs, wanted.packs);
    check_at(line, "total remaining", got.remaining, wanted.remaining);
    check_at(line, "total full", got.full, wanted.full);
    check_at(line, "is lowest", got.is_lowest, wanted.is_lowest);
    check_at(line, "lowest remaining", got.lowest_remaining, wanted.lowest_remaining);
    check_at(line, "lowest full", got.lowest_full, wanted.lowest_full);
    check_at(line, "lowest place", got.lowest_place, wanted.lowest_place);
    check_at(line, "below one fifth", got.low, wanted.low);
}

/* Both reports over the same rows. */
static void shelf_at(int line, const struct snatchblock_row *rows, size_t count, enum snatchblock_answer answer,
                     struct snatchblock_figures f)
{
    const uint32_t numbers[8] = {f.packs, f.remaining, f.full, f.is_lowest, f.lowest_remaining, f.lowest_full, f.lowest_place, f.low};
    static const size_t widths[8] = {1, 4, 4, 1, 2, 2, 1, 1};
    uint8_t figures[SHELF_ROOM], *at = figures;
    for (size_t i = 0; i < 8; i++)
        for (size_t k = 0; k < widths[i]; k++)
            *at++ = (uint8_t)(numbers[i] >> 8 * k);
    for (size_t i = 0; i < count; i++)
        put_row(i, rows[i]);
    reported_at(line, ROW * count, SHELF_ROOM, answer, figures);
    structs_at(line, rows, count, answer, f);
}

static const struct snatchblock_figures no_figures = {0, 0, 0, false, 0, 0, 0, 0};

/* Packs, total remaining, total full, the lowest remaining, its full, its place, how many below one fifth; the rows. */
#define SHELF(packs, remaining, full, lowest_remaining, lowest_full, place, low, ...)                                  \
    shelf_at(__LINE__, (const struct snatchblock_row[]){__VA_ARGS__},                                                  \
             sizeof((const struct snatchblock_row[]){__VA_ARGS__}) / sizeof(struct snatchblock_row), SNATCHBLOCK_SERVED, \
             (struct snatchblock_figures){packs, remaining, full, true, lowest_remaining, lowest_full, place, low})

/* Each byte where the header puts it, at every address, in every room. */
static void shelf_layout(void)
{
    /* 513 of 1,027; then below one fifth 2,569 of 64,523, 529 of 65,043 and 25 of 547: 3,636 of 131,140 */
    const uint8_t rows[] = {0x01, 0x02, 0x03, 0x04, 0x05, 0x06, 0x07, 0x08, 0x09, 0x0A, 0x0B, 0xFC, 0x0D, 0x0E, 0x0F, 0x10,
                            0x11, 0x02, 0x13, 0xFE, 0x15, 0x16, 0x17, 0x18, 0x19, 0x00, 0x23, 0x02, 0x1D, 0x1E, 0x1F, 0x20};
    const uint8_t figures[] = {4, 0x34, 0x0E, 0, 0, 0x44, 0x00, 0x02, 0, 1, 0x11, 0x02, 0x13, 0xFE, 2, 3};
    const uint8_t none[SHELF_ROOM] = {0};
    memcpy(table, rows, sizeof rows);
    for (size_t length = 0; length <= ROOM_MOST; length++) {
        REPORTED(sizeof rows, length, length < SHELF_ROOM ? SNATCHBLOCK_SMALL_ROOM : SNATCHBLOCK_SERVED, figures);
        REPORTED(0, length, length < SHELF_ROOM ? SNATCHBLOCK_SMALL_ROOM : SNATCHBLOCK_SERVED, none);
    }
    for (size_t shift = 1; shift < ROW; shift++) {
        memcpy(table + shift, rows, sizeof rows);
        new_room();
        CHECK(snatchblock_shelf_report(table + shift, sizeof rows, room + shift, SHELF_ROOM), PACKED(0, 16));
        CHECK(memcmp(room + shift, figures, SHELF_ROOM), 0);
    }
    new_room();
    CHECK(snatchblock_shelf_report(NO_BYTES, room, SHELF_ROOM), PACKED(0, 16));
    CHECK(room_is(none, SHELF_ROOM), true);
    CHECK(snatchblock_low_first(rows, 0), 0);
    CHECK(snatchblock_low_first(rows, 1), 0x01);
    CHECK(snatchblock_low_first(rows, 4), 0x04030201);
}

static void shelf_lowest(void)
{
    SHELF(1, 2000, 4000, 2000, 4000, 0, 0, {2000, 4000, 4400, 12});
    /* two fifths three times: the first of them, in either order; then the same numbers twice */
    SHELF(4, 1245, 3109, 40, 100, 1, 0, {3, 4, 9, 0}, {40, 100, 9, 0}, {2, 5, 9, 0}, {1200, 3000, 9, 0});
    SHELF(4, 1245, 3109, 1200, 3000, 0, 0, {1200, 3000, 9, 0}, {2, 5, 9, 0}, {40, 100, 9, 0}, {3, 4, 9, 0});
    SHELF(3, 16, 22, 7, 10, 1, 0, {2, 2, 9, 0}, {7, 10, 9, 0}, {7, 10, 9, 0});
    /* remaining alone, and remaining by design, would choose another row */
    SHELF(2, 1200, 4000, 900, 3600, 1, 0, {300, 400, 9, 0}, {900, 3600, 9, 0});
    SHELF(2, 2000, 4100, 1000, 2100, 1, 0, {1000, 2000, 65535, 0}, {1000, 2100, 50, 0});
    /* less than a percent apart; 65,533 x 65,535 is 1 less than 65,534 x 65,534 */
    SHELF(2, 3662, 11000, 3329, 10000, 1, 0, {333, 1000, 9, 0}, {3329, 10000, 9, 0});
    SHELF(2, 65535, 131069, 32767, 65534, 1, 0, {32768, 65535, 9, 0}, {32767, 65534, 9, 0});
    SHELF(2, 131067, 131069, 65533, 65534, 1, 0, {65534, 65535, 9, 0}, {65533, 65534, 9, 0});
    SHELF(2, 131067, 131069, 65533, 65534, 0, 0, {65533, 65534, 9, 0}, {65534, 65535, 9, 0});
    SHELF(2, 65535, 131070, 0, 65535, 0, 1, {0, 65535, 65535, 65535}, {65535, 65535, 65535, 65535});
    SHELF(3, 65535, 131071, 0, 65535, 1, 2, {65535, 65535, 9, 0}, {0, 65535, 9, 0}, {0, 1, 9, 0});
    SHELF(3, 4, 196604, 1, 65535, 1, 3, {1, 65534, 9, 0}, {1, 65535, 9, 0}, {2, 65535, 9, 0});
}

static void shelf_fifths(void)
{
    SHELF(1, 19, 100, 19, 100, 0, 1, {19, 100, 9, 0});
    SHELF(1, 20, 100, 20, 100, 0, 0, {20, 100, 9, 0});
    SHELF(1, 21, 100, 21, 100, 0, 0, {21, 100, 9, 0});
    SHELF(1, 1, 6, 1, 6, 0, 1, {1, 6, 9, 0});
    SHELF(1, 13106, 65535, 13106, 65535, 0, 1, {13106, 65535, 9, 0});
    SHELF(1, 13107, 65535, 13107, 65535, 0, 0, {13107, 65535, 9, 0});
    SHELF(3, 300, 1500, 100, 501, 1, 1, {100, 500, 9, 0}, {100, 501, 9, 0}, {100, 499, 9, 0});
    SHELF(4, 1640, 8194, 0, 1, 2, 2, {819, 4096, 9, 0}, {820, 4096, 9, 0}, {0, 1, 9, 0}, {1, 1, 9, 0});
    SHELF(2, 40, 200, 10, 100, 1, 1, {30, 100, 10000, 0}, {10, 100, 1, 0}); /* of full, not of design */
}

/* Every length, its rows all bad, then all good: 2 before 4 before 16 before 17. */
static void shelf_refusals(void)
{
    for (size_t length = 1; length <= TABLE_MOST; length++) {
        enum snatchblock_answer rest = length > 64 * ROW ? SNATCHBLOCK_TOO_MANY_ROWS : SNATCHBLOCK_BAD_ROW;
        memset(table, 0, sizeof table);
        REPORTED(length, SHELF_ROOM - 1, SNATCHBLOCK_SMALL_ROOM, NULL);
        REPORTED(length, SHELF_ROOM, length % ROW != 0 ? SNATCHBLOCK_WRONG_FORM : rest, NULL);
        memset(table, 0xFF, sizeof table);
        REPORTED(length, 0, SNATCHBLOCK_SMALL_ROOM, NULL);
        if (length % ROW != 0 || length > 64 * ROW)
            REPORTED(length, SHELF_ROOM, length % ROW != 0 ? SNATCHBLOCK_WRONG_FORM : SNATCHBLOCK_TOO_MANY_ROWS, NULL);
    }
}

/* No rows, 64, 65 and 66; a row that is bad for each of three reasons at each place. */
static void shelf_many(void)
{
    static const struct snatchblock_row bad[] = {{0, 0, 1, 0}, {0, 1, 0, 0}, {2, 1, 1, 0}};
    struct snatchblock_row rows[66];
    for (size_t i = 0; i < 66; i++)
        rows[i] = (struct snatchblock_row){65535, 65535, 65535, 65535};
    shelf_at(__LINE__, rows, 0, SNATCHBLOCK_SERVED, no_figures);
    shelf_at(__LINE__, rows, 64, SNATCHBLOCK_SERVED, (struct snatchblock_figures){64, 4194240, 4194240, true, 65535, 65535, 0, 0});
    shelf_at(__LINE__, rows, 65, SNATCHBLOCK_TOO_MANY_ROWS, no_figures);
    shelf_at(__LINE__, rows, 66, SNATCHBLOCK_TOO_MANY_ROWS, no_figures);
    for (size_t i = 0; i < 3 * 65; i++) {
        struct snatchblock_row kept = rows[i / 3];
        rows[i / 3] = bad[i % 3];
        shelf_at(__LINE__, rows, 65, SNATCHBLOCK_TOO_MANY_ROWS, no_figures);
        shelf_at(__LINE__, rows, i / 3 + 1, i / 3 < 64 ? SNATCHBLOCK_BAD_ROW : SNATCHBLOCK_TOO_MANY_ROWS, no_figures);
        shelf_at(__LINE__, rows, 64, i / 3 < 64 ? SNATCHBLOCK_BAD_ROW : SNATCHBLOCK_SERVED,
                 i / 3 < 64 ? no_figures : (struct snatchblock_figures){64, 4194240, 4194240, true, 65535, 65535, 0, 0});
        rows[i / 3] = kept;
    }
    rows[63] = (struct snatchblock_row){0, 1, 1, 0};
    shelf_at(__LINE__, rows, 64, SNATCHBLOCK_SERVED, (struct snatchblock_figures){64, 4128705, 4128706, true, 0, 1, 63, 1});
    for (size_t i = 0; i < 64; i++)
        rows[i] = (struct snatchblock_row){0, 65535, 1, 0};
    shelf_at(__LINE__, rows, 64, SNATCHBLOCK_SERVED, (struct snatchblock_figures){64, 0, 4194240, true, 0, 65535, 0, 64});
}

/* ---- the header's own functions */

/* The bits of a result from one to another, one at a time. */
static uint64_t bits(uint64_t result, unsigned from, unsigned to)
{
    uint64_t value = 0;
    for (unsigned i = from; i <= to; i++)
        if (result & (uint64_t)1 << i)
            value += (uint64_t)1 << (i - from);
    return value;
}

/* Each accessor beside the header's table of bits. */
static void access_wide(uint64_t r)
{
    CHECK(snatchblock_answer_of(r), bits(r, 0, 7));
    CHECK(snatchblock_served(r), bits(r, 0, 7) == 0 || bits(r, 0, 7) == 10);
    CHECK(snatchblock_key_maker_length(r), bits(r, 8, 15));
    CHECK(snatchblock_key_device_offset(r), bits(r, 8, 15) + 1);
    CHECK(snatchblock_key_device_length(r), bits(r, 16, 23));
    CHECK(snatchblock_key_date(r), bits(r, 24, 39));
    CHECK(snatchblock_key_serial(r), bits(r, 40, 55));
    CHECK(snatchblock_block_length(r), bits(r, 8, 15));
    CHECK(snatchblock_block_offset(r), bits(r, 16, 31));
    CHECK(snatchblock_block_in_factory(r), bits(r, 32, 32));
    CHECK(snatchblock_step_is_row(r), bits(r, 8, 8));
    CHECK(snatchblock_step_is_read(r), bits(r, 9, 9));
    CHECK(snatchblock_step_length(r), bits(r, 16, 23));
    CHECK(snatchblock_step_next(r), bits(r, 32, 63));
}

static void access_narrow(uint32_t r)
{
    CHECK(snatchblock_length_of(r), bits(r, 8, 31));
    CHECK(snatchblock_check_right(r), bits(r, 8, 8));
    CHECK(snatchblock_comparison_bits(r), bits(r, 8, 31));
    CHECK(snatchblock_capture_rows(r), bits(r, 8, 15));
    CHECK(snatchblock_capture_first(r), bits(r, 16, 31));
}

/* Every single bit, every answer, and mixtures. */
static void accessors(void)
{
    uint64_t mixed = 1;
    for (unsigned i = 0; i < 64; i++) {
        access_wide((uint64_t)1 << i);
        access_wide(~((uint64_t)1 << i));
        access_narrow((uint32_t)1 << i % 32);
        access_narrow(~((uint32_t)1 << i % 32));
        mixed = mixed * 6364136223846793005u + 1442695040888963407u;
        access_wide(mixed);
        access_narrow((uint32_t)(mixed >> 32));
    }
    for (unsigned i = 0; i < 256; i++)
        access_wide(0x0123456789ABCD00u | i);
}

/* The names stand in the order of document 01's table; 16 and 17 are request R-1's. */
static void answer_names(void)
{
    const enum snatchblock_answer names[] = {
        SNATCHBLOCK_SERVED, SNATCHBLOCK_NOT_SOUND, SNATCHBLOCK_SMALL_ROOM, SNATCHBLOCK_OTHER_ADDRESS,
        SNATCHBLOCK_WRONG_FORM, SNATCHBLOCK_WRONG_PEC, SNATCHBLOCK_RESERVED_COMMAND, SNATCHBLOCK_COMMAND_NOT_BUILT,
        SNATCHBLOCK_READ_ONLY, SNATCHBLOCK_BAD_SHEET, SNATCHBLOCK_SERVED_CUT_OFF, SNATCHBLOCK_BAD_SET_UP,
        SNATCHBLOCK_NO_FIT, SNATCHBLOCK_NOT_A_KEY, SNATCHBLOCK_NOT_A_CAPTURE, SNATCHBLOCK_WRONG_LENGTH,
        SNATCHBLOCK_TOO_MANY_ROWS, SNATCHBLOCK_BAD_ROW};
    CHECK(sizeof names / sizeof *names, 18);
    for (unsigned i = 0; i < 18; i++)
        CHECK(names[i], i);
    CHECK(SNATCHBLOCK_VERSION, 4);
}

/* Each named number lands at its place: no two are equal. */
static void wrappers(void)
{
    const struct snatchblock_setup setup = {
        .DesignCapacity = 4001, .full = 4002, .remaining = 1003, .DesignVoltage = 14804, .MaxError = 5, .CycleCount = 6,
        .ManufactureDate = 20007, .SerialNumber = 108, .ChargingCurrent = 2009, .ChargingVoltage = 16810,
        .TemperatureLimit = 3111, .DischargeLimit = 11012, .plain = true};
    const struct snatchblock_reading first = {.voltage = 14013, .current = -1014, .temperature = 2915, .counter = 0xFFFF0016};
    const struct snatchblock_reading next = {.voltage = 14117, .current = 1118, .temperature = 2919, .counter = 0x00010020};
    const uint16_t settings[9] = {4001, 14804, 5, 20007, 108, 2009, 16810, 3111, 11012};
    memset(area_memory, MARK, sizeof area_memory);
    CHECK(snatchblock_set_up_from(area, SNATCHBLOCK_AREA - 1, &setup, &first), 1);
    CHECK(snatchblock_set_up_from(area, SNATCHBLOCK_AREA, &setup, &first), 0);
    for (size_t i = 0; i < 9; i++)
        CHECK(number_at(SNATCHBLOCK_SETTINGS + 2 * i, 2), settings[i]);
    CHECK(area[SNATCHBLOCK_PLAIN], 1);
    CHECK(read_word(0x10), 4002);
    CHECK(read_word(0x0F), 1003);
    CHECK(read_word(0x17), 6);
    CHECK(number_at(SNATCHBLOCK_LATEST, 2), 14013);
    CHECK(number_at(SNATCHBLOCK_LATEST + 2, 2), 0x10000 - 1014);
    CHECK(number_at(SNATCHBLOCK_LATEST + 4, 2), 2915);
    CHECK(number_at(SNATCHBLOCK_LATEST + 6, 4), 0xFFFF0016);
    new_room();
    CHECK(snatchblock_sample_from(area, SNATCHBLOCK_AREA, &next, room, PLAIN_ROOM - 1), 2);
    CHECK(snatchblock_sample_from(area, SNATCHBLOCK_AREA, &next, room, PLAIN_ROOM), PACKED(0, 8)); /* 131,082 ms on */
    CHECK(room[2] | room[3] << 8, 2009);
    CHECK(number_at(SNATCHBLOCK_LATEST, 2), 14117);
    CHECK(number_at(SNATCHBLOCK_LATEST + 2, 2), 1118);
    CHECK(number_at(SNATCHBLOCK_LATEST + 4, 2), 2919);
    CHECK(number_at(SNATCHBLOCK_LATEST + 6, 4), 0x00010020);
}

/* The same of the thirteen-cell pack, whose entries are each called once here: tests/c/thirteen.c has the rest. */
static void thirteen_wrappers(void)
{
    enum { AREA = SNATCHBLOCK_THIRTEEN_AREA, CELLS = SNATCHBLOCK_THIRTEEN_CELLS };
    const struct snatchblock_thirteen_setup setup = {
        .DesignCapacity = 5201, .full = 5002, .remaining = 2503, .DesignVoltage = 48104, .StateOfHealth = 95};
    const struct snatchblock_reading first = {.voltage = 48016, .current = -1017, .temperature = 2918, .counter = 0xFFFF0019};
    const struct snatchblock_reading next = {.voltage = 48120, .current = 1121, .temperature = 2922, .counter = 0xFFFF0019};
    const uint16_t cells[2][CELLS] = {{3701, 3702, 3703, 3704, 3705, 3706, 3707, 3708, 3709, 3710, 3711, 3712, 3713},
                                      {3721, 3722, 3723, 3724, 3725, 3726, 3727, 3728, 3729, 3730, 3731, 3732, 3733}};
    memset(area_memory, MARK, sizeof area_memory);
    CHECK(snatchblock_thirteen_set_up_from(area, AREA - 1, &setup, &first, cells[0]), 1);
    CHECK(snatchblock_thirteen_set_up_from(area, AREA, &setup, &first, cells[0]), 0);
    CHECK(number_at(1, 2), 5201);
    CHECK(number_at(3, 2), 48104);
    CHECK(number_at(5, 2), 95);
    CHECK(number_at(51, 2), 5002);
    CHECK(number_at(43, 4), 2503 * 3600000ull & 0xFFFFFFFF);
    CHECK(number_at(47, 4), 2503 * 3600000ull >> 32);
    for (int i = 0; i < 2; i++) {
        const struct snatchblock_reading *shown = i == 0 ? &first : &next;
        CHECK(number_at(7, 2), shown->voltage);
        CHECK(number_at(9, 2), (uint16_t)shown->current);
        CHECK(number_at(11, 2), shown->temperature);
        CHECK(number_at(13, 4), 0xFFFF0019);
        for (size_t cell = 0; cell < CELLS; cell++)
            CHECK(number_at(17 + 2 * cell, 2), cells[i][cell]);
        CHECK(snatchblock_thirteen_sample_from(area, AREA, &next, cells[1]), 0); /* in no time */
    }
    CHECK(snatchblock_thirteen_sound(area, AREA), true);
    new_room();
    CHECK(snatchblock_thirteen_transact(area, AREA, true, BYTES(0x16, 0x3D, 0x17), room, REPLY_ROOM), PACKED(0, 3));
    CHECK(room[0] | room[1] << 8, 3733);
}

int main(void)
{
    CHECK(SNATCHBLOCK_REPLY_ROOM, REPLY_ROOM);
    CHECK(SNATCHBLOCK_BROADCAST_ROOM, BROADCAST_ROOM);
    CHECK(SNATCHBLOCK_KEY_ROOM, KEY_ROOM);
    CHECK(SNATCHBLOCK_SHEET_ROOM, SHEET_ROOM);
    CHECK(SNATCHBLOCK_SHELF_ROOM, SHELF_ROOM);
    answer_names();
    accessors();
    wrappers();
    thirteen_wrappers();
    set_ups();
    layout();
    soundness();
    sample_sizes();
    samples();
    transact_sizes();
    refusals();
    served();
    served_exchanges();
    winter();
    checks();
    key_writing();
    key_reading();
    unescaping();
    unescaping_32();
    long_bytes();
    sheet_writing();
    blocks();
    bad_sheets();
    captures();
    shelf_layout();
    shelf_lowest();
    shelf_fifths();
    shelf_refusals();
    shelf_many();
    return checked("c");
}
