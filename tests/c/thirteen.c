/* The thirteen-cell pack, held to figures worked by hand from request R-10 and source document 001: every function and
 * answer, every command read and written, every word and status bit at its borders, samples and soundness, what the
 * area keeps and what it leaves. Check bytes are worked out here bit by bit; some are written out, of a long division
 * done elsewhere, and some are 001's own. */
#include "check.h"
#include "altered.h"
#include "division.h"
#include "snatchblock.h"

#include <string.h>

enum { REPLY_ROOM = 34 };
#define ROOM_MOST 64
#include "room.h"

enum { AREA = 301, AREA_MOST = 340, CELLS = 13, SECONDS = 60 };
#include "area.h"

/* Where the area keeps what. */
enum { AT_CODE = 0, AT_DESIGN_CAPACITY = 1, AT_DESIGN_VOLTAGE = 3, AT_HEALTH = 5, AT_VOLTAGE = 7, AT_CURRENT = 9,
       AT_TEMPERATURE = 11, AT_COUNTER = 13, AT_CELLS = 17, AT_CHARGE = 43, AT_FULL = 51, AT_FLAG = 53, AT_TOTALS = 54,
       AT_COUNT = 294, AT_BEGUN_MS = 295, AT_BEGUN = 297 };

/* Commands of 001. */
enum { TEMPERATURE = 0x08, VOLTAGE = 0x09, CURRENT = 0x0A, PERCENT = 0x0D, TO_EMPTY = 0x11, TO_FULL = 0x13,
       STATUS = 0x16, CELL_1 = 0x31, CELL_13 = 0x3D, HEALTH = 0x4F, ALL_CELLS = 0xF1 };

#define PACKED(answer, rest) ((uint32_t)(answer) | (uint32_t)(rest) << 8)
#define BYTES(...) (const uint8_t[]){__VA_ARGS__}, sizeof((const uint8_t[]){__VA_ARGS__})
#define MAH(capacity) (UINT64_C(3600000) * (capacity)) /* in mA·ms */

static const uint8_t nowhere[1] = {0};
#define NO_BYTES nowhere, 0

/* ---- the pack */

static const struct snatchblock_thirteen_setup sprayer = {
    .DesignCapacity = 5200, .full = 5000, .remaining = 2500, .DesignVoltage = 48100, .StateOfHealth = 97};
static const struct snatchblock_reading at_work = {
    .voltage = 48378, .current = -1239, .temperature = 2982, .counter = 0x12345678};
static const uint16_t cells[CELLS] = {3637, 3711, 3583, 3840, 3694, 3755, 3900, 3651, 3770, 3702, 3811, 3599, 3725};

static void set_up(void)
{
    new_area();
    CHECK(snatchblock_thirteen_set_up_from(area, AREA, &sprayer, &at_work, cells), 0);
}

static uint32_t counter; /* of the latest sample that flowed */

/* So many of so many mAh, at rest. */
static void set_up_at(uint16_t remaining, uint16_t full, uint32_t reading)
{
    counter = reading;
    new_area();
    CHECK(snatchblock_thirteen_set_up(area, AREA, 5200, full, remaining, 48100, 97, 48378, 0, 2982, reading, cells), 0);
}

/* A current that flowed for so many ms. */
static void flow(int16_t current, uint32_t ms)
{
    counter += ms;
    CHECK(snatchblock_thirteen_sample(area, AREA, 48378, current, 2982, counter, cells), 0);
}

/* What was measured, put where the area keeps it. */
static void put_measured(uint16_t voltage, int16_t current, uint16_t temperature)
{
    put(AT_VOLTAGE, 2, voltage);
    put(AT_CURRENT, 2, (uint16_t)current);
    put(AT_TEMPERATURE, 2, temperature);
}

static uint32_t transact_in(size_t room_length, bool read, const uint8_t *bytes, size_t length)
{
    new_room();
    return snatchblock_thirteen_transact(area, AREA, read, bytes, length, room, room_length);
}

static uint32_t transact(bool read, const uint8_t *bytes, size_t length)
{
    return transact_in(REPLY_ROOM, read, bytes, length);
}

/* Whether of all bytes the error code alone may have changed, to this one. */
static bool code_alone(uint8_t code)
{
    before[GUARD + AT_CODE] = code;
    return area_stays();
}

/* The error code that is there before each transaction here: no answer leaves it. */
enum { EARLIER = 1 };

static void remember_earlier(void)
{
    area[AT_CODE] = EARLIER;
    remember();
}

/* A read that is served: its bytes and PEC alone in the room, and of the area the error code alone. */
static void served_at(int line, uint32_t answer, uint8_t command, const uint8_t *bytes, size_t length)
{
    uint8_t exchange[30] = {0x16, command, 0x17};
    memcpy(exchange + 3, bytes, length);
    exchange[3 + length] = check_byte(exchange, 3 + length);
    remember_earlier();
    check_at(line, "answer and length", transact(true, exchange, 3), PACKED(answer, length + 1));
    check_at(line, "reply", room_is(exchange + 3, length + 1), true);
    check_at(line, "area", code_alone(answer == 10 ? 5 : 0), true);
}

static void reads_at(int line, uint32_t answer, uint8_t command, uint16_t word)
{
    const uint8_t bytes[2] = {(uint8_t)(word & 0xFF), (uint8_t)(word >> 8)};
    served_at(line, answer, command, bytes, 2);
    check_at(line, "word", (unsigned)(room[0] | room[1] << 8), word);
}
#define READS(command, word) reads_at(__LINE__, 0, command, word)
#define BEYOND(command) reads_at(__LINE__, 10, command, 65534)
#define NOT_MOVING(command) reads_at(__LINE__, 0, command, 65535)

/* A transaction that is refused: the room as it was, and of the area the error code alone, or not even that. */
static void refused_at(int line, uint32_t answer, bool read, const uint8_t *bytes, size_t length)
{
    static const uint8_t left[9] = {0, EARLIER, EARLIER, EARLIER, 6, 7, 2, 3, 4};
    remember_earlier();
    check_at(line, "answer", transact(read, bytes, length), answer);
    check_at(line, "room", room_is(NULL, 0), true);
    check_at(line, "area", code_alone(left[answer]), true);
}
#define REFUSED(answer, read, ...) refused_at(__LINE__, answer, read, BYTES(__VA_ARGS__))

/* A write of five bytes with the right PEC. */
static void message_of(uint8_t message[5], uint8_t command, uint16_t word)
{
    message[0] = 0x16;
    message[1] = command;
    message[2] = (uint8_t)(word & 0xFF);
    message[3] = (uint8_t)(word >> 8);
    message[4] = check_byte(message, 4);
}

/* ---- the area */

/* Byte by byte, as the header lays it out: set up, and a sample 1,500 ms later. */
static void layout(void)
{
    const uint8_t made[AREA] = {
        0, 0x50, 0x14, 0xE4, 0xBB, 0x61, 0, 0xFA, 0xBC, 0x29, 0xFB, 0xA6, 0x0B, 0x78, 0x56, 0x34, 0x12,
        0x35, 0x0E, 0x7F, 0x0E, 0xFF, 0x0D, 0x00, 0x0F, 0x6E, 0x0E, 0xAB, 0x0E, 0x3C, 0x0F, 0x43, 0x0E,
        0xBA, 0x0E, 0x76, 0x0E, 0xE3, 0x0E, 0x0F, 0x0E, 0x8D, 0x0E,
        0x00, 0x1A, 0x71, 0x18, 0x02, 0, 0, 0, /* 2,500 mAh are 9,000,000,000 mA·ms */
        0x88, 0x13};
    const uint8_t later[] = {
        0x51, 0xC3, 0xFA, 0x00, 0xB8, 0x0B, 0x54, 0x5C, 0x34, 0x12,
        0x8D, 0x0E, 0x0F, 0x0E, 0xE3, 0x0E, 0x76, 0x0E, 0xBA, 0x0E, 0x43, 0x0E, 0x3C, 0x0F, 0xAB, 0x0E,
        0x6E, 0x0E, 0x00, 0x0F, 0xFF, 0x0D, 0x7F, 0x0E, 0x35, 0x0E,
        0xD8, 0xD2, 0x76, 0x18, 0x02, 0, 0, 0}; /* and 250 x 1,500 */
    uint16_t turned[CELLS];
    new_area();
    remember();
    memcpy(before + GUARD, made, AREA);
    CHECK(snatchblock_thirteen_set_up_from(area, AREA, &sprayer, &at_work, cells), 0);
    CHECK(area_stays(), true); /* the guard bytes too */
    memcpy(before + GUARD + AT_VOLTAGE, later, sizeof later);
    memcpy(before + GUARD + AT_TOTALS, (const uint8_t[]){0x90, 0xD0, 0x03, 0}, 4); /* a second of 250,000 */
    memcpy(before + GUARD + AT_COUNT, (const uint8_t[]){1, 0xF4, 0x01, 0x48, 0xE8, 0x01, 0}, 7); /* 500 ms of 125,000 */
    for (size_t i = 0; i < CELLS; i++)
        turned[i] = cells[CELLS - 1 - i];
    CHECK(snatchblock_thirteen_sample(area, AREA, 50001, 250, 3000, 0x12345678 + 1500, turned), 0);
    CHECK(area_stays(), true);
    CHECK(AT_BEGUN + 4, AREA);
    CHECK(SNATCHBLOCK_THIRTEEN_AREA, AREA);
    CHECK(SNATCHBLOCK_THIRTEEN_CELLS, CELLS);
    CHECK(SNATCHBLOCK_REPLY_ROOM, REPLY_ROOM);
}

static uint32_t sample_in(size_t length)
{
    return snatchblock_thirteen_sample(area, length, 48378, 9, 2982, 0x12345679, cells);
}

/* Areas of every length: all but one are none, whatever they hold and whatever else is wrong. */
static void lengths(void)
{
    for (size_t length = 0; length <= AREA_MOST; length++) {
        if (length == AREA)
            continue;
        set_up();
        remember();
        new_room();
        CHECK(snatchblock_thirteen_sound(area, length), false);
        CHECK(snatchblock_thirteen_transact(area, length, true, BYTES(0x16, 0x09, 0x17), room, REPLY_ROOM), 1);
        CHECK(snatchblock_thirteen_transact(area, length, true, BYTES(0x16, 0xF1, 0x17), room, REPLY_ROOM - 1), 1);
        CHECK(snatchblock_thirteen_transact(area, length, false, BYTES(0x16, 0x09, 0, 0, 0x29), room, REPLY_ROOM), 1);
        CHECK(snatchblock_thirteen_transact(area, length, false, NO_BYTES, room, 0), 1);
        CHECK(sample_in(length), 1);
        CHECK(snatchblock_thirteen_set_up_from(area, length, &sprayer, &at_work, cells), 1);
        CHECK(snatchblock_thirteen_set_up(area, length, 0, 0, 1, 0, 0, 0, 0, 0, 0, cells), 1); /* before 11 */
        CHECK(area_stays() && room_is(NULL, 0), true);
    }
    set_up();
    CHECK(snatchblock_thirteen_sound(area, AREA), true);
    CHECK(sample_in(AREA), 0);
}

/* Bytes that are no area, or a state that isn't sound: every call answers 1 before all else and changes nothing. */
static void lost_at(int line)
{
    remember();
    new_room();
    check_at(line, "sound", snatchblock_thirteen_sound(area, AREA), false);
    check_at(line, "a read", transact(true, BYTES(0x16, 0x09, 0x17)), 1);
    check_at(line, "all cells", transact(true, BYTES(0x16, 0xF1, 0x17)), 1);
    check_at(line, "a write", transact(false, BYTES(0x16, 0x09, 0, 0, 0x29)), 1);
    check_at(line, "no room", transact_in(0, true, BYTES(0x16, 0x09, 0x17)), 1);
    check_at(line, "no bytes", transact(false, NO_BYTES), 1);
    check_at(line, "a sample", sample_in(AREA), 1);
    check_at(line, "room", room_is(NULL, 0), true);
    check_at(line, "area", area_stays(), true);
}
#define LOST() lost_at(__LINE__)

static void flags(void)
{
    set_up();
    for (unsigned flag = 0; flag <= 255; flag++) {
        area[AT_FLAG] = (uint8_t)flag;
        if (flag <= 1)
            CHECK(snatchblock_thirteen_sound(area, AREA), true);
        else
            LOST();
    }
    CHECK(snatchblock_thirteen_set_up_from(area, AREA, &sprayer, &at_work, cells), 0); /* asks nothing of the bytes */
    CHECK(snatchblock_thirteen_sound(area, AREA), true);
}

/* ---- set-up */

/* Refused on a pack in use, and on bytes that are none. */
static void bad_at(int line, struct snatchblock_thirteen_setup setup)
{
    const struct snatchblock_reading other = {.voltage = 1, .current = 2, .temperature = 3, .counter = 4};
    const uint16_t others[CELLS] = {5, 6, 7, 8, 9, 10, 11, 12, 13, 14, 15, 16, 17};
    set_up();
    for (int i = 0; i < 2; i++) {
        remember();
        check_at(line, "answer", snatchblock_thirteen_set_up_from(area, AREA, &setup, &other, others), 11);
        check_at(line, "area", area_stays(), true);
        new_area();
    }
}

static void good_at(int line, struct snatchblock_thirteen_setup setup)
{
    new_area();
    check_at(line, "answer", snatchblock_thirteen_set_up_from(area, AREA, &setup, &at_work, cells), 0);
    check_at(line, "sound", snatchblock_thirteen_sound(area, AREA), true);
}

/* Capacity, full, remaining, voltage, state of health. */
#define BAD(...) bad_at(__LINE__, (struct snatchblock_thirteen_setup){__VA_ARGS__})
#define GOOD(...) good_at(__LINE__, (struct snatchblock_thirteen_setup){__VA_ARGS__})

static void set_ups(void)
{
    BAD(0, 5000, 2500, 48100, 97);
    BAD(5200, 0, 0, 48100, 97);
    BAD(5200, 5000, 2500, 0, 97);
    BAD(5200, 5000, 5001, 48100, 97);
    BAD(5200, 5000, 65535, 48100, 97);
    BAD(65535, 65534, 65535, 65535, 65535);
    BAD(0, 0, 0, 0, 0);
    GOOD(1, 1, 1, 1, 0);
    GOOD(1, 1, 0, 1, 65535);
    GOOD(5200, 5000, 5000, 48100, 97);
    GOOD(256, 256, 256, 256, 256);
    GOOD(5200, 65535, 65535, 48100, 101); /* full may be above design */
    GOOD(65535, 65535, 65535, 65535, 65535);
    READS(HEALTH, 65535); /* shown as it is */
    READS(PERCENT, 100);
    CHECK(number_at(AT_CHARGE, 8), MAH(65535));
}

/* ---- soundness */

/* A number of a sound area at a value that keeps it sound, and at one that doesn't. */
static void border_at(int line, size_t at, size_t bytes, uint64_t good, uint64_t bad)
{
    uint64_t kept = number_at(at, bytes);
    put(at, bytes, good);
    check_at(line, "sound", snatchblock_thirteen_sound(area, AREA), true);
    put(at, bytes, bad);
    lost_at(line);
    put(at, bytes, kept);
}
#define BORDER(at, bytes, good, bad) border_at(__LINE__, at, bytes, good, bad)

/* A number that may be anything. */
static void any_at(int line, size_t at)
{
    static const uint64_t words[] = {0, 1, 255, 256, 32767, 32768, 65535};
    for (size_t i = 0; i < sizeof words / sizeof *words; i++) {
        put(at, 2, words[i]);
        check_at(line, "sound", snatchblock_thirteen_sound(area, AREA), true);
    }
}

static void soundness(void)
{
    set_up();
    for (unsigned code = 0; code <= 255; code++) {
        area[AT_CODE] = (uint8_t)code;
        CHECK(snatchblock_thirteen_sound(area, AREA), code <= 7);
    }
    area[AT_CODE] = 0;
    BORDER(AT_CODE, 1, 7, 8);
    BORDER(AT_DESIGN_CAPACITY, 2, 1, 0);
    BORDER(AT_DESIGN_CAPACITY, 2, 256, 0);
    BORDER(AT_DESIGN_VOLTAGE, 2, 1, 0);
    BORDER(AT_DESIGN_VOLTAGE, 2, 256, 0);
    BORDER(AT_FULL, 2, 2500, 2499); /* 2,500 mAh are in it */
    BORDER(AT_FULL, 2, 65535, 0);
    BORDER(AT_CHARGE, 8, MAH(5000), MAH(5000) + 1);
    BORDER(AT_CHARGE, 8, 0, UINT64_MAX); /* -1 */
    BORDER(AT_CHARGE, 8, 1, UINT64_C(1) << 63);
    BORDER(AT_CHARGE, 8, 0, UINT64_C(1) << 63 | 1);
    BORDER(AT_CHARGE, 8, MAH(5000) - 1, MAH(5000) | UINT64_C(1) << 40);
    put(AT_CHARGE, 8, 0);
    BORDER(AT_FULL, 2, 1, 0); /* nothing of nothing isn't sound */
    put(AT_FULL, 2, 65535);
    BORDER(AT_CHARGE, 8, MAH(65535), MAH(65535) + 1);
    any_at(__LINE__, AT_HEALTH);
    for (size_t at = AT_VOLTAGE; at < AT_CHARGE; at += 2) /* the latest sample and the cells */
        any_at(__LINE__, at);
    memset(area, 0, AREA);
    LOST();
    memset(area, 0xFF, AREA);
    LOST();
}

/* A total of the minute in so many ms, from each side of both its borders. */
static void total_borders(size_t at, int64_t ms)
{
    BORDER(at, 4, (uint64_t)(32767 * ms), (uint64_t)(32767 * ms + 1));
    BORDER(at, 4, (uint64_t)(-32768 * ms), (uint64_t)(-32768 * ms - 1));
    BORDER(at, 4, 0, UINT64_C(0x7FFFFFFF));
    BORDER(at, 4, 0, UINT64_C(0x80000000));
}

static void minute_soundness(void)
{
    set_up();
    for (unsigned count = 0; count <= 255; count++) {
        area[AT_COUNT] = (uint8_t)count;
        CHECK(snatchblock_thirteen_sound(area, AREA), count <= SECONDS);
    }
    for (size_t place = 0; place < SECONDS; place++) { /* looked at under the count alone */
        area[AT_COUNT] = (uint8_t)(place + 1);
        total_borders(AT_TOTALS + 4 * place, 1000);
        area[AT_COUNT] = (uint8_t)place;
        put(AT_TOTALS + 4 * place, 4, 0x80000000);
        CHECK(snatchblock_thirteen_sound(area, AREA), true);
        put(AT_TOTALS + 4 * place, 4, 0);
    }
    BORDER(AT_BEGUN_MS, 2, 999, 1000);
    BORDER(AT_BEGUN_MS, 2, 0, 65535);
    for (unsigned ms = 1000; ms <= 65535; ms++) {
        put(AT_BEGUN_MS, 2, ms);
        CHECK(snatchblock_thirteen_sound(area, AREA), false);
    }
    for (unsigned ms = 0; ms < 1000; ms += 37) { /* to 999 */
        put(AT_BEGUN_MS, 2, ms);
        total_borders(AT_BEGUN, ms);
    }
}

/* ---- transactions */

/* Every room: 34 bytes are the least, for a word, for all cells and for a write that wants none of it. */
static void rooms(void)
{
    const uint8_t word[] = {0xE5, 0x12, 0x17};
    uint8_t all[27];
    set_up();
    memcpy(all, area + AT_CELLS, 26);
    all[26] = 0x8E;
    for (size_t length = 0; length <= ROOM_MOST; length++) {
        bool right = length >= REPLY_ROOM;
        remember_earlier();
        CHECK(transact_in(length, true, BYTES(0x16, 0x09, 0x17)), right ? PACKED(0, 3) : 2);
        CHECK(room_is(word, right ? 3 : 0), true);
        CHECK(code_alone(right ? 0 : EARLIER), true);
        remember_earlier();
        CHECK(transact_in(length, true, BYTES(0x16, 0xF1, 0x17)), right ? PACKED(0, 27) : 2);
        CHECK(room_is(all, right ? 27 : 0), true);
        CHECK(code_alone(right ? 0 : EARLIER), true);
        remember_earlier();
        CHECK(transact_in(length, false, BYTES(0x16, 0x09, 0, 0, 0x29)), right ? 8 : 2);
        CHECK(room_is(NULL, 0), true);
        CHECK(code_alone(right ? 4 : EARLIER), true);
        CHECK(transact_in(length, true, NO_BYTES), right ? 3 : 2);
    }
}

/* Every first byte but 16: not taken, be it a read or a write with the right PEC. */
static void addresses(void)
{
    set_up();
    refused_at(__LINE__, 3, true, NO_BYTES);
    refused_at(__LINE__, 3, false, NO_BYTES);
    for (unsigned address = 0; address <= 255; address++) {
        uint8_t message[5];
        if (address == 0x16)
            continue;
        message_of(message, HEALTH, 99);
        message[0] = (uint8_t)address;
        message[4] = check_byte(message, 4);
        refused_at(__LINE__, 3, false, message, 5);
        refused_at(__LINE__, 3, false, message, 4);
        refused_at(__LINE__, 3, false, message, 1);
        REFUSED(3, true, (uint8_t)address, 0x09, 0x17);
        REFUSED(3, true, (uint8_t)address, 0xF1, (uint8_t)(address | 1));
    }
}

/* Messages of 1 to 40 bytes with either mark, their last byte the right PEC or not, and every third byte of a read. */
static void forms(void)
{
    static const uint8_t command[] = {0x08, STATUS, CELL_13, ALL_CELLS, 0x00, 0xA1, 0x17, 0xFF};
    set_up();
    for (size_t i = 0; i < sizeof command; i++)
        for (size_t length = 1; length <= 40; length++) {
            uint8_t message[40] = {0x16, command[i], 0x17};
            for (int twice = 0; twice < 2; twice++) {
                if (length != 3)
                    refused_at(__LINE__, 4, true, message, length);
                if (length != 5)
                    refused_at(__LINE__, 4, false, message, length);
                if (length > 1)
                    message[length - 1] = check_byte(message, length - 1);
            }
        }
    for (unsigned third = 0; third <= 255; third++)
        if (third != 0x17) {
            REFUSED(4, true, 0x16, 0x09, (uint8_t)third);
            REFUSED(4, true, 0x16, 0xF1, (uint8_t)third);
            REFUSED(4, true, 0x16, 0x17, (uint8_t)third);
        }
}

/* What the pack at work shows: 48,378 mV, -1,239 mA; 2,500 of 5,000 mAh, which are 150,000 / 1,239 minutes. */
static const struct {
    uint8_t command;
    uint16_t word;
} words[] = {{TEMPERATURE, 2982}, {VOLTAGE, 4837}, {CURRENT, 65536 - 123}, {PERCENT, 50}, {TO_EMPTY, 121},
             {TO_FULL, 65535},    {STATUS, 0x00C0}, {0x31, 3637}, {0x32, 3711}, {0x33, 3583}, {0x34, 3840},
             {0x35, 3694}, {0x36, 3755}, {0x37, 3900}, {0x38, 3651}, {0x39, 3770}, {0x3A, 3702}, {0x3B, 3811},
             {0x3C, 3599}, {0x3D, 3725}, {HEALTH, 97}};

static const uint8_t left_out[] = {0x00, 0x80, 0x81, 0xA0, 0xA1, 0xA2};

/* A read of a command, and what a right write to it is answered. */
static uint32_t read_command(uint8_t command)
{
    for (size_t i = 0; i < sizeof words / sizeof *words; i++)
        if (words[i].command == command) {
            READS(command, words[i].word);
            return 8;
        }
    if (command == ALL_CELLS) {
        uint8_t all[26];
        memcpy(all, area + AT_CELLS, sizeof all);
        served_at(__LINE__, 0, command, all, sizeof all);
        return 8;
    }
    uint32_t answer = memchr(left_out, command, sizeof left_out) ? 7 : 6;
    REFUSED(answer, true, 0x16, command, 0x17);
    return answer;
}

/* Reads and writes of every command; with every wrong PEC a write is 5, without one 4. */
static void commands(void)
{
    CHECK(sizeof words / sizeof *words, 21);
    set_up();
    for (unsigned command = 0; command <= 255; command++) {
        uint8_t message[5];
        uint32_t answer = read_command((uint8_t)command);
        message_of(message, (uint8_t)command, 0x8001);
        refused_at(__LINE__, answer, false, message, 5);
        refused_at(__LINE__, 4, false, message, 4);
        for (unsigned flip = 1; flip <= 255; flip++) {
            message[4] ^= (uint8_t)flip;
            refused_at(__LINE__, 5, false, message, 5);
            message[4] ^= (uint8_t)flip;
        }
    }
}

/* Any word to a listed command: none is served. */
static void written_words(void)
{
    uint8_t message[5];
    set_up();
    for (unsigned word = 0; word <= 65535; word += 17) {
        message_of(message, words[word % 21].command, (uint16_t)word);
        refused_at(__LINE__, 8, false, message, 5);
        message_of(message, ALL_CELLS, (uint16_t)word);
        refused_at(__LINE__, 8, false, message, 5);
    }
    CHECK(snatchblock_thirteen_sound(area, AREA), true);
}

/* Where more than one condition holds the lowest number is given. */
static void order(void)
{
    set_up();
    REFUSED(3, true, 0x17);                         /* another address, and too short */
    REFUSED(3, false, 0x10, 0x4F, 0x63, 0x00, 0x00); /* and the PEC is wrong */
    REFUSED(4, true, 0x16, 0x17);                   /* the form, and no such command */
    REFUSED(4, true, 0x16, 0x80, 0x16);             /* the form, and it is left out */
    REFUSED(4, false, 0x16, 0x17, 0x00, 0x00);      /* no PEC, and no such command */
    REFUSED(4, false, 0x16, 0x00, 0x10, 0x00);      /* and it is left out */
    REFUSED(4, false, 0x16, 0x4F, 0x63, 0x00);      /* and it is only read */
    REFUSED(5, false, 0x16, 0x17, 0x00, 0x00, 0xA6);
    REFUSED(5, false, 0x16, 0x80, 0x00, 0x00, 0x19);
    REFUSED(5, false, 0x16, 0x4F, 0x63, 0x00, 0x19);
    CHECK(transact_in(REPLY_ROOM - 1, true, BYTES(0x17)), 2);
    CHECK(transact_in(REPLY_ROOM - 1, false, BYTES(0x16, 0x17, 0, 0, 1)), 2);
    area[AT_CODE] = 8;
    CHECK(transact_in(REPLY_ROOM - 1, true, BYTES(0x17)), 1);
    CHECK(room_is(NULL, 0), true);
}

/* A read whose reply is written out, and nothing behind it. */
static void replies_at(int line, uint8_t command, const uint8_t *reply, size_t length)
{
    check_at(line, "answer", transact(true, BYTES(0x16, command, 0x17)), PACKED(0, length));
    check_at(line, "reply", room_is(reply, length), true);
}
#define REPLIES(command, ...) replies_at(__LINE__, command, BYTES(__VA_ARGS__))

/* A host's visit to the pack at work. */
static void written_out(void)
{
    set_up();
    REPLIES(TEMPERATURE, 0xA6, 0x0B, 0x2A);
    REPLIES(VOLTAGE, 0xE5, 0x12, 0x17);
    REPLIES(CURRENT, 0x85, 0xFF, 0x55);
    REPLIES(PERCENT, 0x32, 0x00, 0xE0);
    REPLIES(TO_EMPTY, 0x79, 0x00, 0xA3);
    REPLIES(TO_FULL, 0xFF, 0xFF, 0xB4);
    REPLIES(STATUS, 0xC0, 0x00, 0x33);
    REPLIES(CELL_1, 0x35, 0x0E, 0xE0);
    REPLIES(CELL_13, 0x8D, 0x0E, 0xEF);
    REPLIES(HEALTH, 0x61, 0x00, 0x64);
    REPLIES(ALL_CELLS, 0x35, 0x0E, 0x7F, 0x0E, 0xFF, 0x0D, 0x00, 0x0F, 0x6E, 0x0E, 0xAB, 0x0E, 0x3C, 0x0F, 0x43, 0x0E,
            0xBA, 0x0E, 0x76, 0x0E, 0xE3, 0x0E, 0x0F, 0x0E, 0x8D, 0x0E, 0x8E);
    REFUSED(8, false, 0x16, 0x4F, 0x63, 0x00, 0x18);
    REFUSED(8, false, 0x16, 0x16, 0x00, 0x00, 0xCC);
    REFUSED(8, false, 0x16, 0xF1, 0x00, 0x00, 0x14);
    REFUSED(7, false, 0x16, 0x80, 0x00, 0x00, 0x18);
    REFUSED(6, false, 0x16, 0x17, 0x00, 0x00, 0xA7);
}

/* A packet of 001 with its CRC last. */
static void packet_at(int line, const uint8_t *packet, size_t length)
{
    check_at(line, "by division", check_byte(packet, length - 1), packet[length - 1]);
    check_at(line, "by the library", snatchblock_pec(packet, length - 1), packet[length - 1]);
    check_at(line, "the exchange", snatchblock_exchange_check(packet, length), PACKED(0, 1));
}

/* 001's examples, and its writes to 00: the pack knows their PEC and does nothing, however often they come. */
static void published(void)
{
    static const uint8_t update[] = {0x16, 0xA1, 0x00, 0x01, 0x82, 0x00, 0x94, 0x4D, 0x82, 0x00, 0xB0, 0x8C, 0x82,
                                     0x00, 0xB0, 0x8C, 0x82, 0x00, 0x99, 0xB4, 0x82, 0x00, 0xB0, 0x8C, 0x82, 0x00,
                                     0xB0, 0x8C, 0x82, 0x00, 0xB0, 0x8C, 0x82, 0x00, 0x99, 0xAF, 0x6F};
    static const uint8_t version[] = {0x16, 0x80, 0x17, 0x4D, 0x00, 0x01, 0x00, 0x98};
    static const uint8_t writes[3][5] = {{0x16, 0x00, 0x10, 0x00, 0x44},  /* Shutdown */
                                         {0x16, 0x00, 0xFE, 0x00, 0xD1},  /* Sleep */
                                         {0x16, 0x00, 0xFF, 0x00, 0xC4}}; /* Reset */
    set_up();
    packet_at(__LINE__, update, sizeof update);
    packet_at(__LINE__, version, sizeof version);
    refused_at(__LINE__, 4, false, update, sizeof update);
    refused_at(__LINE__, 7, true, version, 3);
    REFUSED(4, false, 0x16, 0xA2, 0x00, 0xED); /* its finish, with its PEC */
    for (size_t i = 0; i < 6; i++) { /* twice each: a Shutdown wants to be sent so */
        packet_at(__LINE__, writes[i / 2], 5);
        refused_at(__LINE__, 7, false, writes[i / 2], 5);
        refused_at(__LINE__, 4, false, writes[i / 2], 4);
        REFUSED(7, true, 0x16, 0x00, 0x17); /* 001 would show 10 or FE here */
    }
    REPLIES(STATUS, 0xC0, 0x00, 0x33);
}

/* ---- words */

/* 08, 4F and each cell at every border of a word, each by itself. */
static void plain_words(void)
{
    static const uint16_t edges[] = {0, 1, 255, 256, 32767, 32768, 65534, 65535};
    set_up();
    for (size_t i = 0; i < sizeof edges / sizeof *edges; i++) {
        struct snatchblock_thirteen_setup setup = sprayer;
        struct snatchblock_reading first = at_work;
        setup.StateOfHealth = edges[i];
        first.temperature = edges[7 - i];
        CHECK(snatchblock_thirteen_set_up_from(area, AREA, &setup, &first, cells), 0);
        READS(HEALTH, edges[i]);
        READS(TEMPERATURE, edges[7 - i]);
        for (size_t cell = 0; cell < CELLS; cell++) {
            uint16_t other[CELLS];
            memcpy(other, cells, sizeof other);
            other[cell] = edges[i];
            CHECK(snatchblock_thirteen_sample_from(area, AREA, &first, other), 0);
            for (size_t each = 0; each < CELLS; each++)
                READS((uint8_t)(CELL_1 + each), other[each]);
        }
    }
}

/* Every voltage in 10 mV, rounded down, and every current in 10 mA, cut toward zero: FFF7 is -9, and shows 0. */
static void tens(void)
{
    set_up();
    for (int32_t number = 0; number <= 65535; number++) {
        put_measured((uint16_t)number, 0, 2982);
        READS(VOLTAGE, (uint16_t)(number / 10));
    }
    for (int64_t current = -32768; current <= 32767; current++) {
        int64_t cut = current < 0 ? -(-current / 10) : current / 10;
        put_measured(48378, (int16_t)current, 2982);
        READS(CURRENT, (uint16_t)(cut & 0xFFFF));
    }
}

static void tens_written_out(void)
{
    static const struct {
        uint16_t voltage, shown;
        int16_t current;
        uint16_t cut;
    } rows[] = {{0, 0, 0, 0},          {9, 0, 9, 0},          {10, 1, 10, 1},        {11, 1, -9, 0},
                {19, 1, -10, 0xFFFF},  {20, 2, -11, 0xFFFF},  {99, 9, -19, 0xFFFF},  {100, 10, -20, 0xFFFE},
                {2559, 255, 2559, 255}, {2560, 256, -2560, 0xFF00},
                {65529, 6552, 32767, 3276}, {65535, 6553, -32768, 0xF334}};
    set_up();
    for (size_t i = 0; i < sizeof rows / sizeof *rows; i++) {
        CHECK(snatchblock_thirteen_sample(area, AREA, rows[i].voltage, rows[i].current, 2982, 0x12345678, cells), 0);
        READS(VOLTAGE, rows[i].shown);
        READS(CURRENT, rows[i].cut);
    }
}

/* Each percent begins where charge is so many hundredths of full, and not 1 mA·ms earlier. */
static void percents(void)
{
    static const uint16_t fulls[] = {1, 2, 3, 99, 100, 101, 4999, 5000, 65535};
    set_up();
    put(AT_CHARGE, 8, 0);
    for (size_t i = 0; i < sizeof fulls / sizeof *fulls; i++) {
        put(AT_FULL, 2, fulls[i]);
        for (unsigned percent = 1; percent <= 100; percent++) {
            put(AT_CHARGE, 8, MAH(fulls[i]) / 100 * percent); /* 3,600,000 is whole hundreds */
            READS(PERCENT, (uint16_t)percent);
            put(AT_CHARGE, 8, MAH(fulls[i]) / 100 * percent - 1);
            READS(PERCENT, (uint16_t)(percent - 1));
        }
        put(AT_CHARGE, 8, 0);
        READS(PERCENT, 0);
    }
}

/* ---- minutes */

/* Capacity in mAh by a current in mA: 60 x capacity / current, rounded down; above 65,534 it is beyond the range. */
static const struct {
    uint16_t capacity;
    int32_t current, minutes;
} rates[] = {
    {0, 1, 0},          {0, 32767, 0},      {1, 61, 0},          {1, 60, 1},          {1, 31, 1},
    {1, 30, 2},         {1, 1, 60},         {1092, 1, 65520},    {1093, 1, 65580},    {2500, 1239, 121},
    {32767, 30, 65534}, {32768, 30, 65536}, {4368, 4, 65520},    {4369, 4, 65535},    {65534, 60, 65534},
    {65535, 60, 65535}, {65535, 61, 64460}, {65535, 59, 66645},  {65535, 1, 3932100}, {32767, 32767, 60},
    {32766, 32767, 59}, {65535, 32767, 120}, {65535, 32768, 119}, {32768, 32768, 60},  {32767, 32768, 59},
    {546, 32768, 0},    {547, 32768, 1}, /* 32,760 and 32,820 over 32,768 */
};

static void minutes_at(int line, uint8_t command, int64_t minutes)
{
    bool beyond = minutes > 65534;
    reads_at(line, beyond ? 10 : 0, command, (uint16_t)(beyond ? 65534 : minutes));
}

/* 11 from what remains, in whole mAh: what is more in mA·ms doesn't count. */
static void run_times(void)
{
    set_up();
    put(AT_FULL, 2, 65535);
    for (size_t i = 0; i < sizeof rates / sizeof *rates; i++) {
        bool is_full = rates[i].capacity == 65535;
        put_measured(48378, (int16_t)-rates[i].current, 2982);
        for (uint64_t more = 0; more <= (is_full ? 0 : 3599999); more += 3599999) {
            put(AT_CHARGE, 8, MAH(rates[i].capacity) + more);
            minutes_at(__LINE__, TO_EMPTY, rates[i].minutes);
            NOT_MOVING(TO_FULL);
        }
    }
}

/* 13 from what full is above what remains; before a second is complete the mean is the latest current. */
static void times_to_full(void)
{
    set_up();
    put(AT_FULL, 2, 65535);
    for (size_t i = 0; i < sizeof rates / sizeof *rates; i++) {
        if (rates[i].current > 32767)
            continue;
        put_measured(48378, (int16_t)rates[i].current, 2982);
        for (uint64_t more = 0; more <= (rates[i].capacity == 0 ? 0 : 3599999); more += 3599999) {
            put(AT_CHARGE, 8, MAH(65535 - rates[i].capacity) + more);
            minutes_at(__LINE__, TO_FULL, rates[i].minutes);
            NOT_MOVING(TO_EMPTY);
        }
    }
    put_measured(48378, 0, 2982);
    NOT_MOVING(TO_EMPTY);
    NOT_MOVING(TO_FULL);
}

/* Every current, with 1,100 of 5,000 mAh: 66,000 and 234,000 over it. */
static void every_current(void)
{
    set_up();
    put(AT_CHARGE, 8, MAH(1100));
    for (int64_t current = -32768; current <= 32767; current++) {
        put_measured(48378, (int16_t)current, 2982);
        if (current >= 0)
            NOT_MOVING(TO_EMPTY);
        else
            minutes_at(__LINE__, TO_EMPTY, 66000 / -current);
        if (current <= 0)
            NOT_MOVING(TO_FULL);
        else
            minutes_at(__LINE__, TO_FULL, 234000 / current);
    }
}

static void minutes_written_out(void)
{
    set_up_at(5000, 5000, 0);
    flow(-1, 0);
    CHECK(transact(true, BYTES(0x16, 0x11, 0x17)), PACKED(10, 3)); /* 300,000 minutes */
    CHECK(room_is((const uint8_t[]){0xFE, 0xFF, 0x8D}, 3), true);
    CHECK(area[AT_CODE], 5);
    REPLIES(STATUS, 0xC0, 0x00, 0x33); /* which doesn't show the code */
    CHECK(area[AT_CODE], 0);
    set_up_at(0, 5000, 0);
    flow(1, 0);
    CHECK(transact(true, BYTES(0x16, 0x13, 0x17)), PACKED(10, 3));
    CHECK(room_is((const uint8_t[]){0xFE, 0xFF, 0xA1}, 3), true);
    flow(0, 0);
    CHECK(area[AT_CODE], 5); /* a sample leaves it */
    REPLIES(TO_FULL, 0xFF, 0xFF, 0xB4);
}

/* The minute's mean behind 13, and the latest current behind 11. */
static void minute_behind_13(void)
{
    set_up_at(0, 6000, 0);
    flow(30000, 1000);
    READS(TO_FULL, 11); /* 30,000,000 mA·ms are 8 mAh: 60 x 5,992 / 30,000 */
    for (int i = 0; i < 58; i++)
        flow(10, 1000);
    READS(TO_FULL, 694); /* 59 seconds: 30,580 / 59 is 518 */
    flow(10, 1000);
    READS(TO_FULL, 706); /* 60: 30,590 / 60 is 509 */
    flow(10, 1000);
    READS(TO_FULL, 35952); /* 61: the first fell out, and 10 are left */
    NOT_MOVING(TO_EMPTY);
    flow(-30000, 999);
    READS(TO_EMPTY, 0);
    READS(TO_FULL, 36000); /* the begun second isn't in the mean; 0 mAh are left */
    flow(1, 1);
    NOT_MOVING(TO_EMPTY);
    NOT_MOVING(TO_FULL); /* now it is: (590,000 - 29,969,999) / 60,000 is below 0 */
}

/* Cut toward zero: a mean of less than 1 mA doesn't move. */
static void means_near_0(void)
{
    set_up_at(0, 1, 0);
    flow(1, 999);
    READS(TO_FULL, 60); /* the latest current, as no second is complete */
    flow(2, 0);
    READS(TO_FULL, 30);
    flow(1, 1);
    READS(TO_FULL, 60);
    flow(0, 1000);
    NOT_MOVING(TO_FULL); /* 1,000 / 2,000 */
    flow(3, 1000);
    READS(TO_FULL, 60); /* 4,000 / 3,000 */
    flow(-32768, 0);
    READS(TO_FULL, 60);
    READS(TO_EMPTY, 0);
}

/* ---- BatteryStatus */

/* 16 in a state with this bit 4, the temperature in 0.01 K: 0 C is 27,315. */
static uint16_t status_by_rule(int32_t voltage, int32_t current, int32_t temperature, bool empty)
{
    int32_t kelvin = 10 * temperature;
    bool hot = current > 0 ? kelvin >= 27315 + 5000 : current < 0 && kelvin >= 27315 + 6000;
    unsigned word = 1u << 7;                               /* INITIALIZED */
    word |= hot ? 1u << 13 : 0;                            /* OVER_TEMPERATURE */
    word |= kelvin <= 27315 ? 1u << 12 : 0;                /* UNDER_TEMPERATURE */
    word |= current <= -15000 ? 1u << 11 : 0;              /* DISCHARGE_OVER_CURRENT */
    word |= current >= 2000 ? 1u << 10 : 0;                /* CHARGE_OVER_CURRENT */
    word |= voltage >= 54800 ? 1u << 9 : 0;                /* OVER_VOLTAGE */
    word |= voltage <= 39000 ? 1u << 8 : 0;                /* UNDER_VOLTAGE */
    word |= current < 0 ? 1u << 6 : 0;                     /* DISCHARGING */
    word |= current > 0 && current < 100 && voltage > 51000 ? 1u << 5 : 0; /* FULLY_CHARGED */
    word |= empty ? 1u << 4 : 0;                           /* FULLY_DISCHARGED */
    return (uint16_t)word;
}

static void status_at(int line, uint16_t voltage, int16_t current, uint16_t temperature)
{
    put_measured(voltage, current, temperature);
    reads_at(line, 0, STATUS, status_by_rule(voltage, current, temperature, area[AT_FLAG] == 1));
}

/* Every limit and both its neighbours, in all combinations, with bit 4 and without. */
static void status_limits(void)
{
    static const uint16_t voltages[] = {0,     38999, 39000, 39001, 48378, 50999, 51000,
                                        51001, 54799, 54800, 54801, 65535};
    static const int16_t currents[] = {-32768, -15001, -15000, -14999, -1,   0,    1,
                                       2,      98,     99,     100,    1999, 2000, 2001, 32767};
    static const uint16_t temperatures[] = {0,    2730, 2731, 2732, 2982, 3230, 3231,
                                            3232, 3233, 3330, 3331, 3332, 3333, 65535};
    set_up();
    for (size_t i = 0; i < 2 * 12 * 15 * 14; i++) {
        area[AT_FLAG] = i % 2;
        status_at(__LINE__, voltages[i / 2 % 12], currents[i / 24 % 15], temperatures[i / 360]);
    }
}

/* Every temperature with each sign of the current, every current and every voltage. */
static void every_status(void)
{
    set_up();
    for (int32_t number = 0; number <= 65535; number++) {
        for (int sign = -1; sign <= 1; sign++)
            status_at(__LINE__, 48378, (int16_t)sign, (uint16_t)number);
        status_at(__LINE__, 51001, (int16_t)(number - 32768), 2982);
        status_at(__LINE__, (uint16_t)number, 50, 2982);
    }
}

/* Words by hand, of samples that take no time: 0 C is 2731.5, 50 C 3231.5, 60 C 3331.5. */
static void status_written_out(void)
{
    static const struct {
        uint16_t voltage;
        int16_t current;
        uint16_t temperature, word;
    } rows[] = {
        {48378, 0, 2982, 0x0080},      {48378, -1, 2982, 0x00C0},     {48378, 1, 2982, 0x0080},
        {48378, 1, 3231, 0x0080},      {48378, 1, 3232, 0x2080},      {48378, 1, 3233, 0x2080},
        {48378, 0, 3232, 0x0080},      {48378, 0, 3332, 0x0080},      {48378, 0, 65535, 0x0080},
        {48378, -1, 3232, 0x00C0},     {48378, -1, 3331, 0x00C0},     {48378, -1, 3332, 0x20C0},
        {48378, -1, 3333, 0x20C0},     {48378, 1, 65535, 0x2080},     {48378, 0, 2730, 0x1080},
        {48378, 0, 2731, 0x1080},      {48378, 0, 2732, 0x0080},      {48378, -1, 0, 0x10C0},
        {48378, -14999, 2982, 0x00C0}, {48378, -15000, 2982, 0x08C0}, {48378, -15001, 2982, 0x08C0},
        {48378, 1999, 2982, 0x0080},   {48378, 2000, 2982, 0x0480},   {48378, 2001, 2982, 0x0480},
        {54799, 0, 2982, 0x0080},      {54800, 0, 2982, 0x0280},      {54801, 0, 2982, 0x0280},
        {39001, 0, 2982, 0x0080},      {39000, 0, 2982, 0x0180},      {38999, 0, 2982, 0x0180},
        {22000, 0, 2982, 0x0180}, /* 001's alarm from 22 V up isn't one */
        {51000, 1, 2982, 0x0080},      {51001, 1, 2982, 0x00A0},      {51001, 0, 2982, 0x0080},
        {51001, -1, 2982, 0x00C0},     {51001, 99, 2982, 0x00A0},     {51001, 100, 2982, 0x0080},
        {54800, 99, 2982, 0x02A0},     {65535, 32767, 65535, 0x2680}, {0, -32768, 65535, 0x29C0},
        {0, -32768, 0, 0x19C0},        {65535, 99, 0, 0x12A0},        {0, 32767, 3232, 0x2580},
    };
    set_up();
    for (size_t i = 0; i < sizeof rows / sizeof *rows; i++) {
        CHECK(snatchblock_thirteen_sample(area, AREA, rows[i].voltage, rows[i].current, rows[i].temperature, 0x12345678,
                                          cells), 0);
        READS(STATUS, rows[i].word);
        READS(STATUS, rows[i].word); /* the error code that the first read left isn't in it */
    }
    for (uint8_t code = 0; code <= 7; code++) {
        area[AT_CODE] = code;
        CHECK(transact(true, BYTES(0x16, 0x16, 0x17)), PACKED(0, 3));
        CHECK(room[0], 0x80); /* bits 3 to 0 are 0 */
        CHECK(area[AT_CODE], 0);
    }
}

/* Bit 4 down to 0 and up to 20 %, which is 3,600,000,000 mA·ms of 5,000 mAh. */
static void bit_4(void)
{
    set_up_at(1, 5000, 0);
    READS(STATUS, 0x0080); /* from clear, though below 20 % */
    flow(-1, 3599999);
    READS(STATUS, 0x00C0);
    flow(-1, 1);
    READS(STATUS, 0x00D0);
    flow(1000, 3599999);
    READS(PERCENT, 19);
    READS(STATUS, 0x0090);
    flow(1, 999);
    READS(STATUS, 0x0090); /* 1 mA·ms short */
    flow(1, 1);
    READS(PERCENT, 20);
    READS(STATUS, 0x0080);
    flow(-1, 1);
    READS(PERCENT, 19);
    READS(STATUS, 0x00C0); /* kept clear */
    flow(-32768, 4294967295u);
    READS(STATUS, 0x08D0);
    flow(0, 1000);
    READS(STATUS, 0x0090);
    flow(32767, 4294967295u);
    READS(STATUS, 0x0480);
    READS(PERCENT, 100);
}

/* Set-up decides bit 4; reads show the kept one, whatever the charge; the next sample decides it. */
static void bit_4_kept(void)
{
    set_up_at(0, 5000, 0);
    READS(STATUS, 0x0090);
    area[AT_FLAG] = 0;
    READS(STATUS, 0x0080);
    flow(0, 0);
    READS(STATUS, 0x0090);
    set_up_at(1000, 5000, 0);
    area[AT_FLAG] = 1;
    READS(STATUS, 0x0090);
    flow(0, 0);
    READS(STATUS, 0x0080);
    set_up_at(999, 5000, 0);
    area[AT_FLAG] = 1;
    flow(0, 0);
    READS(STATUS, 0x0090);
}

/* ---- samples */

static void charge_is_at(int line, uint64_t charge)
{
    check_at(line, "charge", number_at(AT_CHARGE, 8), charge);
    check_at(line, "sound", snatchblock_thirteen_sound(area, AREA), true);
}
#define CHARGE(charge) charge_is_at(__LINE__, charge)

/* Current x elapsed, over the counter's wrap; set-up's own current counts for no time. */
static void charges(void)
{
    set_up();
    CHECK(snatchblock_thirteen_sample(area, AREA, 48378, 1000, 2982, 0x12345678, cells), 0);
    CHARGE(MAH(2500));
    set_up_at(2500, 5000, 0xFFFFFF00);
    flow(1000, 512);
    CHECK(number_at(AT_COUNTER, 4), 0x00000100);
    CHARGE(MAH(2500) + 512000);
    flow(-32768, 100);
    CHARGE(MAH(2500) + 512000 - 3276800);
    flow(0, 4294967295u);
    CHECK(number_at(AT_COUNTER, 4), 0x00000163);
    CHARGE(MAH(2500) + 512000 - 3276800);
    flow(1, 4294967295u); /* 1,193 mAh */
    CHARGE(MAH(2500) + 512000 - 3276800 + 4294967295u);
}

/* Held at 0 and at full, exactly. */
static void held(void)
{
    set_up_at(1, 5000, 7);
    flow(-1, 3599999);
    CHARGE(1);
    flow(-2, 1);
    CHARGE(0);
    flow(-32768, 4294967295u);
    CHARGE(0);
    flow(3, 1);
    CHARGE(3);
    set_up_at(4999, 5000, 7);
    flow(1, 3599999);
    CHARGE(MAH(5000) - 1);
    flow(2, 1);
    CHARGE(MAH(5000));
    flow(32767, 4294967295u);
    CHARGE(MAH(5000));
    flow(-1, 1);
    CHARGE(MAH(5000) - 1);
}

/* From full to empty under a voltage at which the first pack would learn: full stays what set-up brought. */
static void learns_nothing(void)
{
    set_up_at(5000, 5000, 0);
    for (uint32_t hour = 1; hour <= 4; hour++) {
        CHECK(snatchblock_thirteen_sample(area, AREA, 0, -1000, 2982, 3600000 * hour, cells), 0);
        CHARGE(MAH(5000 - 1000 * hour));
        CHECK(number_at(AT_FULL, 2), 5000);
    }
    CHECK(number_at(AT_DESIGN_CAPACITY, 2), 5200);
    CHECK(number_at(AT_DESIGN_VOLTAGE, 2), 48100);
    CHECK(number_at(AT_HEALTH, 2), 97);
}

/* A sample's time is shared among the seconds that it crosses; what is kept of them, newest first. */
static void seconds(void)
{
    set_up_at(2500, 5000, 4294967290u);
    flow(100, 400);
    CHECK(number_at(AT_COUNT, 1), 0);
    flow(-50, 1300); /* 40,000 - 30,000, and 700 ms of -50 */
    CHECK(number_at(AT_COUNT, 1), 1);
    CHECK(number_at(AT_TOTALS, 4), 10000);
    CHECK(number_at(AT_BEGUN_MS, 2), 700);
    CHECK(number_at(AT_BEGUN, 4), 0x100000000 - 35000);
    flow(20, 2300); /* -35,000 + 6,000, then two seconds */
    CHECK(number_at(AT_COUNT, 1), 4);
    CHECK(number_at(AT_TOTALS, 4), 20000);
    CHECK(number_at(AT_TOTALS + 4, 4), 20000);
    CHECK(number_at(AT_TOTALS + 8, 4), 0x100000000 - 29000);
    CHECK(number_at(AT_TOTALS + 12, 4), 10000);
    CHECK(number_at(AT_BEGUN_MS, 2), 0);
    CHECK(number_at(AT_BEGUN, 4), 0);
    flow(-32768, 4294967295u); /* 4,294,967 seconds and 295 ms */
    CHECK(number_at(AT_COUNT, 1), SECONDS);
    for (size_t place = 0; place < SECONDS; place++)
        CHECK(number_at(AT_TOTALS + 4 * place, 4), 0x100000000 - 32768000);
    CHECK(number_at(AT_BEGUN_MS, 2), 295);
    CHECK(number_at(AT_BEGUN, 4), 0x100000000 - 32768 * 295);
    CHECK(snatchblock_thirteen_sound(area, AREA), true);
}

/* A sample of a state that isn't sound leaves everything, and one that is taken leaves the error code. */
static void refused_samples(void)
{
    for (unsigned code = 0; code <= 255; code++) {
        set_up();
        area[AT_CODE] = (uint8_t)code;
        remember();
        CHECK(sample_in(AREA), code <= 7 ? 0 : 1);
        CHECK(area_stays(), code > 7);
        CHECK(area[AT_CODE], code);
    }
    set_up();
    put(AT_CHARGE, 8, MAH(5000) + 1);
    LOST();
    set_up();
    put(AT_DESIGN_VOLTAGE, 2, 0);
    LOST();
}

/* Areas and rooms at every address, cells at every even one; what is lent is only read. */
static void addresses_lent(void)
{
    static uint8_t bytes[AREA + 8], replies[REPLY_ROOM + 8];
    uint16_t many[CELLS + 8];
    for (size_t shift = 0; shift < 8; shift++) {
        memset(many, 0xFF, sizeof many);
        memcpy(many + shift, cells, sizeof cells);
        CHECK(snatchblock_thirteen_set_up_from(bytes + shift, AREA, &sprayer, &at_work, many + shift), 0);
        CHECK(snatchblock_thirteen_sample_from(bytes + shift, AREA, &at_work, many + shift), 0);
        CHECK(snatchblock_thirteen_sound(bytes + shift, AREA), true);
        CHECK(snatchblock_thirteen_transact(bytes + shift, AREA, true, BYTES(0x16, 0xF1, 0x17), replies + shift,
                                            REPLY_ROOM), PACKED(0, 27));
        CHECK(replies[shift + 26], 0x8E);
        CHECK(memcmp(many + shift, cells, sizeof cells), 0);
    }
}

/* ---- alterations */

/* One, two or three altered bits of a right write: it is answered 5 or 3, and the error code alone may change. */
static unsigned taken;

static void count_if_taken(const uint8_t altered[5])
{
    remember_earlier();
    bool other = altered[0] != 0x16;
    taken += transact(false, altered, 5) != (other ? 3 : 5);
    taken += !code_alone(other ? EARLIER : 7) || !room_is(NULL, 0);
}

static void alterations(void)
{
    static const uint8_t message[][5] = {
        {0x16, 0x00, 0x10, 0x00, 0x44}, {0x16, 0x00, 0xFE, 0x00, 0xD1}, {0x16, 0x4F, 0x63, 0x00, 0x18},
        {0x16, 0x17, 0x00, 0x00, 0xA7}, {0x16, 0xF1, 0x00, 0x00, 0x14}};
    static const uint32_t answer[] = {7, 7, 8, 6, 8};
    set_up();
    for (size_t i = 0; i < sizeof message / sizeof *message; i++) {
        refused_at(__LINE__, answer[i], false, message[i], 5);
        each_altered(message[i], count_if_taken);
        CHECK(taken, 0);
    }
    /* Four bits can be too many: with x^8 + x^2 + x + 1 itself 99 becomes 355, unseen. Nor is that served. */
    REFUSED(8, false, 0x16, 0x4F, 0x63, 0x01, 0x1F);
    READS(HEALTH, 97);
}

/* ---- exchanges of F1: 30 bytes, their bits counted from the first on the bus */

enum { EXCHANGE = 30, BITS = 8 * EXCHANGE, REPLIED = 24 };

/* The exchange with these cells, as the pack serves it. */
static void exchange_of(const uint16_t lent[CELLS], uint8_t exchange[EXCHANGE])
{
    const uint8_t ask[3] = {0x16, 0xF1, 0x17};
    CHECK(snatchblock_thirteen_sample(area, AREA, 48378, 0, 2982, 0x12345678, lent), 0);
    CHECK(transact(true, ask, 3), PACKED(0, 27));
    memcpy(exchange, ask, 3);
    memcpy(exchange + 3, room, 27);
    CHECK(snatchblock_exchange_check(exchange, EXCHANGE), PACKED(0, 1));
}

static void flip(uint8_t exchange[EXCHANGE], size_t bit)
{
    exchange[bit / 8] ^= (uint8_t)(0x80 >> bit % 8);
}

/* A bit of a reply in the cell that it is of: low byte first. */
static void flip_cell(uint16_t lent[CELLS], size_t bit)
{
    size_t byte = bit / 8 - 3;
    unsigned mask = 0x80u >> bit % 8;
    if (byte / 2 < CELLS)
        lent[byte / 2] ^= (uint16_t)(byte % 2 ? mask << 8 : mask);
}

/* Two visits whose PEC is the same, 8E: cell 1 is 128 mV higher, and cell 8 256 mV. Bits 24 and 151 differ. */
static void alike(void)
{
    static const uint8_t first[EXCHANGE] = {0x16, 0xF1, 0x17, 0x35, 0x0E, 0x7F, 0x0E, 0xFF, 0x0D, 0x00,
                                            0x0F, 0x6E, 0x0E, 0xAB, 0x0E, 0x3C, 0x0F, 0x43, 0x0E, 0xBA,
                                            0x0E, 0x76, 0x0E, 0xE3, 0x0E, 0x0F, 0x0E, 0x8D, 0x0E, 0x8E};
    static const uint8_t second[EXCHANGE] = {0x16, 0xF1, 0x17, 0xB5, 0x0E, 0x7F, 0x0E, 0xFF, 0x0D, 0x00,
                                             0x0F, 0x6E, 0x0E, 0xAB, 0x0E, 0x3C, 0x0F, 0x43, 0x0F, 0xBA,
                                             0x0E, 0x76, 0x0E, 0xE3, 0x0E, 0x0F, 0x0E, 0x8D, 0x0E, 0x8E};
    uint16_t other[CELLS];
    uint8_t exchange[EXCHANGE];
    set_up();
    exchange_of(cells, exchange);
    CHECK(memcmp(exchange, first, EXCHANGE), 0);
    memcpy(other, cells, sizeof other);
    other[0] = 3765;
    other[7] = 3907;
    exchange_of(other, exchange);
    CHECK(memcmp(exchange, second, EXCHANGE), 0);
    CHECK(snatchblock_bit_comparison(first, EXCHANGE, second, EXCHANGE), PACKED(0, 2));
}

/* Every such pair: two bits 127 apart, the later in a cell or in the PEC. 254 apart there are none in 240 bits. */
static void pairs_apart(void)
{
    uint8_t first[EXCHANGE], second[EXCHANGE];
    set_up();
    exchange_of(cells, first);
    for (size_t bit = REPLIED; bit + 127 < BITS; bit++) {
        uint16_t other[CELLS];
        memcpy(other, cells, sizeof other);
        flip_cell(other, bit);
        flip_cell(other, bit + 127);
        exchange_of(other, second);
        CHECK(snatchblock_bit_comparison(first, EXCHANGE, second, EXCHANGE), PACKED(0, 2));
        flip(second, bit);
        flip(second, bit + 127);
        CHECK(memcmp(first, second, EXCHANGE), 0);
    }
}

/* Of one or two altered bits of a right exchange, wherever they stand, only two that are 127 apart leave it right. */
static void altered_exchanges(void)
{
    uint8_t exchange[EXCHANGE];
    unsigned wrong = 0;
    set_up();
    exchange_of(cells, exchange);
    for (size_t one = 0; one < BITS; one++)
        for (size_t two = one; two < BITS; two++) {
            flip(exchange, one);
            if (two != one)
                flip(exchange, two);
            wrong += snatchblock_exchange_check(exchange, EXCHANGE) != PACKED(0, two - one == 127);
            flip(exchange, one);
            if (two != one)
                flip(exchange, two);
        }
    CHECK(wrong, 0);
    CHECK(snatchblock_exchange_check(exchange, EXCHANGE), PACKED(0, 1));
}

/* How many bits differ, and how many places the first of them stands before the last. */
static unsigned differ(const uint8_t a[EXCHANGE], const uint8_t b[EXCHANGE], size_t *apart)
{
    unsigned bits = 0;
    size_t first = 0;
    *apart = 0;
    for (size_t bit = 0; bit < BITS; bit++)
        if ((a[bit / 8] ^ b[bit / 8]) & 0x80 >> bit % 8) {
            first = bits++ == 0 ? bit : first;
            *apart = bit - first;
        }
    return bits;
}

/* Two right exchanges of other cells: an even number of bits, never within eight neighbours, and if two, 127 apart. */
static void unlike_at(int line, const uint8_t first[EXCHANGE], const uint16_t other[CELLS])
{
    uint8_t second[EXCHANGE];
    size_t apart;
    exchange_of(other, second);
    unsigned bits = differ(first, second, &apart);
    check_at(line, "bits", snatchblock_bit_comparison(first, EXCHANGE, second, EXCHANGE), PACKED(0, bits));
    check_at(line, "some", bits > 0, true);
    check_at(line, "odd", bits % 2, 0);
    check_at(line, "eight neighbours", apart < 8, false);
    check_at(line, "two alone", bits == 2 && apart != 127, false);
}

/* One cell altered in every bit, in every two, and to its neighbours; then all of them at once. */
static void unlike(void)
{
    uint8_t first[EXCHANGE];
    uint16_t other[CELLS];
    uint32_t seed = 1;
    set_up();
    exchange_of(cells, first);
    memcpy(other, cells, sizeof other);
    for (size_t cell = 0; cell < CELLS; cell++) {
        for (unsigned i = 0; i < 256; i++) {
            other[cell] = (uint16_t)(cells[cell] ^ (1u << i % 16 | 1u << i / 16));
            unlike_at(__LINE__, first, other);
        }
        other[cell] = (uint16_t)(cells[cell] + 1);
        unlike_at(__LINE__, first, other);
        other[cell] = cells[cell];
    }
    for (int i = 0; i < 1000; i++) {
        for (size_t cell = 0; cell < CELLS; cell++)
            other[cell] = (uint16_t)((seed = seed * 1664525 + 1013904223) >> 16);
        unlike_at(__LINE__, first, other);
    }
}

int main(void)
{
    layout();
    lengths();
    flags();
    set_ups();
    soundness();
    minute_soundness();
    rooms();
    addresses();
    forms();
    commands();
    written_words();
    order();
    written_out();
    published();
    plain_words();
    tens();
    tens_written_out();
    percents();
    run_times();
    times_to_full();
    every_current();
    minutes_written_out();
    minute_behind_13();
    means_near_0();
    status_limits();
    every_status();
    status_written_out();
    bit_4();
    bit_4_kept();
    charges();
    held();
    learns_nothing();
    seconds();
    refused_samples();
    addresses_lent();
    alterations();
    alike();
    pairs_apart();
    altered_exchanges();
    unlike();
    return checked("thirteen");
}
