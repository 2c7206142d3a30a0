/* The charger's side, held to figures worked by hand from request R-7 and the Smart Battery Charger Specification 1.1:
 * every function and answer, every command and word, what the area keeps and what it leaves. Check bytes are worked out
 * here bit by bit; some are written out, of a long division done elsewhere. */
#include "check.h"
#include "altered.h"
#include "division.h"
#include "snatchblock.h"

#include <string.h>

enum { REPLY_ROOM = 3 };
#define ROOM_MOST 40
#include "room.h"

enum { AREA = 23, AREA_MOST = 64, SILENCE = 175000 };
#include "area.h"

/* Where the area keeps what; of a request the word, then the flags taken and awaited. */
enum { CURRENT = 0, VOLTAGE = 4, TAKEN = 2, AWAITED = 3, INHIBITED = 8, COUNT = 9, LATEST = 13 };

/* Commands of the charger. */
enum { SPEC_INFO = 0x11, MODE = 0x12, STATUS = 0x13, CHARGING_CURRENT = 0x14, CHARGING_VOLTAGE = 0x15, ALARM = 0x16 };

#define PACKED(answer, rest) ((uint32_t)(answer) | (uint32_t)(rest) << 8)
#define BYTES(...) (const uint8_t[]){__VA_ARGS__}, sizeof((const uint8_t[]){__VA_ARGS__})

static const uint8_t nowhere[1] = {0};
#define NO_BYTES nowhere, 0

/* ---- the charger */

/* The power-on state at rest, 14,800 mV and 298.1 K. */
static void set_up(uint32_t counter)
{
    const struct snatchblock_reading first = {.voltage = 14800, .temperature = 2981, .counter = counter};
    new_area();
    CHECK(snatchblock_charger_set_up_from(area, AREA, &first), 0);
}

static uint32_t sample(uint16_t voltage, int16_t current, uint32_t counter)
{
    const struct snatchblock_reading now = {.voltage = voltage, .current = current, .temperature = 2981,
                                            .counter = counter};
    return snatchblock_charger_sample_from(area, AREA, &now);
}

static uint32_t transact(bool read, const uint8_t *bytes, size_t length)
{
    new_room();
    return snatchblock_charger_transact(area, AREA, read, bytes, length, room, REPLY_ROOM);
}

/* A read that is served: word and PEC alone in the room, and the area as it was. */
static void reads_at(int line, uint8_t command, uint16_t word)
{
    uint8_t exchange[6] = {0x12, command, 0x13, (uint8_t)(word & 0xFF), (uint8_t)(word >> 8)};
    exchange[5] = check_byte(exchange, 5);
    remember();
    check_at(line, "answer and length", transact(true, exchange, 3), PACKED(0, 3));
    check_at(line, "word", (unsigned)(room[0] | room[1] << 8), word);
    check_at(line, "reply", room_is(exchange + 3, 3), true);
    check_at(line, "area", area_stays(), true);
}
#define READS(command, word) reads_at(__LINE__, command, word)

/* A write of four bytes, or of five with the right PEC. */
static size_t message_of(uint8_t message[5], uint8_t command, uint16_t word, bool with_pec)
{
    message[0] = 0x12;
    message[1] = command;
    message[2] = (uint8_t)(word & 0xFF);
    message[3] = (uint8_t)(word >> 8);
    message[4] = check_byte(message, 4);
    return with_pec ? 5 : 4;
}

static void writes(uint8_t command, uint16_t word)
{
    static bool with_pec;
    uint8_t message[5];
    with_pec = !with_pec; /* in turn: no write depends on it */
    CHECK(transact(false, message, message_of(message, command, word, with_pec)), 0);
    CHECK(room_is(NULL, 0), true);
}

/* A transaction that is refused: its answer, and not a byte changed of area or room. */
static void refused_at(int line, uint32_t answer, bool read, const uint8_t *bytes, size_t length)
{
    remember();
    check_at(line, "answer", transact(read, bytes, length), answer);
    check_at(line, "room", room_is(NULL, 0), true);
    check_at(line, "area", area_stays(), true);
}
#define REFUSED(answer, read, ...) refused_at(__LINE__, answer, read, BYTES(__VA_ARGS__))

/* The current that the charger gives; asking changes nothing. */
static void gives_at(int line, uint16_t current)
{
    remember();
    uint32_t result = snatchblock_charger_current(area, AREA);
    check_at(line, "current and answer", result, PACKED(0, current));
    check_at(line, "current", snatchblock_charger_current_of(result), current);
    check_at(line, "area", area_stays(), true);
}
#define GIVES(current) gives_at(__LINE__, current)

/* Asked for 2,000 mA and 16,800 mV, with 1,500 ms on the count; 15,000 mV and 1,234 mA are measured. */
static void in_use(void)
{
    set_up(0);
    writes(CHARGING_CURRENT, 2000);
    writes(CHARGING_VOLTAGE, 16800);
    CHECK(sample(15000, 1234, 1500), 0);
}

/* ---- the area */

/* Byte by byte, as the header lays it out. */
static void layout(void)
{
    new_area();
    CHECK(snatchblock_charger_set_up(area, AREA, 14800, -500, 2981, 0x12345678), 0);
    const uint8_t power_on[AREA] = {0, 0, 0, 0, 0, 0, 0, 0, 0, 0, 0, 0, 0,
                                    0xD0, 0x39, 0x0C, 0xFE, 0xA5, 0x0B, 0x78, 0x56, 0x34, 0x12};
    CHECK(memcmp(area, power_on, AREA), 0);
    writes(CHARGING_CURRENT, 2000);
    CHECK(memcmp(area, (const uint8_t[]){0xD0, 0x07, 1, 0, 0, 0, 0, 0, 0, 0, 0, 0, 0}, LATEST), 0);
    writes(CHARGING_VOLTAGE, 16800);
    writes(MODE, 1);
    CHECK(memcmp(area, (const uint8_t[]){0xD0, 0x07, 1, 0, 0xA0, 0x41, 1, 0, 1, 0, 0, 0, 0}, LATEST), 0);
    CHECK(snatchblock_charger_sample(area, AREA, 15000, 1234, 3000, 0x12345678 + 100000), 0);
    writes(ALARM, 0x4000);
    /* 100,000 is 0001 86A0, and the counter 1235 DD18 */
    const uint8_t stopped[AREA] = {0xD0, 0x07, 1, 1, 0xA0, 0x41, 1, 1, 1, 0xA0, 0x86, 0x01, 0,
                                   0x98, 0x3A, 0xD2, 0x04, 0xB8, 0x0B, 0x18, 0xDD, 0x35, 0x12};
    CHECK(memcmp(area, stopped, AREA), 0);
    for (size_t i = 0; i < sizeof area_memory; i++)
        CHECK(i >= GUARD && i < GUARD + AREA ? MARK : area_memory[i], MARK);
    CHECK(SNATCHBLOCK_CHARGER_AREA, AREA);
    CHECK(SNATCHBLOCK_CHARGER_REPLY_ROOM, REPLY_ROOM);
}

/* Areas of every length: all but one are none, whatever they hold and whatever else is wrong. */
static void lengths(void)
{
    for (size_t length = 0; length <= AREA_MOST; length++) {
        bool right = length == AREA;
        in_use();
        remember();
        new_room();
        CHECK(snatchblock_charger_sound(area, length), right);
        CHECK(snatchblock_charger_current(area, length), right ? PACKED(0, 2000) : 1);
        CHECK(snatchblock_charger_transact(area, length, true, BYTES(0x12, 0x11, 0x13), room, 2), right ? 2 : 1);
        CHECK(snatchblock_charger_transact(area, length, true, NO_BYTES, room, REPLY_ROOM), right ? 3 : 1);
        CHECK(area_stays() && room_is(NULL, 0), true);
        if (right)
            continue;
        CHECK(snatchblock_charger_transact(area, length, true, BYTES(0x12, 0x11, 0x13), room, REPLY_ROOM), 1);
        CHECK(snatchblock_charger_transact(area, length, false, BYTES(0x12, 0x14, 0, 0), room, REPLY_ROOM), 1);
        CHECK(snatchblock_charger_transact(area, length, false, NO_BYTES, room, 0), 1);
        CHECK(snatchblock_charger_sample(area, length, 15000, 0, 2981, 2500), 1);
        CHECK(snatchblock_charger_set_up(area, length, 15000, 0, 2981, 2500), 1);
        CHECK(area_stays() && room_is(NULL, 0), true);
    }
}

static uint32_t transact_in(size_t room_length, bool read, const uint8_t *bytes, size_t length)
{
    return snatchblock_charger_transact(area, AREA, read, bytes, length, room, room_length);
}

/* Bytes that are no area, or a state that isn't sound: every call answers 1 before all else and changes nothing. */
static void lost_at(int line)
{
    remember();
    new_room();
    check_at(line, "sound", snatchblock_charger_sound(area, AREA), false);
    check_at(line, "current", snatchblock_charger_current(area, AREA), 1);
    check_at(line, "a read", transact_in(REPLY_ROOM, true, BYTES(0x12, 0x13, 0x13)), 1);
    check_at(line, "a write", transact_in(REPLY_ROOM, false, BYTES(0x12, 0x14, 0, 0)), 1);
    check_at(line, "POR_RESET", transact_in(REPLY_ROOM, false, BYTES(0x12, 0x12, 4, 0)), 1);
    check_at(line, "no room", transact_in(0, true, BYTES(0x12, 0x13, 0x13)), 1);
    check_at(line, "no bytes", transact_in(REPLY_ROOM, false, NO_BYTES), 1);
    check_at(line, "a sample", sample(15000, 0, 2500), 1);
    check_at(line, "room", room_is(NULL, 0), true);
    check_at(line, "area", area_stays(), true);
}
#define LOST() lost_at(__LINE__)

static const size_t flag_at[] = {CURRENT + TAKEN, CURRENT + AWAITED, VOLTAGE + TAKEN, VOLTAGE + AWAITED, INHIBITED};
enum { FLAGS = sizeof flag_at / sizeof *flag_at };

static void flags(void)
{
    for (size_t i = 0; i < FLAGS; i++) {
        for (uint32_t flag = 2; flag <= 255; flag++) {
            in_use();
            put(flag_at[i], 1, flag);
            LOST();
        }
        CHECK(snatchblock_charger_set_up(area, AREA, 15000, 0, 2981, 0), 0); /* which asks nothing of the bytes */
        CHECK(snatchblock_charger_sound(area, AREA), true);
    }
    for (uint32_t set = 0; set < 1u << FLAGS; set++) {
        in_use();
        for (size_t i = 0; i < FLAGS; i++)
            put(flag_at[i], 1, set >> i & 1);
        CHECK(snatchblock_charger_sound(area, AREA), true);
    }
}

/* Sound to 175,000 on the count, and in all else at every value. */
static void soundness(void)
{
    static const uint32_t sound[] = {0, 1, 65535, 65536, 174999, 175000};
    static const uint32_t not_sound[] = {175001,     175002,     0x00030000, 0x00FFFFFF, /* 175,000 is 0002 AB98 */
                                         0x01000000, 0x0102AB98, 0x80000000, 0xFFFFFFFF};
    for (size_t i = 0; i < sizeof sound / sizeof *sound; i++) {
        in_use();
        put(COUNT, 4, sound[i]);
        CHECK(snatchblock_charger_sound(area, AREA), true);
        CHECK(sample(15000, 0, 1500), 0);
        CHECK(number_at(COUNT, 4), sound[i]); /* in no time */
    }
    for (size_t i = 0; i < sizeof not_sound / sizeof *not_sound; i++) {
        in_use();
        put(COUNT, 4, not_sound[i]);
        LOST();
    }
    memset(area, 0, AREA);
    CHECK(snatchblock_charger_sound(area, AREA), true); /* the power-on state, nothing measured */
    memset(area, 0xFF, AREA);
    LOST();
    memset(area, 1, AREA);
    LOST(); /* 16,843,009 ms */
    put(COUNT, 4, 0);
    CHECK(snatchblock_charger_sound(area, AREA), true);
}

/* ---- transactions */

/* Every room, for a read and for a write that wants none of it: 3 bytes are the least. */
static void rooms(void)
{
    const uint8_t reply[] = {0x03, 0x00, 0xA7};
    for (size_t length = 0; length <= ROOM_MOST; length++) {
        bool right = length >= REPLY_ROOM;
        in_use();
        remember();
        new_room();
        CHECK(transact_in(length, true, BYTES(0x12, 0x11, 0x13)), right ? PACKED(0, 3) : 2);
        CHECK(room_is(reply, right ? 3 : 0), true);
        CHECK(area_stays(), true);
        new_room();
        CHECK(transact_in(length, false, BYTES(0x12, 0x14, 0xC4, 0x09)), right ? 0 : 2);
        CHECK(room_is(NULL, 0), true);
        CHECK(area_stays(), !right);
        GIVES(right ? 2500 : 2000);
        new_room();
        CHECK(transact_in(length, true, NO_BYTES), right ? 3 : 2);
        CHECK(room_is(NULL, 0), true);
    }
}

/* Every first byte but 12: not taken, be it plain or with the right PEC. */
static void addresses(void)
{
    in_use();
    refused_at(__LINE__, 3, true, NO_BYTES);
    refused_at(__LINE__, 3, false, NO_BYTES);
    for (unsigned address = 0; address <= 255; address++) {
        uint8_t message[5];
        if (address == 0x12)
            continue;
        (void)message_of(message, CHARGING_CURRENT, 2500, true);
        message[0] = (uint8_t)address;
        message[4] = check_byte(message, 4);
        refused_at(__LINE__, 3, false, message, 4);
        refused_at(__LINE__, 3, false, message, 5);
        refused_at(__LINE__, 3, false, message, 1);
        refused_at(__LINE__, 3, true, message, 4);
        REFUSED(3, true, (uint8_t)address, 0x13, 0x13);
        REFUSED(3, true, (uint8_t)address, 0x13, (uint8_t)(address | 1));
    }
    GIVES(2000);
}

/* Messages of 1 to 40 bytes with either mark, and every third byte of a read. */
static void forms(void)
{
    static const uint8_t command[] = {SPEC_INFO, MODE, STATUS, CHARGING_CURRENT, CHARGING_VOLTAGE, ALARM, 0x10, 0xFF};
    in_use();
    for (size_t i = 0; i < sizeof command; i++)
        for (size_t length = 1; length <= 40; length++) {
            uint8_t message[40] = {0x12, command[i], 0x13};
            if (length != 3)
                refused_at(__LINE__, 4, true, message, length);
            if (length != 4 && length != 5)
                refused_at(__LINE__, 4, false, message, length);
        }
    for (unsigned third = 0; third <= 255; third++) {
        if (third == 0x13)
            continue;
        REFUSED(4, true, 0x12, SPEC_INFO, (uint8_t)third);
        REFUSED(4, true, 0x12, STATUS, (uint8_t)third);
        REFUSED(4, true, 0x12, 0xFF, (uint8_t)third);
    }
}

/* Reads and writes of every command, plain and with PEC; with every wrong PEC it is 5. */
static void commands(void)
{
    for (unsigned command = 0; command <= 255; command++) {
        bool is_read = command == SPEC_INFO || command == STATUS;
        bool is_written = command == MODE || (command >= CHARGING_CURRENT && command <= ALARM);
        uint8_t message[5];
        in_use();
        if (is_read)
            READS((uint8_t)command, command == SPEC_INFO ? 0x0003 : 0xC01C);
        else
            REFUSED(is_written ? 8 : 6, true, 0x12, (uint8_t)command, 0x13);
        for (unsigned flip = 1; flip <= 255; flip++) {
            (void)message_of(message, (uint8_t)command, 0x8001, true);
            message[4] ^= (uint8_t)flip;
            refused_at(__LINE__, 5, false, message, 5);
        }
        (void)message_of(message, (uint8_t)command, 0x8001, true);
        for (size_t length = 4; length <= 5; length++) {
            if (!is_written)
                refused_at(__LINE__, is_read ? 8 : 6, false, message, length);
            else
                CHECK(transact(false, message, length), 0);
            CHECK(room_is(NULL, 0), true);
        }
    }
}

/* Where more than one condition holds the lowest number is given. */
static void order(void)
{
    in_use();
    REFUSED(3, true, 0x13);                         /* another address, and too short */
    REFUSED(3, false, 0x10, 0x16, 0x8F, 0x52, 0x00); /* and the PEC is wrong */
    REFUSED(4, true, 0x12, 0x40);                   /* the form, and no such command */
    REFUSED(4, false, 0x12, 0x13, 0x00);            /* the form, and it is only read */
    REFUSED(4, true, 0x12, 0x14, 0x12);             /* the form, and it is only written */
    REFUSED(5, false, 0x12, 0x40, 0x00, 0x00, 0x01);
    REFUSED(5, false, 0x12, 0x13, 0x00, 0x00, 0x01);
    REFUSED(6, true, 0x12, 0x10, 0x13);
    REFUSED(6, false, 0x12, 0x17, 0x00, 0x00);
    new_room();
    CHECK(transact_in(REPLY_ROOM - 1, true, BYTES(0x13)), 2);
    CHECK(transact_in(REPLY_ROOM - 1, false, BYTES(0x12, 0x40, 0, 0, 1)), 2);
    put(COUNT, 4, SILENCE + 1);
    CHECK(transact_in(REPLY_ROOM - 1, true, BYTES(0x13)), 1);
    CHECK(room_is(NULL, 0), true);
}

/* Messages with their PECs written out: a host's, and a pack's broadcasts as they come. */
static void written_out(void)
{
    set_up(0);
    CHECK(transact(true, BYTES(0x12, 0x11, 0x13)), PACKED(0, 3));
    CHECK(room_is((const uint8_t[]){0x03, 0x00, 0xA7}, 3), true);
    CHECK(transact(true, BYTES(0x12, 0x13, 0x13)), PACKED(0, 3));
    CHECK(room_is((const uint8_t[]){0x10, 0xC0, 0xAD}, 3), true);
    CHECK(transact(false, BYTES(0x12, 0x14, 0xD0, 0x07, 0xED)), 0);
    CHECK(transact(false, BYTES(0x12, 0x15, 0xA0, 0x41, 0xF1)), 0);
    GIVES(2000);
    CHECK(transact(true, BYTES(0x12, 0x13, 0x13)), PACKED(0, 3));
    CHECK(room_is((const uint8_t[]){0x1C, 0xC0, 0x51}, 3), true);
    CHECK(transact(false, BYTES(0x12, 0x16, 0x8F, 0x52, 0x58)), 0);
    CHECK(transact(false, BYTES(0x12, 0x12, 0x01, 0x00, 0x2A)), 0);
    GIVES(0);
    CHECK(transact(true, BYTES(0x12, 0x13, 0x13)), PACKED(0, 3));
    CHECK(room_is((const uint8_t[]){0x1D, 0xD0, 0x34}, 3), true);
    REFUSED(3, false, 0x10, 0x16, 0x8F, 0x52, 0x74); /* the host's own */
    REFUSED(5, false, 0x12, 0x14, 0xD0, 0x07, 0xEC);
    CHECK(transact(false, BYTES(0x12, 0x12, 0x04, 0x00, 0x6B)), 0);
    CHECK(transact(true, BYTES(0x12, 0x13, 0x13)), PACKED(0, 3));
    CHECK(room_is((const uint8_t[]){0x10, 0xC0, 0xAD}, 3), true);
}

/* ---- what a write does: the rule of each on the area's bytes */

static void mode_by_rule(uint8_t *bytes, uint16_t word)
{
    if (word & 1 << 2) {
        memset(bytes, 0, COUNT); /* POR_RESET: all but the count and the sample */
        return;
    }
    bytes[INHIBITED] = word & 1;
    if (word & 1 << 3) {
        memset(bytes + CURRENT, 0, 2);
        memset(bytes + VOLTAGE, 0, 2);
    }
}

static void request_by_rule(uint8_t *request, uint8_t *bytes, uint16_t word)
{
    request[0] = (uint8_t)(word & 0xFF);
    request[1] = (uint8_t)(word >> 8);
    request[TAKEN] = 1;
    request[AWAITED] = 0;
    memset(bytes + COUNT, 0, 4);
}

static void current_by_rule(uint8_t *bytes, uint16_t word)
{
    request_by_rule(bytes + CURRENT, bytes, word);
}

static void voltage_by_rule(uint8_t *bytes, uint16_t word)
{
    request_by_rule(bytes + VOLTAGE, bytes, word);
}

static void alarm_by_rule(uint8_t *bytes, uint16_t word)
{
    if (word & 0xF000)
        bytes[CURRENT + AWAITED] = bytes[VOLTAGE + AWAITED] = 1;
}

/* One word to a charger with these flags, the bits from the lowest as in flag_at. */
static void written_at(int line, uint8_t command, void (*rule)(uint8_t *, uint16_t), uint32_t set, uint16_t word)
{
    uint8_t message[5];
    for (size_t i = 0; i < FLAGS; i++)
        put(flag_at[i], 1, set >> i & 1);
    put(CURRENT, 2, 2000);
    put(VOLTAGE, 2, 16800);
    put(COUNT, 4, SILENCE - 1);
    remember();
    rule(before + GUARD, word);
    check_at(line, "answer", transact(false, message, message_of(message, command, word, word % 3 != 0)), 0);
    check_at(line, "area", area_stays(), true);
}

/* Every word to 12 and to 16, each from some set of flags, and from every set some words; the same of 14 and 15. */
static void every_word(void)
{
    static const struct {
        uint8_t command;
        void (*rule)(uint8_t *, uint16_t);
        uint32_t step;
    } write[] = {{MODE, mode_by_rule, 1}, {ALARM, alarm_by_rule, 1}, {CHARGING_CURRENT, current_by_rule, 13},
                 {CHARGING_VOLTAGE, voltage_by_rule, 13}};
    set_up(7);
    for (size_t i = 0; i < sizeof write / sizeof *write; i++) {
        for (uint32_t word = 0; word <= 0xFFFF; word += write[i].step)
            written_at(__LINE__, write[i].command, write[i].rule, word * 7 / 16 % 32, (uint16_t)word);
        for (uint32_t set = 0; set < 32; set++) {
            for (unsigned bit = 0; bit < 16; bit++)
                written_at(__LINE__, write[i].command, write[i].rule, set, (uint16_t)(1u << bit));
            for (uint32_t low = 0; low < 16; low++)
                written_at(__LINE__, write[i].command, write[i].rule, set, (uint16_t)(low | low << 12));
            written_at(__LINE__, write[i].command, write[i].rule, set, 0xFFFF);
        }
    }
}

/* ---- ChargerStatus */

/* 13 in a state with these flags, by its rule. */
static uint16_t status_by_rule(uint32_t set, bool voltage_below, bool current_below)
{
    unsigned word = 1u << 4 | 1u << 14 | 1u << 15;
    word |= set >> 4 & 1;                                /* CHARGE_INHIBITED */
    word |= voltage_below && (set >> 2 & 1) ? 1u << 2 : 0; /* VOLTAGE_NOTREG */
    word |= current_below && (set & 1) ? 1u << 3 : 0;      /* CURRENT_NOTREG */
    word |= set >> 1 & 1 || set >> 3 & 1 ? 1u << 12 : 0;   /* ALARM_INHIBITED */
    return (uint16_t)word;
}

/* What is asked for beside what is measured: a discharge is below every request, 65,535 as bytes or not. */
static const struct {
    uint16_t voltage, measured_voltage;
    bool voltage_below;
    uint16_t current;
    int16_t measured_current;
    bool current_below;
} regulation[] = {
    {16800, 16800, false, 2000, 2000, false}, {16800, 16799, true, 2000, 1999, true},
    {16800, 16801, false, 2000, 2001, false}, {0, 0, false, 0, 0, false},
    {1, 0, true, 1, 0, true},                 {0, 65535, false, 0, -1, true},
    {65535, 65534, true, 65535, -1, true},    {65535, 65535, false, 32767, 32767, false},
    {32768, 32767, true, 32768, 32767, true}, {32767, 32768, false, 0, -32768, true},
    {255, 256, false, 255, 256, false},       {256, 255, true, 256, 255, true},
    {40000, 16800, true, 40000, -25536, true}, {65535, 0, true, 65535, 32767, true},
};

static void statuses(void)
{
    for (size_t i = 0; i < sizeof regulation / sizeof *regulation; i++)
        for (uint32_t set = 0; set < 1u << FLAGS; set++) {
            set_up(0);
            CHECK(sample(regulation[i].measured_voltage, regulation[i].measured_current, 9), 0);
            put(CURRENT, 2, regulation[i].current);
            put(VOLTAGE, 2, regulation[i].voltage);
            for (size_t j = 0; j < FLAGS; j++)
                put(flag_at[j], 1, set >> j & 1);
            READS(STATUS, status_by_rule(set, regulation[i].voltage_below, regulation[i].current_below));
            READS(SPEC_INFO, 0x0003);
        }
}

/* The same over the bus alone, word by word. */
static void status_story(void)
{
    set_up(0);
    READS(STATUS, 0xC010);
    CHECK(sample(14800, -32768, 1000), 0);
    READS(STATUS, 0xC010); /* nothing is asked for yet */
    writes(CHARGING_CURRENT, 0);
    READS(STATUS, 0xC018);
    CHECK(sample(14800, 0, 2000), 0);
    READS(STATUS, 0xC010);
    writes(CHARGING_VOLTAGE, 14801);
    READS(STATUS, 0xC014);
    writes(MODE, 0x0001);
    READS(STATUS, 0xC015);
    writes(MODE, 0x0002); /* polling isn't this charger's */
    READS(STATUS, 0xC014);
    writes(ALARM, 0x1000);
    READS(STATUS, 0xD014);
    writes(MODE, 0x0009);
    READS(STATUS, 0xD011);
    CHECK(sample(14800, -1, 3000), 0);
    READS(STATUS, 0xD019); /* a request of 0 is one, and the pack discharges */
    writes(MODE, 0x0004);
    READS(STATUS, 0xC010);
}

/* ---- the current */

/* Every set of flags with words and counts at their borders: one set alone lets a current flow. */
static void currents(void)
{
    static const uint16_t asked[] = {0, 1, 2000, 32768, 65535};
    static const uint16_t volts[] = {0, 1, 256, 16800, 65535};
    static const uint32_t counts[] = {0, 1, 174999, 175000};
    set_up(0);
    for (uint32_t i = 0; i < 5 * 5 * 4; i++)
        for (uint32_t set = 0; set < 1u << FLAGS; set++) {
            uint16_t voltage = volts[i / 5 % 5];
            uint32_t count = counts[i / 25];
            put(CURRENT, 2, asked[i % 5]);
            put(VOLTAGE, 2, voltage);
            put(COUNT, 4, count);
            for (size_t j = 0; j < FLAGS; j++)
                put(flag_at[j], 1, set >> j & 1);
            /* both taken, neither awaited, not inhibited */
            GIVES(set == 5 && voltage > 0 && count < SILENCE ? asked[i % 5] : 0);
        }
}

/* Before any request, with one, with both, at 0 and at the most. */
static void requests(void)
{
    set_up(0);
    GIVES(0);
    writes(CHARGING_CURRENT, 2000);
    GIVES(0);
    writes(CHARGING_VOLTAGE, 16800);
    GIVES(2000);
    writes(CHARGING_CURRENT, 65535);
    GIVES(65535);
    writes(CHARGING_CURRENT, 0);
    GIVES(0);
    writes(CHARGING_CURRENT, 1);
    GIVES(1);
    writes(CHARGING_VOLTAGE, 0);
    GIVES(0);
    writes(CHARGING_VOLTAGE, 1);
    GIVES(1);
    set_up(0);
    writes(CHARGING_VOLTAGE, 16800);
    GIVES(0);
    writes(CHARGING_CURRENT, 2000);
    GIVES(2000);
    writes(CHARGING_VOLTAGE, 65535); /* a constant current, whatever the voltage */
    GIVES(2000);
    CHECK(sample(65535, 32767, 10), 0); /* what is measured doesn't stop it */
    GIVES(2000);
}

/* ChargerMode over the bus: inhibited, and as before; requests at 0; and the power-on state. */
static void modes(void)
{
    in_use();
    writes(MODE, 0x0001);
    GIVES(0);
    writes(CHARGING_CURRENT, 2500); /* taken all the same */
    GIVES(0);
    writes(MODE, 0xFFF2); /* no bit of it has an effect, and 0 is clear */
    GIVES(2500);
    writes(MODE, 0x0008);
    GIVES(0);
    writes(CHARGING_VOLTAGE, 16800);
    GIVES(0);
    writes(CHARGING_CURRENT, 1500);
    GIVES(1500);
    writes(MODE, 0x0009); /* both at 0, though it is inhibited */
    writes(MODE, 0x0000);
    GIVES(0);
    READS(STATUS, 0xC010); /* 1,234 mA and 15,000 mV aren't below 0 */
    in_use();
    writes(MODE, 0x0005); /* POR_RESET goes before INHIBIT_CHARGE */
    READS(STATUS, 0xC010);
    GIVES(0);
    CHECK(number_at(COUNT, 4), 1500);
    writes(CHARGING_VOLTAGE, 16800);
    GIVES(0); /* no ChargingCurrent since */
    writes(CHARGING_CURRENT, 2000);
    GIVES(2000);
}

/* An alarm ends when both requests came again, in either order; nothing else but POR_RESET ends it. */
static void alarms(void)
{
    static const uint8_t first[2] = {CHARGING_CURRENT, CHARGING_VOLTAGE};
    for (unsigned bit = 12; bit <= 15; bit++)
        for (size_t i = 0; i < 2; i++) {
            in_use();
            writes(ALARM, (uint16_t)(1u << bit));
            GIVES(0);
            READS(STATUS, 0xD01C);
            writes(MODE, 0x0001);
            writes(MODE, 0x0000);
            writes(ALARM, 0x0FFF); /* the other bits stop nothing, and end nothing */
            CHECK(sample(15000, 1234, 3000), 0);
            REFUSED(5, false, 0x12, first[i], 0xC4, 0x09, 0x00);
            GIVES(0);
            for (int times = 0; times < 3; times++) {
                writes(first[i], 2500);
                GIVES(0);
                CHECK(area[INHIBITED], 0);
                READS(STATUS, 0xD018 | (first[i] == CHARGING_VOLTAGE ? 0 : 1 << 2));
            }
            writes(first[1 - i], 20000);
            GIVES(i == 0 ? 2500 : 20000);
        }
    in_use();
    writes(ALARM, 0x0F8F);
    GIVES(2000);
}

/* An alarm between the two requests: the one before it doesn't count, and both must come again. */
static void alarm_between(void)
{
    in_use();
    writes(ALARM, 0x4000);
    writes(CHARGING_CURRENT, 2500);
    writes(ALARM, 0x4000);
    writes(CHARGING_VOLTAGE, 17000);
    GIVES(0);
    READS(STATUS, 0xD01C);
    writes(CHARGING_CURRENT, 2500);
    GIVES(2500);
    READS(STATUS, 0xC01C);
    set_up(0); /* and between a charger's first two */
    writes(CHARGING_VOLTAGE, 17000);
    writes(ALARM, 0x8000);
    writes(CHARGING_CURRENT, 2500);
    GIVES(0);
    writes(CHARGING_VOLTAGE, 17000);
    GIVES(2500);
    set_up(0); /* and before them */
    writes(ALARM, 0x2000);
    READS(STATUS, 0xD010);
    writes(CHARGING_VOLTAGE, 17000);
    writes(CHARGING_CURRENT, 2500);
    GIVES(2500);
    writes(ALARM, 0x1000);
    writes(MODE, 0x0004);
    READS(STATUS, 0xC010);
    writes(CHARGING_CURRENT, 2500);
    GIVES(0); /* POR_RESET ended the alarm, and the requests too */
    writes(CHARGING_VOLTAGE, 17000);
    GIVES(2500);
}

/* ---- silence */

/* 174,999 ms with neither request, then 1 ms more; each request alone starts anew, and nothing else does. */
static void silence(void)
{
    static const uint8_t request[2] = {CHARGING_CURRENT, CHARGING_VOLTAGE};
    uint32_t counter = 4294900000u; /* 67,296 ms before it wraps */
    set_up(counter);
    writes(CHARGING_CURRENT, 2000);
    writes(CHARGING_VOLTAGE, 2000);
    for (size_t i = 0; i < 4; i++) {
        CHECK(sample(15000, 0, counter += 174999), 0);
        CHECK(number_at(COUNT, 4), 174999);
        writes(MODE, 0x0000);
        writes(ALARM, 0x0FFF);
        READS(STATUS, 0xC018);
        REFUSED(5, false, 0x12, 0x14, 0xD0, 0x07, 0xEC);
        CHECK(number_at(COUNT, 4), 174999);
        GIVES(2000);
        CHECK(sample(15000, 0, counter += 1), 0);
        CHECK(number_at(COUNT, 4), 175000);
        GIVES(0);
        READS(STATUS, 0xC018); /* which has no bit for it */
        CHECK(snatchblock_charger_sound(area, AREA), true);
        CHECK(sample(15000, 0, counter += i % 2 ? 1 : 3600000), 0);
        CHECK(number_at(COUNT, 4), 175000);
        GIVES(0);
        writes(MODE, 0x0000);
        GIVES(0);
        writes(request[i % 2], 2000);
        CHECK(number_at(COUNT, 4), 0);
        GIVES(2000);
    }
}

/* Seconds and other steps; the counter's wrap; times that would carry the count past 2^32. */
static void steps(void)
{
    in_use();
    writes(CHARGING_VOLTAGE, 16800);
    for (uint32_t second = 1; second <= 180; second++) {
        CHECK(sample(15000, 0, 1500 + 1000 * second), 0);
        CHECK(number_at(COUNT, 4), second < 175 ? 1000 * second : 175000);
        GIVES(second < 175 ? 2000 : 0);
    }
    set_up(0xFFFFFF00);
    CHECK(sample(15000, 0, 0x00000100), 0);
    CHECK(number_at(COUNT, 4), 512);
    CHECK(sample(15000, 0, 0x00000100), 0);
    CHECK(number_at(COUNT, 4), 512);
    CHECK(sample(15000, 0, 0x000000FF), 0); /* 2^32 - 1 ms */
    CHECK(number_at(COUNT, 4), 175000);
    set_up(0);
    CHECK(sample(15000, 0, 174999), 0);
    CHECK(sample(15000, 0, 174998), 0);
    CHECK(number_at(COUNT, 4), 175000);
    set_up(0);
    CHECK(sample(15000, 0, 0xFFFFFFFF), 0);
    CHECK(number_at(COUNT, 4), 175000);
    CHECK(sample(15000, 0, 0), 0); /* over the wrap, 1 ms */
    CHECK(number_at(COUNT, 4), 175000);
    set_up(17); /* and set-up's own reading is where time begins */
    CHECK(sample(15000, 0, 18), 0);
    CHECK(number_at(COUNT, 4), 1);
}

/* Silence and POR_RESET: the count goes on over it. A set-up starts all anew. */
static void started_anew(void)
{
    in_use();
    CHECK(sample(15000, 1234, 175500), 0);
    writes(MODE, 0x0004);
    CHECK(number_at(COUNT, 4), 175000);
    writes(CHARGING_CURRENT, 2000);
    CHECK(sample(15000, 1234, 176500), 0);
    writes(MODE, 0x0004);
    CHECK(number_at(COUNT, 4), 1000);
    in_use();
    writes(MODE, 0x0001);
    writes(ALARM, 0x8000);
    const struct snatchblock_reading first = {.voltage = 15000, .current = -7, .temperature = 2900, .counter = 4000};
    CHECK(snatchblock_charger_set_up_from(area, AREA, &first), 0);
    READS(STATUS, 0xC010);
    GIVES(0);
    for (size_t i = 0; i < LATEST; i++)
        CHECK(area[i], 0);
    const uint8_t latest[] = {0x98, 0x3A, 0xF9, 0xFF, 0x54, 0x0B, 0xA0, 0x0F, 0, 0};
    CHECK(memcmp(area + LATEST, latest, sizeof latest), 0);
}

/* A sample keeps what was measured and the count, and nothing else. */
static void samples(void)
{
    for (uint32_t set = 0; set < 1u << FLAGS; set++) {
        in_use();
        for (size_t i = 0; i < FLAGS; i++)
            put(flag_at[i], 1, set >> i & 1);
        remember();
        CHECK(snatchblock_charger_sample(area, AREA, 0x1234, -2, 0x5678, 1500 + 0x0102), 0);
        const uint8_t now[] = {0xDE, 0x06, 0, 0, 0x34, 0x12, 0xFE, 0xFF, 0x78, 0x56, 0xDE, 0x06, 0, 0};
        memcpy(before + GUARD + COUNT, now, sizeof now); /* 1,500 and 258 ms */
        CHECK(area_stays(), true);
    }
}

/* ---- alterations */

/* One, two or three altered bits of a right write of five bytes: nothing is taken, nothing changes. */
static unsigned taken;

static void count_if_taken(const uint8_t altered[5])
{
    taken += transact(false, altered, 5) != (altered[0] == 0x12 ? 5 : 3);
    taken += !area_stays() || !room_is(NULL, 0);
}

/* Writes that would each show. Four bits can be too many: x^8 + x^2 + x + 1 itself, at the end of a message. */
static void alterations(void)
{
    static const uint8_t message[][5] = {
        {0x12, 0x12, 0x01, 0x00, 0x2A}, {0x12, 0x12, 0x04, 0x00, 0x6B}, {0x12, 0x14, 0xC4, 0x09, 0xC4},
        {0x12, 0x15, 0x68, 0x42, 0xBD}, {0x12, 0x16, 0x8F, 0x52, 0x58}};
    for (size_t i = 0; i < sizeof message / sizeof *message; i++) {
        in_use();
        remember();
        each_altered(message[i], count_if_taken);
        CHECK(taken, 0);
        CHECK(transact(false, message[i], 5), 0);
        CHECK(area_stays(), false);
    }
    in_use();
    CHECK(transact(false, BYTES(0x12, 0x14, 0xC4, 0x08, 0xC3)), 0); /* 2,500 became 2,244, unseen */
    GIVES(2244);
}

/* ---- Linux's sbs-charger driver: what it shows of 13 in each state, and what 11 and 12 do for it */

struct properties {
    bool present, online, charging, cold, hot;
};

static struct properties sbs_charger_driver(void)
{
    CHECK(transact(true, BYTES(0x12, STATUS, 0x13)), PACKED(0, 3));
    unsigned word = (unsigned)(room[0] | room[1] << 8);
    bool online = word >> 15 & 1;
    return (struct properties){.present = word >> 14 & 1, .online = online, .charging = online && !(word & 1),
                               .cold = word >> 9 & 1, .hot = word >> 10 & 1};
}

/* There is a battery, there is power, its health is good; and it charges unless the host said no. */
static void shown_at(int line, bool charging)
{
    struct properties shown = sbs_charger_driver();
    check_at(line, "present", shown.present, true);
    check_at(line, "online", shown.online, true);
    check_at(line, "charging", shown.charging, charging);
    check_at(line, "health is good", !shown.cold && !shown.hot, true);
    reads_at(line, SPEC_INFO, 0x0003);
}
#define SHOWN(charging) shown_at(__LINE__, charging)

static void under_linux(void)
{
    set_up(0);
    SHOWN(true);
    in_use();
    SHOWN(true);
    CHECK(transact(false, BYTES(0x12, MODE, 0x01, 0x00)), 0); /* inhibit */
    SHOWN(false);
    GIVES(0);
    CHECK(transact(false, BYTES(0x12, MODE, 0x00, 0x00)), 0); /* go on */
    SHOWN(true);
    GIVES(2000);
    writes(ALARM, 0x5000);
    SHOWN(true); /* an alarm has its own bit, at which it doesn't look */
    writes(MODE, 0x0001);
    SHOWN(false);
    writes(MODE, 0x0004);
    SHOWN(true);
    /* hot and cold, silent: no safety signal is here, and the bus still answers */
    CHECK(snatchblock_charger_sample(area, AREA, 15000, 0, 4000, 500000), 0);
    SHOWN(true);
    CHECK(snatchblock_charger_sample(area, AREA, 0, -1, 0, 0), 0);
    SHOWN(true);
}

int main(void)
{
    layout();
    lengths();
    flags();
    soundness();
    rooms();
    addresses();
    forms();
    commands();
    order();
    written_out();
    every_word();
    statuses();
    status_story();
    currents();
    requests();
    modes();
    alarms();
    alarm_between();
    silence();
    steps();
    started_anew();
    samples();
    alterations();
    under_linux();
    return checked("charger");
}
