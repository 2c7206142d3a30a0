/* Holds the second program to published facts: document 01's worked examples
 * and tables, both packets of source document 001, the check word of CRC-8 and
 * the values that 002 works out. Then to properties that document 01 states, and
 * to figures worked by hand from the words of requests R-1, R-2, R-4 to R-7, R-9
 * and R-10. */
#include "../../second/snatchblock2.h"

#include <stdio.h>
#include <string.h>

static unsigned passed, failed;

static void check_at(int line, const char *what, long long got, long long wanted)
{
    if (got == wanted) {
        passed++;
        return;
    }
    failed++;
    printf("line %d: %s: %lld, not %lld\n", line, what, got, wanted);
}
#define CHECK(got, wanted) check_at(__LINE__, #got, (long long)(got), (long long)(wanted))

static struct sb2_bytes bytes(const uint8_t *at, size_t length)
{
    struct sb2_bytes made = {at, length};
    return made;
}
#define BYTES(...) bytes((const uint8_t[]){__VA_ARGS__}, sizeof((const uint8_t[]){__VA_ARGS__}))

static struct sb2_bytes text(const char *string)
{
    return bytes((const uint8_t *)string, strlen(string));
}

static const struct sb2_bytes nothing = {NULL, 0};
static const uint8_t zero = 0;
#define NO_NAMES bytes(&zero, 1)

/* ---- small drivers */

static const struct sb2_set_up usual = {.design_capacity = 4000,
                                        .full_capacity = 4000,
                                        .remaining_capacity = 2000,
                                        .design_voltage = 14800,
                                        .first = {.voltage = 14800}};

/* The same pack for hearers that don't understand PEC. */
static struct sb2_set_up in_plain(struct sb2_set_up in)
{
    in.plain = true;
    return in;
}

static struct sb2_state made(struct sb2_set_up in)
{
    struct sb2_state state;
    CHECK(sb2_set_up(&state, &in), 0);
    CHECK(sb2_sound(&state), true);
    return state;
}

/* Answer of a transaction, its room watched: nothing is written past the reply. */
static int transact(struct sb2_state *state, bool read, struct sb2_bytes message, struct sb2_bytes service,
                    struct sb2_bytes factory, uint8_t reply[SB2_REPLY_ROOM], size_t *length)
{
    uint8_t room[SB2_REPLY_ROOM + 8];
    memset(room, 0xA5, sizeof room);
    int answer = sb2_transact(state, read, message, service, factory, room + 4, SB2_REPLY_ROOM, length);
    for (size_t i = 0; i < sizeof room; i++)
        if ((i < 4 || i >= 4 + *length) && room[i] != 0xA5)
            CHECK(room[i], 0xA5);
    memcpy(reply, room + 4, SB2_REPLY_ROOM);
    return answer;
}

static int answer_of(struct sb2_state *state, bool read, struct sb2_bytes message)
{
    uint8_t reply[SB2_REPLY_ROOM];
    size_t length;
    int answer = transact(state, read, message, NO_NAMES, NO_NAMES, reply, &length);
    if (answer != 0 && answer != 10)
        CHECK(length, 0);
    return answer;
}

/* The word of a read, or −1 and the answer's number below it. */
static long word(struct sb2_state *state, uint8_t command)
{
    uint8_t reply[SB2_REPLY_ROOM];
    size_t length;
    const uint8_t request[3] = {0x16, command, 0x17};
    int answer = transact(state, true, bytes(request, 3), NO_NAMES, NO_NAMES, reply, &length);
    if (answer != 0 && answer != 10)
        return -1 - answer;
    CHECK(length, 3);
    uint8_t exchange[6] = {0x16, command, 0x17, reply[0], reply[1], reply[2]};
    bool accepted;
    CHECK(sb2_check_exchange(bytes(exchange, 6), &accepted), 0);
    CHECK(accepted, true);
    return reply[0] | (long)reply[1] << 8;
}

static int put(struct sb2_state *state, uint8_t command, unsigned value)
{
    uint8_t message[5] = {0x16, command, (uint8_t)value, (uint8_t)(value >> 8), 0};
    message[4] = sb2_pec(bytes(message, 4));
    return answer_of(state, false, bytes(message, 5));
}

/* Takes a sample; the messages' bytes go to sent, their count is given. */
static size_t sample(struct sb2_state *state, uint16_t voltage, int16_t current, uint16_t temperature, uint32_t counter,
                     uint8_t sent[SB2_BROADCAST_ROOM])
{
    struct sb2_sample taken = {voltage, current, temperature, counter};
    uint8_t room[SB2_BROADCAST_ROOM];
    size_t length, each = state->settings.plain ? 4 : 5;
    memset(room, 0xA5, sizeof room);
    CHECK(sb2_take_sample(state, &taken, room, sizeof room, &length), 0);
    CHECK(length % each, 0);
    for (size_t i = length; i < sizeof room; i++)
        CHECK(room[i], 0xA5);
    CHECK(sb2_sound(state), true);
    if (sent)
        memcpy(sent, room, sizeof room);
    return length / each;
}

/* ---- document 01's twelve */

static void worked_examples(void)
{
    uint8_t room[SB2_KEY_ROOM];
    size_t length;
    struct sb2_state s;

    CHECK(sb2_pec(nothing), 0x00);                                             /* 1 */
    CHECK(sb2_pec(BYTES(0x16, 0x80, 0x17, 0x4D, 0x00, 0x01, 0x00)), 0x98);     /* 2 */
    CHECK(sb2_pec(BYTES(0x16, 0x09, 0x17, 0xD0, 0x39)), 0x7E);                 /* 3 */
    CHECK(sb2_pec(BYTES(0x16, 0x02, 0x0A, 0x00)), 0x47);                       /* 4 */
    CHECK(sb2_pack_date(2021, 3, 15), 0x526F);                                 /* 5 */
    CHECK(sb2_key_write(text("A/B"), text("P7"), 0x526F, 17, room, sizeof room, &length), 0); /* 6 */
    struct sb2_bytes key = text("A\\/B/P7/526f/0011");
    CHECK(length, key.length);
    CHECK(memcmp(room, key.at, key.length), 0);
    s = made(usual);
    CHECK(word(&s, 0x0F), 2000);
    CHECK(put(&s, 0x04, 0x8000), 0); /* 7 */
    CHECK(word(&s, 0x06), 3);
    CHECK(put(&s, 0x04, 0), 0); /* 8 */
    CHECK(word(&s, 0x06), 65535);
    CHECK(put(&s, 0x04, 0xFFFF), 0); /* 9, and by R-6 cut off: 120,000 */
    CHECK(answer_of(&s, true, BYTES(0x16, 0x06, 0x17)), 10);
    CHECK(word(&s, 0x06), 65534);
    CHECK(put(&s, 0x03, 0x8000), 0); /* 10 */
    CHECK(word(&s, 0x0F), 2960);
    CHECK(sb2_elapsed(4294967290u, 4), 10); /* 11 */
    s = made(usual);                        /* 12 */
    sample(&s, 14800, -5, 0, 1000, NULL);
    sample(&s, 14800, 2, 0, 2000, NULL);
    CHECK(word(&s, 0x0B), 0xFFFF);
}

/* The player's example, row by row. */
static void player_example(void)
{
    static const uint8_t capture[] = {0x03, 0x00, 0x05, 0x01, 0x03, 0x00, 0x05, 0x16, 0x02, 0x0A,
                                      0x00, 0x47, 0x16, 0x09, 0x17, 0x16, 0x02, 0x0A, 0x00, 0x46};
    static const int answers[] = {0, 0, 5};
    struct sb2_state s = made(usual);
    struct sb2_walk walk;
    struct sb2_row row;
    CHECK(sb2_walk_begin(bytes(capture, sizeof capture), &walk), 0);
    size_t rows = 0;
    while (sb2_walk_next(&walk, &row)) {
        uint8_t reply[SB2_REPLY_ROOM];
        size_t length;
        int answer = transact(&s, row.read, bytes(capture + row.body.offset, row.body.length), NO_NAMES, NO_NAMES, reply,
                              &length);
        CHECK(answer, answers[rows]);
        CHECK(length, rows == 1 ? 3 : 0);
        if (rows == 1)
            CHECK(memcmp(reply, "\xD0\x39\x7E", 3), 0);
        rows++;
    }
    CHECK(rows, 3);
    CHECK(word(&s, 0x16), 0x00C7);
    CHECK(word(&s, 0x16), 0x00C0);
}

/* ---- check bytes published elsewhere */

static void check_bytes(void)
{
    static const uint8_t packet[] = {0x16, 0xA1, 0x00, 0x01, 0x82, 0x00, 0x94, 0x4D, 0x82, 0x00, 0xB0, 0x8C,
                                     0x82, 0x00, 0xB0, 0x8C, 0x82, 0x00, 0x99, 0xB4, 0x82, 0x00, 0xB0, 0x8C,
                                     0x82, 0x00, 0xB0, 0x8C, 0x82, 0x00, 0xB0, 0x8C, 0x82, 0x00, 0x99, 0xAF};
    CHECK(sizeof packet, 36);
    CHECK(sb2_pec(bytes(packet, sizeof packet)), 0x6F);
    CHECK(sb2_pec(BYTES(0x16, 0x80, 0x17, 0x4D, 0x00, 0x01, 0x00)), 0x98);
    CHECK(sb2_pec(text("123456789")), 0xF4);

    /* each of the 256 remainders by long division */
    for (unsigned v = 0; v < 256; v++) {
        unsigned rest = v << 8;
        for (int bit = 15; bit >= 8; bit--)
            if (rest >> bit & 1)
                rest ^= 0x107u << (bit - 8);
        uint8_t byte = (uint8_t)v;
        CHECK(sb2_pec(bytes(&byte, 1)), rest);
    }

    uint8_t exchange[40];
    memcpy(exchange, packet, sizeof packet);
    exchange[36] = 0x6F;
    bool accepted;
    CHECK(sb2_check_exchange(bytes(exchange, 37), &accepted), 0);
    CHECK(accepted, true);
    exchange[36] ^= 0x10;
    CHECK(sb2_check_exchange(bytes(exchange, 37), &accepted), 0);
    CHECK(accepted, false);
    CHECK(sb2_check_exchange(bytes(exchange, 38), &accepted), 15);
    CHECK(accepted, false);
    CHECK(sb2_check_exchange(bytes(exchange, 1), &accepted), 15);
    CHECK(sb2_check_exchange(nothing, &accepted), 15);
    CHECK(sb2_check_exchange(BYTES(0, 0), &accepted), 0);
    CHECK(accepted, true);

    uint32_t bits;
    CHECK(sb2_compare(BYTES(0x16, 0x02, 0x0A, 0x00, 0x47), BYTES(0x16, 0x02, 0x0A, 0x00, 0x46), &bits), 0);
    CHECK(bits, 1);
    CHECK(sb2_compare(BYTES(0xFF, 0x00), BYTES(0x00, 0xFF), &bits), 0);
    CHECK(bits, 16);
    CHECK(sb2_compare(nothing, nothing, &bits), 0);
    CHECK(bits, 0);
    CHECK(sb2_compare(BYTES(1, 2), BYTES(1), &bits), 15);
    CHECK(bits, 0);
    CHECK(sb2_compare(bytes(exchange, 37), bytes(packet, 36), &bits), 15);
    CHECK(sb2_compare(bytes(exchange, 38), bytes(exchange, 38), &bits), 15);
    CHECK(sb2_compare(bytes(exchange, 37), bytes(exchange, 37), &bits), 0);

    /* a right five-byte write with one to three bits turned is never taken */
    uint8_t write[5] = {0x16, 0x03, 0x00, 0xE0, 0};
    write[4] = sb2_pec(bytes(write, 4));
    struct sb2_state before = made(usual);
    for (unsigned i = 0; i < 40; i++)
        for (unsigned j = i; j < 40; j++)
            for (unsigned k = j; k < 40; k++) {
                /* i = j = k turns one bit, j = k two */
                uint8_t turned[5];
                struct sb2_state after = before;
                memcpy(turned, write, 5);
                turned[i / 8] ^= (uint8_t)(1u << i % 8);
                if (j != i)
                    turned[j / 8] ^= (uint8_t)(1u << j % 8);
                if (k != j)
                    turned[k / 8] ^= (uint8_t)(1u << k % 8);
                int answer = answer_of(&after, false, bytes(turned, 5));
                CHECK(answer == 3 || answer == 5, true);
                after.error_code = before.error_code;
                CHECK(sb2_same(&before, &after), true);
            }
}

/* ---- 002's values */

static void specification_values(void)
{
    CHECK(sb2_pack_specification(1, 0, 0, 1), 4112); /* 5.1.25, the example */
    CHECK(sb2_pack_specification(1, 0, 0, 1), 0x1010);
    CHECK(sb2_pack_date(1980, 1, 1), 0x0021); /* 5.1.26, the formula at its ends */
    CHECK(sb2_pack_date(2107, 12, 31), 0xFF9F);

    struct sb2_state s = made(usual);
    CHECK(word(&s, 0x1A), 0x0031); /* 1.1 with PEC, no scaling */
    /* 4.4.1, values preset */
    CHECK(word(&s, 0x01), 400);
    CHECK(word(&s, 0x02), 10);
    CHECK(word(&s, 0x03), 0);
    CHECK(word(&s, 0x04), 0);
    CHECK(word(&s, 0x16) & 0x80, 0x80);
    /* 5.1.5, the table of AtRate */
    CHECK(word(&s, 0x05), 65535);
    CHECK(word(&s, 0x06), 65535);
    CHECK(word(&s, 0x07) != 0, true);
    CHECK(put(&s, 0x04, 1000), 0);
    CHECK(word(&s, 0x05), 120);
    CHECK(word(&s, 0x06), 65535);
    CHECK(word(&s, 0x07) != 0, true);
    CHECK(put(&s, 0x04, (unsigned)-1000 & 0xFFFF), 0);
    CHECK(word(&s, 0x05), 65535);
    CHECK(word(&s, 0x06), 120);
    CHECK(word(&s, 0x07) != 0, true);
    /* 5.1.6: over-range and overflow in power mode */
    CHECK(put(&s, 0x03, 0x8000), 0);
    CHECK(answer_of(&s, true, BYTES(0x16, 0x05, 0x17)), 10);
    CHECK(word(&s, 0x16) & 0xF, 5);

    /* the names that 5.1.28 to 5.1.30 give, as blocks: count and characters */
    struct sb2_body bodies[4] = {
        {true, text("MyBattCo")}, {true, text("MBC101")}, {true, text("NiMH")}, {false, nothing}};
    uint8_t sheet[SB2_SHEET_ROOM];
    size_t sheet_length;
    CHECK(sb2_sheet_write(bodies, sheet, sizeof sheet, &sheet_length), 0);
    for (unsigned i = 0; i < 4; i++) {
        uint8_t reply[SB2_REPLY_ROOM];
        size_t length;
        const uint8_t request[3] = {0x16, (uint8_t)(0x20 + i), 0x17};
        CHECK(transact(&s, true, bytes(request, 3), NO_NAMES, bytes(sheet, sheet_length), reply, &length), 0);
        CHECK(length, bodies[i].bytes.length + 2);
        CHECK(reply[0], bodies[i].bytes.length);
        if (bodies[i].given)
            CHECK(memcmp(reply + 1, bodies[i].bytes.at, bodies[i].bytes.length), 0);
    }

    /* appendix A and C: each command's row and the codes */
    for (unsigned command = 0; command < 256; command++) {
        bool writable = command <= 0x04;
        bool known = command <= 0x1C || (command >= 0x20 && command <= 0x23);
        bool optional = command == 0x2F || (command >= 0x3C && command <= 0x3F);
        struct sb2_state t = made(usual);
        const uint8_t read[3] = {0x16, (uint8_t)command, 0x17};
        const uint8_t write[4] = {0x16, (uint8_t)command, 0, 0};
        CHECK(answer_of(&t, true, bytes(read, 3)), known ? 0 : optional ? 7 : 6);
        CHECK(word(&t, 0x16) & 0xF, known ? 0 : optional ? 3 : 2);
        CHECK(answer_of(&t, false, bytes(write, 4)), writable ? 0 : known ? 8 : optional ? 7 : 6);
        CHECK(word(&t, 0x16) & 0xF, writable ? 0 : known ? 4 : optional ? 3 : 2);
    }
}

/* ---- document 01, answer numbers and their order */

static void answers_in_order(void)
{
    struct sb2_state s = made(usual);
    uint8_t room[64];
    size_t length;
    struct sb2_state none;
    memset(&none, 0, sizeof none);
    CHECK(sb2_sound(&none), false);
    struct sb2_state before = none;
    memset(room, 0xA5, sizeof room);
    CHECK(sb2_transact(&none, true, nothing, nothing, nothing, room, 0, &length), 1);
    CHECK(sb2_same(&before, &none), true);
    before = s;
    CHECK(sb2_transact(&s, true, nothing, nothing, nothing, room, 33, &length), 2);
    CHECK(sb2_transact(&s, true, BYTES(0x16, 0x20, 0x17), nothing, nothing, room, 34, &length), 9);
    CHECK(s.error_code, 7);
    CHECK(sb2_transact(&s, true, BYTES(0x16, 0x20, 0x17), NO_NAMES, nothing, room, 34, &length), 9);
    CHECK(sb2_transact(&s, true, BYTES(0x16, 0x20, 0x17), nothing, NO_NAMES, room, 34, &length), 9);
    CHECK(sb2_transact(&s, false, BYTES(0x16, 0x20, 0, 0), nothing, nothing, room, 34, &length), 8);
    CHECK(room[0], 0xA5);
    s = before;
    CHECK(answer_of(&s, true, nothing), 3);
    CHECK(answer_of(&s, false, BYTES(0x17, 0x00, 0x17)), 3);
    CHECK(sb2_same(&before, &s), true);
    CHECK(answer_of(&s, true, BYTES(0x16, 0xFF, 0x16)), 4);
    CHECK(s.error_code, 6);
    CHECK(answer_of(&s, true, BYTES(0x17)), 3); /* leaves the code */
    CHECK(s.error_code, 6);
    CHECK(answer_of(&s, false, BYTES(0x16, 0xFF, 0x17)), 4);
    CHECK(answer_of(&s, true, BYTES(0x16, 0x00, 0x00, 0x00)), 4);
    CHECK(answer_of(&s, true, BYTES(0x16, 0x00, 0x17, 0x00)), 4);
    CHECK(answer_of(&s, false, BYTES(0x16)), 4);
    CHECK(answer_of(&s, false, BYTES(0x16, 0xFF, 0, 0, 0)), 5);
    CHECK(s.error_code, 7);
    CHECK(answer_of(&s, false, BYTES(0x16, 0x02, 0x0A, 0x00, 0x47, 0x00)), 4);
    CHECK(put(&s, 0x24, 0), 6);
    CHECK(put(&s, 0x2F, 0), 7);
    CHECK(put(&s, 0x1C, 0), 8);

    struct sb2_set_up in = usual;
    in.design_capacity = 0;
    CHECK(sb2_set_up(&s, &in), 11);
    CHECK(sb2_same(&s, &none), true);
    in = usual;
    in.full_capacity = 0;
    in.remaining_capacity = 0;
    CHECK(sb2_set_up(&s, &in), 11);
    in = usual;
    in.design_voltage = 0;
    CHECK(sb2_set_up(&s, &in), 11);
    in = usual;
    in.remaining_capacity = 4001;
    CHECK(sb2_set_up(&s, &in), 11);
    CHECK(sb2_same(&s, &none), true);
    in.remaining_capacity = 4000;
    CHECK(sb2_set_up(&s, &in), 0);

    /* soundness, each bound from both sides */
#define SOUND(change, wanted)          \
    do {                               \
        struct sb2_state t = made(usual); \
        change;                        \
        CHECK(sb2_sound(&t), wanted);  \
    } while (0)
    SOUND(t.tank.charge = UINT64_C(4000) * 3600000, true);
    SOUND(t.tank.charge = UINT64_C(4000) * 3600000 + 1, false);
    SOUND(t.tank.charge = UINT64_MAX, false);
    SOUND(t.tank.toward_cycle = UINT64_C(14399999999), true); /* 4,000 x 3,600,000 are 14,400,000,000 */
    SOUND(t.tank.toward_cycle = UINT64_C(14400000000), false);
    SOUND(t.tank.toward_cycle = UINT64_MAX, false);
    SOUND(t.tank.run_open = true, true);
    SOUND((t.tank.run_open = true, t.tank.run_drawn = UINT64_C(235926000000)), true); /* 65,535 x 3,600,000 */
    SOUND((t.tank.run_open = true, t.tank.run_drawn = UINT64_C(235926000001)), false);
    SOUND((t.tank.run_open = true, t.tank.run_drawn = UINT64_MAX), false);
    SOUND(t.tank.run_drawn = 1, false);
    SOUND((t.tank.charge = UINT64_C(14400000000), t.tank.run_open = false), true); /* full, and no run open */
    SOUND(t.minute.count = 60, true);
    SOUND(t.minute.count = 61, false);
    SOUND((t.minute.count = 1, t.minute.total[0] = 32767000), true);
    SOUND((t.minute.count = 1, t.minute.total[0] = 32767001), false);
    SOUND((t.minute.count = 1, t.minute.total[0] = -32768000), true);
    SOUND((t.minute.count = 1, t.minute.total[0] = -32768001), false);
    SOUND((t.minute.count = 60, t.minute.total[1] = -32768001), false); /* the oldest, the ring starting at 0 */
    SOUND((t.minute.count = 59, t.minute.total[1] = -32768001), true);  /* not looked at */
    SOUND((t.minute.total[0] = INT32_MAX), true);
    SOUND(t.minute.begun_ms = 999, true);
    SOUND(t.minute.begun_ms = 1000, false);
    SOUND(t.minute.begun_total = 1, false);
    SOUND(t.minute.begun_total = -1, false);
    SOUND((t.minute.begun_ms = 1, t.minute.begun_total = 32767), true);
    SOUND((t.minute.begun_ms = 1, t.minute.begun_total = 32768), false);
    SOUND((t.minute.begun_ms = 999, t.minute.begun_total = -32735232), true);
    SOUND((t.minute.begun_ms = 999, t.minute.begun_total = -32735233), false);
    SOUND((t.timers.hold = 60000, t.host.alarm_mode = true), true);
    SOUND((t.timers.hold = 60001, t.host.alarm_mode = true), false);
    SOUND(t.timers.hold = 1, false);
    SOUND(t.host.alarm_mode = true, false);
    SOUND(t.timers.alarm = 10001, false);
    SOUND(t.timers.charger = 29999, true);
    SOUND(t.timers.charger = 30000, false);
    SOUND((t.timers.charger = 1, t.host.charger_mode = true), false);
    SOUND(t.host.charger_mode = true, true);
    SOUND(t.error_code = 7, true);
    SOUND(t.error_code = 8, false);
}

/* ---- document 01, registers on other packs */

static void registers(void)
{
    struct sb2_set_up in = usual;
    struct sb2_state s;

    /* the largest pack: nothing overflows, caps hold */
    in.design_capacity = in.full_capacity = in.remaining_capacity = 65535;
    in.design_voltage = 65535;
    in.first.voltage = 65535;
    in.first.current = -32768;
    in.discharge_limit = 65535;
    s = made(in);
    CHECK(word(&s, 0x0F), 65535);
    CHECK(word(&s, 0x0D), 100);
    CHECK(word(&s, 0x0E), 100);
    CHECK(word(&s, 0x11), 119);
    CHECK(word(&s, 0x12), 119);
    CHECK(word(&s, 0x13), 65535);
    CHECK(put(&s, 0x03, 0x8000), 0);
    CHECK(word(&s, 0x0F), 65535);
    CHECK(word(&s, 0x10), 65535);
    CHECK(word(&s, 0x18), 65535);
    CHECK(word(&s, 0x11), 18); /* 60 × 65,535 ÷ floor(32,768 × 65,535 ÷ 10,000) */
    CHECK(put(&s, 0x04, 0x8000), 0);
    CHECK(word(&s, 0x07), 1);
    CHECK(word(&s, 0x06), 119);

    /* more than the design: 0E above 100, and its cap */
    in = usual;
    in.design_capacity = 1;
    in.full_capacity = in.remaining_capacity = 65535;
    s = made(in);
    CHECK(word(&s, 0x0E), 65535);
    CHECK(word(&s, 0x0D), 100);
    CHECK(word(&s, 0x01), 0);
    in.design_capacity = 65535;
    in.remaining_capacity = 0;
    s = made(in);
    CHECK(word(&s, 0x0E), 0);
    CHECK(word(&s, 0x16), 0x02D0); /* capacity alarm, initialized, not charging, empty */

    /* AtRateOK at its edge, in mA and in 10 mW */
    in = usual;
    in.full_capacity = in.design_capacity = 40;
    in.remaining_capacity = 40; /* 144,000,000 mA·ms: 14,400 mA for 10 s */
    in.design_voltage = 7000;
    s = made(in);
    CHECK(put(&s, 0x04, (unsigned)-14400 & 0xFFFF), 0);
    CHECK(word(&s, 0x07), 1);
    CHECK(put(&s, 0x04, (unsigned)-14401 & 0xFFFF), 0);
    CHECK(word(&s, 0x07), 0);
    CHECK(put(&s, 0x03, 0x8000), 0); /* 10 mW: 14,400 mA at 7 V are 10,080 */
    CHECK(put(&s, 0x04, (unsigned)-10080 & 0xFFFF), 0);
    CHECK(word(&s, 0x07), 1);
    CHECK(put(&s, 0x04, (unsigned)-10081 & 0xFFFF), 0);
    CHECK(word(&s, 0x07), 0);
    in.first.current = -1;
    s = made(in);
    CHECK(put(&s, 0x04, (unsigned)-14399 & 0xFFFF), 0);
    CHECK(word(&s, 0x07), 1);
    CHECK(put(&s, 0x04, (unsigned)-14400 & 0xFFFF), 0);
    CHECK(word(&s, 0x07), 0);
    in.first.current = 20000; /* a charge neither helps nor harms */
    s = made(in);
    CHECK(put(&s, 0x04, (unsigned)-14400 & 0xFFFF), 0);
    CHECK(word(&s, 0x07), 1);
    CHECK(put(&s, 0x04, (unsigned)-14401 & 0xFFFF), 0);
    CHECK(word(&s, 0x07), 0);

    in.first.current = 0; /* 10 mW at 7 V for 10 s: 14,285 and five sevenths mA·ms */
    s = made(in);
    CHECK(put(&s, 0x03, 0x8000), 0);
    CHECK(put(&s, 0x04, 0xFFFF), 0);
    s.tank.charge = 14285;
    CHECK(word(&s, 0x07), 0);
    s.tank.charge = 14286;
    CHECK(word(&s, 0x07), 1);

    /* power mode: a rate that rounds to 0 */
    in = usual;
    in.first.voltage = 4999;
    in.first.current = -2;
    s = made(in);
    CHECK(put(&s, 0x03, 0x8000), 0);
    CHECK(word(&s, 0x11), 65534);
    CHECK(word(&s, 0x12), 65534);
    CHECK(word(&s, 0x13), 65535);
    in.first.current = 2;
    s = made(in);
    CHECK(put(&s, 0x03, 0x8000), 0);
    CHECK(word(&s, 0x11), 65535);
    CHECK(word(&s, 0x12), 65535);
    CHECK(word(&s, 0x13), 65534);

    /* power mode: capacities at the design voltage, rates at the latest */
    in = usual;
    in.first.voltage = 10000;
    in.first.current = -1000;
    s = made(in);
    CHECK(put(&s, 0x03, 0x8000), 0);
    CHECK(word(&s, 0x0F), 2960);
    CHECK(word(&s, 0x10), 5920);
    CHECK(word(&s, 0x18), 5920);
    CHECK(word(&s, 0x11), 177);
    CHECK(word(&s, 0x12), 177);
    CHECK(put(&s, 0x04, (unsigned)-1000 & 0xFFFF), 0);
    CHECK(word(&s, 0x06), 177);
    CHECK(put(&s, 0x04, 1000), 0);
    CHECK(word(&s, 0x05), 65535);
    in.first.current = 1000;
    s = made(in);
    CHECK(put(&s, 0x03, 0x8000), 0);
    CHECK(word(&s, 0x13), 177);
    in.first.current = 0;
    s = made(in);
    CHECK(word(&s, 0x11), 65535);
    CHECK(word(&s, 0x12), 65535);
    CHECK(word(&s, 0x13), 65535);

    /* present current in 11, the mean in 12 and 13 and in bit 8 */
    in = usual;
    in.first.current = -1000;
    in.remaining_capacity = 2002;
    s = made(in);
    CHECK(word(&s, 0x12), 120); /* no second is complete: the latest current */
    sample(&s, 14800, -1000, 0, 1000, NULL);
    sample(&s, 14800, -3000, 0, 2000, NULL);
    CHECK(word(&s, 0x0F), 2000); /* 2,002 mAh less 4,000,000 mA·ms */
    CHECK(word(&s, 0x11), 40);
    CHECK(word(&s, 0x12), 60);
    CHECK(put(&s, 0x02, 60), 0);
    CHECK(word(&s, 0x16), 0x00C0);
    CHECK(put(&s, 0x02, 61), 0);
    CHECK(word(&s, 0x16), 0x01C0);
    in.remaining_capacity = 1999;
    s = made(in);
    sample(&s, 14800, 1000, 0, 1000, NULL);
    sample(&s, 14800, 3000, 0, 2000, NULL);
    CHECK(word(&s, 0x13), 60);

    /* full and design apart; limits met exactly */
    in = usual;
    in.full_capacity = 2000;
    in.remaining_capacity = 1000;
    s = made(in);
    CHECK(word(&s, 0x0D), 50);
    CHECK(word(&s, 0x0E), 25);
    CHECK(word(&s, 0x01), 400);
    CHECK(put(&s, 0x01, 1000), 0);
    CHECK(word(&s, 0x16), 0x00C0);
    CHECK(put(&s, 0x01, 1001), 0);
    CHECK(word(&s, 0x16), 0x02C0);
    CHECK(put(&s, 0x01, 0), 0);
    CHECK(put(&s, 0x02, 0), 0);
    CHECK(word(&s, 0x16), 0x00C0);

    /* BatteryMode keeps three bits; a mode change converts nothing */
    s = made(usual);
    CHECK(put(&s, 0x03, 0xFFFF), 0);
    CHECK(word(&s, 0x03), 0xE000);
    CHECK(word(&s, 0x01), 400);
    CHECK(put(&s, 0x00, 0xBEEF), 0);
    CHECK(word(&s, 0x00), 0xBEEF);

    /* alarms on charging: full, and hot */
    in = usual;
    in.remaining_capacity = 4000;
    in.charging_current = 1500;
    in.charging_voltage = 16800;
    in.first.current = 100;
    s = made(in);
    CHECK(word(&s, 0x16), 0x40A0);
    CHECK(word(&s, 0x14), 0);
    CHECK(word(&s, 0x15), 16800);
    in.remaining_capacity = 3999;
    s = made(in);
    CHECK(word(&s, 0x16), 0x0080);
    CHECK(word(&s, 0x14), 1500);
    in.first.temperature = 3231;
    in.temperature_limit = 3231;
    s = made(in);
    CHECK(word(&s, 0x16), 0x0080);
    in.first.temperature = 3232;
    s = made(in);
    CHECK(word(&s, 0x16), 0x5080);
    in.first.current = 0;
    s = made(in);
    CHECK(word(&s, 0x16), 0x10C0);
    CHECK(word(&s, 0x14), 1500);
    in.first.temperature = 0;
    in.first.current = -1;
    in.discharge_limit = 14800;
    s = made(in);
    CHECK(word(&s, 0x16), 0x00C0);
    in.discharge_limit = 14801;
    s = made(in);
    CHECK(word(&s, 0x16), 0x08C0);
    CHECK(put(&s, 0x02, 65535), 0);
    CHECK(word(&s, 0x12), 65534);
    CHECK(word(&s, 0x16), 0x09C5); /* 239,940 minutes: cut off */
    CHECK(word(&s, 0x16), 0x09C0);
}

/* ---- request R-6 */

/* A read of a time: its word, its answer, the code that it leaves; all else of the state stays. */
static void time_at(int line, struct sb2_state *s, uint8_t command, int answer, long shown)
{
    const uint8_t request[3] = {0x16, command, 0x17};
    struct sb2_state before = *s;
    before.error_code = answer == 10 ? 5 : 0;
    s->error_code = 3;
    check_at(line, "word", word(s, command), shown);
    check_at(line, "answer", answer_of(s, true, bytes(request, 3)), answer);
    check_at(line, "state", sb2_same(&before, s), true);
    check_at(line, "code", word(s, 0x16) & 0xF, before.error_code);
    check_at(line, "code after it", word(s, 0x16) & 0xF, 0);
}
#define TIME(command, answer, shown) time_at(__LINE__, &s, command, answer, shown)

/* So many of 65,535 mAh to go, to full or to empty, at AtRate and a current of so many mA the command's way. */
static struct sb2_state flowing(bool to_full, uint16_t capacity, int32_t rate)
{
    struct sb2_set_up in = usual;
    in.design_capacity = in.full_capacity = 65535;
    in.remaining_capacity = to_full ? (uint16_t)(65535 - capacity) : capacity;
    struct sb2_state s = made(in);
    s.host.at_rate = s.latest.current = (int16_t)(to_full ? rate : -rate);
    return s;
}

/* Each of the five; 12 and 13 once more from a complete second, with no current now. */
static void time_of(int line, uint16_t capacity, int32_t rate, int answer, long shown)
{
    static const uint8_t to_empty[] = {0x06, 0x11, 0x12}, to_full[] = {0x05, 0x13};
    for (unsigned i = 0; i < 5; i++) {
        struct sb2_state s = flowing(i >= 3, capacity, rate);
        uint8_t command = i < 3 ? to_empty[i] : to_full[i - 3];
        time_at(line, &s, command, answer, shown);
        if (command < 0x12)
            continue;
        s.minute.count = 1;
        s.minute.total[s.minute.newest] = 1000 * s.latest.current;
        s.latest.current = 0;
        time_at(line, &s, command, answer, shown);
    }
}
#define TIME_OF(capacity, rate, answer, shown) time_of(__LINE__, capacity, rate, answer, shown)

static void cut_off(void)
{
    TIME_OF(0, 1, 0, 0);
    TIME_OF(65533, 60, 0, 65533);
    TIME_OF(14199, 13, 0, 65533);  /* 851,940 ÷ 13 */
    TIME_OF(32767, 30, 0, 65534);  /* exactly */
    TIME_OF(62258, 57, 0, 65534);  /* 3,735,480 ÷ 57, 42 over */
    TIME_OF(4369, 4, 10, 65534);   /* 65,535 */
    TIME_OF(65535, 60, 10, 65534); /* 65,535 */
    TIME_OF(16384, 15, 10, 65534); /* 65,536 */
    TIME_OF(65535, 1, 10, 65534);
    TIME_OF(65535, 61, 0, 64460); /* 3,932,100 ÷ 61 */
    TIME_OF(65535, 32767, 0, 120);
    TIME_OF(65535, 0, 0, 65535);
    TIME_OF(65535, -1, 0, 65535);
    TIME_OF(0, -32767, 0, 65535);
}

static void cut_off_in_power_mode(void)
{
    struct sb2_set_up in = usual;
    in.full_capacity = 30000;
    in.remaining_capacity = 22140; /* 32,767.2 in 10 mWh */
    in.first.voltage = 12500;
    in.first.current = -24; /* 30 in 10 mW: 1,966,020 ÷ 30 */
    struct sb2_state s = made(in);
    CHECK(put(&s, 0x03, 0x8000), 0);
    TIME(0x11, 0, 65534);
    TIME(0x12, 0, 65534);
    TIME(0x13, 0, 65535);
    s.host.at_rate = -30;
    TIME(0x06, 0, 65534);
    s.host.at_rate = -29; /* 67,793 */
    TIME(0x06, 10, 65534);
    TIME(0x05, 10, 65535);
    s.tank.charge += 3600000; /* 32,768.68: 65,536 */
    TIME(0x11, 10, 65534);
    TIME(0x12, 10, 65534);
    s.latest.voltage = 416; /* 9,984: rounds to 0 */
    TIME(0x11, 10, 65534);
    s.tank.charge = 0;
    TIME(0x11, 10, 65534);
    TIME(0x12, 10, 65534);
    TIME(0x13, 0, 65535);
    s.latest.voltage = 417;
    TIME(0x11, 0, 0);
    s.latest = (struct sb2_sample){416, 24, 0, 0};
    TIME(0x11, 0, 65535);
    TIME(0x12, 0, 65535);
    TIME(0x13, 10, 65534);
    s.host.at_rate = 1;
    TIME(0x05, 10, 65535);
    s.host.at_rate = 0;
    TIME(0x05, 10, 65535);
    TIME(0x06, 0, 65535);
}

/* Every other word is whole, be it 65,534; and what ends the code. */
static void whole_words(void)
{
    struct sb2_state s = made(usual);
    CHECK(put(&s, 0x00, 65534), 0);
    CHECK(put(&s, 0x01, 65534), 0);
    CHECK(put(&s, 0x02, 65534), 0);
    CHECK(put(&s, 0x04, 65534), 0);
    for (uint8_t command = 0x00; command <= 0x04; command++)
        TIME(command, 0, command == 0x03 ? 0 : 65534);
    CHECK(put(&s, 0x04, 65535), 0);
    CHECK(answer_of(&s, true, BYTES(0x16, 0x06, 0x17)), 10);
    CHECK(answer_of(&s, true, BYTES(0x14, 0x06, 0x15)), 3); /* not for the pack: the code stays */
    CHECK(s.error_code, 5);
    CHECK(answer_of(&s, false, BYTES(0x16, 0x06, 0x00, 0x00)), 8);
    CHECK(s.error_code, 4);
    CHECK(answer_of(&s, true, BYTES(0x16, 0x06, 0x17)), 10);
    CHECK(answer_of(&s, true, BYTES(0x16, 0x05, 0x17)), 0);
    CHECK(s.error_code, 0);
}

/* ---- document 01, clock and broadcasts */

static void clock_and_broadcasts(void)
{
    uint8_t sent[SB2_BROADCAST_ROOM];
    uint8_t room[SB2_BROADCAST_ROOM];
    size_t length;
    struct sb2_set_up in = in_plain(usual);
    struct sb2_state s;

    s = made(in);
    struct sb2_sample one = {14800, 0, 0, 1000};
    struct sb2_state before = s;
    CHECK(sb2_take_sample(&s, &one, room, 15, &length), 2);
    CHECK(length, 0);
    CHECK(sb2_same(&before, &s), true);
    memset(&s, 0, sizeof s);
    CHECK(sb2_take_sample(&s, &one, room, 0, &length), 1);

    /* charger words first at 30,000 ms, then each 30,000, missed ones dropped */
    in.charging_current = 0x1234;
    in.charging_voltage = 0x5678;
    in.first.counter = 4294967290u;
    s = made(in);
    CHECK(sample(&s, 14800, 0, 0, 4294967290u + 29999u, sent), 0);
    CHECK(sample(&s, 14800, 0, 0, 4294967290u + 30000u, sent), 2);
    CHECK(memcmp(sent, "\x12\x14\x34\x12\x12\x15\x78\x56", 8), 0);
    CHECK(sample(&s, 14800, 0, 0, 4294967290u + 100000u, sent), 2);
    CHECK(sample(&s, 14800, 0, 0, 4294967290u + 100001u, sent), 0);
    CHECK(s.timers.charger, 1);
    CHECK(put(&s, 0x03, 0x4000), 0);
    CHECK(s.timers.charger, 0);
    CHECK(sample(&s, 14800, 0, 0, 4294967290u + 200001u, sent), 0);
    CHECK(put(&s, 0x03, 0x0000), 0);
    CHECK(sample(&s, 14800, 0, 0, 4294967290u + 230000u, sent), 0);
    CHECK(sample(&s, 14800, 0, 0, 4294967290u + 230001u, sent), 2);

    /* an alarm at once, then each 10,000 ms; the code in the word is all ones */
    in = in_plain(usual);
    in.remaining_capacity = 399;
    s = made(in);
    CHECK(sample(&s, 14800, 0, 0, 0, sent), 1);
    CHECK(memcmp(sent, "\x10\x16\xCF\x02", 4), 0);
    CHECK(sample(&s, 14800, 0, 0, 9999, sent), 0);
    CHECK(sample(&s, 14800, 0, 0, 10000, sent), 1);
    /* both alarms and both words, in order */
    CHECK(sample(&s, 14800, 1, 1, 40000, sent), 4);
    CHECK(memcmp(sent, "\x10\x16\x8F\x52\x12\x16\x8F\x52\x12\x14\x00\x00\x12\x15\x00\x00", 16), 0);

    /* the hold: 60,000 ms from the last sample, then the bit clears and the alarm goes */
    CHECK(put(&s, 0x03, 0x2000), 0);
    CHECK(s.timers.hold, 60000);
    CHECK(sample(&s, 14800, 0, 0, 60000, sent), 0);
    CHECK(sample(&s, 14800, 0, 0, 99999, sent), 2); /* charger words alone */
    CHECK(word(&s, 0x03), 0x2000);
    CHECK(sample(&s, 14800, 0, 0, 100000, sent), 1);
    CHECK(word(&s, 0x03), 0);
    CHECK(put(&s, 0x03, 0x2000), 0);
    CHECK(put(&s, 0x03, 0x0000), 0);
    CHECK(s.timers.hold, 0);
    CHECK(sample(&s, 14800, 0, 0, 110000, sent), 1);

    /* each alarm bit alone: 11 and 8 for the host, 12 for the charger too; none without a bit */
    in = in_plain(usual);
    in.first.current = -1;
    in.discharge_limit = 14801;
    s = made(in);
    CHECK(sample(&s, 14800, -1, 0, 0, sent), 1);
    CHECK(memcmp(sent, "\x10\x16\xCF\x08", 4), 0);
    in.discharge_limit = 0;
    s = made(in);
    CHECK(put(&s, 0x02, 65535), 0);
    CHECK(sample(&s, 14800, -1, 0, 0, sent), 1);
    CHECK(memcmp(sent, "\x10\x16\xCF\x01", 4), 0);
    in.first.current = 0;
    s = made(in);
    CHECK(sample(&s, 14800, 0, 1, 0, sent), 2);
    CHECK(memcmp(sent, "\x10\x16\xCF\x10\x12\x16\xCF\x10", 8), 0);
    s = made(in);
    CHECK(sample(&s, 14800, 0, 0, 20000, sent), 0);
    /* a mode write that leaves CHARGER_MODE clear leaves its timer */
    CHECK(put(&s, 0x03, 0xA000), 0);
    CHECK(s.timers.charger, 20000);
    CHECK(sample(&s, 14800, 0, 0, 30000, sent), 2);

    /* charge, held at 0 and at full; bit 4 */
    in = usual;
    in.full_capacity = in.design_capacity = 100;
    in.remaining_capacity = 1;
    s = made(in);
    CHECK(put(&s, 0x16, 0), 8); /* samples leave the code */
    sample(&s, 14800, -3600, 0, 999, NULL);
    CHECK(s.error_code, 4);
    CHECK(s.tank.charge, 3600);
    CHECK(s.tank.fully_discharged, false);
    sample(&s, 14800, -3600, 0, 1000, NULL);
    CHECK(s.tank.charge, 0);
    CHECK(s.tank.fully_discharged, true);
    sample(&s, 14800, 1000, 0, 1000 + 72000 - 1, NULL);
    CHECK(word(&s, 0x0D), 19);
    CHECK(word(&s, 0x16) & 0x10, 0x10);
    sample(&s, 14800, 1000, 0, 1000 + 72000, NULL);
    CHECK(word(&s, 0x0D), 20);
    CHECK(word(&s, 0x16) & 0x10, 0);
    sample(&s, 14800, -32768, 0, 999 + 72000, NULL); /* 2^32 − 1 ms */
    CHECK(s.tank.charge, 0);
    sample(&s, 14800, 32767, 0, 998 + 72000, NULL);
    CHECK(s.tank.charge, 360000000);
    CHECK(word(&s, 0x0D), 100);

}

/* ---- request R-2 */

static int mean_of(struct sb2_state *s)
{
    long shown = word(s, 0x0B);
    return (int)(shown < 0x8000 ? shown : shown - 0x10000);
}

/* A current that counted for so many ms. */
static void run(struct sb2_state *s, int16_t current, uint32_t ms)
{
    sample(s, 14800, current, 0, s->latest.counter + ms, NULL);
}

static void the_minute(void)
{
    /* none complete: the latest current, set-up's too; the begun second isn't counted */
    struct sb2_set_up in = usual;
    in.first.current = -5;
    in.first.counter = 4294967290u;
    struct sb2_state s = made(in);
    CHECK(mean_of(&s), -5);
    run(&s, 2, 0);
    CHECK(mean_of(&s), 2);
    run(&s, -10, 999);
    CHECK(s.minute.count, 0);
    CHECK(mean_of(&s), -10);
    run(&s, 5, 1); /* -10 x 999 + 5 x 1 = -9,985 */
    CHECK(s.minute.count, 1);
    CHECK(mean_of(&s), -9);
    run(&s, 32767, 999);
    CHECK(mean_of(&s), -9);
    CHECK(s.minute.begun_total, 32767 * 999);

    /* 400 ms of 100 mA, 1,300 of -50, 300 of 20: seconds of 40,000 - 30,000 and of -35,000 + 6,000 mA·ms */
    s = made(usual);
    run(&s, 100, 400);
    run(&s, -50, 1300);
    CHECK(mean_of(&s), 10);
    CHECK(s.minute.begun_ms, 700);
    CHECK(s.minute.begun_total, -35000);
    run(&s, 20, 300);
    CHECK(mean_of(&s), -9); /* -19,000 ÷ 2,000 */

    /* over those there are, then over the last 60 */
    s = made(usual);
    run(&s, 32767, 1000);
    for (int i = 0; i < 59; i++)
        run(&s, -7, 1000);
    CHECK(mean_of(&s), (32767 - 59 * 7) / 60);
    CHECK(s.minute.count, 60);
    run(&s, -8, 1000);
    CHECK(s.minute.count, 60);
    CHECK(mean_of(&s), -7); /* -421 ÷ 60 */
}

static void long_samples(void)
{
    struct sb2_state s = made(usual);
    run(&s, -5, 1000);
    run(&s, 7, 59000);
    CHECK(mean_of(&s), 6); /* 408 ÷ 60 */
    run(&s, 7, 61000);
    CHECK(mean_of(&s), 7);
    run(&s, -5, 500);
    run(&s, 7, 60000); /* -2,500 + 3,500, then 59 seconds of 7,000: 414,000 ÷ 60,000 */
    CHECK(mean_of(&s), 6);
    CHECK(s.minute.begun_ms, 500);
    run(&s, 7, 500);
    CHECK(mean_of(&s), 7);
    /* the longest: 4,294,968 seconds with what was begun */
    run(&s, 1, 999);
    run(&s, -32768, 4294967295u);
    CHECK(mean_of(&s), -32768);
    CHECK(s.minute.begun_ms, 294);
    CHECK(s.minute.begun_total, -32768 * 294);
    run(&s, 32767, 4294967295u); /* 294 + 4,294,967,295 ms are 4,294,967 s and 589 ms */
    CHECK(mean_of(&s), 32767);
    CHECK(s.minute.begun_ms, 589);
    CHECK(s.minute.begun_total, 32767 * 589);
}

/* Four samples a second, -1,000 mA for a minute, then none: 15 s later the old sixty samples had lost the minute. */
static void the_mechanic(void)
{
    struct sb2_state s = made(usual);
    for (int i = 0; i < 240; i++)
        run(&s, -1000, 250);
    CHECK(mean_of(&s), -1000);
    for (int i = 0; i < 60; i++)
        run(&s, 0, 250);
    CHECK(mean_of(&s), -750); /* 45 s of -1,000 and 15 of 0 */
    run(&s, 0, 999);
    CHECK(mean_of(&s), -750);
    run(&s, 0, 1);
    CHECK(mean_of(&s), -733); /* 44,000 ÷ 60 */
}

/* ---- request R-4 */

/* A pack of 100 mAh, 360,000,000 mA·ms, that is empty from 12,000 mV down; so many mAh are left. */
static struct sb2_set_up of_hundred(uint16_t left, uint16_t cycles)
{
    struct sb2_set_up in = usual;
    in.design_capacity = in.full_capacity = 100;
    in.remaining_capacity = left;
    in.cycle_count = cycles;
    in.discharge_limit = 12000;
    return in;
}

static struct sb2_state hundred(uint16_t left, uint16_t cycles)
{
    return made(of_hundred(left, cycles));
}

/* A current that counted for so many ms, measured just below the limit. */
static size_t low(struct sb2_state *s, int16_t current, uint32_t ms, uint8_t sent[SB2_BROADCAST_ROOM])
{
    return sample(s, 11999, current, 0, s->latest.counter + ms, sent);
}

#define COUNTS(cycles, toward)                 \
    do {                                       \
        CHECK(word(&s, 0x17), cycles);         \
        CHECK(s.tank.toward_cycle, toward);    \
    } while (0)
#define RUN(open, drawn)                       \
    do {                                       \
        CHECK(s.tank.run_open, open);          \
        CHECK(s.tank.run_drawn, drawn);        \
    } while (0)
#define LEARNED(full)                          \
    do {                                       \
        RUN(false, 0);                         \
        CHECK(word(&s, 0x10), full);           \
        CHECK(s.tank.charge, 0);               \
        CHECK(word(&s, 0x16) & 0x10, 0x10);    \
    } while (0)

static void cycles(void)
{
    /* one design capacity drawn from an empty pack: 359,999,000, then 999, then 1 mA·ms */
    struct sb2_state s = hundred(0, 7);
    COUNTS(7, 0);
    run(&s, -1000, 359999);
    COUNTS(7, 359999000);
    run(&s, -999, 1);
    COUNTS(7, 359999999);
    run(&s, -1, 1);
    COUNTS(8, 0);
    CHECK(s.tank.charge, 0);
    /* charge put in draws nothing, nor does rest */
    run(&s, 32767, 4294967295u);
    run(&s, 0, 4294967295u);
    COUNTS(8, 0);
    CHECK(word(&s, 0x0F), 100);
    /* 400,000,000 are one cycle and 40,000,000; 320,000,000 more make the next */
    run(&s, -1000, 400000);
    COUNTS(9, 40000000);
    run(&s, 1000, 5000);
    COUNTS(9, 40000000);
    run(&s, -1000, 319999);
    COUNTS(9, 359999000);
    run(&s, -1000, 1);
    COUNTS(10, 0);
    run(&s, -2000, 360000); /* two design capacities at once */
    COUNTS(12, 0);
    run(&s, -2000, 0);
    COUNTS(12, 0);
}

/* 32,768 mA for 4,294,967,295 ms are 140,737,488,322,560 mA·ms. */
static void many_cycles(void)
{
    struct sb2_state s = made(usual);
    struct sb2_set_up in = usual;
    run(&s, -32768, 4294967295u); /* 9,773 x 14,400,000,000 are 140,731,200,000,000 */
    COUNTS(9773, 6288322560);
    run(&s, -32768, 4294967295u); /* twice the rest is still less than one */
    COUNTS(19546, 12576645120);
    run(&s, -32768, 4294967295u); /* 18,864,967,680 are one more and 4,464,967,680 */
    COUNTS(29320, 4464967680);
    in.design_capacity = 65535; /* 596 x 235,926,000,000 are 140,611,896,000,000 */
    s = made(in);
    run(&s, -32768, 4294967295u);
    COUNTS(596, 125592322560);
    in.design_capacity = 1; /* 39,093,746 x 3,600,000 are 140,737,485,600,000 */
    s = made(in);
    run(&s, -32768, 4294967295u);
    COUNTS(65535, 2722560);
}

static void last_cycle(void)
{
    struct sb2_state s = hundred(50, 65534);
    run(&s, -1000, 359999);
    COUNTS(65534, 359999000);
    run(&s, -1000, 1);
    COUNTS(65535, 0);
    run(&s, -1000, 450000); /* 450,000,000 are one and 90,000,000 */
    COUNTS(65535, 90000000);
    run(&s, -1000, 269999);
    COUNTS(65535, 359999000);
    run(&s, -1000, 1);
    COUNTS(65535, 0);
    s = hundred(50, 65535);
    run(&s, -1, 1);
    COUNTS(65535, 1);
    s = hundred(50, 65533); /* three at once */
    run(&s, -3000, 360000);
    COUNTS(65535, 0);
}

static void runs_open_and_end(void)
{
    struct sb2_state s = hundred(99, 0);
    RUN(false, 0);
    run(&s, -1000, 3600);
    RUN(false, 0);
    run(&s, 1000, 7199); /* 98 mAh and 7,199,000 of the 7,200,000 mA·ms that are missing */
    RUN(false, 0);
    run(&s, 1000, 1);
    RUN(true, 0);
    s = hundred(100, 0);
    RUN(true, 0);
    run(&s, -1000, 36000); /* 10 mAh; rest counts nothing, at a low voltage neither */
    RUN(true, 36000000);
    run(&s, 0, 36000);
    low(&s, 0, 36000, NULL);
    RUN(true, 36000000);
    run(&s, 1000, 36000); /* full again: the count starts again */
    RUN(true, 0);
    run(&s, -1000, 36000);
    RUN(true, 36000000);
    run(&s, 32767, 36000); /* more than fits */
    RUN(true, 0);
    run(&s, -1000, 36000);
    run(&s, 1000, 35999); /* 1,000 mA·ms below full */
    RUN(false, 0);
    run(&s, -1000, 3600);
    RUN(false, 0);
    low(&s, -1000, 3600, NULL); /* 35,999,000 back of 36,000,000 and 7,200,000 drawn: 352,799,000 left */
    RUN(false, 0);
    CHECK(word(&s, 0x10), 100);
    CHECK(s.tank.charge, 352799000);
    CHECK(word(&s, 0x16) & 0x10, 0);
    s = hundred(100, 0); /* a charging sample of no time ends it too */
    run(&s, -1, 1);
    RUN(true, 1);
    run(&s, 1, 0);
    RUN(false, 0);
}

/* 36,000,000 twice and 35,999,000 mA·ms are 29 mAh and 3,599,000. */
static void run_closes(void)
{
    uint8_t sent[SB2_BROADCAST_ROOM];
    struct sb2_state s = made(in_plain(of_hundred(100, 3)));
    CHECK(put(&s, 0x01, 33), 0);
    run(&s, -1000, 36000);
    sample(&s, 12000, -1000, 0, 72000, NULL); /* at the limit isn't below it */
    RUN(true, 72000000);
    CHECK(word(&s, 0x16) & 0x0810, 0);
    CHECK(low(&s, -1000, 35999, sent), 3);
    /* bits 11, 9 (0 is below 33), 8 (0 minutes), 7, 6 and 4, and the low four */
    CHECK(memcmp(sent, "\x10\x16\xDF\x0B\x12\x14\x00\x00\x12\x15\x00\x00", 12), 0);
    LEARNED(29);
    COUNTS(3, 107999000);
    CHECK(word(&s, 0x0F), 0);
    CHECK(word(&s, 0x0D), 0);
    CHECK(word(&s, 0x18), 100);
    CHECK(word(&s, 0x01), 33); /* what the host wrote stays */
    low(&s, -1000, 36000, NULL); /* none is open */
    LEARNED(29);
    COUNTS(3, 143999000);
    /* 29 mAh are 104,400,000 mA·ms; a fifth of them are 20,880,000 */
    run(&s, 1000, 20879);
    CHECK(word(&s, 0x16) & 0x10, 0x10);
    run(&s, 1000, 1);
    CHECK(word(&s, 0x16) & 0x10, 0);
    CHECK(word(&s, 0x0D), 20);
    run(&s, 1000, 83519);
    RUN(false, 0);
    run(&s, 1000, 1);
    RUN(true, 0);
    CHECK(word(&s, 0x0D), 100);
    CHECK(word(&s, 0x0E), 29);
    CHECK(word(&s, 0x16) & 0x20, 0x20);
    low(&s, -2000, 36000, NULL); /* at the first sample after full */
    LEARNED(20);
    COUNTS(3, 215999000);
    s = hundred(40, 0); /* drawn since full, not since set-up: 10 mAh before, 60 and more put in, 20 drawn */
    run(&s, -1000, 36000);
    run(&s, 1000, 360000);
    run(&s, -1000, 36000);
    low(&s, -1000, 36000, NULL);
    LEARNED(20);
    COUNTS(0, 108000000);
    s = hundred(100, 0); /* the closing sample makes a cycle too */
    low(&s, -1000, 360000, NULL);
    LEARNED(100);
    COUNTS(1, 0);
}

/* With TERMINATE_DISCHARGE and no time the pack is still full: nothing closes. */
static void run_at_full(void)
{
    struct sb2_state s = hundred(100, 0);
    low(&s, -1000, 0, NULL);
    CHECK(word(&s, 0x16) & 0x0830, 0x0820);
    RUN(true, 0);
    CHECK(word(&s, 0x10), 100);
    CHECK(word(&s, 0x0F), 100);
    run(&s, -1000, 3600);
    low(&s, -1000, 0, NULL); /* below full it closes, its own count 0 */
    LEARNED(1);
}

static void learned_least(void)
{
    struct sb2_state s = hundred(100, 0);
    low(&s, -1, 1, NULL);
    LEARNED(1);
    s = hundred(100, 0);
    low(&s, -1, 3599999, NULL);
    LEARNED(1);
    s = hundred(100, 0);
    low(&s, -1, 7199999, NULL);
    LEARNED(1);
    s = hundred(100, 0);
    low(&s, -1, 7200000, NULL);
    LEARNED(2);
}

/* 30,000 x 7,864,199 and 29,999 mA·ms are one less than 65,535 mAh, 235,926,000,000 mA·ms. */
static void learned_most(void)
{
    struct sb2_state s = hundred(100, 0);
    run(&s, -30000, 7864199);
    RUN(true, 235925970000);
    run(&s, -29999, 1);
    RUN(true, 235925999999);
    struct sb2_state one_less = s;
    low(&one_less, -1, 0, NULL);
    CHECK(word(&one_less, 0x10), 65534);
    struct sb2_state at_once = s;
    low(&at_once, -1, 1, NULL);
    CHECK(word(&at_once, 0x10), 65535);
    run(&s, -1, 1);
    RUN(true, 235926000000);
    run(&s, -1, 1);
    RUN(true, 235926000000);
    run(&s, -32768, 4294967295u);
    RUN(true, 235926000000);
    low(&s, -32768, 4294967295u, NULL);
    LEARNED(65535);
    s = hundred(100, 0);
    low(&s, -32768, 4294967295u, NULL);
    LEARNED(65535);
}

/* 150 mAh come out of a pack of 100; filled again it has 150 percent of its design. */
static void learned_above_design(void)
{
    struct sb2_state s = hundred(100, 0);
    run(&s, -1000, 539999);
    CHECK(s.tank.charge, 0);
    CHECK(word(&s, 0x16) & 0x10, 0x10);
    low(&s, -1000, 1, NULL);
    LEARNED(150);
    COUNTS(1, 180000000);
    run(&s, 1000, 540000);
    RUN(true, 0);
    CHECK(word(&s, 0x0F), 150);
    CHECK(word(&s, 0x0E), 150);
    CHECK(word(&s, 0x0D), 100);
    CHECK(word(&s, 0x18), 100);
    CHECK(put(&s, 0x03, 0x8000), 0); /* in 10 mWh: 150 x 14,800 ÷ 10,000 */
    CHECK(word(&s, 0x10), 222);
    /* 65,535 mAh of a pack of 1: the word's cap */
    struct sb2_set_up in = usual;
    in.design_capacity = in.full_capacity = in.remaining_capacity = 1;
    in.discharge_limit = 12000;
    s = made(in);
    low(&s, -32768, 4294967295u, NULL);
    LEARNED(65535);
    run(&s, 32767, 4294967295u);
    CHECK(word(&s, 0x0E), 65535);
    CHECK(word(&s, 0x0D), 100);
}

/* ---- request R-5 */

/* What a sample sends, in room of 20 bytes with more behind it. */
static void sends_at(int line, struct sb2_state *state, struct sb2_sample taken, struct sb2_bytes wanted)
{
    uint8_t room[SB2_BROADCAST_ROOM + 4];
    size_t length;
    memset(room, 0xA5, sizeof room);
    check_at(line, "answer", sb2_take_sample(state, &taken, room, SB2_BROADCAST_ROOM, &length), 0);
    check_at(line, "length", (long long)length, (long long)wanted.length);
    check_at(line, "bytes", memcmp(room, wanted.at, wanted.length), 0);
    for (size_t i = length; i < sizeof room; i++)
        check_at(line, "behind them", room[i], 0xA5);
}
#define SENDS(current, temperature, counter, ...) \
    sends_at(__LINE__, &s, (struct sb2_sample){14800, current, temperature, counter}, BYTES(__VA_ARGS__))

/* 399 mAh are below RemainingCapacityAlarm; any temperature above 0 is hot. */
static struct sb2_set_up alarming(void)
{
    struct sb2_set_up in = usual;
    in.remaining_capacity = 399;
    in.charging_current = 0x1234;
    in.charging_voltage = 0x5678;
    return in;
}

/* One to four messages. The PECs are of a long division done elsewhere, bit by bit, over each message's four bytes. */
static void messages_with_pec(void)
{
    struct sb2_state s = made(alarming());
    SENDS(0, 0, 0, 0x10, 0x16, 0xCF, 0x02, 0x98);
    CHECK(sample(&s, 14800, 0, 0, 9999, NULL), 0);
    SENDS(0, 0, 10000, 0x10, 0x16, 0xCF, 0x02, 0x98);
    SENDS(0, 1, 20000, 0x10, 0x16, 0xCF, 0x12, 0xE8, 0x12, 0x16, 0xCF, 0x12, 0xC4);
    SENDS(0, 0, 30000, 0x10, 0x16, 0xCF, 0x02, 0x98, 0x12, 0x14, 0x34, 0x12, 0x91, 0x12, 0x15, 0x78, 0x56, 0x86);
    SENDS(1, 1, 60000, 0x10, 0x16, 0x8F, 0x52, 0x74, 0x12, 0x16, 0x8F, 0x52, 0x58, 0x12, 0x14, 0x00, 0x00, 0x42, 0x12,
          0x15, 0x78, 0x56, 0x86);
    CHECK(put(&s, 0x03, 0x2000), 0); /* the charger's words alone */
    SENDS(0, 1, 90000, 0x12, 0x14, 0x34, 0x12, 0x91, 0x12, 0x15, 0x78, 0x56, 0x86);
}

/* The same messages at the same times. */
static void messages_in_plain(void)
{
    struct sb2_state s = made(in_plain(alarming()));
    SENDS(0, 0, 0, 0x10, 0x16, 0xCF, 0x02);
    CHECK(sample(&s, 14800, 0, 0, 9999, NULL), 0);
    SENDS(0, 0, 10000, 0x10, 0x16, 0xCF, 0x02);
    SENDS(0, 1, 20000, 0x10, 0x16, 0xCF, 0x12, 0x12, 0x16, 0xCF, 0x12);
    SENDS(0, 0, 30000, 0x10, 0x16, 0xCF, 0x02, 0x12, 0x14, 0x34, 0x12, 0x12, 0x15, 0x78, 0x56);
    SENDS(1, 1, 60000, 0x10, 0x16, 0x8F, 0x52, 0x12, 0x16, 0x8F, 0x52, 0x12, 0x14, 0x00, 0x00, 0x12, 0x15, 0x78, 0x56);
    CHECK(put(&s, 0x03, 0x2000), 0);
    SENDS(0, 1, 90000, 0x12, 0x14, 0x34, 0x12, 0x12, 0x15, 0x78, 0x56);
}

/* Four messages due, in every room: 2 under 20 bytes, in plain under 16, and 1 before it. */
static void rooms_for_messages(void)
{
    static const uint8_t four[20] = {0x10, 0x16, 0x8F, 0x52, 0x74, 0x12, 0x16, 0x8F, 0x52, 0x58,
                                     0x12, 0x14, 0x00, 0x00, 0x42, 0x12, 0x15, 0x78, 0x56, 0x86};
    static const uint8_t four_in_plain[16] = {0x10, 0x16, 0x8F, 0x52, 0x12, 0x16, 0x8F, 0x52,
                                              0x12, 0x14, 0x00, 0x00, 0x12, 0x15, 0x78, 0x56};
    const struct sb2_sample hot = {14800, 1, 1, 30000};
    for (unsigned plain = 0; plain < 2; plain++)
        for (size_t room_length = 0; room_length <= 24; room_length++) {
            struct sb2_state s = made(plain ? in_plain(alarming()) : alarming()), before = s, broken = s;
            const size_t least = plain ? 16 : 20, sent = room_length < least ? 0 : least;
            uint8_t room[32];
            size_t length;
            memset(room, 0xA5, sizeof room);
            broken.error_code = 8;
            CHECK(sb2_take_sample(&broken, &hot, room, room_length, &length), 1);
            CHECK(length, 0);
            CHECK(room[0], 0xA5);
            CHECK(sb2_take_sample(&s, &hot, room, room_length, &length), room_length < least ? 2 : 0);
            CHECK(length, sent);
            CHECK(memcmp(room, plain ? four_in_plain : four, sent), 0);
            for (size_t i = sent; i < sizeof room; i++)
                CHECK(room[i], 0xA5);
            CHECK(sb2_same(&before, &s), room_length < least);
        }
}

/* No message with one to three bits turned is right; turned as x^8 + x^2 + x + 1 has them, four, it is. */
static void turned_messages(void)
{
    static const uint8_t messages[2][5] = {{0x10, 0x16, 0xCF, 0x02, 0x98}, {0x12, 0x15, 0x78, 0x56, 0x86}};
    unsigned right = 0, tried = 0;
    bool accepted;
    for (unsigned n = 0; n < 2 * 40 * 40 * 40; n++) {
        unsigned i = n % 40, j = n / 40 % 40, k = n / 1600 % 40;
        uint8_t turned[5];
        if (j < i || k < j || (i == j && j < k)) /* i = j = k turns one bit, j = k two */
            continue;
        memcpy(turned, messages[n / 64000], 5);
        turned[i / 8] ^= (uint8_t)(1u << i % 8);
        if (j != i)
            turned[j / 8] ^= (uint8_t)(1u << j % 8);
        if (k != j)
            turned[k / 8] ^= (uint8_t)(1u << k % 8);
        CHECK(sb2_check_exchange(bytes(turned, 5), &accepted), 0);
        right += accepted;
        tried++;
    }
    CHECK(tried, 2 * (40 + 780 + 9880));
    CHECK(right, 0);
    CHECK(sb2_check_exchange(BYTES(0x10, 0x16, 0xCF, 0x02 ^ 0x01, 0x98 ^ 0x07), &accepted), 0);
    CHECK(accepted, true);
}

/* ---- document 01, sheets, captures and keys */

static void sheets(void)
{
    uint8_t a[SB2_SHEET_ROOM], b[SB2_SHEET_ROOM], full[33];
    size_t a_length, b_length, length;
    struct sb2_block block;
    memset(full, 'x', sizeof full);
    struct sb2_body factory[4] = {
        {true, text("MAKER")}, {true, bytes(full, 32)}, {false, nothing}, {true, text("data")}};
    struct sb2_body service[4] = {{false, nothing}, {true, nothing}, {false, nothing}, {true, text("new")}};
    CHECK(sb2_sheet_write(factory, a, sizeof a, &a_length), 0);
    CHECK(a_length, 13 + 5 + 32 + 4);
    CHECK(sb2_sheet_write(service, b, sizeof b, &b_length), 0);
    CHECK(b_length, 9 + 3);
    CHECK(memcmp(b, "\x02\x21\x00\x09\x00\x23\x03\x09\x00new", 12), 0);
    CHECK(sb2_sheet_good(bytes(a, a_length)), true);
    CHECK(sb2_sheet_good(bytes(b, b_length)), true);
    CHECK(sb2_sheet_good(NO_NAMES), true);
    CHECK(sb2_sheet_good(nothing), false);
    CHECK(sb2_sheet_good(BYTES(0, 0)), false);
    CHECK(sb2_sheet_good(bytes(a, a_length - 1)), false);

    CHECK(sb2_sheet_block(bytes(b, b_length), bytes(a, a_length), 0x20, &block), 0);
    CHECK(block.in_service, false);
    CHECK(block.part.offset, 13);
    CHECK(block.part.length, 5);
    CHECK(sb2_sheet_block(bytes(b, b_length), bytes(a, a_length), 0x21, &block), 0);
    CHECK(block.in_service, true); /* listed with no bytes, so it counts */
    CHECK(block.part.length, 0);
    CHECK(sb2_sheet_block(bytes(b, b_length), bytes(a, a_length), 0x22, &block), 0);
    CHECK(block.in_service, false);
    CHECK(block.part.length, 0);
    CHECK(sb2_sheet_block(bytes(b, b_length), bytes(a, a_length), 0x23, &block), 0);
    CHECK(block.in_service, true);
    CHECK(block.part.offset, 9);
    CHECK(sb2_sheet_block(bytes(b, b_length - 1), bytes(a, a_length), 0x20, &block), 9);
    CHECK(block.part.length, 0);

    struct sb2_body most[4] = {
        {true, bytes(full, 32)}, {true, bytes(full, 32)}, {true, bytes(full, 32)}, {true, bytes(full, 32)}};
    CHECK(sb2_sheet_write(most, a, 145, &length), 0);
    CHECK(length, 145);
    CHECK(sb2_sheet_good(bytes(a, 145)), true);
    CHECK(sb2_sheet_write(most, a, 144, &length), 12);
    CHECK(length, 0);
    most[2].bytes = bytes(full, 33);
    CHECK(sb2_sheet_write(most, a, 145, &length), 12);
    most[2].given = false;
    CHECK(sb2_sheet_write(most, a, 145, &length), 0);

    /* rows that break the form */
    uint8_t long_body[5 + 33] = {1, 0x20, 33, 5, 0};
    CHECK(sb2_sheet_good(bytes(long_body, 5 + 33)), false);
    long_body[2] = 32;
    CHECK(sb2_sheet_good(bytes(long_body, 5 + 32)), true);
    CHECK(sb2_sheet_good(BYTES(1, 0x20, 1, 5, 0, 'x')), true);
    CHECK(sb2_sheet_good(BYTES(1, 0x24, 1, 5, 0, 'x')), false);
    CHECK(sb2_sheet_good(BYTES(1, 0x1F, 1, 5, 0, 'x')), false);
    CHECK(sb2_sheet_good(BYTES(1, 0x20, 1, 6, 0, 'x')), false);
    CHECK(sb2_sheet_good(BYTES(1, 0x20, 1, 5, 1, 'x')), false);
    CHECK(sb2_sheet_good(BYTES(2, 0x20, 0, 9, 0, 0x20, 0, 9, 0)), false);
    CHECK(sb2_sheet_good(BYTES(2, 0x21, 0, 9, 0, 0x20, 0, 9, 0)), false);
    CHECK(sb2_sheet_good(BYTES(2, 0x20, 0, 9, 0, 0x21, 0, 9, 0)), true);
    CHECK(sb2_sheet_good(BYTES(5, 0x20, 0, 21, 0, 0x21, 0, 21, 0, 0x22, 0, 21, 0, 0x23, 0, 21, 0, 0x24, 0, 21, 0)), false);
}

static void captures(void)
{
    struct sb2_walk walk;
    struct sb2_row row;
    CHECK(sb2_capture_test(nothing), 14);
    CHECK(sb2_capture_test(BYTES(0)), 0);
    CHECK(sb2_capture_test(BYTES(0, 0)), 14);
    CHECK(sb2_capture_test(BYTES(1)), 14);
    CHECK(sb2_capture_test(BYTES(1, 0)), 14);
    CHECK(sb2_capture_test(BYTES(1, 0, 0)), 0);
    CHECK(sb2_capture_test(BYTES(1, 2, 0)), 14);
    CHECK(sb2_capture_test(BYTES(1, 1, 1)), 14);
    CHECK(sb2_capture_test(BYTES(1, 1, 1, 7)), 0);
    CHECK(sb2_capture_test(BYTES(1, 1, 1, 7, 7)), 14);
    uint8_t longest[SB2_CAPTURE_MOST];
    memset(longest, 0, sizeof longest);
    longest[0] = 255;
    for (size_t i = 0; i < 255; i++)
        longest[2 + 2 * i] = 37;
    CHECK(sb2_capture_test(bytes(longest, sizeof longest)), 0);
    CHECK(sb2_capture_test(bytes(longest, sizeof longest - 1)), 14);
    longest[2] = 38;
    CHECK(sb2_capture_test(bytes(longest, sizeof longest)), 14);
    uint8_t long_row[3 + 38] = {1, 0, 38};
    CHECK(sb2_capture_test(bytes(long_row, 3 + 38)), 14);
    long_row[2] = 37;
    CHECK(sb2_capture_test(bytes(long_row, 3 + 37)), 0);
    CHECK(sb2_walk_begin(nothing, &walk), 14);
    CHECK(sb2_walk_next(&walk, &row), false);
    CHECK(sb2_walk_test(&walk), 14);
    CHECK(sb2_walk_begin(BYTES(0), &walk), 0);
    CHECK(sb2_walk_next(&walk, &row), false);
    CHECK(sb2_walk_test(&walk), 0);
}

/* A step from a row and a place: 14, 0 where it has no row, else 256 and the next place. */
static size_t step(struct sb2_bytes capture, size_t at_row, size_t place)
{
    struct sb2_walk walk = {capture, at_row, place};
    struct sb2_row row;
    int answer = sb2_walk_test(&walk);
    bool found = sb2_walk_next(&walk, &row);
    return answer != 0 ? (size_t)answer : found ? 256 + walk.place : 0;
}

static void steps(void)
{
    CHECK(step(BYTES(2, 0, 1, 1, 2, 7, 8, 9), 0, 5), 256 + 6);
    CHECK(step(BYTES(2, 0, 1, 1, 2, 7, 8, 9), 1, 6), 256 + 8);
    CHECK(step(BYTES(2, 0, 1, 1, 2, 7, 8, 9), 1, 5), 256 + 7);
    CHECK(step(BYTES(2, 0, 1, 1, 2, 7, 8, 9), 2, 8), 0);
    CHECK(step(BYTES(2, 0, 1, 1, 2, 7, 8, 9), (size_t)1 << 63, 5), 0);
    CHECK(step(BYTES(2, 0, 1, 1, 2, 7, 8, 9), 1, 7), 0);
    CHECK(step(BYTES(2, 0, 1, 1, 2, 7, 8, 9), 1, SIZE_MAX), 0);
    for (size_t in_table = 1; in_table < 5; in_table++)
        CHECK(step(BYTES(2, 0, 1, 1, 2, 7, 8, 9), 0, in_table), 0);
    for (size_t row = 0; row < 4; row++)
        CHECK(step(BYTES(2, 0, 1, 1, 2, 7, 8, 9), row, 0), 14);
    /* no captures: too few bytes for the table, for the last body; a mark of 2, a length of 38 */
    CHECK(step(nothing, 0, 1), 14);
    CHECK(step(BYTES(2, 0, 1, 1), 0, 5), 14);
    CHECK(step(BYTES(2, 0, 1, 1, 2, 7, 8), 1, 6), 0);
    CHECK(step(BYTES(2, 0, 1, 2, 2, 7, 8, 9), 0, 5), 256 + 6);
    CHECK(step(BYTES(2, 0, 1, 2, 2, 7, 8, 9), 1, 6), 14);
    uint8_t longer[SB2_CAPTURE_MOST + 1] = {255, 0, 37, 0, 38};
    CHECK(step(bytes(longer, SB2_CAPTURE_MOST), 0, 511), 256 + 548);
    CHECK(step(bytes(longer, SB2_CAPTURE_MOST), 1, 548), 14);
    CHECK(step(bytes(longer, SB2_CAPTURE_MOST), 255, 548), 0);
    CHECK(step(bytes(longer, SB2_CAPTURE_MOST + 1), 0, 511), 14);
    CHECK(step(bytes(longer, SB2_CAPTURE_MOST + 1), 255, 548), 14);
}

static void keys(void)
{
    uint8_t room[SB2_KEY_ROOM], name[32], names[33];
    size_t length;
    struct sb2_key parts;
    CHECK(sb2_key_read(text("A\\/B/P7/526f/0011"), &parts), 0);
    CHECK(parts.maker.offset, 0);
    CHECK(parts.maker.length, 4);
    CHECK(parts.device.offset, 5);
    CHECK(parts.device.length, 2);
    CHECK(parts.date, 0x526F);
    CHECK(parts.serial, 17);
    CHECK(sb2_key_unescape(text("A\\/B"), name, 32, &length), 0);
    CHECK(length, 3);
    CHECK(memcmp(name, "A/B", 3), 0);
    CHECK(sb2_key_unescape(text("A/B"), name, 32, &length), 13);
    CHECK(sb2_key_unescape(text("A\\B"), name, 32, &length), 13);
    CHECK(sb2_key_unescape(text("A\\"), name, 32, &length), 13);
    CHECK(sb2_key_unescape(text("A\\/B"), name, 2, &length), 12);
    CHECK(sb2_key_unescape(text("A\\"), name, 0, &length), 13);
    CHECK(sb2_key_read(text("//0000/0000"), &parts), 0);
    CHECK(sb2_key_read(text("A\\xB/P7/526f/0011"), &parts), 13);
    CHECK(parts.date, 0);
    CHECK(sb2_key_read(text("A/P7/526F/0011"), &parts), 13);
    CHECK(sb2_key_read(text("A/P7/526f/0011/"), &parts), 13);
    CHECK(sb2_key_read(text("A/P7/526f/001"), &parts), 13);
    CHECK(sb2_key_read(text("A/P7/526f"), &parts), 13);
    CHECK(sb2_key_read(text("A/P7\\/526f/0011"), &parts), 13);
    CHECK(sb2_key_read(text("A"), &parts), 13);
    CHECK(sb2_key_read(nothing, &parts), 13);

    /* the request's two packs */
    uint8_t other[SB2_KEY_ROOM];
    size_t other_length;
    CHECK(sb2_key_write(text("HAZEL"), text("K-12"), 1, 2, room, sizeof room, &length), 0);
    CHECK(sb2_key_write(text("HAZEL-K"), text("12"), 1, 2, other, sizeof other, &other_length), 0);
    CHECK(length == other_length && memcmp(room, other, length) == 0, false);

    /* the longest key, and one byte more */
    memset(names, '\\', sizeof names);
    CHECK(sb2_key_write(bytes(names, 32), bytes(names, 32), 0xFFFF, 0xABCD, room, 139, &length), 0);
    CHECK(length, 139);
    CHECK(sb2_key_read(bytes(room, 139), &parts), 0);
    CHECK(parts.maker.length, 64);
    CHECK(parts.serial, 0xABCD);
    CHECK(sb2_key_unescape(bytes(room, 64), name, 32, &length), 0);
    CHECK(length, 32);
    CHECK(memcmp(name, names, 32), 0);
    room[64] = 'm'; /* a 33rd plain byte */
    CHECK(sb2_key_unescape(bytes(room, 65), other, sizeof other, &length), 13);
    memset(other, 'm', 33);
    CHECK(sb2_key_unescape(bytes(other, 32), room, 32, &length), 0);
    CHECK(length, 32);
    CHECK(sb2_key_unescape(bytes(other, 32), room, 31, &length), 12);
    CHECK(sb2_key_unescape(bytes(other, 33), room, sizeof room, &length), 13);
    CHECK(sb2_key_write(bytes(names, 32), bytes(names, 32), 0, 0, room, 138, &length), 12);
    CHECK(sb2_key_write(bytes(names, 33), nothing, 0, 0, room, 139, &length), 12);
    CHECK(sb2_key_write(nothing, bytes(names, 33), 0, 0, room, 139, &length), 12);
    CHECK(length, 0);
    CHECK(sb2_key_read(text("123456789012345678901234567890123/P/0000/0000"), &parts), 13);
    CHECK(sb2_key_read(text("12345678901234567890123456789012/P/0000/0000"), &parts), 0);
}

/* ---- document 01's promises on long random work */

static uint64_t chance = 1;

static uint32_t draw(void)
{
    chance = chance * UINT64_C(6364136223846793005) + UINT64_C(1442695040888963407);
    return (uint32_t)(chance >> 32);
}

/* A word, often at an edge. */
static uint16_t draw_word(void)
{
    static const uint16_t edges[] = {0, 1, 2, 10, 0x16, 100, 0x7FFF, 0x8000, 0xE000, 0xFFFE, 0xFFFF};
    return draw() % 3 ? (uint16_t)draw() : edges[draw() % (sizeof edges / sizeof *edges)];
}

static struct sb2_sample draw_sample(uint32_t counter)
{
    static const uint32_t steps[] = {0, 1, 999, 1000, 1001, 9999, 10000, 30000, 60000, 3600000, 0xFFFFFFFF};
    struct sb2_sample made = {draw_word(), 0, draw_word(), 0};
    uint16_t current = draw_word();
    memcpy(&made.current, &current, sizeof current);
    made.counter = counter + (draw() % 4 ? steps[draw() % (sizeof steps / sizeof *steps)] : draw());
    return made;
}

enum { RUN_MS = 400000 };

/* The rule once more, from all samples since set-up: the charge that flowed in each millisecond, summed from the start.
 * Gives what AverageCurrent has to show at a time. */
static int by_sums(const int64_t *flowed, uint32_t now, int16_t latest)
{
    uint32_t complete = now / 1000, kept = complete < 60 ? complete : 60;
    if (kept == 0)
        return latest;
    return (int)((flowed[1000 * complete] - flowed[1000 * (complete - kept)]) / (1000 * (int64_t)kept));
}

static void minutes_by_sums(void)
{
    static int64_t flowed[RUN_MS + 1];
    static const uint32_t steps[] = {0, 1, 249, 250, 251, 333, 999, 1000, 1001, 1999, 2000, 59999, 60000, 61000, 61999};
    unsigned wrong = 0;
    for (unsigned round = 0; round < 300; round++) {
        uint32_t now = 0, usual_step = steps[1 + round % 10];
        struct sb2_state s = made(usual);
        for (;;) {
            struct sb2_sample taken = draw_sample(0);
            uint32_t step = draw() % 8 ? usual_step : steps[draw() % (sizeof steps / sizeof *steps)];
            uint8_t room[SB2_BROADCAST_ROOM];
            size_t length;
            if (step > RUN_MS - now || (step < 10 && draw() % 1000 == 0))
                break;
            for (uint32_t i = 0; i < step; i++, now++)
                flowed[now + 1] = flowed[now] + taken.current;
            taken.counter = now;
            wrong += sb2_take_sample(&s, &taken, room, sizeof room, &length) != 0;
            wrong += mean_of(&s) != by_sums(flowed, now, taken.current);
            wrong += s.minute.begun_total != flowed[now] - flowed[now - now % 1000];
        }
    }
    CHECK(wrong, 0);
}

/* Request R-4 once more, from all samples since set-up. */
struct taken {
    int64_t drawn;
    bool full, charged, terminate; /* left full; current above 0; TERMINATE_DISCHARGE */
};

/* What a run has drawn by the newest sample, in mA·ms; −1 where none was open before it, for the pack was never full, or
 * a sample since then charged or closed it. Place 0 is set-up. */
static int64_t by_history(const struct taken *history, size_t newest)
{
    size_t last = newest;
    int64_t drawn = 0;
    while (!history[last].full)
        if (last-- == 0)
            return -1;
    for (size_t i = last + 1; i < newest; i++)
        if (history[i].charged || history[i].terminate)
            return -1;
    for (size_t i = last + 1; i <= newest; i++)
        drawn += history[i].drawn;
    return drawn;
}

/* The messages of one sample from two packs, in plain and with PEC: the same four bytes, then a right fifth. */
static bool same_messages(const uint8_t *plain, size_t plain_length, const uint8_t *with_pec, size_t length)
{
    bool same = plain_length % 4 == 0 && length == plain_length / 4 * 5, accepted = false;
    for (size_t i = 0; same && i < plain_length / 4; i++) {
        same = memcmp(plain + 4 * i, with_pec + 5 * i, 4) == 0;
        same = same && sb2_check_exchange(bytes(with_pec + 5 * i, 5), &accepted) == 0 && accepted;
    }
    return same;
}

/* Two packs of one set-up but for the choice, with one history: they differ in it alone. */
static void either_choice(void)
{
    unsigned wrong = 0, sent[5] = {0};
    for (unsigned round = 0; round < 2000; round++) {
        struct sb2_set_up in = alarming();
        in.discharge_limit = draw_word();
        in.temperature_limit = draw_word();
        in.first = draw_sample(draw());
        struct sb2_state s = made(in), plain = made(in_plain(in));
        for (unsigned call = 0; call < 50; call++) {
            struct sb2_sample taken = draw_sample(s.latest.counter);
            uint8_t rooms[2][SB2_REPLY_ROOM];
            uint8_t mode[4] = {0x16, (uint8_t)(draw() % 6), (uint8_t)draw(), (uint8_t)draw()};
            size_t lengths[2];
            wrong += sb2_take_sample(&s, &taken, rooms[0], SB2_BROADCAST_ROOM, &lengths[0]) != 0;
            wrong += sb2_take_sample(&plain, &taken, rooms[1], SB2_BROADCAST_ROOM, &lengths[1]) != 0;
            wrong += !same_messages(rooms[1], lengths[1], rooms[0], lengths[0]);
            sent[lengths[0] / 5]++;
            if (draw() % 4 == 0)
                wrong += answer_of(&s, false, bytes(mode, 4)) != answer_of(&plain, false, bytes(mode, 4));
        }
        wrong += sb2_same(&s, &plain);
        plain.settings.plain = false;
        wrong += !sb2_same(&s, &plain);
    }
    CHECK(wrong, 0);
    for (unsigned messages = 0; messages <= 4; messages++)
        CHECK(sent[messages] > 100, true);
}

static void runs_by_history(void)
{
    enum { SAMPLES = 200 };
    static struct taken history[SAMPLES + 1];
    unsigned wrong = 0, closings = 0;
    for (unsigned round = 0; round < 2000; round++) {
        struct sb2_set_up in = usual;
        in.design_capacity = (uint16_t)(1 + draw() % 300);
        in.full_capacity = (uint16_t)(1 + draw() % 300);
        in.remaining_capacity = draw() % 2 ? in.full_capacity : in.full_capacity / 2;
        in.cycle_count = (uint16_t)(draw() % 4 ? draw() % 1000 : 65535 - draw() % 50);
        in.discharge_limit = 12000;
        struct sb2_state s = made(in);
        int64_t all = 0, one = in.design_capacity * INT64_C(3600000), most = INT64_C(65535) * 3600000;
        history[0] = (struct taken){0, in.remaining_capacity == in.full_capacity, false, false};
        for (size_t i = 1; i <= SAMPLES; i++) {
            int64_t full = s.tank.full_capacity * INT64_C(3600000), before = (int64_t)s.tank.charge;
            uint32_t ms = draw() % 20 ? draw() % 200000 : draw() % 50 ? 0 : draw();
            int16_t current = (int16_t)((int32_t)(draw() % 4001) - (draw() % 3 ? 3000 : 0));
            bool is_low = draw() % 16 == 0;
            int64_t left = before + current * (int64_t)ms;
            left = left < 0 ? 0 : left > full ? full : left;
            history[i] = (struct taken){current < 0 ? -current * (int64_t)ms : 0, left == full, current > 0,
                                        is_low && current < 0};
            all += history[i].drawn;
            sample(&s, is_low ? 11999 : 12000, current, 0, s.latest.counter + ms, NULL);
            int64_t cycles = in.cycle_count + all / one, drawn = by_history(history, i);
            bool closed = drawn >= 0 && !history[i].full && history[i].terminate;
            int64_t learned = drawn > most ? 65535 : drawn < 3600000 ? 1 : drawn / 3600000;
            wrong += s.tank.cycle_count != (cycles > 65535 ? 65535 : cycles);
            wrong += (int64_t)s.tank.toward_cycle != all % one;
            wrong += s.tank.full_capacity * INT64_C(3600000) != (closed ? learned * 3600000 : full);
            wrong += (int64_t)s.tank.charge != (closed ? 0 : left);
            wrong += s.tank.run_open != (drawn >= 0 && !closed && (history[i].full || !history[i].charged));
            wrong += (int64_t)s.tank.run_drawn != (!s.tank.run_open ? 0 : drawn > most ? most : drawn);
            closings += closed;
        }
    }
    CHECK(wrong, 0);
    CHECK(closings > 1000, true);
}

static void long_work(void)
{
    uint8_t sheet[SB2_SHEET_ROOM];
    size_t sheet_length;
    struct sb2_body bodies[4] = {{true, text("HAZEL")}, {false, nothing}, {true, nothing}, {true, text("K-12")}};
    CHECK(sb2_sheet_write(bodies, sheet, sizeof sheet, &sheet_length), 0);
    unsigned long broken = 0, unsound = 0;
    unsigned long answers[16] = {0};
    for (unsigned round = 0; round < 2000; round++) {
        struct sb2_state s;
        struct sb2_set_up in = {.design_capacity = draw_word(), .full_capacity = draw_word(),
                                .remaining_capacity = draw_word(), .design_voltage = draw_word(),
                                .charging_current = draw_word(), .charging_voltage = draw_word(),
                                .temperature_limit = draw_word(), .discharge_limit = draw_word(),
                                .plain = draw() % 2, .first = draw_sample(draw())};
        int answer = sb2_set_up(&s, &in);
        answers[answer]++;
        broken += sb2_sound(&s) != (answer == 0);
        if (draw() % 8 == 0) /* any state at all */
            s.minute.count = draw() % 70;
        if (draw() % 8 == 0)
            s.minute.begun_ms = draw() % 1100;
        if (draw() % 8 == 0)
            s.tank.toward_cycle = (uint64_t)draw() << draw() % 8;
        if (draw() % 8 == 0)
            s.tank.run_drawn = (uint64_t)draw() << draw() % 8;
        if (draw() % 8 == 0)
            s.tank.run_open = draw() % 2;
        if (draw() % 8 == 0)
            s.error_code = draw() % 12;
        if (draw() % 8 == 0)
            s.timers.hold = draw() % 70000;
        bool sound = sb2_sound(&s);
        unsound += !sound;
        for (unsigned call = 0; call < 100; call++) {
            uint8_t room[40], untouched[40];
            size_t length;
            struct sb2_state before = s;
            memset(room, 0x5A, sizeof room);
            memset(untouched, 0x5A, sizeof untouched);
            if (draw() % 2) {
                struct sb2_sample taken = draw_sample(s.latest.counter);
                size_t room_length = draw() % 8 ? 16 + draw() % 20 : draw() % 16;
                answer = sb2_take_sample(&s, &taken, room, room_length, &length);
                broken += sound && (answer == 2) != (room_length < (s.settings.plain ? 16u : 20u));
                broken += s.error_code != before.error_code;
            } else {
                uint8_t message[SB2_MESSAGE_MOST];
                size_t count = draw() % 8 ? 3 + draw() % 3 : draw() % 38;
                bool read = count == 3;
                for (size_t i = 0; i < count; i++)
                    message[i] = (uint8_t)draw();
                if (count > 0 && draw() % 8)
                    message[0] = 0x16;
                if (count > 1 && draw() % 8)
                    message[1] = (uint8_t)(read ? draw() % 0x24 : draw() % 6);
                if (read && draw() % 8)
                    message[2] = 0x17;
                if (count == 5 && draw() % 2)
                    message[4] = sb2_pec(bytes(message, 4));
                size_t room_length = draw() % 8 ? 34 + draw() % 4 : draw() % 34;
                answer = sb2_transact(&s, read, bytes(message, count), bytes(sheet, sheet_length - draw() % 9 / 8), NO_NAMES,
                                      room, room_length, &length);
                if (answer == 0 || answer == 10) {
                    uint8_t exchange[SB2_MESSAGE_MOST];
                    bool accepted = false;
                    memcpy(exchange, message, 3);
                    memcpy(exchange + 3, room, length);
                    if (read)
                        sb2_check_exchange(bytes(exchange, 3 + length), &accepted);
                    broken += read != accepted || read == (length == 0);
                }
            }
            answers[answer]++;
            broken += sb2_sound(&s) != sound || (answer == 1) == sound;
            broken += memcmp(room + length, untouched, sizeof room - length) != 0;
            if (answer != 0 && answer != 10) {
                broken += length != 0;
                before.error_code = answer <= 3 ? before.error_code : s.error_code;
                broken += !sb2_same(&before, &s);
            }
        }
    }
    CHECK(broken, 0);
    CHECK(unsound > 0, true);
    for (unsigned number = 0; number <= 11; number++)
        CHECK(answers[number] > 0, true);
}

/* A state goes into an area and comes back; other bytes are none. */
static void areas(void)
{
    uint8_t area[2 * SB2_AREA], again[SB2_AREA], room[SB2_REPLY_ROOM];
    struct sb2_set_up in = usual;
    struct sb2_state state, back;
    size_t length;
    in.first = (struct sb2_sample){14000, -32768, 2981, 0xFFFFFFF0u};
    CHECK(sb2_set_up(&state, &in), 0);
    sb2_area_store(&state, area);
    CHECK(sb2_area_load(bytes(area, SB2_AREA), &back), true);
    CHECK(sb2_same(&state, &back), true);
    CHECK(sb2_area_set_up(again, SB2_AREA, &in), 0);
    CHECK(memcmp(area, again, SB2_AREA), 0);
    /* the bytes at the places that the header names: current, counter, alarm timer */
    CHECK(area[SB2_LATEST_AT + 3], 0x80);
    CHECK(area[SB2_LATEST_AT + 6], 0xF0);
    CHECK(area[SB2_TIMERS_AT + 4] | area[SB2_TIMERS_AT + 5] << 8, 10000);
    for (size_t i = SB2_RECENT_AT; i < SB2_AREA; i++)
        CHECK(area[i], 0); /* no second, none begun */
    CHECK(SB2_AREA, 330);
    for (size_t size = 0; size <= sizeof area; size++)
        CHECK(sb2_area_load(bytes(area, size), &back), size == SB2_AREA);
    static const size_t flags[] = {SB2_SETTINGS_AT + 18, SB2_HOST_AT + 8, SB2_HOST_AT + 9, SB2_HOST_AT + 10,
                                   SB2_TANK_AT + 12, SB2_TANK_AT + 29};
    for (size_t i = 0; i < 6; i++) {
        uint8_t kept = area[flags[i]];
        area[flags[i]] = 2;
        CHECK(sb2_area_sound(bytes(area, SB2_AREA)), false);
        CHECK(sb2_area_transact(area, SB2_AREA, true, BYTES(0x16, 9, 0x17), NO_NAMES, NO_NAMES, room, 34, &length), 1);
        area[flags[i]] = kept;
    }
    in.full_capacity = 0;
    CHECK(sb2_area_set_up(again, SB2_AREA, &in), 11);
    CHECK(memcmp(area, again, SB2_AREA), 0);
}

/* The choice's byte: 0, or 1 in plain, behind the settings' words; over 1 the bytes are none, and stay. */
static void choice_in_area(void)
{
    enum { PLAIN_AT = SB2_SETTINGS_AT + 18 };
    uint8_t area[SB2_AREA], plain[SB2_AREA], kept[SB2_AREA], room[SB2_REPLY_ROOM];
    const struct sb2_set_up in = alarming(), asked = in_plain(in);
    const struct sb2_sample one = {14800, 0, 0, 1000};
    struct sb2_state state;
    size_t length;
    CHECK(PLAIN_AT, 19);
    CHECK(SB2_HOST_AT, 20);
    CHECK(sb2_area_set_up(area, sizeof area, &in), 0);
    CHECK(sb2_area_set_up(plain, sizeof plain, &asked), 0);
    CHECK(area[PLAIN_AT], 0);
    CHECK(plain[PLAIN_AT], 1);
    CHECK(sb2_area_load(bytes(plain, sizeof plain), &state) && state.settings.plain, true);
    plain[PLAIN_AT] = 0;
    CHECK(memcmp(area, plain, sizeof area), 0);
    CHECK(sb2_area_load(bytes(plain, sizeof plain), &state) && !state.settings.plain, true);
    for (unsigned flag = 2; flag <= 255; flag++) {
        area[PLAIN_AT] = (uint8_t)flag;
        memcpy(kept, area, sizeof kept);
        CHECK(sb2_area_sound(bytes(area, sizeof area)), false);
        CHECK(sb2_area_take_sample(area, sizeof area, &one, room, sizeof room, &length), 1);
        CHECK(memcmp(area, kept, sizeof area), 0);
    }
    area[PLAIN_AT] = 1; /* asked for later, as an old area goes on: the next alarm is in plain */
    CHECK(sb2_area_take_sample(area, sizeof area, &one, room, 16, &length), 0);
    CHECK(length, 4);
    CHECK(area[PLAIN_AT], 1);
}

/* The bytes of the minute: two seconds, newest first, and 300 ms of a third; then places beyond the count move on. */
static void minute_in_area(void)
{
    static const uint8_t newest_first[8] = {0xFE, 0xFF, 0xFF, 0xFF, 0xE8, 0x03, 0, 0}; /* -2 and 1,000 mA·ms */
    static const uint8_t end[7] = {2, 0x2C, 0x01, 0x38, 0xFF, 0xFF, 0xFF};             /* 2; 300 ms; -200 mA·ms */
    uint8_t area[SB2_AREA], room[SB2_BROADCAST_ROOM];
    struct sb2_state s = made(usual);
    size_t length;
    run(&s, 1, 1000);
    run(&s, 0, 800);
    run(&s, 1, 198);
    run(&s, -100, 2);
    run(&s, 0, 298);
    run(&s, -100, 2);
    sb2_area_store(&s, area);
    CHECK(memcmp(area + SB2_RECENT_AT, newest_first, 8) == 0, true);
    for (size_t i = 8; i < 240; i++)
        CHECK(area[SB2_RECENT_AT + i], 0);
    CHECK(memcmp(area + SB2_RECENT_AT + 240, end, 7) == 0, true);

    /* a sample completes five: of what stood beyond the count, place 3 moves to 8, 54 to 59, and 55 falls out */
    area[SB2_RECENT_AT + 12] = area[SB2_RECENT_AT + 4 * 55] = area[SB2_RECENT_AT + 4 * 54] = 0x99;
    struct sb2_sample later = {14800, 3, 0, 2300 + 4700};
    CHECK(sb2_area_take_sample(area, SB2_AREA, &later, room, sizeof room, &length), 0);
    CHECK(area[SB2_RECENT_AT], 3000 & 0xFF);
    CHECK(area[SB2_RECENT_AT + 4 * 5], 0xFE);
    CHECK(area[SB2_RECENT_AT + 4 * 8], 0x99);
    CHECK(area[SB2_RECENT_AT + 4 * 59], 0x99);
    CHECK(area[SB2_RECENT_AT + 240], 7);
    CHECK(area[SB2_RECENT_AT + 241] | area[SB2_RECENT_AT + 242] << 8, 0);
    CHECK(sb2_area_sound(bytes(area, SB2_AREA)), true);
}

/* The bytes of the tank: 90 mAh of 100 left, 258 cycles, 36,000,000 mA·ms drawn in both counts. */
static void tank_in_area(void)
{
    static const uint8_t tank[30] = {0x00, 0xD9, 0x4F, 0x13, 0, 0, 0, 0, 100, 0, 0x02, 0x01, 0,
                                     0x00, 0x51, 0x25, 0x02, 0, 0, 0, 0, 0x00, 0x51, 0x25, 0x02, 0, 0, 0, 0, 1};
    uint8_t area[SB2_AREA];
    struct sb2_state s = hundred(100, 258), back;
    run(&s, -1000, 36000);
    sb2_area_store(&s, area);
    CHECK(memcmp(area + SB2_TANK_AT, tank, sizeof tank), 0);
    CHECK(SB2_TIMERS_AT, 71);
    s.tank.toward_cycle = UINT64_C(0x8877665544332211);
    s.tank.run_drawn = UINT64_C(0x1122334455667788);
    s.tank.run_open = false;
    sb2_area_store(&s, area);
    CHECK(area[SB2_TANK_AT + 13], 0x11);
    CHECK(area[SB2_TANK_AT + 20], 0x88);
    CHECK(area[SB2_TANK_AT + 21], 0x88);
    CHECK(area[SB2_TANK_AT + 28], 0x11);
    CHECK(area[SB2_TANK_AT + 29], 0);
    CHECK(sb2_area_load(bytes(area, SB2_AREA), &back), true);
    CHECK(sb2_same(&s, &back), true);
    back.tank.toward_cycle ^= UINT64_C(1) << 63;
    CHECK(sb2_same(&s, &back), false);
    back = s;
    back.tank.run_drawn++;
    CHECK(sb2_same(&s, &back), false);
    back = s;
    back.tank.run_open = true;
    CHECK(sb2_same(&s, &back), false);
}

/* ---- request R-1 */

static void shelf_at(int line, const struct sb2_shelf_row *rows, size_t count, int answer, struct sb2_shelf wanted)
{
    struct sb2_shelf got = {9, 9, 9, true, 9, 9, 9, 9};
    check_at(line, "answer", sb2_shelf_report(rows, count, &got), answer);
    check_at(line, "packs", (long long)got.packs, (long long)wanted.packs);
    check_at(line, "total remaining", (long long)got.remaining, (long long)wanted.remaining);
    check_at(line, "total full", (long long)got.full, (long long)wanted.full);
    check_at(line, "is lowest", got.is_lowest, wanted.is_lowest);
    check_at(line, "lowest remaining", got.lowest_remaining, wanted.lowest_remaining);
    check_at(line, "lowest full", got.lowest_full, wanted.lowest_full);
    check_at(line, "lowest place", (long long)got.lowest_place, (long long)wanted.lowest_place);
    check_at(line, "below one fifth", (long long)got.low, (long long)wanted.low);
}

static const struct sb2_shelf no_figures = {0, 0, 0, false, 0, 0, 0, 0};

/* Packs, total remaining, total full, the lowest remaining, its full, its place, how many below one fifth; the rows. */
#define SHELF(packs, remaining, full, lowest_remaining, lowest_full, place, low, ...)                                  \
    shelf_at(__LINE__, (const struct sb2_shelf_row[]){__VA_ARGS__},                                                    \
             sizeof((const struct sb2_shelf_row[]){__VA_ARGS__}) / sizeof(struct sb2_shelf_row), 0,                    \
             (struct sb2_shelf){packs, remaining, full, true, lowest_remaining, lowest_full, place, low})

static void shelf_lowest(void)
{
    SHELF(1, 2000, 4000, 2000, 4000, 0, 0, {2000, 4000, 4000, 7});
    /* a half three times: the first of them, in either order; then a quarter in the same numbers twice */
    SHELF(4, 3401, 6002, 500, 1000, 1, 0, {900, 1000, 1, 0}, {500, 1000, 1, 0}, {1, 2, 1, 0}, {2000, 4000, 1, 0});
    SHELF(4, 3401, 6002, 2000, 4000, 0, 0, {2000, 4000, 1, 0}, {1, 2, 1, 0}, {500, 1000, 1, 0}, {900, 1000, 1, 0});
    SHELF(4, 8, 16, 1, 4, 1, 0, {3, 4, 1, 0}, {1, 4, 1, 0}, {3, 4, 1, 0}, {1, 4, 1, 0});
    /* remaining alone, full minus remaining, remaining by design and cycles would each choose another row */
    SHELF(2, 1100, 4100, 1000, 4000, 1, 0, {100, 100, 1, 0}, {1000, 4000, 1, 0});
    SHELF(2, 3010, 4040, 10, 40, 1, 0, {3000, 4000, 1, 0}, {10, 40, 1, 0});
    SHELF(2, 4000, 7900, 2000, 4000, 1, 0, {2000, 3900, 65535, 0}, {2000, 4000, 100, 65535});
    /* less than a percent apart, and as near as two rows can be: 65,533 x 65,535 is 1 less than 65,534 x 65,534 */
    SHELF(2, 1502, 3000, 1001, 2000, 1, 0, {501, 1000, 1, 0}, {1001, 2000, 1, 0});
    SHELF(2, 65533, 131067, 32766, 65533, 1, 0, {32767, 65534, 1, 0}, {32766, 65533, 1, 0});
    SHELF(2, 131067, 131069, 65533, 65534, 1, 0, {65534, 65535, 1, 0}, {65533, 65534, 1, 0});
    SHELF(2, 131067, 131069, 65533, 65534, 0, 0, {65533, 65534, 1, 0}, {65534, 65535, 1, 0});
    SHELF(2, 65535, 131070, 0, 65535, 0, 1, {0, 65535, 1, 0}, {65535, 65535, 1, 0});
    SHELF(3, 65535, 131071, 0, 65535, 1, 2, {65535, 65535, 1, 0}, {0, 65535, 1, 0}, {0, 1, 1, 0});
    SHELF(2, 65536, 65536, 65535, 65535, 0, 0, {65535, 65535, 1, 0}, {1, 1, 1, 0});
    SHELF(2, 65536, 131070, 1, 65535, 1, 1, {65535, 65535, 1, 0}, {1, 65535, 1, 0});
}

static void shelf_fifths(void)
{
    SHELF(1, 200, 1000, 200, 1000, 0, 0, {200, 1000, 1, 0});
    SHELF(1, 199, 1000, 199, 1000, 0, 1, {199, 1000, 1, 0});
    SHELF(1, 201, 1000, 201, 1000, 0, 0, {201, 1000, 1, 0});
    SHELF(1, 13107, 65535, 13107, 65535, 0, 0, {13107, 65535, 1, 0});
    SHELF(1, 13106, 65535, 13106, 65535, 0, 1, {13106, 65535, 1, 0});
    SHELF(1, 1, 4, 1, 4, 0, 0, {1, 4, 1, 0});
    SHELF(1, 1, 5, 1, 5, 0, 0, {1, 5, 1, 0});
    SHELF(1, 1, 6, 1, 6, 0, 1, {1, 6, 1, 0});
    SHELF(1, 0, 1, 0, 1, 0, 1, {0, 1, 1, 0});
    /* of full, whatever the design: 3 of 10 of 65,535, and 1 of 10 of 1 */
    SHELF(2, 4, 20, 1, 10, 1, 1, {3, 10, 65535, 0}, {1, 10, 1, 0});
    /* 2 of 9, 10 and 11: the third alone; then two, the lowest at the end */
    SHELF(3, 6, 30, 2, 11, 2, 1, {2, 9, 1, 0}, {2, 10, 1, 0}, {2, 11, 1, 0});
    SHELF(3, 35, 250, 0, 50, 2, 2, {15, 100, 1, 0}, {20, 100, 1, 0}, {0, 50, 1, 0});
}

/* No rows, 64 and 65; a row that is bad for each of three reasons at each place. */
static void shelf_sizes(void)
{
    static const struct sb2_shelf_row bad[] = {{0, 0, 1, 0}, {0, 1, 0, 0}, {2, 1, 1, 0}};
    struct sb2_shelf_row rows[65];
    shelf_at(__LINE__, NULL, 0, 0, no_figures);
    for (size_t i = 0; i < 65; i++)
        rows[i] = (struct sb2_shelf_row){65535, 65535, 65535, 65535};
    shelf_at(__LINE__, rows, 64, 0, (struct sb2_shelf){64, 4194240, 4194240, true, 65535, 65535, 0, 0});
    shelf_at(__LINE__, rows, 65, 16, no_figures);
    for (size_t i = 0; i < 65; i++) {
        struct sb2_shelf_row kept = rows[i];
        for (size_t reason = 0; reason < 3; reason++) {
            rows[i] = bad[reason];
            shelf_at(__LINE__, rows, 65, 16, no_figures);
            if (i < 64)
                shelf_at(__LINE__, rows, 64, 17, no_figures);
            shelf_at(__LINE__, rows + i, 1, 17, no_figures);
        }
        rows[i] = kept;
    }
    rows[63].remaining = 0;
    shelf_at(__LINE__, rows, 64, 0, (struct sb2_shelf){64, 4128705, 4194240, true, 0, 65535, 63, 1});
    for (size_t i = 0; i < 64; i++)
        rows[i].remaining = 0;
    shelf_at(__LINE__, rows, 64, 0, (struct sb2_shelf){64, 0, 4194240, true, 0, 65535, 0, 64});
}

/* Answer of a report over bytes in a room of so many, watched: 16 bytes are written or none. */
static int shelf_bytes(struct sb2_bytes table, size_t room_length, uint8_t figures[SB2_SHELF_ROOM])
{
    uint8_t room[40];
    size_t length;
    memset(room, 0xA5, sizeof room);
    int answer = sb2_shelf_report_bytes(table, room + 8, room_length, &length);
    CHECK(length, answer == 0 ? 16 : 0);
    for (size_t i = 0; i < sizeof room; i++)
        if (i < 8 || i >= 8 + length)
            CHECK(room[i], 0xA5);
    memcpy(figures, room + 8, SB2_SHELF_ROOM);
    return answer;
}

static void shelf_in_bytes(void)
{
    /* 1,000 of 4,000, designed 4,400, 258 cycles; 700 of 4,000 and 800 of 4,096, designed 4,400 and 5, no cycles */
    const uint8_t table[] = {0xE8, 0x03, 0xA0, 0x0F, 0x30, 0x11, 0x02, 0x01, 0xBC, 0x02, 0xA0, 0x0F, 0x30, 0x11, 0x00, 0x00,
                             0x20, 0x03, 0x00, 0x10, 0x05, 0x00, 0x00, 0x00};
    const uint8_t three[] = {3, 0xC4, 0x09, 0, 0, 0x40, 0x2F, 0, 0, 1, 0xBC, 0x02, 0xA0, 0x0F, 1, 2};
    const uint8_t none[16] = {0};
    uint8_t many[66 * 8] = {0}, figures[SB2_SHELF_ROOM];
    for (size_t room_length = 0; room_length <= 24; room_length++) {
        CHECK(shelf_bytes(bytes(table, 24), room_length, figures), room_length < 16 ? 2 : 0);
        CHECK(memcmp(figures, three, 16) == 0, room_length >= 16);
        CHECK(shelf_bytes(nothing, room_length, figures), room_length < 16 ? 2 : 0);
        CHECK(memcmp(figures, none, 16) == 0, room_length >= 16);
    }
    /* every length, its rows all bad: 2 before 4 before 16 before 17 */
    for (size_t length = 1; length <= sizeof many; length++) {
        CHECK(shelf_bytes(bytes(many, length), 15, figures), 2);
        CHECK(shelf_bytes(bytes(many, length), 16, figures), length % 8 != 0 ? 4 : length > 512 ? 16 : 17);
    }
    memset(many, 0xFF, sizeof many);
    const uint8_t most[] = {64, 0xC0, 0xFF, 0x3F, 0, 0xC0, 0xFF, 0x3F, 0, 1, 0xFF, 0xFF, 0xFF, 0xFF, 0, 0};
    CHECK(shelf_bytes(bytes(many, 512), 16, figures), 0);
    CHECK(memcmp(figures, most, 16), 0);
    CHECK(shelf_bytes(bytes(many, 520), 16, figures), 16);
}

static void shelf(void)
{
    shelf_lowest();
    shelf_fifths();
    shelf_sizes();
    shelf_in_bytes();
}

/* ---- request R-7 */

static bool same_sample(const struct sb2_sample *a, const struct sb2_sample *b)
{
    return a->voltage == b->voltage && a->current == b->current && a->temperature == b->temperature &&
           a->counter == b->counter;
}

static bool same_charger(const struct sb2_charger *a, const struct sb2_charger *b)
{
    return a->facts == b->facts && a->current == b->current && a->voltage == b->voltage && a->silence == b->silence &&
           same_sample(&a->latest, &b->latest);
}

/* Just plugged in: the pack's 15,000 mV and 1,200 mA are measured. */
static struct sb2_charger plugged(void)
{
    struct sb2_charger c;
    const struct sb2_sample first = {15000, 1200, 2981, 1000};
    memset(&c, 0xA5, sizeof c);
    sb2_charger_set_up(&c, &first);
    CHECK(sb2_charger_sound(&c), true);
    return c;
}

/* Answer of a transaction in a watched room. Only a served write may change the charger, only a served read the room. */
static int charger_hears(struct sb2_charger *c, bool read, struct sb2_bytes message, size_t room_length,
                         uint8_t reply[3])
{
    const struct sb2_charger before = *c;
    uint8_t room[16];
    size_t length;
    memset(room, 0xA5, sizeof room);
    int answer = sb2_charger_transact(c, read, message, room + 4, room_length, &length);
    if (length != (answer == 0 && read ? 3 : 0))
        CHECK(length, answer == 0 && read ? 3 : 0);
    for (size_t i = 0; i < sizeof room; i++)
        if ((i < 4 || i >= 4 + length) && room[i] != 0xA5)
            CHECK(room[i], 0xA5);
    if ((answer != 0 || read) && !same_charger(&before, c))
        CHECK(answer, -1);
    memcpy(reply, room + 4, 3);
    return answer;
}

static int charger_answers(struct sb2_charger *c, bool read, struct sb2_bytes message)
{
    uint8_t reply[3];
    return charger_hears(c, read, message, 3, reply);
}

static int tell(struct sb2_charger *c, uint8_t command, unsigned value)
{
    uint8_t message[5] = {0x12, command, (uint8_t)value, (uint8_t)(value >> 8), 0};
    message[4] = sb2_pec(bytes(message, 4));
    return charger_answers(c, false, bytes(message, 5));
}

/* The word of ChargerStatus. */
static long told(struct sb2_charger *c)
{
    uint8_t reply[3];
    CHECK(charger_hears(c, true, BYTES(0x12, 0x13, 0x13), 3, reply), 0);
    CHECK(sb2_pec(BYTES(0x12, 0x13, 0x13, reply[0], reply[1])), reply[2]);
    return reply[0] | (long)reply[1] << 8;
}

/* What it gives; the answer must be 0. */
static long gives(const struct sb2_charger *c)
{
    uint16_t current = 1;
    CHECK(sb2_charger_current(c, &current), 0);
    return current;
}

/* A sample so much later. */
static void measures(struct sb2_charger *c, uint16_t voltage, int16_t current, uint32_t ms)
{
    const struct sb2_sample later = {voltage, current, 2981, c->latest.counter + ms};
    CHECK(sb2_charger_sample(c, &later), 0);
    CHECK(same_sample(&c->latest, &later), true);
    CHECK(sb2_charger_sound(c), true);
}

/* Both requests of the firmware's pack, 1,500 mA and 16,800 mV. */
static struct sb2_charger charging(void)
{
    struct sb2_charger c = plugged();
    CHECK(tell(&c, 0x14, 1500), 0);
    CHECK(tell(&c, 0x15, 16800), 0);
    CHECK(gives(&c), 1500);
    return c;
}

/* The PECs are of a long division done elsewhere, bit by bit. */
static void charger_bytes(void)
{
    struct sb2_charger c = plugged();
    uint8_t reply[3];
    CHECK(charger_hears(&c, true, BYTES(0x12, 0x11, 0x13), 3, reply), 0);
    CHECK(memcmp(reply, "\x03\x00\xA7", 3), 0);
    CHECK(charger_hears(&c, true, BYTES(0x12, 0x13, 0x13), 3, reply), 0);
    CHECK(memcmp(reply, "\x10\xC0\xAD", 3), 0);
    CHECK(charger_answers(&c, false, BYTES(0x12, 0x14, 0xDC, 0x05, 0x1F)), 0);
    CHECK(charger_answers(&c, false, BYTES(0x12, 0x15, 0xA0, 0x41)), 0); /* in plain */
    CHECK(gives(&c), 1500);
    CHECK(charger_answers(&c, false, BYTES(0x12, 0x16, 0xAF, 0x40, 0x88)), 0);
    CHECK(charger_answers(&c, false, BYTES(0x12, 0x12, 0x01, 0x00, 0x2A)), 0);
    CHECK(charger_hears(&c, true, BYTES(0x12, 0x13, 0x13), 8, reply), 0);
    CHECK(memcmp(reply, "\x1D\xD0\x34", 3), 0); /* every bit that can be: all of 0, 2, 3, 4, 12, 14, 15 */
}

/* 000, table 4: 14, 15 and 4 stand; each other bit comes and goes with what it tells. */
static void charger_status(void)
{
    struct sb2_charger c = plugged();
    CHECK(told(&c), 0xC010);
    measures(&c, 0, -32768, 1000); /* nothing was asked for, so nothing is missed */
    CHECK(told(&c), 0xC010);
    CHECK(tell(&c, 0x15, 16800), 0);
    CHECK(told(&c), 0xC014);
    measures(&c, 16799, 0, 1000);
    CHECK(told(&c), 0xC014);
    measures(&c, 16800, 0, 1000);
    CHECK(told(&c), 0xC010);
    CHECK(tell(&c, 0x15, 65535), 0);
    measures(&c, 65535, 0, 1000);
    CHECK(told(&c), 0xC010);
    CHECK(tell(&c, 0x14, 1500), 0);
    CHECK(told(&c), 0xC018);
    measures(&c, 65534, 1499, 1000);
    CHECK(told(&c), 0xC01C);
    measures(&c, 65535, 1500, 1000);
    CHECK(told(&c), 0xC010);
    CHECK(tell(&c, 0x14, 0), 0);
    measures(&c, 65535, 0, 1000);
    CHECK(told(&c), 0xC010);
    measures(&c, 65535, -1, 1000); /* a discharge is below a request of 0 too */
    CHECK(told(&c), 0xC018);
    CHECK(tell(&c, 0x14, 32767), 0);
    measures(&c, 65535, 32767, 1000);
    CHECK(told(&c), 0xC010);
    CHECK(tell(&c, 0x14, 32768), 0); /* more than a sample can show; as a signed word it would be below */
    CHECK(told(&c), 0xC018);
    CHECK(tell(&c, 0x14, 65535), 0);
    CHECK(told(&c), 0xC018);
    CHECK(tell(&c, 0x12, 0x0001), 0);
    CHECK(told(&c), 0xC019);
    CHECK(tell(&c, 0x16, 0x8000), 0);
    CHECK(told(&c), 0xD019);
    CHECK(tell(&c, 0x12, 0x0000), 0);
    CHECK(told(&c), 0xD018);
}

/* 000, table 3, every word from a charger with both requests, both missed, and 3,000 ms of silence. */
static void charger_mode(void)
{
    struct sb2_charger start = charging();
    measures(&start, 15000, 1200, 3000);
    CHECK(told(&start), 0xC01C);
    for (unsigned value = 0; value < 65536; value++) {
        struct sb2_charger c = start;
        const bool reset = value & 4, zero = value & 8, inhibit = value & 1;
        CHECK(tell(&c, 0x12, value), 0);
        CHECK(told(&c), reset ? 0xC010 : 0xC010 + (inhibit ? 1 : 0) + (zero ? 0 : 12));
        CHECK(gives(&c), reset || zero || inhibit ? 0 : 1500);
        CHECK(c.silence, 3000);
        CHECK(same_sample(&c.latest, &start.latest), true);
    }
}

/* Inhibited, the requests are kept and taken; a reset takes the inhibition with it, and the other bits of its word. */
static void charger_inhibited(void)
{
    struct sb2_charger c = charging();
    CHECK(tell(&c, 0x12, 0xFFF3), 0); /* but for bits 2 and 3 all */
    CHECK(gives(&c), 0);
    CHECK(tell(&c, 0x12, 0xFFF2), 0);
    CHECK(gives(&c), 1500);
    CHECK(tell(&c, 0x12, 1), 0);
    CHECK(tell(&c, 0x14, 800), 0);
    CHECK(tell(&c, 0x15, 16000), 0);
    CHECK(gives(&c), 0);
    CHECK(told(&c), 0xC015);
    CHECK(tell(&c, 0x12, 0), 0);
    CHECK(gives(&c), 800);
    CHECK(tell(&c, 0x12, 0x0005), 0);
    CHECK(told(&c), 0xC010); /* neither inhibited nor asked for anything */
    CHECK(tell(&c, 0x14, 900), 0);
    CHECK(gives(&c), 0); /* the voltage of before is gone too */
    CHECK(tell(&c, 0x15, 16000), 0);
    CHECK(gives(&c), 900);
}

/* Both words become 0, whether or not it is inhibited; that they came, and that they are awaited, stays. */
static void charger_to_zero(void)
{
    struct sb2_charger c = charging();
    CHECK(tell(&c, 0x12, 0x0009), 0);
    CHECK(told(&c), 0xC011);
    measures(&c, 0, -1, 1000);
    CHECK(told(&c), 0xC019); /* 0 mA were asked for, and −1 are less */
    CHECK(tell(&c, 0x12, 0x0000), 0);
    CHECK(gives(&c), 0);
    CHECK(tell(&c, 0x14, 700), 0);
    CHECK(gives(&c), 0); /* the voltage is 0 yet */
    CHECK(tell(&c, 0x15, 1), 0);
    CHECK(gives(&c), 700);
    CHECK(tell(&c, 0x16, 0x4000), 0);
    CHECK(tell(&c, 0x12, 0x0008), 0);
    CHECK(told(&c), 0xD018);
    c = plugged();
    CHECK(tell(&c, 0x12, 0x0008), 0);
    measures(&c, 0, -1, 1000);
    CHECK(told(&c), 0xC010);
}

/* Each bit of AlarmWarning: 15 to 12 stop the charger, the other twelve neither stop it nor let it on. */
static void charger_alarm_bits(void)
{
    for (unsigned bit = 0; bit < 16; bit++) {
        struct sb2_charger c = charging();
        const bool stops = bit >= 12;
        measures(&c, 15000, 1200, 1000);
        CHECK(tell(&c, 0x16, 1u << bit), 0);
        CHECK(told(&c), stops ? 0xD01C : 0xC01C);
        CHECK(gives(&c), stops ? 0 : 1500);
        CHECK(c.silence, 1000); /* an alarm is no request */
        CHECK(tell(&c, 0x16, 0x8000), 0);
        CHECK(tell(&c, 0x16, 0x0FFF), 0);
        CHECK(tell(&c, 0x16, 0), 0);
        CHECK(told(&c), 0xD01C);
    }
}

/* Both requests must come after the latest alarm, in either order, alike or not. */
static void charger_after_alarm(void)
{
    for (unsigned first = 0; first < 2; first++) {
        const uint8_t one = first ? 0x15 : 0x14, other = first ? 0x14 : 0x15;
        struct sb2_charger c = charging();
        CHECK(tell(&c, 0x16, 0x5000), 0);
        for (unsigned times = 0; times < 3; times++) {
            CHECK(tell(&c, one, 12000), 0);
            CHECK(told(&c), first ? 0xD018 : 0xD01C); /* 12,000 mV are met, 12,000 mA aren't */
            CHECK(gives(&c), 0);
        }
        CHECK(tell(&c, 0x16, 0x1000), 0); /* an alarm between the two */
        CHECK(tell(&c, other, 12000), 0);
        CHECK(told(&c) & 0x1000, 0x1000);
        CHECK(gives(&c), 0);
        CHECK(tell(&c, one, 12000), 0);
        CHECK(told(&c) & 0x1000, 0);
        CHECK(gives(&c), 12000);
        CHECK(tell(&c, 0x16, 0x2000), 0);
        CHECK(tell(&c, 0x12, 0x0001), 0);
        CHECK(told(&c) & 0x1001, 0x1001); /* a mode alone doesn't end it */
        CHECK(tell(&c, 0x12, 0x0004), 0);
        CHECK(told(&c), 0xC010);
    }
    struct sb2_charger c = plugged(); /* an alarm before any request */
    CHECK(tell(&c, 0x16, 0x4000), 0);
    CHECK(told(&c), 0xD010);
    CHECK(tell(&c, 0x15, 16800), 0);
    CHECK(told(&c), 0xD014);
    CHECK(tell(&c, 0x14, 300), 0);
    CHECK(told(&c), 0xC014);
    CHECK(gives(&c), 300);
}

/* 0 before any; with a voltage of 0 or none; else the last one taken, whatever is measured. */
static void charger_current(void)
{
    struct sb2_charger c = plugged();
    CHECK(gives(&c), 0);
    CHECK(tell(&c, 0x14, 1500), 0);
    CHECK(gives(&c), 0);
    CHECK(tell(&c, 0x15, 0), 0);
    CHECK(gives(&c), 0);
    CHECK(tell(&c, 0x15, 1), 0);
    CHECK(gives(&c), 1500);
    CHECK(tell(&c, 0x14, 65535), 0);
    CHECK(gives(&c), 65535);
    measures(&c, 0, -32768, 0);
    CHECK(gives(&c), 65535);
    CHECK(tell(&c, 0x14, 0), 0);
    CHECK(gives(&c), 0);
    c = plugged();
    CHECK(tell(&c, 0x15, 16800), 0);
    CHECK(gives(&c), 0);
    CHECK(tell(&c, 0x14, 1), 0);
    CHECK(gives(&c), 1);
}

/* 175 s with neither request: at 174,999 ms it still gives, at 175,000 no more, and there the count stands. */
static void charger_silence(void)
{
    struct sb2_charger c = charging();
    measures(&c, 15000, 1500, 174999);
    CHECK(gives(&c), 1500);
    CHECK(tell(&c, 0x16, 0x0B00), 0); /* neither these */
    CHECK(tell(&c, 0x12, 0x0000), 0);
    CHECK(told(&c), 0xC014);
    CHECK(c.silence, 174999);
    measures(&c, 15000, 1500, 0);
    CHECK(gives(&c), 1500);
    measures(&c, 15000, 1500, 1);
    CHECK(gives(&c), 0);
    CHECK(told(&c), 0xC014); /* it tells nothing of it */
    CHECK(c.silence, 175000);
    measures(&c, 15000, 0, 1);
    measures(&c, 15000, 0, 4294967295u);
    CHECK(c.silence, 175000);
    CHECK(tell(&c, 0x12, 0x0004), 0);
    CHECK(c.silence, 175000); /* a reset doesn't touch it */
    CHECK(tell(&c, 0x15, 16800), 0);
    CHECK(c.silence, 0);
    CHECK(tell(&c, 0x14, 200), 0);
    CHECK(gives(&c), 200);
    for (unsigned which = 0; which < 2; which++) { /* either request alone is enough, the same one again too */
        c = charging();
        for (unsigned i = 0; i < 10; i++) {
            measures(&c, 15000, 1500, 174000);
            CHECK(gives(&c), 1500);
            CHECK(tell(&c, which ? 0x15 : 0x14, which ? 16800 : 1500), 0);
            CHECK(c.silence, 0);
        }
        measures(&c, 15000, 1500, 175001);
        CHECK(gives(&c), 0);
        CHECK(c.silence, 175000);
        CHECK(tell(&c, which ? 0x15 : 0x14, which ? 16800 : 1500), 0);
        CHECK(gives(&c), 1500); /* what was asked for before counts again */
    }
}

/* Across the wrap 4,294,967,290 to 4 are 10 ms; from a count so near the end too. Set-up's counter is the first. */
static void charger_counter(void)
{
    struct sb2_charger c;
    const struct sb2_sample first = {0, 0, 0, 4294967290u}, second = {1, 2, 3, 4}, third = {1, 2, 3, 3};
    sb2_charger_set_up(&c, &first);
    CHECK(sb2_charger_sample(&c, &second), 0);
    CHECK(c.silence, 10);
    CHECK(sb2_charger_sample(&c, &second), 0);
    CHECK(c.silence, 10);
    CHECK(sb2_charger_sample(&c, &third), 0); /* 4,294,967,295 ms later */
    CHECK(c.silence, 175000);
    for (uint32_t silence = 174985; silence <= 175000; silence++) {
        c.silence = silence;
        c.latest = first;
        CHECK(sb2_charger_sample(&c, &second), 0);
        CHECK(c.silence, silence <= 174990 ? silence + 10 : 175000);
    }
}

/* Above 175,000 it isn't sound: 1 before all else, nothing changed, no current. */
static void charger_not_sound(void)
{
    static const uint32_t counts[] = {175001, 175002, 0x80000000u, 4294967295u};
    const struct sb2_sample later = {1, 2, 3, 4};
    for (size_t i = 0; i < 4; i++) {
        struct sb2_charger c = charging();
        c.silence = 175000;
        CHECK(sb2_charger_sound(&c), true);
        c.silence = counts[i];
        const struct sb2_charger before = c;
        uint16_t current = 1;
        uint8_t reply[3];
        CHECK(sb2_charger_sound(&c), false);
        CHECK(sb2_charger_current(&c, &current), 1);
        CHECK(current, 0);
        CHECK(sb2_charger_sample(&c, &later), 1);
        CHECK(same_charger(&before, &c), true);
        CHECK(charger_hears(&c, true, BYTES(0x12, 0x13, 0x13), 3, reply), 1);
        CHECK(charger_hears(&c, false, nothing, 0, reply), 1);
        CHECK(tell(&c, 0x14, 1500), 1);
        CHECK(same_charger(&before, &c), true);
    }
}

/* 2 under 3 bytes of room, for a write as for a read, before 3. */
static void charger_rooms(void)
{
    struct sb2_charger c = charging();
    uint8_t reply[3];
    for (size_t room_length = 0; room_length <= 8; room_length++) {
        const int wanted = room_length < 3 ? 2 : 0;
        CHECK(charger_hears(&c, true, BYTES(0x12, 0x11, 0x13), room_length, reply), wanted);
        CHECK(memcmp(reply, "\x03\x00\xA7", 3) == 0, wanted == 0);
        CHECK(charger_hears(&c, false, BYTES(0x12, 0x14, 0x01, 0x00), room_length, reply), wanted);
        CHECK(gives(&c), room_length < 3 ? 1500 : 1);
        CHECK(charger_hears(&c, false, nothing, room_length, reply), room_length < 3 ? 2 : 3);
        CHECK(charger_hears(&c, true, BYTES(0x16, 0x11, 0x13), room_length, reply), room_length < 3 ? 2 : 3);
    }
}

/* Every first byte but 12 is 3, in whatever form; every size of either mark but those it has is 4, before 5, 6 and 8. */
static void charger_forms(void)
{
    struct sb2_charger c = charging();
    uint8_t message[40] = {0};
    CHECK(charger_answers(&c, true, nothing), 3);
    for (unsigned first = 0; first < 256; first++)
        for (size_t length = 1; length <= 6; length++) {
            const uint8_t sent[6] = {(uint8_t)first, 0x14, 0x13, 0, 0, 0};
            if (first == 0x12)
                continue;
            CHECK(charger_answers(&c, true, bytes(sent, length)), 3);
            CHECK(charger_answers(&c, false, bytes(sent, length)), 3);
        }
    for (size_t length = 1; length <= sizeof message; length++) {
        memcpy(message, "\x12\x11\x13", 3);
        CHECK(charger_answers(&c, true, bytes(message, length)), length == 3 ? 0 : 4);
        CHECK(charger_answers(&c, false, bytes(message, length)), length == 4 ? 8 : length == 5 ? 5 : 4);
    }
    for (unsigned third = 0; third < 256; third++) {
        CHECK(charger_answers(&c, true, BYTES(0x12, 0x13, (uint8_t)third)), third == 0x13 ? 0 : 4);
        CHECK(charger_answers(&c, true, BYTES(0x12, 0x99, (uint8_t)third)), third == 0x13 ? 6 : 4);
    }
    CHECK(charger_answers(&c, true, BYTES(0x12, 0x14, 0xDC, 0x05, 0x1F)), 4); /* a right write with the wrong mark */
    CHECK(charger_answers(&c, false, BYTES(0x12, 0x13, 0x13)), 4);
}

/* Each command, read and written, with a right PEC, a wrong one and none. */
static void charger_commands(void)
{
    for (unsigned command = 0; command < 256; command++) {
        const uint8_t named = (uint8_t)command;
        const bool known = command >= 0x11 && command <= 0x16, shown = command == 0x11 || command == 0x13;
        struct sb2_charger c = plugged();
        uint8_t message[5] = {0x12, named, 0x34, 0x12, 0};
        CHECK(charger_answers(&c, true, BYTES(0x12, named, 0x13)), !known ? 6 : shown ? 0 : 8);
        CHECK(charger_answers(&c, false, bytes(message, 4)), !known ? 6 : shown ? 8 : 0);
        c = plugged();
        message[4] = (uint8_t)(sb2_pec(bytes(message, 4)) ^ 0x01);
        CHECK(charger_answers(&c, false, bytes(message, 5)), 5);
        message[4] ^= 0x01;
        CHECK(charger_answers(&c, false, bytes(message, 5)), !known ? 6 : shown ? 8 : 0);
        CHECK(c.current, command == 0x14 ? 0x1234 : 0);
        CHECK(c.voltage, command == 0x15 ? 0x1234 : 0);
        CHECK(told(&c), command == 0x14 ? 0xC018 : command == 0x16 ? 0xD010 : 0xC010); /* 1234 is 4,660, and 12 a reset */
    }
}

/* A right five-byte write with one to three bits turned is refused; with four, those of the divisor, it is served. */
static void charger_turned(void)
{
    static const uint8_t messages[4][4] = {
        {0x12, 0x12, 0x05, 0x00}, {0x12, 0x14, 0xDC, 0x05}, {0x12, 0x15, 0xA0, 0x41}, {0x12, 0x16, 0xAF, 0x40}};
    unsigned served = 0, tried = 0;
    struct sb2_charger c = charging();
    measures(&c, 15000, 1200, 5000); /* so that every one of the four would change it */
    CHECK(tell(&c, 0x14, 1400), 0);
    CHECK(tell(&c, 0x15, 16700), 0);
    measures(&c, 15000, 1200, 5000);
    const struct sb2_charger before = c;
    for (unsigned n = 0; n < 4 * 40 * 40 * 40; n++) {
        unsigned i = n % 40, j = n / 40 % 40, k = n / 1600 % 40;
        uint8_t turned[5];
        if (j < i || k < j || (i == j && j < k)) /* i = j = k turns one bit, j = k two */
            continue;
        memcpy(turned, messages[n / 64000], 4);
        turned[4] = sb2_pec(bytes(turned, 4));
        turned[i / 8] ^= (uint8_t)(1u << i % 8);
        if (j != i)
            turned[j / 8] ^= (uint8_t)(1u << j % 8);
        if (k != j)
            turned[k / 8] ^= (uint8_t)(1u << k % 8);
        served += charger_answers(&c, false, bytes(turned, 5)) == 0;
        tried++;
    }
    CHECK(tried, 4 * (40 + 780 + 9880));
    CHECK(served, 0);
    CHECK(same_charger(&before, &c), true);
    CHECK(charger_answers(&c, false, BYTES(0x12, 0x14, 0xDC, 0x05 ^ 0x01, 0x1F ^ 0x07)), 0);
    CHECK(gives(&c), 0x04DC);
}

/* Each number at its place; a set-up area, then one with all that can be. */
static void charger_area(void)
{
    static const uint8_t fresh[23] = {0, 0, 0, 0, 0, 0, 0, 0, 0,    0,    0,    0,
                                      0, 0x98, 0x3A, 0xFF, 0xFF, 0xA5, 0x0B, 0xF0, 0xFF, 0xFF, 0xFF};
    static const uint8_t lived[23] = {0x34, 0x12, 1, 1, 0x78, 0x56, 1, 0, 1,    0x98, 0xAB, 0x02,
                                      0,    0x98, 0x3A, 0xFF, 0xFF, 0xA5, 0x0B, 0x88, 0xAB, 0x02, 0x00};
    const struct sb2_sample first = {15000, -1, 2981, 0xFFFFFFF0u}, later = {15000, -1, 2981, 174984};
    uint8_t area[23], reply[3];
    struct sb2_charger c;
    size_t length;
    memset(area, 0xA5, sizeof area);
    CHECK(sb2_area_charger_set_up(area, 23, &first), 0);
    CHECK(memcmp(area, fresh, 23), 0);
    sb2_charger_set_up(&c, &first);
    CHECK(tell(&c, 0x12, 1), 0);
    CHECK(tell(&c, 0x14, 0x1234), 0);
    CHECK(tell(&c, 0x16, 0x8000), 0);
    CHECK(tell(&c, 0x15, 0x5678), 0);
    CHECK(sb2_charger_sample(&c, &later), 0);
    CHECK(c.silence, 175000);
    sb2_area_charger_store(&c, area);
    CHECK(memcmp(area, lived, 23), 0);
    static const uint8_t writes[4][4] = {
        {0x12, 0x12, 1, 0}, {0x12, 0x14, 0x34, 0x12}, {0x12, 0x16, 0, 0x80}, {0x12, 0x15, 0x78, 0x56}};
    CHECK(sb2_area_charger_set_up(area, 23, &first), 0);
    for (size_t i = 0; i < 4; i++) {
        CHECK(sb2_area_charger_transact(area, 23, false, bytes(writes[i], 4), reply, 3, &length), 0);
        CHECK(length, 0);
    }
    CHECK(sb2_area_charger_sample(area, 23, &later), 0);
    CHECK(memcmp(area, lived, 23), 0);
    struct sb2_charger back;
    CHECK(sb2_area_charger_load(bytes(area, 23), &back), true);
    CHECK(same_charger(&c, &back), true);
    /* a read shows what is there, and neither it nor a refusal stores */
    CHECK(sb2_area_charger_transact(area, 23, true, BYTES(0x12, 0x13, 0x13), reply, 3, &length), 0);
    CHECK(length, 3);
    CHECK(reply[0] | reply[1] << 8, 0xD01D); /* −1 mA for 4,660, 15,000 mV for 22,136, inhibited, alarm */
    CHECK(sb2_area_charger_transact(area, 23, true, BYTES(0x12, 0x14, 0x13), reply, 3, &length), 8);
    CHECK(sb2_area_charger_transact(area, 23, false, bytes(writes[1], 4), reply, 2, &length), 2);
    CHECK(memcmp(area, lived, 23), 0);
}

/* The charger's current in an area: mA, or 1 and 0 mA. A word that wasn't taken, which no message leaves, counts for
 * nothing. */
static void charger_area_current(void)
{
    uint8_t area[23] = {0xDC, 0x05, 1, 0, 0xA0, 0x41, 1, 0, 0, 0x97, 0xAB, 0x02}; /* silent for 174,999 ms */
    static const size_t flags[] = {2, 3, 6, 7, 8};
    static const long statuses[] = {0xC014, 0xD01C, 0xC018, 0xD01C, 0xC01D};
    struct sb2_charger c;
    uint16_t current = 1;
    CHECK(sb2_area_charger_current(bytes(area, 23), &current), 0);
    CHECK(current, 1500);
    for (size_t i = 0; i < 5; i++) { /* any other set of facts stops it, and the words stay */
        area[flags[i]] ^= 1;
        CHECK(sb2_area_charger_current(bytes(area, 23), &current), 0);
        CHECK(current, 0);
        CHECK(sb2_area_charger_sound(bytes(area, 23)), true);
        CHECK(sb2_area_charger_load(bytes(area, 23), &c), true);
        CHECK(told(&c), statuses[i]);
        area[flags[i]] ^= 1;
    }
    area[9] = 0x98;
    CHECK(sb2_area_charger_current(bytes(area, 23), &current), 0);
    CHECK(current, 0);
    area[9] = 0x99; /* 175,001 */
    current = 1;
    CHECK(sb2_area_charger_current(bytes(area, 23), &current), 1);
    CHECK(current, 0);
    CHECK(sb2_area_charger_sound(bytes(area, 23)), false);
    area[9] = 0x97;
    area[5] = area[4] = 0; /* a ChargingVoltage of 0 */
    CHECK(sb2_area_charger_current(bytes(area, 23), &current), 0);
    CHECK(current, 0);
}

/* Each of the five entries answers 1 to bytes that are no area or aren't sound, and leaves them and its room. */
static void no_charger_at(int line, const uint8_t *given, size_t size)
{
    const struct sb2_sample later = {1, 2, 3, 4};
    uint8_t area[64], room[3] = {0xA5, 0xA5, 0xA5};
    size_t length = 9;
    uint16_t current = 9;
    memcpy(area, given, sizeof area);
    check_at(line, "sound", sb2_area_charger_sound(bytes(area, size)), false);
    check_at(line, "current", sb2_area_charger_current(bytes(area, size), &current), 1);
    check_at(line, "mA", current, 0);
    check_at(line, "sample", sb2_area_charger_sample(area, size, &later), 1);
    check_at(line, "read", sb2_area_charger_transact(area, size, true, BYTES(0x12, 0x13, 0x13), room, 3, &length), 1);
    check_at(line, "length", (long long)length, 0);
    check_at(line, "write", sb2_area_charger_transact(area, size, false, BYTES(0x12, 0x14, 1, 0), room, 0, &length), 1);
    if (size != SB2_CHARGER_AREA)
        check_at(line, "set-up", sb2_area_charger_set_up(area, size, &later), 1);
    check_at(line, "area", memcmp(area, given, sizeof area), 0);
    check_at(line, "room", room[0] == 0xA5 && room[1] == 0xA5 && room[2] == 0xA5, true);
}
#define NO_CHARGER(area, size) no_charger_at(__LINE__, area, size)

static void charger_no_area(void)
{
    static const size_t flags[] = {2, 3, 6, 7, 8};
    uint8_t area[64] = {0};
    CHECK(sb2_area_charger_sound(bytes(area, 23)), true); /* all 0 is a charger at power-on */
    for (size_t size = 0; size <= sizeof area; size++)
        if (size != 23)
            NO_CHARGER(area, size);
    for (size_t i = 0; i < 5; i++)
        for (unsigned flag = 2; flag < 256; flag++) {
            area[flags[i]] = (uint8_t)flag;
            NO_CHARGER(area, 23);
            area[flags[i]] = 0;
        }
    for (unsigned at = 0; at < 23; at++) { /* of the other bytes only the count's can be too high */
        area[at] = 0xFF;
        const bool flag = at == 2 || at == 3 || (at >= 6 && at <= 8), count = at == 11 || at == 12;
        CHECK(sb2_area_charger_sound(bytes(area, 23)), !flag && !count);
        area[at] = 0;
    }
    memcpy(area + 9, "\x99\xAB\x02", 3);
    NO_CHARGER(area, 23);
}

/* Hands a sample's broadcasts for address 12 to the charger, which must serve them. */
static void deliver(struct sb2_charger *c, const uint8_t *room, size_t length, size_t each)
{
    for (size_t at = 0; at < length; at += each)
        if (room[at] == 0x12)
            CHECK(charger_answers(c, false, bytes(room + at, each)), 0);
}

/* Pack and charger on one clock: the pack charges at 1,200 mA whatever the charger gives, is full in time, and reports
 * TERMINATE_CHARGE. The ms from there to no current; at most 30,999 (rule: R-7). */
static uint32_t until_it_stops(bool plain, bool hold, uint32_t step, uint32_t full_after)
{
    struct sb2_set_up in = usual;
    in.full_capacity = in.remaining_capacity = 2000;
    in.charging_current = 1200;
    in.charging_voltage = 16800;
    in.temperature_limit = 3000;
    in.plain = plain;
    struct sb2_state pack = made(in);
    pack.tank.charge -= 1200 * (uint64_t)full_after; /* so that it is full then */
    pack.tank.run_open = false;
    struct sb2_charger c = plugged();
    uint32_t now = 0, reported = 0;
    c.latest.counter = 0;
    for (;;) {
        const struct sb2_sample sample = {15000, 1200, 2981, now += step};
        uint8_t room[SB2_BROADCAST_ROOM];
        size_t length;
        if (hold)
            CHECK(put(&pack, 0x03, 0x2000), 0); /* no alarm goes, so that the words alone stop it */
        CHECK(sb2_take_sample(&pack, &sample, room, sizeof room, &length), 0);
        CHECK(sb2_charger_sample(&c, &sample), 0);
        if (reported == 0 && (word(&pack, 0x16) & 0x4000) != 0) {
            CHECK(now >= full_after && now < full_after + step, true);
            CHECK(gives(&c), 1200);
            reported = now;
        }
        deliver(&c, room, length, plain ? 4 : 5);
        if (reported != 0 && gives(&c) == 0)
            return now - reported;
        if (reported != 0 && now - reported > 31000)
            return 99999;
    }
}

static void joined(void)
{
    CHECK(until_it_stops(false, false, 1000, 40000), 0); /* the first alarm goes at once */
    CHECK(until_it_stops(true, false, 1000, 40000), 0);
    CHECK(until_it_stops(false, true, 1000, 40000), 20000); /* words at 30 and 60 s */
    CHECK(until_it_stops(false, true, 1000, 60000), 0);
    CHECK(until_it_stops(true, true, 1000, 60001), 29000); /* full at 61, words at 90 */
    CHECK(until_it_stops(true, true, 999, 31000), 29970);  /* words at 30.969, full at 31.968, words at 61.938 */
    CHECK(until_it_stops(false, true, 1, 60000), 0);
    CHECK(until_it_stops(false, true, 1, 60001), 29999);
    for (uint32_t step = 10; step <= 1000; step += 90)
        for (uint32_t full_after = 31000; full_after < 62000; full_after += 997) {
            CHECK(until_it_stops(step % 2, true, step, full_after) <= 30999, true);
            CHECK(until_it_stops(step % 2, false, step, full_after), 0);
        }
}

static void charger(void)
{
    charger_bytes();
    charger_status();
    charger_mode();
    charger_inhibited();
    charger_to_zero();
    charger_alarm_bits();
    charger_after_alarm();
    charger_current();
    charger_silence();
    charger_counter();
    charger_not_sound();
    charger_rooms();
    charger_forms();
    charger_commands();
    charger_turned();
    charger_area();
    charger_area_current();
    charger_no_area();
    joined();
}

/* ---- request R-9 */

/* Edits an area with these bytes between others, all watched; answer, length and every byte must be as wanted. */
static void edit_at(int line, struct sb2_bytes area, size_t stated, uint8_t tag, struct sb2_body body, int answer,
                    size_t length, struct sb2_bytes wanted)
{
    uint8_t room[256];
    size_t got = 999;
    memset(room, 0xA5, sizeof room);
    if (area.length != 0)
        memcpy(room + 40, area.at, area.length);
    int given = body.given ? sb2_sheet_set(room + 40, area.length, stated, tag, body.bytes, &got)
                           : sb2_sheet_remove(room + 40, area.length, stated, tag, &got);
    check_at(line, "answer", given, answer);
    check_at(line, "length", (long long)got, (long long)length);
    check_at(line, "area's bytes", (long long)wanted.length, (long long)area.length);
    for (size_t i = 0; i < sizeof room; i++)
        if (i >= 40 && i - 40 < wanted.length)
            check_at(line, "byte of the area", room[i], wanted.at[i - 40]);
        else
            check_at(line, "byte beside the area", room[i], 0xA5);
}
#define SET(area, stated, tag, body, length, wanted) \
    edit_at(__LINE__, area, stated, tag, (struct sb2_body){true, body}, 0, length, wanted)
#define REMOVE(area, stated, tag, length, wanted) \
    edit_at(__LINE__, area, stated, tag, (struct sb2_body){false, nothing}, 0, length, wanted)
#define SET_REFUSED(area, stated, tag, body, answer) \
    edit_at(__LINE__, area, stated, tag, (struct sb2_body){true, body}, answer, 0, area)
#define REMOVE_REFUSED(area, stated, tag, answer) \
    edit_at(__LINE__, area, stated, tag, (struct sb2_body){false, nothing}, answer, 0, area)

/* Three bodies in 19 bytes, and five more in the area: AB, cde and f under 20, 21 and 23. */
static const uint8_t three_names[24] = {3, 0x20, 2,   13,  0,   0x21, 3,   15, 0,  0x23, 1,  18,
                                        0, 'A',  'B', 'c', 'd', 'e',  'f', 91, 92, 93,   94, 95};
#define THREE bytes(three_names, 24)

static void edits_add(void)
{
    SET(BYTES(0, 9, 9, 9, 9, 9, 9, 9, 7, 6), 1, 0x21, text("new"), 8, BYTES(1, 0x21, 3, 5, 0, 'n', 'e', 'w', 7, 6));
    SET(BYTES(0, 9, 9, 9, 9, 9), 1, 0x23, nothing, 5, BYTES(1, 0x23, 0, 5, 0, 9)); /* no bytes, but listed */
    SET(BYTES(0, 9, 9, 9, 9), 1, 0x20, nothing, 5, BYTES(1, 0x20, 0, 5, 0));
    /* before, between and behind: the rows' end goes from 9 to 13 and every body with it */
    SET(BYTES(2, 0x21, 1, 9, 0, 0x22, 2, 10, 0, 'a', 'b', 'c', 9, 9, 9, 9, 9, 9, 8), 12, 0x20, text("xy"), 18,
        BYTES(3, 0x20, 2, 13, 0, 0x21, 1, 15, 0, 0x22, 2, 16, 0, 'x', 'y', 'a', 'b', 'c', 8));
    SET(BYTES(2, 0x20, 1, 9, 0, 0x22, 2, 10, 0, 'a', 'b', 'c', 9, 9, 9, 9, 9, 9, 8), 12, 0x21, text("xy"), 18,
        BYTES(3, 0x20, 1, 13, 0, 0x21, 2, 14, 0, 0x22, 2, 16, 0, 'a', 'x', 'y', 'b', 'c', 8));
    SET(BYTES(2, 0x20, 1, 9, 0, 0x22, 2, 10, 0, 'a', 'b', 'c', 9, 9, 9, 9, 9, 9, 8), 12, 0x23, text("xy"), 18,
        BYTES(3, 0x20, 1, 13, 0, 0x22, 2, 14, 0, 0x23, 2, 16, 0, 'a', 'b', 'c', 'x', 'y', 8));
    /* a body of no bytes moves those behind it by its row alone */
    SET(BYTES(1, 0x23, 1, 5, 0, 'a', 9, 9, 9, 9), 6, 0x20, nothing, 10, BYTES(2, 0x20, 0, 9, 0, 0x23, 1, 9, 0, 'a'));
    /* the fourth, to the area's end */
    SET(THREE, 19, 0x22, text("q"), 24,
        BYTES(4, 0x20, 2, 17, 0, 0x21, 3, 19, 0, 0x22, 1, 22, 0, 0x23, 1, 23, 0, 'A', 'B', 'c', 'd', 'e', 'q', 'f'));
}

static void edits_replace(void)
{
    /* the middle one: longer, shorter, as long, away to no bytes */
    SET(THREE, 19, 0x21, text("ghijk"), 21,
        BYTES(3, 0x20, 2, 13, 0, 0x21, 5, 15, 0, 0x23, 1, 20, 0, 'A', 'B', 'g', 'h', 'i', 'j', 'k', 'f', 93, 94, 95));
    SET(THREE, 19, 0x21, text("g"), 17,
        BYTES(3, 0x20, 2, 13, 0, 0x21, 1, 15, 0, 0x23, 1, 16, 0, 'A', 'B', 'g', 'f', 0, 0, 91, 92, 93, 94, 95));
    SET(THREE, 19, 0x21, text("ghi"), 19,
        BYTES(3, 0x20, 2, 13, 0, 0x21, 3, 15, 0, 0x23, 1, 18, 0, 'A', 'B', 'g', 'h', 'i', 'f', 91, 92, 93, 94, 95));
    SET(THREE, 19, 0x21, nothing, 16,
        BYTES(3, 0x20, 2, 13, 0, 0x21, 0, 15, 0, 0x23, 1, 15, 0, 'A', 'B', 'f', 0, 0, 0, 91, 92, 93, 94, 95));
    SET(THREE, 19, 0x21, text("cde"), 19, THREE);
    /* the first and the last */
    SET(THREE, 19, 0x20, text("ghi"), 20,
        BYTES(3, 0x20, 3, 13, 0, 0x21, 3, 16, 0, 0x23, 1, 19, 0, 'g', 'h', 'i', 'c', 'd', 'e', 'f', 92, 93, 94, 95));
    SET(THREE, 19, 0x20, nothing, 17,
        BYTES(3, 0x20, 0, 13, 0, 0x21, 3, 13, 0, 0x23, 1, 16, 0, 'c', 'd', 'e', 'f', 0, 0, 91, 92, 93, 94, 95));
    SET(THREE, 19, 0x23, text("ghijk"), 23,
        BYTES(3, 0x20, 2, 13, 0, 0x21, 3, 15, 0, 0x23, 5, 18, 0, 'A', 'B', 'c', 'd', 'e', 'g', 'h', 'i', 'j', 'k', 95));
    SET(THREE, 19, 0x23, nothing, 18,
        BYTES(3, 0x20, 2, 13, 0, 0x21, 3, 15, 0, 0x23, 0, 18, 0, 'A', 'B', 'c', 'd', 'e', 0, 91, 92, 93, 94, 95));
}

static void edits_remove(void)
{
    /* the first, the middle one, the last: a row of four bytes and the body's go, 0 in their number at the end */
    REMOVE(THREE, 19, 0x20, 13,
           BYTES(2, 0x21, 3, 9, 0, 0x23, 1, 12, 0, 'c', 'd', 'e', 'f', 0, 0, 0, 0, 0, 0, 91, 92, 93, 94, 95));
    REMOVE(THREE, 19, 0x21, 12,
           BYTES(2, 0x20, 2, 9, 0, 0x23, 1, 11, 0, 'A', 'B', 'f', 0, 0, 0, 0, 0, 0, 0, 91, 92, 93, 94, 95));
    REMOVE(THREE, 19, 0x23, 14,
           BYTES(2, 0x20, 2, 9, 0, 0x21, 3, 11, 0, 'A', 'B', 'c', 'd', 'e', 0, 0, 0, 0, 0, 91, 92, 93, 94, 95));
    /* absent ones */
    REMOVE(THREE, 19, 0x22, 19, THREE);
    REMOVE(bytes(three_names, 19), 19, 0x22, 19, bytes(three_names, 19));
    for (unsigned tag = 0x20; tag < 0x24; tag++) {
        REMOVE(BYTES(0), 1, (uint8_t)tag, 1, BYTES(0));
        REMOVE(BYTES(0, 9, 9), 1, (uint8_t)tag, 1, BYTES(0, 9, 9));
    }
    /* the only one, with bytes and with none; what is listed without bytes is removed as well */
    REMOVE(BYTES(1, 0x22, 2, 5, 0, 'a', 'b', 9), 7, 0x22, 1, BYTES(0, 0, 0, 0, 0, 0, 0, 9));
    REMOVE(BYTES(1, 0x23, 0, 5, 0), 5, 0x23, 1, BYTES(0, 0, 0, 0, 0));
    REMOVE(BYTES(2, 0x20, 0, 9, 0, 0x21, 1, 9, 0, 'a'), 10, 0x20, 6, BYTES(1, 0x21, 1, 5, 0, 'a', 0, 0, 0, 0));
}

/* 9 before 18, 19 and 20: every stated length but the sheet's own, an area that ends within it, fronts of no form. */
static void edits_no_sheet(void)
{
    uint8_t x[33], front[24];
    memset(x, 'x', sizeof x);
    for (size_t stated = 0; stated <= 30; stated++) {
        const int answer = stated != 19 ? 9 : 18;
        SET_REFUSED(THREE, stated, 0x24, bytes(x, 33), answer);
        REMOVE_REFUSED(THREE, stated, 0x1F, answer);
        SET_REFUSED(THREE, stated, 0x21, bytes(x, 33), stated != 19 ? 9 : 19);
        SET_REFUSED(THREE, stated, 0x21, bytes(x, 32), stated != 19 ? 9 : 20);
    }
    for (size_t length = 0; length < 19; length++) { /* the bytes behind the area would make it a sheet from 13 on */
        SET_REFUSED(bytes(three_names, length), 19, 0x21, nothing, 9);
        REMOVE_REFUSED(bytes(three_names, length), 19, 0x21, 9);
        REMOVE_REFUSED(bytes(three_names, length), length, 0x21, 9);
    }
    SET_REFUSED(THREE, SIZE_MAX, 0x21, text("g"), 9);
    REMOVE_REFUSED(THREE, SIZE_MAX, 0x21, 9);
    size_t got = 9;
    CHECK(sb2_sheet_set(NULL, 0, 0, 0x21, nothing, &got), 9);
    CHECK(got, 0);
    got = 9;
    CHECK(sb2_sheet_remove(NULL, 0, 0, 0x21, &got), 9);
    CHECK(got, 0);
    for (size_t i = 0; i < 13; i++) {
        memcpy(front, three_names, 24);
        front[i] += 4; /* 7 rows, a tag of 24, 25 or 27, a wrong length or offset */
        SET_REFUSED(bytes(front, 24), 19, 0x22, text("g"), 9);
        REMOVE_REFUSED(bytes(front, 24), 19, 0x22, 9);
    }
}

/* 18 for every tag but four, before 19 and 20; 19 for every body over 32, before 20. */
static void edits_refused(void)
{
    uint8_t x[600];
    memset(x, 'x', sizeof x);
    for (unsigned tag = 0; tag < 256; tag++) {
        const bool known = tag >= 0x20 && tag <= 0x23;
        SET_REFUSED(THREE, 19, (uint8_t)tag, bytes(x, 33), known ? 19 : 18);
        SET_REFUSED(THREE, 19, (uint8_t)tag, bytes(x, 32), known ? 20 : 18);
        if (known)
            continue;
        SET_REFUSED(THREE, 19, (uint8_t)tag, nothing, 18);
        REMOVE_REFUSED(THREE, 19, (uint8_t)tag, 18);
        REMOVE_REFUSED(BYTES(0), 1, (uint8_t)tag, 18);
    }
    for (size_t length = 33; length <= sizeof x; length++) {
        SET_REFUSED(BYTES(0), 1, 0x20, bytes(x, length), 19);
        SET_REFUSED(bytes(three_names, 19), 19, 0x21, bytes(x, length), 19);
    }
    uint8_t room[64] = {0};
    memset(room + 1, 0x77, 63);
    SET_REFUSED(bytes(room, 64), 1, 0x20, bytes(x, 33), 19); /* though there is room */
    SET_REFUSED(bytes(room, 36), 1, 0x20, bytes(x, 32), 20); /* 37 bytes, one too many */
    uint8_t wanted[64] = {1, 0x20, 32, 5, 0};
    memset(wanted + 5, 'x', 32);
    memset(wanted + 37, 0x77, 27);
    SET(bytes(room, 37), 1, 0x20, bytes(x, 32), 37, bytes(wanted, 37));
    SET(bytes(room, 64), 1, 0x20, bytes(x, 32), 37, bytes(wanted, 64));
}

/* 20 up to one byte too few, served from the result's length on, and always where the sheet doesn't grow. */
static void edits_at_border(void)
{
    static const uint8_t longer[24] = {3, 0x20, 2,   13,  0,   0x21, 5,   15,  0,   0x23, 1,  20,
                                       0, 'A',  'B', 'g', 'h', 'i',  'j', 'k', 'f', 93,   94, 95};
    static const uint8_t four[24] = {4, 0x20, 2, 17, 0, 0x21, 3,   19,  0,   0x22, 0,   22,
                                     0, 0x23, 1, 22, 0, 'A',  'B', 'c', 'd', 'e',  'f', 95};
    for (size_t room = 19; room <= 24; room++) {
        if (room < 21)
            SET_REFUSED(bytes(three_names, room), 19, 0x21, text("ghijk"), 20);
        else
            SET(bytes(three_names, room), 19, 0x21, text("ghijk"), 21, bytes(longer, room));
        if (room < 23)
            SET_REFUSED(bytes(three_names, room), 19, 0x22, nothing, 20);
        else
            SET(bytes(three_names, room), 19, 0x22, nothing, 23, bytes(four, room));
    }
    for (size_t room = 1; room < 5; room++)
        SET_REFUSED(bytes((const uint8_t[4]){0, 9, 9, 9}, room), 1, 0x21, nothing, 20);
    /* in an area that the sheet fills */
    SET(BYTES(1, 0x21, 2, 5, 0, 'a', 'b'), 7, 0x21, text("cd"), 7, BYTES(1, 0x21, 2, 5, 0, 'c', 'd'));
    SET(BYTES(1, 0x21, 2, 5, 0, 'a', 'b'), 7, 0x21, text("c"), 6, BYTES(1, 0x21, 1, 5, 0, 'c', 0));
    SET_REFUSED(BYTES(1, 0x21, 2, 5, 0, 'a', 'b'), 7, 0x21, text("cde"), 20);
    SET_REFUSED(BYTES(1, 0x21, 2, 5, 0, 'a', 'b'), 7, 0x20, nothing, 20);
    REMOVE(BYTES(1, 0x21, 2, 5, 0, 'a', 'b'), 7, 0x21, 1, BYTES(0, 0, 0, 0, 0, 0, 0));
}

/* Four bodies of 32 bytes, a letter each: 145 bytes, by hand and by edits in every order of the tags. */
static void edits_most(void)
{
    static const uint8_t rows[17] = {4, 0x20, 32, 17, 0, 0x21, 32, 49, 0, 0x22, 32, 81, 0, 0x23, 32, 113, 0};
    uint8_t full[146], room[146], body[33];
    size_t length;
    memcpy(full, rows, 17);
    for (size_t i = 0; i < 128; i++)
        full[17 + i] = (uint8_t)('a' + i / 32);
    full[145] = 0x77;
    for (unsigned n = 0; n < 256; n++) {
        const unsigned order[4] = {n % 4, n / 4 % 4, n / 16 % 4, n / 64};
        if ((1u << order[0] | 1u << order[1] | 1u << order[2] | 1u << order[3]) != 15)
            continue;
        memset(room, 0x77, sizeof room);
        room[0] = 0;
        length = 1;
        for (size_t i = 0; i < 4; i++) {
            memset(body, 'a' + (int)order[i], 32);
            CHECK(sb2_sheet_set(room, 145, length, (uint8_t)(0x20 + order[i]), bytes(body, 32), &length), 0);
            CHECK(length, 37 + 36 * i);
        }
        CHECK(memcmp(room, full, 146), 0);
    }
    memset(body, 'x', sizeof body);
    SET_REFUSED(bytes(full, 145), 145, 0x22, bytes(body, 33), 19);
    memset(room, 0, 146);
    memcpy(room, full, 145);
    room[10] = 31; /* one byte less under 22: a sheet of 144 */
    room[15] = 112;
    memmove(room + 112, room + 113, 32);
    SET_REFUSED(bytes(room, 144), 144, 0x22, bytes(full + 81, 32), 20);
    SET(bytes(room, 145), 144, 0x22, bytes(full + 81, 32), 145, bytes(full, 145));
    room[144] = 0;
    SET(bytes(full, 145), 145, 0x22, bytes(full + 81, 31), 144, bytes(room, 145));
}

/* What was freed serves at once: an area of ten bytes holds one name after another. */
static void edits_reuse(void)
{
    uint8_t room[12] = {1, 0x20, 5, 5, 0, 'a', 'b', 'c', 'd', 'e', 0x77, 0x77};
    size_t length;
    CHECK(sb2_sheet_set(room, 10, 10, 0x21, text("f"), &length), 20);
    CHECK(sb2_sheet_set(room, 10, 10, 0x20, nothing, &length), 0);
    CHECK(length, 5);
    CHECK(memcmp(room, "\x01\x20\x00\x05\x00\x00\x00\x00\x00\x00\x77\x77", 12), 0);
    CHECK(sb2_sheet_set(room, 10, 5, 0x21, text("f"), &length), 0);
    CHECK(length, 10);
    CHECK(memcmp(room, "\x02\x20\x00\x09\x00\x21\x01\x09\x00\x66\x77\x77", 12), 0);
    CHECK(sb2_sheet_remove(room, 10, 10, 0x20, &length), 0);
    CHECK(length, 6);
    CHECK(memcmp(room, "\x01\x21\x01\x05\x00\x66\x00\x00\x00\x00\x77\x77", 12), 0);
    CHECK(sb2_sheet_set(room, 10, 6, 0x21, text("ghijk"), &length), 0);
    CHECK(length, 10);
    CHECK(memcmp(room, "\x01\x21\x05\x05\x00ghijk\x77\x77", 12), 0);
    CHECK(sb2_sheet_remove(room, 10, 10, 0x21, &length), 0);
    CHECK(length, 1);
    CHECK(memcmp(room, "\x00\x00\x00\x00\x00\x00\x00\x00\x00\x00\x77\x77", 12), 0);
}

static void edits(void)
{
    edits_add();
    edits_replace();
    edits_remove();
    edits_no_sheet();
    edits_refused();
    edits_at_border();
    edits_most();
    edits_reuse();
}

/* One drawn edit of a room whose bodies are known. The sheet of the bodies then is the one written afresh, 0 follows to
 * the old one's end, and nothing else moves (rule: R-9). */
static void drawn_edit(uint8_t *room, size_t room_length, struct sb2_body bodies[4], uint8_t names[4][32],
                       size_t *length)
{
    uint8_t name[32], wanted[200], afresh[SB2_SHEET_ROOM];
    const size_t i = draw() % 4, size = draw() % 33;
    const struct sb2_body kept = bodies[i];
    const bool sets = draw() % 3 != 0;
    size_t after, got;
    for (size_t k = 0; k < size; k++)
        name[k] = (uint8_t)draw();
    memcpy(wanted, room, 200);
    bodies[i] = sets ? (struct sb2_body){true, bytes(name, size)} : (struct sb2_body){false, nothing};
    CHECK(sb2_sheet_write(bodies, afresh, sizeof afresh, &after), 0);
    int answer = sets ? sb2_sheet_set(room, room_length, *length, (uint8_t)(0x20 + i), bytes(name, size), &got)
                      : sb2_sheet_remove(room, room_length, *length, (uint8_t)(0x20 + i), &got);
    CHECK(answer, after > room_length ? 20 : 0);
    CHECK(got, after > room_length ? 0 : after);
    if (after > room_length) {
        bodies[i] = kept;
    } else {
        memset(wanted, 0, *length);
        memcpy(wanted, afresh, after);
        *length = after;
        memcpy(names[i], name, size);
        bodies[i].bytes.at = names[i];
    }
    CHECK(memcmp(room, wanted, 200), 0);
}

/* Series of edits in areas of 1 to 160 bytes, with others behind them. */
static void many_edits(void)
{
    for (size_t room_length = 1; room_length <= 160; room_length++) {
        struct sb2_body bodies[4] = {{false, nothing}, {false, nothing}, {false, nothing}, {false, nothing}};
        uint8_t room[200], names[4][32];
        size_t length = 1;
        for (size_t k = 0; k < sizeof room; k++)
            room[k] = (uint8_t)draw();
        room[0] = 0;
        for (unsigned n = 0; n < 500; n++)
            drawn_edit(room, room_length, bodies, names, &length);
    }
}

/* ---- request R-10 */

/* The player's pack: half of 9,700 mAh, 48,191 mV and −1,234 mA measured, cell i at 3,700 + i mV. */
static struct sb2_thirteen_set_up sprayer(void)
{
    struct sb2_thirteen_set_up in = {.design_capacity = 10000,
                                     .full_capacity = 9700,
                                     .remaining_capacity = 4850,
                                     .design_voltage = 46800,
                                     .state_of_health = 97,
                                     .first = {48191, -1234, 2982, 0}};
    for (uint16_t i = 0; i < 13; i++)
        in.cells[i] = (uint16_t)(3701 + i);
    return in;
}

static struct sb2_thirteen thirteen_made(struct sb2_thirteen_set_up in)
{
    struct sb2_thirteen t;
    CHECK(sb2_thirteen_set_up(&t, &in), 0);
    CHECK(sb2_thirteen_sound(&t), true);
    CHECK(t.error_code, 0);
    return t;
}

/* By their areas, which hold all of it; an error code over 255 doesn't fit. */
static bool same_thirteen(const struct sb2_thirteen *a, const struct sb2_thirteen *b)
{
    uint8_t left[301], right[301];
    sb2_area_thirteen_store(a, left);
    sb2_area_thirteen_store(b, right);
    return a->error_code == b->error_code && memcmp(left, right, 301) == 0;
}

/* The PEC by a long division of the whole message, bit by bit, with eight zeros behind it. */
static uint8_t divided(struct sb2_bytes message)
{
    unsigned rest = 0;
    for (size_t bit = 0; bit < 8 * message.length + 8; bit++) {
        rest = rest << 1 | (bit < 8 * message.length ? message.at[bit / 8] >> (7 - bit % 8) & 1u : 0u);
        if (rest & 0x100)
            rest ^= 0x107;
    }
    return (uint8_t)rest;
}

/* The same transaction in an area: the same answer and room, and of the area only the first byte moves. */
static void thirteen_in_area(const struct sb2_thirteen *before, const struct sb2_thirteen *after, int answer, bool read,
                             struct sb2_bytes message, const uint8_t room[64], size_t room_length)
{
    uint8_t area[301], wanted[301], its_room[64];
    size_t length;
    memset(its_room, 0xA5, sizeof its_room);
    sb2_area_thirteen_store(before, area);
    memcpy(wanted, area, 301);
    wanted[0] = (uint8_t)after->error_code;
    int got = sb2_area_thirteen_transact(area, 301, read, message, its_room + 4, room_length, &length);
    if (got != answer || memcmp(its_room, room, 64) != 0 || memcmp(area, wanted, 301) != 0)
        CHECK(got, -1);
}

/* Answer of a transaction in a watched room, in an area too. Nothing changes but the code, by the answer's row. */
static int thirteen_hears(struct sb2_thirteen *t, bool read, struct sb2_bytes message, size_t room_length,
                          uint8_t reply[SB2_REPLY_ROOM], size_t *length)
{
    static const int codes[] = {0, -1, -1, -1, 6, 7, 2, 3, 4, -2, 5}; /* −1: as it was */
    const struct sb2_thirteen before = *t;
    struct sb2_thirteen wanted = *t;
    uint8_t room[64];
    memset(room, 0xA5, sizeof room);
    int answer = sb2_thirteen_transact(t, read, message, room + 4, room_length, length);
    for (size_t i = 0; i < sizeof room; i++)
        if ((i < 4 || i >= 4 + *length) && room[i] != 0xA5)
            CHECK(room[i], 0xA5);
    if (codes[answer] != -1)
        wanted.error_code = (uint32_t)codes[answer];
    if (!same_thirteen(&wanted, t))
        CHECK(answer, -1);
    if (answer != 0 && answer != 10 && *length != 0)
        CHECK(*length, 0);
    thirteen_in_area(&before, t, answer, read, message, room, room_length);
    memcpy(reply, room + 4, SB2_REPLY_ROOM);
    return answer;
}

static int thirteen_answers(struct sb2_thirteen *t, bool read, struct sb2_bytes message)
{
    uint8_t reply[SB2_REPLY_ROOM];
    size_t length;
    return thirteen_hears(t, read, message, SB2_REPLY_ROOM, reply, &length);
}

/* The word of a read, or −1 and the answer's number below it. */
static long thirteen_word(struct sb2_thirteen *t, uint8_t command)
{
    uint8_t reply[SB2_REPLY_ROOM];
    size_t length;
    int answer = thirteen_hears(t, true, BYTES(0x16, command, 0x17), SB2_REPLY_ROOM, reply, &length);
    if (answer != 0 && answer != 10)
        return -1 - answer;
    if (length != 3)
        CHECK(length, 3);
    if (reply[2] != divided(BYTES(0x16, command, 0x17, reply[0], reply[1])))
        CHECK(reply[2], -1);
    return reply[0] | (long)reply[1] << 8;
}

/* A write of five bytes with its PEC. */
static int thirteen_put(struct sb2_thirteen *t, uint8_t command, unsigned value)
{
    uint8_t message[5] = {0x16, command, (uint8_t)value, (uint8_t)(value >> 8), 0};
    message[4] = divided(bytes(message, 4));
    return thirteen_answers(t, false, bytes(message, 5));
}

/* A sample so much later; the cells stay. */
static void thirteen_takes(struct sb2_thirteen *t, uint16_t voltage, int16_t current, uint16_t temperature, uint32_t ms)
{
    const struct sb2_sample later = {voltage, current, temperature, t->latest.counter + ms};
    const uint32_t code = t->error_code;
    uint8_t area[301], wanted[301];
    sb2_area_thirteen_store(t, area);
    CHECK(sb2_area_thirteen_sample(area, 301, &later, t->cells), 0);
    CHECK(sb2_thirteen_sample(t, &later, t->cells), 0);
    CHECK(same_sample(&t->latest, &later), true);
    CHECK(t->error_code, code);
    CHECK(sb2_thirteen_sound(t), true);
    sb2_area_thirteen_store(t, wanted);
    CHECK(memcmp(area, wanted, 301), 0);
}

/* Each command of the player's pack: 4,850 of 9,700 mAh are 50 percent; 60 x 4,850 ÷ 1,234 are 235.8 minutes. */
static void thirteen_words(void)
{
    struct sb2_thirteen t = thirteen_made(sprayer());
    CHECK(thirteen_word(&t, 0x08), 2982);
    CHECK(thirteen_word(&t, 0x09), 4819);
    CHECK(thirteen_word(&t, 0x0A), 65536 - 123);
    CHECK(thirteen_word(&t, 0x0D), 50);
    CHECK(thirteen_word(&t, 0x11), 235);
    CHECK(thirteen_word(&t, 0x13), 65535);
    CHECK(thirteen_word(&t, 0x16), 0x00C0);
    for (unsigned i = 1; i <= 13; i++)
        CHECK(thirteen_word(&t, (uint8_t)(0x30 + i)), 3700 + i);
    CHECK(thirteen_word(&t, 0x4F), 97);
    static const uint16_t edges[] = {0, 1, 100, 101, 32768, 65535};
    for (size_t i = 0; i < 6; i++) { /* shown as they are */
        struct sb2_thirteen_set_up in = sprayer();
        in.state_of_health = in.first.temperature = in.cells[0] = in.cells[12] = edges[i];
        t = thirteen_made(in);
        CHECK(thirteen_word(&t, 0x4F), edges[i]);
        CHECK(thirteen_word(&t, 0x08), edges[i]);
        CHECK(thirteen_word(&t, 0x31), edges[i]);
        CHECK(thirteen_word(&t, 0x32), 3702);
        CHECK(thirteen_word(&t, 0x3C), 3712);
        CHECK(thirteen_word(&t, 0x3D), edges[i]);
    }
}

/* 09 is rounded down, 0A cut toward zero, both in tens. */
static void thirteen_tens(void)
{
    static const int32_t voltages[][2] = {{0, 0}, {9, 0}, {10, 1}, {19, 1}, {54799, 5479}, {65535, 6553}};
    static const int32_t currents[][2] = {{0, 0},    {9, 0},    {10, 1},   {19, 1},   {32767, 3276},   {-1, 0},
                                          {-9, 0},   {-10, -1}, {-11, -1}, {-19, -1}, {-20, -2},       {-99, -9},
                                          {-100, -10}, {-32760, -3276}, {-32768, -3276}};
    struct sb2_thirteen t = thirteen_made(sprayer());
    for (size_t i = 0; i < sizeof voltages / sizeof *voltages; i++) {
        thirteen_takes(&t, (uint16_t)voltages[i][0], 0, 2982, 0);
        CHECK(thirteen_word(&t, 0x09), voltages[i][1]);
    }
    for (size_t i = 0; i < sizeof currents / sizeof *currents; i++) {
        thirteen_takes(&t, 46800, (int16_t)currents[i][0], 2982, 0);
        CHECK(thirteen_word(&t, 0x0A), currents[i][1] & 0xFFFF);
    }
    CHECK(-3276 & 0xFFFF, 0xF334); /* 65,536 − 3,276 are 62,260 */
    thirteen_takes(&t, 46800, -32768, 2982, 0);
    CHECK(thirteen_word(&t, 0x0A), 0xF334);
}

/* The status of a pack set up with a sample, and of one that takes it. */
static void status_at(int line, uint16_t voltage, int16_t current, uint16_t temperature, long wanted)
{
    struct sb2_thirteen_set_up in = sprayer();
    struct sb2_thirteen t = thirteen_made(in);
    thirteen_takes(&t, voltage, current, temperature, 1000);
    check_at(line, "status after a sample", thirteen_word(&t, 0x16), wanted);
    in.first = (struct sb2_sample){voltage, current, temperature, 0};
    t = thirteen_made(in);
    t.error_code = 7; /* which it doesn't show */
    check_at(line, "status after set-up", thirteen_word(&t, 0x16), wanted);
}
#define STATUS(voltage, current, temperature, wanted) status_at(__LINE__, voltage, current, temperature, wanted)

/* Bits 8 and 9 from the voltage, 6, 10 and 11 from the current. */
static void thirteen_limits(void)
{
    STATUS(45000, 0, 2982, 0x0080); /* bit 7 alone */
    STATUS(0, 0, 2982, 0x0180);
    STATUS(38999, 0, 2982, 0x0180);
    STATUS(39000, 0, 2982, 0x0180);
    STATUS(39001, 0, 2982, 0x0080);
    STATUS(54799, 0, 2982, 0x0080);
    STATUS(54800, 0, 2982, 0x0280);
    STATUS(54801, 0, 2982, 0x0280);
    STATUS(65535, 0, 2982, 0x0280);
    STATUS(22000, 0, 2982, 0x0180); /* 001's 22 V isn't used */
    STATUS(45000, 1, 2982, 0x0080);
    STATUS(45000, -1, 2982, 0x00C0);
    STATUS(45000, 1999, 2982, 0x0080);
    STATUS(45000, 2000, 2982, 0x0480);
    STATUS(45000, 2001, 2982, 0x0480);
    STATUS(45000, 32767, 2982, 0x0480);
    STATUS(45000, -2000, 2982, 0x00C0);
    STATUS(45000, -14999, 2982, 0x00C0);
    STATUS(45000, -15000, 2982, 0x08C0);
    STATUS(45000, -15001, 2982, 0x08C0);
    STATUS(45000, -32768, 2982, 0x08C0);
    STATUS(45000, 15000, 2982, 0x0480);
    STATUS(39000, -15000, 2982, 0x09C0);
    STATUS(54800, 2000, 2982, 0x0680);
}

/* Bit 5 from 1 to 99 mA above 51,000 mV. */
static void thirteen_full(void)
{
    STATUS(51001, -1, 2982, 0x00C0);
    STATUS(51001, 0, 2982, 0x0080);
    STATUS(51001, 1, 2982, 0x00A0);
    STATUS(51001, 99, 2982, 0x00A0);
    STATUS(51001, 100, 2982, 0x0080);
    STATUS(51000, 1, 2982, 0x0080);
    STATUS(51000, 50, 2982, 0x0080);
    STATUS(51000, 99, 2982, 0x0080);
    STATUS(50999, 50, 2982, 0x0080);
    STATUS(51001, -50, 2982, 0x00C0);
    STATUS(54799, 99, 2982, 0x00A0);
    STATUS(54800, 99, 2982, 0x02A0);
    STATUS(65535, 1, 2982, 0x02A0);
    struct sb2_thirteen_set_up in = sprayer();
    in.remaining_capacity = 9700; /* a full charge doesn't set it */
    struct sb2_thirteen t = thirteen_made(in);
    CHECK(thirteen_word(&t, 0x0D), 100);
    CHECK(thirteen_word(&t, 0x16), 0x00C0);
}

/* Bit 12 and bit 13: 0 °C are 2,731.5 in 0.1 K, 50 °C 3,231.5 and 60 °C 3,331.5. */
static void thirteen_temperatures(void)
{
    static const uint16_t at[] = {0, 2730, 2731, 2732, 3230, 3231, 3232, 3233, 3330, 3331, 3332, 3333, 65535};
    for (size_t i = 0; i < sizeof at / sizeof *at; i++) {
        const long cold = at[i] <= 2731 ? 0x1000 : 0, charging = at[i] >= 3232 ? 0x2000 : 0;
        const long discharging = at[i] >= 3332 ? 0x2000 : 0;
        STATUS(45000, 0, at[i], 0x0080 | cold);
        STATUS(45000, 1, at[i], 0x0080 | cold | charging);
        STATUS(45000, -1, at[i], 0x00C0 | cold | discharging);
        STATUS(45000, 32767, at[i], 0x0480 | cold | charging);
        STATUS(45000, -32768, at[i], 0x08C0 | cold | discharging);
    }
    STATUS(45000, 1, 2731, 0x1080);
    STATUS(45000, 1, 2732, 0x0080);
    STATUS(45000, 0, 3332, 0x0080); /* at rest it is never too hot */
    STATUS(45000, 1, 3231, 0x0080);
    STATUS(45000, 1, 3232, 0x2080);
    STATUS(45000, -1, 3331, 0x00C0);
    STATUS(45000, -1, 3332, 0x20C0);
}

/* A pack of 100 mAh with so many left, at rest. */
static struct sb2_thirteen_set_up small_sprayer(uint16_t left)
{
    struct sb2_thirteen_set_up in = sprayer();
    in.design_capacity = in.full_capacity = 100;
    in.remaining_capacity = left;
    in.first = (struct sb2_sample){45000, 0, 2982, 0};
    return in;
}

/* Bit 4: set at charge 0, cleared at 20 percent, which are 72,000,000 mA·ms of 100 mAh, else kept. */
static void thirteen_empty(void)
{
    struct sb2_thirteen t = thirteen_made(small_sprayer(1));
    CHECK(thirteen_word(&t, 0x16), 0x0080);
    t = thirteen_made(small_sprayer(0));
    CHECK(thirteen_word(&t, 0x16), 0x0090);
    thirteen_takes(&t, 45000, 1000, 2982, 1);
    CHECK(thirteen_word(&t, 0x16), 0x0090);
    thirteen_takes(&t, 45000, 1000, 2982, 71998);
    CHECK(t.charge, 71999000);
    CHECK(thirteen_word(&t, 0x0D), 19);
    CHECK(thirteen_word(&t, 0x16), 0x0090);
    thirteen_takes(&t, 45000, 1000, 2982, 1);
    CHECK(thirteen_word(&t, 0x0D), 20);
    CHECK(thirteen_word(&t, 0x16), 0x0080);
    thirteen_takes(&t, 45000, -1000, 2982, 71999);
    CHECK(t.charge, 1000);
    CHECK(thirteen_word(&t, 0x16), 0x00C0); /* still clear at 0 percent */
    thirteen_takes(&t, 45000, -1000, 2982, 1);
    CHECK(thirteen_word(&t, 0x16), 0x00D0);
    thirteen_takes(&t, 45000, 0, 2982, 1000);
    CHECK(thirteen_word(&t, 0x16), 0x0090);
}

/* Charge is held at both ends; full stays, where the first pack would learn it at a low voltage; the counter wraps. */
static void thirteen_samples(void)
{
    struct sb2_thirteen t = thirteen_made(small_sprayer(100));
    thirteen_takes(&t, 45000, 1, 2982, 4294967295u);
    CHECK(t.charge, 360000000);
    thirteen_takes(&t, 0, -1000, 2982, 36000); /* 10 mAh */
    CHECK(t.charge, 324000000);
    CHECK(thirteen_word(&t, 0x0D), 90);
    thirteen_takes(&t, 0, -1000, 2982, 324000);
    CHECK(t.charge, 0);
    thirteen_takes(&t, 0, -32768, 2982, 4294967295u);
    CHECK(t.charge, 0);
    CHECK(t.full_capacity, 100);
    thirteen_takes(&t, 45000, 32767, 2982, 4294967295u);
    CHECK(t.charge, 360000000);
    CHECK(thirteen_word(&t, 0x0D), 100);
    thirteen_takes(&t, 45000, 0, 2982, 4294967295u); /* after storage */
    CHECK(t.charge, 360000000);
    t.latest.counter = 4294967290u;
    thirteen_takes(&t, 45000, -1, 2982, 10);
    CHECK(t.latest.counter, 4);
    CHECK(t.charge, 359999990);
    CHECK(t.design_capacity, 100);
    CHECK(t.design_voltage, 46800);
    CHECK(t.state_of_health, 97);
    /* each sample brings its cells; a refused one changes nothing */
    const uint16_t cells[13] = {0, 65535, 3, 4, 5, 6, 7, 8, 9, 10, 11, 12, 32768};
    const struct sb2_sample later = {1, 2, 3, 4};
    CHECK(sb2_thirteen_sample(&t, &later, cells), 0);
    for (unsigned i = 0; i < 13; i++)
        CHECK(thirteen_word(&t, (uint8_t)(0x31 + i)), cells[i]);
    t.charge = 360000001;
    const struct sb2_thirteen before = t;
    const uint16_t others[13] = {1};
    CHECK(sb2_thirteen_sample(&t, &later, others), 1);
    CHECK(same_thirteen(&before, &t), true);
}

/* So much to go, of 65,535 mAh, at a current of so many mA the command's way; 13 also from a complete second. */
static void thirteen_time_at(int line, uint16_t capacity, int32_t rate, int answer, long wanted)
{
    for (unsigned i = 0; i < 3; i++) {
        const uint8_t command = i == 0 ? 0x11 : 0x13;
        struct sb2_thirteen_set_up in = sprayer();
        in.full_capacity = 65535;
        in.remaining_capacity = i == 0 ? capacity : (uint16_t)(65535 - capacity);
        in.first.current = (int16_t)(i == 0 ? -rate : rate);
        struct sb2_thirteen t = thirteen_made(in);
        if (i == 2) {
            t.minute.count = 1;
            t.minute.total[t.minute.newest] = 1000 * t.latest.current;
            t.latest.current = -t.latest.current;
        }
        t.error_code = 3;
        check_at(line, "minutes", thirteen_word(&t, command), wanted);
        check_at(line, "code", t.error_code, answer == 10 ? 5 : 0);
        check_at(line, "answer", thirteen_answers(&t, true, BYTES(0x16, command, 0x17)), answer);
    }
}
#define THIRTEEN_TIME(capacity, rate, answer, wanted) thirteen_time_at(__LINE__, capacity, rate, answer, wanted)

static void thirteen_times(void)
{
    THIRTEEN_TIME(0, 1, 0, 0);
    THIRTEEN_TIME(1, 60, 0, 1);
    THIRTEEN_TIME(1, 61, 0, 0);
    THIRTEEN_TIME(65533, 60, 0, 65533);
    THIRTEEN_TIME(32767, 30, 0, 65534);  /* exactly */
    THIRTEEN_TIME(62258, 57, 0, 65534);  /* 3,735,480 ÷ 57, 42 over */
    THIRTEEN_TIME(4369, 4, 10, 65534);   /* 65,535 */
    THIRTEEN_TIME(65535, 60, 10, 65534); /* 65,535 */
    THIRTEEN_TIME(16384, 15, 10, 65534); /* 65,536 */
    THIRTEEN_TIME(65535, 1, 10, 65534);
    THIRTEEN_TIME(65535, 32767, 0, 120);
    THIRTEEN_TIME(65535, 0, 0, 65535);
    THIRTEEN_TIME(65535, -1, 0, 65535);
    THIRTEEN_TIME(0, -32767, 0, 65535);
    struct sb2_thirteen_set_up in = sprayer();
    in.full_capacity = in.remaining_capacity = 65535;
    in.first.current = -32768;
    struct sb2_thirteen t = thirteen_made(in);
    CHECK(thirteen_word(&t, 0x11), 119); /* 3,932,100 ÷ 32,768 */
}

/* 11 from the latest current, 13 from the mean of the complete seconds. */
static void thirteen_minute(void)
{
    struct sb2_thirteen_set_up in = sprayer();
    in.full_capacity = 4000;
    in.remaining_capacity = 1999;
    in.first = (struct sb2_sample){45000, 1000, 2982, 0};
    struct sb2_thirteen t = thirteen_made(in);
    CHECK(thirteen_word(&t, 0x13), 120); /* none complete: 60 x 2,001 ÷ 1,000 */
    thirteen_takes(&t, 45000, 1000, 2982, 999);
    thirteen_takes(&t, 45000, 3000, 2982, 0);
    CHECK(thirteen_word(&t, 0x13), 40); /* still none: 60 x 2,001 ÷ 3,000 */
    thirteen_takes(&t, 45000, 1000, 2982, 1);
    thirteen_takes(&t, 45000, 3000, 2982, 1000);
    CHECK(thirteen_word(&t, 0x13), 60); /* 4,000,000 mA·ms more are 2,000 mAh, at 2,000 mA */
    CHECK(thirteen_word(&t, 0x11), 65535);
    thirteen_takes(&t, 45000, -500, 2982, 1000);
    CHECK(thirteen_word(&t, 0x13), 102); /* 1,999.97 mAh; 60 x 2,001 ÷ 1,166, a third of 3,500 */
    CHECK(thirteen_word(&t, 0x11), 239); /* 60 x 1,999 ÷ 500 */
    thirteen_takes(&t, 45000, -500, 2982, 60000);
    CHECK(thirteen_word(&t, 0x13), 65535); /* the minute has the 60 newest alone */
    CHECK(t.minute.count, 60);
}

static bool thirteen_serves(unsigned command)
{
    return (command >= 0x08 && command <= 0x0A) || command == 0x0D || command == 0x11 || command == 0x13 ||
           command == 0x16 || (command >= 0x31 && command <= 0x3D) || command == 0x4F || command == 0xF1;
}

/* Each command's row: read, written with a right PEC, with a wrong one, and with none. */
static void thirteen_commands(void)
{
    unsigned served = 0, not_built = 0;
    for (unsigned command = 0; command < 256; command++) {
        const uint8_t named = (uint8_t)command;
        const bool update = command >= 0xA0 && command <= 0xA2;
        const bool left_out = command == 0 || command == 0x80 || command == 0x81 || update;
        const int refused = left_out ? 7 : 6;
        struct sb2_thirteen t = thirteen_made(sprayer());
        uint8_t message[5] = {0x16, named, 0x10, 0x00, 0};
        CHECK(thirteen_answers(&t, true, BYTES(0x16, named, 0x17)), thirteen_serves(command) ? 0 : refused);
        CHECK(thirteen_put(&t, named, 0x0010), thirteen_serves(command) ? 8 : refused);
        CHECK(thirteen_put(&t, named, command << 8 | 0xFF), thirteen_serves(command) ? 8 : refused);
        CHECK(thirteen_answers(&t, false, bytes(message, 4)), 4);
        for (unsigned bit = 0; bit < 8; bit++) {
            message[4] = (uint8_t)(divided(bytes(message, 4)) ^ 1u << bit);
            CHECK(thirteen_answers(&t, false, bytes(message, 5)), 5);
        }
        served += thirteen_serves(command);
        not_built += left_out;
    }
    CHECK(served, 7 + 13 + 2);
    CHECK(not_built, 6);
}

/* Every first byte but 16 is 3; every size and form but those of its reads and writes is 4, before 5, 6, 7 and 8. */
static void thirteen_forms(void)
{
    struct sb2_thirteen t = thirteen_made(sprayer());
    uint8_t message[40] = {0};
    CHECK(thirteen_answers(&t, true, nothing), 3);
    CHECK(thirteen_answers(&t, false, nothing), 3);
    for (unsigned first = 0; first < 256; first++)
        for (size_t length = 1; length <= 6; length++) {
            const uint8_t sent[6] = {(uint8_t)first, 0x09, 0x17, 0, 0, 0};
            if (first == 0x16)
                continue;
            CHECK(thirteen_answers(&t, true, bytes(sent, length)), 3);
            CHECK(thirteen_answers(&t, false, bytes(sent, length)), 3);
        }
    for (size_t length = 1; length <= sizeof message; length++) {
        memcpy(message, "\x16\x09\x17", 3);
        CHECK(thirteen_answers(&t, true, bytes(message, length)), length == 3 ? 0 : 4);
        CHECK(thirteen_answers(&t, false, bytes(message, length)), length == 5 ? 5 : 4);
    }
    for (unsigned third = 0; third < 256; third++) {
        CHECK(thirteen_answers(&t, true, BYTES(0x16, 0xF1, (uint8_t)third)), third == 0x17 ? 0 : 4);
        CHECK(thirteen_answers(&t, true, BYTES(0x16, 0x80, (uint8_t)third)), third == 0x17 ? 7 : 4);
        CHECK(thirteen_answers(&t, true, BYTES(0x16, 0x17, (uint8_t)third)), third == 0x17 ? 6 : 4);
    }
    CHECK(thirteen_answers(&t, false, BYTES(0x16, 0x09, 0x17)), 4);
    /* 001's own writes: Shutdown with its PEC and without, A2 with one byte, the packet of 36 bytes */
    CHECK(thirteen_answers(&t, false, BYTES(0x16, 0x00, 0x10, 0x00, 0x44)), 7);
    CHECK(thirteen_answers(&t, false, BYTES(0x16, 0x00, 0x10, 0x00)), 4);
    CHECK(thirteen_answers(&t, false, BYTES(0x16, 0xA2, 0x00)), 4);
    memcpy(message, "\x16\xA1\x00\x01", 4);
    CHECK(thirteen_answers(&t, false, bytes(message, 36)), 4);
}

/* 1 before 2 before 3; 2 under 34 bytes of room, for a word and a write too. */
static void thirteen_rooms(void)
{
    struct sb2_thirteen t = thirteen_made(sprayer());
    uint8_t reply[SB2_REPLY_ROOM];
    size_t length;
    t.error_code = 5; /* stays after 1, 2 and 3 */
    for (size_t room_length = 0; room_length < 34; room_length++) {
        CHECK(thirteen_hears(&t, true, BYTES(0x16, 0x09, 0x17), room_length, reply, &length), 2);
        CHECK(thirteen_hears(&t, true, BYTES(0x16, 0xF1, 0x17), room_length, reply, &length), 2);
        CHECK(thirteen_hears(&t, false, BYTES(0x16, 0x09, 0, 0), room_length, reply, &length), 2);
        CHECK(thirteen_hears(&t, false, nothing, room_length, reply, &length), 2);
    }
    CHECK(thirteen_hears(&t, true, BYTES(0x14, 0x09, 0x17), 34, reply, &length), 3);
    CHECK(t.error_code, 5);
    for (size_t room_length = 34; room_length <= 40; room_length++) {
        CHECK(thirteen_hears(&t, true, BYTES(0x16, 0x09, 0x17), room_length, reply, &length), 0);
        CHECK(memcmp(reply, "\xD3\x12\x90", 3), 0);
    }
    t.charge = UINT64_C(9700) * 3600000 + 1;
    t.error_code = 5;
    CHECK(thirteen_hears(&t, true, BYTES(0x16, 0x09, 0x17), 34, reply, &length), 1);
    CHECK(thirteen_hears(&t, false, nothing, 0, reply, &length), 1);
    CHECK(t.error_code, 5);
}

/* The code after each answer, from a code of its own; a read of the status neither shows nor needs it. */
static void thirteen_codes(void)
{
    struct sb2_thirteen_set_up in = sprayer();
    in.remaining_capacity = 9700;
    in.first.current = -1; /* 582,000 minutes */
    for (uint32_t before = 0; before <= 7; before++) {
        struct sb2_thirteen t = thirteen_made(in);
#define CODE(answer, code, read, ...)                                                       \
    do {                                                                                    \
        t.error_code = before;                                                              \
        CHECK(thirteen_answers(&t, read, BYTES(__VA_ARGS__)), answer);                      \
        CHECK(t.error_code, code);                                                          \
        CHECK(sb2_thirteen_sound(&t), true);                                                \
    } while (0)
        CODE(0, 0, true, 0x16, 0x09, 0x17);
        CODE(0, 0, true, 0x16, 0xF1, 0x17);
        CODE(0, 0, true, 0x16, 0x16, 0x17);
        CODE(0, 0, true, 0x16, 0x13, 0x17);
        CODE(3, before, true, 0x12, 0x09, 0x13);
        CODE(4, 6, false, 0x16, 0x4F, 0x61, 0x00);
        CODE(4, 6, true, 0x16, 0x4F);
        CODE(5, 7, false, 0x16, 0x4F, 0x61, 0x00, 0x33);
        CODE(6, 2, false, 0x16, 0x17, 0x00, 0x00, 0xA7);
        CODE(6, 2, true, 0x16, 0x17, 0x17);
        CODE(7, 3, false, 0x16, 0xA2, 0x00, 0x00, 0x8D);
        CODE(7, 3, true, 0x16, 0x80, 0x17);
        CODE(8, 4, false, 0x16, 0x4F, 0x61, 0x00, 0x32);
        CODE(8, 4, false, 0x16, 0xF1, 0x00, 0x00, 0x14);
        CODE(10, 5, true, 0x16, 0x11, 0x17);
    }
}

/* F1: 26 bytes with no count before them; its exchange of 30 bytes ends in their PEC. */
static void thirteen_block(void)
{
    static const uint8_t wanted[27] = {0x75, 0x0E, 0x76, 0x0E, 0x77, 0x0E, 0x78, 0x0E, 0x79, 0x0E, 0x7A, 0x0E, 0x7B,
                                       0x0E, 0x7C, 0x0E, 0x7D, 0x0E, 0x7E, 0x0E, 0x7F, 0x0E, 0x80, 0x0E, 0x81, 0x0E,
                                       0x3C};
    struct sb2_thirteen t = thirteen_made(sprayer());
    uint8_t reply[SB2_REPLY_ROOM], exchange[30] = {0x16, 0xF1, 0x17};
    size_t length, accepted = 0;
    bool right;
    CHECK(thirteen_hears(&t, true, BYTES(0x16, 0xF1, 0x17), 34, reply, &length), 0);
    CHECK(length, 27);
    CHECK(memcmp(reply, wanted, 27), 0); /* 3,701 to 3,713 are 0E75 to 0E81 */
    memcpy(exchange + 3, reply, 27);
    CHECK(divided(bytes(exchange, 29)), 0x3C);
    CHECK(sb2_check_exchange(bytes(exchange, 30), &right), 0);
    CHECK(right, true);
    /* of its 240 bits each one turned is seen, and each two unless they stand 127 apart, as 113 pairs do */
    for (unsigned i = 0; i < 240; i++)
        for (unsigned j = i; j < 240; j++) {
            exchange[i / 8] ^= (uint8_t)(1u << (7 - i % 8));
            if (j != i)
                exchange[j / 8] ^= (uint8_t)(1u << (7 - j % 8));
            (void)sb2_check_exchange(bytes(exchange, 30), &right);
            if (right != (j - i == 127))
                CHECK(right, j - i == 127);
            accepted += right;
            exchange[i / 8] ^= (uint8_t)(1u << (7 - i % 8));
            if (j != i)
                exchange[j / 8] ^= (uint8_t)(1u << (7 - j % 8));
        }
    CHECK(accepted, 113);
    for (unsigned i = 0; i < 13; i++) { /* each cell at its place */
        struct sb2_thirteen_set_up in = sprayer();
        memset(in.cells, 0, sizeof in.cells);
        in.cells[i] = 0xA55A;
        t = thirteen_made(in);
        CHECK(thirteen_hears(&t, true, BYTES(0x16, 0xF1, 0x17), 34, reply, &length), 0);
        for (unsigned k = 0; k < 26; k++)
            CHECK(reply[k], k == 2 * i ? 0x5A : k == 2 * i + 1 ? 0xA5 : 0);
        memcpy(exchange + 3, reply, 26);
        CHECK(reply[26], divided(bytes(exchange, 29)));
    }
}

/* A right write turned in one to three bits is 3 or 5, never one of the answers to a right one. */
static void thirteen_turned(void)
{
    static const uint8_t write[5] = {0x16, 0x4F, 0x61, 0x00, 0x32};
    struct sb2_thirteen t = thirteen_made(sprayer());
    unsigned tried = 0, taken = 0;
    CHECK(thirteen_answers(&t, false, bytes(write, 5)), 8);
    for (unsigned n = 0; n < 40 * 40 * 40; n++) {
        unsigned i = n % 40, j = n / 40 % 40, k = n / 1600;
        uint8_t turned[5];
        if (j < i || k < j || (i == j && j < k)) /* i = j = k turns one bit, j = k two */
            continue;
        memcpy(turned, write, 5);
        turned[i / 8] ^= (uint8_t)(1u << i % 8);
        if (j != i)
            turned[j / 8] ^= (uint8_t)(1u << j % 8);
        if (k != j)
            turned[k / 8] ^= (uint8_t)(1u << k % 8);
        int answer = thirteen_answers(&t, false, bytes(turned, 5));
        taken += answer != (turned[0] == 0x16 ? 5 : 3);
        tried++;
    }
    CHECK(tried, 40 + 780 + 9880);
    CHECK(taken, 0);
}

/* Each bound from both sides; the same of its area. */
static void thirteen_sound(void)
{
#define THIRTEEN_SOUND(change, wanted)                             \
    do {                                                           \
        struct sb2_thirteen t = thirteen_made(small_sprayer(50));  \
        uint8_t area[301];                                         \
        change;                                                    \
        CHECK(sb2_thirteen_sound(&t), wanted);                     \
        sb2_area_thirteen_store(&t, area);                         \
        CHECK(sb2_area_thirteen_sound(bytes(area, 301)), wanted);  \
    } while (0)
    THIRTEEN_SOUND(t.design_capacity = 1, true);
    THIRTEEN_SOUND(t.design_capacity = 0, false);
    THIRTEEN_SOUND(t.design_voltage = 1, true);
    THIRTEEN_SOUND(t.design_voltage = 0, false);
    THIRTEEN_SOUND((t.full_capacity = 1, t.charge = 0), true);
    THIRTEEN_SOUND((t.full_capacity = 0, t.charge = 0), false);
    THIRTEEN_SOUND(t.charge = 0, true);
    THIRTEEN_SOUND(t.charge = 360000000, true); /* 100 x 3,600,000 */
    THIRTEEN_SOUND(t.charge = 360000001, false);
    THIRTEEN_SOUND(t.charge = UINT64_MAX, false);
    THIRTEEN_SOUND((t.full_capacity = 65535, t.charge = UINT64_C(235926000000)), true); /* 65,535 x 3,600,000 */
    THIRTEEN_SOUND((t.full_capacity = 65535, t.charge = UINT64_C(235926000001)), false);
    THIRTEEN_SOUND(t.fully_discharged = true, true);
    THIRTEEN_SOUND(t.minute.count = 60, true);
    THIRTEEN_SOUND(t.minute.count = 61, false);
    THIRTEEN_SOUND(t.minute.count = 255, false);
    THIRTEEN_SOUND((t.minute.count = 1, t.minute.total[0] = 32767000), true);
    THIRTEEN_SOUND((t.minute.count = 1, t.minute.total[0] = 32767001), false);
    THIRTEEN_SOUND((t.minute.count = 1, t.minute.total[0] = -32768000), true);
    THIRTEEN_SOUND((t.minute.count = 1, t.minute.total[0] = -32768001), false);
    THIRTEEN_SOUND((t.minute.count = 60, t.minute.total[1] = -32768001), false); /* the oldest, the newest at 0 */
    THIRTEEN_SOUND((t.minute.count = 59, t.minute.total[1] = -32768001), true);  /* not looked at */
    THIRTEEN_SOUND(t.minute.total[0] = INT32_MAX, true);
    THIRTEEN_SOUND(t.minute.begun_ms = 999, true);
    THIRTEEN_SOUND(t.minute.begun_ms = 1000, false);
    THIRTEEN_SOUND(t.minute.begun_total = 1, false);
    THIRTEEN_SOUND(t.minute.begun_total = -1, false);
    THIRTEEN_SOUND((t.minute.begun_ms = 1, t.minute.begun_total = 32767), true);
    THIRTEEN_SOUND((t.minute.begun_ms = 1, t.minute.begun_total = 32768), false);
    THIRTEEN_SOUND((t.minute.begun_ms = 999, t.minute.begun_total = -32735232), true); /* −32,768 x 999 */
    THIRTEEN_SOUND((t.minute.begun_ms = 999, t.minute.begun_total = -32735233), false);
    THIRTEEN_SOUND(t.error_code = 7, true);
    THIRTEEN_SOUND(t.error_code = 8, false);
    THIRTEEN_SOUND(t.error_code = 255, false);
    THIRTEEN_SOUND(t.state_of_health = 65535, true);
    THIRTEEN_SOUND((t.cells[0] = 0, t.cells[12] = 65535), true);
    THIRTEEN_SOUND((t.latest = (struct sb2_sample){65535, -32768, 65535, 4294967295u}), true);
}

/* Refused as the first pack's is: all zero, which isn't sound; in an area what stood there stays. */
static void thirteen_set_ups(void)
{
    struct sb2_thirteen t, none;
    uint8_t area[301], kept[301];
    memset(&none, 0, sizeof none);
    CHECK(sb2_thirteen_sound(&none), false);
    memset(area, 0xA5, sizeof area);
    memcpy(kept, area, sizeof area);
#define REFUSED(change)                                        \
    do {                                                       \
        struct sb2_thirteen_set_up in = sprayer();             \
        change;                                                \
        CHECK(sb2_thirteen_set_up(&t, &in), 11);               \
        CHECK(same_thirteen(&t, &none), true);                 \
        CHECK(sb2_area_thirteen_set_up(area, 301, &in), 11);   \
        CHECK(memcmp(area, kept, 301), 0);                     \
        CHECK(sb2_area_thirteen_set_up(area, 300, &in), 1);    \
    } while (0)
    REFUSED(in.design_capacity = 0);
    REFUSED(in.design_voltage = 0);
    REFUSED(in.full_capacity = in.remaining_capacity = 0);
    REFUSED(in.remaining_capacity = 9701);
    REFUSED(in.remaining_capacity = 65535);
    REFUSED((in.full_capacity = 1, in.remaining_capacity = 2));
    struct sb2_thirteen_set_up in = sprayer();
    in.remaining_capacity = 9700;
    t = thirteen_made(in);
    CHECK(t.charge, UINT64_C(34920000000)); /* 9,700 x 3,600,000 */
    in.design_capacity = in.full_capacity = in.remaining_capacity = in.design_voltage = 1;
    t = thirteen_made(in);
    CHECK(t.charge, 3600000);
    in.full_capacity = 65535; /* above design */
    in.remaining_capacity = 0;
    in.state_of_health = 0;
    t = thirteen_made(in);
    CHECK(t.fully_discharged, true);
    CHECK(t.minute.count, 0);
    CHECK(t.minute.begun_ms, 0);
}

/* Each number at its place, after samples across the wrap: 3,600,000 and 798 mA·ms are 36F19E. */
static void thirteen_area(void)
{
    static const uint8_t front[54] = {
        2,    0x34, 0x12, 0x78, 0x56, 0xBC, 0x9A,                   /* code, design capacity and voltage, health */
        0xD0, 0xB6, 0x9C, 0xFF, 0xA6, 0x0B, 0xEC, 0x08, 0,    0,    /* 46,800 mV, −100 mA, 2,982, 2,284 ms */
        0x75, 0x0E, 0x76, 0x0E, 0x77, 0x0E, 0x78, 0x0E, 0x79, 0x0E, 0x7A, 0x0E, 0x7B, 0x0E,
        0x7C, 0x0E, 0x7D, 0x0E, 0x7E, 0x0E, 0x7F, 0x0E, 0x80, 0x0E, 0x81, 0x0E,
        0x9E, 0xF1, 0x36, 0,    0,    0,    0,    0,    0x01, 0x02, 0}; /* charge, full, bit 4 */
    static const uint8_t newest_first[8] = {0xFE, 0xFF, 0xFF, 0xFF, 0xE8, 0x03, 0, 0}; /* −2 and 1,000 mA·ms */
    static const uint8_t end[7] = {2, 0x2C, 0x01, 0x38, 0xFF, 0xFF, 0xFF};             /* 2; 300 ms; −200 mA·ms */
    static const int32_t flows[6][2] = {{1, 1000}, {0, 800}, {1, 198}, {-100, 2}, {0, 298}, {-100, 2}};
    struct sb2_thirteen_set_up in = sprayer();
    struct sb2_thirteen t, back;
    uint8_t area[301], again[301];
    in.design_capacity = 0x1234;
    in.design_voltage = 0x5678;
    in.state_of_health = 0x9ABC;
    in.full_capacity = 0x0201;
    in.remaining_capacity = 1;
    in.first = (struct sb2_sample){46800, 5, 2982, 0xFFFFFFF0u};
    t = thirteen_made(in);
    for (size_t i = 0; i < 6; i++)
        thirteen_takes(&t, 46800, (int16_t)flows[i][0], 2982, (uint32_t)flows[i][1]);
    CHECK(thirteen_answers(&t, true, BYTES(0x16, 0x17, 0x17)), 6);
    memset(area, 0xA5, sizeof area);
    sb2_area_thirteen_store(&t, area);
    for (size_t i = 0; i < 54; i++)
        CHECK(area[i], front[i]);
    CHECK(memcmp(area + 54, newest_first, 8), 0);
    for (size_t i = 62; i < 294; i++)
        CHECK(area[i], 0);
    CHECK(memcmp(area + 294, end, 7), 0);
    CHECK(sb2_area_thirteen_load(bytes(area, 301), &back), true);
    CHECK(same_thirteen(&t, &back), true);
    CHECK(back.minute.begun_total, -200);
    /* set up there, it is what the struct's store gives; bit 4 has its byte, and charge all eight */
    in.remaining_capacity = 0;
    CHECK(sb2_area_thirteen_set_up(again, 301, &in), 0);
    t = thirteen_made(in);
    sb2_area_thirteen_store(&t, area);
    CHECK(memcmp(area, again, 301), 0);
    CHECK(area[0], 0);
    CHECK(area[53], 1);
    for (size_t i = 54; i < 301; i++)
        CHECK(area[i], 0); /* no second, none begun */
    t.charge = UINT64_C(0x8877665544332211);
    sb2_area_thirteen_store(&t, area);
    for (unsigned i = 0; i < 8; i++)
        CHECK(area[43 + i], 0x11 * (i + 1));
    CHECK(sb2_area_thirteen_load(bytes(area, 301), &back) && back.charge == t.charge, true);
}

/* Each entry answers 1 to bytes that are no area or aren't sound, and leaves them and its room. */
static void no_thirteen_at(int line, const uint8_t *given, size_t size)
{
    const struct sb2_thirteen_set_up in = sprayer();
    uint8_t area[640], room[34];
    size_t length = 9;
    memcpy(area, given, sizeof area);
    memset(room, 0xA5, sizeof room);
    check_at(line, "sound", sb2_area_thirteen_sound(bytes(area, size)), false);
    check_at(line, "sample", sb2_area_thirteen_sample(area, size, &in.first, in.cells), 1);
    check_at(line, "read", sb2_area_thirteen_transact(area, size, true, BYTES(0x16, 9, 0x17), room, 34, &length), 1);
    check_at(line, "length", (long long)length, 0);
    check_at(line, "no room", sb2_area_thirteen_transact(area, size, false, nothing, room, 0, &length), 1);
    if (size != 301)
        check_at(line, "set-up", sb2_area_thirteen_set_up(area, size, &in), 1);
    check_at(line, "area", memcmp(area, given, sizeof area), 0);
    for (size_t i = 0; i < sizeof room; i++)
        if (room[i] != 0xA5)
            check_at(line, "room", room[i], 0xA5);
}
#define NO_THIRTEEN(area, size) no_thirteen_at(__LINE__, area, size)

static void thirteen_no_area(void)
{
    struct sb2_thirteen_set_up in = sprayer();
    uint8_t area[640];
    memset(area, 0, sizeof area);
    NO_THIRTEEN(area, 301); /* all zero isn't sound */
    in.full_capacity = 65535;
    in.remaining_capacity = 0;
    CHECK(sb2_area_thirteen_set_up(area, 301, &in), 0);
    CHECK(sb2_area_thirteen_sound(bytes(area, 301)), true);
    for (size_t size = 0; size <= sizeof area; size++)
        if (size != 301)
            NO_THIRTEEN(area, size);
    for (unsigned flag = 2; flag < 256; flag++) {
        area[53] = (uint8_t)flag;
        NO_THIRTEEN(area, 301);
    }
    area[53] = 1;
    /* one byte FF: code; charge from 2^40 − 2^32, where full is 235,926,000,000; flag; count; ms from 65,280; a total
     * of no ms */
    for (unsigned at = 0; at < 301; at++) {
        const uint8_t kept = area[at];
        area[at] = 0xFF;
        const bool bad = at == 0 || (at >= 47 && at <= 50) || at == 53 || at == 294 || at >= 296;
        CHECK(sb2_area_thirteen_sound(bytes(area, 301)), !bad);
        if (bad)
            NO_THIRTEEN(area, 301);
        area[at] = kept;
    }
}

/* Beside the first pack, which learns nothing without a limit: on the same samples the same charge, bit 4, minute and
 * words, byte by byte. */
static void thirteen_beside(void)
{
    uint8_t area[SB2_AREA], cells[301], room[SB2_REPLY_ROOM], reply[SB2_REPLY_ROOM];
    static const uint8_t shared[] = {0x08, 0x0D, 0x11, 0x13};
    struct sb2_thirteen_set_up in = sprayer();
    struct sb2_set_up first = usual;
    size_t length, its_length;
    first.design_capacity = in.design_capacity;
    first.full_capacity = in.full_capacity = 300;
    first.remaining_capacity = in.remaining_capacity = 40;
    first.first = in.first;
    CHECK(sb2_area_set_up(area, sizeof area, &first), 0);
    CHECK(sb2_area_thirteen_set_up(cells, 301, &in), 0);
    struct sb2_sample sample = in.first;
    for (unsigned n = 0; n < 20000; n++) {
        sample = draw_sample(sample.counter);
        CHECK(sb2_area_take_sample(area, sizeof area, &sample, room, sizeof room, &length), 0);
        CHECK(sb2_area_thirteen_sample(cells, 301, &sample, in.cells), 0);
        CHECK(memcmp(area + SB2_LATEST_AT, cells + 7, 10), 0);
        CHECK(memcmp(area + SB2_TANK_AT, cells + 43, 10), 0);
        CHECK(area[SB2_TANK_AT + 12], cells[53]);
        CHECK(memcmp(area + SB2_RECENT_AT, cells + 54, 247), 0);
        const uint8_t ask[3] = {0x16, shared[n % 4], 0x17};
        int answer = sb2_area_transact(area, sizeof area, true, bytes(ask, 3), NO_NAMES, NO_NAMES, room, sizeof room,
                                       &length);
        CHECK(sb2_area_thirteen_transact(cells, 301, true, bytes(ask, 3), reply, sizeof reply, &its_length), answer);
        CHECK(length == its_length && memcmp(room, reply, length) == 0, true);
        CHECK(area[0], cells[0]);
    }
}

static void thirteen(void)
{
    thirteen_words();
    thirteen_tens();
    thirteen_limits();
    thirteen_full();
    thirteen_temperatures();
    thirteen_empty();
    thirteen_samples();
    thirteen_times();
    thirteen_minute();
    thirteen_commands();
    thirteen_forms();
    thirteen_rooms();
    thirteen_codes();
    thirteen_block();
    thirteen_turned();
    thirteen_sound();
    thirteen_set_ups();
    thirteen_area();
    thirteen_no_area();
}

int main(void)
{
    worked_examples();
    player_example();
    check_bytes();
    specification_values();
    answers_in_order();
    registers();
    cut_off();
    cut_off_in_power_mode();
    whole_words();
    clock_and_broadcasts();
    the_minute();
    long_samples();
    the_mechanic();
    cycles();
    many_cycles();
    last_cycle();
    runs_open_and_end();
    run_closes();
    run_at_full();
    learned_least();
    learned_most();
    learned_above_design();
    messages_with_pec();
    messages_in_plain();
    rooms_for_messages();
    turned_messages();
    sheets();
    captures();
    steps();
    keys();
    areas();
    choice_in_area();
    minute_in_area();
    tank_in_area();
    shelf();
    charger();
    edits();
    thirteen();
    minutes_by_sums();
    either_choice();
    runs_by_history();
    long_work();
    many_edits();
    thirteen_beside();
    printf("second: %u passed, %u failed\n", passed, failed);
    return failed == 0 ? 0 : 1;
}
