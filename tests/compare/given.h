/* What the entries are given: set-ups, times, messages, right or damaged, cells, rooms. */
#ifndef GIVEN_H
#define GIVEN_H

#include "lent.h"

enum { ROOM_MOST = 200, CELL_BYTES = 2 * SB2_CELLS };

static inline size_t room_size(size_t least)
{
    switch (below(20)) {
    case 0: return least - 1;
    case 1: return below(ROOM_MOST + 1);
    case 2: return below((uint32_t)least);
    case 3: return least + below(8);
    default: return least;
    }
}

/* What set-up may be given; likely, what it serves. */
static inline struct sb2_set_up some_set_up(bool likely)
{
    struct sb2_set_up in = {
        .design_capacity = some_word(), .full_capacity = some_word(), .remaining_capacity = some_word(),
        .design_voltage = some_word(), .max_error = some_word(), .cycle_count = some_word(),
        .manufacture_date = some_word(), .serial_number = some_word(), .charging_current = some_word(),
        .charging_voltage = some_word(), .temperature_limit = some_word(), .discharge_limit = some_word(),
        .plain = one_in(2), .first = {some_word(), some_current(), some_word(), (uint32_t)draw()}};
    if (likely) {
        in.design_capacity |= 1;
        in.full_capacity |= 1;
        in.design_voltage = (uint16_t)(1 + below(one_in(2) ? 65535 : 20000));
        in.remaining_capacity = one_in(4) ? 0 : one_in(4) ? in.full_capacity : (uint16_t)below(in.full_capacity + 1u);
    }
    if (one_in(4))
        in.first.counter = 0xFFFFFFFFu - below(100000);
    return in;
}

static inline uint32_t some_elapsed(void)
{
    static const uint32_t edges[] = {0,     1,     999,   1000,  1001,  9999,  10000, 10001,
                                     29999, 30000, 30001, 59999, 60000, 60001, 61000, 0xFFFFFFFF};
    switch (below(8)) {
    case 0: return edges[below(sizeof edges / sizeof *edges)];
    case 1: return (uint32_t)draw();
    case 2: return below(100000);
    case 3: return below(20) * 1000;
    default: return 1000;
    }
}

static inline void put_write(uint8_t message[5], uint8_t address, uint8_t command, uint16_t word)
{
    const uint8_t four[4] = {address, command, (uint8_t)(word & 0xFF), (uint8_t)(word >> 8)};
    memcpy(message, four, 4);
    message[4] = sb2_pec(bytes_of(four, 4));
}

/* One to three altered bits of a message that has so many bytes. */
static inline void alter(uint8_t *message, size_t length, uint32_t bits)
{
    uint8_t was[AREA_MOST];
    memcpy(was, message, length);
    while (bits > 0) {
        uint32_t place = below(8 * (uint32_t)length);
        uint8_t mask = (uint8_t)(1u << place % 8);
        if ((message[place / 8] ^ was[place / 8]) & mask)
            continue; /* altered already */
        message[place / 8] ^= mask;
        bits--;
    }
}

/* Leaves a message as it is, mostly, or damages it in one way; gives its length. */
static inline size_t damage(uint8_t at[64], size_t length, bool *read, const uint8_t addresses[4])
{
    switch (below(24)) {
    case 0: alter(at, length, 1 + below(3)); break;
    case 1: *read = !*read; break;
    case 2: length = below((uint32_t)length); break;
    case 3: fill(at + length, 40), length += below(36); break;
    case 4: fill(at, 64), length = below(65); break;
    case 5: at[0] = one_in(4) ? (uint8_t)draw() : addresses[below(4)]; break;
    case 6: at[length - 1] = (uint8_t)draw(); break;
    default: break;
    }
    return length;
}

static inline uint8_t some_command(void)
{
    switch (below(16)) {
    case 0: return (uint8_t)draw();
    case 1: return (uint8_t)below(64);
    case 2: return (uint8_t)(0x3C + below(4));
    case 3: case 4: return (uint8_t)(0x20 + below(5));
    case 5: return 0x03;
    default: return (uint8_t)below(0x1D);
    }
}

/* A message with its mark, right or damaged; gives its length. */
static inline size_t some_message(uint8_t at[64], bool *read)
{
    size_t length = 3;
    at[0] = 0x16;
    at[1] = some_command();
    at[2] = 0x17;
    *read = true;
    if (one_in(2)) {
        uint16_t word = some_word();
        if (one_in(4)) {
            at[1] = 0x03;
            word = (uint16_t)(below(8) << 13);
        } else if (!one_in(8)) {
            at[1] = (uint8_t)below(5);
        }
        at[2] = (uint8_t)(word & 0xFF);
        at[3] = (uint8_t)(word >> 8);
        *read = false;
        length = 4;
        if (one_in(2)) {
            at[4] = sb2_pec(bytes_of(at, 4));
            length = 5;
        }
    }
    switch (below(24)) {
    case 0: at[below((uint32_t)length)] ^= (uint8_t)(1u << below(8)); break;
    case 1: *read = !*read; break;
    case 2: length = below((uint32_t)length); break;
    case 3: fill(at + length, 40), length += below(36); break;
    case 4: fill(at, 64), length = below(65); break;
    default: break;
    }
    return length;
}

/* Moves one byte of one row, or the count of rows, by one. */
static inline void bend_sheet(uint8_t at[145])
{
    size_t place = one_in(6) ? 0 : 1 + 4 * below(at[0] ? at[0] : 1) + below(4);
    at[place] = (uint8_t)(at[place] + (one_in(2) ? 1 : -1));
}

/* ---- the charger */

/* A word that a command can be given: every bit of 12 and 16 alone, with others, and not at all. */
static inline uint16_t charger_word(uint8_t command)
{
    if (command == 0x12)
        return (uint16_t)(below(16) | (one_in(4) ? draw() << 4 : 0));
    if (command == 0x16)
        return (uint16_t)(one_in(3) ? 1u << below(16) : one_in(3) ? below(0x1000) : draw());
    return one_in(6) ? 0 : some_word();
}

/* A message with its mark, right or damaged; gives its length. */
static inline size_t some_charger_message(uint8_t at[64], bool *read)
{
    static const uint8_t addresses[] = {0x10, 0x13, 0x16, 0x17};
    uint8_t command = (uint8_t)(one_in(8) ? draw() : 0x11 + below(6));
    uint16_t word = charger_word(command);
    size_t length = 3;
    *read = command == 0x11 || command == 0x13 ? !one_in(4) : command > 0x16 || command < 0x11 ? one_in(2) : one_in(6);
    at[0] = 0x12;
    at[1] = command;
    at[2] = *read ? 0x13 : (uint8_t)(word & 0xFF);
    at[3] = (uint8_t)(word >> 8);
    if (!*read) {
        at[4] = sb2_pec(bytes_of(at, 4));
        length = 4 + below(2);
    }
    return damage(at, length, read, addresses);
}

static inline size_t charger_room(void)
{
    return one_in(12) ? below(6) : one_in(12) ? below(ROOM_MOST + 1) : SB2_CHARGER_ROOM;
}

/* ---- the thirteen-cell pack */

static const uint8_t thirteen_served[22] = {0x08, 0x09, 0x0A, 0x0D, 0x11, 0x13, 0x16, 0x31, 0x32, 0x33, 0x34,
                                            0x35, 0x36, 0x37, 0x38, 0x39, 0x3A, 0x3B, 0x3C, 0x3D, 0x4F, 0xF1};
static const uint8_t thirteen_not_built[6] = {0x00, 0x80, 0x81, 0xA0, 0xA1, 0xA2};

/* Voltages of the cells, at borders too. */
static inline void some_cells(uint16_t cells[SB2_CELLS])
{
    for (size_t i = 0; i < SB2_CELLS; i++)
        cells[i] = one_in(2) ? (uint16_t)(3000 + below(1201)) : some_word();
}

/* They are lent for reading, and end where a page begins that can't be read. */
static inline const uint16_t *lend_cells(const uint16_t cells[SB2_CELLS])
{
    const void *at = lend(0, (const uint8_t *)cells, CELL_BYTES).at;
    return at;
}

/* What is measured: any, or about the limits that the status looks at. */
static inline struct sb2_sample thirteen_measured(uint32_t counter)
{
    static const uint16_t voltages[] = {39000, 51001, 54800}, temperatures[] = {2731, 3231, 3331};
    static const int16_t currents[] = {-15000, -9, -1, 0, 1, 9, 99, 2000};
    struct sb2_sample sample = {some_word(), some_current(), some_word(), counter};
    if (!one_in(4))
        sample.voltage = one_in(2) ? (uint16_t)(voltages[below(3)] - 1 + below(3)) : (uint16_t)(39000 + below(16000));
    if (one_in(2))
        sample.current = (int16_t)(currents[below(8)] - 1 + (int32_t)below(3));
    if (!one_in(4))
        sample.temperature = one_in(2) ? (uint16_t)(temperatures[below(3)] + below(2)) : (uint16_t)(2700 + below(700));
    return sample;
}

/* What set-up may be given; likely, what it serves. */
static inline struct sb2_thirteen_set_up some_thirteen_set_up(bool likely)
{
    struct sb2_thirteen_set_up in = {.design_capacity = some_word(), .full_capacity = some_word(),
                                     .remaining_capacity = some_word(), .design_voltage = some_word(),
                                     .state_of_health = one_in(2) ? (uint16_t)below(101) : some_word()};
    in.first = thirteen_measured(one_in(4) ? 0xFFFFFFFFu - below(100000) : (uint32_t)draw());
    some_cells(in.cells);
    if (likely) {
        in.design_capacity |= 1;
        in.full_capacity |= 1;
        in.design_voltage |= 1;
        in.remaining_capacity = one_in(4) ? 0 : one_in(4) ? in.full_capacity : (uint16_t)below(in.full_capacity + 1u);
    }
    return in;
}

static inline uint8_t thirteen_command(void)
{
    if (one_in(6))
        return (uint8_t)draw();
    return one_in(5) ? thirteen_not_built[below(6)] : thirteen_served[below(22)];
}

/* A message with its mark, right or damaged; gives its length. */
static inline size_t some_thirteen_message(uint8_t at[64], bool *read)
{
    static const uint8_t addresses[] = {0x12, 0x17, 0x14, 0x10};
    size_t length = 3;
    *read = !one_in(4);
    put_write(at, 0x16, thirteen_command(), some_word());
    if (*read)
        at[2] = 0x17;
    else
        length = one_in(4) ? 4 : 5;
    return damage(at, length, read, addresses);
}

#endif
