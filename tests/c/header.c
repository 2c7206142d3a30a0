/* The header by itself, in what C11 and C++ have in common: tests/c/header compiles this as both, with every warning. */
#include "snatchblock.h"
#include "snatchblock.h" /* twice does no harm */

#include <stdio.h>

static uint8_t area[SNATCHBLOCK_AREA];
static uint8_t room[SNATCHBLOCK_SHEET_ROOM];
static const uint8_t no_names[1] = {0};

static struct snatchblock_setup setup_of_a_pack(void)
{
    struct snatchblock_setup setup = {0, 0, 0, 0, 0, 0, 0, 0, 0, 0, 0, 0, false};
    setup.DesignCapacity = 4000;
    setup.full = 4000;
    setup.remaining = 2000;
    setup.DesignVoltage = 14800;
    return setup;
}

/* Document 01's pack reads 14,800 mV: worked example 3. */
static bool pack_answers(void)
{
    const uint8_t request[3] = {0x16, 0x09, 0x17};
    struct snatchblock_setup setup = setup_of_a_pack();
    struct snatchblock_reading reading = {14800, 0, 0, 0};
    uint32_t result = snatchblock_set_up_from(area, sizeof area, &setup, &reading);
    if (snatchblock_answer_of(result) != SNATCHBLOCK_SERVED || !snatchblock_sound(area, sizeof area))
        return false;
    if (area[SNATCHBLOCK_PLAIN] != 0 || snatchblock_message_length(area) != 5)
        return false;
    result = snatchblock_sample_from(area, sizeof area, &reading, room, sizeof room);
    if (!snatchblock_served(result))
        return false;
    result = snatchblock_transact(area, sizeof area, no_names, 1, no_names, 1, true, request, 3, room, sizeof room);
    return snatchblock_served(result) && snatchblock_length_of(result) == 3 && room[0] == 0xD0 && room[1] == 0x39 &&
           room[2] == 0x7E;
}

/* A charger takes both requests, gives the current and says that it is of version 1.1; a pack's area is none of it. */
static bool charger_answers(void)
{
    const uint8_t asks[2][4] = {{0x12, 0x14, 0xD0, 0x07}, {0x12, 0x15, 0xA0, 0x41}}, ask[3] = {0x12, 0x11, 0x13};
    struct snatchblock_reading reading = {14800, 0, 0, 0};
    uint8_t charger[SNATCHBLOCK_CHARGER_AREA];
    uint32_t result = snatchblock_charger_set_up_from(charger, sizeof charger, &reading);
    for (size_t i = 0; i < 2; i++)
        result |= snatchblock_charger_transact(charger, sizeof charger, false, asks[i], 4, room, sizeof room);
    reading.counter = 1000;
    result |= snatchblock_charger_sample_from(charger, sizeof charger, &reading);
    result |= snatchblock_charger_sample(charger, sizeof charger, 14800, 0, 0, 2000);
    if (snatchblock_answer_of(result) != SNATCHBLOCK_SERVED || !snatchblock_charger_sound(charger, sizeof charger))
        return false;
    result = snatchblock_charger_current(charger, sizeof charger);
    if (!snatchblock_served(result) || snatchblock_charger_current_of(result) != 2000)
        return false;
    result = snatchblock_charger_transact(charger, sizeof charger, true, ask, 3, room, SNATCHBLOCK_CHARGER_REPLY_ROOM);
    if (snatchblock_length_of(result) != SNATCHBLOCK_CHARGER_REPLY_ROOM || room[0] != 3 || room[1] != 0)
        return false;
    result = snatchblock_charger_set_up(area, sizeof area, 14800, 0, 0, 0);
    return snatchblock_answer_of(result) == SNATCHBLOCK_NOT_SOUND && !snatchblock_charger_sound(area, sizeof area);
}

/* A pack of thirteen cells shows 48,190 mV in 10 mV, and all its cells; the first pack's area is none of it. */
static bool thirteen_answers(void)
{
    const uint8_t asks[2][3] = {{0x16, 0x09, 0x17}, {0x16, 0xF1, 0x17}};
    const uint16_t cells[SNATCHBLOCK_THIRTEEN_CELLS] = {3701, 3702, 3703, 3704, 3705, 3706, 3707,
                                                        3708, 3709, 3710, 3711, 3712, 3713};
    struct snatchblock_thirteen_setup setup = {5200, 5000, 2500, 48100, 97};
    struct snatchblock_reading reading = {48190, 0, 2982, 0};
    uint8_t pack[SNATCHBLOCK_THIRTEEN_AREA];
    uint32_t result = snatchblock_thirteen_set_up_from(pack, sizeof pack, &setup, &reading, cells);
    reading.counter = 1000;
    result |= snatchblock_thirteen_sample_from(pack, sizeof pack, &reading, cells);
    result |= snatchblock_thirteen_sample(pack, sizeof pack, 48190, 0, 2982, 2000, cells);
    if (snatchblock_answer_of(result) != SNATCHBLOCK_SERVED || !snatchblock_thirteen_sound(pack, sizeof pack))
        return false;
    result = snatchblock_thirteen_transact(pack, sizeof pack, true, asks[0], 3, room, SNATCHBLOCK_REPLY_ROOM);
    if (snatchblock_length_of(result) != 3 || snatchblock_low_first(room, 2) != 4819)
        return false;
    result = snatchblock_thirteen_transact(pack, sizeof pack, true, asks[1], 3, room, SNATCHBLOCK_REPLY_ROOM);
    if (snatchblock_length_of(result) != 27 || snatchblock_low_first(room + 24, 2) != 3713)
        return false;
    result = snatchblock_thirteen_set_up(area, sizeof area, 1, 1, 1, 1, 1, 0, 0, 0, 0, cells);
    return snatchblock_answer_of(result) == SNATCHBLOCK_NOT_SOUND && !snatchblock_thirteen_sound(area, sizeof area);
}

/* One call of each other function, its result read by its accessors. */
static const uint8_t exchange[6] = {0x16, 0x09, 0x17, 0xD0, 0x39, 0x7E};
static const uint8_t *const name = exchange + 1;

static bool messages_answer(void)
{
    return snatchblock_pec(exchange, 5) == 0x7E && snatchblock_check_right(snatchblock_exchange_check(exchange, 6)) &&
           snatchblock_comparison_bits(snatchblock_bit_comparison(exchange, 1, exchange + 2, 1)) == 1;
}

static bool keys_answer(void)
{
    uint32_t key = snatchblock_write_key(name, 1, name, 2, 7, 9, room, sizeof room);
    uint64_t parts = snatchblock_read_key(room, snatchblock_length_of(key));
    return snatchblock_key_maker_length(parts) == 1 && snatchblock_key_device_offset(parts) == 2 &&
           snatchblock_key_device_length(parts) == 2 && snatchblock_key_date(parts) == 7 &&
           snatchblock_key_serial(parts) == 9 && snatchblock_served(snatchblock_unescape(name, 1, room, 1));
}

static bool sheets_answer(void)
{
    uint32_t sheet = snatchblock_write_sheet(room, sizeof room, true, name, 4, false, name, 0, false, name, 0, false, name, 0);
    uint64_t block = snatchblock_block(room, snatchblock_length_of(sheet), no_names, 1, 0x20);
    return snatchblock_is_sheet(no_names, 1) && snatchblock_block_length(block) == 4 &&
           snatchblock_block_offset(block) == 5 && !snatchblock_block_in_factory(block);
}

/* A name of 4 bytes more, and then the first removed: of 9 bytes 17, and 9 again. */
static bool edits_answer(void)
{
    uint32_t sheet = snatchblock_write_sheet(room, sizeof room, true, name, 4, false, name, 0, false, name, 0, false, name, 0);
    uint32_t set = snatchblock_set_body(room, sizeof room, snatchblock_length_of(sheet), 0x21, name, 4);
    uint32_t removed = snatchblock_remove_body(room, sizeof room, snatchblock_length_of(set), 0x20);
    return snatchblock_length_of(set) == 17 && snatchblock_length_of(removed) == 9 && room[1] == 0x21;
}

static bool captures_answer(void)
{
    const uint8_t capture[6] = {1, 1, 3, 0x16, 0x09, 0x17};
    uint32_t opened = snatchblock_open_capture(capture, sizeof capture);
    uint64_t step = snatchblock_step_capture(capture, sizeof capture, 0, snatchblock_capture_first(opened));
    return snatchblock_capture_rows(opened) == 1 && snatchblock_step_is_row(step) && snatchblock_step_is_read(step) &&
           snatchblock_step_length(step) == 3 && snatchblock_step_next(step) == sizeof capture;
}

/* 1,000 of 4,000 mAh, then 700: the second is lower, and below one fifth. */
static bool shelf_answers(void)
{
    const struct snatchblock_row rows[2] = {{1000, 4000, 4400, 12}, {700, 4000, 4400, 0}};
    const uint8_t table[8] = {0xE8, 0x03, 0xA0, 0x0F, 0x30, 0x11, 0x0C, 0x00};
    struct snatchblock_figures figures;
    uint32_t result = snatchblock_shelf_report(table, sizeof table, room, SNATCHBLOCK_SHELF_ROOM);
    if (snatchblock_length_of(result) != SNATCHBLOCK_SHELF_ROOM || snatchblock_low_first(room + 1, 4) != 1000)
        return false;
    result = snatchblock_shelf_report_from(rows, 0, &figures);
    if (!snatchblock_served(result) || figures.packs != 0 || figures.is_lowest)
        return false;
    result = snatchblock_shelf_report_from(rows, 2, &figures);
    return snatchblock_served(result) && figures.packs == 2 && figures.remaining == 1700 && figures.full == 8000 &&
           figures.is_lowest && figures.lowest_remaining == 700 && figures.lowest_full == 4000 &&
           figures.lowest_place == 1 && figures.low == 1;
}

int main(void)
{
    if (pack_answers() && charger_answers() && thirteen_answers() && messages_answer() && keys_answer() &&
        sheets_answer() && edits_answer() && captures_answer() && shelf_answers())
        return 0;
    printf("header: an answer is wrong\n");
    return 1;
}
