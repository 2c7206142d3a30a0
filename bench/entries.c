/* The proved library's entries beside the second program's, for bench/run:
 *   entries names           a line for each case, and the entry that it calls
 *   entries WHICH REPEAT    each case REPEAT times, each ended by a call of boundary()
 *   entries stack WHICH     the stack that each case takes, in bytes
 * WHICH is p (proved), c (the second program over an area) or s (the second program on its own state). */
#define _GNU_SOURCE
#include "snatchblock.h"
#include "../second/snatchblock2.h"

#include <signal.h>
#include <stdio.h>
#include <stdlib.h>
#include <string.h>
#include <ucontext.h>

static uint8_t area[SNATCHBLOCK_AREA];
static struct sb2_state state;
static uint8_t charger_area[SNATCHBLOCK_CHARGER_AREA];
static struct sb2_charger charger;
static uint8_t thirteen_area[SNATCHBLOCK_THIRTEEN_AREA];
static struct sb2_thirteen thirteen;
static uint8_t room[256];
static uint8_t text[4096];
static uint8_t letters[1024], strokes[64];
static uint8_t sheet[145];
static uint8_t capture[1 + 40 * 39];
static uint8_t walked[1 + 255 * 39];
static uint8_t shelf[SB2_SHELF_MOST * SB2_SHELF_ROW];
static uint8_t key[139];
static size_t sheet_length, capture_length, key_length, size;
static uint32_t counter;
static uint16_t millivolts = 14800;
static uint8_t message[5];
static bool reading;
static size_t message_length;
static volatile uint64_t sink;

static struct sb2_bytes of(const uint8_t *at, size_t length)
{
    return (struct sb2_bytes){at, length};
}

/* ---- the calls: p, c and where a state is in play s */

static void nothing(void) {}

static uint8_t long_text[65536];
static void pec_p(void) { sink = snatchblock_pec(long_text, size); }
static void pec_c(void) { sink = sb2_pec(of(long_text, size)); }

static void exchange_p(void) { sink = snatchblock_exchange_check(text, size); }
static void exchange_c(void)
{
    bool accepted;
    sink = (uint64_t)sb2_check_exchange(of(text, size), &accepted);
}

static void bits_p(void) { sink = snatchblock_bit_comparison(text, size, text + 64, size); }
static void bits_c(void)
{
    uint32_t bits;
    sink = (uint64_t)sb2_compare(of(text, size), of(text + 64, size), &bits);
}

static void transact_p(void)
{
    sink = snatchblock_transact(area, sizeof area, sheet, sheet_length, sheet, sheet_length, reading, message,
                                message_length, room, 34);
}
static void transact_c(void)
{
    size_t length;
    sink = (uint64_t)sb2_area_transact(area, sizeof area, reading, of(message, message_length), of(sheet, sheet_length),
                                       of(sheet, sheet_length), room, 34, &length);
}
static void transact_s(void)
{
    size_t length;
    sink = (uint64_t)sb2_transact(&state, reading, of(message, message_length), of(sheet, sheet_length),
                                  of(sheet, sheet_length), room, 34, &length);
}

static void sound_p(void) { sink = snatchblock_sound(area, sizeof area); }
static void sound_c(void) { sink = sb2_area_sound(of(area, sizeof area)); }
static void sound_s(void) { sink = sb2_sound(&state); }

static void sample_p(int16_t current, uint16_t temperature, uint32_t ms)
{
    sink = snatchblock_sample(area, sizeof area, millivolts, current, temperature, counter += ms, room,
                              SB2_BROADCAST_ROOM);
}
static void sample_c(int16_t current, uint16_t temperature, uint32_t ms)
{
    size_t length;
    struct sb2_sample sample = {millivolts, current, temperature, counter += ms};
    sink = (uint64_t)sb2_area_take_sample(area, sizeof area, &sample, room, SB2_BROADCAST_ROOM, &length);
}
static void sample_s(int16_t current, uint16_t temperature, uint32_t ms)
{
    size_t length;
    struct sb2_sample sample = {millivolts, current, temperature, counter += ms};
    sink = (uint64_t)sb2_take_sample(&state, &sample, room, SB2_BROADCAST_ROOM, &length);
}

/* 1 ms on: no second is complete, no message is due. */
static void quiet_p(void) { sample_p(-5, 2981, 1); }
static void quiet_c(void) { sample_c(-5, 2981, 1); }
static void quiet_s(void) { sample_s(-5, 2981, 1); }

/* One second is complete, no message is due. */
static void second_p(void) { sample_p(-5, 2981, 1000); }
static void second_c(void) { sample_c(-5, 2981, 1000); }
static void second_s(void) { sample_s(-5, 2981, 1000); }

/* The longest time: all 60 seconds are new, and the charger's words are due. */
static void longest_p(void) { sample_p(-5, 2981, 4294967295u); }
static void longest_c(void) { sample_c(-5, 2981, 4294967295u); }
static void longest_s(void) { sample_s(-5, 2981, 4294967295u); }

/* 30,000 ms on, hot and charging: four messages each time, in plain or, in one case, with their PECs. */
static void loud_p(void) { sample_p(5, 4000, 30000); }
static void loud_c(void) { sample_c(5, 4000, 30000); }
static void loud_s(void) { sample_s(5, 4000, 30000); }

/* Filled, then below the limit: two samples, and full is learned. */
static void learn_by(void (*sample)(int16_t, uint16_t, uint32_t))
{
    sample(32767, 2981, 4294967295u);
    millivolts = 10999;
    sample(-5, 2981, 1);
    millivolts = 14800;
}
static void learn_p(void) { learn_by(sample_p); }
static void learn_c(void) { learn_by(sample_c); }
static void learn_s(void) { learn_by(sample_s); }

static void write_key_p(void) { sink = snatchblock_write_key(text, size, text + 64, size, 0x526F, 17, room, 139); }
static void write_key_c(void)
{
    size_t length;
    sink = (uint64_t)sb2_key_write(of(text, size), of(text + 64, size), 0x526F, 17, room, 139, &length);
}
static void read_key_p(void) { sink = snatchblock_read_key(key, key_length); }
static void read_key_c(void)
{
    struct sb2_key parts;
    sink = (uint64_t)sb2_key_read(of(key, key_length), &parts);
}

/* bytes without a slash: no key; one name */
static void no_slash_p(void) { sink = snatchblock_read_key(letters, size); }
static void no_slash_c(void)
{
    struct sb2_key parts;
    sink = (uint64_t)sb2_key_read(of(letters, size), &parts);
}
static void unescape_p(void) { sink = snatchblock_unescape(letters, size, room, sizeof room); }
static void unescape_c(void)
{
    size_t length;
    sink = (uint64_t)sb2_key_unescape(of(letters, size), room, sizeof room, &length);
}

/* a name of 32 strokes, each escaped */
static void unescape_strokes_p(void) { sink = snatchblock_unescape(strokes, size, room, sizeof room); }
static void unescape_strokes_c(void)
{
    size_t length;
    sink = (uint64_t)sb2_key_unescape(of(strokes, size), room, sizeof room, &length);
}

static void is_sheet_p(void) { sink = snatchblock_is_sheet(sheet, sheet_length); }
static void is_sheet_c(void) { sink = sb2_sheet_good(of(sheet, sheet_length)); }
static void write_sheet_p(void)
{
    sink = snatchblock_write_sheet(room, 145, true, text, 32, true, text, 32, true, text, 32, true, text, 32);
}
static void write_sheet_c(void)
{
    size_t length;
    struct sb2_body body = {true, of(text, 32)};
    struct sb2_body bodies[4] = {body, body, body, body};
    sink = (uint64_t)sb2_sheet_write(bodies, room, 145, &length);
}
static void block_p(void) { sink = snatchblock_block(sheet, sheet_length, sheet, sheet_length, 0x23); }
static void block_c(void)
{
    struct sb2_block block;
    sink = (uint64_t)sb2_sheet_block(of(sheet, sheet_length), of(sheet, sheet_length), 0x23, &block);
}

/* The first of four bodies of 32 bytes, one of 16 in its place or none. An edit changes its room: each has its own. */
enum { EDIT_ROOMS = 8 };
static uint8_t edit_rooms[EDIT_ROOMS][145];
static size_t edits;
static uint8_t *edit_room(void) { return edit_rooms[edits++ % EDIT_ROOMS]; }
static void set_body_p(void) { sink = snatchblock_set_body(edit_room(), 145, sheet_length, 0x20, text, 16); }
static void set_body_c(void)
{
    size_t length;
    sink = (uint64_t)sb2_sheet_set(edit_room(), 145, sheet_length, 0x20, of(text, 16), &length);
}
static void remove_body_p(void) { sink = snatchblock_remove_body(edit_room(), 145, sheet_length, 0x20); }
static void remove_body_c(void)
{
    size_t length;
    sink = (uint64_t)sb2_sheet_remove(edit_room(), 145, sheet_length, 0x20, &length);
}

static void open_p(void) { sink = snatchblock_open_capture(capture, capture_length); }
static void open_c(void)
{
    struct sb2_walk walk;
    sink = (uint64_t)sb2_walk_begin(of(capture, capture_length), &walk);
}
static void step_p(void) { sink = snatchblock_step_capture(capture, capture_length, 0, 81); }
static void step_c(void)
{
    struct sb2_walk walk = {of(capture, capture_length), 0, 81};
    struct sb2_row row;
    sink = sb2_walk_next(&walk, &row);
}

/* a whole walk: opened once, then a step for each row and one at the end */
static void walk_p(void)
{
    uint64_t place = snatchblock_open_capture(walked, 1 + size * 39) >> 16, step = 0;
    for (size_t row = 0; ; row++) {
        step = snatchblock_step_capture(walked, 1 + size * 39, row, place);
        if ((step >> 8 & 1) == 0)
            break;
        place = step >> 32;
    }
    sink = step + place;
}
static void walk_c(void)
{
    struct sb2_walk walk;
    struct sb2_row row;
    (void)sb2_walk_begin(of(walked, 1 + size * 39), &walk);
    while (sb2_walk_next(&walk, &row))
        ;
    sink = walk.place;
}

/* second/ compares each row with every other: beside the library stands one pass over the rows, in plain C */
static uint32_t word(const uint8_t *at) { return (uint32_t)(at[0] | at[1] << 8); }
static void put(uint8_t *at, uint32_t value) { memcpy(at, &value, sizeof value); } /* x86-64 is low byte first */
static uint32_t one_pass(const uint8_t *table, size_t length, uint8_t *figures, size_t figures_length)
{
    uint32_t remaining = 0, full = 0, low = 0;
    const uint8_t *lowest = table, *end = table + length;
    if (figures_length < SB2_SHELF_ROOM)
        return SB2_SMALL_ROOM;
    if (length % SB2_SHELF_ROW != 0)
        return SB2_WRONG_FORM;
    if (length > SB2_SHELF_MOST * SB2_SHELF_ROW)
        return SB2_TOO_MANY_ROWS;
    for (const uint8_t *row = table; row < end; row += SB2_SHELF_ROW) {
        uint32_t its = word(row), of = word(row + 2);
        if (of == 0 || word(row + 4) == 0 || its > of)
            return SB2_BAD_ROW;
        remaining += its;
        full += of;
        low += 5 * its < of;
        if (its * word(lowest + 2) < word(lowest) * of)
            lowest = row;
    }
    figures[0] = (uint8_t)(length / SB2_SHELF_ROW);
    put(figures + 1, remaining);
    put(figures + 5, full);
    figures[9] = length > 0;
    put(figures + 10, length > 0 ? word(lowest) | word(lowest + 2) << 16 : 0);
    figures[14] = (uint8_t)((lowest - table) / SB2_SHELF_ROW);
    figures[15] = (uint8_t)low;
    return SB2_SHELF_ROOM << 8;
}
static void shelf_p(void) { sink = snatchblock_shelf_report(shelf, size * SB2_SHELF_ROW, room, SB2_SHELF_ROOM); }
static void shelf_c(void) { sink = one_pass(shelf, size * SB2_SHELF_ROW, room, SB2_SHELF_ROOM); }

static void set_up_p(void)
{
    sink = snatchblock_set_up(area, sizeof area, 4000, 4000, 2000, 14800, 2, 7, 0x526F, 17, 2000, 16800, 3182, 11000,
                              true, 14800, -1500, 2981, 0);
}
static const struct sb2_set_up figures = {4000, 4000, 2000, 14800, 2, 7, 0x526F, 17, 2000, 16800, 3182, 11000, true,
                                          {14800, -1500, 2981, 0}};
static void set_up_c(void) { sink = (uint64_t)sb2_area_set_up(area, sizeof area, &figures); }
static void set_up_s(void) { sink = (uint64_t)sb2_set_up(&state, &figures); }

/* The charger: set up anew, asked for 2,000 mA and 16,800 mV, a second on. */
static const struct sb2_sample at_rest = {14800, 0, 2981, 60000};
static void charger_set_up_p(void)
{
    sink = snatchblock_charger_set_up(charger_area, sizeof charger_area, 14800, 0, 2981, 60000);
}
static void charger_set_up_c(void)
{
    sink = (uint64_t)sb2_area_charger_set_up(charger_area, sizeof charger_area, &at_rest);
}
static void charger_set_up_s(void) { sb2_charger_set_up(&charger, &at_rest); }

static void charger_sound_p(void) { sink = snatchblock_charger_sound(charger_area, sizeof charger_area); }
static void charger_sound_c(void) { sink = sb2_area_charger_sound(of(charger_area, sizeof charger_area)); }
static void charger_sound_s(void) { sink = sb2_charger_sound(&charger); }

static void charger_sample_p(void)
{
    sink = snatchblock_charger_sample(charger_area, sizeof charger_area, 14800, 1500, 2981, counter += 1000);
}
static void charger_sample_c(void)
{
    struct sb2_sample sample = {14800, 1500, 2981, counter += 1000};
    sink = (uint64_t)sb2_area_charger_sample(charger_area, sizeof charger_area, &sample);
}
static void charger_sample_s(void)
{
    struct sb2_sample sample = {14800, 1500, 2981, counter += 1000};
    sink = (uint64_t)sb2_charger_sample(&charger, &sample);
}

static void charger_transact_p(void)
{
    sink = snatchblock_charger_transact(charger_area, sizeof charger_area, reading, message, message_length, room, 3);
}
static void charger_transact_c(void)
{
    size_t length;
    sink = (uint64_t)sb2_area_charger_transact(charger_area, sizeof charger_area, reading, of(message, message_length),
                                               room, 3, &length);
}
static void charger_transact_s(void)
{
    size_t length;
    sink = (uint64_t)sb2_charger_transact(&charger, reading, of(message, message_length), room, 3, &length);
}

static void charger_current_p(void) { sink = snatchblock_charger_current(charger_area, sizeof charger_area); }
static void charger_current_c(void)
{
    uint16_t current;
    sink = (uint64_t)sb2_area_charger_current(of(charger_area, sizeof charger_area), &current) + current;
}
static void charger_current_s(void)
{
    uint16_t current;
    sink = (uint64_t)sb2_charger_current(&charger, &current) + current;
}

/* The thirteen-cell pack: set up anew, and after a minute, a second on. */
static const struct sb2_thirteen_set_up sprayer = {
    5200, 5000, 2500, 48100, 97, {48378, -1239, 2982, 0},
    {3637, 3711, 3583, 3840, 3694, 3755, 3900, 3651, 3770, 3702, 3811, 3599, 3725}};
static void thirteen_set_up_p(void)
{
    sink = snatchblock_thirteen_set_up(thirteen_area, sizeof thirteen_area, 5200, 5000, 2500, 48100, 97, 48378, -1239,
                                       2982, 0, sprayer.cells);
}
static void thirteen_set_up_c(void)
{
    sink = (uint64_t)sb2_area_thirteen_set_up(thirteen_area, sizeof thirteen_area, &sprayer);
}
static void thirteen_set_up_s(void) { sink = (uint64_t)sb2_thirteen_set_up(&thirteen, &sprayer); }

static void thirteen_sound_p(void) { sink = snatchblock_thirteen_sound(thirteen_area, sizeof thirteen_area); }
static void thirteen_sound_c(void) { sink = sb2_area_thirteen_sound(of(thirteen_area, sizeof thirteen_area)); }
static void thirteen_sound_s(void) { sink = sb2_thirteen_sound(&thirteen); }

static void thirteen_sample_p(void)
{
    sink = snatchblock_thirteen_sample(thirteen_area, sizeof thirteen_area, 48378, -1239, 2982, counter += 1000,
                                       sprayer.cells);
}
static void thirteen_sample_c(void)
{
    struct sb2_sample sample = {48378, -1239, 2982, counter += 1000};
    sink = (uint64_t)sb2_area_thirteen_sample(thirteen_area, sizeof thirteen_area, &sample, sprayer.cells);
}
static void thirteen_sample_s(void)
{
    struct sb2_sample sample = {48378, -1239, 2982, counter += 1000};
    sink = (uint64_t)sb2_thirteen_sample(&thirteen, &sample, sprayer.cells);
}

static void thirteen_transact_p(void)
{
    sink = snatchblock_thirteen_transact(thirteen_area, sizeof thirteen_area, reading, message, message_length, room, 34);
}
static void thirteen_transact_c(void)
{
    size_t length;
    sink = (uint64_t)sb2_area_thirteen_transact(thirteen_area, sizeof thirteen_area, reading,
                                                of(message, message_length), room, 34, &length);
}
static void thirteen_transact_s(void)
{
    size_t length;
    sink = (uint64_t)sb2_thirteen_transact(&thirteen, reading, of(message, message_length), room, 34, &length);
}

/* The entry of the header that a proved call is of. */
static const struct {
    void (*call)(void);
    const char *entry;
} calls[] = {
    {set_up_p, "snatchblock_set_up"},
    {sound_p, "snatchblock_sound"},
    {quiet_p, "snatchblock_sample"},
    {second_p, "snatchblock_sample"},
    {longest_p, "snatchblock_sample"},
    {loud_p, "snatchblock_sample"},
    {learn_p, "snatchblock_sample"},
    {transact_p, "snatchblock_transact"},
    {pec_p, "snatchblock_pec"},
    {exchange_p, "snatchblock_exchange_check"},
    {bits_p, "snatchblock_bit_comparison"},
    {write_key_p, "snatchblock_write_key"},
    {read_key_p, "snatchblock_read_key"},
    {no_slash_p, "snatchblock_read_key"},
    {unescape_p, "snatchblock_unescape"},
    {unescape_strokes_p, "snatchblock_unescape"},
    {write_sheet_p, "snatchblock_write_sheet"},
    {is_sheet_p, "snatchblock_is_sheet"},
    {block_p, "snatchblock_block"},
    {set_body_p, "snatchblock_set_body"},
    {remove_body_p, "snatchblock_remove_body"},
    {open_p, "snatchblock_open_capture"},
    {step_p, "snatchblock_step_capture"},
    {shelf_p, "snatchblock_shelf_report"},
    {charger_set_up_p, "snatchblock_charger_set_up"},
    {charger_sound_p, "snatchblock_charger_sound"},
    {charger_sample_p, "snatchblock_charger_sample"},
    {charger_transact_p, "snatchblock_charger_transact"},
    {charger_current_p, "snatchblock_charger_current"},
    {thirteen_set_up_p, "snatchblock_thirteen_set_up"},
    {thirteen_sound_p, "snatchblock_thirteen_sound"},
    {thirteen_sample_p, "snatchblock_thirteen_sample"},
    {thirteen_transact_p, "snatchblock_thirteen_transact"},
};

/* Its name, or - where there is none: a case of more than one, too. */
static const char *entry_of(void (*call)(void))
{
    for (size_t i = 0; i < sizeof calls / sizeof *calls; i++)
        if (calls[i].call == call)
            return calls[i].entry;
    return "-";
}

/* ---- the cases */

struct entry {
    char name[32];
    void (*call[3])(void); /* p, c, s */
    size_t size;
    bool reading, power, with_pec, beyond, of_charger;
    uint8_t command;
};
static struct entry entries[112];
static size_t count;

static struct entry *add(const char *name, void (*p)(void), void (*c)(void), void (*s)(void))
{
    struct entry *e = &entries[count++];
    snprintf(e->name, sizeof e->name, "%s", name);
    e->call[0] = p;
    e->call[1] = c;
    e->call[2] = s ? s : nothing;
    return e;
}

static void add_sized(const char *name, size_t length, void (*p)(void), void (*c)(void))
{
    struct entry *e = add(name, p, c, NULL);
    e->size = length;
    snprintf(e->name, sizeof e->name, "%s-%zu", name, length);
}

static struct entry *add_command(const char *name, bool read, uint8_t command)
{
    struct entry *e = add(name, transact_p, transact_c, transact_s);
    e->reading = read;
    e->command = command;
    snprintf(e->name, sizeof e->name, "%s-%02X", name, command);
    return e;
}

/* A read of minutes that are cut off. */
static void add_beyond(uint8_t command)
{
    struct entry *e = add_command("read", true, command);
    e->beyond = true;
    snprintf(e->name, sizeof e->name, "read-%02X-beyond", command);
}

/* A read, or a write with its PEC, at the charger's address. */
static void add_to_charger(const char *name, bool read, uint8_t command)
{
    struct entry *e = add(name, charger_transact_p, charger_transact_c, charger_transact_s);
    e->of_charger = true;
    e->reading = read;
    e->command = command;
    snprintf(e->name, sizeof e->name, "%s-%02X", name, command);
}

static void make_charger_entries(void)
{
    add("charger-set-up", charger_set_up_p, charger_set_up_c, charger_set_up_s);
    add("charger-sound", charger_sound_p, charger_sound_c, charger_sound_s);
    add("charger-sample", charger_sample_p, charger_sample_c, charger_sample_s);
    add_to_charger("charger-read", true, 0x13);
    add_to_charger("charger-write-pec", false, 0x14);
    add("charger-current", charger_current_p, charger_current_c, charger_current_s);
}

/* A read, or a write with its PEC, which is refused. */
static void add_to_thirteen(const char *name, bool read, uint8_t command)
{
    struct entry *e = add(name, thirteen_transact_p, thirteen_transact_c, thirteen_transact_s);
    e->reading = read;
    e->command = command;
    snprintf(e->name, sizeof e->name, "%s-%02X", name, command);
}

static void make_thirteen_entries(void)
{
    add("thirteen-set-up", thirteen_set_up_p, thirteen_set_up_c, thirteen_set_up_s);
    add("thirteen-sound", thirteen_sound_p, thirteen_sound_c, thirteen_sound_s);
    add("thirteen-sample-second", thirteen_sample_p, thirteen_sample_c, thirteen_sample_s);
    static const uint8_t commands[] = {0x09, 0x11, 0x13, 0x16, 0xF1};
    for (size_t i = 0; i < sizeof commands; i++)
        add_to_thirteen("thirteen-read", true, commands[i]);
    add_to_thirteen("thirteen-write-pec", false, 0x4F);
}

static void make_entries(void)
{
    static const size_t lengths[] = {2, 3, 4, 5, 6, 8, 10, 12, 16, 24, 37, 65536};
    add("nothing", nothing, nothing, nothing);
    for (size_t i = 0; i < sizeof lengths / sizeof *lengths; i++)
        add_sized("pec", lengths[i], pec_p, pec_c);
    for (uint8_t command = 0; command <= 0x1C; command++)
        add_command("read", true, command);
    static const uint8_t in_power_mode[] = {0x07, 0x0F, 0x10, 0x11, 0x12, 0x13, 0x18};
    for (size_t i = 0; i < sizeof in_power_mode; i++)
        add_command("power-read", true, in_power_mode[i])->power = true;
    add_beyond(0x06);
    for (uint8_t command = 0x20; command <= 0x23; command++)
        add_command("block-read", true, command);
    for (uint8_t command = 0; command <= 4; command++)
        add_command("write-pec", false, command);
    add("sample-quiet", quiet_p, quiet_c, quiet_s);
    add("sample-second", second_p, second_c, second_s);
    add("sample-longest", longest_p, longest_c, longest_s);
    add("sample-four-messages", loud_p, loud_c, loud_s);
    add("sample-four-messages-pec", loud_p, loud_c, loud_s)->with_pec = true;
    add("two-samples-that-learn", learn_p, learn_c, learn_s);
    add("set-up", set_up_p, set_up_c, set_up_s);
    add("sound", sound_p, sound_c, sound_s);
    add_sized("write-key-names", 8, write_key_p, write_key_c);
    add_sized("write-key-names", 32, write_key_p, write_key_c);
    add("read-key", read_key_p, read_key_c, NULL);
    add_sized("read-key-no-slash", 139, no_slash_p, no_slash_c);
    add_sized("read-key-no-slash", 1024, no_slash_p, no_slash_c);
    add_sized("unescape", 32, unescape_p, unescape_c);
    add_sized("unescape-strokes", 64, unescape_strokes_p, unescape_strokes_c);
    add("write-sheet", write_sheet_p, write_sheet_c, NULL);
    add("is-sheet", is_sheet_p, is_sheet_c, NULL);
    add("block", block_p, block_c, NULL);
    add("set-body", set_body_p, set_body_c, NULL);
    add("remove-body", remove_body_p, remove_body_c, NULL);
    add_sized("exchange", 6, exchange_p, exchange_c);
    add_sized("exchange", 37, exchange_p, exchange_c);
    add_sized("comparison", 6, bits_p, bits_c);
    add_sized("comparison", 37, bits_p, bits_c);
    add("open-capture-40-rows", open_p, open_c, NULL);
    add("step-capture-40-rows", step_p, step_c, NULL);
    add_sized("walk-capture-rows", 51, walk_p, walk_c);
    add_sized("walk-capture-rows", 255, walk_p, walk_c);
    add_sized("shelf-report-rows", 1, shelf_p, shelf_c);
    add_sized("shelf-report-rows", 64, shelf_p, shelf_c);
}

/* A capture of rows of 37 bytes. */
static void make_capture(uint8_t *at, size_t rows)
{
    memset(at, 0, 1 + rows * 39);
    at[0] = (uint8_t)rows;
    for (size_t i = 0; i < rows; i++)
        at[2 + 2 * i] = 37;
}

/* A long message, and a pack with 60 seconds kept, in an area and in a state. */
static uint8_t start_area[SNATCHBLOCK_AREA];
static struct sb2_state start_state;

/* A word written to a pack in an area and to one in a state. */
static void write_both(uint8_t *pack, struct sb2_state *own, uint8_t command, uint16_t word)
{
    const uint8_t write[] = {0x16, command, (uint8_t)word, (uint8_t)(word >> 8)};
    size_t length;
    (void)sb2_area_transact(pack, SNATCHBLOCK_AREA, false, of(write, 4), of(sheet, sheet_length), of(sheet, sheet_length), room, 34, &length);
    (void)sb2_transact(own, false, of(write, 4), of(sheet, sheet_length), of(sheet, sheet_length), room, 34, &length);
}

/* A charger with both requests taken, in an area and in a state of its own. */
static uint8_t start_charger_area[SNATCHBLOCK_CHARGER_AREA];
static struct sb2_charger start_charger;
static void make_charger(void)
{
    static const uint8_t requests[2][4] = {{0x12, 0x14, 0xD0, 0x07}, {0x12, 0x15, 0xA0, 0x41}};
    size_t length;
    sb2_charger_set_up(&start_charger, &at_rest);
    for (size_t i = 0; i < 2; i++)
        (void)sb2_charger_transact(&start_charger, false, of(requests[i], 4), room, 3, &length);
    sb2_area_charger_store(&start_charger, start_charger_area);
}

/* A thirteen-cell pack with 60 seconds kept, in both. */
static uint8_t start_thirteen_area[SNATCHBLOCK_THIRTEEN_AREA];
static struct sb2_thirteen start_thirteen;
static void make_thirteen(void)
{
    (void)sb2_thirteen_set_up(&start_thirteen, &sprayer);
    for (uint32_t i = 1; i <= 60; i++) {
        struct sb2_sample sample = {48378, -1239, 2982, 1000 * i};
        (void)sb2_thirteen_sample(&start_thirteen, &sample, sprayer.cells);
    }
    sb2_area_thirteen_store(&start_thirteen, start_thirteen_area);
}

static void make_start(void)
{
    for (size_t i = 0; i < sizeof long_text; i += sizeof text)
        memcpy(long_text + i, text, sizeof text);
    (void)sb2_area_set_up(start_area, sizeof start_area, &figures);
    (void)sb2_set_up(&start_state, &figures);
    write_both(start_area, &start_state, 0x04, 0xFE0C); /* AtRate -500 */
    size_t length;
    for (uint32_t i = 1; i <= 60; i++) {
        struct sb2_sample sample = {14800, -1500, 2981, 1000 * i};
        (void)sb2_area_take_sample(start_area, sizeof start_area, &sample, room, SB2_BROADCAST_ROOM, &length);
        (void)sb2_take_sample(&start_state, &sample, room, SB2_BROADCAST_ROOM, &length);
    }
}

/* The same start for each case and each program. */
static void prepare(const struct entry *e)
{
    memcpy(area, start_area, sizeof area);
    state = start_state;
    memcpy(charger_area, start_charger_area, sizeof charger_area);
    charger = start_charger;
    memcpy(thirteen_area, start_thirteen_area, sizeof thirteen_area);
    thirteen = start_thirteen;
    if (e->power)
        write_both(area, &state, 0x03, 0x8000);
    if (e->beyond)
        write_both(area, &state, 0x04, 0xFFFF); /* AtRate -1 */
    if (e->with_pec)
        area[SNATCHBLOCK_PLAIN] = state.settings.plain = false;
    for (size_t i = 0; i < EDIT_ROOMS; i++)
        memcpy(edit_rooms[i], sheet, sheet_length);
    edits = 0;
    counter = 60000;
    size = e->size;
    if (e->call[0] == walk_p)
        make_capture(walked, size);
    reading = e->reading;
    message[0] = e->of_charger ? 0x12 : 0x16;
    message[1] = e->command;
    message[2] = (uint8_t)(reading ? message[0] + 1 : 0x10);
    message[3] = 0;
    message[4] = sb2_pec(of(message, 4));
    message_length = reading ? 3 : 5;
}

/* Packs of 4,000 to 4,630 mAh at every charge; the one pass gives what the second program gives. */
static void make_shelf(void)
{
    uint8_t figures[SB2_SHELF_ROOM];
    size_t length;
    for (uint32_t i = 0; i < 64; i++) {
        put(shelf + SB2_SHELF_ROW * i, i * 1613 % 4000 | (4000 + 10 * i) << 16);
        put(shelf + SB2_SHELF_ROW * i + 4, 4400 | i << 16);
    }
    for (size_t rows = 0; rows <= 64; rows++) {
        int answer = sb2_shelf_report_bytes(of(shelf, rows * SB2_SHELF_ROW), figures, sizeof figures, &length);
        if (one_pass(shelf, rows * SB2_SHELF_ROW, room, sizeof figures) != ((uint32_t)answer | (uint32_t)length << 8) ||
            memcmp(figures, room, sizeof figures) != 0) {
            fprintf(stderr, "entries: the one pass over the shelf is wrong\n");
            exit(2);
        }
    }
}

static void make_data(void)
{
    for (size_t i = 0; i < sizeof text; i++)
        text[i] = (uint8_t)(i * 73 + 41);
    memset(letters, 0x41, sizeof letters);
    for (size_t i = 0; i < sizeof strokes; i++)
        strokes[i] = i % 2 == 0 ? 0x5C : 0x2F;
    struct sb2_body body = {true, of(text, 32)};
    struct sb2_body bodies[4] = {body, body, body, body};
    (void)sb2_sheet_write(bodies, sheet, sizeof sheet, &sheet_length);
    (void)sb2_key_write(of(text, 32), of(text + 64, 32), 0x526F, 17, key, sizeof key, &key_length);
    make_capture(capture, 40);
    capture_length = sizeof capture;
    make_shelf();
}

/* ---- counting and stack */

__attribute__((noinline)) void boundary(void)
{
    __asm__ volatile("");
}

static void run(int which, unsigned long repeat)
{
    for (size_t i = 0; i < count; i++) {
        prepare(&entries[i]);
        boundary();
        for (unsigned long r = 0; r < repeat; r++)
            entries[i].call[which]();
        boundary();
    }
}

enum { STACK = 1 << 18, PAINT = 0xC3, TRAP_FLAG = 0x100 };
static uint8_t stack[STACK] __attribute__((aligned(64)));
static uint8_t trap_stack[1 << 16];
static ucontext_t home, away;
static void (*stacked_call)(void);
static bool stepping;
static uint8_t *lowest;

/* After each instruction: where the stack pointer stands. */
static void trapped(int signal_number, siginfo_t *info, void *context)
{
    (void)signal_number;
    (void)info;
    uint8_t *pointer = (uint8_t *)((ucontext_t *)context)->uc_mcontext.gregs[REG_RSP];
    if (pointer >= stack && pointer < lowest)
        lowest = pointer;
}

static void on_stack(void)
{
    if (stepping)
        __asm__ volatile("pushfq; orq %0, (%%rsp); popfq" ::"i"(TRAP_FLAG) : "memory", "cc");
    stacked_call();
    if (stepping)
        __asm__ volatile("pushfq; andq %0, (%%rsp); popfq" ::"i"(~TRAP_FLAG) : "memory", "cc");
}

static void call_on_stack(void (*call)(void), bool steps)
{
    stacked_call = call;
    stepping = steps;
    getcontext(&away);
    away.uc_stack.ss_sp = stack;
    away.uc_stack.ss_size = sizeof stack;
    away.uc_link = &home;
    makecontext(&away, on_stack, 0);
    swapcontext(&home, &away);
}

static void catch_traps(void)
{
    stack_t other = {.ss_sp = trap_stack, .ss_size = sizeof trap_stack};
    struct sigaction action = {.sa_sigaction = trapped, .sa_flags = SA_SIGINFO | SA_ONSTACK};
    sigaltstack(&other, NULL);
    sigaction(SIGTRAP, &action, NULL);
}

/* The bytes of stack that a call takes, in whole words: down to the lowest byte of a painted stack that it touches, or
 * to the lowest place of the stack pointer where that is lower. */
static size_t stack_of(const struct entry *e, void (*call)(void))
{
    prepare(e);
    memset(stack, PAINT, sizeof stack);
    call_on_stack(call, false);
    size_t untouched = 0;
    while (untouched < sizeof stack && stack[untouched] == PAINT)
        untouched++;
    prepare(e);
    lowest = stack + sizeof stack;
    call_on_stack(call, true);
    size_t below = (size_t)(lowest - stack);
    return sizeof stack - (untouched < below ? untouched : below) / 8 * 8;
}

static void stacks(int which)
{
    catch_traps();
    size_t base = stack_of(&entries[0], nothing);
    for (size_t i = 0; i < count; i++)
        printf("%s %zu\n", entries[i].name, stack_of(&entries[i], entries[i].call[which]) - base);
}

static int which_of(const char *word)
{
    return word[0] == 'p' ? 0 : word[0] == 'c' ? 1 : 2;
}

int main(int given, char **words)
{
    make_data();
    make_start();
    make_charger();
    make_thirteen();
    make_entries();
    make_charger_entries();
    make_thirteen_entries();
    if (given == 2 && strcmp(words[1], "names") == 0) {
        for (size_t i = 0; i < count; i++)
            printf("%s %s\n", entries[i].name, entry_of(entries[i].call[0]));
    } else if (given == 3 && strcmp(words[1], "stack") == 0) {
        stacks(which_of(words[2]));
    } else if (given == 3) {
        run(which_of(words[1]), strtoul(words[2], NULL, 10));
    } else {
        fprintf(stderr, "usage: entries names | WHICH REPEAT | stack WHICH\n");
        return 2;
    }
    return 0;
}
