/* A second, separately written form of the rules of the battery pack, of the
 * charger and of the thirteen-cell pack, in plain C11.
 *
 * It is written from document 01, the requests of document 02, the Smart Battery
 * Data Specification 1.1 and source documents 000 and 001, to be run beside the
 * proved library and compared with it; README.md says which few points it shares
 * with that library.
 * "Rule:" in a comment names the section of document 01, or the request, that a
 * function carries out.
 *
 * A pointer may be null where the length given with it is 0. Rooms are lent
 * memory: a refused call writes no byte of them, a served one only the front.
 * The bytes read by a call and the room it writes must not overlap, but for the
 * sheet that an edit finds in its room.
 */
#ifndef SNATCHBLOCK2_H
#define SNATCHBLOCK2_H

#include <stdbool.h>
#include <stddef.h>
#include <stdint.h>

/* The answer numbers (rule: Answer numbers). */
enum sb2_answer {
    SB2_SERVED = 0,
    SB2_NOT_SOUND = 1,
    SB2_SMALL_ROOM = 2,
    SB2_NOT_FOR_PACK = 3, /* nor for the charger, where it is asked */
    SB2_WRONG_FORM = 4,
    SB2_WRONG_PEC = 5,
    SB2_RESERVED = 6,
    SB2_NOT_BUILT = 7,
    SB2_READ_ONLY = 8, /* of the charger also a read of what is only written */
    SB2_BAD_SHEET = 9,
    SB2_OVERFLOW = 10, /* served, and its word was cut off */
    SB2_BAD_SET_UP = 11,
    SB2_CANNOT_WRITE = 12,
    SB2_NOT_A_KEY = 13,
    SB2_NOT_A_CAPTURE = 14,
    SB2_OUT_OF_RANGE = 15,
    SB2_TOO_MANY_ROWS = 16,
    SB2_BAD_ROW = 17,
    SB2_BAD_TAG = 18,
    SB2_LONG_BODY = 19,
    SB2_LONG_SHEET = 20 /* what an edit would give, for its room */
};

/* Sizes and times of document 01 and of the shelf. */
enum {
    SB2_REPLY_ROOM = 34,
    SB2_BROADCAST_ROOM = 20, /* four messages, each with its PEC */
    SB2_PLAIN_ROOM = 16,     /* and in plain */
    SB2_KEY_ROOM = 139,
    SB2_SHEET_ROOM = 145,
    SB2_SHELF_ROOM = 16,
    SB2_SHELF_ROW = 8,
    SB2_SHELF_MOST = 64,
    SB2_NAME_MOST = 32,
    SB2_MESSAGE_MOST = 37,
    SB2_CAPTURE_MOST = 1 + 255 * 39,
    SB2_SECONDS = 60, /* of the minute in AverageCurrent */
    SB2_SECOND_MS = 1000,
    SB2_HOLD_MS = 60000,
    SB2_ALARM_MS = 10000,
    SB2_CHARGER_MS = 30000,
    SB2_MS_PER_HOUR = 3600000, /* 1 mAh in mA·ms */
    SB2_CYCLES_MOST = 65535,
    SB2_LEARNED_MOST = 65535 /* mAh, of a run too */
};

/* ---- the pack's state */

/* What set-up brings once and nothing changes. */
struct sb2_settings {
    uint16_t design_capacity;   /* mAh */
    uint16_t design_voltage;    /* mV */
    uint16_t max_error;         /* percent */
    uint16_t manufacture_date;  /* packed as 002 says */
    uint16_t serial_number;
    uint16_t charging_current;  /* mA */
    uint16_t charging_voltage;  /* mV */
    uint16_t temperature_limit; /* 0.1 K */
    uint16_t discharge_limit;   /* mV */
    bool plain;                 /* messages without PEC */
};

/* What the host writes over the bus. */
struct sb2_host {
    uint16_t manufacturer_access;
    uint16_t remaining_capacity_alarm;
    uint16_t remaining_time_alarm;
    int16_t at_rate;
    bool alarm_mode;    /* bit 13 of BatteryMode */
    bool charger_mode;  /* bit 14 */
    bool capacity_mode; /* bit 15: power mode */
};

/* A sample of the measuring side. */
struct sb2_sample {
    uint16_t voltage;     /* mV */
    int16_t current;      /* mA, above 0 into the pack */
    uint16_t temperature; /* 0.1 K */
    uint32_t counter;     /* ms, wraps */
};

/* The last minute, second by second, since set-up: of each second the total of current x time, in mA·ms. */
struct sb2_minute {
    int32_t total[SB2_SECONDS]; /* a ring: the oldest stands behind the newest */
    uint32_t newest;            /* where in the ring the newest complete second stands */
    uint32_t count;             /* complete seconds kept */
    uint32_t begun_ms;          /* how much of the next second has passed */
    int32_t begun_total;        /* and its total */
};

/* The charge and what goes with it. */
struct sb2_tank {
    uint64_t charge;        /* mA·ms */
    uint16_t full_capacity; /* mAh */
    uint16_t cycle_count;
    bool fully_discharged; /* bit 4 of BatteryStatus */
    uint64_t toward_cycle; /* drawn toward the next cycle, mA·ms */
    uint64_t run_drawn;    /* drawn since the last sample at full, mA·ms; 0 with no run open */
    bool run_open;         /* a run may teach the full capacity */
};

/* Times in ms, as they stood at the last sample. */
struct sb2_timers {
    uint32_t hold;    /* what is left of the alarm hold */
    uint32_t alarm;   /* since the last alarm, at most 10,000 */
    uint32_t charger; /* since the last charger words */
};

/* The whole pack; any content is allowed, and only some is sound. */
struct sb2_state {
    uint32_t error_code;
    struct sb2_settings settings;
    struct sb2_host host;
    struct sb2_sample latest;
    struct sb2_minute minute;
    struct sb2_tank tank;
    struct sb2_timers timers;
};

/* What set-up takes. */
struct sb2_set_up {
    uint16_t design_capacity;
    uint16_t full_capacity;
    uint16_t remaining_capacity;
    uint16_t design_voltage;
    uint16_t max_error;
    uint16_t cycle_count;
    uint16_t manufacture_date;
    uint16_t serial_number;
    uint16_t charging_current;
    uint16_t charging_voltage;
    uint16_t temperature_limit;
    uint16_t discharge_limit;
    bool plain;
    struct sb2_sample first;
};

/* Makes a state: answers 0, or 11 with the all-zero state (rule: Answer numbers, 11). */
int sb2_set_up(struct sb2_state *state, const struct sb2_set_up *in);

/* Tells whether a state is sound (rules: Answer numbers, last paragraph; R-2; R-4). */
bool sb2_sound(const struct sb2_state *state);

/* Tells whether two states agree in every field, unused seconds too; where in the ring they stand doesn't count. */
bool sb2_same(const struct sb2_state *a, const struct sb2_state *b);

/* Packs a date as ManufactureDate does (002, 5.1.26). */
uint16_t sb2_pack_date(unsigned year, unsigned month, unsigned day);

/* Packs SpecificationInfo (002, 5.1.25). */
uint16_t sb2_pack_specification(unsigned version, unsigned revision, unsigned voltage_scale, unsigned current_scale);

/* ---- the clock */

/* Milliseconds from one counter reading to the next, wrapping (rule: Clock and broadcasts). */
uint32_t sb2_elapsed(uint32_t before, uint32_t now);

/* Takes a sample and writes the messages due: answers 0, 1 or 2, this under 20 bytes of room, in plain under 16;
 * *length is five bytes for each message, in plain four, 0 if refused (rules: Clock and broadcasts; R-2; R-4; R-5). */
int sb2_take_sample(struct sb2_state *state, const struct sb2_sample *sample, uint8_t *room, size_t room_length,
                    size_t *length);

/* ---- the bus */

/* Bytes that are lent for reading. */
struct sb2_bytes {
    const uint8_t *at;
    size_t length;
};

/* What a command is (rule: Transactions, the rows of 0x00 to 0x3F). */
enum sb2_kind { SB2_KIND_RESERVED, SB2_KIND_OPTIONAL, SB2_KIND_WRITE_WORD, SB2_KIND_READ_WORD, SB2_KIND_READ_BLOCK };

/* The kind of a command; 40 to FF are reserved (rule: Transactions). */
enum sb2_kind sb2_kind_of(uint8_t command);

/* Carries out one transaction: answers 0 to 10; *length is the reply's, 0 if there is none
 * (rules: Transactions; R-6). `read` is the driver's mark. */
int sb2_transact(struct sb2_state *state, bool read, struct sb2_bytes message, struct sb2_bytes service,
                 struct sb2_bytes factory, uint8_t *room, size_t room_length, size_t *length);

/* ---- the state in an area

 * The error code in one byte, then the parts, every number low byte first, a flag 0 or 1:
 *   settings  the nine words of sb2_settings in their order, then the flag plain
 *   host      the four words of sb2_host in their order, then its three flags
 *   latest    voltage, current and temperature of the latest sample; its counter, four bytes
 *   tank      charge, eight bytes; full capacity; cycle count; the flag of bit 4; drawn toward the next cycle and drawn
 *             in the run, eight bytes each; the flag of an open run
 *   timers    hold, alarm timer and charger timer, four bytes each
 *   recent    60 totals of complete seconds, newest first, four bytes each, in two's complement; how many are kept, one
 *             byte; the begun second's milliseconds, two bytes, and its total, four */
enum {
    SB2_SETTINGS_AT = 1,
    SB2_HOST_AT = SB2_SETTINGS_AT + 19,
    SB2_LATEST_AT = SB2_HOST_AT + 11,
    SB2_TANK_AT = SB2_LATEST_AT + 10,
    SB2_TIMERS_AT = SB2_TANK_AT + 30,
    SB2_RECENT_AT = SB2_TIMERS_AT + 12,
    SB2_AREA = SB2_RECENT_AT + 247, /* the bytes of an area */
};

/* Reads an area; false, and no state, if it has another size or a flag byte over 1. */
bool sb2_area_load(struct sb2_bytes area, struct sb2_state *state);

/* Writes a state; its error code and count must fit a byte, the begun second's milliseconds two. */
void sb2_area_store(const struct sb2_state *state, uint8_t area[SB2_AREA]);

/* The four entries over an area. Bytes that are no area answer 1, and only answers that leave a state write it. */
int sb2_area_set_up(uint8_t *area, size_t area_length, const struct sb2_set_up *in);
bool sb2_area_sound(struct sb2_bytes area);
int sb2_area_take_sample(uint8_t *area, size_t area_length, const struct sb2_sample *sample, uint8_t *room,
                         size_t room_length, size_t *length);
int sb2_area_transact(uint8_t *area, size_t area_length, bool read, struct sb2_bytes message, struct sb2_bytes service,
                      struct sb2_bytes factory, uint8_t *room, size_t room_length, size_t *length);

/* ---- the charger */

/* What may be true of a charger beside its numbers, each a bit (rule: R-7). */
enum {
    SB2_CURRENT_TAKEN = 1 << 0,   /* a ChargingCurrent came since power-on */
    SB2_CURRENT_AWAITED = 1 << 1, /* after an alarm: none came since */
    SB2_VOLTAGE_TAKEN = 1 << 2,   /* the same of ChargingVoltage */
    SB2_VOLTAGE_AWAITED = 1 << 3,
    SB2_INHIBITED = 1 << 4 /* INHIBIT_CHARGE as last written */
};

/* Its times and sizes. */
enum { SB2_SILENCE_MS = 175000, SB2_CHARGER_ROOM = 3, SB2_CHARGER_AREA = 23 };

/* The charger at address 12; any content is allowed, and only some is sound. */
struct sb2_charger {
    unsigned facts;           /* which of the five are true; no other bit counts */
    uint16_t current;         /* the last ChargingCurrent, mA; 0 where none was taken */
    uint16_t voltage;         /* the last ChargingVoltage, mV; 0 where none was taken */
    uint32_t silence;         /* ms with neither, 0 to 175,000 */
    struct sb2_sample latest; /* what it measured last */
};

/* The power-on state with a first sample; it is sound (rule: R-7). */
void sb2_charger_set_up(struct sb2_charger *charger, const struct sb2_sample *first);

/* Tells whether the silence is at most 175,000 ms (rule: R-7). */
bool sb2_charger_sound(const struct sb2_charger *charger);

/* The current that it gives, mA: answers 0, or 1 with 0 mA (rule: R-7). */
int sb2_charger_current(const struct sb2_charger *charger, uint16_t *current);

/* Takes a sample: answers 0 or 1 (rule: R-7). */
int sb2_charger_sample(struct sb2_charger *charger, const struct sb2_sample *sample);

/* Carries out one transaction at address 12: answers 0 to 6 or 8; *length is the reply's, 3 for a served read, else 0
 * (rule: R-7). `read` is the driver's mark. */
int sb2_charger_transact(struct sb2_charger *charger, bool read, struct sb2_bytes message, uint8_t *room,
                         size_t room_length, size_t *length);

/* The charger in an area of 23 bytes, every number low byte first, a flag 0 or 1: ChargingCurrent, the flags taken and
 * awaited; ChargingVoltage, its two flags; the flag inhibited; the silence, four bytes; the latest sample as in the
 * pack's area. Loading is false, and loads nothing, for another size or a flag byte over 1. */
bool sb2_area_charger_load(struct sb2_bytes area, struct sb2_charger *charger);
void sb2_area_charger_store(const struct sb2_charger *charger, uint8_t area[SB2_CHARGER_AREA]);

/* The five entries over it. Bytes that are no area answer 1; set-up, a sample taken and a served write store. */
int sb2_area_charger_set_up(uint8_t *area, size_t area_length, const struct sb2_sample *first);
bool sb2_area_charger_sound(struct sb2_bytes area);
int sb2_area_charger_current(struct sb2_bytes area, uint16_t *current);
int sb2_area_charger_sample(uint8_t *area, size_t area_length, const struct sb2_sample *sample);
int sb2_area_charger_transact(uint8_t *area, size_t area_length, bool read, struct sb2_bytes message, uint8_t *room,
                              size_t room_length, size_t *length);

/* ---- the thirteen-cell pack */

enum { SB2_CELLS = 13, SB2_THIRTEEN_AREA = 301 };

/* The pack of source document 001; any content is allowed, and only some is sound. */
struct sb2_thirteen {
    uint32_t error_code;      /* which no command shows */
    uint16_t design_capacity; /* mAh */
    uint16_t design_voltage;  /* mV */
    uint16_t state_of_health; /* percent */
    struct sb2_sample latest;
    uint16_t cells[SB2_CELLS]; /* mV, of the latest sample too */
    uint64_t charge;           /* mA·ms */
    uint16_t full_capacity;    /* mAh, as set up */
    bool fully_discharged;     /* bit 4 of its status */
    struct sb2_minute minute;
};

/* What its set-up takes. */
struct sb2_thirteen_set_up {
    uint16_t design_capacity;
    uint16_t full_capacity;
    uint16_t remaining_capacity;
    uint16_t design_voltage;
    uint16_t state_of_health;
    struct sb2_sample first;
    uint16_t cells[SB2_CELLS];
};

/* Makes a state: answers 0, or 11 with the all-zero state (rules: Answer numbers, 11; R-10). */
int sb2_thirteen_set_up(struct sb2_thirteen *pack, const struct sb2_thirteen_set_up *in);

/* Tells whether it is sound (rules: Answer numbers, last paragraph; R-2; R-10). */
bool sb2_thirteen_sound(const struct sb2_thirteen *pack);

/* Takes a sample and the cells' voltages: answers 0 or 1 (rules: Clock and broadcasts; R-2; R-10). */
int sb2_thirteen_sample(struct sb2_thirteen *pack, const struct sb2_sample *sample, const uint16_t cells[SB2_CELLS]);

/* Carries out one transaction: answers 0 to 8 or 10, no write 0; *length is the reply's, 3 for a word, 27 for F1, 0 if
 * there is none (rules: Transactions; R-6; R-10). `read` is the driver's mark. */
int sb2_thirteen_transact(struct sb2_thirteen *pack, bool read, struct sb2_bytes message, uint8_t *room,
                          size_t room_length, size_t *length);

/* It in an area of 301 bytes, every number low byte first, a flag 0 or 1: the error code, one byte; design capacity,
 * design voltage and state of health; the latest sample as in the pack's area; the cells; charge, eight bytes; full
 * capacity; the flag of bit 4; the minute as in the pack's area. Loading is false, and loads nothing, for another size
 * or a flag byte over 1; what is stored must fit, as with sb2_area_store. */
bool sb2_area_thirteen_load(struct sb2_bytes area, struct sb2_thirteen *pack);
void sb2_area_thirteen_store(const struct sb2_thirteen *pack, uint8_t area[SB2_THIRTEEN_AREA]);

/* The four entries over it. Bytes that are no area answer 1; set-up and a sample store all if served, a transaction the
 * first byte, the error code, unless it answers 1 to 3. */
int sb2_area_thirteen_set_up(uint8_t *area, size_t area_length, const struct sb2_thirteen_set_up *in);
bool sb2_area_thirteen_sound(struct sb2_bytes area);
int sb2_area_thirteen_sample(uint8_t *area, size_t area_length, const struct sb2_sample *sample,
                             const uint16_t cells[SB2_CELLS]);
int sb2_area_thirteen_transact(uint8_t *area, size_t area_length, bool read, struct sb2_bytes message, uint8_t *room,
                               size_t room_length, size_t *length);

/* ---- check bytes */

/* The check byte of a message of any length (rule: PEC). */
uint8_t sb2_pec(struct sb2_bytes message);

/* Answers 0 or 15; *accepted says whether the last byte is the PEC of those before it (rule: PEC). */
int sb2_check_exchange(struct sb2_bytes exchange, bool *accepted);

/* Answers 0 or 15; *bits is the number of bits in which the two differ (rule: PEC). */
int sb2_compare(struct sb2_bytes a, struct sb2_bytes b, uint32_t *bits);

/* ---- keys */

/* A part of lent bytes. */
struct sb2_part {
    size_t offset;
    size_t length;
};

/* What a key shows: both names still escaped. */
struct sb2_key {
    struct sb2_part maker;
    struct sb2_part device;
    uint16_t date;
    uint16_t serial;
};

/* Writes a key: answers 0 with its length, or 12 (rule: Key). */
int sb2_key_write(struct sb2_bytes maker, struct sb2_bytes device, uint16_t date, uint16_t serial, uint8_t *room,
                  size_t room_length, size_t *length);

/* Reads a key: answers 0 with its parts, or 13 with none (rule: Key). */
int sb2_key_read(struct sb2_bytes key, struct sb2_key *parts);

/* Writes the plain bytes of an escaped name of up to 32 plain bytes: answers 0, 13 for bytes that are none, or 12 for a
 * room that is shorter than the plain name (rule: Key; a decision shared with the library). */
int sb2_key_unescape(struct sb2_bytes name, uint8_t *room, size_t room_length, size_t *length);

/* ---- pack sheets */

/* A body for one tag, or none. */
struct sb2_body {
    bool given;
    struct sb2_bytes bytes;
};

/* A block name's place: a part of the service sheet or of the factory sheet. */
struct sb2_block {
    bool in_service;
    struct sb2_part part;
};

/* Writes a sheet of up to four bodies, tags 20 to 23: answers 0 with its length, or 12 (rule: Pack sheet). */
int sb2_sheet_write(const struct sb2_body bodies[4], uint8_t *room, size_t room_length, size_t *length);

/* Tells whether bytes are a sheet (rule: Pack sheet). */
bool sb2_sheet_good(struct sb2_bytes sheet);

/* Finds a block name: answers 0 with its place, or 9 if a sheet is bad (rule: Pack sheet). */
int sb2_sheet_block(struct sb2_bytes service, struct sb2_bytes factory, uint8_t tag, struct sb2_block *block);

/* Sets a body under a tag, adding or replacing it, in the sheet that is the first `stated` bytes of a room: answers 0
 * with the new length, or 9, 18, 19 or 20. What the new sheet leaves of the old one becomes 0 (rule: R-9). */
int sb2_sheet_set(uint8_t *room, size_t room_length, size_t stated, uint8_t tag, struct sb2_bytes body, size_t *length);

/* Removes the body under a tag, if there is one, from such a sheet: answers 0 with the new length, or 9 or 18. What is
 * left of the old sheet becomes 0 (rule: R-9). */
int sb2_sheet_remove(uint8_t *room, size_t room_length, size_t stated, uint8_t tag, size_t *length);

/* ---- captures */

/* A walk over a lent capture: the next row, and the place of its body. */
struct sb2_walk {
    struct sb2_bytes capture;
    size_t row;
    size_t place;
};

/* One row of a capture. */
struct sb2_row {
    bool read;
    struct sb2_part body;
};

/* Tells whether bytes are a capture: answers 0 or 14 (rule: Pack sheet and capture). */
int sb2_capture_test(struct sb2_bytes capture);

/* Starts a walk: answers 0, or 14 with a walk over nothing (rule: Pack sheet and capture). */
int sb2_walk_begin(struct sb2_bytes capture, struct sb2_walk *walk);

/* What the next row's step answers: 14 where it sees that the bytes are no capture, 0 else. The whole is tested when a
 * walk begins (rule: Pack sheet and capture; docs/DECISIONS.md, 17). */
int sb2_walk_test(const struct sb2_walk *walk);

/* Takes the next row; false, and an empty row, when none is left, its step answers 14 or its body isn't there at the
 * walk's place (rule: Pack sheet and capture). */
bool sb2_walk_next(struct sb2_walk *walk, struct sb2_row *row);

/* ---- the shelf */

/* One pack's words, mAh but for the cycles. */
struct sb2_shelf_row {
    uint16_t remaining;
    uint16_t full;
    uint16_t design;
    uint16_t cycles;
};

/* What the store keeper asks of a table. */
struct sb2_shelf {
    size_t packs;
    uint64_t remaining; /* total, mAh */
    uint64_t full;      /* total, mAh */
    bool is_lowest;     /* there is a lowest row; of no rows there is none */
    uint16_t lowest_remaining;
    uint16_t lowest_full;
    size_t lowest_place; /* from 0, the first on a tie */
    size_t low;          /* packs below one fifth */
};

/* Works the figures out: answers 0, 16 or 17, these two with figures of 0 (rule: R-1). */
int sb2_shelf_report(const struct sb2_shelf_row *rows, size_t count, struct sb2_shelf *figures);

/* The same of rows of eight bytes: answers 0 with sixteen bytes of figures in the room, 2, 4, 16 or 17 (rule: R-1; the
 * bytes and answers 2 and 4 as include/snatchblock.h says). */
int sb2_shelf_report_bytes(struct sb2_bytes table, uint8_t *room, size_t room_length, size_t *length);

#endif
