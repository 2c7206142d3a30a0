/*
 * Snatchblock: the software of a smart battery pack (Smart Battery Data Specification 1.1), for firmware in C11 or C++.
 *
 * A firmware lends an area of SNATCHBLOCK_AREA bytes. It sets the area up once (snatchblock_set_up_from), brings a
 * sample each second (snatchblock_sample_from) and hands over what the bus driver heard (snatchblock_transact).
 * examples/firmware/pack.c does so and can be copied. A charger's firmware does the same with an area of
 * SNATCHBLOCK_CHARGER_AREA bytes, that of a thirteen-cell pack with one of SNATCHBLOCK_THIRTEEN_AREA (examples/thirteen).
 * All else here is for tools: keys, sheets, captures, the shelf.
 *
 * To link: libsnatchblock.a alone (`tools/library` makes it; x86-64 Linux today). It calls the C library's memcpy,
 * memmove and memset and nothing else. It has no heap, no variables and no start: all that it knows lies in what a call lends.
 *
 * Units: mV; mA, signed, above 0 charges; capacities mAh, in power mode 10 mWh; charge mA·ms; temperatures 0.1 K
 * (0 °C is 2731.5); times on the bus minutes; the counter ms. A date is (year - 1980) * 512 + month * 32 + day.
 * Words on the bus and numbers in the area stand low byte first, signed ones in two's complement. Message bytes,
 * commands and tags are written in hex here.
 *
 * Slices: a pointer and the length after it are bytes lent for the call. No pointer is null, not even at length 0: give
 * the address of any byte there. Every length and every address is allowed, with no alignment. What is lent for writing
 * (a pointer without const) overlaps nothing else lent to that call. A bool is 0 or 1. The one array that comes without
 * a length, thirteen cells, is one of uint16_t at its own alignment.
 *
 * One call at a time on one area. If transactions come from an interrupt, mask it around every call, and every copy of
 * the area, that the loop makes; the bus hardware holds the clock meanwhile. Calls on other areas may run beside it.
 *
 * Stack, in bytes, the most that was measured of each (`make bench`, x86-64; nothing proves it): transact 4,352;
 * sample 2,400; thirteen_sample 2,080; read_key 1,752; unescape 1,656; thirteen_transact 968; sound 784;
 * charger_transact 392; thirteen_sound 336; exchange_check 312; pec 280; set_body 176; write_sheet 128; set_up 128;
 * thirteen_set_up 120; remove_body 112; block 104; shelf_report 80; write_key 56; charger_sample 56; all others 16.
 */
#ifndef SNATCHBLOCK_H
#define SNATCHBLOCK_H

#include <stdbool.h>
#include <stddef.h>
#include <stdint.h>

#ifdef __cplusplus
extern "C" {
#endif

/* ---- answers */

/*
 * The lowest number whose condition holds is given, 0 where none does. 0 and 10 are served, all others are refusals.
 * 1 to 3 leave the error code that BatteryStatus shows; 0 leaves 0, 4 to 10 the code in brackets.
 */
enum snatchblock_answer {
    SNATCHBLOCK_SERVED = 0,
    SNATCHBLOCK_NOT_SOUND = 1,         /* no area, or its state isn't sound */
    SNATCHBLOCK_SMALL_ROOM = 2,        /* a room for a reply under 34 bytes, of the charger 3, broadcasts 20 (plain: 16),
                                          the shelf 16 */
    SNATCHBLOCK_OTHER_ADDRESS = 3,     /* no bytes, or the first isn't 16, for the charger 12 */
    SNATCHBLOCK_WRONG_FORM = 4,        /* wrong size or form (6, BadSize), of the thirteen-cell pack also a write without
                                          PEC; a shelf's table that isn't whole rows */
    SNATCHBLOCK_WRONG_PEC = 5,         /* a write of five bytes, its PEC wrong (7, UnknownError) */
    SNATCHBLOCK_RESERVED_COMMAND = 6,  /* (2, ReservedCommand) */
    SNATCHBLOCK_COMMAND_NOT_BUILT = 7, /* an optional command that this pack hasn't (3, UnsupportedCommand) */
    SNATCHBLOCK_READ_ONLY = 8,         /* a write to what is only read (4, AccessDenied); of the charger also a read of
                                          what is only written */
    SNATCHBLOCK_BAD_SHEET = 9,         /* a block read, and one of the two sheets is none (7); an edit, and the room's
                                          front is no sheet of the stated length */
    SNATCHBLOCK_SERVED_CUT_OFF = 10,   /* minutes beyond the range (65,534, FE FF), or AtRateTimeToFull in power mode
                                          (FF FF): word and PEC are sent (5, Overflow/Underflow) */
    SNATCHBLOCK_BAD_SET_UP = 11,       /* DesignCapacity, full or DesignVoltage is 0, or remaining is above full */
    SNATCHBLOCK_NO_FIT = 12,           /* a name or body over 32 bytes, or a room too short for what is to be written */
    SNATCHBLOCK_NOT_A_KEY = 13,
    SNATCHBLOCK_NOT_A_CAPTURE = 14,
    SNATCHBLOCK_WRONG_LENGTH = 15, /* an exchange outside 2 to 37 bytes; a comparison of unequal lengths or over 37 */
    SNATCHBLOCK_TOO_MANY_ROWS = 16, /* a shelf's table of more than 64 rows */
    SNATCHBLOCK_BAD_ROW = 17,       /* a row of it with full or design 0, or with remaining above full */
    SNATCHBLOCK_BAD_TAG = 18,       /* an edit's tag isn't 20 to 23 */
    SNATCHBLOCK_LONG_BODY = 19,     /* its body is over 32 bytes */
    SNATCHBLOCK_LONG_SHEET = 20     /* its sheet would be longer than the room */
};

/*
 * A result of several numbers is one unsigned integer; a refusal has 0 above its answer. A refused call writes no byte
 * of a room, and of the area only what snatchblock_transact says.
 *
 *   result of                         bits: what stands there
 *   all these, set_up, charger_set_up,
 *     charger_sample, thirteen_set_up
 *     and thirteen_sample             0-7: the answer
 *   sample, transact, write_key,
 *     unescape, write_sheet,
 *     shelf_report, charger_transact,
 *     thirteen_transact               8-31: the bytes written to the front of the room; the rest of it stays
 *   set_body, remove_body             8-31: the new sheet's length
 *   charger_current                   8-23: the current in mA
 *   exchange_check                    8: right
 *   bit_comparison                    8-31: bits that differ
 *   read_key                          8-15: maker's length   16-23: device's length   24-39: date   40-55: serial
 *   block                             8-15: length   16-31: offset   32: in the factory sheet
 *   open_capture                      8-15: rows   16-31: place of the first body
 *   step_capture                      8: there is a row   9: a read   16-23: length   32-63: place of the next body
 */
static inline enum snatchblock_answer snatchblock_answer_of(uint64_t result)
{
    return (enum snatchblock_answer)(result & 0xFFu);
}
static inline bool snatchblock_served(uint64_t result) { return (result & 0xFFu) == 0 || (result & 0xFFu) == 10; }
static inline size_t snatchblock_length_of(uint32_t result) { return (size_t)(result >> 8); }

static inline bool snatchblock_check_right(uint32_t result) { return (result >> 8 & 1u) != 0; }
static inline uint32_t snatchblock_comparison_bits(uint32_t result) { return result >> 8; }

/* The maker part starts at byte 0 of the key, the device part one byte after the maker part ends. */
static inline size_t snatchblock_key_maker_length(uint64_t result) { return (size_t)(result >> 8 & 0xFFu); }
static inline size_t snatchblock_key_device_offset(uint64_t result) { return (size_t)(result >> 8 & 0xFFu) + 1; }
static inline size_t snatchblock_key_device_length(uint64_t result) { return (size_t)(result >> 16 & 0xFFu); }
static inline uint16_t snatchblock_key_date(uint64_t result) { return (uint16_t)(result >> 24 & 0xFFFFu); }
static inline uint16_t snatchblock_key_serial(uint64_t result) { return (uint16_t)(result >> 40 & 0xFFFFu); }

static inline size_t snatchblock_block_length(uint64_t result) { return (size_t)(result >> 8 & 0xFFu); }
static inline size_t snatchblock_block_offset(uint64_t result) { return (size_t)(result >> 16 & 0xFFFFu); }
static inline bool snatchblock_block_in_factory(uint64_t result) { return (result >> 32 & 1u) != 0; }

static inline size_t snatchblock_capture_rows(uint32_t result) { return (size_t)(result >> 8 & 0xFFu); }
static inline size_t snatchblock_capture_first(uint32_t result) { return (size_t)(result >> 16); }
static inline bool snatchblock_step_is_row(uint64_t result) { return (result >> 8 & 1u) != 0; }
static inline bool snatchblock_step_is_read(uint64_t result) { return (result >> 9 & 1u) != 0; }
static inline size_t snatchblock_step_length(uint64_t result) { return (size_t)(result >> 16 & 0xFFu); }
static inline size_t snatchblock_step_next(uint64_t result) { return (size_t)(result >> 32); }

/* ---- the area, and how to keep it */

/*
 * The version of the area. Every version has its own length, so that an area of another one is answered 1.
 * Bytes with a flag above 1 or with a state that isn't sound are answered 1 too, and left as they are.
 *
 * What moved: version 4 has one byte more at the end of SETTINGS, the flag plain. Version 3, of 329 bytes, has 17 more
 * at the end of TANK than version 2, of 312; that has 60 seconds in RECENT, where version 1, of 186, had the currents
 * of 60 samples. A sound area of each goes on as a sound one of version 4: its first 19 bytes; one byte, 01, so that
 * the pack goes on broadcasting in plain as it did, or 00 if all its hearers understand PEC; then
 *
 *   of version 3   the rest
 *   of version 2   the next 34 bytes, 17 zeros, the rest
 *   of version 1   the next 34 bytes, 17 zeros, the next 12 bytes, zeros to the end
 *
 * So coming from version 1 or 2 nothing is drawn toward the next cycle and no run is open; coming from version 1, no
 * second is complete.
 *
 * What is stored when, for an area in EEPROM: answers 1 to 3 don't touch it; 4 to 9 and every read store its first byte
 * alone, a served write that byte, HOST and TIMERS; a sample and a set-up store all of it.
 *
 * Stored bytes rot, and snatchblock_sound is no test for that. Keep the area's PEC beside it (snatchblock_pec of its 330
 * bytes). Take the area back only if its PEC matches and it is sound: bytes that are all 0 have the PEC 0, and aren't
 * sound. Else set the pack up anew. Proved of these 331 bytes: the PEC shows every odd number of altered bits, all
 * damage within eight neighbouring bits, and two altered bits unless they stand a multiple of 127 apart. Two bits that
 * do are not seen. Of damage in other even numbers of bits about one in 128 is not seen (measured by tests/c/storage.c).
 * A store that the power cuts short is such damage: where that can happen keep two copies, and store them in turn.
 *
 * After storage, and whenever the counter started anew: the first sample has current 0 (see snatchblock_sample).
 */
#define SNATCHBLOCK_VERSION 4

/*
 * The bytes of an area: the error code, then each part at its place. A flag is one byte, 1 or 0.
 *
 *   part      from   at  bytes
 *                0    0      1  error code
 *   SETTINGS     1    0  9 x 2  DesignCapacity, DesignVoltage, MaxError, ManufactureDate, SerialNumber, ChargingCurrent,
 *                               ChargingVoltage, TemperatureLimit, DischargeLimit
 *                    18      1  flag: plain
 *   HOST        20    0  4 x 2  ManufacturerAccess, RemainingCapacityAlarm, RemainingTimeAlarm, AtRate
 *                     8  3 x 1  flags: AlarmMode, ChargerMode, CapacityMode
 *   LATEST      31    0  3 x 2  the latest sample's voltage, current, temperature
 *                     6      4  its counter
 *   TANK        41    0      8  charge
 *                     8  2 x 2  full capacity, CycleCount
 *                    12      1  flag: FullyDischarged
 *                    13      8  drawn toward the next cycle, mA·ms, less than one DesignCapacity
 *                    21      8  drawn in the run, mA·ms, at most 65,535 mAh; 0 where none is open
 *                    29      1  flag: a run is open
 *   TIMERS      71    0  3 x 4  hold, alarm timer, charger timer, in ms
 *   RECENT      83    0 60 x 4  the last complete seconds since set-up, newest first: current x time, mA·ms, signed
 *                   240      1  how many of them are kept, 0 to 60; what stands beyond them isn't looked at
 *                   241      2  the begun second's ms, under 1,000
 *                   243      4  its current x time
 */
#define SNATCHBLOCK_SETTINGS 1
#define SNATCHBLOCK_PLAIN (SNATCHBLOCK_SETTINGS + 18)
#define SNATCHBLOCK_HOST (SNATCHBLOCK_SETTINGS + 19)
#define SNATCHBLOCK_LATEST (SNATCHBLOCK_HOST + 11)
#define SNATCHBLOCK_TANK (SNATCHBLOCK_LATEST + 10)
#define SNATCHBLOCK_TIMERS (SNATCHBLOCK_TANK + 30)
#define SNATCHBLOCK_RECENT (SNATCHBLOCK_TIMERS + 12)
#define SNATCHBLOCK_AREA (SNATCHBLOCK_RECENT + 247)

/*
 * Room that is always enough: for a sample's broadcasts, a reply, a key, a sheet, a shelf's figures. Less is refused;
 * broadcasts in plain are served from 16 bytes on, and an edit wherever its sheet fits.
 */
#define SNATCHBLOCK_BROADCAST_ROOM 20
#define SNATCHBLOCK_REPLY_ROOM 34
#define SNATCHBLOCK_KEY_ROOM 139
#define SNATCHBLOCK_SHEET_ROOM 145
#define SNATCHBLOCK_SHELF_ROOM 16

/* Whether bytes are an area and its state is sound. */
bool snatchblock_sound(const uint8_t *area, size_t area_length);

/* ---- set-up */

/*
 * What the pack is. The charge starts at remaining; full and CycleCount start here too, and samples move all three. The
 * rest stays as it is set up. A field that isn't given is 0: so broadcasts have their PEC unless plain is asked for.
 */
struct snatchblock_setup {
    uint16_t DesignCapacity;   /* mAh */
    uint16_t full;             /* FullChargeCapacity, mAh */
    uint16_t remaining;        /* RemainingCapacity, mAh */
    uint16_t DesignVoltage;    /* mV */
    uint16_t MaxError;         /* percent */
    uint16_t CycleCount;
    uint16_t ManufactureDate;  /* packed as above */
    uint16_t SerialNumber;
    uint16_t ChargingCurrent;  /* mA, what the charger is asked for */
    uint16_t ChargingVoltage;  /* mV, likewise */
    uint16_t TemperatureLimit; /* 0.1 K; above it OVER_TEMP is set */
    uint16_t DischargeLimit;   /* mV; below it, while discharging, TERMINATE_DISCHARGE is set */
    bool plain;                /* broadcasts of four bytes without PEC, for hearers that don't understand it; else each
                                  ends in its PEC */
};

/* What the board measured, and when. */
struct snatchblock_reading {
    uint16_t voltage;     /* mV */
    int16_t current;      /* mA, above 0 charges */
    uint16_t temperature; /* 0.1 K */
    uint32_t counter;     /* ms; runs on and wraps */
};

/*
 * Answers 0: the area holds the new state, which is sound, whatever it held before. 1: the area isn't SNATCHBLOCK_AREA
 * bytes. 11: a bad set-up. 1 and 11 leave the area as it was. Call it by snatchblock_set_up_from, where each number has
 * its name.
 */
uint32_t snatchblock_set_up(uint8_t *area, size_t area_length, uint16_t DesignCapacity, uint16_t full,
                            uint16_t remaining, uint16_t DesignVoltage, uint16_t MaxError, uint16_t CycleCount,
                            uint16_t ManufactureDate, uint16_t SerialNumber, uint16_t ChargingCurrent,
                            uint16_t ChargingVoltage, uint16_t TemperatureLimit, uint16_t DischargeLimit, bool plain,
                            uint16_t voltage, int16_t current, uint16_t temperature, uint32_t counter);

static inline uint32_t snatchblock_set_up_from(uint8_t *area, size_t area_length, const struct snatchblock_setup *setup,
                                               const struct snatchblock_reading *first)
{
    return snatchblock_set_up(area, area_length, setup->DesignCapacity, setup->full, setup->remaining,
                              setup->DesignVoltage, setup->MaxError, setup->CycleCount, setup->ManufactureDate,
                              setup->SerialNumber, setup->ChargingCurrent, setup->ChargingVoltage,
                              setup->TemperatureLimit, setup->DischargeLimit, setup->plain, first->voltage,
                              first->current, first->temperature, first->counter);
}

/* ---- samples */

/*
 * A sample: charge grows by current x elapsed, and falls where the current is below 0. Bring one at least each second:
 * an alarm then goes every 11 s at the latest. Answers 0; 1; 2: a room under 20 bytes, in plain under 16. length_of has
 * the broadcasts' bytes, 0 to 20, in plain to 16. 1 and 2 leave area and room as they were.
 *
 * Its current counts for the time since the sample before, and set-up's for none. AverageCurrent is the mean over the
 * last 60 whole seconds since set-up, or as many as there are, cut toward zero; the begun second isn't in it, and before
 * the first is complete it is the latest current. So it is a minute's mean however often samples come.
 *
 * CycleCount goes up by 1 for each DesignCapacity that was drawn, and stops at 65,535. A current below 0 draws, even
 * where the charge is already 0; charging and rest draw nothing.
 *
 * A discharge from full down to TERMINATE_DISCHARGE, with no charging between, teaches the pack its full capacity. Such
 * a run opens where set-up or a sample leaves the pack full. Of the samples below full one that charges ends it unused;
 * the first with TERMINATE_DISCHARGE set closes it: FullChargeCapacity is now what was drawn since the pack was last
 * full, in whole mAh, 1 to 65,535, be it above DesignCapacity; and the charge is 0, in this sample's alarm already. One
 * dip below DischargeLimit closes a run too: set that limit where the pack is empty under its usual load.
 *
 * A broadcast is a message that the pack itself sends as the bus's master: address (10 the host, 12 the charger),
 * command, low, high, and the PEC of these four. Host and charger check its five bytes as those of any message, and
 * drop a wrong one. In plain it is the four bytes alone. In the room they stand one behind the other, each of
 * snatchblock_message_length bytes; the driver sends them in their order. The specification allows none in the first
 * 10 s after the bus came on: those the driver drops. A lost one isn't made up; the next comes 10 or 30 s later.
 *
 * Elapsed is the counter's reading minus the latest one, wrapping. It is the true time only if samples come under 2^32
 * ms (49.7 days) apart and the counter ran on between them. After storage, after a restart of the counter, in doubt:
 * bring a sample with current 0 first. It is proved to change no charge and to end no run, whatever its counter says,
 * and the next sample counts from its reading. The hold, the two timers and the minute move by what the counter shows.
 * Any other current there adds current x a wrong elapsed, up to 1,193 hours of it: the pack reads empty or full,
 * counts cycles that weren't, and may learn a wrong full capacity.
 */
uint32_t snatchblock_sample(uint8_t *area, size_t area_length, uint16_t voltage, int16_t current,
                            uint16_t temperature, uint32_t counter, uint8_t *room, size_t room_length);

static inline uint32_t snatchblock_sample_from(uint8_t *area, size_t area_length,
                                               const struct snatchblock_reading *reading, uint8_t *room,
                                               size_t room_length)
{
    return snatchblock_sample(area, area_length, reading->voltage, reading->current, reading->temperature,
                              reading->counter, room, room_length);
}

/* The bytes of each broadcast message of this pack: 4 in plain, else 5. */
static inline size_t snatchblock_message_length(const uint8_t area[SNATCHBLOCK_AREA])
{
    return area[SNATCHBLOCK_PLAIN] == 1 ? 4 : 5;
}

/* ---- transactions */

/*
 * What the driver heard, all bytes in order, and its mark. A read is 16 command 17 (the address, the command, the
 * address with the read bit): call once that 17 came after the repeated start, and hold the clock until the reply is
 * there. A write is 16 command low high, or 16 command low high PEC: call at the STOP. A message of another form is
 * handed over as it came, to be refused.
 *
 * Answers 0 to 10. On 0 and 10 acknowledge; for a read send the room's first length_of bytes: low high PEC, or a block's
 * count, its bytes, PEC. On any other answer send nothing, and don't acknowledge where the hardware still can; the host
 * finds the error code in BatteryStatus. 1 to 3 leave the area as it was, 4 to 9 change only that code, its first byte.
 * 1 is for the firmware: the area is lost. So is 2: its room is too small.
 *
 * A time (05, 06, 11, 12, 13) is whole minutes up to 65,534. What is beyond, or flows the command's way at a power rate
 * that rounds to 0, shows 65,534 too and is answered 10: the error code, read next, tells a host that the word was cut
 * off. 65,535 with answer 0: nothing flows that way. 05 in power mode has no minutes: 65,535 with answer 10.
 *
 * Two sheets hold the names that block reads (20 to 23) show; the service sheet goes before the factory sheet. For no
 * names lend the one byte 00, a sheet too. No bytes are no sheet: every block read is then answered 9.
 *
 * Hosts may poll as they like: a read and a refused call change nothing but the error code. Leave any of them out, and
 * every alarm, every count and every other reply is as it was, but for the low four bits of BatteryStatus and its PEC.
 *
 * Whenever the bus comes on the specification wants BatteryMode at 0: hand over the write 16 03 00 00 then.
 */
uint32_t snatchblock_transact(uint8_t *area, size_t area_length, const uint8_t *service, size_t service_length,
                              const uint8_t *factory, size_t factory_length, bool read, const uint8_t *bytes,
                              size_t bytes_length, uint8_t *room, size_t room_length);

/* ---- the charger */

/*
 * A Level 2 charger at address 12 (Smart Battery Charger Specification 1.1): it takes the pack's broadcasts and gives the
 * current that they ask for. Its area has SNATCHBLOCK_CHARGER_AREA bytes; of other bytes every call here answers 1.
 *
 *   at  bytes
 *    0      2  ChargingCurrent, the word last written, mA
 *    2  2 x 1  flags: one was taken; it must come again, after an alarm
 *    4      2  ChargingVoltage, mV
 *    6  2 x 1  flags, as above
 *    8      1  flag: INHIBIT_CHARGE as last written
 *    9      4  the count: ms with no request, 0 to 175,000; above that the state isn't sound
 *   13     10  the latest sample, as LATEST has it in the pack's area
 *
 * Its current is the last ChargingCurrent taken. It is 0 before any; while inhibited; after an alarm, until both
 * requests were written again; with a ChargingVoltage of 0 or none yet; and once samples counted 175 s with neither
 * request: the count stops there, and a new request starts it again. A message carries no time, so that the count begins
 * at the sample before the request: the charger is off at the first sample after 175 s of silence, or one sample earlier.
 *
 * Nothing is kept over a time without power. Set the charger up whenever its power comes back and whenever a pack is put
 * in: what another pack asked for, or a host inhibited, doesn't count for it.
 *
 * Joined to a pack on one clock, samples at most 1 s apart and every broadcast delivered, nobody else writing to the
 * charger: where the pack reports TERMINATE_CHARGE with CHARGER_MODE clear, and both last, the current is 0 within 31 s
 * (a theorem; 30,999 ms do occur). With no alarm it is the pack's ChargingCurrent again within 31 s.
 *
 * What an integrator must know: charger and pack do what their rules say, and these leave two gaps.
 * - A hot pack at rest sends AlarmWarning with OVER_TEMP, and every 30 s in the same broadcast its charger words, whose
 *   ChargingCurrent isn't 0 then: they come behind the alarm and undo it at once.
 * - TERMINATE_CHARGE needs a current above 0. A charger that stops clears it, and the next charger words start a hot
 *   pack again.
 * So a hot pack can be charged in turns. The way out is a host that reads OVER_TEMP (bit 12 of BatteryStatus) and writes
 * ChargerMode 0001 (INHIBIT_CHARGE) while it lasts, 0000 afterwards.
 */
#define SNATCHBLOCK_CHARGER_AREA 23
#define SNATCHBLOCK_CHARGER_REPLY_ROOM 3

/*
 * The power-on state with the first sample: no request taken, nothing inhibited, the count at 0. Answers 0; 1: the area
 * isn't SNATCHBLOCK_CHARGER_AREA bytes, and stays as it was.
 */
uint32_t snatchblock_charger_set_up(uint8_t *area, size_t area_length, uint16_t voltage, int16_t current,
                                    uint16_t temperature, uint32_t counter);

static inline uint32_t snatchblock_charger_set_up_from(uint8_t *area, size_t area_length,
                                                       const struct snatchblock_reading *first)
{
    return snatchblock_charger_set_up(area, area_length, first->voltage, first->current, first->temperature,
                                      first->counter);
}

/* Whether bytes are a charger's area and its state is sound. */
bool snatchblock_charger_sound(const uint8_t *area, size_t area_length);

/*
 * A sample, each second: what the charger measures at the pack, and the counter. Elapsed, wrapping as the pack's, goes on
 * the count. Answers 0; 1, and the area stays as it was.
 */
uint32_t snatchblock_charger_sample(uint8_t *area, size_t area_length, uint16_t voltage, int16_t current,
                                    uint16_t temperature, uint32_t counter);

static inline uint32_t snatchblock_charger_sample_from(uint8_t *area, size_t area_length,
                                                       const struct snatchblock_reading *reading)
{
    return snatchblock_charger_sample(area, area_length, reading->voltage, reading->current, reading->temperature,
                                      reading->counter);
}

/*
 * What the driver heard at address 12, and its mark, as with snatchblock_transact: a read is 12 command 13, a write
 * 12 command low high, with or without PEC. Broadcasts come so too. A host reads
 *
 *   11 ChargerSpecInfo  0003: version 1.1 with PEC
 *   13 ChargerStatus    bit 0 CHARGE_INHIBITED, 2 VOLTAGE_NOTREG, 3 CURRENT_NOTREG (the latest sample is below the
 *                       request), 4 Level 2, 12 ALARM_INHIBITED, 14 BATTERY_PRESENT, 15 AC_PRESENT; the others are 0
 *
 * and writes
 *
 *   12 ChargerMode      bit 0 INHIBIT_CHARGE; 2 POR_RESET: as after set-up, but for the count, which goes on, whatever
 *                       the other bits; 3 RESET_TO_ZERO: both requests 0; no other bit has an effect
 *   14 ChargingCurrent  mA; sets the count to 0
 *   15 ChargingVoltage  mV; sets the count to 0
 *   16 AlarmWarning     with bit 15, 14, 13 or 12: no current until 14 and 15 were both written again, or a POR_RESET
 *
 * Answers 0; 1; 2: a room under 3 bytes; 3 to 5; 6: any other command; 8: a read of 12, 14, 15 or 16, a write to 11 or
 * 13. It has no error code: a read and a refusal don't touch the area. On 0 acknowledge; for a read send the room's first
 * length_of bytes.
 */
uint32_t snatchblock_charger_transact(uint8_t *area, size_t area_length, bool read, const uint8_t *bytes,
                                      size_t bytes_length, uint8_t *room, size_t room_length);

/* The current that the charger gives now: charger_current_of. Answers 0; 1: no area, or not sound: give none. */
uint32_t snatchblock_charger_current(const uint8_t *area, size_t area_length);

static inline uint16_t snatchblock_charger_current_of(uint32_t result) { return (uint16_t)(result >> 8 & 0xFFFFu); }

/* ---- the thirteen-cell pack */

/*
 * The pack of a tractor-drawn sprayer: thirteen cells, at the pack's address, with commands and status bits of its own.
 * Its area has SNATCHBLOCK_THIRTEEN_AREA bytes; of other bytes every call here answers 1.
 *
 *   at   bytes
 *     0      1  error code, which no command shows
 *     1  3 x 2  DesignCapacity, DesignVoltage, StateOfHealth
 *     7     10  the latest sample, as LATEST has it in the pack's area
 *    17 13 x 2  the cells, mV
 *    43      8  charge, mA·ms
 *    51      2  full, mAh
 *    53      1  flag: FULLY_DISCHARGED
 *    54    247  the recent minute, as RECENT has it in the pack's area
 *
 * It broadcasts nothing, and no host can write to it: no alarms, no modes, no cycles, and full stays what set-up brought.
 */
#define SNATCHBLOCK_THIRTEEN_AREA 301
#define SNATCHBLOCK_THIRTEEN_CELLS 13

/* What set-up brings beside the first sample and the cells; capacities in mAh. */
struct snatchblock_thirteen_setup {
    uint16_t DesignCapacity;
    uint16_t full;
    uint16_t remaining;
    uint16_t DesignVoltage; /* mV */
    uint16_t StateOfHealth; /* percent, shown as it is */
};

/*
 * Set-up, with the first sample and the cells' voltages. Answers 0; 1: the area isn't SNATCHBLOCK_THIRTEEN_AREA bytes;
 * 11. A refusal leaves the area as it was.
 */
uint32_t snatchblock_thirteen_set_up(uint8_t *area, size_t area_length, uint16_t DesignCapacity, uint16_t full,
                                     uint16_t remaining, uint16_t DesignVoltage, uint16_t StateOfHealth,
                                     uint16_t voltage, int16_t current, uint16_t temperature, uint32_t counter,
                                     const uint16_t cells[SNATCHBLOCK_THIRTEEN_CELLS]);

static inline uint32_t snatchblock_thirteen_set_up_from(uint8_t *area, size_t area_length,
                                                        const struct snatchblock_thirteen_setup *setup,
                                                        const struct snatchblock_reading *first,
                                                        const uint16_t cells[SNATCHBLOCK_THIRTEEN_CELLS])
{
    return snatchblock_thirteen_set_up(area, area_length, setup->DesignCapacity, setup->full, setup->remaining,
                                       setup->DesignVoltage, setup->StateOfHealth, first->voltage, first->current,
                                       first->temperature, first->counter, cells);
}

/* Whether bytes are such an area and its state is sound. */
bool snatchblock_thirteen_sound(const uint8_t *area, size_t area_length);

/*
 * A sample, each second, with the cells' voltages. Elapsed, charge and the minute go on as the pack's do. Answers 0; 1,
 * and the area stays as it was.
 */
uint32_t snatchblock_thirteen_sample(uint8_t *area, size_t area_length, uint16_t voltage, int16_t current,
                                     uint16_t temperature, uint32_t counter,
                                     const uint16_t cells[SNATCHBLOCK_THIRTEEN_CELLS]);

static inline uint32_t snatchblock_thirteen_sample_from(uint8_t *area, size_t area_length,
                                                        const struct snatchblock_reading *reading,
                                                        const uint16_t cells[SNATCHBLOCK_THIRTEEN_CELLS])
{
    return snatchblock_thirteen_sample(area, area_length, reading->voltage, reading->current, reading->temperature,
                                       reading->counter, cells);
}

/*
 * What the driver heard at address 16, and its mark, as with snatchblock_transact; but a write must carry its PEC. A host
 * reads
 *
 *   08 Temperature             0.1 K
 *   09 Voltage                 10 mV, rounded down
 *   0A Current                 10 mA, signed, cut toward zero
 *   0D RelativeStateOfCharge   percent
 *   11 RunTimeToEmpty          minutes, as the pack's
 *   13 AverageTimeToFull       minutes, as the pack's
 *   16 BatteryStatus           bit 4 FULLY_DISCHARGED, as the pack's; 5 FULLY_CHARGED: 1 to 99 mA above 51,000 mV;
 *                              6 DISCHARGING: current below 0; 7 INITIALIZED; 8 UNDER_VOLTAGE: up to 39,000 mV;
 *                              9 OVER_VOLTAGE: from 54,800 mV; 10 CHARGE_OVER_CURRENT: from 2,000 mA;
 *                              11 DISCHARGE_OVER_CURRENT: from 15,000 mA; 12 UNDER_TEMPERATURE: up to 0 C;
 *                              13 OVER_TEMPERATURE: from 50 C charging, from 60 C discharging; the others are 0
 *   31 to 3D                   cells 1 to 13, mV
 *   4F StateOfHealth           percent
 *   F1                         26 bytes with no count: cells 1 to 13, mV, each low byte first
 *
 * Answers 0; 1; 2: a room under 34 bytes; 3; 4, for a write without PEC too; 5; 6; 7: 00, 80, 81, A0 to A2; 8: a right
 * write to what is read above; 10, to a read of 11 or 13. 1 to 3 store nothing, all others the area's first byte.
 */
uint32_t snatchblock_thirteen_transact(uint8_t *area, size_t area_length, bool read, const uint8_t *bytes,
                                       size_t bytes_length, uint8_t *room, size_t room_length);

/* ---- messages */

/* The PEC of bytes: CRC-8, x^8 + x^2 + x + 1, start 0, high bit first. A message's is over its address bytes too. */
uint8_t snatchblock_pec(const uint8_t *bytes, size_t length);

/*
 * Whether an exchange, what a host sent and then what it heard, ends in its PEC: check_right; so of a broadcast's five
 * bytes. Answers 0, 15.
 */
uint32_t snatchblock_exchange_check(const uint8_t *bytes, size_t length);

/* In how many bits two messages differ: comparison_bits. Answers 0, 15. */
uint32_t snatchblock_bit_comparison(const uint8_t *a, size_t a_length, const uint8_t *b, size_t b_length);

/* ---- keys */

/*
 * The key of a pack: both names with 5C before each 2F and 5C, date and serial as four hex digits, joined by 2F. Names
 * of up to 32 bytes; length_of is at most 139. Answers 0; 12: a name over 32 bytes, or a room under 139.
 */
uint32_t snatchblock_write_key(const uint8_t *maker, size_t maker_length, const uint8_t *device,
                               size_t device_length, uint16_t date, uint16_t serial, uint8_t *room,
                               size_t room_length);

/* The parts of a key: key_maker_length and its fellows. Both names are still escaped. Answers 0; 13: no key. */
uint64_t snatchblock_read_key(const uint8_t *key, size_t length);

/*
 * A part of a key as the plain name. Answers 0; 12: the room is shorter than the name; 13: no key shows such a part, for
 * the bytes aren't the escape of a name of up to 32 bytes.
 */
uint32_t snatchblock_unescape(const uint8_t *part, size_t part_length, uint8_t *room, size_t room_length);

/* ---- sheets */

/*
 * A sheet of the bodies that there are, for the tags 20 to 23: ManufacturerName, DeviceName, DeviceChemistry,
 * ManufacturerData. Where has is false the body's bytes are ignored. Give a name at least one byte. Answers 0; 12: a
 * body over 32 bytes, or a room under 145.
 */
uint32_t snatchblock_write_sheet(uint8_t *room, size_t room_length, bool has20, const uint8_t *body20,
                                 size_t length20, bool has21, const uint8_t *body21, size_t length21, bool has22,
                                 const uint8_t *body22, size_t length22, bool has23, const uint8_t *body23,
                                 size_t length23);

/*
 * Sets a body of up to 32 bytes in the sheet that the room holds in its first stated bytes: adds it, or puts it in the
 * place of the one under its tag. Later bodies move, so that the result is the sheet that write_sheet gives of the same
 * bodies. length_of is its length, for the next edit to state. Bytes past it within the old sheet become 0; all beyond
 * both stay. Answers 0; 9: the room's front is no sheet of the stated length; 18: the tag isn't 20 to 23; 19: the body
 * is over 32 bytes; 20: the sheet would be longer than the room. A refusal, looked for in that order, writes nothing.
 * Edit a copy of stored bytes, and store that: an edit that the power cuts short leaves no sheet.
 */
uint32_t snatchblock_set_body(uint8_t *room, size_t room_length, size_t stated, uint8_t tag, const uint8_t *body,
                              size_t body_length);

/* Removes the body of a tag, in the same way. A tag that is absent gives the sheet's own length. Answers 0, 9, 18. */
uint32_t snatchblock_remove_body(uint8_t *room, size_t room_length, size_t stated, uint8_t tag);

/* Whether bytes are a sheet. */
bool snatchblock_is_sheet(const uint8_t *bytes, size_t length);

/*
 * Where the block of a tag lies: block_length bytes at block_offset of the factory sheet (block_in_factory), else of the
 * service sheet. A tag in neither has no bytes, at 0 of the factory sheet. Answers 0; 9: one of the two isn't a sheet.
 */
uint64_t snatchblock_block(const uint8_t *service, size_t service_length, const uint8_t *factory,
                           size_t factory_length, uint8_t tag);

/* ---- captures */

/* Opens a capture and tests the whole of it: capture_rows, capture_first. Answers 0; 14: no capture, and both are 0. */
uint32_t snatchblock_open_capture(const uint8_t *bytes, size_t length);

/*
 * The row (from 0) whose body starts at a place: step_is_row, step_is_read, step_length, and step_next, the place for
 * the next row. Opening tests the whole, a step its own row alone: open first, and walk from capture_first. Of bytes
 * that are no capture that is 0, where every step answers 14. Answers 0, with no row past the last one, at a place before
 * the bodies or where the body would pass the end; 14: place is 0, the rows pass the end, the bytes are over 9,946, or
 * the row has a mark or a length that no capture has.
 */
uint64_t snatchblock_step_capture(const uint8_t *bytes, size_t length, size_t row, size_t place);

/* ---- the shelf */

/*
 * Monday's figures over a table of up to 64 packs, 8 bytes a row: remaining, full and design mAh, cycle count, each two
 * bytes, low byte first. On 0 the first 16 bytes of the room hold the figures, each number low byte first:
 *
 *   at  bytes
 *    0      1  how many packs
 *    1      4  total remaining, mAh
 *    5      4  total full, mAh
 *    9      1  flag: there is a lowest row; of no rows there is none, and the three after it are 0
 *   10  2 x 2  the lowest remaining / full: that row's remaining, its full
 *   14      1  its place, from 0, the first on a tie
 *   15      1  how many have less than one fifth of full remaining
 *
 * Answers 0; 2: a room under 16 bytes; 4: the table isn't whole rows; 16: more than 64 rows; 17: a row whose full or
 * design is 0 or whose remaining is above full. The table is only read.
 */
uint32_t snatchblock_shelf_report(const uint8_t *table, size_t table_length, uint8_t *room, size_t room_length);

struct snatchblock_row {
    uint16_t remaining; /* mAh */
    uint16_t full;      /* mAh */
    uint16_t design;    /* mAh */
    uint16_t cycles;
};

struct snatchblock_figures {
    uint8_t packs;
    uint32_t remaining; /* total, mAh */
    uint32_t full;      /* total, mAh */
    bool is_lowest;
    uint16_t lowest_remaining;
    uint16_t lowest_full;
    uint8_t lowest_place;
    uint8_t low; /* below one fifth */
};

static inline uint32_t snatchblock_low_first(const uint8_t *bytes, size_t length)
{
    uint32_t number = 0;
    while (length > 0)
        number = 256u * number + bytes[--length];
    return number;
}

/* The same of rows in structs. A refusal gives figures of 0, no lowest: last week's aren't left to look like today's. */
static inline uint32_t snatchblock_shelf_report_from(const struct snatchblock_row *rows, size_t count,
                                                     struct snatchblock_figures *figures)
{
    uint8_t table[65 * 8] = {0}; /* one row more than is served, so that the library says so */
    uint8_t room[SNATCHBLOCK_SHELF_ROOM] = {0};
    size_t given = count < 65 ? count : 65;
    for (size_t i = 0; i < given; i++) {
        const uint16_t words[4] = {rows[i].remaining, rows[i].full, rows[i].design, rows[i].cycles};
        for (size_t j = 0; j < 8; j++)
            table[8 * i + j] = (uint8_t)(words[j / 2] >> 8 * (j % 2));
    }
    uint32_t result = snatchblock_shelf_report(table, 8 * given, room, sizeof room);
    figures->packs = room[0];
    figures->remaining = snatchblock_low_first(room + 1, 4);
    figures->full = snatchblock_low_first(room + 5, 4);
    figures->is_lowest = room[9] != 0;
    figures->lowest_remaining = (uint16_t)snatchblock_low_first(room + 10, 2);
    figures->lowest_full = (uint16_t)snatchblock_low_first(room + 12, 2);
    figures->lowest_place = room[14];
    figures->low = room[15];
    return result;
}

#ifdef __cplusplus
}
#endif

#endif
