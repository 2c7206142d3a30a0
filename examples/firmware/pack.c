/* A pack's firmware over the proved library, to be copied: change the figures and the sheets, and give it your board's
 * functions (board.h).
 *
 * The area has two users: the driver's interrupt (pack_on_bus) and the loop (all else here). A read's reply is wanted
 * at once, so that messages can't wait in a queue for the loop. The loop masks the interrupt around each of its own
 * calls instead, and no longer than that: a message that comes in meanwhile finds the clock held low, which SMBus allows
 * for 25 ms in a message, and a sample is a few thousand instructions. */
#include "board.h"

#include <string.h>

#ifndef PACK_PLAIN
#define PACK_PLAIN false /* true for an old hut, whose hearers don't understand PEC */
#endif

enum { QUIET_SECONDS = 10 }; /* the specification: no broadcast so long after the bus came on */

static uint8_t area[SNATCHBLOCK_AREA];
static unsigned seconds_on;

/* No names of the workshop's own; the maker's and the device's in the factory sheet. */
static const uint8_t service_sheet[] = {0};
static const uint8_t factory_sheet[] = {2, 0x20, 5, 9, 0, 0x21, 4, 14, 0, 'H', 'a', 'z', 'e', 'l', 'S', 'P', '1', '2'};

static bool set_up(uint16_t remaining, uint16_t MaxError)
{
    const struct snatchblock_setup setup = {
        .DesignCapacity = 12000, /* mAh */
        .full = 12000,           /* until a discharge from full to the limit teaches it */
        .remaining = remaining,
        .DesignVoltage = 14400, /* mV */
        .MaxError = MaxError,
        .CycleCount = 31,
        .ManufactureDate = (2021 - 1980) * 512 + 3 * 32 + 15, /* 15 March 2021 */
        .SerialNumber = 17,
        .ChargingCurrent = 1500,
        .ChargingVoltage = 16800,
        .TemperatureLimit = 3182, /* 45 °C */
        .DischargeLimit = 12300, /* empty, under the sprayer's load */
        .plain = PACK_PLAIN,
    };
    const struct snatchblock_reading first = board_measure();
    return snatchblock_served(snatchblock_set_up_from(area, sizeof area, &setup, &first));
}

/* The interrupt's own call. The driver has the message whole: a read when its 17 came, a write at its STOP. */
int pack_on_bus(bool read, const uint8_t *bytes, size_t length, uint8_t reply[SNATCHBLOCK_REPLY_ROOM])
{
    uint32_t result = snatchblock_transact(area, sizeof area, service_sheet, sizeof service_sheet, factory_sheet,
                                           sizeof factory_sheet, read, bytes, length, reply, SNATCHBLOCK_REPLY_ROOM);
    return snatchblock_served(result) ? (int)snatchblock_length_of(result) : PACK_SILENT;
}

/* ---- the state in EEPROM: the area, then its PEC
 *
 * One copy, stored before the power goes. Where the power can fail while it is stored, keep two and store them in turn. */

void pack_keep(void)
{
    uint8_t kept[SNATCHBLOCK_AREA + 1];
    board_interrupts_off(); /* for the copy alone: an EEPROM is slow */
    memcpy(kept, area, sizeof area);
    board_interrupts_on();
    kept[SNATCHBLOCK_AREA] = snatchblock_pec(kept, SNATCHBLOCK_AREA);
    board_eeprom_write(kept, sizeof kept);
}

/* Both are asked: damage shows in the PEC, and bytes that are all 0 have the PEC 0 but aren't sound. */
static bool take_back(void)
{
    uint8_t kept[SNATCHBLOCK_AREA + 1];
    board_eeprom_read(kept, sizeof kept);
    if (snatchblock_pec(kept, SNATCHBLOCK_AREA) != kept[SNATCHBLOCK_AREA] || !snatchblock_sound(kept, SNATCHBLOCK_AREA))
        return false;
    memcpy(area, kept, sizeof area);
    return true;
}

/* How long the pack lay and where the counter was, nobody knows. A sample with current 0 changes no charge, whatever its
 * counter says, and the next one counts from here. Its broadcasts fall into the quiet time. */
static bool first_sample(void)
{
    uint8_t room[SNATCHBLOCK_BROADCAST_ROOM];
    struct snatchblock_reading now = board_measure();
    now.current = 0;
    return snatchblock_served(snatchblock_sample_from(area, sizeof area, &now, room, sizeof room));
}

/* The specification: BatteryMode is 0 whenever the bus comes on. */
static bool mode_at_0(void)
{
    static const uint8_t write_mode[] = {0x16, 0x03, 0x00, 0x00};
    uint8_t reply[SNATCHBLOCK_REPLY_ROOM];
    return pack_on_bus(false, write_mode, sizeof write_mode, reply) != PACK_SILENT;
}

/* ---- the board's calls */

bool pack_make(uint16_t remaining, uint16_t MaxError)
{
    bool made = set_up(remaining, MaxError);
    if (made)
        pack_keep();
    return made;
}

bool pack_power_on(void)
{
    seconds_on = 0;
    if (take_back() && mode_at_0() && first_sample())
        return true;
    (void)set_up(0, 100); /* what the cells hold isn't known: empty until it is charged */
    return false;
}

void pack_on_second(void)
{
    uint8_t room[SNATCHBLOCK_BROADCAST_ROOM];
    const struct snatchblock_reading now = board_measure();
    board_interrupts_off();
    uint32_t result = snatchblock_sample_from(area, sizeof area, &now, room, sizeof room);
    if (!snatchblock_served(result))
        (void)pack_power_on(); /* the area in RAM is lost: the one time that the mask lasts longer */
    board_interrupts_on();
    if (seconds_on < QUIET_SECONDS) {
        seconds_on++;
        return;
    }
    size_t each = snatchblock_message_length(area);
    for (size_t at = 0; at < snatchblock_length_of(result); at += each)
        board_send(room + at, each);
}
