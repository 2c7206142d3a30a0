/* A charger's firmware over the proved library, to be copied: give it your board's functions (board.h).
 *
 * Nothing is kept while the power is off: the charger starts with no request, and the pack's words come within 30 s. The
 * area has two users, as the pack's has: the driver's interrupt (charger_on_bus) and the loop, which masks it. */
#include "board.h"

enum { VOLTAGE_AT = 4 }; /* ChargingVoltage in the area (snatchblock.h) */

static uint8_t area[SNATCHBLOCK_CHARGER_AREA];

/* The regulator follows at once. Of an area that is lost there is no current. */
static void give(void)
{
    uint32_t result = snatchblock_charger_current(area, sizeof area);
    charger_board_give(snatchblock_charger_current_of(result), (uint16_t)snatchblock_low_first(area + VOLTAGE_AT, 2));
}

/* The interrupt's own call. The driver has the message whole: a read when its 13 came, a write at its STOP. */
int charger_on_bus(bool read, const uint8_t *bytes, size_t length, uint8_t reply[SNATCHBLOCK_CHARGER_REPLY_ROOM])
{
    uint32_t result = snatchblock_charger_transact(area, sizeof area, read, bytes, length, reply,
                                                   SNATCHBLOCK_CHARGER_REPLY_ROOM);
    give();
    return snatchblock_served(result) ? (int)snatchblock_length_of(result) : CHARGER_SILENT;
}

void charger_power_on(void)
{
    const struct snatchblock_reading first = charger_board_measure();
    (void)snatchblock_charger_set_up_from(area, sizeof area, &first); /* an area of its size is never refused */
    give();
}

/* Without samples the 175 s aren't counted: a loop that hangs must let the watchdog stop the regulator. */
void charger_on_second(void)
{
    const struct snatchblock_reading now = charger_board_measure();
    charger_board_interrupts_off();
    if (!snatchblock_served(snatchblock_charger_sample_from(area, sizeof area, &now)))
        charger_power_on(); /* the area in RAM is lost */
    give();
    charger_board_interrupts_on();
}
