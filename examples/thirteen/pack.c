/* The firmware of a thirteen-cell pack over the proved library, to be copied: change the figures, and give it your
 * board's functions (board.h). examples/thirteen/run shows it at work: on a simulated board (main.c) it sprays for ten
 * minutes, and a host's visit is printed.
 *
 * The area has two users, the driver's interrupt (pack_on_bus) and the loop, which masks that interrupt around its own
 * calls. This pack broadcasts nothing. How an area is kept over a time without power stands in
 * examples/firmware/pack.c: with its PEC beside it, taken back if it is sound, and a first sample with current 0. */
#include "board.h"

static uint8_t area[SNATCHBLOCK_THIRTEEN_AREA];

bool pack_start(uint16_t remaining)
{
    const struct snatchblock_thirteen_setup setup = {
        .DesignCapacity = 5200, /* mAh */
        .full = 5000,           /* as measured: this pack doesn't learn it */
        .remaining = remaining,
        .DesignVoltage = 48100, /* mV */
        .StateOfHealth = 96,    /* percent: 5,000 of 5,200 */
    };
    const struct snatchblock_reading first = board_measure();
    uint16_t cells[SNATCHBLOCK_THIRTEEN_CELLS];
    board_measure_cells(cells);
    return snatchblock_served(snatchblock_thirteen_set_up_from(area, sizeof area, &setup, &first, cells));
}

/* A refusal says that the area in RAM is lost. What the cells hold isn't known then: empty until it is charged. */
bool pack_on_second(void)
{
    const struct snatchblock_reading now = board_measure();
    uint16_t cells[SNATCHBLOCK_THIRTEEN_CELLS];
    board_measure_cells(cells);
    board_interrupts_off();
    bool taken = snatchblock_served(snatchblock_thirteen_sample_from(area, sizeof area, &now, cells));
    if (!taken)
        (void)pack_start(0);
    board_interrupts_on();
    return taken;
}

/* The interrupt's own call. The driver has the message whole: a read when its 17 came, a write at its STOP. */
int pack_on_bus(bool read, const uint8_t *bytes, size_t length, uint8_t reply[SNATCHBLOCK_REPLY_ROOM])
{
    uint32_t result = snatchblock_thirteen_transact(area, sizeof area, read, bytes, length, reply,
                                                    SNATCHBLOCK_REPLY_ROOM);
    return snatchblock_served(result) ? (int)snatchblock_length_of(result) : PACK_SILENT;
}
