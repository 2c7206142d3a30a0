/* Between the firmware of a thirteen-cell pack (pack.c), to be copied, and its board (main.c simulates one). */
#ifndef BOARD_H
#define BOARD_H

#include "snatchblock.h"

/* ---- what the board gives */

/* Voltage, current, temperature and the millisecond counter, and each cell's mV, measured now. */
struct snatchblock_reading board_measure(void);
void board_measure_cells(uint16_t cells[SNATCHBLOCK_THIRTEEN_CELLS]);

/* Masks the bus driver's interrupt. What comes in meanwhile waits: the bus hardware holds the clock low. */
void board_interrupts_off(void);
void board_interrupts_on(void);

/* ---- what it calls */

enum { PACK_SILENT = -1 };

/* Before the driver's interrupt is enabled: a pack that holds so many mAh. */
bool pack_start(uint16_t remaining);

/* From the loop, each second. Whether the pack went on; if not, it was started anew. */
bool pack_on_second(void);

/* From the driver's interrupt: how many bytes of the reply to send, or PACK_SILENT: don't acknowledge. */
int pack_on_bus(bool read, const uint8_t *bytes, size_t length, uint8_t reply[SNATCHBLOCK_REPLY_ROOM]);

#endif
