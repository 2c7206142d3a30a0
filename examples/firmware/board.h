/* Between the firmware of a pack (pack.c) or a charger (charger.c), each to be copied, and its board (main.c simulates
 * both). */
#ifndef BOARD_H
#define BOARD_H

#include "snatchblock.h"

/* ---- what the pack's board gives its firmware */

/* Voltage, current, temperature and the millisecond counter, measured now. */
struct snatchblock_reading board_measure(void);

/* Masks the bus driver's interrupt. What comes in meanwhile waits: the bus hardware holds the clock low. */
void board_interrupts_off(void);
void board_interrupts_on(void);

/* Sends a broadcast as the bus's master: START, its bytes, five with PEC or four in plain, STOP. The first is the
 * address. */
void board_send(const uint8_t *message, size_t length);

void board_eeprom_read(uint8_t *to, size_t length);
void board_eeprom_write(const uint8_t *from, size_t length);

/* ---- what it calls */

enum { PACK_SILENT = -1 };

/* In the factory, once: a pack that holds so many mAh, known to so many percent. */
bool pack_make(uint16_t remaining, uint16_t MaxError);

/* After each power-on, before the driver's interrupt is enabled. Whether the kept state was good. */
bool pack_power_on(void);

/* From the loop, each second. */
void pack_on_second(void);

/* From the driver's interrupt: how many bytes of the reply to send, or PACK_SILENT: don't acknowledge. */
int pack_on_bus(bool read, const uint8_t *bytes, size_t length, uint8_t reply[SNATCHBLOCK_REPLY_ROOM]);

/* From the loop, before the power goes. */
void pack_keep(void);

/* ---- what the charger's board gives its firmware */

/* Voltage and current at the pack, its temperature, and the charger's own millisecond counter, measured now. */
struct snatchblock_reading charger_board_measure(void);

void charger_board_interrupts_off(void);
void charger_board_interrupts_on(void);

/* Sets the regulator: at most so many mA, and no more than so many mV. */
void charger_board_give(uint16_t current, uint16_t voltage);

/* ---- what it calls */

enum { CHARGER_SILENT = -1 };

/* After each power-on, before the driver's interrupt is enabled; masked, whenever another pack is put in: what the last
 * one asked for doesn't count for it. */
void charger_power_on(void);

/* From the loop, each second. */
void charger_on_second(void);

/* From the driver's interrupt, the pack's broadcasts too: as pack_on_bus. */
int charger_on_bus(bool read, const uint8_t *bytes, size_t length, uint8_t reply[SNATCHBLOCK_CHARGER_REPLY_ROOM]);

#endif
