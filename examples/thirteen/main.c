/* A board for pack.c, simulated: ten minutes of spraying, then a host's visit, each read's bytes in words. */
#include "board.h"

#include <stdio.h>
#include <stdlib.h>
#include <string.h>

static uint32_t second;

/* Cell 1 at 3,760 mV, each next one 1 mV lower, and all of them 1 mV lower every ten seconds. */
void board_measure_cells(uint16_t cells[SNATCHBLOCK_THIRTEEN_CELLS])
{
    for (uint32_t i = 0; i < SNATCHBLOCK_THIRTEEN_CELLS; i++)
        cells[i] = (uint16_t)(3760 - i - second / 10);
}

struct snatchblock_reading board_measure(void)
{
    uint32_t sum = 13 * (3754 - second / 10); /* of the cells, mV */
    return (struct snatchblock_reading){(uint16_t)sum, -4805, 2982, 1000 * second};
}

void board_interrupts_off(void) {} /* this host waits for the loop */
void board_interrupts_on(void) {}

static void die(const char *what)
{
    fprintf(stderr, "thirteen: %s\n", what);
    exit(1);
}

/* A read, whose exchange the host checks: the word at the reply's front. */
static uint8_t exchange[3 + SNATCHBLOCK_REPLY_ROOM];

static unsigned host_reads(uint8_t command)
{
    const uint8_t ask[3] = {0x16, command, 0x17};
    int length = pack_on_bus(true, ask, 3, exchange + 3);
    if (length == PACK_SILENT)
        die("a read isn't served");
    memcpy(exchange, ask, 3);
    if (!snatchblock_check_right(snatchblock_exchange_check(exchange, 3 + (size_t)length)))
        die("a reply is damaged");
    return snatchblock_low_first(exchange + 3, 2);
}

static void print_minutes(const char *name, unsigned minutes)
{
    if (minutes == 65535)
        printf("%-22s none\n", name); /* nothing flows that way */
    else
        printf("%-22s %u min\n", name, minutes);
}

static void visit(void)
{
    static const char *const names[10] = {
        "FULLY_DISCHARGED", "FULLY_CHARGED", "DISCHARGING", "INITIALIZED", "UNDER_VOLTAGE", "OVER_VOLTAGE",
        "CHARGE_OVER_CURRENT", "DISCHARGE_OVER_CURRENT", "UNDER_TEMPERATURE", "OVER_TEMPERATURE"}; /* bits 4 to 13 */
    printf("Temperature            %.1f K\n", host_reads(0x08) / 10.0);
    printf("Voltage                %.2f V\n", host_reads(0x09) / 100.0);
    printf("Current                %.2f A\n", (int16_t)host_reads(0x0A) / 100.0);
    printf("RelativeStateOfCharge  %u %%\n", host_reads(0x0D));
    print_minutes("RunTimeToEmpty", host_reads(0x11));
    print_minutes("AverageTimeToFull", host_reads(0x13));
    printf("StateOfHealth          %u %%\n", host_reads(0x4F));
    unsigned status = host_reads(0x16);
    printf("BatteryStatus          %04x", status);
    for (unsigned bit = 4; bit <= 13; bit++)
        if (status >> bit & 1)
            printf(" %s", names[bit - 4]);
    printf("\nall cells, mV         ");
    (void)host_reads(0xF1);
    for (size_t i = 0; i < SNATCHBLOCK_THIRTEEN_CELLS; i++)
        printf(" %u", (unsigned)snatchblock_low_first(exchange + 3 + 2 * i, 2));
    printf("\n");
}

int main(void)
{
    if (!pack_start(2500))
        die("the set-up is refused");
    for (second = 1; second <= 600; second++)
        if (!pack_on_second())
            die("a sample is refused");
    visit();
    return 0;
}
