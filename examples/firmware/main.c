/* Boards for pack.c and charger.c, simulated: a day of spraying across the wrap of the millisecond counter, a night on
 * the charger, sixty days in store, and another day and night with a counter that starts from 0. That day empties the
 * pack from full, so that it learns what its cells hold. It prints alarms, the charger's current, cycles and the full
 * capacity as they change, and writes a table for plot.py:
 *   firmware TABLE.csv */
#include "board.h"

#include <stdio.h>
#include <stdlib.h>
#include <string.h>

enum { MINUTE = 60, HOUR = 3600, DAY = 24 * HOUR };
enum { DAY_FROM = 7 * HOUR, DAY_TO = DAY + 6 * HOUR, STORED = 60 * DAY, NEXT_TO = DAY_TO + STORED + DAY };
enum { CELLS_HOLD = 11800 }; /* mAh, of the 12,000 that they were built for */
enum { BUSY_FROM = 16 * HOUR + 30 * MINUTE, BUSY_TO = BUSY_FROM + 20 * MINUTE }; /* the display wants no alarms */
enum { PLUGGED_FROM = 18 * HOUR + 3 * MINUTE + 47, PLUGGED_TO = 5 * HOUR }; /* the charger, each night */
enum { DEAR_FROM = 19 * HOUR, DEAR_TO = DEAR_FROM + HOUR }; /* the display inhibits it */
enum { APART_FROM = DAY + PLUGGED_TO }; /* it wants no charger words, for there is no charger */
enum { SILENT_FROM = 61 * DAY + 20 * HOUR, SILENT_TO = SILENT_FROM + 30 * MINUTE }; /* nor here, and that is a mistake */
enum { ALARM_WARNING = 0x16, CHARGING_CURRENT = 0x14, HOST = 0x10, CHARGER = 0x12, PACK = 0x16 };
enum { SENT_WORDS = 1, SENT_STOP = 2 };

static uint32_t second; /* since the first midnight */

static void die(const char *what)
{
    fprintf(stderr, "firmware: %s\n", what);
    exit(1);
}

static void stamp(void)
{
    printf("day %2u %02u:%02u:%02u  ", second / DAY + 1, second / HOUR % 24, second / MINUTE % 60, second % 60);
}

/* ---- the cells: a sprayer's pump by day, a charger by night */

static double true_charge = 11500; /* mAh: what is in the cells, which the pack can't see */
static double current;             /* mA */
static double warmth = 2931;       /* 0.1 K */
static bool plugged_in;            /* the charger, into the wall */
static uint16_t given;             /* mA: what it gives */

/* The current that the day's plan asks for. */
static double load(void)
{
    uint32_t hour = second / HOUR % 24;
    uint32_t minute = second / MINUTE % 60;
    if (hour >= 8 && hour < 12)
        return minute % 20 < 15 ? -1900 : -40; /* a tank sprayed, then filled */
    if (hour >= 13 && hour < 17)
        return minute % 20 < 16 ? -2100 : -40;
    if (hour >= 18 || hour < 5)
        return 1500; /* the wall offers this much; what the charger gives may be less */
    return -10;
}

static void a_second_passes(void)
{
    uint32_t hour = second / HOUR % 24;
    double ambient = hour > 11 && hour < 17 ? 3021 : 2931;
    current = load();
    if (current > given)
        current = given;
    if (current < 0 && true_charge <= 30)
        current = 0; /* the protection has opened */
    true_charge += current / HOUR;
    if (true_charge > CELLS_HOLD)
        true_charge = CELLS_HOLD; /* what is put in beyond it is lost */
    warmth += (ambient + current * current / 60000 - warmth) / 1800;
}

/* ---- the counter: on for weeks when the day begins, it wraps at 15:00; after the storage it starts from 0 */

static uint32_t started, reading_then;

static uint32_t counter(void)
{
    return reading_then + (second - started) * 1000;
}

static struct snatchblock_reading measured(uint32_t at)
{
    double open = 12.9 + 3.0 * true_charge / 12000 - (true_charge < 600 ? (600 - true_charge) * 0.005 : 0);
    double volts = open + current * 0.0002;
    return (struct snatchblock_reading){(uint16_t)(volts * 1000), (int16_t)current, (uint16_t)warmth, at};
}

struct snatchblock_reading board_measure(void)
{
    return measured(counter());
}

/* ---- the charger's board: its own counter starts whenever it is plugged in */

static uint32_t plugged_at;
static unsigned starts; /* since then */

struct snatchblock_reading charger_board_measure(void)
{
    return measured((second - plugged_at) * 1000);
}

void charger_board_give(uint16_t most_current, uint16_t most_voltage)
{
    if (most_current > 0 && measured(0).voltage > most_voltage)
        die("the cells are above the voltage that they ask for"); /* they never come so far */
    starts += given == 0 && most_current > 0;
    given = most_current;
}

/* ---- the bus: a message raises the interrupt of the driver at its address, which waits while it is masked */

struct message {
    bool read;
    uint8_t bytes[5];
    size_t length;
    uint8_t reply[SNATCHBLOCK_REPLY_ROOM];
    int replied;
};

struct driver {
    int (*on_bus)(bool read, const uint8_t *bytes, size_t length, uint8_t *reply);
    bool masked;
    struct message *waiting;
};

static struct driver pack_driver = {pack_on_bus, false, NULL}, charger_driver = {charger_on_bus, false, NULL};
static unsigned waited, refused;

static void interrupt(struct driver *driver, struct message *m)
{
    if (driver->masked)
        die("an interrupt came through its mask");
    m->replied = driver->on_bus(m->read, m->bytes, m->length, m->reply);
    refused += m->replied < 0;
}

static void unmask(struct driver *driver)
{
    struct message *m = driver->waiting;
    driver->masked = false;
    driver->waiting = NULL;
    if (m != NULL)
        interrupt(driver, m);
}

static void host_sends(struct message *m)
{
    struct driver *driver = m->bytes[0] == PACK ? &pack_driver : &charger_driver;
    if (!driver->masked) {
        interrupt(driver, m);
        return;
    }
    driver->waiting = m; /* one is enough: the host holds the bus until it is through */
    waited++;
}

static void host_writes(uint8_t address, uint8_t command, uint16_t word)
{
    static struct message m;
    m = (struct message){false, {address, command, (uint8_t)(word & 0xFF), (uint8_t)(word >> 8)}, 5, {0}, 0};
    m.bytes[4] = snatchblock_pec(m.bytes, 4);
    host_sends(&m);
}

/* The host checks what it sent and heard. */
static uint16_t host_reads_of(uint8_t address, uint8_t command)
{
    struct message m = {true, {address, command, address | 1}, 3, {0}, 0};
    uint8_t exchange[3 + SNATCHBLOCK_REPLY_ROOM];
    host_sends(&m);
    if (m.replied < 0)
        die("a read isn't served");
    memcpy(exchange, m.bytes, 3);
    memcpy(exchange + 3, m.reply, (size_t)m.replied);
    if (!snatchblock_check_right(snatchblock_exchange_check(exchange, 3 + (size_t)m.replied)))
        die("a reply is damaged");
    return (uint16_t)(m.reply[0] | m.reply[1] << 8);
}

static uint16_t host_reads(uint8_t command)
{
    return host_reads_of(PACK, command);
}

/* What the pack learned of itself, as the host last read it. */
static uint16_t full_capacity, cycles;

static void host_asks(void)
{
    uint16_t full_before = full_capacity, cycles_before = cycles;
    full_capacity = host_reads(0x10);
    cycles = host_reads(0x17);
    if (full_capacity != full_before) {
        stamp();
        printf("full capacity learned: %u mAh\n", full_capacity);
    }
    if (cycles != cycles_before) {
        stamp();
        printf("cycle %u is complete\n", cycles);
    }
}

/* What the charger gives, and its status. A change within a minute of the one before isn't printed: at a full pack it
 * starts and stops twice a minute, and unplugging tells how often. */
static uint16_t told_current;
static uint32_t changed_at;

static void host_asks_charger(void)
{
    uint16_t status = host_reads_of(CHARGER, 0x13);
    if (given == told_current)
        return;
    if (second - changed_at >= MINUTE) {
        stamp();
        printf("charger gives %u mA, ChargerStatus %04x%s%s%s%s\n", given, status, status & 0x1000 ? " ALARM_INHIBITED" : "",
               status & 0x0008 ? " CURRENT_NOTREG" : "", status & 0x0004 ? " VOLTAGE_NOTREG" : "",
               status & 0x0001 ? " CHARGE_INHIBITED" : "");
    }
    told_current = given;
    changed_at = second;
}

/* The host's writes come at the worst moment, just when the loop is at the area. */
void board_interrupts_off(void)
{
    pack_driver.masked = true;
    if (second == DAY_FROM + 1)
        host_writes(PACK, 0x01, 1500); /* RemainingCapacityAlarm */
    if (second >= BUSY_FROM && second < BUSY_TO && (second - BUSY_FROM) % 50 == 0)
        host_writes(PACK, 0x03, 0x2000); /* ALARM_MODE, renewed before its minute is over */
    if (second == APART_FROM || second == SILENT_FROM)
        host_writes(PACK, 0x03, 0x4000); /* CHARGER_MODE */
    if (second == SILENT_TO)
        host_writes(PACK, 0x03, 0x0000);
}

void board_interrupts_on(void)
{
    unmask(&pack_driver);
}

void charger_board_interrupts_off(void)
{
    charger_driver.masked = true;
    if (second == DEAR_FROM || second == DEAR_TO)
        host_writes(CHARGER, 0x12, second == DEAR_FROM); /* ChargerMode: INHIBIT_CHARGE, and not */
}

void charger_board_interrupts_on(void)
{
    unmask(&charger_driver);
}

/* ---- the bus: the pack's broadcasts */

static uint16_t last_alarm, last_current, last_voltage;
static unsigned alarms_sent, charger_words_sent;
static unsigned alarms_of_minute, charger_of_minute; /* for the table */

static void host_hears(uint16_t word)
{
    alarms_of_minute |= word;
    if (word == last_alarm)
        return;
    last_alarm = word;
    stamp();
    printf("alarm   %04x%s%s%s%s%s\n", word, word & 0x4000 ? " TERMINATE_CHARGE" : "", word & 0x1000 ? " OVER_TEMP" : "",
           word & 0x0800 ? " TERMINATE_DISCHARGE" : "", word & 0x0200 ? " REMAINING_CAPACITY" : "",
           word & 0x0100 ? " REMAINING_TIME" : "");
}

static void tell_words(uint8_t command, uint16_t word)
{
    bool of_current = command == CHARGING_CURRENT;
    uint16_t *last = of_current ? &last_current : &last_voltage;
    charger_of_minute |= command == ALARM_WARNING ? SENT_STOP : SENT_WORDS;
    if (command == ALARM_WARNING || word == *last)
        return;
    *last = word;
    stamp();
    printf("charger %s %u\n", of_current ? "ChargingCurrent" : "ChargingVoltage", word);
}

/* Unplugged it hears nothing, and the pack's driver finds nobody there. */
static void charger_hears(const uint8_t *message, size_t length)
{
    struct message m = {false, {0}, length, {0}, 0};
    if (!plugged_in)
        return;
    memcpy(m.bytes, message, length);
    interrupt(&charger_driver, &m);
    if (m.replied < 0)
        die("the charger refuses a broadcast");
    tell_words(message[1], (uint16_t)(message[2] | message[3] << 8));
}

/* The host checks a message as any other; of one in plain nothing can be told. */
static void host_checks(const uint8_t *message, size_t length)
{
    if (length != 4 && !snatchblock_check_right(snatchblock_exchange_check(message, length)))
        die("the host hears a damaged broadcast");
    host_hears((uint16_t)(message[2] | message[3] << 8));
}

void board_send(const uint8_t *message, size_t length)
{
    alarms_sent += message[1] == ALARM_WARNING;
    charger_words_sent += message[1] != ALARM_WARNING;
    if (message[0] == HOST)
        host_checks(message, length);
    else
        charger_hears(message, length);
}

/* ---- EEPROM */

static uint8_t eeprom[512];
_Static_assert(sizeof eeprom > SNATCHBLOCK_AREA, "the area and its PEC fit");

void board_eeprom_read(uint8_t *to, size_t length)
{
    memcpy(to, eeprom, length);
}

void board_eeprom_write(const uint8_t *from, size_t length)
{
    memcpy(eeprom, from, length);
}

/* ---- the days */

static void power_on(uint32_t reading)
{
    started = second;
    reading_then = reading;
    bool kept = pack_power_on();
    stamp();
    printf("power on, the counter at %u: %s\n", reading,
           kept ? "the kept state is right" : "the kept state is damaged, set up anew");
    full_capacity = host_reads(0x10);
    cycles = host_reads(0x17);
    stamp();
    printf("%u of %u mAh, %u cycles, MaxError %u %%, BatteryMode %04x\n", host_reads(0x0F), full_capacity, cycles,
           host_reads(0x0C), host_reads(0x03));
}

static double charged_of_minute; /* mA x s */

static void row(FILE *table)
{
    if (table == NULL)
        return;
    fprintf(table, "%u,%u,%u,%u,%u,%u,%u,%u,%.0f,%u\n", second, counter(), host_reads(0x0D), host_reads(0x09),
            host_reads(0x03), alarms_of_minute, charger_of_minute, host_reads(0x10), charged_of_minute / MINUTE,
            plugged_in ? host_reads_of(CHARGER, 0x13) : 0u);
    alarms_of_minute = charger_of_minute = 0;
    charged_of_minute = 0;
}

static void plug(void)
{
    bool night = second % DAY >= PLUGGED_FROM || second % DAY < PLUGGED_TO;
    if (night && !plugged_in) {
        plugged_in = true;
        plugged_at = second;
        told_current = 0;
        starts = 0;
        charger_power_on();
        stamp();
        printf("charger plugged in: ChargerSpecInfo %04x, ChargerStatus %04x\n", host_reads_of(CHARGER, 0x11),
               host_reads_of(CHARGER, 0x13));
    } else if (!night && plugged_in) {
        plugged_in = false;
        given = 0;
        stamp();
        printf("charger unplugged, it was started %u times\n", starts);
    }
}

static void tell(bool now, const char *what)
{
    if (now) {
        stamp();
        puts(what);
    }
}

/* With no table none is written. */
static void run_until(uint32_t end, FILE *table)
{
    row(table);
    while (second < end) {
        second++;
        plug();
        a_second_passes();
        charged_of_minute += current > 0 ? current : 0;
        if (plugged_in)
            charger_on_second();
        pack_on_second();
        host_asks();
        tell(counter() == 0, "the counter wraps");
        tell(second == BUSY_FROM, "the display is busy and asks for no alarms");
        tell(second == BUSY_TO, "the display is free again");
        tell(second == DEAR_FROM, "the display inhibits the charger, current is dear");
        tell(second == DEAR_TO, "the display inhibits it no more");
        tell(second == APART_FROM, "the display asks for no charger words");
        tell(second == SILENT_FROM, "the display asks for no charger words, and writes none itself");
        tell(second == SILENT_TO, "the display lets the pack send them again");
        if (plugged_in)
            host_asks_charger();
        if (second % MINUTE == 0)
            row(table);
    }
}

/* The board's memory is lost and the counter stands; only the EEPROM stays. */
static void store(void)
{
    stamp();
    printf("stored for 60 days with %u mAh, BatteryMode %04x\n", host_reads(0x0F), host_reads(0x03));
    pack_keep();
    second += STORED;
    current = load();
    power_on(0);
}

int main(int count, char **given)
{
    FILE *table = count > 1 ? fopen(given[1], "w") : NULL;
    if (table == NULL) {
        fprintf(stderr, "usage: firmware TABLE.csv\n");
        return 2;
    }
    fprintf(table, "second,counter,percent,millivolts,mode,alarms,charger,full,charging,status\n");
    second = DAY_FROM;
    if (!pack_make(11500, 2))
        die("the set-up is refused");
    power_on(0u - (15 * HOUR - DAY_FROM) * 1000u);
    run_until(DAY_TO, table);
    store();
    run_until(NEXT_TO, table);
    stamp();
    printf("%u %%, %u of %u mAh, %u cycles\n", host_reads(0x0D), host_reads(0x0F), full_capacity, cycles);
    stamp();
    printf("sent %u alarm and %u charger messages, refused %u, %u waited for a sample\n", alarms_sent,
           charger_words_sent, refused, waited);
    pack_keep();
    eeprom[100] ^= 0x10; /* one bit rots */
    power_on(0);
    run_until(second + MINUTE, NULL);
    return fclose(table) != 0;
}
