/* The hut's five minutes over the second program: what crates/hut must print. Plain C11; the story is a table. */
#include "../../second/snatchblock2.h"

#include <stdio.h>

enum { FIRST_READING_BELOW_WRAP = 67296, MS = 1000 };

/* Samples of one kind to a second; or, with bytes, a host's write after the sample of that second. */
struct part {
    const char *name;
    unsigned second;
    uint16_t millivolts;
    int16_t milliamps;
    uint16_t tenth_kelvin;
    uint8_t bytes[5];
    size_t length;
};

#define SAMPLES(name, last, mv, ma, temperature) {name, last, mv, ma, temperature, {0}, 0}
#define WRITE(second, length, ...) {NULL, second, 0, 0, 0, {__VA_ARGS__}, length}

static const struct part story[] = {
    SAMPLES("charging", 40, 16400, 1500, 2981),
    SAMPLES("hot", 57, 16300, 0, 3190),
    WRITE(57, 4, 0x16, 0x03, 0x00, 0x20), /* ALARM_MODE */
    SAMPLES("hot and charging", 128, 16500, 600, 3190),
    WRITE(128, 4, 0x16, 0x03, 0x00, 0x40),       /* CHARGER_MODE */
    WRITE(128, 5, 0x16, 0x02, 0x0A, 0x00, 0x46), /* RemainingTimeAlarm 10 with a wrong check byte */
    WRITE(128, 5, 0x16, 0x02, 0x0A, 0x00, 0x47), /* and with the right one */
    SAMPLES("spraying", 215, 13900, -12000, 3050),
    WRITE(215, 4, 0x16, 0x01, 0xA4, 0x06), /* RemainingCapacityAlarm 1,700 */
    SAMPLES("spraying on, the voltage low", 233, 10900, -12000, 3080),
    WRITE(233, 4, 0x16, 0x03, 0x00, 0x00), /* both modes off */
    SAMPLES("at rest", 275, 14200, 0, 3000),
    WRITE(275, 4, 0x16, 0x01, 0x00, 0x00),
    WRITE(275, 4, 0x16, 0x02, 0x00, 0x00),
    SAMPLES("at rest, no limits", 300, 14200, 0, 3000),
};

static void hex(const uint8_t *bytes, size_t length)
{
    for (size_t i = 0; i < length; i++)
        printf("%02x", (unsigned)bytes[i]);
}

static uint32_t reading(unsigned second)
{
    return (uint32_t)0 - FIRST_READING_BELOW_WRAP + second * MS;
}

static bool sampled(struct sb2_state *pack, const struct part *p, unsigned second)
{
    struct sb2_sample sample = {p->millivolts, p->milliamps, p->tenth_kelvin, reading(second)};
    uint8_t room[SB2_BROADCAST_ROOM];
    size_t length;
    if (sb2_take_sample(pack, &sample, room, sizeof room, &length) != SB2_SERVED)
        return false;
    if (length > 0) {
        printf("%u ", second);
        hex(room, length);
        printf("\n");
    }
    return true;
}

static void written(struct sb2_state *pack, const struct part *p)
{
    static const uint8_t no_names[1] = {0};
    struct sb2_bytes none = {no_names, 1}, message = {p->bytes, p->length};
    uint8_t room[SB2_REPLY_ROOM];
    size_t length;
    int answer = sb2_transact(pack, false, message, none, none, room, sizeof room, &length);
    printf("%u host ", p->second);
    hex(p->bytes, p->length);
    printf(" %d\n", answer);
}

int main(void)
{
    const struct sb2_set_up in = {
        .design_capacity = 2000, .full_capacity = 2000, .remaining_capacity = 1995, .design_voltage = 14800,
        .max_error = 2, .cycle_count = 7, .manufacture_date = sb2_pack_date(2021, 3, 15), .serial_number = 17,
        .charging_current = 1800, .charging_voltage = 16800, .temperature_limit = 3182, .discharge_limit = 11000,
        .plain = true, /* the hut doesn't understand PEC */
        .first = {16000, 0, 2981, reading(0)},
    };
    struct sb2_state pack;
    if (sb2_set_up(&pack, &in) != SB2_SERVED)
        return 1;
    unsigned second = 0;
    for (const struct part *p = story; p < story + sizeof story / sizeof *story; p++) {
        if (p->length > 0) {
            written(&pack, p);
            continue;
        }
        printf("%s\n", p->name);
        while (second < p->second)
            if (!sampled(&pack, p, ++second))
                return 1;
    }
    return 0;
}
