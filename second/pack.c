/* The pack's state: set-up, soundness and the words of its registers. */
#include "inside.h"

#include <string.h>

/* Charge of a full pack in mA·ms (rule: Registers, charge is kept in mA·ms). */
static uint64_t full_charge(const struct sb2_state *s)
{
    return (uint64_t)s->tank.full_capacity * SB2_MS_PER_HOUR;
}

/* Holds a number under a cap (rule: Registers, the caps of each word). */
static uint16_t capped(uint64_t value, uint16_t cap)
{
    return value > cap ? cap : (uint16_t)value;
}

/* The size of a signed word; that of −32,768 is 32,768 (rule: Wrong readings to shut out). */
static uint32_t size_of(int16_t value)
{
    int32_t wide = value;
    return (uint32_t)(wide < 0 ? -wide : wide);
}

/* Year, month and day in one word (002, 5.1.26; worked example 5). */
uint16_t sb2_pack_date(unsigned year, unsigned month, unsigned day)
{
    return (uint16_t)((year - 1980u) * 512u + month * 32u + day);
}

/* Version, revision and both scales in one word (002, 5.1.25). */
uint16_t sb2_pack_specification(unsigned version, unsigned revision, unsigned voltage_scale, unsigned current_scale)
{
    return (uint16_t)(version * 0x10u + revision + (voltage_scale + current_scale * 0x10u) * 0x100u);
}

/* 11 with the all-zero state, or 0 with the first state: no second complete or begun, nothing drawn, and a run open if
 * the pack is full (rules: Answer numbers; Registers; R-2; R-4; R-5). */
int sb2_set_up(struct sb2_state *state, const struct sb2_set_up *in)
{
    struct sb2_set_up given = *in;
    memset(state, 0, sizeof *state);
    if (given.design_capacity == 0 || given.full_capacity == 0 || given.design_voltage == 0 ||
        given.remaining_capacity > given.full_capacity)
        return SB2_BAD_SET_UP;
    state->settings.design_capacity = given.design_capacity;
    state->settings.design_voltage = given.design_voltage;
    state->settings.max_error = given.max_error;
    state->settings.manufacture_date = given.manufacture_date;
    state->settings.serial_number = given.serial_number;
    state->settings.charging_current = given.charging_current;
    state->settings.charging_voltage = given.charging_voltage;
    state->settings.temperature_limit = given.temperature_limit;
    state->settings.discharge_limit = given.discharge_limit;
    state->settings.plain = given.plain;
    state->host.remaining_capacity_alarm = given.design_capacity / 10;
    state->host.remaining_time_alarm = 10;
    state->latest = given.first;
    state->tank.charge = (uint64_t)given.remaining_capacity * SB2_MS_PER_HOUR;
    state->tank.full_capacity = given.full_capacity;
    state->tank.cycle_count = given.cycle_count;
    state->tank.fully_discharged = given.remaining_capacity == 0;
    state->tank.run_open = given.remaining_capacity == given.full_capacity;
    state->timers.alarm = SB2_ALARM_MS;
    return SB2_SERVED;
}

/* The ring goes round: one place older is one place down. */
int32_t sb2_second_at(const struct sb2_minute *minute, uint32_t place)
{
    return minute->total[(minute->newest % SB2_SECONDS + SB2_SECONDS - place) % SB2_SECONDS];
}

/* Whether signed 16-bit currents can give a total in so many ms, at most 1,000 (rule: R-2). */
static bool can_be(int32_t total, uint32_t ms)
{
    return total >= INT16_MIN * (int32_t)ms && total <= INT16_MAX * (int32_t)ms;
}

/* 0 to 60 complete seconds and a begun one, each with a total that can be; others aren't looked at (rule: R-2). */
static bool minute_sound(const struct sb2_minute *m)
{
    if (m->count > SB2_SECONDS || m->begun_ms >= SB2_SECOND_MS)
        return false;
    for (uint32_t place = 0; place < m->count; place++)
        if (!can_be(sb2_second_at(m, place), SB2_SECOND_MS))
            return false;
    return can_be(m->begun_total, m->begun_ms);
}

/* Less than one design capacity toward the next cycle; a run's count within its end, and none without a run (rule:
 * */
static bool drawn_sound(const struct sb2_state *s)
{
    uint64_t run_most = s->tank.run_open ? (uint64_t)SB2_LEARNED_MOST * SB2_MS_PER_HOUR : 0;
    return s->tank.toward_cycle < (uint64_t)s->settings.design_capacity * SB2_MS_PER_HOUR &&
           s->tank.run_drawn <= run_most;
}

/* Every bound of a sound state (rules: Answer numbers, last paragraph; R-2; R-4). */
bool sb2_sound(const struct sb2_state *s)
{
    if (s->settings.design_capacity == 0 || s->tank.full_capacity == 0 || s->settings.design_voltage == 0)
        return false;
    if (s->tank.charge > full_charge(s) || !drawn_sound(s))
        return false;
    if (!minute_sound(&s->minute))
        return false;
    if (s->timers.hold > SB2_HOLD_MS || s->timers.alarm > SB2_ALARM_MS || s->timers.charger >= SB2_CHARGER_MS)
        return false;
    if (s->host.charger_mode && s->timers.charger != 0)
        return false;
    if (s->error_code > 7)
        return false;
    return (s->timers.hold == 0) == !s->host.alarm_mode;
}

static bool same_minute(const struct sb2_minute *a, const struct sb2_minute *b)
{
    for (uint32_t place = 0; place < SB2_SECONDS; place++)
        if (sb2_second_at(a, place) != sb2_second_at(b, place))
            return false;
    return a->count == b->count && a->begun_ms == b->begun_ms && a->begun_total == b->begun_total;
}

/* Field by field, so that padding doesn't count. */
bool sb2_same(const struct sb2_state *a, const struct sb2_state *b)
{
    if (a->error_code != b->error_code)
        return false;
    const struct sb2_settings *p = &a->settings;
    const struct sb2_settings *q = &b->settings;
    if (p->design_capacity != q->design_capacity || p->design_voltage != q->design_voltage ||
        p->max_error != q->max_error || p->manufacture_date != q->manufacture_date ||
        p->serial_number != q->serial_number || p->charging_current != q->charging_current ||
        p->charging_voltage != q->charging_voltage || p->temperature_limit != q->temperature_limit ||
        p->discharge_limit != q->discharge_limit || p->plain != q->plain)
        return false;
    const struct sb2_host *g = &a->host;
    const struct sb2_host *h = &b->host;
    if (g->manufacturer_access != h->manufacturer_access ||
        g->remaining_capacity_alarm != h->remaining_capacity_alarm ||
        g->remaining_time_alarm != h->remaining_time_alarm || g->at_rate != h->at_rate ||
        g->alarm_mode != h->alarm_mode || g->charger_mode != h->charger_mode || g->capacity_mode != h->capacity_mode)
        return false;
    if (a->latest.voltage != b->latest.voltage || a->latest.current != b->latest.current ||
        a->latest.temperature != b->latest.temperature || a->latest.counter != b->latest.counter)
        return false;
    if (!same_minute(&a->minute, &b->minute))
        return false;
    if (a->tank.charge != b->tank.charge || a->tank.full_capacity != b->tank.full_capacity ||
        a->tank.cycle_count != b->tank.cycle_count || a->tank.fully_discharged != b->tank.fully_discharged ||
        a->tank.toward_cycle != b->tank.toward_cycle || a->tank.run_drawn != b->tank.run_drawn ||
        a->tank.run_open != b->tank.run_open)
        return false;
    return a->timers.hold == b->timers.hold && a->timers.alarm == b->timers.alarm &&
           a->timers.charger == b->timers.charger;
}

/* A charge in the mode's unit: whole mAh, or whole 10 mWh at the design voltage (rule: Registers, 0F, 10, 18). */
static uint16_t capacity_word(const struct sb2_state *s, uint64_t charge)
{
    if (!s->host.capacity_mode)
        return capped(charge / SB2_MS_PER_HOUR, 65535);
    return capped(charge * s->settings.design_voltage / (SB2_MS_PER_HOUR * UINT64_C(10000)), 65535);
}

/* The word 0F (rule: Registers). */
static uint16_t remaining_word(const struct sb2_state *s)
{
    return capacity_word(s, s->tank.charge);
}

/* The word 10 (rule: Registers). */
static uint16_t full_word(const struct sb2_state *s)
{
    return capacity_word(s, full_charge(s));
}

/* The mean over the complete seconds, cut toward zero as C divides; with none the latest current (rule: R-2, 0B). */
static int16_t mean_current(const struct sb2_state *s)
{
    int64_t sum = 0;
    if (s->minute.count == 0)
        return s->latest.current;
    for (uint32_t place = 0; place < s->minute.count; place++)
        sum += sb2_second_at(&s->minute, place);
    return (int16_t)(sum / ((int64_t)s->minute.count * SB2_SECOND_MS));
}

/* What a capacity divided by a rate comes to (rule: R-6). */
enum time_case { MINUTES, BEYOND, NOT_MOVING };
struct time {
    enum time_case is;
    uint16_t minutes; /* 0 to 65,534; 0 in the other cases */
};

static const struct time beyond = {BEYOND, 0};
static const struct time not_moving = {NOT_MOVING, 0};

/* Whole minutes at a rate, beyond the range from 65,535 on and at a rate of 0 (rules: Registers, 06, 11 to 13; R-6). */
static struct time minutes(uint16_t capacity, uint32_t rate)
{
    if (rate == 0 || UINT64_C(60) * capacity / rate > 65534)
        return beyond;
    return (struct time){MINUTES, (uint16_t)(UINT64_C(60) * capacity / rate)};
}

/* The word of each case (rules: Registers, 06; R-6: the same words as before). */
static uint16_t time_word(struct time time)
{
    switch (time.is) {
    case MINUTES: return time.minutes;
    case BEYOND: return 65534;
    default: return 65535;
    }
}

/* Whether the word says less than there is (rule: R-6). */
static bool time_cut_off(struct time time)
{
    return time.is == BEYOND;
}

/* The rate of a current in the mode's unit, at the latest voltage (rule: Registers, 11 to 13). */
static uint32_t rate_of(const struct sb2_state *s, int16_t current)
{
    uint32_t size = size_of(current);
    return s->host.capacity_mode ? size * (uint32_t)s->latest.voltage / 10000 : size;
}

/* Minutes to empty at a current below 0 (rule: Registers, 11 and 12). */
static struct time time_to_empty(const struct sb2_state *s, int16_t current)
{
    return current < 0 ? minutes(remaining_word(s), rate_of(s, current)) : not_moving;
}

/* What is missing to full, from the words 10 and 0F (rule: Registers, 05 and 13). */
static uint16_t missing_word(const struct sb2_state *s)
{
    return (uint16_t)(full_word(s) - remaining_word(s));
}

/* Minutes to full at a current above 0 (rule: Registers, 13). */
static struct time time_to_full(const struct sb2_state *s, int16_t current)
{
    return current > 0 ? minutes(missing_word(s), rate_of(s, current)) : not_moving;
}

/* Minutes to full at AtRate above 0 (rule: Registers, 05). */
static struct time at_rate_to_full(const struct sb2_state *s)
{
    return s->host.at_rate > 0 ? minutes(missing_word(s), size_of(s->host.at_rate)) : not_moving;
}

/* Minutes to empty at AtRate below 0 (rule: Registers, 06). */
static struct time at_rate_to_empty(const struct sb2_state *s)
{
    return s->host.at_rate < 0 ? minutes(remaining_word(s), size_of(s->host.at_rate)) : not_moving;
}

/* 1 if AtRate isn't below 0 or charge covers 10 s of it and the present discharge (rule: Registers, 07).
 * In power mode both sides stand multiplied by the design voltage, so nothing is rounded. */
static uint16_t at_rate_ok(const struct sb2_state *s)
{
    if (s->host.at_rate >= 0)
        return 1;
    uint64_t rate = size_of(s->host.at_rate);
    uint64_t discharge = s->latest.current < 0 ? size_of(s->latest.current) : 0;
    const uint64_t ten_seconds = 10000;
    if (!s->host.capacity_mode)
        return s->tank.charge >= ten_seconds * (rate + discharge);
    uint64_t design = s->settings.design_voltage;
    return s->tank.charge * design >= ten_seconds * (rate * 10000 + discharge * design);
}

/* Percent of a capacity in mAh (rule: Registers, 0D and 0E before their caps). */
static uint64_t percent(const struct sb2_state *s, uint16_t capacity)
{
    return s->tank.charge * 100 / ((uint64_t)capacity * SB2_MS_PER_HOUR);
}

/* Only the three mode bits read as set (rule: Registers, 03). */
static uint16_t mode_word(const struct sb2_state *s)
{
    return (uint16_t)((s->host.alarm_mode ? 1u << 13 : 0) | (s->host.charger_mode ? 1u << 14 : 0) |
                      (s->host.capacity_mode ? 1u << 15 : 0));
}

/* Bits 15 to 4 from the state, bits 3 to 0 the error code (rule: Registers, 16). */
uint16_t sb2_status(const struct sb2_state *s)
{
    unsigned word = 1u << 7;
    int16_t current = s->latest.current;
    bool full = s->tank.charge == full_charge(s);
    bool hot = s->latest.temperature > s->settings.temperature_limit;
    if (current > 0 && (full || hot))
        word |= 1u << 14;
    if (hot)
        word |= 1u << 12;
    if (current < 0 && s->latest.voltage < s->settings.discharge_limit)
        word |= 1u << 11;
    /* a limit of 0 has nothing below it, so it needs no test of its own */
    if (remaining_word(s) < s->host.remaining_capacity_alarm)
        word |= 1u << 9;
    if (time_word(time_to_empty(s, mean_current(s))) < s->host.remaining_time_alarm)
        word |= 1u << 8;
    if (current <= 0)
        word |= 1u << 6;
    if (full)
        word |= 1u << 5;
    if (s->tank.fully_discharged)
        word |= 1u << 4;
    return (uint16_t)(word | (s->error_code & 0xFu));
}

/* The setting, 0 while the status has bit 14 (rule: Registers, 14). */
static uint16_t charging_current_word(const struct sb2_state *s)
{
    return sb2_status(s) & 1u << 14 ? 0 : s->settings.charging_current;
}

/* The word of each command from 00 to 1C that shows no minutes (rule: Registers). */
static uint16_t whole_word(const struct sb2_state *s, uint8_t command)
{
    switch (command) {
    case 0x00: return s->host.manufacturer_access;
    case 0x01: return s->host.remaining_capacity_alarm;
    case 0x02: return s->host.remaining_time_alarm;
    case 0x03: return mode_word(s);
    case 0x04: return (uint16_t)s->host.at_rate;
    case 0x07: return at_rate_ok(s);
    case 0x08: return s->latest.temperature;
    case 0x09: return s->latest.voltage;
    case 0x0A: return (uint16_t)s->latest.current;
    case 0x0B: return (uint16_t)mean_current(s);
    case 0x0C: return s->settings.max_error;
    case 0x0D: return capped(percent(s, s->tank.full_capacity), 100); /* the cap that R-8 took from the pack */
    case 0x0E: return capped(percent(s, s->settings.design_capacity), 65535);
    case 0x0F: return remaining_word(s);
    case 0x10: return full_word(s);
    case 0x14: return charging_current_word(s);
    case 0x15: return s->settings.charging_voltage;
    case 0x16: return sb2_status(s);
    case 0x17: return s->tank.cycle_count;
    case 0x18: return capacity_word(s, (uint64_t)s->settings.design_capacity * SB2_MS_PER_HOUR);
    case 0x19: return s->settings.design_voltage;
    case 0x1A: return sb2_pack_specification(3, 1, 0, 0);
    case 0x1B: return s->settings.manufacture_date;
    case 0x1C: return s->settings.serial_number;
    default: return 0;
    }
}

/* The word of a time, and whether it was cut off (rule: R-6). */
static struct sb2_shown shown(struct time time)
{
    return (struct sb2_shown){time_word(time), time_cut_off(time)};
}

/* Minutes by their case; 05 in power mode is 65,535 and cut off; every other word is whole (rules: Registers; Answer
 * numbers, 10; R-6). */
struct sb2_shown sb2_register(const struct sb2_state *s, uint8_t command)
{
    switch (command) {
    case 0x05: return s->host.capacity_mode ? (struct sb2_shown){65535, true} : shown(at_rate_to_full(s));
    case 0x06: return shown(at_rate_to_empty(s));
    case 0x11: return shown(time_to_empty(s, s->latest.current));
    case 0x12: return shown(time_to_empty(s, mean_current(s)));
    case 0x13: return shown(time_to_full(s, mean_current(s)));
    default: return (struct sb2_shown){whole_word(s, command), false};
    }
}
