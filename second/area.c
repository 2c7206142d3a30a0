/* The state in a lent area, part by part, as a firmware keeps it over the winter; the charger's and the thirteen-cell
 * pack's in their own. */
#include "inside.h"

/* The number that so many bytes stand for, low byte first. */
static uint64_t number(const uint8_t **at, size_t bytes)
{
    uint64_t value = 0;
    for (size_t i = 0; i < bytes; i++)
        value |= (uint64_t)(*at)[i] << 8 * i;
    *at += bytes;
    return value;
}

static uint16_t word(const uint8_t **at)
{
    uint16_t value = (uint16_t)((*at)[0] | (*at)[1] << 8);
    *at += 2;
    return value;
}

/* A signed word, without a cast that the compiler defines. */
static int16_t signed_word(const uint8_t **at)
{
    int32_t value = word(at);
    return (int16_t)(value < 0x8000 ? value : value - 0x10000);
}

static int32_t signed_number(const uint8_t **at)
{
    int64_t value = (int64_t)number(at, 4);
    return (int32_t)(value <= INT32_MAX ? value : value - (INT64_C(1) << 32));
}

/* As many bytes as an area has, each flag 0 or 1. */
static bool is_area(struct sb2_bytes area)
{
    static const size_t flags[] = {SB2_SETTINGS_AT + 18, SB2_HOST_AT + 8, SB2_HOST_AT + 9, SB2_HOST_AT + 10,
                                   SB2_TANK_AT + 12, SB2_TANK_AT + 29};
    if (area.length != SB2_AREA)
        return false;
    for (size_t i = 0; i < sizeof flags / sizeof *flags; i++)
        if (area.at[flags[i]] > 1)
            return false;
    return true;
}

static void load_settings(const uint8_t *at, struct sb2_settings *s)
{
    s->design_capacity = word(&at);
    s->design_voltage = word(&at);
    s->max_error = word(&at);
    s->manufacture_date = word(&at);
    s->serial_number = word(&at);
    s->charging_current = word(&at);
    s->charging_voltage = word(&at);
    s->temperature_limit = word(&at);
    s->discharge_limit = word(&at);
    s->plain = number(&at, 1) == 1;
}

static void load_host(const uint8_t *at, struct sb2_host *h)
{
    h->manufacturer_access = word(&at);
    h->remaining_capacity_alarm = word(&at);
    h->remaining_time_alarm = word(&at);
    h->at_rate = signed_word(&at);
    h->alarm_mode = number(&at, 1) == 1;
    h->charger_mode = number(&at, 1) == 1;
    h->capacity_mode = number(&at, 1) == 1;
}

static void load_latest(const uint8_t *at, struct sb2_sample *latest)
{
    latest->voltage = word(&at);
    latest->current = signed_word(&at);
    latest->temperature = word(&at);
    latest->counter = (uint32_t)number(&at, 4);
}

static void load_tank(const uint8_t *at, struct sb2_tank *t)
{
    t->charge = number(&at, 8);
    t->full_capacity = word(&at);
    t->cycle_count = word(&at);
    t->fully_discharged = number(&at, 1) == 1;
    t->toward_cycle = number(&at, 8);
    t->run_drawn = number(&at, 8);
    t->run_open = number(&at, 1) == 1;
}

static void load_timers(const uint8_t *at, struct sb2_timers *t)
{
    t->hold = (uint32_t)number(&at, 4);
    t->alarm = (uint32_t)number(&at, 4);
    t->charger = (uint32_t)number(&at, 4);
}

/* Newest first in the area, oldest first from the front of the ring. */
static void load_recent(const uint8_t *at, struct sb2_minute *m)
{
    m->newest = SB2_SECONDS - 1;
    for (uint32_t place = 0; place < SB2_SECONDS; place++)
        m->total[m->newest - place] = signed_number(&at);
    m->count = (uint32_t)number(&at, 1);
    m->begun_ms = (uint32_t)number(&at, 2);
    m->begun_total = signed_number(&at);
}

bool sb2_area_load(struct sb2_bytes area, struct sb2_state *state)
{
    if (!is_area(area))
        return false;
    state->error_code = area.at[0];
    load_settings(area.at + SB2_SETTINGS_AT, &state->settings);
    load_host(area.at + SB2_HOST_AT, &state->host);
    load_latest(area.at + SB2_LATEST_AT, &state->latest);
    load_tank(area.at + SB2_TANK_AT, &state->tank);
    load_timers(area.at + SB2_TIMERS_AT, &state->timers);
    load_recent(area.at + SB2_RECENT_AT, &state->minute);
    return true;
}

/* Puts a number, low byte first. */
static void put(uint8_t **at, size_t bytes, uint64_t value)
{
    for (size_t i = 0; i < bytes; i++)
        (*at)[i] = (uint8_t)(value >> 8 * i & 0xFF);
    *at += bytes;
}

static void put_word(uint8_t **at, uint16_t value)
{
    (*at)[0] = (uint8_t)(value & 0xFF);
    (*at)[1] = (uint8_t)(value >> 8);
    *at += 2;
}

static void store_settings(uint8_t *at, const struct sb2_settings *s)
{
    put_word(&at, s->design_capacity);
    put_word(&at, s->design_voltage);
    put_word(&at, s->max_error);
    put_word(&at, s->manufacture_date);
    put_word(&at, s->serial_number);
    put_word(&at, s->charging_current);
    put_word(&at, s->charging_voltage);
    put_word(&at, s->temperature_limit);
    put_word(&at, s->discharge_limit);
    put(&at, 1, s->plain);
}

static void store_host(uint8_t *at, const struct sb2_host *h)
{
    put_word(&at, h->manufacturer_access);
    put_word(&at, h->remaining_capacity_alarm);
    put_word(&at, h->remaining_time_alarm);
    put_word(&at, (uint16_t)h->at_rate);
    put(&at, 1, h->alarm_mode);
    put(&at, 1, h->charger_mode);
    put(&at, 1, h->capacity_mode);
}

static void store_latest(uint8_t *at, const struct sb2_sample *latest)
{
    put_word(&at, latest->voltage);
    put_word(&at, (uint16_t)latest->current);
    put_word(&at, latest->temperature);
    put(&at, 4, latest->counter);
}

static void store_tank(uint8_t *at, const struct sb2_tank *t)
{
    put(&at, 8, t->charge);
    put_word(&at, t->full_capacity);
    put_word(&at, t->cycle_count);
    put(&at, 1, t->fully_discharged);
    put(&at, 8, t->toward_cycle);
    put(&at, 8, t->run_drawn);
    put(&at, 1, t->run_open);
}

static void store_timers(uint8_t *at, const struct sb2_timers *t)
{
    put(&at, 4, t->hold);
    put(&at, 4, t->alarm);
    put(&at, 4, t->charger);
}

static void store_recent(uint8_t *at, const struct sb2_minute *m)
{
    for (uint32_t place = 0; place < SB2_SECONDS; place++)
        put(&at, 4, (uint32_t)sb2_second_at(m, place));
    put(&at, 1, m->count);
    put(&at, 2, m->begun_ms);
    put(&at, 4, (uint32_t)m->begun_total);
}

/* Writes what a transaction can change: error code, the host's words, timers. */
static void store_transacted(const struct sb2_state *state, uint8_t area[SB2_AREA])
{
    area[0] = (uint8_t)(state->error_code & 0xFF);
    store_host(area + SB2_HOST_AT, &state->host);
    store_timers(area + SB2_TIMERS_AT, &state->timers);
}

void sb2_area_store(const struct sb2_state *state, uint8_t area[SB2_AREA])
{
    store_transacted(state, area);
    store_settings(area + SB2_SETTINGS_AT, &state->settings);
    store_latest(area + SB2_LATEST_AT, &state->latest);
    store_tank(area + SB2_TANK_AT, &state->tank);
    store_recent(area + SB2_RECENT_AT, &state->minute);
}

int sb2_area_set_up(uint8_t *area, size_t area_length, const struct sb2_set_up *in)
{
    struct sb2_state state;
    if (area_length != SB2_AREA)
        return SB2_NOT_SOUND;
    int answer = sb2_set_up(&state, in);
    if (answer == SB2_SERVED)
        sb2_area_store(&state, area);
    return answer;
}

bool sb2_area_sound(struct sb2_bytes area)
{
    struct sb2_state state;
    return sb2_area_load(area, &state) && sb2_sound(&state);
}

int sb2_area_take_sample(uint8_t *area, size_t area_length, const struct sb2_sample *sample, uint8_t *room,
                         size_t room_length, size_t *length)
{
    struct sb2_state state;
    struct sb2_bytes lent = {area, area_length};
    *length = 0;
    if (!sb2_area_load(lent, &state))
        return SB2_NOT_SOUND;
    int answer = sb2_take_sample(&state, sample, room, room_length, length);
    if (answer == SB2_SERVED)
        sb2_area_store(&state, area);
    return answer;
}

int sb2_area_transact(uint8_t *area, size_t area_length, bool read, struct sb2_bytes message, struct sb2_bytes service,
                      struct sb2_bytes factory, uint8_t *room, size_t room_length, size_t *length)
{
    struct sb2_state state;
    struct sb2_bytes lent = {area, area_length};
    *length = 0;
    if (!sb2_area_load(lent, &state))
        return SB2_NOT_SOUND;
    int answer = sb2_transact(&state, read, message, service, factory, room, room_length, length);
    if (answer > SB2_NOT_FOR_PACK || answer == SB2_SERVED)
        store_transacted(&state, area);
    return answer;
}

/* ---- the charger's area */

/* Where the flag of each fact stands, from the lowest bit up. */
static const size_t fact_at[] = {2, 3, 6, 7, 8};
enum { FACTS = sizeof fact_at / sizeof *fact_at, CURRENT_AT = 0, VOLTAGE_AT = 4, SILENCE_AT = 9, MEASURED_AT = 13 };

bool sb2_area_charger_load(struct sb2_bytes area, struct sb2_charger *charger)
{
    unsigned facts = 0;
    if (area.length != SB2_CHARGER_AREA)
        return false;
    for (size_t i = 0; i < FACTS; i++) {
        if (area.at[fact_at[i]] > 1)
            return false;
        facts |= (unsigned)area.at[fact_at[i]] << i;
    }
    const uint8_t *current = area.at + CURRENT_AT, *voltage = area.at + VOLTAGE_AT, *silence = area.at + SILENCE_AT;
    charger->facts = facts;
    charger->current = word(&current);
    charger->voltage = word(&voltage);
    charger->silence = (uint32_t)number(&silence, 4);
    load_latest(area.at + MEASURED_AT, &charger->latest);
    return true;
}

void sb2_area_charger_store(const struct sb2_charger *charger, uint8_t area[SB2_CHARGER_AREA])
{
    uint8_t *current = area + CURRENT_AT, *voltage = area + VOLTAGE_AT, *silence = area + SILENCE_AT;
    for (size_t i = 0; i < FACTS; i++)
        area[fact_at[i]] = (uint8_t)(charger->facts >> i & 1);
    put_word(&current, charger->current);
    put_word(&voltage, charger->voltage);
    put(&silence, 4, charger->silence);
    store_latest(area + MEASURED_AT, &charger->latest);
}

int sb2_area_charger_set_up(uint8_t *area, size_t area_length, const struct sb2_sample *first)
{
    struct sb2_charger charger;
    if (area_length != SB2_CHARGER_AREA)
        return SB2_NOT_SOUND;
    sb2_charger_set_up(&charger, first);
    sb2_area_charger_store(&charger, area);
    return SB2_SERVED;
}

bool sb2_area_charger_sound(struct sb2_bytes area)
{
    struct sb2_charger charger;
    return sb2_area_charger_load(area, &charger) && sb2_charger_sound(&charger);
}

int sb2_area_charger_current(struct sb2_bytes area, uint16_t *current)
{
    struct sb2_charger charger;
    *current = 0;
    return sb2_area_charger_load(area, &charger) ? sb2_charger_current(&charger, current) : SB2_NOT_SOUND;
}

int sb2_area_charger_sample(uint8_t *area, size_t area_length, const struct sb2_sample *sample)
{
    struct sb2_charger charger;
    struct sb2_bytes lent = {area, area_length};
    if (!sb2_area_charger_load(lent, &charger))
        return SB2_NOT_SOUND;
    int answer = sb2_charger_sample(&charger, sample);
    if (answer == SB2_SERVED)
        sb2_area_charger_store(&charger, area);
    return answer;
}

int sb2_area_charger_transact(uint8_t *area, size_t area_length, bool read, struct sb2_bytes message, uint8_t *room,
                              size_t room_length, size_t *length)
{
    struct sb2_charger charger;
    struct sb2_bytes lent = {area, area_length};
    *length = 0;
    if (!sb2_area_charger_load(lent, &charger))
        return SB2_NOT_SOUND;
    int answer = sb2_charger_transact(&charger, read, message, room, room_length, length);
    if (answer == SB2_SERVED && !read)
        sb2_area_charger_store(&charger, area);
    return answer;
}

/* ---- the thirteen-cell pack's area */

enum { THIRTEEN_SETTINGS_AT = 1, THIRTEEN_LATEST_AT = 7, CELLS_AT = 17, THIRTEEN_TANK_AT = 43, BIT_4_AT = 53,
       THIRTEEN_RECENT_AT = 54 };

bool sb2_area_thirteen_load(struct sb2_bytes area, struct sb2_thirteen *pack)
{
    if (area.length != SB2_THIRTEEN_AREA || area.at[BIT_4_AT] > 1)
        return false;
    const uint8_t *settings = area.at + THIRTEEN_SETTINGS_AT, *cells = area.at + CELLS_AT;
    const uint8_t *tank = area.at + THIRTEEN_TANK_AT;
    pack->error_code = area.at[0];
    pack->design_capacity = word(&settings);
    pack->design_voltage = word(&settings);
    pack->state_of_health = word(&settings);
    load_latest(area.at + THIRTEEN_LATEST_AT, &pack->latest);
    for (size_t i = 0; i < SB2_CELLS; i++)
        pack->cells[i] = word(&cells);
    pack->charge = number(&tank, 8);
    pack->full_capacity = word(&tank);
    pack->fully_discharged = area.at[BIT_4_AT] == 1;
    load_recent(area.at + THIRTEEN_RECENT_AT, &pack->minute);
    return true;
}

void sb2_area_thirteen_store(const struct sb2_thirteen *pack, uint8_t area[SB2_THIRTEEN_AREA])
{
    uint8_t *settings = area + THIRTEEN_SETTINGS_AT, *cells = area + CELLS_AT, *tank = area + THIRTEEN_TANK_AT;
    area[0] = (uint8_t)(pack->error_code & 0xFF);
    put_word(&settings, pack->design_capacity);
    put_word(&settings, pack->design_voltage);
    put_word(&settings, pack->state_of_health);
    store_latest(area + THIRTEEN_LATEST_AT, &pack->latest);
    for (size_t i = 0; i < SB2_CELLS; i++)
        put_word(&cells, pack->cells[i]);
    put(&tank, 8, pack->charge);
    put_word(&tank, pack->full_capacity);
    area[BIT_4_AT] = pack->fully_discharged;
    store_recent(area + THIRTEEN_RECENT_AT, &pack->minute);
}

int sb2_area_thirteen_set_up(uint8_t *area, size_t area_length, const struct sb2_thirteen_set_up *in)
{
    struct sb2_thirteen pack;
    if (area_length != SB2_THIRTEEN_AREA)
        return SB2_NOT_SOUND;
    int answer = sb2_thirteen_set_up(&pack, in);
    if (answer == SB2_SERVED)
        sb2_area_thirteen_store(&pack, area);
    return answer;
}

bool sb2_area_thirteen_sound(struct sb2_bytes area)
{
    struct sb2_thirteen pack;
    return sb2_area_thirteen_load(area, &pack) && sb2_thirteen_sound(&pack);
}

int sb2_area_thirteen_sample(uint8_t *area, size_t area_length, const struct sb2_sample *sample,
                             const uint16_t cells[SB2_CELLS])
{
    struct sb2_thirteen pack;
    struct sb2_bytes lent = {area, area_length};
    if (!sb2_area_thirteen_load(lent, &pack))
        return SB2_NOT_SOUND;
    int answer = sb2_thirteen_sample(&pack, sample, cells);
    if (answer == SB2_SERVED)
        sb2_area_thirteen_store(&pack, area);
    return answer;
}

int sb2_area_thirteen_transact(uint8_t *area, size_t area_length, bool read, struct sb2_bytes message, uint8_t *room,
                               size_t room_length, size_t *length)
{
    struct sb2_thirteen pack;
    struct sb2_bytes lent = {area, area_length};
    *length = 0;
    if (!sb2_area_thirteen_load(lent, &pack))
        return SB2_NOT_SOUND;
    int answer = sb2_thirteen_transact(&pack, read, message, room, room_length, length);
    if (answer > SB2_NOT_FOR_PACK || answer == SB2_SERVED)
        area[0] = (uint8_t)pack.error_code;
    return answer;
}
