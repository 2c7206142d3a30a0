/* Samples, the timers they drive and the messages that the pack sends. */
#include "inside.h"

enum { HOST = 0x10, CHARGER = 0x12, ALARM_WARNING = 0x16, CHARGING_CURRENT = 0x14, CHARGING_VOLTAGE = 0x15 };
enum { ALARM_BITS = 0xDB00, CHARGER_ALARM_BITS = 0xD000, TERMINATE_DISCHARGE = 0x0800, ERROR_BITS = 0x000F };

/* Subtraction in 32 bits (rule: Clock and broadcasts; worked example 11). */
uint32_t sb2_elapsed(uint32_t before, uint32_t now)
{
    return now - before;
}

/* Puts one message, its word low byte first; behind its four bytes, unless in plain, goes their PEC (rules: Clock and
 * broadcasts; R-5). */
static size_t put_message(bool plain, uint8_t *room, size_t place, uint8_t address, uint8_t command, uint16_t word)
{
    struct sb2_bytes message = {room + place, 4};
    room[place] = address;
    room[place + 1] = command;
    room[place + 2] = (uint8_t)(word & 0xFF);
    room[place + 3] = (uint8_t)(word >> 8);
    if (plain)
        return place + 4;
    room[place + 4] = sb2_pec(message);
    return place + 5;
}

/* The begun second is complete: it takes the place of the oldest of 60, and the next begins (rule: R-2). */
static void complete_second(struct sb2_minute *m)
{
    m->newest = (m->newest + 1) % SB2_SECONDS;
    m->total[m->newest] = m->begun_total;
    if (m->count < SB2_SECONDS)
        m->count++;
    m->begun_ms = 0;
    m->begun_total = 0;
}

/* Walks the time that a current counts for, up to the end of a second at each step (rule: R-2). */
static void walk_seconds(struct sb2_minute *m, int16_t current, uint32_t elapsed)
{
    /* seconds that are alike and more than a minute old leave nothing, so the walk leaves them out */
    const uint32_t longest = (SB2_SECONDS + 1) * SB2_SECOND_MS;
    if (elapsed > longest)
        elapsed -= (elapsed - longest) / SB2_SECOND_MS * SB2_SECOND_MS;
    while (elapsed > 0) {
        uint32_t to_end = SB2_SECOND_MS - m->begun_ms;
        uint32_t step = elapsed < to_end ? elapsed : to_end;
        m->begun_ms += step;
        m->begun_total += current * (int32_t)step;
        elapsed -= step;
        if (m->begun_ms == SB2_SECOND_MS)
            complete_second(m);
    }
}

/* Adds current × elapsed and holds the sum between 0 and full (rule: Registers, charge). */
static void add_charge(struct sb2_tank *tank, int16_t current, uint32_t elapsed)
{
    int64_t full = (int64_t)tank->full_capacity * SB2_MS_PER_HOUR;
    int64_t charge = (int64_t)tank->charge + (int64_t)current * (int64_t)elapsed;
    if (charge < 0)
        charge = 0;
    if (charge > full)
        charge = full;
    tank->charge = (uint64_t)charge;
}

/* What a sample draws, in mA·ms: nothing unless its current is below 0, whatever the charge is (rule: R-4). */
static uint64_t drawn_by(int16_t current, uint32_t elapsed)
{
    return current < 0 ? (uint64_t)(-(int64_t)current) * elapsed : 0;
}

/* Each design capacity drawn is a cycle; what is left over is kept, at 65,535 cycles too (rule: R-4). */
static void count_cycles(struct sb2_state *s, uint64_t drawn)
{
    uint64_t one_cycle = (uint64_t)s->settings.design_capacity * SB2_MS_PER_HOUR;
    uint64_t toward = s->tank.toward_cycle + drawn;
    uint64_t cycles = s->tank.cycle_count + toward / one_cycle;
    s->tank.cycle_count = (uint16_t)(cycles < SB2_CYCLES_MOST ? cycles : SB2_CYCLES_MOST);
    s->tank.toward_cycle = toward % one_cycle;
}

/* The run is over, used or not. */
static void end_run(struct sb2_tank *tank)
{
    tank->run_open = false;
    tank->run_drawn = 0;
}

/* Full becomes the whole mAh drawn in the run, at least 1; the pack is empty then (rule: R-4). */
static void learn_full(struct sb2_tank *tank)
{
    uint64_t whole = tank->run_drawn / SB2_MS_PER_HOUR;
    tank->full_capacity = (uint16_t)(whole == 0 ? 1 : whole);
    tank->charge = 0;
}

/* After the charge: a sample that leaves the pack full opens a run at 0. Of others a charging one ends it unused, one
 * with TERMINATE_DISCHARGE closes it, and what they draw counts, up to 65,535 mAh (rule: R-4). */
static void follow_run(struct sb2_state *s, uint64_t drawn)
{
    const uint64_t most = (uint64_t)SB2_LEARNED_MOST * SB2_MS_PER_HOUR;
    struct sb2_tank *tank = &s->tank;
    if (tank->charge == (uint64_t)tank->full_capacity * SB2_MS_PER_HOUR) {
        tank->run_open = true;
        tank->run_drawn = 0;
    } else if (tank->run_open && s->latest.current > 0) {
        end_run(tank);
    } else if (tank->run_open) {
        tank->run_drawn = drawn > most - tank->run_drawn ? most : tank->run_drawn + drawn;
        if (sb2_status(s) & TERMINATE_DISCHARGE) {
            learn_full(tank);
            end_run(tank);
        }
    }
}

/* Sets bit 4 at charge 0, clears it at 20 percent, else keeps it (rule: Registers, 16, bit 4). */
static void decide_discharged(struct sb2_state *s)
{
    if (s->tank.charge == 0)
        s->tank.fully_discharged = true;
    else if (sb2_register(s, 0x0D).word >= 20)
        s->tank.fully_discharged = false;
}

/* Counts the hold down and clears ALARM_MODE at 0; the alarm timer counts up to 10,000 (rule: Clock and broadcasts). */
static void count_timers(struct sb2_state *s, uint32_t elapsed)
{
    s->timers.hold = s->timers.hold > elapsed ? s->timers.hold - elapsed : 0;
    if (s->timers.hold == 0)
        s->host.alarm_mode = false;
    if (elapsed >= SB2_ALARM_MS - s->timers.alarm)
        s->timers.alarm = SB2_ALARM_MS;
    else
        s->timers.alarm += elapsed;
}

/* Alarms for the host and, for charging alarms, the charger (rule: Clock and broadcasts). */
static size_t send_alarms(struct sb2_state *s, uint8_t *room, size_t place)
{
    uint16_t word = sb2_status(s) | ERROR_BITS;
    bool plain = s->settings.plain;
    if ((word & ALARM_BITS) == 0 || s->host.alarm_mode || s->timers.alarm < SB2_ALARM_MS)
        return place;
    s->timers.alarm = 0;
    place = put_message(plain, room, place, HOST, ALARM_WARNING, word);
    if (word & CHARGER_ALARM_BITS)
        place = put_message(plain, room, place, CHARGER, ALARM_WARNING, word);
    return place;
}

/* The words 14 and 15 each 30,000 ms while CHARGER_MODE is clear (rule: Clock and broadcasts). */
static size_t send_charger_words(struct sb2_state *s, uint32_t elapsed, uint8_t *room, size_t place)
{
    bool plain = s->settings.plain;
    if (s->host.charger_mode) {
        s->timers.charger = 0;
        return place;
    }
    if (elapsed < SB2_CHARGER_MS - s->timers.charger) {
        s->timers.charger += elapsed;
        return place;
    }
    s->timers.charger = 0;
    place = put_message(plain, room, place, CHARGER, CHARGING_CURRENT, sb2_register(s, CHARGING_CURRENT).word);
    return put_message(plain, room, place, CHARGER, CHARGING_VOLTAGE, sb2_register(s, CHARGING_VOLTAGE).word);
}

/* The room that four messages fill (rule: R-5). */
static size_t room_needed(const struct sb2_state *s)
{
    return s->settings.plain ? SB2_PLAIN_ROOM : SB2_BROADCAST_ROOM;
}

/* 1, 2, or a sample taken: readings, minute, charge, cycles, the run, bit 4, countdown, then the messages (rules: Clock
 * and broadcasts; R-4; R-5). */
int sb2_take_sample(struct sb2_state *state, const struct sb2_sample *sample, uint8_t *room, size_t room_length,
                    size_t *length)
{
    *length = 0;
    if (!sb2_sound(state))
        return SB2_NOT_SOUND;
    if (room_length < room_needed(state))
        return SB2_SMALL_ROOM;
    uint32_t elapsed = sb2_elapsed(state->latest.counter, sample->counter);
    state->latest = *sample;
    walk_seconds(&state->minute, sample->current, elapsed);
    add_charge(&state->tank, sample->current, elapsed);
    uint64_t drawn = drawn_by(sample->current, elapsed);
    count_cycles(state, drawn);
    follow_run(state, drawn);
    decide_discharged(state);
    count_timers(state, elapsed);
    size_t place = send_alarms(state, room, 0);
    *length = send_charger_words(state, elapsed, room, place);
    return SB2_SERVED;
}
