/* The proved library's entries that take many numbers, with the second program's structs. */
#ifndef PROVED_H
#define PROVED_H

#include "../../second/snatchblock2.h"
#include "snatchblock.h"

static inline uint32_t proved_set_up(uint8_t *area, size_t length, const struct sb2_set_up *in)
{
    return snatchblock_set_up(area, length, in->design_capacity, in->full_capacity, in->remaining_capacity,
                              in->design_voltage, in->max_error, in->cycle_count, in->manufacture_date,
                              in->serial_number, in->charging_current, in->charging_voltage, in->temperature_limit,
                              in->discharge_limit, in->plain, in->first.voltage, in->first.current,
                              in->first.temperature, in->first.counter);
}

static inline uint32_t proved_sample(uint8_t *area, size_t length, const struct sb2_sample *sample, uint8_t *room,
                                     size_t room_length)
{
    return snatchblock_sample(area, length, sample->voltage, sample->current, sample->temperature, sample->counter,
                              room, room_length);
}

static inline uint32_t proved_charger_set_up(uint8_t *area, size_t length, const struct sb2_sample *first)
{
    return snatchblock_charger_set_up(area, length, first->voltage, first->current, first->temperature,
                                      first->counter);
}

static inline uint32_t proved_charger_sample(uint8_t *area, size_t length, const struct sb2_sample *sample)
{
    return snatchblock_charger_sample(area, length, sample->voltage, sample->current, sample->temperature,
                                      sample->counter);
}

static inline uint32_t proved_thirteen_set_up(uint8_t *area, size_t length, const struct sb2_thirteen_set_up *in,
                                              const uint16_t cells[SB2_CELLS])
{
    return snatchblock_thirteen_set_up(area, length, in->design_capacity, in->full_capacity, in->remaining_capacity,
                                       in->design_voltage, in->state_of_health, in->first.voltage, in->first.current,
                                       in->first.temperature, in->first.counter, cells);
}

static inline uint32_t proved_thirteen_sample(uint8_t *area, size_t length, const struct sb2_sample *sample,
                                              const uint16_t cells[SB2_CELLS])
{
    return snatchblock_thirteen_sample(area, length, sample->voltage, sample->current, sample->temperature,
                                       sample->counter, cells);
}

#endif
