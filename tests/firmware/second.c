/* The functions of snatchblock.h that the firmware's example calls, by the second program: the example linked with this
 * in place of the proved library has its lines from another origin. With DAMAGE one bit is altered in each broadcast to
 * that address. */
#include "snatchblock.h"
#include "../../second/snatchblock2.h"

static struct sb2_bytes of(const uint8_t *at, size_t length)
{
    return (struct sb2_bytes){at, length};
}

/* As the header packs an answer and a number above it. */
static uint32_t packed(int answer, size_t above)
{
    return (uint32_t)answer | (uint32_t)above << 8;
}

uint32_t snatchblock_set_up(uint8_t *area, size_t area_length, uint16_t DesignCapacity, uint16_t full,
                            uint16_t remaining, uint16_t DesignVoltage, uint16_t MaxError, uint16_t CycleCount,
                            uint16_t ManufactureDate, uint16_t SerialNumber, uint16_t ChargingCurrent,
                            uint16_t ChargingVoltage, uint16_t TemperatureLimit, uint16_t DischargeLimit, bool plain,
                            uint16_t voltage, int16_t current, uint16_t temperature, uint32_t counter)
{
    const struct sb2_set_up in = {
        .design_capacity = DesignCapacity, .full_capacity = full, .remaining_capacity = remaining,
        .design_voltage = DesignVoltage, .max_error = MaxError, .cycle_count = CycleCount,
        .manufacture_date = ManufactureDate, .serial_number = SerialNumber, .charging_current = ChargingCurrent,
        .charging_voltage = ChargingVoltage, .temperature_limit = TemperatureLimit, .discharge_limit = DischargeLimit,
        .plain = plain,
        .first = {.voltage = voltage, .current = current, .temperature = temperature, .counter = counter}};
    return packed(sb2_area_set_up(area, area_length, &in), 0);
}

bool snatchblock_sound(const uint8_t *area, size_t area_length)
{
    return sb2_area_sound(of(area, area_length));
}

uint32_t snatchblock_sample(uint8_t *area, size_t area_length, uint16_t voltage, int16_t current,
                            uint16_t temperature, uint32_t counter, uint8_t *room, size_t room_length)
{
    const struct sb2_sample sample = {.voltage = voltage, .current = current, .temperature = temperature, .counter = counter};
    size_t length = 0;
    int answer = sb2_area_take_sample(area, area_length, &sample, room, room_length, &length);
#ifdef DAMAGE
    size_t each = snatchblock_message_length(area);
    for (size_t at = 0; at < length; at += each)
        if (room[at] == DAMAGE)
            room[at + each - 1] ^= 0x20;
#endif
    return packed(answer, length);
}

uint32_t snatchblock_transact(uint8_t *area, size_t area_length, const uint8_t *service, size_t service_length,
                              const uint8_t *factory, size_t factory_length, bool read, const uint8_t *bytes,
                              size_t bytes_length, uint8_t *room, size_t room_length)
{
    size_t length = 0;
    int answer = sb2_area_transact(area, area_length, read, of(bytes, bytes_length), of(service, service_length),
                                   of(factory, factory_length), room, room_length, &length);
    return packed(answer, length);
}

uint8_t snatchblock_pec(const uint8_t *bytes, size_t length)
{
    return sb2_pec(of(bytes, length));
}

uint32_t snatchblock_exchange_check(const uint8_t *bytes, size_t length)
{
    bool accepted = false;
    int answer = sb2_check_exchange(of(bytes, length), &accepted);
    return packed(answer, accepted);
}

/* ---- the charger */

uint32_t snatchblock_charger_set_up(uint8_t *area, size_t area_length, uint16_t voltage, int16_t current,
                                    uint16_t temperature, uint32_t counter)
{
    const struct sb2_sample first = {.voltage = voltage, .current = current, .temperature = temperature, .counter = counter};
    return packed(sb2_area_charger_set_up(area, area_length, &first), 0);
}

uint32_t snatchblock_charger_sample(uint8_t *area, size_t area_length, uint16_t voltage, int16_t current,
                                    uint16_t temperature, uint32_t counter)
{
    const struct sb2_sample sample = {.voltage = voltage, .current = current, .temperature = temperature, .counter = counter};
    return packed(sb2_area_charger_sample(area, area_length, &sample), 0);
}

uint32_t snatchblock_charger_transact(uint8_t *area, size_t area_length, bool read, const uint8_t *bytes,
                                      size_t bytes_length, uint8_t *room, size_t room_length)
{
    size_t length = 0;
    int answer = sb2_area_charger_transact(area, area_length, read, of(bytes, bytes_length), room, room_length, &length);
    return packed(answer, length);
}

uint32_t snatchblock_charger_current(const uint8_t *area, size_t area_length)
{
    uint16_t current = 0;
    int answer = sb2_area_charger_current(of(area, area_length), &current);
    return packed(answer, current);
}
