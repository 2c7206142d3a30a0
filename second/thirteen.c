/* The thirteen-cell pack of source document 001: its own commands and words over the first pack's clock and charge.
 *
 * What both share isn't written again. For a sample, a percentage or a time it is looked at as a first pack that no
 * host wrote to, and what that one sends and counts is dropped. */
#include "inside.h"

#include <string.h>

enum { WRITE_ADDRESS = 0x16, READ_ADDRESS = 0x17 };
enum { VOLTAGE = 0x09, CURRENT = 0x0A, STATUS = 0x16, FIRST_CELL = 0x31, LAST_CELL = 0x3D, STATE_OF_HEALTH = 0x4F,
       ALL_CELLS = 0xF1 };

/* Its figures in a first pack. No run is open there, so that it learns nothing from a sample. */
static struct sb2_state as_first(const struct sb2_thirteen *t)
{
    struct sb2_state first;
    memset(&first, 0, sizeof first);
    first.error_code = t->error_code;
    first.settings.design_capacity = t->design_capacity;
    first.settings.design_voltage = t->design_voltage;
    first.latest = t->latest;
    first.minute = t->minute;
    first.tank.charge = t->charge;
    first.tank.full_capacity = t->full_capacity;
    first.tank.fully_discharged = t->fully_discharged;
    return first;
}

/* Takes over what set-up and samples move. */
static void take_over(struct sb2_thirteen *t, const struct sb2_state *first, const uint16_t cells[SB2_CELLS])
{
    t->latest = first->latest;
    t->minute = first->minute;
    t->charge = first->tank.charge;
    t->fully_discharged = first->tank.fully_discharged;
    memcpy(t->cells, cells, sizeof t->cells);
}

/* The first pack's set-up, with its refusal; beside it the cells and the state of health (rule: R-10). */
int sb2_thirteen_set_up(struct sb2_thirteen *pack, const struct sb2_thirteen_set_up *in)
{
    const struct sb2_set_up shared = {.design_capacity = in->design_capacity,
                                      .full_capacity = in->full_capacity,
                                      .remaining_capacity = in->remaining_capacity,
                                      .design_voltage = in->design_voltage,
                                      .first = in->first};
    struct sb2_state first;
    memset(pack, 0, sizeof *pack);
    int answer = sb2_set_up(&first, &shared);
    if (answer != SB2_SERVED)
        return answer;
    pack->design_capacity = in->design_capacity;
    pack->design_voltage = in->design_voltage;
    pack->state_of_health = in->state_of_health;
    pack->full_capacity = in->full_capacity;
    take_over(pack, &first, in->cells);
    return SB2_SERVED;
}

/* All that the first pack has beyond it is 0, and sound. */
bool sb2_thirteen_sound(const struct sb2_thirteen *pack)
{
    const struct sb2_state first = as_first(pack);
    return sb2_sound(&first);
}

/* 1, or a sample taken; nothing is sent, and full stays (rule: R-10). */
int sb2_thirteen_sample(struct sb2_thirteen *pack, const struct sb2_sample *sample, const uint16_t cells[SB2_CELLS])
{
    struct sb2_state first = as_first(pack);
    uint8_t unsent[SB2_BROADCAST_ROOM];
    size_t length;
    int answer = sb2_take_sample(&first, sample, unsent, sizeof unsent, &length);
    if (answer == SB2_SERVED)
        take_over(pack, &first, cells);
    return answer;
}

/* Numbers from the least to the most, both among them. */
struct range {
    int32_t least, most;
};
#define UP_TO(limit) {INT32_MIN, limit}
#define FROM(limit) {limit, INT32_MAX}
#define ANY {INT32_MIN, INT32_MAX}
#define CELSIUS(degrees) (27315 + 100 * (degrees)) /* in 0.01 K, so that nothing is rounded */

/* A bit is set where the latest sample lies in a row that has it (001, 2 and 3.3, with the limits of R-10). */
static const struct {
    unsigned bit;
    struct range current, voltage, temperature; /* mA, mV, 0.01 K */
} bits[] = {
    {5, {1, 99}, FROM(51001), ANY},
    {6, UP_TO(-1), ANY, ANY},
    {8, ANY, UP_TO(39000), ANY},
    {9, ANY, FROM(54800), ANY},
    {10, FROM(2000), ANY, ANY},
    {11, UP_TO(-15000), ANY, ANY},
    {12, ANY, ANY, UP_TO(CELSIUS(0))},
    {13, FROM(1), ANY, FROM(CELSIUS(50))},
    {13, UP_TO(-1), ANY, FROM(CELSIUS(60))},
};

static bool lies_in(int32_t number, struct range range)
{
    return range.least <= number && number <= range.most;
}

/* Bit 7 and the kept bit 4; then those of the table (rule: R-10). */
static uint16_t status(const struct sb2_thirteen *t)
{
    unsigned word = 1u << 7 | (unsigned)t->fully_discharged << 4;
    for (size_t i = 0; i < sizeof bits / sizeof *bits; i++)
        if (lies_in(t->latest.current, bits[i].current) && lies_in(t->latest.voltage, bits[i].voltage) &&
            lies_in(10 * t->latest.temperature, bits[i].temperature))
            word |= 1u << bits[i].bit;
    return (uint16_t)word;
}

/* The command list of 001: what a read of each is answered; all others are reserved (rule: R-10). */
static const struct {
    uint8_t first, last;
    int answer;
} commands[] = {
    {0x08, CURRENT, SB2_SERVED},
    {0x0D, 0x0D, SB2_SERVED},
    {0x11, 0x11, SB2_SERVED},
    {0x13, 0x13, SB2_SERVED},
    {STATUS, STATUS, SB2_SERVED},
    {FIRST_CELL, LAST_CELL, SB2_SERVED},
    {STATE_OF_HEALTH, STATE_OF_HEALTH, SB2_SERVED},
    {ALL_CELLS, ALL_CELLS, SB2_SERVED},
    {0x00, 0x00, SB2_NOT_BUILT}, /* Shutdown, Sleep, Reset */
    {0x80, 0x81, SB2_NOT_BUILT}, /* FW Version, Lifetime Data */
    {0xA0, 0xA2, SB2_NOT_BUILT}, /* FW Update */
};

static int read_answer(uint8_t command)
{
    for (size_t i = 0; i < sizeof commands / sizeof *commands; i++)
        if (commands[i].first <= command && command <= commands[i].last)
            return commands[i].answer;
    return SB2_RESERVED;
}

/* The lowest number from 3 to 8 whose condition holds, else 0, which no write gets (rules: Answer numbers; R-10). */
static int judge(bool read, struct sb2_bytes message)
{
    bool right = read;
    if (message.length == 0 || message.at[0] != WRITE_ADDRESS)
        return SB2_NOT_FOR_PACK;
    if (message.length != (read ? 3 : 5) || (read && message.at[2] != READ_ADDRESS))
        return SB2_WRONG_FORM;
    if (!read)
        (void)sb2_check_exchange(message, &right);
    if (!right)
        return SB2_WRONG_PEC;
    int answer = read_answer(message.at[1]);
    return answer == SB2_SERVED && !read ? SB2_READ_ONLY : answer;
}

/* The word of a served command but F1; 0A is cut toward zero as C divides (001, 3.3; rule: R-10). */
static struct sb2_shown shown(const struct sb2_thirteen *t, uint8_t command)
{
    struct sb2_state first;
    if (command >= FIRST_CELL && command <= LAST_CELL)
        return (struct sb2_shown){t->cells[command - FIRST_CELL], false};
    switch (command) {
    case VOLTAGE: return (struct sb2_shown){t->latest.voltage / 10, false};
    case CURRENT: return (struct sb2_shown){(uint16_t)(t->latest.current / 10), false};
    case STATUS: return (struct sb2_shown){status(t), false};
    case STATE_OF_HEALTH: return (struct sb2_shown){t->state_of_health, false};
    default: first = as_first(t); return sb2_register(&first, command); /* 08, 0D, 11, 13, in mAh */
    }
}

/* Puts a word, or of F1 thirteen with no count before them, and the PEC: answers 10 where it was cut off, else 0. */
static int serve_read(const struct sb2_thirteen *t, struct sb2_bytes message, uint8_t *room, size_t *length)
{
    size_t place = 0;
    struct sb2_shown word = {0, false};
    if (message.at[1] != ALL_CELLS) {
        word = shown(t, message.at[1]);
        place = sb2_put_word(word.word, room);
    } else {
        for (size_t i = 0; i < SB2_CELLS; i++)
            place += sb2_put_word(t->cells[i], room + place);
    }
    *length = sb2_put_pec(message, room, place);
    return word.cut_off ? SB2_OVERFLOW : SB2_SERVED;
}

/* 1, 2, or the message judged and, if served, answered; then the error code, which nothing shows (rule: R-10). */
int sb2_thirteen_transact(struct sb2_thirteen *pack, bool read, struct sb2_bytes message, uint8_t *room,
                          size_t room_length, size_t *length)
{
    *length = 0;
    if (!sb2_thirteen_sound(pack))
        return SB2_NOT_SOUND;
    if (room_length < SB2_REPLY_ROOM)
        return SB2_SMALL_ROOM;
    int answer = judge(read, message);
    if (answer == SB2_SERVED)
        answer = serve_read(pack, message, room, length);
    pack->error_code = sb2_error_left(answer, pack->error_code);
    return answer;
}
