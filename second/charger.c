/* The charger at address 12: what it is asked for, what stops it, and what it tells a host.
 *
 * Beside three numbers and the latest sample it is a set of five facts. A message adds some and strikes some out. */
#include "snatchblock2.h"

enum { WRITE_ADDRESS = 0x12, READ_ADDRESS = 0x13 };
enum { SPEC_INFO = 0x11, MODE = 0x12, STATUS = 0x13, CURRENT = 0x14, VOLTAGE = 0x15, ALARM_WARNING = 0x16 };
enum { TAKEN = SB2_CURRENT_TAKEN | SB2_VOLTAGE_TAKEN, AWAITED = SB2_CURRENT_AWAITED | SB2_VOLTAGE_AWAITED };
enum { EVERY_FACT = TAKEN | AWAITED | SB2_INHIBITED };
enum { VERSION_1_1_PEC = 3 }; /* 000, table 2 */
enum { INHIBIT_CHARGE = 1 << 0, POR_RESET = 1 << 2, RESET_TO_ZERO = 1 << 3 }; /* 000, table 3 */
enum { STOPPING_ALARMS = 0xF000 }; /* bits 15 to 12 */

/* No fact and no request; the silence and the latest sample aren't touched. */
static void to_power_on(struct sb2_charger *c)
{
    c->facts = 0;
    c->current = 0;
    c->voltage = 0;
}

void sb2_charger_set_up(struct sb2_charger *charger, const struct sb2_sample *first)
{
    to_power_on(charger);
    charger->silence = 0;
    charger->latest = *first;
}

bool sb2_charger_sound(const struct sb2_charger *charger)
{
    return charger->silence <= SB2_SILENCE_MS;
}

/* Of the 32 sets of facts current flows in one: both requests taken, neither awaited, not inhibited. Then a voltage of 0
 * and the silence can still stop it (rule: R-7; 000, 9 and 10). */
int sb2_charger_current(const struct sb2_charger *charger, uint16_t *current)
{
    *current = 0;
    if (!sb2_charger_sound(charger))
        return SB2_NOT_SOUND;
    if ((charger->facts & EVERY_FACT) == TAKEN && charger->voltage > 0 && charger->silence < SB2_SILENCE_MS)
        *current = charger->current;
    return SB2_SERVED;
}

/* The time goes on the silence, which stands at 175,000 (rule: R-7). */
int sb2_charger_sample(struct sb2_charger *charger, const struct sb2_sample *sample)
{
    if (!sb2_charger_sound(charger))
        return SB2_NOT_SOUND;
    uint32_t left = SB2_SILENCE_MS - charger->silence;
    uint32_t elapsed = sb2_elapsed(charger->latest.counter, sample->counter);
    charger->silence += elapsed < left ? elapsed : left;
    charger->latest = *sample;
    return SB2_SERVED;
}

/* A request that was taken and that the latest sample doesn't reach: every discharge is below it (000, table 4). */
static bool voltage_missed(const struct sb2_charger *c)
{
    return (c->facts & SB2_VOLTAGE_TAKEN) != 0 && c->latest.voltage < c->voltage;
}

static bool current_missed(const struct sb2_charger *c)
{
    return (c->facts & SB2_CURRENT_TAKEN) != 0 && (int32_t)c->latest.current < (int32_t)c->current;
}

/* Bit by bit; those that aren't named are 0 (000, table 4). */
static uint16_t status(const struct sb2_charger *c)
{
    const struct {
        unsigned bit;
        bool is;
    } table[] = {
        {0, (c->facts & SB2_INHIBITED) != 0},
        {2, voltage_missed(c)},
        {3, current_missed(c)},
        {4, true}, /* Level 2, and no polling */
        {12, (c->facts & AWAITED) != 0},
        {14, true}, /* what writes to it is there, */
        {15, true}, /* and so is its power */
    };
    unsigned word = 0;
    for (size_t i = 0; i < sizeof table / sizeof *table; i++)
        word |= (unsigned)table[i].is << table[i].bit;
    return (uint16_t)word;
}

/* Strikes out some facts, then adds some. */
static void change(struct sb2_charger *c, unsigned struck, unsigned added)
{
    c->facts = (c->facts & ~struck) | added;
}

/* POR_RESET goes before the other bits; RESET_TO_ZERO leaves the facts (000, table 3). */
static void set_mode(struct sb2_charger *c, uint16_t word)
{
    if (word & POR_RESET) {
        to_power_on(c);
        return;
    }
    change(c, SB2_INHIBITED, word & INHIBIT_CHARGE ? SB2_INHIBITED : 0);
    if (word & RESET_TO_ZERO)
        c->current = c->voltage = 0;
}

/* What each of the four writes does (rule: R-7; 000, 7 to 11). */
static void take(struct sb2_charger *c, uint8_t command, uint16_t word)
{
    switch (command) {
    case MODE: set_mode(c, word); break;
    case CURRENT:
        change(c, SB2_CURRENT_AWAITED, SB2_CURRENT_TAKEN);
        c->current = word;
        c->silence = 0;
        break;
    case VOLTAGE:
        change(c, SB2_VOLTAGE_AWAITED, SB2_VOLTAGE_TAKEN);
        c->voltage = word;
        c->silence = 0;
        break;
    default: change(c, 0, word & STOPPING_ALARMS ? AWAITED : 0); break;
    }
}

/* The lowest number from 3 to 8 whose condition holds, else 0 (rules: Answer numbers; R-7). */
static int judge(bool read, struct sb2_bytes message)
{
    if (message.length == 0 || message.at[0] != WRITE_ADDRESS)
        return SB2_NOT_FOR_PACK;
    if (read ? message.length != 3 || message.at[2] != READ_ADDRESS : message.length != 4 && message.length != 5)
        return SB2_WRONG_FORM;
    bool right = true;
    if (message.length == 5)
        (void)sb2_check_exchange(message, &right);
    if (!right)
        return SB2_WRONG_PEC;
    uint8_t command = message.at[1];
    if (command < SPEC_INFO || command > ALARM_WARNING)
        return SB2_RESERVED;
    bool only_read = command == SPEC_INFO || command == STATUS;
    return only_read == read ? SB2_SERVED : SB2_READ_ONLY;
}

/* The whole exchange is put together, and what follows the request is the reply (rule: Transactions). */
static size_t reply(struct sb2_bytes message, uint16_t word, uint8_t *room)
{
    uint8_t exchange[6] = {message.at[0], message.at[1], message.at[2], (uint8_t)(word & 0xFF), (uint8_t)(word >> 8), 0};
    struct sb2_bytes before = {exchange, 5};
    exchange[5] = sb2_pec(before);
    for (size_t i = 0; i < SB2_CHARGER_ROOM; i++)
        room[i] = exchange[3 + i];
    return SB2_CHARGER_ROOM;
}

/* 1, 2, or the message judged and, if served, carried out; a refusal leaves nothing behind (rule: R-7). */
int sb2_charger_transact(struct sb2_charger *charger, bool read, struct sb2_bytes message, uint8_t *room,
                         size_t room_length, size_t *length)
{
    *length = 0;
    if (!sb2_charger_sound(charger))
        return SB2_NOT_SOUND;
    if (room_length < SB2_CHARGER_ROOM)
        return SB2_SMALL_ROOM;
    int answer = judge(read, message);
    if (answer != SB2_SERVED)
        return answer;
    if (read)
        *length = reply(message, message.at[1] == STATUS ? status(charger) : VERSION_1_1_PEC, room);
    else
        take(charger, message.at[1], (uint16_t)(message.at[2] | message.at[3] << 8));
    return SB2_SERVED;
}
