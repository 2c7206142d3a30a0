/* Transactions: what the pack answers to the bytes on the bus. */
#include "inside.h"

#include <string.h>

enum { WRITE_ADDRESS = 0x16, READ_ADDRESS = 0x17 };

#define RE SB2_KIND_RESERVED
#define OP SB2_KIND_OPTIONAL
#define WR SB2_KIND_WRITE_WORD
#define RD SB2_KIND_READ_WORD
#define BL SB2_KIND_READ_BLOCK
static const uint8_t kinds[64] = {
    WR, WR, WR, WR, WR, RD, RD, RD, RD, RD, RD, RD, RD, RD, RD, RD, /* 00 to 0F */
    RD, RD, RD, RD, RD, RD, RD, RD, RD, RD, RD, RD, RD, RE, RE, RE, /* 10 to 1F */
    BL, BL, BL, BL, RE, RE, RE, RE, RE, RE, RE, RE, RE, RE, RE, OP, /* 20 to 2F */
    RE, RE, RE, RE, RE, RE, RE, RE, RE, RE, RE, RE, OP, OP, OP, OP, /* 30 to 3F */
};

/* The command's row, or reserved beyond 3F (rule: Transactions). */
enum sb2_kind sb2_kind_of(uint8_t command)
{
    return command < 64 ? (enum sb2_kind)kinds[command] : SB2_KIND_RESERVED;
}

/* The lowest number from 3 to 9 whose condition holds, else 0 (rule: Answer numbers). */
static int judge(bool read, struct sb2_bytes message, struct sb2_bytes service, struct sb2_bytes factory)
{
    if (message.length == 0 || message.at[0] != WRITE_ADDRESS)
        return SB2_NOT_FOR_PACK;
    if (read ? message.length != 3 || message.at[2] != READ_ADDRESS : message.length != 4 && message.length != 5)
        return SB2_WRONG_FORM;
    if (!read && message.length == 5) {
        struct sb2_bytes before = {message.at, 4};
        if (sb2_pec(before) != message.at[4])
            return SB2_WRONG_PEC;
    }
    enum sb2_kind kind = sb2_kind_of(message.at[1]);
    if (kind == SB2_KIND_RESERVED)
        return SB2_RESERVED;
    if (kind == SB2_KIND_OPTIONAL)
        return SB2_NOT_BUILT;
    if (!read && kind != SB2_KIND_WRITE_WORD)
        return SB2_READ_ONLY;
    if (kind == SB2_KIND_READ_BLOCK && !(sb2_sheet_good(service) && sb2_sheet_good(factory)))
        return SB2_BAD_SHEET;
    return SB2_SERVED;
}

/* The error code that an answer leaves, `before` where it leaves it as it was (rule: Answer numbers). */
uint32_t sb2_error_left(int answer, uint32_t before)
{
    switch (answer) {
    case SB2_SERVED: return 0;
    case SB2_WRONG_FORM: return 6;
    case SB2_WRONG_PEC: return 7;
    case SB2_RESERVED: return 2;
    case SB2_NOT_BUILT: return 3;
    case SB2_READ_ONLY: return 4;
    case SB2_BAD_SHEET: return 7;
    case SB2_OVERFLOW: return 5;
    default: return before;
    }
}

/* The signed word of two's complement bits, without a cast that the compiler defines. */
static int16_t signed_word(uint16_t word)
{
    return (int16_t)(word < 0x8000 ? (int32_t)word : (int32_t)word - 0x10000);
}

/* Keeps a written word; BatteryMode also starts or ends the hold and stands the charger timer at 0
 * (rules: Registers; Clock and broadcasts). */
static void write_word(struct sb2_state *s, uint8_t command, uint16_t word)
{
    switch (command) {
    case 0x00: s->host.manufacturer_access = word; break;
    case 0x01: s->host.remaining_capacity_alarm = word; break;
    case 0x02: s->host.remaining_time_alarm = word; break;
    case 0x03:
        s->host.alarm_mode = (word & 1u << 13) != 0;
        s->host.charger_mode = (word & 1u << 14) != 0;
        s->host.capacity_mode = (word & 1u << 15) != 0;
        s->timers.hold = s->host.alarm_mode ? SB2_HOLD_MS : 0;
        if (s->host.charger_mode)
            s->timers.charger = 0;
        break;
    case 0x04: s->host.at_rate = signed_word(word); break;
    default: break;
    }
}

/* Puts a block, its count and its bytes; gives how many bytes that are (rule: Transactions). */
static size_t put_block(uint8_t command, struct sb2_bytes service, struct sb2_bytes factory, uint8_t *room)
{
    struct sb2_block block;
    (void)sb2_sheet_block(service, factory, command, &block);
    const uint8_t *sheet = block.in_service ? service.at : factory.at;
    room[0] = (uint8_t)block.part.length;
    for (size_t i = 0; i < block.part.length; i++)
        room[1 + i] = sheet[block.part.offset + i];
    return 1 + block.part.length;
}

/* Puts a word, low byte first (rule: Transactions). */
size_t sb2_put_word(uint16_t word, uint8_t *room)
{
    room[0] = (uint8_t)(word & 0xFF);
    room[1] = (uint8_t)(word >> 8);
    return 2;
}

/* Puts the PEC over request and reply behind the reply (rule: Transactions). */
size_t sb2_put_pec(struct sb2_bytes message, uint8_t *room, size_t place)
{
    uint8_t exchange[SB2_MESSAGE_MOST];
    memcpy(exchange, message.at, 3);
    memcpy(exchange + 3, room, place);
    struct sb2_bytes whole = {exchange, 3 + place};
    room[place] = sb2_pec(whole);
    return place + 1;
}

/* Puts the reply to a read: answers 10 where its register gave a word that was cut off, else 0 (rules: Transactions;
 * */
static int serve_read(const struct sb2_state *s, struct sb2_bytes message, struct sb2_bytes service,
                      struct sb2_bytes factory, uint8_t *room, size_t *length)
{
    uint8_t command = message.at[1];
    if (sb2_kind_of(command) == SB2_KIND_READ_BLOCK) {
        *length = sb2_put_pec(message, room, put_block(command, service, factory, room));
        return SB2_SERVED;
    }
    struct sb2_shown shown = sb2_register(s, command);
    *length = sb2_put_pec(message, room, sb2_put_word(shown.word, room));
    return shown.cut_off ? SB2_OVERFLOW : SB2_SERVED;
}

/* 1, 2, or the message judged and, if served, carried out; then the error code (rule: Transactions). */
int sb2_transact(struct sb2_state *state, bool read, struct sb2_bytes message, struct sb2_bytes service,
                 struct sb2_bytes factory, uint8_t *room, size_t room_length, size_t *length)
{
    *length = 0;
    if (!sb2_sound(state))
        return SB2_NOT_SOUND;
    if (room_length < SB2_REPLY_ROOM)
        return SB2_SMALL_ROOM;
    int answer = judge(read, message, service, factory);
    if (answer == SB2_SERVED && read)
        answer = serve_read(state, message, service, factory, room, length);
    else if (answer == SB2_SERVED)
        write_word(state, message.at[1], (uint16_t)(message.at[2] | message.at[3] << 8));
    state->error_code = sb2_error_left(answer, state->error_code);
    return answer;
}
