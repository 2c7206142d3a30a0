/* Keys: maker, device name, date and serial, escaped and joined. */
#include "snatchblock2.h"

enum { SLASH = 0x2F, ESCAPE = 0x5C };

/* The two bytes that a name may hold only behind an escape mark (rule: Key). */
static bool needs_escape(uint8_t byte)
{
    return byte == SLASH || byte == ESCAPE;
}

/* Puts a name with its escapes and gives the place behind it (rule: Key). */
static size_t put_name(uint8_t *room, size_t place, struct sb2_bytes name)
{
    for (size_t i = 0; i < name.length; i++) {
        if (needs_escape(name.at[i]))
            room[place++] = ESCAPE;
        room[place++] = name.at[i];
    }
    return place;
}

/* Puts a slash and a word as four lower-case hex digits (rule: Key). */
static size_t put_word(uint8_t *room, size_t place, uint16_t word)
{
    /* written out in code points: the digits are bytes of the key, whatever the compiler's characters are */
    room[place++] = SLASH;
    for (int shift = 12; shift >= 0; shift -= 4) {
        unsigned digit = (word >> shift) & 0xFu;
        room[place++] = (uint8_t)(digit < 10 ? 0x30 + digit : 0x61 + (digit - 10));
    }
    return place;
}

/* 12 for a name over 32 bytes or a room under 139, else the key at the room's front (rule: Key). */
int sb2_key_write(struct sb2_bytes maker, struct sb2_bytes device, uint16_t date, uint16_t serial, uint8_t *room,
                  size_t room_length, size_t *length)
{
    *length = 0;
    if (maker.length > SB2_NAME_MOST || device.length > SB2_NAME_MOST || room_length < SB2_KEY_ROOM)
        return SB2_CANNOT_WRITE;
    size_t place = put_name(room, 0, maker);
    room[place++] = SLASH;
    place = put_name(room, place, device);
    place = put_word(room, place, date);
    *length = put_word(room, place, serial);
    return SB2_SERVED;
}

/* Walks an escaped name up to a plain slash or the end and counts its plain bytes; false at a bad escape (rule: Key). */
static bool pass_name(struct sb2_bytes key, size_t *place, size_t *count)
{
    size_t i = *place;
    *count = 0;
    while (i < key.length && key.at[i] != SLASH) {
        if (key.at[i] == ESCAPE) {
            i++;
            if (i >= key.length || !needs_escape(key.at[i]))
                return false;
        }
        i++;
        ++*count;
    }
    *place = i;
    return true;
}

/* The same for a name of a key, which has at most 32 bytes (rule: Key). */
static bool pass_short_name(struct sb2_bytes key, size_t *place)
{
    size_t count;
    return pass_name(key, place, &count) && count <= SB2_NAME_MOST;
}

/* Takes a slash; false if none stands there (rule: Key). */
static bool pass_slash(struct sb2_bytes key, size_t *place)
{
    if (*place >= key.length || key.at[*place] != SLASH)
        return false;
    ++*place;
    return true;
}

/* Takes four lower-case hex digits as a word; false if they don't stand there (rule: Key). */
static bool pass_word(struct sb2_bytes key, size_t *place, uint16_t *word)
{
    if (key.length - *place < 4)
        return false;
    unsigned value = 0;
    for (int i = 0; i < 4; i++) {
        uint8_t byte = key.at[(*place)++];
        unsigned digit;
        if (byte >= 0x30 && byte <= 0x39)
            digit = byte - 0x30u;
        else if (byte >= 0x61 && byte <= 0x66)
            digit = byte - 0x61u + 10u;
        else
            return false;
        value = value * 16 + digit;
    }
    *word = (uint16_t)value;
    return true;
}

/* 13 unless some four parts are written so; both names shown as parts of the key (rule: Key). */
int sb2_key_read(struct sb2_bytes key, struct sb2_key *parts)
{
    struct sb2_key found = {{0, 0}, {0, 0}, 0, 0};
    *parts = found;
    size_t place = 0;
    if (!pass_short_name(key, &place))
        return SB2_NOT_A_KEY;
    found.maker.length = place;
    if (!pass_slash(key, &place))
        return SB2_NOT_A_KEY;
    found.device.offset = place;
    if (!pass_short_name(key, &place))
        return SB2_NOT_A_KEY;
    found.device.length = place - found.device.offset;
    if (!pass_slash(key, &place) || !pass_word(key, &place, &found.date) || !pass_slash(key, &place) ||
        !pass_word(key, &place, &found.serial) || place != key.length)
        return SB2_NOT_A_KEY;
    *parts = found;
    return SB2_SERVED;
}

/* 13 unless the bytes are one escaped name of at most 32 bytes, 12 for a room shorter than it, else its plain bytes
 * (rule: Key). */
int sb2_key_unescape(struct sb2_bytes name, uint8_t *room, size_t room_length, size_t *length)
{
    *length = 0;
    size_t end = 0;
    size_t count;
    if (!pass_name(name, &end, &count) || end != name.length || count > SB2_NAME_MOST)
        return SB2_NOT_A_KEY;
    if (room_length < count)
        return SB2_CANNOT_WRITE;
    size_t place = 0;
    for (size_t i = 0; i < name.length; i++) {
        if (name.at[i] == ESCAPE)
            i++;
        room[place++] = name.at[i];
    }
    *length = place;
    return SB2_SERVED;
}
