/* Pack sheets: a table of contents, then the bodies of the block names. */
#include "snatchblock2.h"

enum { FIRST_TAG = 0x20, TAGS = 4, ROW = 4 };

/* How many rows the sheet of these bodies has (rule: Pack sheet). */
static size_t rows_of(const struct sb2_body bodies[4])
{
    size_t count = 0;
    for (size_t i = 0; i < TAGS; i++)
        count += bodies[i].given;
    return count;
}

/* Puts a body's bytes at a place and gives the place behind them. */
static size_t put_body(struct sb2_bytes body, uint8_t *room, size_t place)
{
    for (size_t k = 0; k < body.length; k++)
        room[place + k] = body.at[k];
    return place + body.length;
}

/* Writes rows and bodies, none over 32 bytes, at the front of a room that holds them; the length (rule: Pack sheet). */
static size_t put_sheet(const struct sb2_body bodies[4], uint8_t *room)
{
    size_t count = rows_of(bodies);
    size_t row = 1;
    size_t place = 1 + ROW * count;
    room[0] = (uint8_t)count;
    for (size_t i = 0; i < TAGS; i++) {
        if (!bodies[i].given)
            continue;
        room[row] = (uint8_t)(FIRST_TAG + i);
        room[row + 1] = (uint8_t)bodies[i].bytes.length;
        room[row + 2] = (uint8_t)(place & 0xFF);
        room[row + 3] = (uint8_t)(place >> 8);
        row += ROW;
        place = put_body(bodies[i].bytes, room, place);
    }
    return place;
}

/* 12 for a body over 32 bytes or a room under 145, else the sheet at the room's front (rule: Pack sheet). */
int sb2_sheet_write(const struct sb2_body bodies[4], uint8_t *room, size_t room_length, size_t *length)
{
    *length = 0;
    for (size_t i = 0; i < TAGS; i++)
        if (bodies[i].given && bodies[i].bytes.length > SB2_NAME_MOST)
            return SB2_CANNOT_WRITE;
    if (room_length < SB2_SHEET_ROOM)
        return SB2_CANNOT_WRITE;
    *length = put_sheet(bodies, room);
    return SB2_SERVED;
}

/* Up to four rows with rising tags, bodies in that order without gaps to the exact end (rule: Pack sheet). */
bool sb2_sheet_good(struct sb2_bytes sheet)
{
    if (sheet.length == 0 || sheet.at[0] > TAGS)
        return false;
    size_t count = sheet.at[0];
    size_t place = 1 + ROW * count;
    if (sheet.length < place)
        return false;
    unsigned least = FIRST_TAG;
    for (size_t i = 0; i < count; i++) {
        const uint8_t *row = sheet.at + 1 + ROW * i;
        if (row[0] < least || row[0] >= FIRST_TAG + TAGS || row[1] > SB2_NAME_MOST)
            return false;
        if (((size_t)row[2] | (size_t)row[3] << 8) != place)
            return false;
        least = row[0] + 1u;
        place += row[1];
    }
    return place == sheet.length;
}

/* Finds a tag's row in a good sheet and shows its part; false if it isn't listed (rule: Pack sheet). */
static bool listed(struct sb2_bytes sheet, uint8_t tag, struct sb2_part *part)
{
    for (size_t i = 0; i < sheet.at[0]; i++) {
        const uint8_t *row = sheet.at + 1 + ROW * i;
        if (row[0] == tag) {
            part->offset = (size_t)row[2] | (size_t)row[3] << 8;
            part->length = row[1];
            return true;
        }
    }
    return false;
}

/* The service sheet's part if listed there, else the factory's, else no bytes of the factory's (rule: Pack sheet). */
int sb2_sheet_block(struct sb2_bytes service, struct sb2_bytes factory, uint8_t tag, struct sb2_block *block)
{
    struct sb2_block none = {false, {0, 0}};
    *block = none;
    if (!sb2_sheet_good(service) || !sb2_sheet_good(factory))
        return SB2_BAD_SHEET;
    if (listed(service, tag, &block->part))
        block->in_service = true;
    else
        (void)listed(factory, tag, &block->part);
    return SB2_SERVED;
}

/* A sheet's bodies outside of it, so that the room can be written over. */
struct taken {
    struct sb2_body bodies[TAGS];
    uint8_t copies[TAGS][SB2_NAME_MOST];
};

/* Copies a body of up to 32 bytes, or notes that there is none. */
static void take(struct taken *taken, size_t i, struct sb2_body body)
{
    struct sb2_body copy = {body.given, {taken->copies[i], body.bytes.length}};
    (void)put_body(body.bytes, taken->copies[i], 0);
    taken->bodies[i] = copy;
}

/* Takes every body of a good sheet. */
static void take_all(struct taken *taken, struct sb2_bytes sheet)
{
    for (size_t i = 0; i < TAGS; i++) {
        struct sb2_part part = {0, 0};
        bool given = listed(sheet, (uint8_t)(FIRST_TAG + i), &part);
        struct sb2_body body = {given, {sheet.at + part.offset, part.length}};
        take(taken, i, body);
    }
}

/* How long the sheet of these bodies is: its first byte, then a row and the bytes of each (rule: Pack sheet). */
static size_t length_of(const struct sb2_body bodies[4])
{
    size_t length = 1;
    for (size_t i = 0; i < TAGS; i++)
        if (bodies[i].given)
            length += ROW + bodies[i].bytes.length;
    return length;
}

/* 9, 18, 19, 20 in this order, else the sheet afresh with this body, or with none, under the tag, then 0 to the old
 * sheet's end (rule: R-9). */
static int edit(uint8_t *room, size_t room_length, size_t stated, uint8_t tag, struct sb2_body body, size_t *length)
{
    struct sb2_bytes sheet = {room, stated};
    struct taken taken;
    *length = 0;
    if (stated > room_length || !sb2_sheet_good(sheet))
        return SB2_BAD_SHEET;
    if (tag < FIRST_TAG || tag >= FIRST_TAG + TAGS)
        return SB2_BAD_TAG;
    if (body.bytes.length > SB2_NAME_MOST)
        return SB2_LONG_BODY;
    take_all(&taken, sheet);
    take(&taken, (size_t)(tag - FIRST_TAG), body);
    if (length_of(taken.bodies) > room_length)
        return SB2_LONG_SHEET;
    *length = put_sheet(taken.bodies, room);
    for (size_t i = *length; i < stated; i++)
        room[i] = 0;
    return SB2_SERVED;
}

/* An edit that leaves a body under the tag (rule: R-9). */
int sb2_sheet_set(uint8_t *room, size_t room_length, size_t stated, uint8_t tag, struct sb2_bytes body, size_t *length)
{
    struct sb2_body one = {true, body};
    return edit(room, room_length, stated, tag, one, length);
}

/* An edit that leaves none; it lengthens no sheet, so that 20 never comes (rule: R-9). */
int sb2_sheet_remove(uint8_t *room, size_t room_length, size_t stated, uint8_t tag, size_t *length)
{
    struct sb2_body none = {false, {NULL, 0}};
    return edit(room, room_length, stated, tag, none, length);
}
