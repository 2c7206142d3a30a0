/* Edits of a sheet in its room, by request R-9: the bytes that a body set or removed leaves, in every room that holds
 * the sheet; what becomes 0 and what stays; each refusal, and which goes before which; a pack renamed on the bus. */
#include "check.h"
#include "snatchblock.h"

#include <string.h>

#define ROOM_MOST 200
#include "room.h"

struct bytes {
    const uint8_t *at;
    size_t length;
};
#define BYTES(...) ((struct bytes){(const uint8_t[]){__VA_ARGS__}, sizeof((const uint8_t[]){__VA_ARGS__})})
#define TEXT(string) ((struct bytes){(const uint8_t *)(string), sizeof(string) - 1})

/* 32 bytes, and one more */
#define LONGEST "abcdefghijklmnopqrstuvwxyzABCDEF"
#define TOO_LONG LONGEST "G"

#define PACKED(answer, rest) ((unsigned long long)(answer) | (unsigned long long)(rest) << 8)

/* ---- one edit */

struct edit {
    bool set; /* else removed */
    uint8_t tag;
    struct bytes body;
};

static uint32_t call(struct edit e, size_t room_length, size_t stated)
{
    if (e.set)
        return snatchblock_set_body(room, room_length, stated, e.tag, e.body.at, e.body.length);
    return snatchblock_remove_body(room, room_length, stated, e.tag);
}

/* The room with these bytes at its front; behind them stand marks, as they stood before. */
static void put(struct bytes front)
{
    new_room();
    memcpy(room, front.at, front.length);
}

static void refused_at(int line, struct bytes front, struct edit e, size_t room_length, size_t stated, unsigned answer)
{
    put(front);
    check_at(line, "refusal", call(e, room_length, stated), answer); /* no length above it */
    check_at(line, "room of a refusal", room_is(front.at, front.length), true);
}

/* An edit of a sheet in each room that holds it: 20 exactly where the new one is longer. `after` is the new sheet and
 * the zeros to the old one's end. */
static void edit_at(int line, struct bytes sheet, struct edit e, size_t length, struct bytes after)
{
    check_at(line, "bytes written out", after.length, length > sheet.length ? length : sheet.length);
    for (size_t room_length = sheet.length; room_length <= ROOM_MOST; room_length++) {
        if (room_length < length) {
            refused_at(line, sheet, e, room_length, sheet.length, SNATCHBLOCK_LONG_SHEET);
            continue;
        }
        put(sheet);
        uint32_t result = call(e, room_length, sheet.length);
        check_at(line, "answer", snatchblock_answer_of(result), SNATCHBLOCK_SERVED);
        check_at(line, "length", snatchblock_length_of(result), length);
        check_at(line, "room", room_is(after.at, after.length), true);
        check_at(line, "sheet", snatchblock_is_sheet(room, length), true);
    }
}
#define SET(sheet, tag, body, length, after) edit_at(__LINE__, sheet, (struct edit){true, tag, body}, length, after)
#define REMOVE(sheet, tag, length, after) edit_at(__LINE__, sheet, (struct edit){false, tag, TEXT("")}, length, after)

/* Three bodies in 22 bytes: most edits here are of this sheet. */
#define THREE BYTES(3, 0x20, 3, 13, 0, 0x22, 4, 16, 0, 0x23, 2, 20, 0, 'O', 'a', 'k', 'L', 'i', 'P', 'o', 'x', 'y')

/* ---- bodies that weren't there */

static void first_bodies(void)
{
    for (uint8_t tag = 0x20; tag <= 0x23; tag++) {
        SET(BYTES(0), tag, TEXT("Elm"), 8, BYTES(1, tag, 3, 5, 0, 'E', 'l', 'm'));
        SET(BYTES(0), tag, TEXT(""), 5, BYTES(1, tag, 0, 5, 0));
        SET(BYTES(0), tag, BYTES(0), 6, BYTES(1, tag, 1, 5, 0, 0));
        uint8_t after[37] = {1, tag, 32, 5, 0};
        memcpy(after + 5, LONGEST, 32);
        SET(BYTES(0), tag, TEXT(LONGEST), 37, ((struct bytes){after, 37}));
    }
}

static void added(void)
{
    const struct bytes inner = BYTES(2, 0x21, 2, 9, 0, 0x22, 3, 11, 0, 'P', '7', 'N', 'i', 'H');
    const struct bytes outer = BYTES(2, 0x20, 3, 9, 0, 0x23, 1, 12, 0, 'O', 'a', 'k', 'z');
    const struct bytes empty = BYTES(2, 0x21, 0, 9, 0, 0x23, 0, 9, 0);
    /* before, behind, between; next to bodies of no bytes */
    SET(inner, 0x20, TEXT("Oak"), 21,
        BYTES(3, 0x20, 3, 13, 0, 0x21, 2, 16, 0, 0x22, 3, 18, 0, 'O', 'a', 'k', 'P', '7', 'N', 'i', 'H'));
    SET(inner, 0x20, TEXT(""), 18, BYTES(3, 0x20, 0, 13, 0, 0x21, 2, 13, 0, 0x22, 3, 15, 0, 'P', '7', 'N', 'i', 'H'));
    SET(inner, 0x23, TEXT("z"), 19,
        BYTES(3, 0x21, 2, 13, 0, 0x22, 3, 15, 0, 0x23, 1, 18, 0, 'P', '7', 'N', 'i', 'H', 'z'));
    SET(inner, 0x23, TEXT(""), 18, BYTES(3, 0x21, 2, 13, 0, 0x22, 3, 15, 0, 0x23, 0, 18, 0, 'P', '7', 'N', 'i', 'H'));
    SET(outer, 0x21, TEXT("P7"), 19,
        BYTES(3, 0x20, 3, 13, 0, 0x21, 2, 16, 0, 0x23, 1, 18, 0, 'O', 'a', 'k', 'P', '7', 'z'));
    SET(outer, 0x22, TEXT("NiH"), 20,
        BYTES(3, 0x20, 3, 13, 0, 0x22, 3, 16, 0, 0x23, 1, 19, 0, 'O', 'a', 'k', 'N', 'i', 'H', 'z'));
    SET(outer, 0x22, TEXT(""), 17, BYTES(3, 0x20, 3, 13, 0, 0x22, 0, 16, 0, 0x23, 1, 16, 0, 'O', 'a', 'k', 'z'));
    SET(empty, 0x20, TEXT("a"), 14, BYTES(3, 0x20, 1, 13, 0, 0x21, 0, 14, 0, 0x23, 0, 14, 0, 'a'));
    SET(empty, 0x22, TEXT("a"), 14, BYTES(3, 0x21, 0, 13, 0, 0x22, 1, 13, 0, 0x23, 0, 14, 0, 'a'));
    SET(empty, 0x22, TEXT(""), 13, BYTES(3, 0x21, 0, 13, 0, 0x22, 0, 13, 0, 0x23, 0, 13, 0));
    SET(THREE, 0x21, TEXT("P7"), 28,
        BYTES(4, 0x20, 3, 17, 0, 0x21, 2, 20, 0, 0x22, 4, 22, 0, 0x23, 2, 26, 0,
              'O', 'a', 'k', 'P', '7', 'L', 'i', 'P', 'o', 'x', 'y'));
}

/* ---- bodies in the place of others */

static void made_longer(void)
{
    SET(THREE, 0x20, TEXT("Birch"), 24,
        BYTES(3, 0x20, 5, 13, 0, 0x22, 4, 18, 0, 0x23, 2, 22, 0,
              'B', 'i', 'r', 'c', 'h', 'L', 'i', 'P', 'o', 'x', 'y'));
    SET(THREE, 0x20, TEXT("Oaks"), 23,
        BYTES(3, 0x20, 4, 13, 0, 0x22, 4, 17, 0, 0x23, 2, 21, 0, 'O', 'a', 'k', 's', 'L', 'i', 'P', 'o', 'x', 'y'));
    SET(THREE, 0x22, TEXT("LiFePO4"), 25,
        BYTES(3, 0x20, 3, 13, 0, 0x22, 7, 16, 0, 0x23, 2, 23, 0,
              'O', 'a', 'k', 'L', 'i', 'F', 'e', 'P', 'O', '4', 'x', 'y'));
    SET(THREE, 0x23, TEXT("12345"), 25,
        BYTES(3, 0x20, 3, 13, 0, 0x22, 4, 16, 0, 0x23, 5, 20, 0,
              'O', 'a', 'k', 'L', 'i', 'P', 'o', '1', '2', '3', '4', '5'));
    uint8_t wide[50] = {3, 0x20, 3, 13, 0, 0x22, 32, 16, 0, 0x23, 2, 48, 0, 'O', 'a', 'k'};
    memcpy(wide + 16, LONGEST "xy", 34);
    SET(THREE, 0x22, TEXT(LONGEST), 50, ((struct bytes){wide, 50}));
    SET(BYTES(1, 0x21, 0, 5, 0), 0x21, TEXT("P7"), 7, BYTES(1, 0x21, 2, 5, 0, 'P', '7'));
}

static void made_shorter(void)
{
    SET(THREE, 0x20, TEXT("O"), 20,
        BYTES(3, 0x20, 1, 13, 0, 0x22, 4, 14, 0, 0x23, 2, 18, 0, 'O', 'L', 'i', 'P', 'o', 'x', 'y', 0, 0));
    SET(THREE, 0x20, TEXT(""), 19,
        BYTES(3, 0x20, 0, 13, 0, 0x22, 4, 13, 0, 0x23, 2, 17, 0, 'L', 'i', 'P', 'o', 'x', 'y', 0, 0, 0));
    SET(THREE, 0x22, TEXT("Pb"), 20,
        BYTES(3, 0x20, 3, 13, 0, 0x22, 2, 16, 0, 0x23, 2, 18, 0, 'O', 'a', 'k', 'P', 'b', 'x', 'y', 0, 0));
    SET(THREE, 0x22, TEXT(""), 18,
        BYTES(3, 0x20, 3, 13, 0, 0x22, 0, 16, 0, 0x23, 2, 16, 0, 'O', 'a', 'k', 'x', 'y', 0, 0, 0, 0));
    SET(THREE, 0x23, TEXT("q"), 21,
        BYTES(3, 0x20, 3, 13, 0, 0x22, 4, 16, 0, 0x23, 1, 20, 0, 'O', 'a', 'k', 'L', 'i', 'P', 'o', 'q', 0));
    SET(THREE, 0x23, TEXT(""), 20,
        BYTES(3, 0x20, 3, 13, 0, 0x22, 4, 16, 0, 0x23, 0, 20, 0, 'O', 'a', 'k', 'L', 'i', 'P', 'o', 0, 0));
    SET(BYTES(1, 0x23, 2, 5, 0, 'x', 'y'), 0x23, TEXT(""), 5, BYTES(1, 0x23, 0, 5, 0, 0, 0));
}

/* As long as before: the other bodies stay where they are. */
static void as_long(void)
{
    SET(THREE, 0x20, TEXT("Fir"), 22,
        BYTES(3, 0x20, 3, 13, 0, 0x22, 4, 16, 0, 0x23, 2, 20, 0, 'F', 'i', 'r', 'L', 'i', 'P', 'o', 'x', 'y'));
    SET(THREE, 0x22, TEXT("NiCd"), 22,
        BYTES(3, 0x20, 3, 13, 0, 0x22, 4, 16, 0, 0x23, 2, 20, 0, 'O', 'a', 'k', 'N', 'i', 'C', 'd', 'x', 'y'));
    SET(THREE, 0x23, TEXT("12"), 22,
        BYTES(3, 0x20, 3, 13, 0, 0x22, 4, 16, 0, 0x23, 2, 20, 0, 'O', 'a', 'k', 'L', 'i', 'P', 'o', '1', '2'));
    SET(THREE, 0x20, TEXT("Oak"), 22, THREE);
    SET(THREE, 0x22, TEXT("LiPo"), 22, THREE);
    SET(THREE, 0x23, TEXT("xy"), 22, THREE);
    SET(BYTES(1, 0x22, 0, 5, 0), 0x22, TEXT(""), 5, BYTES(1, 0x22, 0, 5, 0));
}

/* ---- bodies removed */

static void removed(void)
{
    REMOVE(THREE, 0x20, 15,
           BYTES(2, 0x22, 4, 9, 0, 0x23, 2, 13, 0, 'L', 'i', 'P', 'o', 'x', 'y', 0, 0, 0, 0, 0, 0, 0));
    REMOVE(THREE, 0x22, 14, BYTES(2, 0x20, 3, 9, 0, 0x23, 2, 12, 0, 'O', 'a', 'k', 'x', 'y', 0, 0, 0, 0, 0, 0, 0, 0));
    REMOVE(THREE, 0x23, 16,
           BYTES(2, 0x20, 3, 9, 0, 0x22, 4, 12, 0, 'O', 'a', 'k', 'L', 'i', 'P', 'o', 0, 0, 0, 0, 0, 0));
    REMOVE(THREE, 0x21, 22, THREE); /* it isn't there */
    REMOVE(BYTES(0), 0x20, 1, BYTES(0));
    REMOVE(BYTES(1, 0x21, 1, 5, 0, 'B'), 0x20, 6, BYTES(1, 0x21, 1, 5, 0, 'B'));
    REMOVE(BYTES(1, 0x21, 1, 5, 0, 'B'), 0x22, 6, BYTES(1, 0x21, 1, 5, 0, 'B'));
    REMOVE(BYTES(1, 0x22, 3, 5, 0, 'N', 'i', 'H'), 0x22, 1, BYTES(0, 0, 0, 0, 0, 0, 0, 0));
    REMOVE(BYTES(1, 0x21, 0, 5, 0), 0x21, 1, BYTES(0, 0, 0, 0, 0));
    REMOVE(BYTES(2, 0x20, 0, 9, 0, 0x23, 1, 9, 0, 'z'), 0x20, 6, BYTES(1, 0x23, 1, 5, 0, 'z', 0, 0, 0, 0));
}

/* ---- the longest sheet: four bodies of 32 bytes, each of one letter */

enum { MOST = 145 };
static uint8_t longest[MOST] = {4, 0x20, 32, 17, 0, 0x21, 32, 49, 0, 0x22, 32, 81, 0, 0x23, 32, 113, 0};

static void longest_sheet(void)
{
    uint8_t after[MOST] = {4, 0x20, 16, 17, 0, 0x21, 32, 33, 0, 0x22, 32, 65, 0, 0x23, 32, 97, 0};
    for (size_t i = 0; i < 4; i++)
        memset(longest + 17 + 32 * i, 'A' + (int)i, 32);
    const struct bytes whole = {longest, MOST};
    memset(after + 17, 'e', 16);
    memcpy(after + 33, longest + 49, 96);
    SET(whole, 0x20, TEXT("eeeeeeeeeeeeeeee"), 129, ((struct bytes){after, MOST}));
    memset(after, 0, sizeof after);
    memcpy(after, (const uint8_t[]){3, 0x21, 32, 13, 0, 0x22, 32, 45, 0, 0x23, 32, 77, 0}, 13);
    memcpy(after + 13, longest + 49, 96);
    REMOVE(whole, 0x20, 109, ((struct bytes){after, MOST}));
    SET(((struct bytes){after, 109}), 0x20, ((struct bytes){longest + 17, 32}), MOST, whole);
    memset(after, 0, sizeof after);
    memcpy(after, (const uint8_t[]){3, 0x20, 32, 13, 0, 0x21, 32, 45, 0, 0x22, 32, 77, 0}, 13);
    memcpy(after + 13, longest + 17, 96);
    REMOVE(whole, 0x23, 109, ((struct bytes){after, MOST}));
    SET(((struct bytes){after, 109}), 0x23, ((struct bytes){longest + 113, 32}), MOST, whole);
    for (uint8_t tag = 0x20; tag <= 0x23; tag++)
        SET(whole, tag, ((struct bytes){longest + 17 + 32 * (tag - 0x20), 32}), MOST, whole);
}

/* ---- series */

static size_t length_now;

/* An edit in a room of 22 bytes that goes on from the length last answered. */
static void on_at(int line, struct edit e, unsigned answer, struct bytes after)
{
    uint32_t result = call(e, 22, length_now);
    check_at(line, "answer", snatchblock_answer_of(result), answer);
    if (snatchblock_served(result))
        length_now = snatchblock_length_of(result);
    else
        check_at(line, "refusal", result, answer);
    check_at(line, "room", room_is(after.at, after.length), true);
}
#define ON_SET(tag, body, answer, after) on_at(__LINE__, (struct edit){true, tag, body}, answer, after)
#define ON_REMOVE(tag, after) on_at(__LINE__, (struct edit){false, tag, TEXT("")}, SNATCHBLOCK_SERVED, after)

/* Freed bytes serve at once: three bodies fill the room, and others find place by removing and by shortening. */
static void room_reused(void)
{
    put(THREE);
    length_now = 22;
    ON_SET(0x21, TEXT(""), SNATCHBLOCK_LONG_SHEET, THREE);
    ON_SET(0x23, TEXT("xyz"), SNATCHBLOCK_LONG_SHEET, THREE);
    ON_REMOVE(0x23, BYTES(2, 0x20, 3, 9, 0, 0x22, 4, 12, 0, 'O', 'a', 'k', 'L', 'i', 'P', 'o', 0, 0, 0, 0, 0, 0));
    CHECK(length_now, 16);
    const struct bytes full = BYTES(3, 0x20, 3, 13, 0, 0x21, 2, 16, 0, 0x22, 4, 18, 0,
                                    'O', 'a', 'k', 'P', '7', 'L', 'i', 'P', 'o');
    ON_SET(0x21, TEXT("P7"), SNATCHBLOCK_SERVED, full);
    CHECK(length_now, 22);
    ON_SET(0x20, TEXT("Ash!"), SNATCHBLOCK_LONG_SHEET, full);
    ON_SET(0x22, TEXT(""), SNATCHBLOCK_SERVED,
           BYTES(3, 0x20, 3, 13, 0, 0x21, 2, 16, 0, 0x22, 0, 18, 0, 'O', 'a', 'k', 'P', '7', 0, 0, 0, 0));
    CHECK(length_now, 18);
    const struct bytes willow = BYTES(3, 0x20, 7, 13, 0, 0x21, 2, 20, 0, 0x22, 0, 22, 0,
                                      'W', 'i', 'l', 'l', 'o', 'w', '!', 'P', '7');
    ON_SET(0x20, TEXT("Willow!"), SNATCHBLOCK_SERVED, willow);
    CHECK(length_now, 22);
    ON_REMOVE(0x23, willow);
    CHECK(length_now, 22);
}

/* An edit that is served, in a room of 26 bytes. */
static void on(uint8_t tag, bool set, struct bytes body)
{
    uint32_t result = call((struct edit){set, tag, body}, 26, length_now);
    CHECK(snatchblock_answer_of(result), SNATCHBLOCK_SERVED);
    length_now = snatchblock_length_of(result);
}

/* Four bodies set in this order; cut to half and set in it again; removed in it. */
static void one_order(const unsigned order[4])
{
    const struct bytes bodies[4] = {TEXT("Oak"), TEXT("P7"), TEXT("NiMH"), TEXT("")};
    const struct bytes four = BYTES(4, 0x20, 3, 17, 0, 0x21, 2, 20, 0, 0x22, 4, 22, 0, 0x23, 0, 26, 0,
                                    'O', 'a', 'k', 'P', '7', 'N', 'i', 'M', 'H');
    const uint8_t none[26] = {0};
    put(BYTES(0));
    length_now = 1;
    for (unsigned turn = 0; turn < 3; turn++) {
        for (unsigned i = 0; i < 4; i++) {
            struct bytes body = bodies[order[i]];
            body.length = turn == 1 ? body.length / 2 : body.length;
            on((uint8_t)(0x20 + order[i]), true, body);
        }
        CHECK(length_now, turn == 1 ? 21 : 26); /* halves are of 1, 1, 2 and 0 bytes */
        CHECK(room_is(four.at, four.length), turn != 1);
    }
    for (unsigned i = 0; i < 4; i++)
        on((uint8_t)(0x20 + order[i]), false, TEXT(""));
    CHECK(length_now, 1);
    CHECK(room_is(none, sizeof none), true);
}

static void orders(void)
{
    unsigned count = 0;
    for (unsigned code = 0; code < 256; code++) {
        const unsigned order[4] = {code & 3, code >> 2 & 3, code >> 4 & 3, code >> 6};
        if ((1u << order[0] | 1u << order[1] | 1u << order[2] | 1u << order[3]) != 15)
            continue; /* a tag twice */
        one_order(order);
        count++;
    }
    CHECK(count, 24);
}

/* ---- every edit of every sheet of small bodies: the sheet that writing afresh gives */

static const struct bytes small[] = {{(const uint8_t *)"", 0}, {(const uint8_t *)"p", 1}, {(const uint8_t *)"qrs", 3}};
enum { NO_BODY = 3 };

/* Writes the bodies of a code, two bits for each tag; gives the sheet's length. */
static size_t write_afresh(unsigned code, uint8_t sheet[MOST])
{
    struct bytes bodies[4];
    bool has[4];
    for (unsigned i = 0; i < 4; i++) {
        unsigned which = code >> 2 * i & 3;
        has[i] = which != NO_BODY;
        bodies[i] = small[has[i] ? which : 0];
    }
    uint32_t result = snatchblock_write_sheet(sheet, MOST, has[0], bodies[0].at, bodies[0].length, has[1], bodies[1].at,
                                              bodies[1].length, has[2], bodies[2].at, bodies[2].length, has[3],
                                              bodies[3].at, bodies[3].length);
    CHECK(snatchblock_answer_of(result), SNATCHBLOCK_SERVED);
    return snatchblock_length_of(result);
}

static void edit_to(unsigned code, unsigned at, unsigned which)
{
    uint8_t before[MOST], after[MOST] = {0};
    struct edit e = {which != NO_BODY, (uint8_t)(0x20 + at), small[which != NO_BODY ? which : 0]};
    size_t old = write_afresh(code, before);
    size_t length = write_afresh((code & ~(3u << 2 * at)) | which << 2 * at, after);
    size_t both = length > old ? length : old;
    put((struct bytes){before, old});
    CHECK(call(e, both, old), PACKED(SNATCHBLOCK_SERVED, length));
    CHECK(room_is(after, both), true);
    CHECK(snatchblock_block(room, length, (const uint8_t[]){0}, 1, e.tag) >> 32, which == NO_BODY);
    if (length > old)
        refused_at(__LINE__, (struct bytes){before, old}, e, length - 1, old, SNATCHBLOCK_LONG_SHEET);
}

static void small_sheets(void)
{
    for (unsigned code = 0; code < 256; code++)
        for (unsigned way = 0; way < 16; way++)
            edit_to(code, way / 4, way % 4);
}

/* ---- refusals */

#define REFUSED(front, e, room_length, stated, answer) refused_at(__LINE__, front, e, room_length, stated, answer)

/* One edit of each kind that the sheet THREE would take. */
static const struct edit good[2] = {{true, 0x21, {(const uint8_t *)"P7", 2}}, {false, 0x22, {(const uint8_t *)"", 0}}};

/* Of THREE every other length is 9, and so is every room that it doesn't fit in. */
static void wrong_lengths(void)
{
    static const size_t large[] = {65536 + 22, ((size_t)1 << 32) + 22, (size_t)1 << 63, SIZE_MAX - 1, SIZE_MAX};
    for (unsigned i = 0; i < 2; i++) {
        for (size_t stated = 0; stated <= 2 * ROOM_MOST; stated++)
            if (stated != 22)
                REFUSED(THREE, good[i], ROOM_MOST, stated, SNATCHBLOCK_BAD_SHEET);
        for (size_t room_length = 0; room_length < 22; room_length++)
            REFUSED(THREE, good[i], room_length, 22, SNATCHBLOCK_BAD_SHEET);
        for (size_t k = 0; k < sizeof large / sizeof *large; k++) {
            REFUSED(THREE, good[i], ROOM_MOST, large[k], SNATCHBLOCK_BAD_SHEET);
            REFUSED(THREE, good[i], 22, large[k], SNATCHBLOCK_BAD_SHEET);
        }
        for (size_t room_length = 0; room_length <= ROOM_MOST; room_length++)
            REFUSED(BYTES(0), good[i], room_length, 0, SNATCHBLOCK_BAD_SHEET);
    }
}

/* Bytes of the right length that aren't a sheet. */
static void no_sheets(void)
{
    const struct bytes bad[] = {
        BYTES(1), BYTES(5), BYTES(255), BYTES(0, 0), BYTES(1, 0x1F, 0, 5, 0), BYTES(1, 0x24, 0, 5, 0),
        BYTES(1, 0x20, 0, 4, 0), BYTES(1, 0x20, 0, 6, 0), BYTES(1, 0x20, 0, 5, 1), BYTES(1, 0x20, 1, 5, 0),
        BYTES(1, 0x20, 0, 5, 0, 'x'), BYTES(2, 0x20, 0, 9, 0, 0x20, 0, 9, 0), BYTES(2, 0x21, 0, 9, 0, 0x20, 0, 9, 0),
        BYTES(2, 0x20, 1, 9, 0, 0x21, 1, 9, 0, 'x', 'y'), BYTES(2, 0x20, 1, 10, 0, 0x21, 1, 9, 0, 'x', 'y'),
        BYTES(5, 0x20, 0, 21, 0, 0x21, 0, 21, 0, 0x22, 0, 21, 0, 0x23, 0, 21, 0, 0x24, 0, 21, 0)};
    for (size_t k = 0; k < sizeof bad / sizeof *bad; k++)
        for (unsigned i = 0; i < 2; i++) {
            CHECK(snatchblock_is_sheet(bad[k].at, bad[k].length), false);
            REFUSED(bad[k], good[i], ROOM_MOST, bad[k].length, SNATCHBLOCK_BAD_SHEET);
            REFUSED(bad[k], good[i], bad[k].length, bad[k].length, SNATCHBLOCK_BAD_SHEET);
        }
    uint8_t body_of_33[38] = {1, 0x20, 33, 5, 0};
    for (unsigned i = 0; i < 2; i++)
        REFUSED(((struct bytes){body_of_33, 38}), good[i], ROOM_MOST, 38, SNATCHBLOCK_BAD_SHEET);
}

static void wrong_tags(void)
{
    for (unsigned tag = 0; tag < 256; tag++) {
        if (tag >= 0x20 && tag <= 0x23)
            continue;
        for (unsigned i = 0; i < 2; i++) {
            struct edit e = {i == 0, (uint8_t)tag, TEXT("P7")};
            REFUSED(THREE, e, ROOM_MOST, 22, SNATCHBLOCK_BAD_TAG);
            REFUSED(THREE, e, 22, 22, SNATCHBLOCK_BAD_TAG);
            REFUSED(BYTES(0), e, 1, 1, SNATCHBLOCK_BAD_TAG);
        }
    }
}

/* Lengths whose low bits are those of a body that fits, too. */
static void long_bodies(void)
{
    static uint8_t bytes[(1 << 24) + 32];
    static const size_t lengths[] = {33, 34, 64, 128, 255, 256, 258, 288, 65535, 65536, 65538, 1 << 24, (1 << 24) + 32};
    for (uint8_t tag = 0x20; tag <= 0x23; tag++)
        for (size_t k = 0; k < sizeof lengths / sizeof *lengths; k++) {
            struct edit e = {true, tag, {bytes, lengths[k]}};
            REFUSED(THREE, e, ROOM_MOST, 22, SNATCHBLOCK_LONG_BODY);
            REFUSED(THREE, e, 22, 22, SNATCHBLOCK_LONG_BODY);
            REFUSED(((struct bytes){longest, MOST}), e, MOST, MOST, SNATCHBLOCK_LONG_BODY);
        }
}

/* About the border, each body behind THREE's first: 26 bytes and its own. */
static void border(void)
{
    for (size_t size = 0; size <= 32; size++) {
        struct edit e = {true, 0x21, {(const uint8_t *)LONGEST, size}};
        REFUSED(THREE, e, 26 + size - 1, 22, SNATCHBLOCK_LONG_SHEET);
        for (size_t more = 0; more <= 2; more++) {
            put(THREE);
            CHECK(call(e, 26 + size + more, 22), PACKED(SNATCHBLOCK_SERVED, 26 + size));
            CHECK(memcmp(room + 20, LONGEST "LiPoxy", size), 0);
            CHECK(memcmp(room + 20 + size, "LiPoxy", 6), 0);
            CHECK(room[26 + size], MARK);
        }
    }
}

/* Every set of faults at once: the first of 9, 18, 19, 20 among them is the answer. */
static void order_of_refusals(void)
{
    static const unsigned answers[4] = {SNATCHBLOCK_BAD_SHEET, SNATCHBLOCK_BAD_TAG, SNATCHBLOCK_LONG_BODY,
                                        SNATCHBLOCK_LONG_SHEET};
    static const size_t stated[] = {0, 1, 21, 23, 27, 28, SIZE_MAX}; /* of 22; 28 is past the room of 27 */
    for (unsigned faults = 1; faults < 16; faults++) {
        struct edit e = {true, faults & 2 ? 0x24 : 0x21, faults & 4 ? TEXT(TOO_LONG) : TEXT("P7")};
        size_t room_length = faults & 8 ? 27 : ROOM_MOST; /* the shorter body needs 28 */
        unsigned first = 0;
        while ((faults >> first & 1) == 0)
            first++;
        if (first > 0)
            REFUSED(THREE, e, room_length, 22, answers[first]);
        for (size_t k = 0; first == 0 && k < sizeof stated / sizeof *stated; k++)
            REFUSED(THREE, e, room_length, stated[k], SNATCHBLOCK_BAD_SHEET);
        struct edit less = {false, e.tag, TEXT("")};
        if (first < 2)
            REFUSED(THREE, less, room_length, first == 0 ? 21 : 22, answers[first]);
    }
}

/* The same in rooms with no place for a sheet, or for a row. */
static void smallest_rooms(void)
{
    for (size_t room_length = 0; room_length < 5; room_length++) {
        REFUSED(BYTES(5), ((struct edit){true, 0x24, TEXT(TOO_LONG)}), room_length, 1, SNATCHBLOCK_BAD_SHEET);
        REFUSED(BYTES(0), ((struct edit){true, 0x24, TEXT(TOO_LONG)}), room_length, 1,
                room_length == 0 ? SNATCHBLOCK_BAD_SHEET : SNATCHBLOCK_BAD_TAG);
        REFUSED(BYTES(0), ((struct edit){true, 0x20, TEXT(TOO_LONG)}), room_length, 1,
                room_length == 0 ? SNATCHBLOCK_BAD_SHEET : SNATCHBLOCK_LONG_BODY);
        REFUSED(BYTES(0), ((struct edit){true, 0x20, TEXT("")}), room_length, 1,
                room_length == 0 ? SNATCHBLOCK_BAD_SHEET : SNATCHBLOCK_LONG_SHEET);
    }
}

/* ---- at every address */

static void addresses(void)
{
    const struct bytes four = BYTES(4, 0x20, 3, 17, 0, 0x21, 2, 20, 0, 0x22, 4, 22, 0, 0x23, 2, 26, 0,
                                    'O', 'a', 'k', 'P', '7', 'L', 'i', 'P', 'o', 'x', 'y');
    static uint8_t body[8 + 2];
    for (size_t shift = 0; shift < 8; shift++) {
        memcpy(body + shift, "P7", 2);
        new_room();
        memcpy(room + shift, THREE.at, 22);
        CHECK(snatchblock_set_body(room + shift, 28, 22, 0x21, body + shift, 2), PACKED(0, 28));
        CHECK(memcmp(room + shift, four.at, 28), 0);
        CHECK(snatchblock_remove_body(room + shift, 28, 28, 0x21), PACKED(0, 22));
        CHECK(memcmp(room + shift, THREE.at, 22), 0);
        for (size_t i = 22; i < 28; i++)
            CHECK(room[shift + i], 0);
        CHECK(room[shift + 28] == MARK && (shift == 0 ? memory[GUARD - 1] : room[shift - 1]) == MARK, true);
    }
}

/* ---- a pack renamed on the bus */

static uint8_t area[SNATCHBLOCK_AREA], reply[SNATCHBLOCK_REPLY_ROOM];
static const uint8_t factory[] = {2, 0x20, 4, 9, 0, 0x21, 2, 13, 0, 'M', 'i', 'l', 'l', 'B', '2'};

/* A block read with the room's front as the service sheet. */
static uint32_t read_block(uint8_t command, size_t service_length)
{
    const uint8_t ask[3] = {0x16, command, 0x17};
    memset(reply, MARK, sizeof reply);
    return snatchblock_transact(area, sizeof area, room, service_length, factory, sizeof factory, true, ask, 3, reply,
                                sizeof reply);
}

/* The name that a command shows: count, bytes, PEC, which a host takes for right. */
static void shows_at(int line, uint8_t command, struct bytes wanted)
{
    uint8_t exchange[3 + SNATCHBLOCK_REPLY_ROOM] = {0x16, command, 0x17};
    check_at(line, "reply", read_block(command, length_now), PACKED(SNATCHBLOCK_SERVED, wanted.length));
    check_at(line, "its bytes", (unsigned)memcmp(reply, wanted.at, wanted.length), 0);
    memcpy(exchange + 3, reply, wanted.length);
    check_at(line, "PEC", snatchblock_check_right(snatchblock_exchange_check(exchange, 3 + wanted.length)), true);
}
#define SHOWS(command, ...) shows_at(__LINE__, command, BYTES(__VA_ARGS__))

static void rename_to(uint8_t tag, struct bytes name)
{
    uint32_t result = snatchblock_set_body(room, 64, length_now, tag, name.at, name.length);
    CHECK(snatchblock_answer_of(result), SNATCHBLOCK_SERVED);
    length_now = snatchblock_length_of(result);
}

static void renames(void)
{
    CHECK(snatchblock_set_up(area, sizeof area, 4000, 4000, 2000, 14800, 2, 7, 0x526F, 17, 2000, 16800, 3182, 11000,
                             false, 14800, 0, 2981, 0), 0);
    put(BYTES(0));
    length_now = 1;
    SHOWS(0x20, 0x04, 0x4D, 0x69, 0x6C, 0x6C, 0xA2); /* the factory's */
    rename_to(0x20, TEXT("Oak"));
    SHOWS(0x20, 0x03, 0x4F, 0x61, 0x6B, 0x32);
    SHOWS(0x21, 0x02, 0x42, 0x32, 0x52);
    rename_to(0x21, TEXT("P7"));
    rename_to(0x20, TEXT("Oakwood"));
    SHOWS(0x20, 0x07, 0x4F, 0x61, 0x6B, 0x77, 0x6F, 0x6F, 0x64, 0x16);
    SHOWS(0x21, 0x02, 0x50, 0x37, 0x34);
    rename_to(0x20, TEXT(LONGEST));
    SHOWS(0x20, 0x20, 'a', 'b', 'c', 'd', 'e', 'f', 'g', 'h', 'i', 'j', 'k', 'l', 'm', 'n', 'o', 'p', 'q', 'r', 's',
          't', 'u', 'v', 'w', 'x', 'y', 'z', 'A', 'B', 'C', 'D', 'E', 'F', 0xA5);
    rename_to(0x20, TEXT(""));
    SHOWS(0x20, 0x00, 0x6C);
    SHOWS(0x21, 0x02, 0x50, 0x37, 0x34);
    rename_to(0x20, TEXT("Oak"));
    uint32_t result = snatchblock_remove_body(room, 64, length_now, 0x20);
    CHECK(result, PACKED(SNATCHBLOCK_SERVED, 7));
    CHECK(read_block(0x20, length_now), SNATCHBLOCK_BAD_SHEET); /* with the length of before */
    length_now = snatchblock_length_of(result);
    SHOWS(0x20, 0x04, 0x4D, 0x69, 0x6C, 0x6C, 0xA2);
    SHOWS(0x21, 0x02, 0x50, 0x37, 0x34);
    CHECK(snatchblock_remove_body(room, 64, 7, 0x21), PACKED(SNATCHBLOCK_SERVED, 1));
    length_now = 1;
    SHOWS(0x21, 0x02, 0x42, 0x32, 0x52);
}

int main(void)
{
    CHECK(SNATCHBLOCK_BAD_TAG, 18);
    CHECK(SNATCHBLOCK_LONG_BODY, 19);
    CHECK(SNATCHBLOCK_LONG_SHEET, 20);
    first_bodies();
    added();
    made_longer();
    made_shorter();
    as_long();
    removed();
    longest_sheet();
    room_reused();
    orders();
    small_sheets();
    wrong_lengths();
    no_sheets();
    wrong_tags();
    long_bodies();
    border();
    order_of_refusals();
    smallest_rooms();
    addresses();
    renames();
    return checked("edit");
}
