/* Monday's figures over a table of packs on the shelf. */
#include "snatchblock2.h"

/* Whether a row has a full or a design of 0, or more remaining than full (rule: R-1, 17). */
static bool any_bad(const struct sb2_shelf_row *rows, size_t count)
{
    for (size_t i = 0; i < count; i++)
        if (rows[i].full == 0 || rows[i].design == 0 || rows[i].remaining > rows[i].full)
            return true;
    return false;
}

/* Whether remaining ÷ full of one row is at most that of another, neither full being 0. */
static bool at_most(const struct sb2_shelf_row *one, const struct sb2_shelf_row *other)
{
    return (uint64_t)one->remaining * other->full <= (uint64_t)other->remaining * one->full;
}

/* Whether a row's remaining ÷ full is at most that of every row. */
static bool at_most_all(const struct sb2_shelf_row *row, const struct sb2_shelf_row *rows, size_t count)
{
    for (size_t i = 0; i < count; i++)
        if (!at_most(row, &rows[i]))
            return false;
    return true;
}

/* The first row that is at most every row; of no rows none (rule: R-1). */
static void find_lowest(const struct sb2_shelf_row *rows, size_t count, struct sb2_shelf *figures)
{
    size_t place = 0;
    while (place < count && !at_most_all(&rows[place], rows, count))
        place++;
    if (place == count)
        return;
    figures->is_lowest = true;
    figures->lowest_remaining = rows[place].remaining;
    figures->lowest_full = rows[place].full;
    figures->lowest_place = place;
}

/* Both totals, and the rows below one fifth (rule: R-1). */
static void add_up(const struct sb2_shelf_row *rows, size_t count, struct sb2_shelf *figures)
{
    static const struct sb2_shelf_row one_fifth = {1, 5, 5, 0};
    for (size_t i = 0; i < count; i++) {
        figures->remaining += rows[i].remaining;
        figures->full += rows[i].full;
        figures->low += !at_most(&one_fifth, &rows[i]);
    }
}

/* 16, then 17, no figures with either (rule: R-1). */
int sb2_shelf_report(const struct sb2_shelf_row *rows, size_t count, struct sb2_shelf *figures)
{
    struct sb2_shelf none = {0};
    *figures = none;
    if (count > SB2_SHELF_MOST)
        return SB2_TOO_MANY_ROWS;
    if (any_bad(rows, count))
        return SB2_BAD_ROW;
    figures->packs = count;
    add_up(rows, count, figures);
    find_lowest(rows, count, figures);
    return SB2_SERVED;
}

/* The word at a place, low byte first, and the place behind it. */
static uint16_t word(const uint8_t **at)
{
    uint16_t value = (uint16_t)((*at)[0] | (*at)[1] << 8);
    *at += 2;
    return value;
}

/* The rows, as many as are served and no more. */
static void load_rows(struct sb2_bytes table, struct sb2_shelf_row rows[SB2_SHELF_MOST])
{
    const uint8_t *at = table.at;
    for (size_t i = 0; i < SB2_SHELF_MOST && i < table.length / SB2_SHELF_ROW; i++) {
        rows[i].remaining = word(&at);
        rows[i].full = word(&at);
        rows[i].design = word(&at);
        rows[i].cycles = word(&at);
    }
}

/* Puts a number, low byte first. */
static void put(uint8_t **at, size_t bytes, uint64_t value)
{
    for (size_t i = 0; i < bytes; i++)
        *(*at)++ = (uint8_t)(value >> 8 * i & 0xFF);
}

static void put_figures(const struct sb2_shelf *figures, uint8_t *at)
{
    put(&at, 1, figures->packs);
    put(&at, 4, figures->remaining);
    put(&at, 4, figures->full);
    put(&at, 1, figures->is_lowest);
    put(&at, 2, figures->lowest_remaining);
    put(&at, 2, figures->lowest_full);
    put(&at, 1, figures->lowest_place);
    put(&at, 1, figures->low);
}

/* 2, then 4, then what the rows give (include/snatchblock.h; rule: R-1). */
int sb2_shelf_report_bytes(struct sb2_bytes table, uint8_t *room, size_t room_length, size_t *length)
{
    struct sb2_shelf_row rows[SB2_SHELF_MOST];
    struct sb2_shelf figures;
    *length = 0;
    if (room_length < SB2_SHELF_ROOM)
        return SB2_SMALL_ROOM;
    if (table.length % SB2_SHELF_ROW != 0)
        return SB2_WRONG_FORM;
    load_rows(table, rows);
    int answer = sb2_shelf_report(rows, table.length / SB2_SHELF_ROW, &figures);
    if (answer != SB2_SERVED)
        return answer;
    put_figures(&figures, room);
    *length = SB2_SHELF_ROOM;
    return answer;
}
