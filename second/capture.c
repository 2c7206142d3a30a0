/* Bus captures: a count of rows, their marks and lengths, then the bodies. */
#include "snatchblock2.h"

/* 14 unless n rows of mark 0 or 1 and length up to 37 are followed by just their bodies (rule: Pack sheet and capture). */
int sb2_capture_test(struct sb2_bytes capture)
{
    if (capture.length == 0)
        return SB2_NOT_A_CAPTURE;
    size_t rows = capture.at[0];
    size_t end = 1 + 2 * rows;
    if (capture.length < end)
        return SB2_NOT_A_CAPTURE;
    for (size_t i = 0; i < rows; i++) {
        uint8_t mark = capture.at[1 + 2 * i];
        uint8_t length = capture.at[2 + 2 * i];
        if (mark > 1 || length > SB2_MESSAGE_MOST)
            return SB2_NOT_A_CAPTURE;
        end += length;
    }
    return end == capture.length ? SB2_SERVED : SB2_NOT_A_CAPTURE;
}

/* A walk at row 0 and the first body, or 14 and a walk without rows (rule: Pack sheet and capture). */
int sb2_walk_begin(struct sb2_bytes capture, struct sb2_walk *walk)
{
    struct sb2_walk none = {{NULL, 0}, 0, 0};
    *walk = none;
    int answer = sb2_capture_test(capture);
    if (answer != SB2_SERVED)
        return answer;
    walk->capture = capture;
    walk->place = 1 + 2 * (size_t)capture.at[0];
    return SB2_SERVED;
}

/* 14 where the walk's place, the table's end, the bytes' length or the walk's row shows that they are no capture; no other
 * row is looked at (rule: Pack sheet and capture; docs/DECISIONS.md, 17). */
int sb2_walk_test(const struct sb2_walk *walk)
{
    struct sb2_bytes capture = walk->capture;
    if (walk->place == 0 || capture.length == 0 || capture.length > SB2_CAPTURE_MOST)
        return SB2_NOT_A_CAPTURE;
    size_t rows = capture.at[0];
    if (capture.length < 1 + 2 * rows)
        return SB2_NOT_A_CAPTURE;
    if (walk->row >= rows)
        return SB2_SERVED;
    const uint8_t *head = capture.at + 1 + 2 * walk->row;
    return head[0] > 1 || head[1] > SB2_MESSAGE_MOST ? SB2_NOT_A_CAPTURE : SB2_SERVED;
}

/* Shows the row at the walk's place, which is past the table, and steps behind it (rule: Pack sheet and capture). */
bool sb2_walk_next(struct sb2_walk *walk, struct sb2_row *row)
{
    struct sb2_row none = {false, {0, 0}};
    *row = none;
    if (sb2_walk_test(walk) != SB2_SERVED || walk->row >= walk->capture.at[0])
        return false;
    size_t table_end = 1 + 2 * (size_t)walk->capture.at[0];
    const uint8_t *head = walk->capture.at + 1 + 2 * walk->row;
    if (walk->place < table_end || walk->place > walk->capture.length || walk->capture.length - walk->place < head[1])
        return false;
    row->read = head[0] == 1;
    row->body.offset = walk->place;
    row->body.length = head[1];
    walk->row += 1;
    walk->place += head[1];
    return true;
}
