/* Plays a bus capture from standard input against the pack that document 01 fixes for it: player
 * Or against a thirteen-cell pack: player thirteen */
#include "snatchblock2.h"

#include <stdio.h>
#include <string.h>

/* One of the two packs. */
struct played {
    bool thirteen;
    struct sb2_state pack;
    struct sb2_thirteen cells;
};

/* Prints an answer number and, if there is one, the reply in hex (rule: Worked examples, the player). */
static void print_line(int answer, struct sb2_bytes reply)
{
    printf("%d", answer);
    if (reply.length > 0)
        putchar(' ');
    for (size_t i = 0; i < reply.length; i++)
        printf("%02x", (unsigned)reply.at[i]);
    putchar('\n');
}

/* Document 01's pack: half of 4,000 mAh at 14,800 mV. */
static void set_up_pack(struct sb2_state *pack)
{
    const struct sb2_set_up in = {.design_capacity = 4000,
                                  .full_capacity = 4000,
                                  .remaining_capacity = 2000,
                                  .design_voltage = 14800,
                                  .first = {.voltage = 14800}};
    (void)sb2_set_up(pack, &in);
}

/* Half of 9,700 mAh, discharging; the cells' 3,701 to 3,713 mV are its 48,191. */
static void set_up_thirteen(struct sb2_thirteen *pack)
{
    struct sb2_thirteen_set_up in = {.design_capacity = 10000,
                                     .full_capacity = 9700,
                                     .remaining_capacity = 4850,
                                     .design_voltage = 46800,
                                     .state_of_health = 97,
                                     .first = {48191, -1234, 2982, 0}};
    for (uint16_t i = 0; i < SB2_CELLS; i++)
        in.cells[i] = (uint16_t)(3701 + i);
    (void)sb2_thirteen_set_up(pack, &in);
}

/* Plays a row and prints its line (rule: Worked examples, the player). */
static void play_row(struct played *to, bool read, struct sb2_bytes message)
{
    static const uint8_t no_names[1] = {0};
    const struct sb2_bytes sheet = {no_names, 1};
    uint8_t room[SB2_REPLY_ROOM];
    struct sb2_bytes reply = {room, 0};
    int answer = to->thirteen
                     ? sb2_thirteen_transact(&to->cells, read, message, room, sizeof room, &reply.length)
                     : sb2_transact(&to->pack, read, message, sheet, sheet, room, sizeof room, &reply.length);
    print_line(answer, reply);
}

/* A line for each row, or 14 alone for a bad capture (rule: Worked examples, the player). */
static void play(struct played *to, struct sb2_bytes capture)
{
    struct sb2_walk walk;
    struct sb2_row row;
    const struct sb2_bytes none = {NULL, 0};
    int answer = capture.length > SB2_CAPTURE_MOST ? SB2_NOT_A_CAPTURE : sb2_walk_begin(capture, &walk);
    if (answer != SB2_SERVED) {
        print_line(answer, none);
        return;
    }
    while (sb2_walk_next(&walk, &row)) {
        const struct sb2_bytes message = {capture.at + row.body.offset, row.body.length};
        play_row(to, row.read, message);
    }
}

int main(int count, char **given)
{
    static uint8_t input[SB2_CAPTURE_MOST + 1];
    static struct played to;
    to.thirteen = count == 2 && strcmp(given[1], "thirteen") == 0;
    if (count > 1 && !to.thirteen) {
        fputs("player: it takes no argument but thirteen\n", stderr);
        return 1;
    }
    set_up_pack(&to.pack);
    set_up_thirteen(&to.cells);
    struct sb2_bytes capture = {input, fread(input, 1, sizeof input, stdin)};
    if (ferror(stdin)) {
        fputs("player: standard input can't be read\n", stderr);
        return 1;
    }
    play(&to, capture);
    return fflush(stdout) == 0 ? 0 : 1;
}
