/* Compares the proved static library with the second program on seeded random work:
 *   compare [SEED [CALLS]]
 * Both get the same bytes, each in memory of its own. Compared are the packed results, and the areas and
 * rooms whole, with guard bytes on both sides; then all that document 01 lets stay, guard bytes, the room of a
 * refused call, a room behind what was written, with what stood there before. Bytes that are lent for reading
 * end at a page that can't be read. Status 0 only if nothing differs and, from LEAST calls on, every class came up. */
#define _DEFAULT_SOURCE
#include "given.h"
#include "proved.h"
#include "tally.h"

#include <unistd.h>

enum { LEAST = 1000000, USUAL = 2000000 };
enum { VERSION_1 = 186, VERSION_2 = 312, VERSION_3 = 329 }; /* the bytes of an area in the versions before */

static uint64_t seed, calls, wanted_calls;

static struct both area, room;

static void lend_room(size_t length)
{
    lend_blank(&room, length);
}

static void lend_area(const uint8_t *content, size_t length)
{
    lend_with(&area, content, length);
}

/* ---- the call under way, for a report */

/* The last but one has no error code to leave, the last has nothing else. */
enum area_use { NO_AREA, READS_AREA, WRITES_AREA, WRITES_SERVED, WRITES_CODE };

static struct {
    const char *entry;
    size_t slices;
    enum area_use area;
    bool with_room;
    size_t held; /* the front of the room that a served call may clear: the sheet that an edit finds */
    size_t numbers;
    uint64_t number[20];
} call;

static _Noreturn void end_run(void);

/* Begins a call, or ends the run after the last of the calls wanted. */
static void begin(const char *entry, size_t slices, enum area_use area_use, bool with_room)
{
    if (calls == wanted_calls)
        end_run();
    call.entry = entry;
    call.slices = slices;
    call.area = area_use;
    call.with_room = with_room;
    call.held = 0;
    call.numbers = 0;
    calls++;
}

static void note(uint64_t number)
{
    call.number[call.numbers++] = number;
}

static void report(void)
{
    printf("seed %llu: the first %llu calls show it, no shorter prefix does (compare %llu %llu)\n",
           (unsigned long long)seed, (unsigned long long)calls, (unsigned long long)seed, (unsigned long long)calls);
    printf("  the last call alone shows it too: %s, numbers", call.entry);
    for (size_t i = 0; i < call.numbers; i++)
        printf(" %llu", (unsigned long long)call.number[i]);
    printf("\n");
    for (size_t i = 0; i < call.slices; i++)
        show("slice", lent[i].copy, lent[i].bytes.length);
    if (call.area) {
        show("area before", area.before + (area.s - area.second), area.length);
        show("area, proved", area.p, area.length);
        show("area, second", area.s, area.length);
    }
    if (call.with_room) {
        show("room before", room.before + (room.s - room.second), room.length);
        show("room, proved", room.p, room.length);
        show("room, second", room.s, room.length);
    }
}

static void stopped(int number)
{
    printf("DIFFERENCE: signal %d in %s\n", number, call.entry);
    report();
    fflush(stdout);
    _exit(1);
}

/* The bytes of the area that document 01 lets an answer change: past 3 the error code alone, of 10 too, for a read; the
 * charger has none, and no transaction of the thirteen-cell pack changes more. */
static size_t area_may_change(unsigned answer)
{
    if (call.area < WRITES_AREA)
        return 0;
    if (answer == SB2_SERVED)
        return call.area == WRITES_CODE ? 1 : area.length;
    return call.area != WRITES_SERVED && answer > SB2_NOT_FOR_PACK && answer <= SB2_OVERFLOW;
}

/* Every entry with a room answers in the low byte and has the bytes written above it, none where it refused. An edit
 * may clear what it held before. */
static size_t room_may_change(uint64_t result)
{
    unsigned answer = result & 0xFF;
    size_t length = answer == SB2_SERVED || answer == SB2_OVERFLOW ? (size_t)(result >> 8) : 0;
    return answer == SB2_SERVED && length < call.held ? call.held : length;
}

/* Compares all that a call gives and leaves. */
static void compare(uint64_t proved, uint64_t second)
{
    const char *what = NULL;
    if (proved != second)
        what = "result";
    else if (call.area && memcmp(area.proved, area.second, sizeof area.second) != 0)
        what = "area";
    else if (call.with_room && memcmp(room.proved, room.second, sizeof room.second) != 0)
        what = "room";
    else if (call.area && !stays_behind(&area, area_may_change(proved & 0xFF)))
        what = "area where it stays";
    else if (call.with_room && !stays_behind(&room, room_may_change(proved)))
        what = "room where it stays";
    if (!lent_stay(call.slices))
        what = "bytes lent for reading";
    if (what == NULL)
        return;
    printf("DIFFERENCE: %s of %s: proved %llx, second %llx\n", what, call.entry, (unsigned long long)proved,
           (unsigned long long)second);
    report();
    exit(1);
}

/* What the rules ask of both programs, where they agree. */
static void expect(bool holds, const char *what)
{
    if (holds)
        return;
    printf("DIFFERENCE: both from the rules: %s of %s\n", what, call.entry);
    report();
    exit(1);
}

/* ---- classes */

enum { ANSWERS = 21 };
enum entry {
    SET_UP, SOUND, SAMPLE, TRANSACT, PEC, EXCHANGE, BITS, WRITE_KEY, READ_KEY, UNESCAPE, WRITE_SHEET, IS_SHEET, BLOCK,
    SET_BODY, REMOVE_BODY, OPEN, STEP, SHELF, SHELF_FROM, CHARGER_SET_UP, CHARGER_SOUND, CHARGER_SAMPLE,
    CHARGER_TRANSACT, CHARGER_CURRENT, THIRTEEN_SET_UP, THIRTEEN_SOUND, THIRTEEN_SAMPLE, THIRTEEN_TRANSACT, ENTRIES
};
static const struct {
    const char *name;
    uint32_t answers; /* a bit for each number that the entry can give; 0 and 1 are false and true for a test */
} entries[ENTRIES] = {
    [SET_UP] = {"set_up", 1u << 0 | 1u << 1 | 1u << 11},
    [SOUND] = {"sound (0 false, 1 true)", 3},
    [SAMPLE] = {"sample", 7},
    [TRANSACT] = {"transact", 0x7FF},
    [PEC] = {"pec", 1},
    [EXCHANGE] = {"exchange_check", 1u << 0 | 1u << 15},
    [BITS] = {"bit_comparison", 1u << 0 | 1u << 15},
    [WRITE_KEY] = {"write_key", 1u << 0 | 1u << 12},
    [READ_KEY] = {"read_key", 1u << 0 | 1u << 13},
    [UNESCAPE] = {"unescape", 1u << 0 | 1u << 12 | 1u << 13},
    [WRITE_SHEET] = {"write_sheet", 1u << 0 | 1u << 12},
    [IS_SHEET] = {"is_sheet (0 false, 1 true)", 3},
    [BLOCK] = {"block", 1u << 0 | 1u << 9},
    [SET_BODY] = {"set_body", 1u << 0 | 1u << 9 | 1u << 18 | 1u << 19 | 1u << 20},
    [REMOVE_BODY] = {"remove_body", 1u << 0 | 1u << 9 | 1u << 18},
    [OPEN] = {"open_capture", 1u << 0 | 1u << 14},
    [STEP] = {"step_capture", 1u << 0 | 1u << 14},
    [SHELF] = {"shelf_report", 1u << 0 | 1u << 2 | 1u << 4 | 1u << 16 | 1u << 17},
    [SHELF_FROM] = {"shelf_report_from", 1u << 0 | 1u << 16 | 1u << 17},
    [CHARGER_SET_UP] = {"charger_set_up", 3},
    [CHARGER_SOUND] = {"charger_sound (0 false, 1 true)", 3},
    [CHARGER_SAMPLE] = {"charger_sample", 3},
    [CHARGER_TRANSACT] = {"charger_transact", 0x17F},
    [CHARGER_CURRENT] = {"charger_current", 3},
    [THIRTEEN_SET_UP] = {"thirteen_set_up", 1u << 0 | 1u << 1 | 1u << 11},
    [THIRTEEN_SOUND] = {"thirteen_sound (0 false, 1 true)", 3},
    [THIRTEEN_SAMPLE] = {"thirteen_sample", 3},
    [THIRTEEN_TRANSACT] = {"thirteen_transact", 0x5FF},
};
static uint64_t came[ENTRIES][ANSWERS];

/* Of the thirteen-cell pack: the borders of its status, the ways in which its area is bent, and the first that bends a
 * total. */
enum { T_EDGES = 11, T_BEND_TOTALS = 24, T_BENDS = T_BEND_TOTALS + 8 };

/* Classes beside the answers. Those of a mode stand twice, in mAh and in power mode. */
enum other {
    READ_SERVED, WRITE_SERVED = READ_SERVED + 2 * 64, TIME_IN_MAH = WRITE_SERVED + 2 * 5, TIME_IN_POWER = TIME_IN_MAH + 15,
    FULL_IN_POWER = TIME_IN_POWER + 12, BORDER_IN_MAH = FULL_IN_POWER + 3, BORDER_IN_POWER = BORDER_IN_MAH + 5 * 4,
    RATE_TO_0 = BORDER_IN_POWER + 4 * 4, TIME_ALARM = RATE_TO_0 + 3 * 3, CODE_5 = TIME_ALARM + 3 * 3,
    AT_RATE_OK = CODE_5 + 2 * 5, STATUS_SET = AT_RATE_OK + 4, STATUS_CLEAR = STATUS_SET + 16,
    BIT_4_WAS_CLEAR = STATUS_CLEAR + 16, BIT_4_WAS_SET = BIT_4_WAS_CLEAR + 3, MESSAGES = BIT_4_WAS_SET + 3,
    ALARM_BIT = MESSAGES + 2 * 5, COUNTER_WRAPPED = ALARM_BIT + 16, HOLD_RAN_OUT, EXCHANGE_RIGHT, EXCHANGE_WRONG,
    BLOCK_SERVICE, BLOCK_FACTORY, BLOCK_NEITHER, STEP_ROW, STEP_ROW_OF_OTHERS, STEP_PAST_LAST,
    STEP_IN_TABLE, STEP_PAST_END, STEP_AT_0, STEP_CUT_TABLE, STEP_TOO_LONG, STEP_MISFIT, SHELF_OF,
    SHELF_OF_MORE = SHELF_OF + 65, SHELF_LOWEST = SHELF_OF_MORE + 3, SHELF_TIE = SHELF_LOWEST + 64,
    SHELF_NEAR = SHELF_TIE + 2, SHELF_FIFTH = SHELF_NEAR + 3, SHELF_EDGE = SHELF_FIFTH + 5,
    SHELF_BAD_ROW = SHELF_EDGE + 4, SHELF_BAD_TWICE = SHELF_BAD_ROW + 3 * 64, SHELF_RAGGED = SHELF_BAD_TWICE + 2,
    SHELF_ROOM = SHELF_RAGGED + 7, SHELF_ORDER = SHELF_ROOM + 21, RUN_OF = SHELF_ORDER + 6, RUN_LONG = RUN_OF + 7,
    SECONDS_DONE, SECONDS_KEPT = SECONDS_DONE + 9, WRAP_IN_SECOND = SECONDS_KEPT + 61, MEAN_OF,
    MINUTE_COUNT = MEAN_OF + 8, MINUTE_MS = MINUTE_COUNT + 6, MINUTE_BEGUN = MINUTE_MS + 5,
    MINUTE_UNDER = MINUTE_BEGUN + 5, MINUTE_OVER = MINUTE_UNDER + 5 * 60, AREA_OF_OLD = MINUTE_OVER + 5 * 60,
    PARTS_OF = AREA_OF_OLD + 3 * 3, CARRIES = PARTS_OF + 5 * 5, CYCLES_OF = CARRIES + 4, CYCLES_END = CYCLES_OF + 4,
    TOWARD_OF = CYCLES_END + 4, DRAWN_EMPTY = TOWARD_OF + 3, RUN_OPENS = DRAWN_EMPTY + 2, RUN_STAYS = RUN_OPENS + 5,
    RUN_HELD = RUN_STAYS + 4, RUN_ENDS = RUN_HELD + 3, RUN_NONE = RUN_ENDS + 2, CLOSED_AFTER = RUN_NONE + 2,
    CLOSED_WITH = CLOSED_AFTER + 4, LEARNED = CLOSED_WITH + 5, LEARNED_BY_DESIGN = LEARNED + 5,
    ABSOLUTE = LEARNED_BY_DESIGN + 3, RELATIVE = ABSOLUTE + 3, ABOUT_PERCENT = RELATIVE + 101,
    ABOUT_FULL = ABOUT_PERCENT + 3, TANK_TOWARD = ABOUT_FULL + 3, TANK_OPEN = TANK_TOWARD + 4,
    TANK_CLOSED = TANK_OPEN + 4, TANK_FLAG = TANK_CLOSED + 4, SET_UP_OF = TANK_FLAG + 8, ROOM_OF = SET_UP_OF + 4,
    BEFORE_2 = ROOM_OF + 2 * 22, ONE_ROOM = BEFORE_2 + 3, DUE_REFUSED = ONE_ROOM + 7, DUE_SERVED = DUE_REFUSED + 5,
    PLAIN_FLAG = DUE_SERVED + 5, ALTERED = PLAIN_FLAG + 4, C_READ = ALTERED + 4, C_WRITE = C_READ + 2,
    C_STATUS_SET = C_WRITE + 2 * 4, C_STATUS_CLEAR = C_STATUS_SET + 16, C_FLOWS = C_STATUS_CLEAR + 16, C_ZERO,
    C_MODE_SET = C_ZERO + 8, C_MODE_CLEAR = C_MODE_SET + 16, C_RESET = C_MODE_CLEAR + 16, C_POWER_ON = C_RESET + 2 * 4,
    C_ALARM_BIT = C_POWER_ON + 4, C_ALARM_NONE = C_ALARM_BIT + 16, C_ALARM_AT, C_REQUEST = C_ALARM_AT + 3 * 4,
    C_BACK = C_REQUEST + 2 * 4, C_AGAIN = C_BACK + 2, C_GAP = C_AGAIN + 2, C_COUNT_TO = C_GAP + 9,
    C_COUNT = C_COUNT_TO + 4, C_FLAG = C_COUNT + 5, C_LENGTH = C_FLAG + 5 * 4, C_ROOM = C_LENGTH + 5 * 5,
    C_COMMAND = C_ROOM + 2 * 5, C_ADDRESS = C_COMMAND + 2 * 256, C_FORM = C_ADDRESS + 5, C_BOTH = C_FORM + 3,
    C_ALTERED = C_BOTH + 21, C_DELIVERED = C_ALTERED + 4, C_STOPPED = C_DELIVERED + 2 * 4, C_STARTED = C_STOPPED + 2,
    E_SET, E_REMOVED = E_SET + 5 * 4, E_ABSENT = E_REMOVED + 4, E_TAGS, E_BY = E_TAGS + 2 * 16 * 4, E_BODY = E_BY + 73,
    E_LONG = E_BODY + 33, E_TAG = E_LONG + 3, E_FULL = E_TAG + 2 * 3, E_OVER = E_FULL + 141, E_SERVED = E_OVER + 141,
    E_REFUSED = E_SERVED + 161, E_STATED = E_REFUSED + 161, E_CUT = E_STATED + 2 * 6, E_BENT = E_CUT + 2,
    E_ORDER = E_BENT + 2, T_READ = E_ORDER + 6, T_COMMAND = T_READ + 22, T_WRITE = T_COMMAND + 256,
    T_FOUR = T_WRITE + 256, T_WRONG = T_FOUR + 256, T_STATUS_SET = T_WRONG + 256, T_STATUS_CLEAR = T_STATUS_SET + 16,
    T_EDGE = T_STATUS_CLEAR + 16, T_DEGREES = T_EDGE + 3 * T_EDGES, T_CURRENT = T_DEGREES + 18,
    T_VOLTAGE = T_CURRENT + 7, T_CELL = T_VOLTAGE + 4, T_TIME = T_CELL + 13, T_TIME_BORDER = T_TIME + 6,
    T_MEAN = T_TIME_BORDER + 8, T_PERCENT = T_MEAN + 2, T_STAYS = T_PERCENT + 4, T_SET_UP = T_STAYS + 3,
    T_CHARGE = T_SET_UP + 7, T_BIT_4 = T_CHARGE + 5, T_DONE = T_BIT_4 + 6, T_KEPT = T_DONE + 7, T_GAP = T_KEPT + 3,
    T_WRAP = T_GAP + 9, T_BENT, T_DAMAGED = T_BENT + T_BENDS, T_LENGTH = T_DAMAGED + 2, T_ROOM = T_LENGTH + 4 * 5,
    T_ADDRESS = T_ROOM + 2 * 41, T_FORM = T_ADDRESS + 4, T_BOTH = T_FORM + 3, T_ALTERED = T_BOTH + 28,
    T_EXCHANGE = T_ALTERED + 4, OTHERS = T_EXCHANGE + 5
};
static uint64_t other[OTHERS];

static void came_up(enum entry entry, uint64_t result)
{
    came[entry][result & 0xFF]++;
}

/* ---- what is played */

static uint8_t state_area[AREA_MOST]; /* the pack's area between calls */
static unsigned long since_full;      /* samples since set-up or the last one at full */
static size_t sent_bytes;             /* by the latest sample */
static int answered;                  /* to the latest message */
static uint8_t service[145], factory[145];
static size_t service_length, factory_length;

/* Mostly the right size; at times another, those of versions 1 to 3 among them. */
static const size_t old_sizes[3] = {VERSION_1, VERSION_2, VERSION_3};
static size_t area_size(void)
{
    if (!one_in(40))
        return SNATCHBLOCK_AREA;
    return one_in(2) ? old_sizes[below(3)] : below(AREA_MOST + 1);
}

/* An area of a version before came to one of the three entries that look at it. */
static void note_old(size_t length, unsigned entry)
{
    for (size_t i = 0; i < 3; i++)
        if (length == old_sizes[i])
            other[AREA_OF_OLD + 3 * i + entry]++;
}

/* Where the area keeps the minute: 60 totals, how many count, the begun second's ms and its total. */
enum { TOTALS_AT = SNATCHBLOCK_RECENT, KEPT_AT = TOTALS_AT + 4 * SB2_SECONDS, BEGUN_MS_AT = KEPT_AT + 1,
       BEGUN_AT = BEGUN_MS_AT + 2 };

/* Where it keeps the tank's fields, and the most that a run counts. */
enum { FULL_AT = SNATCHBLOCK_TANK + 8, CYCLES_AT = SNATCHBLOCK_TANK + 10, BIT_4_AT = SNATCHBLOCK_TANK + 12,
       TOWARD_AT = SNATCHBLOCK_TANK + 13, DRAWN_AT = SNATCHBLOCK_TANK + 21, OPEN_AT = SNATCHBLOCK_TANK + 29,
       LIMIT_AT = SNATCHBLOCK_SETTINGS + 16, PLAIN_AT = SNATCHBLOCK_PLAIN };
#define RUN_MOST (UINT64_C(65535) * SB2_MS_PER_HOUR)

static uint32_t number_at(size_t at, size_t bytes)
{
    uint32_t value = 0;
    for (size_t i = 0; i < bytes; i++)
        value |= (uint32_t)state_area[at + i] << 8 * i;
    return value;
}

static uint64_t wide_at(size_t at)
{
    return (uint64_t)number_at(at + 4, 4) << 32 | number_at(at, 4);
}

/* A room for broadcasts: mostly what the pack's choice asks for, else about both borders, or any. */
static size_t sample_room(void)
{
    switch (below(20)) {
    case 0: case 1: return SB2_PLAIN_ROOM - 2 + below(8);
    case 2: return below(ROOM_MOST + 1);
    case 3: return below(SB2_BROADCAST_ROOM);
    default: return state_area[PLAIN_AT] == 1 && one_in(2) ? SB2_PLAIN_ROOM : SB2_BROADCAST_ROOM;
    }
}

/* Keeps the area that both left. */
static void keep_area(void)
{
    if (area.length == SNATCHBLOCK_AREA)
        memcpy(state_area, area.s, SNATCHBLOCK_AREA);
}

static void play_given_set_up(struct sb2_set_up in, size_t length)
{
    fill(state_area, length);
    lend_area(state_area, length);
    begin("set_up", 0, WRITES_AREA, false);
    note(in.design_capacity), note(in.full_capacity), note(in.remaining_capacity), note(in.design_voltage);
    note(in.max_error), note(in.cycle_count), note(in.manufacture_date), note(in.serial_number);
    note(in.charging_current), note(in.charging_voltage), note(in.temperature_limit), note(in.discharge_limit);
    note(in.plain), note(in.first.voltage), note((uint16_t)in.first.current), note(in.first.temperature);
    note(in.first.counter);
    uint32_t proved = proved_set_up(area.p, length, &in);
    uint32_t second = (uint32_t)sb2_area_set_up(area.s, length, &in);
    compare(proved, second);
    came_up(SET_UP, second);
    since_full = 0;
    if (second != SB2_NOT_SOUND)
        other[SET_UP_OF + 2 * (second != SB2_SERVED) + in.plain]++;
    if (second == SB2_SERVED)
        other[RUN_OPENS + (in.remaining_capacity == in.full_capacity)]++;
    keep_area();
}

static void play_set_up(bool likely)
{
    struct sb2_set_up in = some_set_up(likely);
    play_given_set_up(in, likely ? SNATCHBLOCK_AREA : area_size());
}

static void play_sound(size_t length)
{
    note_old(length, 0);
    lend_area(state_area, length);
    begin("sound", 0, READS_AREA, false);
    bool proved = snatchblock_sound(area.p, length);
    bool second = sb2_area_sound(bytes_of(area.s, length));
    compare(proved, second);
    came_up(SOUND, second);
}

/* What bit 4 was before a served sample, and which of its three rules the charge after it falls under. */
static void note_bit_4(bool was_set)
{
    struct sb2_state state;
    (void)sb2_area_load(bytes_of(area.s, area.length), &state);
    uint64_t full = (uint64_t)state.tank.full_capacity * SB2_MS_PER_HOUR;
    unsigned rule = state.tank.charge == 0 ? 0 : 100 * state.tank.charge / full < 20 ? 1 : 2;
    other[(was_set ? BIT_4_WAS_SET : BIT_4_WAS_CLEAR) + rule]++;
}

/* How many messages a served sample sent, and which. */
static void note_messages(size_t length, uint32_t before, uint32_t after, bool held)
{
    bool plain = area.s[PLAIN_AT] == 1;
    other[MESSAGES + 5u * plain + length / (plain ? 4 : 5)]++;
    if (after < before)
        other[COUNTER_WRAPPED]++;
    if (held && area.s[SNATCHBLOCK_HOST + 8] == 0)
        other[HOLD_RAN_OUT]++;
    if (length >= 4 && room.s[1] == 0x16)
        for (unsigned bit = 0; bit < 16; bit++)
            if ((room.s[2] | room.s[3] << 8) & 1 << bit)
                other[ALARM_BIT + bit]++;
}

/* The room of a sample that was served or refused for it; and where the area was refused before the room was. */
static void note_room(int answer, size_t length)
{
    bool plain = state_area[PLAIN_AT] == 1;
    if (answer != SB2_NOT_SOUND && room.length <= 21)
        other[ROOM_OF + 22u * plain + room.length]++;
    if (answer != SB2_NOT_SOUND || length != SNATCHBLOCK_AREA || state_area[PLAIN_AT] > 1)
        return;
    if (room.length < SB2_PLAIN_ROOM)
        other[BEFORE_2 + 2 * plain]++;
    else if (room.length < SB2_BROADCAST_ROOM && !plain)
        other[BEFORE_2 + 1]++;
}

/* How many seconds a served sample completed, and how many are kept now. */
static void note_seconds(uint32_t elapsed, bool wrapped)
{
    uint64_t done = ((uint64_t)number_at(BEGUN_MS_AT, 2) + elapsed) / 1000;
    unsigned class = done < 2 ? (unsigned)done : done < 59 ? 2 : done < 62 ? (unsigned)done - 56 : 6;
    if (done >= 4294967)
        class = (unsigned)(done - 4294967) + 7;
    other[SECONDS_DONE + class]++;
    other[SECONDS_KEPT + area.s[KEPT_AT]]++;
    if (wrapped && done > 0 && number_at(BEGUN_MS_AT, 2) > 0)
        other[WRAP_IN_SECOND]++;
}

/* The cycles that a served sample added, and what it left toward the next. */
static void note_cycles(const struct sb2_state *was, const struct sb2_state *is, uint64_t drawn)
{
    uint64_t one = (uint64_t)was->settings.design_capacity * SB2_MS_PER_HOUR;
    uint64_t more = (was->tank.toward_cycle + drawn) / one, sum = was->tank.cycle_count + more;
    other[CYCLES_OF + (more < 2 ? more : more < 1000 ? 2 : 3)]++;
    if (was->tank.cycle_count == 65535)
        other[CYCLES_END + (more > 0 ? 2 : 3)] += drawn > 0;
    else if (sum >= 65535)
        other[CYCLES_END + (sum > 65535)]++;
    if (drawn > 0 && is->tank.toward_cycle == 0)
        other[TOWARD_OF]++;
    if (drawn > 0 && is->tank.toward_cycle == one - 1)
        other[TOWARD_OF + 1]++;
    if (more > 0 && is->tank.toward_cycle > 0)
        other[TOWARD_OF + 2]++;
    if (drawn > 0 && was->tank.charge == 0)
        other[DRAWN_EMPTY + (more > 0)]++;
}

/* A run that a served sample closed: after how many samples, with what, and what was learned. */
static void note_closed(const struct sb2_state *was, const struct sb2_state *is, uint64_t drawn, uint64_t left,
                        bool alarm)
{
    uint64_t all = was->tank.run_drawn + drawn, full = is->tank.full_capacity, design = is->settings.design_capacity;
    bool first = was->tank.charge == (uint64_t)was->tank.full_capacity * SB2_MS_PER_HOUR;
    other[CLOSED_AFTER + (first ? 0 : since_full < 10 ? 1 : since_full < 100 ? 2 : 3)]++;
    other[CLOSED_WITH + (left > 0)]++;
    if (drawn == 0)
        other[CLOSED_WITH + 2]++;
    if (left > 0 && !was->tank.fully_discharged)
        other[CLOSED_WITH + 3 + alarm]++;
    if (full == 1)
        other[LEARNED + (all < SB2_MS_PER_HOUR ? 0 : 1)]++;
    else
        other[LEARNED + (all > RUN_MOST ? 4 : all == RUN_MOST ? 3 : 2)]++;
    other[LEARNED_BY_DESIGN + (full < design ? 0 : full == design ? 1 : 2)]++;
}

/* What a served sample did to the run. Its own charge is worked out again, for a close leaves none of it. */
static void note_tank(const struct sb2_sample *sample, size_t sent)
{
    struct sb2_state was, is;
    (void)sb2_area_load(bytes_of(state_area, SNATCHBLOCK_AREA), &was);
    (void)sb2_area_load(bytes_of(area.s, SNATCHBLOCK_AREA), &is);
    uint64_t elapsed = sb2_elapsed(was.latest.counter, sample->counter);
    uint64_t full = (uint64_t)was.tank.full_capacity * SB2_MS_PER_HOUR;
    uint64_t drawn = sample->current < 0 ? (uint64_t)(-(int32_t)sample->current) * elapsed : 0;
    uint64_t put_in = sample->current > 0 ? (uint64_t)sample->current * elapsed : 0;
    uint64_t left = drawn > was.tank.charge ? 0 : was.tank.charge - drawn + put_in;
    bool at_full = left >= full, low = sample->voltage < was.settings.discharge_limit;
    bool terminate = low && sample->current < 0;
    note_cycles(&was, &is, drawn);
    since_full = at_full ? 0 : since_full + 1;
    if (at_full && was.tank.run_open)
        other[RUN_OPENS + (terminate ? 4 : was.tank.run_drawn > 0 ? 3 : 2)]++;
    if (at_full)
        return;
    if (!was.tank.run_open)
        other[RUN_NONE + terminate]++;
    else if (sample->current > 0)
        other[RUN_ENDS + (elapsed > 0)]++;
    else if (terminate)
        note_closed(&was, &is, drawn, left, sent >= 4 && room.s[1] == 0x16);
    else
        other[RUN_STAYS + (drawn > 0 ? 0 : low ? 1 : sample->current < 0 ? 2 : 3)]++;
    if (is.tank.run_open && is.tank.run_drawn == RUN_MOST && drawn > 0)
        other[RUN_HELD + (was.tank.run_drawn == RUN_MOST ? 2 : was.tank.run_drawn + drawn > RUN_MOST)]++;
}

/* Gives both the sample, and tells whether it was served. */
static bool play_given_sample(struct sb2_sample sample, size_t length, size_t room_length)
{
    uint32_t before = number_at(SNATCHBLOCK_LATEST + 6, 4);
    bool held = state_area[SNATCHBLOCK_HOST + 8] == 1;
    lend_area(state_area, length);
    lend_room(room_length);
    begin("sample", 0, WRITES_AREA, true);
    note(sample.voltage), note((uint16_t)sample.current), note(sample.temperature), note(sample.counter);
    size_t sent;
    uint32_t proved = proved_sample(area.p, length, &sample, room.p, room.length);
    int answer = sb2_area_take_sample(area.s, length, &sample, room.s, room.length, &sent);
    compare(proved, (uint32_t)answer | (uint32_t)sent << 8);
    came_up(SAMPLE, (uint32_t)answer);
    note_old(length, 1);
    note_room(answer, length);
    sent_bytes = sent;
    if (answer == SB2_SERVED) {
        note_messages(sent, before, sample.counter, held);
        note_bit_4(state_area[BIT_4_AT] == 1);
        note_seconds(sample.counter - before, sample.counter < before);
        note_tank(&sample, sent);
    }
    keep_area();
    return answer == SB2_SERVED;
}

static struct sb2_sample some_sample(void)
{
    struct sb2_state state;
    struct sb2_sample sample = {some_word(), some_current(), some_word(), 0};
    uint32_t before = 0;
    if (sb2_area_load(bytes_of(state_area, SNATCHBLOCK_AREA), &state)) {
        before = state.latest.counter;
        if (one_in(2)) { /* near the limits of this pack */
            sample.temperature = (uint16_t)(state.settings.temperature_limit + below(3) - 1);
            sample.voltage = (uint16_t)(state.settings.discharge_limit + below(3) - 1);
        }
    }
    sample.counter = before + some_elapsed();
    return sample;
}

static void play_sample(bool whole)
{
    (void)play_given_sample(some_sample(), whole ? SNATCHBLOCK_AREA : area_size(), sample_room());
}

/* ---- times: 06, 11, 12, 13, and 05, which stands last for it has no minutes in power mode */

static const uint8_t times[] = {0x06, 0x11, 0x12, 0x13, 0x05};
enum { TIMES = sizeof times, MINUTES = 0, BEYOND, NOT_MOVING };
enum { FIRST_BORDER = 65533, TIME_BORDERS = 4 }; /* minutes before the cap: about 65,534, and where 16 bits end */

static bool to_full(uint8_t command)
{
    return command == 0x05 || command == 0x13;
}

/* The total of the seconds that the area keeps. */
static int64_t kept_total(void)
{
    int64_t sum = 0;
    for (uint32_t place = 0; place < state_area[KEPT_AT]; place++)
        sum += (int32_t)number_at(TOTALS_AT + 4 * place, 4);
    return sum;
}

/* The current or AtRate that a time looks at, above 0 where it goes the command's way. */
static int64_t time_current(const struct sb2_state *s, uint8_t command)
{
    int64_t current = s->latest.current;
    if (command <= 0x06)
        current = s->host.at_rate;
    else if (command != 0x11 && s->minute.count > 0)
        current = kept_total() / (1000 * (int64_t)s->minute.count);
    return to_full(command) ? current : -current;
}

/* The size of that in the mode's unit; AtRate stands in it already. */
static uint64_t time_rate(const struct sb2_state *s, uint8_t command)
{
    int64_t current = time_current(s, command);
    uint64_t size = (uint64_t)(current < 0 ? -current : current);
    return command > 0x06 && s->host.capacity_mode ? size * s->latest.voltage / 10000 : size;
}

/* A charge as 0F and 10 show it. */
static uint64_t shown_charge(const struct sb2_state *s, uint64_t charge)
{
    uint64_t word = charge / SB2_MS_PER_HOUR;
    if (s->host.capacity_mode)
        word = charge * s->settings.design_voltage / (SB2_MS_PER_HOUR * UINT64_C(10000));
    return word < 65535 ? word : 65535;
}

/* What a time has to go, in the mode's unit. */
static uint64_t time_capacity(const struct sb2_state *s, uint8_t command)
{
    uint64_t remaining = shown_charge(s, s->tank.charge);
    if (!to_full(command))
        return remaining;
    return shown_charge(s, (uint64_t)s->tank.full_capacity * SB2_MS_PER_HOUR) - remaining;
}

/* Which of the three a served time is: the word 65,534 is minutes with answer 0. */
static unsigned time_case(uint16_t word, int answer)
{
    return answer == SB2_OVERFLOW ? BEYOND : word == 65535 ? NOT_MOVING : MINUTES;
}

/* A time that was read: its case; a rate that rounded to 0; its minutes before the cap, where they are about it. */
static void note_time(unsigned which, uint16_t word, int answer)
{
    struct sb2_state state;
    uint8_t command = times[which];
    (void)sb2_area_load(bytes_of(state_area, SNATCHBLOCK_AREA), &state);
    bool power = state.host.capacity_mode;
    int64_t current = time_current(&state, command);
    if (power && command == 0x05) {
        other[FULL_IN_POWER + (current < 0 ? 0 : current == 0 ? 1 : 2)]++;
        return;
    }
    other[(power ? TIME_IN_POWER : TIME_IN_MAH) + 3 * which + time_case(word, answer)]++;
    uint64_t rate = time_rate(&state, command), capacity = time_capacity(&state, command);
    if (command > 0x06 && power && current != 0 && rate == 0)
        other[RATE_TO_0 + 3 * (which - 1) + (current < 0 ? 2 : capacity == 0 ? 1 : 0)]++;
    uint64_t before_cap = current > 0 && rate > 0 ? 60 * capacity / rate : 0;
    if (before_cap >= FIRST_BORDER && before_cap < FIRST_BORDER + TIME_BORDERS)
        other[(power ? BORDER_IN_POWER : BORDER_IN_MAH) + TIME_BORDERS * which + before_cap - FIRST_BORDER]++;
}

/* The word of a served read: the times, AtRateOK, the bits of the status. */
static void note_word(uint8_t command, bool power, uint16_t word, int answer)
{
    for (unsigned i = 0; i < TIMES; i++)
        if (command == times[i])
            note_time(i, word, answer);
    if (command == 0x07)
        other[AT_RATE_OK + 2 * power + (word != 0)]++;
    if (command == 0x0D)
        other[RELATIVE + word]++; /* the second program caps it at 100 */
    if (command == 0x0E)
        other[ABSOLUTE + (word <= 100 ? 0 : word < 65535 ? 1 : 2)]++;
    for (unsigned bit = 0; command == 0x16 && bit < 16; bit++)
        other[(word >> bit & 1 ? STATUS_SET : STATUS_CLEAR) + bit]++;
}

static void play_message_in(size_t room_length, const uint8_t *message, size_t message_length, bool read, size_t length)
{
    lend_area(state_area, length);
    lend_room(room_length);
    struct sb2_bytes s = lend(0, service, service_length);
    struct sb2_bytes f = lend(1, factory, factory_length);
    struct sb2_bytes m = lend(2, message, message_length);
    begin("transact (service, factory, bytes)", 3, WRITES_AREA, true);
    note(read);
    size_t sent;
    uint32_t proved = snatchblock_transact(area.p, length, s.at, s.length, f.at, f.length, read, m.at, m.length, room.p,
                                           room.length);
    int answer = sb2_area_transact(area.s, length, read, m, s, f, room.s, room.length, &sent);
    compare(proved, (uint32_t)answer | (uint32_t)sent << 8);
    came_up(TRANSACT, (uint32_t)answer);
    note_old(length, 2);
    if (answer == SB2_SERVED || answer == SB2_OVERFLOW) {
        bool power = state_area[SNATCHBLOCK_HOST + 10] == 1;
        other[read ? READ_SERVED + 64 * power + message[1] : WRITE_SERVED + 5 * power + message[1]]++;
        if (read && message[1] < 0x20)
            note_word(message[1], power, (uint16_t)(room.s[0] | room.s[1] << 8), answer);
    }
    answered = answer;
    keep_area();
}

/* Reads a word of the whole area in the least room. */
static void play_read(uint8_t command)
{
    const uint8_t ask[3] = {0x16, command, 0x17};
    play_message_in(SB2_REPLY_ROOM, ask, 3, true, SNATCHBLOCK_AREA);
}

static void play_message(const uint8_t *message, size_t message_length, bool read, size_t length)
{
    play_message_in(room_size(SB2_REPLY_ROOM), message, message_length, read, length);
}

static void play_transact(bool whole)
{
    uint8_t message[64];
    bool read;
    size_t length = some_message(message, &read);
    play_message(message, length, read, whole ? SNATCHBLOCK_AREA : area_size());
}

/* ---- sheets */

static uint8_t made_sheet[145];

/* Writes a sheet of these bodies by both programs; gives its length, 0 if refused. */
static size_t play_write_bodies(const struct sb2_body given[4], size_t room_length)
{
    struct sb2_body bodies[4];
    size_t length;
    lend_room(room_length);
    begin("write_sheet (four bodies)", 4, NO_AREA, true);
    for (int i = 0; i < 4; i++) {
        bodies[i].given = given[i].given;
        bodies[i].bytes = lend(i, given[i].bytes.at, given[i].bytes.length);
        note(bodies[i].given);
    }
    uint32_t proved = snatchblock_write_sheet(
        room.p, room.length, bodies[0].given, bodies[0].bytes.at, bodies[0].bytes.length, bodies[1].given,
        bodies[1].bytes.at, bodies[1].bytes.length, bodies[2].given, bodies[2].bytes.at, bodies[2].bytes.length,
        bodies[3].given, bodies[3].bytes.at, bodies[3].bytes.length);
    int answer = sb2_sheet_write(bodies, room.s, room.length, &length);
    compare(proved, (uint32_t)answer | (uint32_t)length << 8);
    came_up(WRITE_SHEET, (uint32_t)answer);
    memcpy(made_sheet, room.s, length);
    return length;
}

/* Random bodies. */
static size_t play_write_sheet(bool likely)
{
    struct sb2_body bodies[4];
    uint8_t body[4][80];
    for (int i = 0; i < 4; i++) {
        bodies[i].given = !one_in(3);
        size_t length = likely || !one_in(12) ? below(33) : 30 + below(40);
        fill(body[i], length);
        bodies[i].bytes = bytes_of(body[i], length);
    }
    return play_write_bodies(bodies, likely ? SB2_SHEET_ROOM : room_size(SB2_SHEET_ROOM));
}

/* A sheet, mostly good, put at `at`; gives its length. */
static size_t some_sheet(uint8_t at[145])
{
    at[0] = 0;
    if (one_in(4))
        return 1;
    size_t length = play_write_sheet(true);
    memcpy(at, made_sheet, length);
    switch (below(12)) {
    case 0: at[below((uint32_t)length)] ^= (uint8_t)(1u << below(8)); return length;
    case 1: return below((uint32_t)length);
    case 2: case 3: case 4: bend_sheet(at); return length;
    case 5:
        if (length == 145)
            return length;
        at[length] = (uint8_t)draw();
        return length + 1;
    default: return length;
    }
}

/* Looks a tag up in both programs. */
static uint64_t play_block(struct sb2_bytes service_sheet, struct sb2_bytes factory_sheet, uint8_t tag)
{
    struct sb2_bytes s = lend(0, service_sheet.at, service_sheet.length);
    struct sb2_bytes f = lend(1, factory_sheet.at, factory_sheet.length);
    struct sb2_block block;
    begin("block (service, factory)", 2, NO_AREA, false);
    note(tag);
    uint64_t proved = snatchblock_block(s.at, s.length, f.at, f.length, tag);
    int answer = sb2_sheet_block(s, f, tag, &block);
    /* of a refusal the answer alone */
    compare(proved, (uint64_t)answer | (uint64_t)block.part.length << 8 | (uint64_t)block.part.offset << 16 |
                        (uint64_t)(answer == 0 && !block.in_service) << 32);
    came_up(BLOCK, (uint64_t)answer);
    if (answer == SB2_SERVED)
        other[block.in_service ? BLOCK_SERVICE : block.part.offset ? BLOCK_FACTORY : BLOCK_NEITHER]++;
    return proved;
}

static void play_sheets(void)
{
    for (int i = 0; i < 4; i++)
        (void)play_write_sheet(false);
    service_length = some_sheet(service);
    factory_length = some_sheet(factory);
    if (one_in(8)) { /* one body of 32 or 33 bytes, which are there */
        const uint8_t row[5] = {1, (uint8_t)(0x1F + below(6)), (uint8_t)(32 + below(2)), 5, 0};
        memcpy(service, row, sizeof row);
        fill(service + 5, 33);
        service_length = 5u + row[2];
    }
    for (int i = 0; i < 2; i++) {
        struct sb2_bytes sheet = lend(0, i ? factory : service, i ? factory_length : service_length);
        begin("is_sheet", 1, NO_AREA, false);
        bool second = sb2_sheet_good(sheet);
        compare(snatchblock_is_sheet(sheet.at, sheet.length), second);
        came_up(IS_SHEET, second);
    }
    for (int i = 0; i < 6; i++)
        (void)play_block(bytes_of(service, service_length), bytes_of(factory, factory_length),
                         (uint8_t)(i < 4 ? 0x20 + i : (int)below(256)));
}

/* ---- edits of a sheet in its room */

enum { EDIT_ROOMS = 161, FIRST_TAG = 0x20, ROW_BYTES = 4 };
static uint8_t edited[ROOM_MOST];         /* between edits: the sheet, and behind it what stood there before */
static size_t edited_room, edited_length; /* the room's bytes, and the sheet's as last answered */
static uint8_t kept_bytes[4][SB2_NAME_MOST];
static struct sb2_body kept[4]; /* what the edits should have left */

struct edit {
    bool set; /* else removed */
    uint8_t tag;
    size_t stated;
    struct sb2_bytes body;
};

/* The body under a tag, none under those that no sheet lists. */
static struct sb2_body kept_under(uint8_t tag)
{
    const struct sb2_body none = {false, {edited, 0}};
    return tag < FIRST_TAG || tag > FIRST_TAG + 3 ? none : kept[tag - FIRST_TAG];
}

/* The sheet's bytes but for a tag's row and body. */
static size_t length_without(uint8_t tag)
{
    struct sb2_body body = kept_under(tag);
    return body.given ? edited_length - ROW_BYTES - body.bytes.length : edited_length;
}

static size_t wanted_length(const struct edit *e)
{
    return length_without(e->tag) + (e->set ? ROW_BYTES + e->body.length : 0);
}

/* Which of 9, 18, 19 and 20 hold; the last of a bad call where not even a sheet of that one body has room. */
static void refusals_of(const struct edit *e, bool holds[4])
{
    bool bad_sheet = edited_length == 0 || e->stated != edited_length;
    bool bad_tag = e->tag < FIRST_TAG || e->tag > FIRST_TAG + 3;
    bool long_body = e->set && e->body.length > SB2_NAME_MOST;
    size_t least = 1u + (e->set ? ROW_BYTES + e->body.length : 0);
    holds[0] = bad_sheet;
    holds[1] = bad_tag;
    holds[2] = long_body;
    holds[3] = (bad_sheet || bad_tag || long_body ? least : wanted_length(e)) > edited_room;
}

static int wanted_answer(const struct edit *e)
{
    static const int answers[4] = {SB2_BAD_SHEET, SB2_BAD_TAG, SB2_LONG_BODY, SB2_LONG_SHEET};
    bool holds[4];
    refusals_of(e, holds);
    for (size_t i = 0; i < 4; i++)
        if (holds[i])
            return answers[i];
    return SB2_SERVED;
}

/* Gives both the edit in a room of so many bytes. Behind it stands what goes on with the sheet where it is cut. */
static int edit_in_both(const struct edit *e, size_t room_length, size_t *length)
{
    struct sb2_bytes body = lend(0, e->body.at, e->body.length);
    lend_with(&room, edited, sizeof edited);
    room.length = room_length;
    begin(e->set ? "set_body" : "remove_body", e->set, NO_AREA, true);
    call.held = e->stated;
    note(e->stated), note(e->tag);
    uint32_t proved;
    int answer;
    if (e->set) {
        proved = snatchblock_set_body(room.p, room_length, e->stated, e->tag, body.at, body.length);
        answer = sb2_sheet_set(room.s, room_length, e->stated, e->tag, body, length);
    } else {
        proved = snatchblock_remove_body(room.p, room_length, e->stated, e->tag);
        answer = sb2_sheet_remove(room.s, room_length, e->stated, e->tag, length);
    }
    compare(proved, (uint32_t)answer | (uint32_t)*length << 8);
    came_up(e->set ? SET_BODY : REMOVE_BODY, (uint32_t)answer);
    return answer;
}

/* What was refused and why; each two reasons that held at once. */
static void note_refused_edit(const struct edit *e, int answer)
{
    bool holds[4];
    refusals_of(e, holds);
    for (size_t i = 0, both = 0; i < 4; i++)
        for (size_t j = i + 1; j < 4; j++, both++)
            if (holds[i] && holds[j])
                other[E_ORDER + both]++;
    if (edited_room < EDIT_ROOMS)
        other[E_REFUSED + edited_room]++;
    if (answer == SB2_BAD_TAG)
        other[E_TAG + 3u * !e->set + (e->tag == FIRST_TAG - 1 ? 0 : e->tag == FIRST_TAG + 4 ? 1 : 2)]++;
    if (answer == SB2_LONG_BODY)
        other[E_LONG + (e->body.length == SB2_NAME_MOST + 1 ? 0 : e->body.length < 256 ? 1 : 2)]++;
    if (answer == SB2_LONG_SHEET && wanted_length(e) == edited_room + 1)
        other[E_OVER + edited_room - 4]++;
}

/* A set body beside the one before: there was none, it is longer, shorter, another as long, the same. */
static unsigned set_kind(struct sb2_bytes body, struct sb2_body before)
{
    if (!before.given)
        return 0;
    if (body.length != before.bytes.length)
        return body.length > before.bytes.length ? 1 : 2;
    return memcmp(body.at, before.bytes.at, body.length) != 0 ? 3 : 4;
}

/* What an edit does that is served, before it is kept. */
static void note_served_edit(const struct edit *e)
{
    struct sb2_body before = kept_under(e->tag);
    unsigned at = e->tag - FIRST_TAG, listed = 0;
    for (unsigned i = 0; i < 4; i++)
        listed |= (unsigned)kept[i].given << i;
    unsigned place = (listed >> at > 1) + 2u * ((listed & ((1u << at) - 1)) > 0); /* alone, first, last, between */
    other[E_TAGS + 64u * !e->set + 4 * listed + at]++;
    other[E_BY + 36 + wanted_length(e) - edited_length]++;
    if (edited_room < EDIT_ROOMS)
        other[E_SERVED + edited_room]++;
    if (!e->set) {
        other[before.given ? E_REMOVED + place : E_ABSENT]++;
        return;
    }
    other[E_SET + 4 * set_kind(e->body, before) + place]++;
    other[E_BODY + e->body.length]++;
    if (wanted_length(e) == edited_room)
        other[E_FULL + edited_room - 5]++;
}

static void keep_edit(const struct edit *e, size_t length)
{
    unsigned at = e->tag - FIRST_TAG;
    if (e->set)
        memmove(kept_bytes[at], e->body.at, e->body.length); /* it may be the body that is kept */
    kept[at].given = e->set;
    kept[at].bytes = bytes_of(kept_bytes[at], e->set ? e->body.length : 0);
    memcpy(edited, room.s, sizeof edited);
    edited_length = length;
}

/* What a served edit left: 0 where the old sheet was longer, the very bytes of a sheet written afresh, the body. */
static void check_edit(uint8_t tag, size_t before)
{
    static const uint8_t none[1] = {0};
    struct sb2_body body = kept_under(tag);
    for (size_t i = edited_length; i < before; i++)
        expect(edited[i] == 0, "freed bytes");
    size_t length = play_write_bodies(kept, SB2_SHEET_ROOM);
    expect(length == edited_length && memcmp(made_sheet, edited, length) == 0, "the edited sheet, beside this one,");
    uint64_t found = play_block(bytes_of(edited, edited_length), bytes_of(none, 1), tag);
    expect(snatchblock_block_in_factory(found) == !body.given && snatchblock_block_length(found) == body.bytes.length &&
               memcmp(edited + snatchblock_block_offset(found), body.bytes.at, body.bytes.length) == 0,
           "the edited body");
}

/* An edit in the room; where it is served the next goes on from what it left. */
static void play_edit(struct edit e)
{
    size_t length, before = edited_length;
    int answer = edit_in_both(&e, edited_room, &length);
    expect(answer == wanted_answer(&e), "answer");
    expect(length == (answer == SB2_SERVED ? wanted_length(&e) : 0), "length");
    if (answer != SB2_SERVED) {
        note_refused_edit(&e, answer);
        return;
    }
    note_served_edit(&e);
    keep_edit(&e, length);
    check_edit(e.tag, before);
}

/* The edit with another length stated: it is 9. */
static void play_misstated(struct edit e)
{
    const size_t lengths[6] = {0, edited_length - 1, edited_length + 1, edited_room + 1,
                               (size_t)draw() | (size_t)1 << 63, edited_length + ((size_t)1 << 32)};
    unsigned which = below(6);
    e.stated = lengths[which];
    play_edit(e);
    other[E_STATED + 6u * !e.set + which]++;
}

/* The edit in a room that ends before the sheet does: it is 9, though the bytes behind it are the sheet's. */
static void play_cut_room(struct edit e)
{
    size_t length, short_of = one_in(2) ? 1 : 1 + below((uint32_t)edited_length);
    expect(edit_in_both(&e, edited_length - short_of, &length) == SB2_BAD_SHEET, "answer");
    other[E_CUT + (short_of > 1)]++;
}

/* The edit of a sheet with a byte changed; it may still be one, of other bodies. */
static void play_bent_sheet(struct edit e)
{
    uint8_t whole[ROOM_MOST];
    size_t length;
    memcpy(whole, edited, sizeof whole);
    if (one_in(2))
        bend_sheet(edited);
    else
        edited[below(one_in(2) ? 17 : SB2_SHEET_ROOM)] ^= (uint8_t)(1u << below(8));
    bool good = sb2_sheet_good(bytes_of(edited, edited_length));
    expect((edit_in_both(&e, edited_room, &length) != SB2_BAD_SHEET) == good, "answer");
    memcpy(edited, whole, sizeof whole);
    other[E_BENT + good]++;
}

/* A body for a tag: about the one there, about what the room takes, or any. */
static struct sb2_bytes some_body(uint8_t tag)
{
    static uint8_t body[SB2_NAME_MOST + 300];
    struct sb2_body there = kept_under(tag);
    size_t rest = edited_room - length_without(tag) - ROW_BYTES; /* wraps where a row has no room */
    size_t length = below(rest < SB2_NAME_MOST && one_in(2) ? (uint32_t)rest + 1 : SB2_NAME_MOST + 1);
    switch (below(14)) {
    case 0: length = 0; break;
    case 1: length = SB2_NAME_MOST; break;
    case 2: length = SB2_NAME_MOST + 1 + (one_in(2) ? 0 : below(sizeof body - SB2_NAME_MOST)); break;
    case 3: return there.bytes;
    case 4: length = there.bytes.length; break;
    case 5: length = there.bytes.length + 1; break;
    case 6: length = there.bytes.length - (there.bytes.length > 0); break;
    case 7: length = rest <= SB2_NAME_MOST ? rest : length; break;
    case 8: length = rest < SB2_NAME_MOST ? rest + 1 : length; break;
    default: break;
    }
    fill(body, length);
    return bytes_of(body, length);
}

static struct edit some_edit(void)
{
    struct edit e = {!one_in(3), (uint8_t)(FIRST_TAG + below(4)), edited_length, {edited, 0}};
    if (one_in(12))
        e.tag = (uint8_t)(one_in(3) ? draw() : one_in(2) ? FIRST_TAG - 1 : FIRST_TAG + 4);
    if (e.set)
        e.body = some_body(e.tag);
    return e;
}

static void play_edit_series(uint32_t edits)
{
    for (; edits > 0; edits--) {
        uint32_t way = below(16);
        if (way == 0)
            play_misstated(some_edit());
        else if (way == 1 && edited_length > 0)
            play_cut_room(some_edit());
        else if (way == 2)
            play_bent_sheet(some_edit());
        else
            play_edit(some_edit());
    }
}

/* A room of old bytes with a sheet at its front: the empty one, or one of bodies that have room, written afresh. */
static void start_sheet(size_t room_length, bool written)
{
    fill(edited, sizeof edited);
    edited[0] = 0;
    edited_room = room_length;
    edited_length = room_length > 0;
    for (size_t i = 0; i < 4; i++) {
        size_t length = below(SB2_NAME_MOST + 1);
        kept[i].given = written && !one_in(3) && edited_length + ROW_BYTES + length <= room_length;
        kept[i].bytes = bytes_of(kept_bytes[i], kept[i].given ? length : 0);
        fill(kept_bytes[i], kept[i].bytes.length);
        edited_length += kept[i].given ? ROW_BYTES + length : 0;
    }
    if (written) {
        (void)play_write_bodies(kept, SB2_SHEET_ROOM);
        memcpy(edited, made_sheet, edited_length);
    }
}

/* Bodies under the tags in some order until the sheet has so many bytes, where a sheet can have them. */
static void play_filling(size_t aim)
{
    uint32_t first = below(4), step = one_in(2) ? 1 : 3;
    uint8_t body[SB2_NAME_MOST];
    fill(body, sizeof body);
    for (uint32_t i = 0; i < 4 && edited_length + ROW_BYTES <= aim; i++) {
        size_t rest = aim - edited_length - ROW_BYTES;
        size_t length = rest < SB2_NAME_MOST ? rest : SB2_NAME_MOST;
        if (rest > length && rest - length < ROW_BYTES)
            length -= ROW_BYTES; /* so that the next one's row has room */
        play_edit((struct edit){true, (uint8_t)(FIRST_TAG + (first + step * i) % 4), edited_length, {body, length}});
    }
}

/* Every room to 160 bytes: at its last byte, one beyond it, and series from there; one from a written sheet. */
static void play_edit_rooms(void)
{
    for (size_t size = 0; size < EDIT_ROOMS; size++) {
        start_sheet(size, false);
        play_filling(size + 1);
        play_edit_series(16);
        start_sheet(size, false);
        play_filling(size);
        play_edit_series(16);
        start_sheet(size, true);
        play_edit_series(16);
    }
}

static void play_edits(void)
{
    for (int i = 0; i < 4; i++) {
        start_sheet(one_in(2) ? below(EDIT_ROOMS) : 60 + below(ROOM_MOST - 59), one_in(2));
        play_edit_series(10 + below(30));
    }
}

/* ---- the pack's life */

static void play_life(void)
{
    play_sheets();
    play_set_up(true);
    uint32_t samples = below(4); /* of four calls, so many are samples */
    for (uint32_t left = 50 + below(300); left > 0; left--) {
        if (below(4) < samples)
            play_sample(!one_in(60));
        else
            play_transact(!one_in(60));
    }
    play_sound(area_size());
}

static void put(size_t at, size_t bytes, uint64_t value)
{
    for (size_t i = 0; i < bytes; i++)
        state_area[at + i] = (uint8_t)(value >> 8 * i);
}

/* A total at a border of what so many ms can give, or one beyond it: above 0, then below. The fifth is any number. */
enum { BORDERS = 5 };
static uint64_t border_total(unsigned border, uint32_t ms)
{
    const int64_t most = INT64_C(32767) * ms, least = INT64_C(-32768) * ms;
    const int64_t totals[BORDERS - 1] = {most, most + 1, least, least - 1};
    return border < BORDERS - 1 ? (uint64_t)totals[border] : draw();
}

/* A total that so many ms can give. */
static uint64_t some_total(uint32_t ms)
{
    if (one_in(8))
        return border_total(2 * below(2), ms);
    return border_total(2, ms) + below(65535 * ms + 1);
}

/* Any minute that is sound; beyond the count stands anything. */
static void some_minute(void)
{
    uint32_t count = one_in(3) ? SB2_SECONDS : below(SB2_SECONDS + 1), ms = below(1000);
    for (uint32_t place = 0; place < SB2_SECONDS; place++)
        put(TOTALS_AT + 4 * place, 4, place < count ? some_total(1000) : draw());
    put(KEPT_AT, 1, count);
    put(BEGUN_MS_AT, 2, ms);
    put(BEGUN_AT, 4, some_total(ms));
}

/* Changes one field of the area to a value at one of its borders, or to anything. */
static void bend_area(void)
{
    uint64_t full = (uint64_t)number_at(FULL_AT, 2) * SB2_MS_PER_HOUR;
    uint64_t one_cycle = (uint64_t)number_at(SNATCHBLOCK_SETTINGS, 2) * SB2_MS_PER_HOUR;
    switch (below(21)) {
    case 0: put(0, 1, 5 + below(5)); break;
    case 1: put(SNATCHBLOCK_HOST + 8, 1, below(3)); break;
    case 2: put(SNATCHBLOCK_HOST + 9, 1, below(3)); break;
    case 3: put(SNATCHBLOCK_HOST + 10, 1, below(3)); break;
    case 4: put(BIT_4_AT, 1, below(3)); break;
    case 5: put(KEPT_AT, 1, one_in(2) ? below(3) : 59 + below(4)); break;
    case 6: put(SNATCHBLOCK_TANK, 8, full - 1 + below(3)); break;
    case 7: put(SNATCHBLOCK_TANK, 8, one_in(2) ? below(2) : draw() >> below(64)); break;
    case 8: put(SNATCHBLOCK_TIMERS, 4, one_in(2) ? below(3) : 59999 + below(3)); break;
    case 9: put(SNATCHBLOCK_TIMERS + 4, 4, one_in(2) ? below(3) : 9999 + below(3)); break;
    case 10: put(SNATCHBLOCK_TIMERS + 8, 4, one_in(2) ? below(3) : 29998 + below(3)); break;
    case 11: put(SNATCHBLOCK_SETTINGS + 2 * below(9), 2, below(3)); break;
    case 12: put(FULL_AT, 2, below(3)); break;
    case 13: put(BEGUN_MS_AT, 2, one_in(2) ? below(3) : 998 + below(4)); break;
    case 14: put(BEGUN_AT, 4, border_total(below(BORDERS), number_at(BEGUN_MS_AT, 2))); break;
    case 15: put(TOTALS_AT + 4 * below(SB2_SECONDS), 4, border_total(below(BORDERS), 1000)); break;
    case 16: put(TOWARD_AT, 8, one_cycle - 1 + below(3)); break;
    case 17: put(DRAWN_AT, 8, one_in(2) ? below(2) : RUN_MOST - 1 + below(3)); break;
    case 18: put(OPEN_AT, 1, below(3)); break;
    case 19: put(PLAIN_AT, 1, below(3)); break;
    default: state_area[below(SNATCHBLOCK_AREA)] = (uint8_t)draw(); break;
    }
}

static uint64_t magnitude(int16_t value)
{
    return (uint64_t)(value < 0 ? -(int32_t)value : value);
}

/* Reads AtRateOK with a charge that just covers 10 s, or is one mA·ms off it. */
static void play_at_rate_ok(void)
{
    static const uint16_t even_voltages[] = {1, 10, 5000, 10000, 12500, 20000}; /* divisors of 100,000,000 */
    struct sb2_state state;
    if (one_in(2))
        put(SNATCHBLOCK_SETTINGS + 2, 2, even_voltages[below(sizeof even_voltages / sizeof *even_voltages)]);
    put(SNATCHBLOCK_HOST + 6, 2, (uint16_t)(one_in(4) ? 0x8000 : 0xFFFF - below(3000)));
    put(SNATCHBLOCK_HOST + 10, 1, below(2));
    put(SNATCHBLOCK_TANK + 8, 2, 65535);
    (void)sb2_area_load(bytes_of(state_area, SNATCHBLOCK_AREA), &state);
    uint64_t design = state.settings.design_voltage ? state.settings.design_voltage : 1;
    uint64_t rate = magnitude(state.host.at_rate) * 10000;
    uint64_t discharge = state.latest.current < 0 ? magnitude(state.latest.current) * 10000 : 0;
    put(SNATCHBLOCK_TANK, 8, (state.host.capacity_mode ? (rate * 10000 + design - 1) / design : rate) + discharge - 1 + below(3));
    const uint8_t message[3] = {0x16, 0x07, 0x17};
    play_message(message, 3, true, SNATCHBLOCK_AREA);
}

/* A 16-bit part of a number: 0, 1, 32,768, 65,535 or any. */
enum { PART_BORDERS = 5 };
static uint64_t border_part(unsigned border)
{
    static const uint16_t parts[PART_BORDERS - 1] = {0, 1, 0x8000, 0xFFFF};
    return border < PART_BORDERS - 1 ? parts[border] : below(0x10000);
}

/* Reads the words that a product goes into, with a charge whose 16-bit parts are at their borders; then a sample of
 * such an elapsed time. */
static void play_parts(void)
{
    static const uint8_t words[] = {0x07, 0x0D, 0x0E, 0x0F, 0x10, 0x18};
    unsigned low = below(PART_BORDERS), middle = below(PART_BORDERS);
    uint64_t charge = border_part(low) | border_part(middle) << 16 | (uint64_t)below(54) << 32; /* under 65,535 mAh */
    uint64_t voltage = border_part(1 + below(PART_BORDERS - 1)) | 1; /* never 0 */
    put(SNATCHBLOCK_SETTINGS + 2, 2, voltage);
    put(SNATCHBLOCK_HOST + 6, 2, (uint16_t)(0x8000 + below(0x8000)));
    put(SNATCHBLOCK_HOST + 10, 1, below(2));
    put(SNATCHBLOCK_TANK, 8, charge);
    put(SNATCHBLOCK_TANK + 8, 2, 65535);
    if (!sb2_area_sound(bytes_of(state_area, SNATCHBLOCK_AREA)))
        return;
    for (size_t i = 0; i < sizeof words; i++) {
        const uint8_t ask[3] = {0x16, words[i], 0x17};
        play_message_in(SB2_REPLY_ROOM, ask, 3, true, SNATCHBLOCK_AREA);
    }
    uint64_t lowest = (charge & 0xFFFF) * voltage, next = (charge >> 16 & 0xFFFF) * voltage + (lowest >> 16);
    other[PARTS_OF + PART_BORDERS * low + middle]++;
    other[CARRIES + 2 * (lowest > 0xFFFF) + (next > 0xFFFF)]++;
    uint32_t elapsed = (uint32_t)(border_part(below(PART_BORDERS)) | border_part(below(PART_BORDERS)) << 16);
    struct sb2_sample sample = {some_word(), some_current(), some_word(), number_at(SNATCHBLOCK_LATEST + 6, 4) + elapsed};
    (void)play_given_sample(sample, SNATCHBLOCK_AREA, SB2_BROADCAST_ROOM);
}

/* Reads the times at the slowest rates, AtRate, current and mean 1 or -1, the mean with a second kept and with none. */
static void play_times(void)
{
    uint16_t slow = one_in(2) ? 1 : 0xFFFF;
    put(SNATCHBLOCK_HOST + 6, 2, slow);
    put(SNATCHBLOCK_HOST + 10, 1, below(2));
    put(SNATCHBLOCK_LATEST + 2, 2, slow);
    put(TOTALS_AT, 4, (uint64_t)(slow == 1 ? 1000 : -1000));
    put(KEPT_AT, 1, below(2));
    for (size_t i = 0; i < TIMES; i++) {
        const uint8_t ask[3] = {0x16, times[i], 0x17};
        play_message(ask, 3, true, SNATCHBLOCK_AREA);
    }
}

/* A capacity and a rate whose whole minutes are so many, about the cap: rates are drawn until one has such. */
static uint32_t capacity_of(uint64_t minutes, uint32_t *rate)
{
    for (;;) {
        *rate = 1 + below(60);
        uint64_t capacity = (minutes * *rate + 59) / 60;
        if (capacity <= 65535 && 60 * capacity / *rate == minutes)
            return (uint32_t)capacity;
    }
}

/* Any charge that the area shows as a word; of the highest word the least charge, which no pack is too small for. */
static uint64_t charge_shown(bool power, uint32_t design_voltage, uint64_t word)
{
    uint64_t unit = power ? SB2_MS_PER_HOUR * UINT64_C(10000) : SB2_MS_PER_HOUR, by = power ? design_voltage : 1;
    uint64_t least = (word * unit + by - 1) / by, next = ((word + 1) * unit + by - 1) / by;
    return word == 65535 ? least : least + draw() % (next - least);
}

/* Puts a pack that has so much to go, to empty or to full, in the mode's unit. 65,535 mAh at 10,000 mV or more are all
 * that a word can show. */
static void put_to_go(bool fill_up, bool power, uint64_t capacity)
{
    uint32_t voltage = 10000 + (one_in(4) ? 0 : below(55536)), full = 1 + below(65535);
    if ((power ? (uint64_t)full * voltage / 10000 : full) < capacity)
        full = 65535;
    uint64_t most = (uint64_t)full * SB2_MS_PER_HOUR, full_word = power ? (uint64_t)full * voltage / 10000 : full;
    if (full_word > 65535)
        full_word = 65535;
    uint64_t charge = charge_shown(power, voltage, fill_up ? full_word - capacity : capacity);
    put(SNATCHBLOCK_SETTINGS + 2, 2, voltage);
    put(SNATCHBLOCK_HOST + 10, 1, power);
    put(FULL_AT, 2, full);
    put(SNATCHBLOCK_TANK, 8, charge < most ? charge : most);
}

/* Puts a current, or AtRate, where a time looks for it; a mean over some seconds or, with none, the latest. The other
 * places have any. */
static void put_rate(uint8_t command, int32_t current)
{
    bool of_mean = command > 0x11 && one_in(2);
    int32_t total = 1000 * current + (current < 0 ? -(int32_t)below(1000) : (int32_t)below(1000)); /* cut toward zero */
    put(SNATCHBLOCK_HOST + 6, 2, (uint64_t)(command <= 0x06 ? current : some_current()));
    put(SNATCHBLOCK_LATEST + 2, 2, (uint64_t)(command > 0x06 && !of_mean ? current : some_current()));
    if (command <= 0x11)
        return;
    uint32_t count = of_mean ? 1 + below(SB2_SECONDS) : 0;
    put(KEPT_AT, 1, count);
    for (uint32_t place = 0; place < count; place++)
        put(TOTALS_AT + 4 * place, 4, (uint64_t)total);
}

/* The mA that are so many 10 mW, 1 to 60, at a voltage that is put; in mAh, and of AtRate, the rate itself. */
static int32_t current_of(uint8_t command, bool power, uint32_t rate)
{
    if (!power || command <= 0x06)
        return (int32_t)rate;
    for (;;) {
        uint32_t voltage = one_in(4) ? 10000 : 20 + below(one_in(2) ? 10000 : 65516);
        uint32_t current = (10000 * rate + voltage - 1) / voltage;
        put(SNATCHBLOCK_LATEST, 2, voltage);
        if (current * voltage / 10000 == rate)
            return (int32_t)current;
    }
}

/* Reads a time, then the code that it left. */
static void play_time(unsigned which, bool power)
{
    play_read(times[which]);
    bool is_cut_off = answered == SB2_OVERFLOW;
    play_read(0x16);
    if (is_cut_off && answered == SB2_SERVED && (room.s[0] & 0xF) == 5)
        other[CODE_5 + TIMES * power + which]++;
}

/* A time with minutes about the cap, before it is held under it. */
static void play_time_border(unsigned which, bool power, unsigned border)
{
    uint8_t command = times[which];
    uint32_t rate, capacity = capacity_of(FIRST_BORDER + border, &rate);
    play_set_up(true);
    put_to_go(to_full(command), power, capacity);
    int32_t current = current_of(command, power, rate);
    put_rate(command, to_full(command) ? current : -current);
    play_time(which, power);
}

/* A time of 11, 12 or 13 in power mode whose rate rounds to 0, the command's way or against it, with something to go or
 * nothing. */
static void play_rounded_time(unsigned which, bool against, bool to_go)
{
    uint8_t command = times[which];
    uint32_t voltage = one_in(8) ? 0 : 1 + below(9999);
    int32_t current = (int32_t)(1 + below(voltage == 0 ? 30000 : 9999 / voltage));
    play_set_up(true);
    put_to_go(to_full(command), true, to_go ? 1 + below(65535) : 0);
    put(SNATCHBLOCK_LATEST, 2, voltage);
    put_rate(command, to_full(command) == against ? -current : current);
    play_time(which, true);
}

/* Reads the status with RemainingTimeAlarm at the word 12, or one off it. */
static void play_time_alarm(void)
{
    struct sb2_state state;
    if (!sb2_area_load(bytes_of(state_area, SNATCHBLOCK_AREA), &state) || !sb2_sound(&state))
        return;
    const uint8_t ask[3] = {0x16, 0x12, 0x17};
    play_message(ask, 3, true, SNATCHBLOCK_AREA);
    bool served = answered == SB2_SERVED || answered == SB2_OVERFLOW;
    uint16_t word = (uint16_t)(room.s[0] | room.s[1] << 8);
    unsigned apart = below(3), class = TIME_ALARM + 3 * time_case(word, answered) + apart;
    if (served)
        put(SNATCHBLOCK_HOST + 4, 2, (uint64_t)word - 1 + apart);
    const uint8_t status[3] = {0x16, 0x16, 0x17};
    play_message(status, 3, true, SNATCHBLOCK_AREA);
    if (served && answered == SB2_SERVED)
        other[class]++;
}

/* Times about their cap, with bit 8 against 12; those that no rate divides; 05 in power mode. */
static void play_cut_off(void)
{
    for (unsigned which = 0; which < TIMES; which++)
        for (unsigned i = 0; i < 2 * TIME_BORDERS; i++) {
            play_time_border(which, i % 2, i / 2); /* in power mode 05 has AtRate alone */
            if (times[which] == 0x12)
                play_time_alarm();
        }
    for (unsigned which = 1; which < 4; which++)
        for (unsigned i = 0; i < 4; i++)
            play_rounded_time(which, i % 2, i / 2);
    for (int32_t sign = -1; sign <= 1; sign++) { /* still in power mode */
        put_rate(0x05, sign * (int32_t)(1 + below(32767)));
        play_time(TIMES - 1, true);
    }
}

static void play_areas(void)
{
    play_set_up(true);
    for (int i = 0; i < 30; i++) {
        uint8_t kept[SNATCHBLOCK_AREA];
        memcpy(kept, state_area, sizeof kept);
        if (one_in(10))
            fill(state_area, AREA_MOST);
        for (uint32_t bends = below(4); bends > 0; bends--)
            bend_area();
        if (one_in(2))
            some_minute();
        for (uint32_t bends = one_in(2) ? below(3) : 0; bends > 0; bends--)
            bend_area();
        play_sound(area_size());
        if (one_in(2))
            play_sample(false);
        else
            play_transact(false);
        if (!sb2_area_sound(bytes_of(state_area, SNATCHBLOCK_AREA)))
            memcpy(state_area, kept, sizeof kept);
    }
    for (int i = 0; i < 8; i++) {
        play_set_up(true);
        play_time_alarm();
        play_at_rate_ok();
        play_set_up(true);
        play_parts();
    }
    play_set_up(true);
    play_times();
    for (int i = 0; i < 8; i++)
        play_set_up(false);
}

/* ---- the minute */

/* The area in each entry that looks at it, with a word that shows it; it stays as it is. */
static void play_bent_area(uint8_t command)
{
    const uint8_t ask[3] = {0x16, command, 0x17};
    uint8_t kept[SNATCHBLOCK_AREA];
    memcpy(kept, state_area, sizeof kept);
    play_sound(SNATCHBLOCK_AREA);
    play_message_in(SB2_REPLY_ROOM, ask, 3, true, SNATCHBLOCK_AREA);
    memcpy(state_area, kept, sizeof kept);
    struct sb2_sample sample = {some_word(), some_current(), some_word(),
                                number_at(SNATCHBLOCK_LATEST + 6, 4) + some_elapsed()};
    (void)play_given_sample(sample, SNATCHBLOCK_AREA, SB2_BROADCAST_ROOM);
    memcpy(state_area, kept, sizeof kept);
}

/* Counts and ms at their borders, and the begun total at both of its own. */
static void play_bent_minutes(void)
{
    const uint32_t counts[6] = {59, 60, 61, 62, 255, 63 + below(192)};
    for (size_t i = 0; i < 6; i++) {
        some_minute();
        for (uint32_t place = 0; place < SB2_SECONDS; place++)
            put(TOTALS_AT + 4 * place, 4, some_total(1000)); /* so that the count alone can be wrong */
        put(KEPT_AT, 1, counts[i]);
        play_bent_area(0x0B);
        other[MINUTE_COUNT + i]++;
    }
    for (unsigned i = 0; i < 5; i++) {
        some_minute();
        put(BEGUN_MS_AT, 2, i < 4 ? 998 + i : 1002 + below(65536 - 1002));
        put(BEGUN_AT, 4, one_in(2) ? 0 : some_total(998)); /* so that the ms alone can be wrong */
        play_bent_area(0x0B);
        other[MINUTE_MS + i]++;
    }
    for (unsigned border = 0; border < BORDERS; border++) {
        some_minute();
        put(BEGUN_AT, 4, border_total(border, number_at(BEGUN_MS_AT, 2)));
        play_bent_area(0x0B);
        other[MINUTE_BEGUN + border]++;
    }
}

/* In each of the 60 places a total at each border, under the count and beyond it. */
static void play_each_second(void)
{
    for (uint32_t place = 0; place < SB2_SECONDS; place++)
        for (unsigned border = 0; border < BORDERS; border++)
            for (int over = 0; over < 2; over++) {
                some_minute();
                uint32_t count = over ? below(place + 1) : place + 1 + below(SB2_SECONDS - place);
                for (uint32_t i = 0; i < count; i++)
                    put(TOTALS_AT + 4 * i, 4, some_total(1000));
                put(TOTALS_AT + 4 * place, 4, border_total(border, 1000));
                put(KEPT_AT, 1, count);
                play_bent_area(0x0B);
                other[(over ? MINUTE_OVER : MINUTE_UNDER) + BORDERS * place + border]++;
            }
}

/* What runs of samples differ in: the time between two. */
enum run { AT_250, AT_1000, AT_999, AT_61000, AT_HOURS, OVER_WRAP, MIXED, RUNS };

static uint32_t run_step(enum run run)
{
    static const uint32_t usual[] = {250, 1000, 999, 61000};
    switch (run) {
    case AT_HOURS: return one_in(4) ? 0xFFFFFFFFu - below(1000) : 3600000u * below(1193) + below(2000);
    case OVER_WRAP: return one_in(2) ? 250 : 1 + below(2500);
    case MIXED: return one_in(2) ? some_elapsed() : below(one_in(2) ? 1100 : 70000);
    default: return usual[run];
    }
}

/* What AverageCurrent shows, and what it would mislead by. */
static void note_mean(void)
{
    uint32_t count = state_area[KEPT_AT];
    int64_t sum = kept_total(), begun = (int32_t)number_at(BEGUN_AT, 4), ms = number_at(BEGUN_MS_AT, 2);
    int64_t length = 1000 * (int64_t)count;
    if (count == 0) {
        other[MEAN_OF]++;
        return;
    }
    other[MEAN_OF + (sum % length == 0 ? 1 : sum < 0 ? 2 : 3)]++;
    if (sum / length == -32768)
        other[MEAN_OF + 4]++;
    if (sum / length == 32767)
        other[MEAN_OF + 5]++;
    if (sum / length != (sum + begun) / (length + ms))
        other[MEAN_OF + 6]++;
    if (sum / length != (int16_t)number_at(SNATCHBLOCK_LATEST + 2, 2))
        other[MEAN_OF + 7]++;
}

static int16_t run_current(void)
{
    switch (below(4)) {
    case 0: return (int16_t)((int32_t)below(21) - 10);
    case 1: return (int16_t)((int32_t)below(4001) - 2000);
    case 2: return one_in(2) ? -32768 : 32767;
    default: return some_current();
    }
}

/* Samples of one kind, and 0B, 12, 13 and 16 read after each; a current stays for one sample or for many. */
static void play_run(enum run run, uint32_t samples)
{
    static const uint8_t commands[4] = {0x0B, 0x12, 0x13, 0x16};
    static const uint32_t stays[4] = {1, 4, 60, 300};
    uint32_t stay = stays[below(4)];
    play_set_up(true);
    put(SNATCHBLOCK_HOST + 10, 1, below(2));
    if (run == OVER_WRAP)
        put(SNATCHBLOCK_LATEST + 6, 4, 0xFFFFFFFFu - below(1000 * (samples + 1)));
    struct sb2_sample sample = {some_word(), run_current(), some_word(), 0};
    for (uint32_t i = 0; i < samples; i++) {
        if (one_in(stay))
            sample.current = run_current();
        sample.counter = number_at(SNATCHBLOCK_LATEST + 6, 4) + run_step(run);
        if (play_given_sample(sample, SNATCHBLOCK_AREA, one_in(40) ? sample_room() : SB2_BROADCAST_ROOM))
            other[RUN_OF + run]++;
        for (size_t j = 0; j < 4; j++) {
            const uint8_t ask[3] = {0x16, commands[j], 0x17};
            play_message_in(SB2_REPLY_ROOM, ask, 3, true, SNATCHBLOCK_AREA);
        }
        note_mean();
        if (one_in(40))
            play_time_alarm();
    }
    play_sound(SNATCHBLOCK_AREA);
}

static void play_minutes(void)
{
    static unsigned long plays;
    for (int run = 0; run < RUNS; run++)
        play_run((enum run)run, 1 + below(one_in(8) ? 300 : 12));
    play_set_up(true);
    play_bent_minutes();
    if (plays % 8 == 0)
        play_each_second();
    if (plays++ % 32 == 0) {
        play_run((enum run)below(RUNS), 2000 + below(3000));
        other[RUN_LONG]++;
    }
}

/* ---- cycles, and the learned full capacity */

/* A sample of a current that flowed for so many ms, below the limit or not; then at times the words that show it. */
static void flow(int16_t current, uint32_t ms, bool low)
{
    static const uint8_t words[] = {0x0D, 0x0E, 0x0F, 0x10, 0x16, 0x17};
    uint32_t limit = number_at(LIMIT_AT, 2), voltage = low ? limit - 1 : limit + below(65536 - limit);
    struct sb2_sample sample = {(uint16_t)voltage, current, some_word(), number_at(SNATCHBLOCK_LATEST + 6, 4) + ms};
    (void)play_given_sample(sample, SNATCHBLOCK_AREA, SB2_BROADCAST_ROOM);
    for (size_t i = one_in(3) ? 0 : sizeof words; i < sizeof words; i++) {
        const uint8_t ask[3] = {0x16, words[i], 0x17};
        play_message_in(SB2_REPLY_ROOM, ask, 3, true, SNATCHBLOCK_AREA);
    }
}

/* Draws so many mA·ms, at most 65,535 mAh and a few, in two samples. */
static void draw_off(uint64_t amount)
{
    if (amount >= 32768)
        flow(-32768, (uint32_t)(amount / 32768), false);
    flow(-1, (uint32_t)(amount % 32768), false);
}

/* How much is missing to an end: all of it, or one mA·ms more or less. */
static uint64_t about(uint64_t missing)
{
    return missing == 0 ? below(2) : missing - 1 + below(3);
}

static uint16_t some_capacity(void)
{
    static const uint16_t edges[] = {1, 2, 100, 32767, 32768, 65534, 65535};
    return one_in(2) ? edges[below(sizeof edges / sizeof *edges)] : (uint16_t)(1 + below(one_in(2) ? 300 : 65535));
}

/* A pack that is mostly full, its counts at times near their ends. */
static void play_full_pack(uint16_t design, uint16_t full)
{
    struct sb2_set_up in = some_set_up(true);
    in.design_capacity = design;
    in.full_capacity = full;
    in.remaining_capacity = one_in(8) ? (uint16_t)below(full + 1u) : full;
    in.cycle_count = one_in(2) ? (uint16_t)(65530 + below(6)) : some_word();
    in.discharge_limit |= 1;
    play_given_set_up(in, SNATCHBLOCK_AREA);
    if (one_in(4))
        put(TOWARD_AT, 8, (uint64_t)design * SB2_MS_PER_HOUR - 1 - below(4));
    if (one_in(8)) {
        put(SNATCHBLOCK_TANK, 8, 0);
        put(OPEN_AT, 1, 1);
        put(DRAWN_AT, 8, RUN_MOST - below(4));
    }
}

/* What a pack in use meets; the sizes of its draws go from none to more than any pack holds. */
static void play_use(void)
{
    uint64_t one_cycle = (uint64_t)number_at(SNATCHBLOCK_SETTINGS, 2) * SB2_MS_PER_HOUR;
    int16_t load = one_in(4) ? -1 : (int16_t)-(int32_t)(1 + below(32768));
    switch (below(12)) {
    case 0: flow(load, below(2000), one_in(2)); break;
    case 1: flow(load, below(4000000), one_in(4)); break;
    case 2: flow(load, some_elapsed(), one_in(2)); break;
    case 3: draw_off(about(one_cycle - wide_at(TOWARD_AT))); break;
    case 4: draw_off(about(RUN_MOST - wide_at(DRAWN_AT))); break;
    case 5: flow((int16_t)(-32768 + (int32_t)below(3)), 0xFFFFFFFFu - below(3), one_in(2)); break;
    case 6: flow(load, one_in(2) ? 0 : 1 + below(3), true); break;
    case 7: flow(0, some_elapsed(), one_in(2)); break;
    case 8: flow((int16_t)(1 + below(3000)), one_in(2) ? 0 : below(2000), one_in(2)); break;
    case 9: flow(32767, 0xFFFFFFFFu - below(1000), one_in(2)); break; /* full */
    case 10: flow(load, 0, false); break;
    default: flow(load, below(100000), true); break;
    }
}

/* Down from full in steady steps, past 0 at times, to the limit; what charges between is rare. */
static void play_long_discharge(void)
{
    uint16_t capacity = (uint16_t)(1 + below(400));
    int16_t load = (int16_t)-(int32_t)(1 + below(20000));
    play_full_pack(one_in(2) ? capacity : some_capacity(), capacity);
    flow(32767, 0xFFFFFFFFu, false);
    for (uint32_t left = 20 + below(200); left > 0; left--)
        flow(one_in(400) ? 1 : load, 1000, false);
    flow(load, 1000, true);
}

/* Learned exactly the design capacity, the most there is, or a mAh of either. */
static void play_learned(void)
{
    uint16_t design = some_capacity();
    uint64_t aim = (one_in(2) ? design : 1 + below(2)) * (uint64_t)SB2_MS_PER_HOUR;
    play_full_pack(design, some_capacity());
    flow(32767, 0xFFFFFFFFu, false);
    draw_off(about(one_in(4) ? RUN_MOST : aim));
    flow((int16_t)-(int32_t)below(3), below(2), true);
}

/* 0D about the least charge that a percent takes, so many hundredths of full; of 100 that is full, and more isn't sound. */
static void play_percent(void)
{
    uint16_t full = some_capacity();
    uint32_t percent = one_in(4) ? 100 : 1 + below(99);
    uint64_t least = (uint64_t)full * (SB2_MS_PER_HOUR / 100) * percent;
    uint8_t kept[SNATCHBLOCK_AREA];
    play_full_pack(some_capacity(), full);
    memcpy(kept, state_area, sizeof kept);
    for (unsigned i = 0; i < 3; i++) {
        put(SNATCHBLOCK_TANK, 8, least - 1 + i);
        play_bent_area(0x0D);
        other[(percent == 100 ? ABOUT_FULL : ABOUT_PERCENT) + i]++;
    }
    memcpy(state_area, kept, sizeof kept);
}

/* Counts and flags at the borders of what is sound, one field beyond it at a time. */
static void play_bent_tanks(void)
{
    uint64_t one_cycle = (uint64_t)number_at(SNATCHBLOCK_SETTINGS, 2) * SB2_MS_PER_HOUR;
    const uint64_t towards[4] = {one_cycle - 1, one_cycle, one_cycle + 1, draw() >> below(64)};
    const uint64_t drawn[2][4] = {{0, 1, RUN_MOST, draw() >> below(64)},
                                  {RUN_MOST - 1, RUN_MOST, RUN_MOST + 1, draw() >> below(64)}};
    const uint32_t flags[4] = {0, 1, 2, 3 + below(253)};
    uint8_t kept[SNATCHBLOCK_AREA];
    memcpy(kept, state_area, sizeof kept);
    for (unsigned i = 0; i < 4; i++) {
        put(TOWARD_AT, 8, towards[i]);
        play_bent_area(0x17);
        memcpy(state_area, kept, sizeof kept);
        other[TANK_TOWARD + i]++;
        for (unsigned open = 0; open < 2; open++) {
            put(OPEN_AT, 1, open);
            put(DRAWN_AT, 8, drawn[open][i]);
            play_bent_area(0x10);
            memcpy(state_area, kept, sizeof kept);
            other[(open ? TANK_OPEN : TANK_CLOSED) + i]++;
        }
        put(BIT_4_AT, 1, flags[i]);
        play_bent_area(0x16);
        memcpy(state_area, kept, sizeof kept);
        other[TANK_FLAG + i]++;
        put(DRAWN_AT, 8, 0);
        put(OPEN_AT, 1, flags[i]);
        play_bent_area(0x17);
        memcpy(state_area, kept, sizeof kept);
        other[TANK_FLAG + 4 + i]++;
    }
}

static void play_learning(void)
{
    for (int packs = 0; packs < 6; packs++) {
        play_full_pack(some_capacity(), some_capacity());
        for (uint32_t left = 1 + below(16); left > 0; left--)
            play_use();
        play_learned();
        play_percent();
    }
    play_bent_tanks();
    if (one_in(4))
        play_long_discharge();
}

/* ---- broadcasts with PEC and in plain */

/* A message of a broadcast as it went, then with one to three of its bits altered: these are never right. */
static void play_altered(const uint8_t message[5])
{
    for (uint32_t bits = 0; bits <= 3; bits++) {
        uint8_t altered[5];
        bool accepted = false;
        memcpy(altered, message, 5);
        for (uint32_t left = bits; left > 0;) {
            uint32_t place = below(40);
            uint8_t mask = (uint8_t)(1u << place % 8);
            if ((altered[place / 8] ^ message[place / 8]) & mask)
                continue; /* altered already */
            altered[place / 8] ^= mask;
            left--;
        }
        struct sb2_bytes exchange = lend(0, altered, 5);
        begin("exchange_check", 1, NO_AREA, false);
        int answer = sb2_check_exchange(exchange, &accepted);
        compare(snatchblock_exchange_check(exchange.at, 5), (uint32_t)answer | (uint32_t)accepted << 8);
        compare(accepted, bits == 0);
        came_up(EXCHANGE, (uint32_t)answer);
        other[ALTERED + bits]++;
    }
}

/* One state and one sample in one room of 15 to 21 bytes, with PEC and then in plain. */
static void play_choice(void)
{
    uint8_t kept[SNATCHBLOCK_AREA], messages[SB2_BROADCAST_ROOM];
    struct sb2_sample sample = some_sample();
    size_t room_length = SB2_PLAIN_ROOM - 1 + below(7);
    if (one_in(2))
        sample.counter = number_at(SNATCHBLOCK_LATEST + 6, 4) + 30000; /* all that can be due is */
    memcpy(kept, state_area, sizeof kept);
    put(PLAIN_AT, 1, 0);
    bool served = play_given_sample(sample, SNATCHBLOCK_AREA, room_length);
    size_t with_pec = sent_bytes;
    memcpy(messages, room.s, with_pec);
    memcpy(state_area, kept, sizeof kept);
    put(PLAIN_AT, 1, 1);
    other[ONE_ROOM + room_length - (SB2_PLAIN_ROOM - 1)]++;
    if (play_given_sample(sample, SNATCHBLOCK_AREA, room_length))
        other[(served ? DUE_SERVED : DUE_REFUSED) + sent_bytes / 4]++;
    for (size_t at = 0; at < with_pec; at += 5)
        play_altered(messages + at);
}

static void play_choices(void)
{
    for (int packs = 0; packs < 10; packs++) {
        play_set_up(true);
        for (uint32_t left = 1 + below(3); left > 0; left--)
            play_choice();
    }
    const uint32_t flags[4] = {0, 1, 2, 3 + below(253)};
    for (size_t i = 0; i < 4; i++) {
        put(PLAIN_AT, 1, flags[i]);
        play_bent_area(0x16);
        other[PLAIN_FLAG + i]++;
    }
}

/* ---- check bytes */

/* PEC has no longest message. */
static void play_long_pec(void)
{
    static uint8_t bytes[3000];
    fill(bytes, sizeof bytes);
    struct sb2_bytes message = lend(0, bytes, below(sizeof bytes + 1));
    begin("pec", 1, NO_AREA, false);
    compare(snatchblock_pec(message.at, message.length), sb2_pec(message));
    came_up(PEC, 0);
}

static void play_checks(void)
{
    if (one_in(50))
        play_long_pec();
    uint8_t a[80], b[80];
    size_t a_length = one_in(4) ? below(80) : below(40);
    size_t b_length = one_in(8) ? below(80) : a_length;
    fill(a, sizeof a);
    memcpy(b, a, sizeof b);
    for (uint32_t flips = below(6); flips > 0; flips--)
        b[below(80)] ^= (uint8_t)(1u << below(8));
    if (one_in(4))
        fill(b, sizeof b);
    if (a_length > 0 && one_in(2))
        a[a_length - 1] = sb2_pec(bytes_of(a, a_length - 1));
    struct sb2_bytes one = lend(0, a, a_length);
    struct sb2_bytes two = lend(1, b, b_length);
    begin("pec", 1, NO_AREA, false);
    compare(snatchblock_pec(one.at, one.length), sb2_pec(one));
    came_up(PEC, 0);
    bool accepted = false;
    begin("exchange_check", 1, NO_AREA, false);
    int answer = sb2_check_exchange(one, &accepted);
    compare(snatchblock_exchange_check(one.at, one.length), (uint32_t)answer | (uint32_t)accepted << 8);
    came_up(EXCHANGE, (uint32_t)answer);
    if (answer == SB2_SERVED)
        other[accepted ? EXCHANGE_RIGHT : EXCHANGE_WRONG]++;
    uint32_t bits = 0;
    begin("bit_comparison", 2, NO_AREA, false);
    answer = sb2_compare(one, two, &bits);
    compare(snatchblock_bit_comparison(one.at, one.length, two.at, two.length), (uint32_t)answer | bits << 8);
    came_up(BITS, (uint32_t)answer);
}

/* ---- keys */

/* A name, rich in the bytes that are escaped. */
static size_t some_name(uint8_t at[64])
{
    size_t length = one_in(8) ? 30 + below(6) : below(33);
    fill(at, length);
    for (size_t i = 0; i < length; i++)
        if (one_in(4))
            at[i] = one_in(2) ? 0x2F : 0x5C;
    return length;
}

static void play_read_key(const uint8_t *at, size_t length)
{
    struct sb2_bytes key = lend(0, at, length);
    struct sb2_key parts;
    begin("read_key", 1, NO_AREA, false);
    uint64_t proved = snatchblock_read_key(key.at, key.length);
    int answer = sb2_key_read(key, &parts);
    compare(proved, (uint64_t)answer | (uint64_t)parts.maker.length << 8 | (uint64_t)parts.device.length << 16 |
                        (uint64_t)parts.date << 24 | (uint64_t)parts.serial << 40);
    came_up(READ_KEY, (uint64_t)answer);
}

static void play_unescape(const uint8_t *at, size_t length)
{
    struct sb2_bytes part = lend(0, at, length);
    lend_room(one_in(2) ? 64 : below(40));
    size_t plain;
    begin("unescape", 1, NO_AREA, true);
    uint32_t proved = snatchblock_unescape(part.at, part.length, room.p, room.length);
    int answer = sb2_key_unescape(part, room.s, room.length, &plain);
    compare(proved, (uint32_t)answer | (uint32_t)plain << 8);
    came_up(UNESCAPE, (uint32_t)answer);
}

/* Puts a name of about 32 plain bytes, escaped, with a slash behind it. */
static size_t put_long_name(uint8_t *at)
{
    size_t place = 0;
    for (size_t left = one_in(2) ? 30 + below(6) : below(40); left > 0; left--) {
        uint8_t byte = one_in(4) ? (one_in(2) ? 0x2F : 0x5C) : (uint8_t)draw();
        if (byte == 0x2F || byte == 0x5C)
            at[place++] = 0x5C;
        at[place++] = byte;
    }
    at[place++] = 0x2F;
    return place;
}

/* A key that was put together without the writer, its names too long at times. */
static void play_long_key(void)
{
    uint8_t key[200];
    size_t place = put_long_name(key);
    if (one_in(2))
        play_unescape(key, place - 1);
    place += put_long_name(key + place);
    for (int i = 0; i < 9; i++) {
        static const char digits[] = "0123456789abcdef";
        key[place++] = (uint8_t)(i == 4 ? '/' : digits[below(16)]);
    }
    if (one_in(8))
        key[place - 1 - below(12)] = (uint8_t)draw();
    play_read_key(key, place);
}

static void play_keys(void)
{
    uint8_t maker[64], device[64], key[160];
    struct sb2_bytes m = lend(0, maker, some_name(maker));
    struct sb2_bytes d = lend(1, device, some_name(device));
    uint16_t date = some_word(), serial = some_word();
    lend_room(room_size(SB2_KEY_ROOM));
    size_t length;
    begin("write_key (maker, device)", 2, NO_AREA, true);
    note(date), note(serial);
    uint32_t proved = snatchblock_write_key(m.at, m.length, d.at, d.length, date, serial, room.p, room.length);
    int answer = sb2_key_write(m, d, date, serial, room.s, room.length, &length);
    compare(proved, (uint32_t)answer | (uint32_t)length << 8);
    came_up(WRITE_KEY, (uint32_t)answer);
    memcpy(key, room.s, length);
    play_read_key(key, length);
    if (length > 0) {
        struct sb2_key parts;
        (void)sb2_key_read(bytes_of(key, length), &parts);
        play_unescape(key, parts.maker.length);
        play_unescape(key + parts.device.offset, parts.device.length);
        static const uint8_t bends[] = {0x2F, 0x5C, 0x41, 0x30, 0x66, 0x67, 0x46};
        key[below((uint32_t)length)] = bends[below(sizeof bends)];
        play_read_key(key, length);
        play_read_key(key, below((uint32_t)length));
        play_unescape(key, below((uint32_t)length));
    }
    play_long_key();
    fill(key, sizeof key);
    play_read_key(key, below(sizeof key));
    play_unescape(maker, m.length);
}

/* ---- captures */

enum { MORE = 64 }; /* bytes beyond the longest capture */

static size_t some_capture(uint8_t *at)
{
    size_t rows = one_in(200) ? below(256) : below(12);
    size_t place = 1 + 2 * rows;
    at[0] = (uint8_t)rows;
    for (size_t i = 0; i < rows; i++) {
        size_t length = below(38);
        at[1 + 2 * i] = (uint8_t)below(2);
        at[2 + 2 * i] = (uint8_t)length;
        fill(at + place, length);
        place += length;
    }
    size_t bent = below(1 + 2 * (uint32_t)rows);
    switch (below(12)) {
    case 0: return below((uint32_t)place + 1);
    case 1: return place + 1;
    case 2: at[bent] ^= (uint8_t)(1u << below(8)); return place;
    case 3: at[bent] = (uint8_t)(at[bent] + (one_in(2) ? 1 : -1)); return place;
    case 4: /* a row of 38 bytes, which are there */
        if (rows == 0)
            return place;
        place -= at[2 * rows];
        at[2 * rows] = (uint8_t)(37 + below(2));
        fill(at + place, 38);
        return place + at[2 * rows];
    case 5: return one_in(5) ? SB2_CAPTURE_MOST + below(MORE) : place;
    default: return place;
    }
}

/* What a step meets first, for the tally. */
static enum other step_meets(struct sb2_bytes capture, size_t row, size_t place)
{
    size_t rows = capture.length ? capture.at[0] : 0;
    if (place == 0)
        return STEP_AT_0;
    if (capture.length < 1 + 2 * rows)
        return STEP_CUT_TABLE;
    if (capture.length > SB2_CAPTURE_MOST)
        return STEP_TOO_LONG;
    if (row >= rows)
        return STEP_PAST_LAST;
    size_t length = capture.at[2 + 2 * row];
    if (capture.at[1 + 2 * row] > 1 || length > SB2_MESSAGE_MOST)
        return STEP_MISFIT;
    if (place < 1 + 2 * rows)
        return STEP_IN_TABLE;
    if (place > capture.length || capture.length - place < length)
        return STEP_PAST_END;
    return sb2_capture_test(capture) == SB2_SERVED ? STEP_ROW : STEP_ROW_OF_OTHERS;
}

static uint64_t play_step(struct sb2_bytes capture, size_t row, size_t place)
{
    struct sb2_walk walk = {capture, row, place};
    struct sb2_row found;
    begin("step_capture", 1, NO_AREA, false);
    note(row), note(place);
    uint64_t second = (uint64_t)sb2_walk_test(&walk);
    if (second == SB2_SERVED && sb2_walk_next(&walk, &found))
        second = 1u << 8 | (uint64_t)found.read << 9 | (uint64_t)found.body.length << 16 | (uint64_t)walk.place << 32;
    compare(snatchblock_step_capture(capture.at, capture.length, row, place), second);
    came_up(STEP, second);
    other[step_meets(capture, row, place)]++;
    return second;
}

static size_t some_row(void)
{
    switch (below(8)) {
    case 0: return (size_t)draw();
    case 1: return (size_t)1 << 63;
    default: return below(14);
    }
}

static size_t some_place(struct sb2_bytes capture)
{
    switch (below(8)) {
    case 0: return (size_t)draw();
    case 1: return 0;
    case 2: return capture.length - below(SB2_MESSAGE_MOST + 1); /* below 0 it wraps */
    case 3: return below(26);
    default: return below(300);
    }
}

static void play_captures(void)
{
    static uint8_t bytes[SB2_CAPTURE_MOST + MORE];
    struct sb2_walk walk;
    size_t length = some_capture(bytes);
    struct sb2_bytes capture = lend(0, bytes, length);
    begin("open_capture", 1, NO_AREA, false);
    uint32_t second = (uint32_t)sb2_walk_begin(capture, &walk);
    if (second == SB2_SERVED)
        second |= (uint32_t)capture.at[0] << 8 | (uint32_t)walk.place << 16;
    compare(snatchblock_open_capture(capture.at, capture.length), second);
    came_up(OPEN, second);
    size_t row = 0, place = second >> 16;
    for (;;) {
        uint64_t step = play_step(capture, row, place);
        if ((step >> 8 & 1) == 0)
            break;
        row++;
        place = step >> 32;
    }
    for (int i = 0; i < 4; i++)
        (void)play_step(capture, some_row(), some_place(capture));
}

/* ---- the shelf */

enum { SHELF_MOST = 2000 };
static struct sb2_shelf_row shelf[SHELF_MOST];
static size_t shelf_rows;

static size_t some_count(void)
{
    static const uint32_t edges[] = {0, 1, 2, 3, 63, 64, 65, 66};
    if (one_in(100))
        return 67 + below(SHELF_MOST - 66);
    return one_in(2) ? edges[below(sizeof edges / sizeof *edges)] : below(67);
}

/* What a row is built for. */
enum rows { ANY, MULTIPLES, NEAR, FIFTHS, EDGES, ROW_KINDS };

/* Puts a row's remaining and full; a and b are the table's pair, which its multiples and neighbours stand around. */
static void some_ratio(enum rows kind, uint32_t a, uint32_t b, struct sb2_shelf_row *row)
{
    static const uint16_t edges[] = {1, 2, 65534, 65535};
    uint32_t full = 1 + below(one_in(2) ? 65535 : 6000), remaining = below(full + 1), k;
    switch (kind) {
    case MULTIPLES: k = 1 + below(65535 / b), remaining = a * k, full = b * k; break;
    case NEAR: k = below(b < 65533 ? 3 : 1), remaining = a + k, full = b + k; break;
    case FIFTHS: /* one off in full, or in remaining */
        remaining = 1 + below(13106), full = 5 * remaining;
        if (one_in(2))
            full = full - 1 + below(3);
        else
            remaining = remaining - 1 + below(3);
        break;
    case EDGES:
        full = edges[below(4)];
        remaining = one_in(2) ? below(2) : full - below(2);
        break;
    default: break;
    }
    row->remaining = (uint16_t)remaining;
    row->full = (uint16_t)full;
}

/* A table without a bad row, its rows built for one thing, at times with any others between. */
static void some_shelf(enum rows kind, size_t count)
{
    bool mixed = one_in(2);
    uint32_t b = 1 + below(one_in(2) ? 65535 : 300);
    uint32_t a = kind == NEAR && one_in(2) ? b - 1 : below((one_in(2) ? b : b / 50) + 1);
    shelf_rows = count;
    for (size_t i = 0; i < shelf_rows; i++) {
        some_ratio(mixed && one_in(4) ? ANY : kind, a, b, &shelf[i]);
        shelf[i].design = (uint16_t)(one_in(8) ? 1 : 1 + below(65535));
        shelf[i].cycles = some_word();
    }
}

/* Makes a row bad: full 0, design 0, remaining above full; the first at times for the third reason too. */
static void spoil(struct sb2_shelf_row *row, unsigned reason)
{
    switch (reason) {
    case 0: row->full = 0, row->remaining = one_in(4) ? some_word() : 0; break;
    case 1: row->design = 0; break;
    default:
        row->full = (uint16_t)(1 + below(65534));
        row->remaining = (uint16_t)(row->full + 1 + (one_in(2) ? 0 : below(65535u - row->full)));
        break;
    }
}

static unsigned reasons(const struct sb2_shelf_row *row)
{
    return (row->full == 0) | (row->design == 0) << 1 | (row->remaining > row->full) << 2;
}

/* How many rows are bad, and the last of them with its reasons. */
static size_t bad_rows(size_t *place, unsigned *why)
{
    size_t bad = 0;
    for (size_t i = 0; i < shelf_rows; i++)
        if (reasons(&shelf[i])) {
            *place = i;
            *why = reasons(&shelf[i]);
            bad++;
        }
    return bad;
}

/* Which row was refused, and why. */
static void note_bad_row(void)
{
    size_t place = 0;
    unsigned why = 0;
    if (bad_rows(&place, &why) > 1)
        other[SHELF_BAD_TWICE + 1]++;
    else if (why == 1 || why == 2 || why == 4)
        other[SHELF_BAD_ROW + 3 * place + why / 2]++;
    else
        other[SHELF_BAD_TWICE]++;
}

/* A served row beside the lowest: ties, one product apart, and where remaining or whole percent would mislead. */
static void note_beside(const struct sb2_shelf_row *row, const struct sb2_shelf_row *lowest)
{
    uint64_t its = (uint64_t)row->remaining * lowest->full, least = (uint64_t)lowest->remaining * row->full;
    if (row != lowest && its == least)
        other[SHELF_TIE + (row->full != lowest->full)]++;
    if (its == least + 1)
        other[SHELF_NEAR]++;
    if (row->remaining < lowest->remaining)
        other[SHELF_NEAR + 1]++;
    if (its > least && row < lowest && 100u * row->remaining / row->full == 100u * lowest->remaining / lowest->full)
        other[SHELF_NEAR + 2]++;
}

/* A served row by itself: about one fifth, and at the edges. */
static void note_row(const struct sb2_shelf_row *row)
{
    static const int32_t apart[5] = {-5, -1, 0, 1, 5};
    static const uint16_t edges[4][2] = {{0, 65535}, {65535, 65535}, {0, 1}, {1, 1}};
    for (size_t i = 0; i < 5; i++)
        if (5 * row->remaining - row->full == apart[i])
            other[SHELF_FIFTH + i]++;
    for (size_t i = 0; i < 4; i++)
        if (row->remaining == edges[i][0] && row->full == edges[i][1])
            other[SHELF_EDGE + i]++;
}

static void note_served_shelf(size_t lowest)
{
    other[SHELF_OF + shelf_rows]++;
    if (shelf_rows > 0)
        other[SHELF_LOWEST + lowest]++;
    for (size_t i = 0; i < shelf_rows; i++) {
        note_beside(&shelf[i], &shelf[lowest]);
        note_row(&shelf[i]);
    }
}

/* The rooms and lengths, and each two conditions that held at once. */
static void note_shelf(size_t ragged)
{
    size_t place;
    unsigned why;
    const bool holds[4] = {room.length < SB2_SHELF_ROOM, ragged > 0, shelf_rows > SB2_SHELF_MOST, bad_rows(&place, &why) > 0};
    if (room.length <= 20)
        other[SHELF_ROOM + room.length]++;
    if (ragged > 0)
        other[SHELF_RAGGED + ragged - 1]++;
    for (size_t i = 0, both = 0; i < 4; i++)
        for (size_t j = i + 1; j < 4; j++, both++)
            if (holds[i] && holds[j])
                other[SHELF_ORDER + both]++;
}

/* The table in bytes, with some of a row more. */
static void play_shelf_bytes(size_t ragged, size_t room_length)
{
    static uint8_t bytes[SHELF_MOST * SB2_SHELF_ROW + 7];
    uint8_t *at = bytes;
    for (size_t i = 0; i < shelf_rows; i++) {
        const uint16_t words[4] = {shelf[i].remaining, shelf[i].full, shelf[i].design, shelf[i].cycles};
        for (size_t j = 0; j < 4; j++, at += 2) {
            at[0] = (uint8_t)(words[j] & 0xFF);
            at[1] = (uint8_t)(words[j] >> 8);
        }
    }
    fill(at, ragged);
    struct sb2_bytes table = lend(0, bytes, SB2_SHELF_ROW * shelf_rows + ragged);
    lend_room(room_length);
    size_t length;
    begin("shelf_report", 1, NO_AREA, true);
    uint32_t proved = snatchblock_shelf_report(table.at, table.length, room.p, room.length);
    int answer = sb2_shelf_report_bytes(table, room.s, room.length, &length);
    compare(proved, (uint32_t)answer | (uint32_t)length << 8);
    came_up(SHELF, (uint32_t)answer);
    note_shelf(ragged);
    if (answer == SB2_SERVED)
        note_served_shelf(room.s[14]);
    else if (answer == SB2_TOO_MANY_ROWS)
        other[SHELF_OF_MORE + (shelf_rows > 66 ? 2 : shelf_rows - 65)]++;
    else if (answer == SB2_BAD_ROW)
        note_bad_row();
}

/* The figures in structs, one by one; the number noted is which of them. */
static void compare_figures(const struct snatchblock_figures *p, const struct sb2_shelf *s)
{
    const uint64_t figures[][2] = {
        {p->packs, s->packs}, {p->remaining, s->remaining}, {p->full, s->full}, {p->is_lowest, s->is_lowest},
        {p->lowest_remaining, s->lowest_remaining}, {p->lowest_full, s->lowest_full},
        {p->lowest_place, s->lowest_place}, {p->low, s->low}};
    for (size_t i = 0; i < sizeof figures / sizeof *figures; i++) {
        call.numbers = 0;
        note(i);
        compare(figures[i][0], figures[i][1]);
    }
}

/* The table in structs: the header's, lent for reading, beside the second program's. */
static void play_shelf_structs(void)
{
    static struct snatchblock_row rows[SHELF_MOST];
    for (size_t i = 0; i < shelf_rows; i++)
        rows[i] = (struct snatchblock_row){.remaining = shelf[i].remaining, .full = shelf[i].full,
                                           .design = shelf[i].design, .cycles = shelf[i].cycles};
    const void *table = lend(0, (const uint8_t *)rows, shelf_rows * sizeof *rows).at;
    struct snatchblock_figures ours;
    struct sb2_shelf theirs;
    memset(&ours, (int)below(2), sizeof ours); /* every bool is 0 or 1 */
    begin("shelf_report_from", 1, NO_AREA, false);
    uint32_t proved = snatchblock_shelf_report_from(table, shelf_rows, &ours);
    uint32_t second = (uint32_t)sb2_shelf_report(shelf, shelf_rows, &theirs);
    compare(proved, second == SB2_SERVED ? SB2_SHELF_ROOM << 8 : second);
    compare_figures(&ours, &theirs);
    came_up(SHELF_FROM, second);
}

/* 64 rows: each in its turn the lowest, and bad for each reason. */
static void play_each_place(void)
{
    some_shelf(ANY, SB2_SHELF_MOST);
    for (size_t i = 0; i < shelf_rows; i++) {
        struct sb2_shelf_row kept = shelf[i];
        shelf[i].remaining = 0;
        play_shelf_bytes(0, SB2_SHELF_ROOM);
        for (unsigned reason = 0; reason < 3; reason++) {
            shelf[i] = kept;
            spoil(&shelf[i], reason);
            play_shelf_bytes(0, SB2_SHELF_ROOM);
        }
        shelf[i] = kept;
    }
}

static void play_shelf(void)
{
    some_shelf((enum rows)below(ROW_KINDS), some_count());
    play_shelf_bytes(0, SB2_SHELF_ROOM + (one_in(4) ? below(ROOM_MOST) : 0));
    play_shelf_bytes(below(8), below(21));
    play_shelf_structs();
    if (shelf_rows > 0)
        for (uint32_t times = one_in(8) ? 2 : 1; times > 0; times--)
            spoil(&shelf[below((uint32_t)shelf_rows)], below(3));
    play_shelf_bytes(0, SB2_SHELF_ROOM);
    play_shelf_bytes(below(8), below(21));
    play_shelf_structs();
}

/* ---- the charger */

/* Where its area keeps what: of a request the word, then two flags. */
enum { C_CURRENT_AT = 0, C_VOLTAGE_AT = 4, C_TAKEN = 2, C_AWAITED = 3, C_INHIBITED_AT = 8, C_COUNT_AT = 9,
       C_COUNTER_AT = 19 };
static const size_t charger_flags[5] = {C_CURRENT_AT + C_TAKEN, C_CURRENT_AT + C_AWAITED, C_VOLTAGE_AT + C_TAKEN,
                                        C_VOLTAGE_AT + C_AWAITED, C_INHIBITED_AT};
static uint8_t charger_area[AREA_MOST]; /* between calls */

static struct sb2_bytes charger_bytes(void)
{
    return bytes_of(charger_area, SB2_CHARGER_AREA);
}

static void put_charger(size_t at, size_t bytes, uint32_t value)
{
    for (size_t i = 0; i < bytes; i++)
        charger_area[at + i] = (uint8_t)(value >> 8 * i);
}

static uint32_t charger_number(size_t at, size_t bytes)
{
    uint32_t value = 0;
    for (size_t i = 0; i < bytes; i++)
        value |= (uint32_t)charger_area[at + i] << 8 * i;
    return value;
}

static void keep_charger(void)
{
    if (area.length == SB2_CHARGER_AREA)
        memcpy(charger_area, area.s, SB2_CHARGER_AREA);
}

/* What flows now, by the second program alone; 0 of what isn't sound. */
static uint16_t charger_flow(void)
{
    uint16_t current;
    (void)sb2_area_charger_current(charger_bytes(), &current);
    return current;
}

/* Mostly the right size, at times any. */
static size_t charger_size(void)
{
    return one_in(40) ? below(AREA_MOST + 1) : SB2_CHARGER_AREA;
}

/* An area of another size came to one of the five entries. */
static void note_charger_size(unsigned entry, size_t length)
{
    unsigned class = length == 0 ? 0 : length == SB2_CHARGER_AREA - 1 ? 1 : length == SB2_CHARGER_AREA + 1 ? 2 : 3;
    if (length != SB2_CHARGER_AREA)
        other[C_LENGTH + 5 * entry + (class < 3 || length == SNATCHBLOCK_AREA ? class : 4)]++;
}

static void note_sample(struct sb2_sample sample)
{
    note(sample.voltage), note((uint16_t)sample.current), note(sample.temperature), note(sample.counter);
}

static void play_charger_set_up(struct sb2_sample first, size_t length)
{
    if (length == SB2_CHARGER_AREA)
        fill(charger_area, length);
    lend_area(charger_area, length);
    begin("charger_set_up", 0, WRITES_SERVED, false);
    note_sample(first);
    uint32_t proved = proved_charger_set_up(area.p, length, &first);
    uint32_t second = (uint32_t)sb2_area_charger_set_up(area.s, length, &first);
    compare(proved, second);
    came_up(CHARGER_SET_UP, second);
    note_charger_size(0, length);
    keep_charger();
}

static void play_charger_sound(size_t length)
{
    lend_area(charger_area, length);
    begin("charger_sound", 0, READS_AREA, false);
    bool proved = snatchblock_charger_sound(area.p, length);
    bool second = sb2_area_charger_sound(bytes_of(area.s, length));
    compare(proved, second);
    came_up(CHARGER_SOUND, second);
    note_charger_size(1, length);
}

/* Why no current flows; counted where one reason alone stands against it. */
static void note_charger_current(void)
{
    struct sb2_charger c;
    (void)sb2_area_charger_load(charger_bytes(), &c);
    bool current_taken = c.facts & SB2_CURRENT_TAKEN, voltage_taken = c.facts & SB2_VOLTAGE_TAKEN;
    const bool reasons[8] = {!current_taken, current_taken && c.current == 0, !voltage_taken,
                             voltage_taken && c.voltage == 0, c.facts & SB2_CURRENT_AWAITED,
                             c.facts & SB2_VOLTAGE_AWAITED, c.facts & SB2_INHIBITED, c.silence == SB2_SILENCE_MS};
    unsigned count = 0, last = 0;
    for (unsigned i = 0; i < 8; i++)
        if (reasons[i]) {
            count++;
            last = i;
        }
    if (count < 2)
        other[count == 0 ? C_FLOWS : C_ZERO + last]++;
}

static void play_charger_current(size_t length)
{
    uint16_t current;
    lend_area(charger_area, length);
    begin("charger_current", 0, READS_AREA, false);
    uint32_t proved = snatchblock_charger_current(area.p, length);
    int answer = sb2_area_charger_current(bytes_of(area.s, length), &current);
    compare(proved, (uint32_t)answer | (uint32_t)current << 8);
    came_up(CHARGER_CURRENT, (uint32_t)answer);
    note_charger_size(2, length);
    if (answer == SB2_SERVED)
        note_charger_current();
}

/* Where a served sample brought the count. */
static void note_charger_count(uint32_t before, uint32_t elapsed)
{
    if (before == SB2_SILENCE_MS)
        other[C_COUNT_TO + 3] += elapsed > 0;
    else if (before + elapsed == SB2_SILENCE_MS - 1)
        other[C_COUNT_TO]++;
    else if (elapsed >= SB2_SILENCE_MS - before)
        other[C_COUNT_TO + 1 + (elapsed > SB2_SILENCE_MS - before)]++;
}

static void play_charger_sample(struct sb2_sample sample, size_t length)
{
    uint32_t before = charger_number(C_COUNT_AT, 4), elapsed = sample.counter - charger_number(C_COUNTER_AT, 4);
    lend_area(charger_area, length);
    begin("charger_sample", 0, WRITES_SERVED, false);
    note_sample(sample);
    uint32_t proved = proved_charger_sample(area.p, length, &sample);
    uint32_t second = (uint32_t)sb2_area_charger_sample(area.s, length, &sample);
    compare(proved, second);
    came_up(CHARGER_SAMPLE, second);
    note_charger_size(3, length);
    if (second == SB2_SERVED)
        note_charger_count(before, elapsed);
    keep_charger();
}

/* ---- its transactions */

/* What each request finds: awaited are none, this one, the other, both. */
static unsigned awaited_beside(size_t request)
{
    size_t beside = request == C_CURRENT_AT ? C_VOLTAGE_AT : C_CURRENT_AT;
    return charger_area[request + C_AWAITED] | (unsigned)charger_area[beside + C_AWAITED] << 1;
}

static void note_charger_mode(uint16_t word)
{
    unsigned taken = charger_area[C_CURRENT_AT + C_TAKEN] | (unsigned)charger_area[C_VOLTAGE_AT + C_TAKEN] << 1;
    for (unsigned bit = 0; bit < 16; bit++)
        other[(word >> bit & 1 ? C_MODE_SET : C_MODE_CLEAR) + bit]++;
    if ((word & 1 << 2) == 0) {
        if (word & 1 << 3)
            other[C_RESET + 4 * (word & 1u) + taken]++;
        return;
    }
    other[C_POWER_ON] += charger_area[C_INHIBITED_AT];
    other[C_POWER_ON + 1] += awaited_beside(C_CURRENT_AT) > 0;
    other[C_POWER_ON + 2] += taken == 3;
    other[C_POWER_ON + 3] += (word & 9) == 9;
}

static void note_charger_alarm(uint16_t word)
{
    unsigned taken = (unsigned)charger_area[C_CURRENT_AT + C_TAKEN] + charger_area[C_VOLTAGE_AT + C_TAKEN];
    for (unsigned bit = 0; bit < 16; bit++)
        if (word >> bit & 1)
            other[C_ALARM_BIT + bit]++;
    if (word & 0xF000)
        other[C_ALARM_AT + 4 * taken + awaited_beside(C_CURRENT_AT)]++;
    else
        other[C_ALARM_NONE]++;
}

/* A served write, by the area before it. */
static void note_charger_write(uint8_t command, uint16_t word, bool with_pec)
{
    other[C_WRITE + 4u * with_pec + (command == 0x12 ? 0 : command - 0x13u)]++;
    if (command == 0x12)
        note_charger_mode(word);
    else if (command == 0x16)
        note_charger_alarm(word);
    else {
        size_t request = command == 0x14 ? C_CURRENT_AT : C_VOLTAGE_AT;
        other[C_REQUEST + 4 * (command - 0x14u) + awaited_beside(request)]++;
        other[C_AGAIN + command - 0x14u] += charger_number(C_COUNT_AT, 4) == SB2_SILENCE_MS;
    }
}

/* A request that ended an alarm, and now a current flows. */
static void note_charger_back(uint8_t command, unsigned awaited)
{
    if ((command == 0x14 || command == 0x15) && awaited == 1 && charger_flow() > 0)
        other[C_BACK + command - 0x14u]++;
}

/* Each two of the seven conditions that held at once; a form and a PEC, 6 and 8 never do. */
static void note_charger_order(bool sound, bool read, struct sb2_bytes m)
{
    uint8_t command = m.length > 1 ? m.at[1] : 0x11;
    bool accepted = true, only_read = command == 0x11 || command == 0x13;
    if (!read && m.length == 5)
        (void)sb2_check_exchange(m, &accepted);
    const bool reserved = command < 0x11 || command > 0x16;
    const bool holds[7] = {!sound, room.length < SB2_CHARGER_ROOM, m.length == 0 || m.at[0] != 0x12,
                           read ? m.length != 3 || m.at[2] != 0x13 : m.length != 4 && m.length != 5, !accepted,
                           reserved, m.length > 1 && !reserved && only_read != read};
    for (size_t i = 0, both = 0; i < 7; i++)
        for (size_t j = i + 1; j < 7; j++, both++)
            if (holds[i] && holds[j])
                other[C_BOTH + both]++;
}

/* What a message was refused for, or that it was right but for its command or its room. */
static void note_charger_message(int answer, bool read, struct sb2_bytes m)
{
    if (answer == SB2_NOT_FOR_PACK)
        other[C_ADDRESS + (m.length == 0 ? 0 : m.at[0] == 0x10 ? 1 : m.at[0] == 0x13 ? 2 : m.at[0] == 0x16 ? 3 : 4)]++;
    else if (answer == SB2_WRONG_FORM)
        other[C_FORM + (read ? m.length == 3 : 2)]++;
    else if (answer == SB2_SERVED || answer == SB2_RESERVED || answer == SB2_READ_ONLY)
        other[C_COMMAND + 256u * !read + m.at[1]]++;
    if (answer == SB2_SERVED || answer == SB2_SMALL_ROOM)
        other[C_ROOM + 5u * !read + (room.length < 4 ? room.length : 4)]++;
}

/* The word of a served read of 13. */
static void note_charger_status(uint16_t word)
{
    for (unsigned bit = 0; bit < 16; bit++)
        other[(word >> bit & 1 ? C_STATUS_SET : C_STATUS_CLEAR) + bit]++;
}

static int play_charger_message(const uint8_t *message, size_t message_length, bool read, size_t length,
                                size_t room_length)
{
    bool sound = length == SB2_CHARGER_AREA && sb2_area_charger_sound(charger_bytes());
    unsigned awaited = message_length > 1 ? awaited_beside(message[1] == 0x15 ? C_VOLTAGE_AT : C_CURRENT_AT) : 0;
    size_t sent;
    lend_area(charger_area, length);
    lend_room(room_length);
    struct sb2_bytes m = lend(0, message, message_length);
    begin("charger_transact", 1, read ? READS_AREA : WRITES_SERVED, true);
    note(read);
    uint32_t proved = snatchblock_charger_transact(area.p, length, read, m.at, m.length, room.p, room.length);
    int answer = sb2_area_charger_transact(area.s, length, read, m, room.s, room.length, &sent);
    compare(proved, (uint32_t)answer | (uint32_t)sent << 8);
    came_up(CHARGER_TRANSACT, (uint32_t)answer);
    note_charger_size(4, length);
    note_charger_order(sound, read, m);
    note_charger_message(answer, read, m);
    if (answer == SB2_SERVED && read) {
        other[C_READ + (message[1] == 0x13)]++;
        if (message[1] == 0x13)
            note_charger_status((uint16_t)(room.s[0] | room.s[1] << 8));
    } else if (answer == SB2_SERVED)
        note_charger_write(message[1], (uint16_t)(message[2] | message[3] << 8), message_length == 5);
    keep_charger();
    if (answer == SB2_SERVED && !read)
        note_charger_back(message[1], awaited);
    return answer;
}

/* Reads or writes whole, in the least room. */
static void play_charger_read(uint8_t command)
{
    const uint8_t ask[3] = {0x12, command, 0x13};
    (void)play_charger_message(ask, 3, true, SB2_CHARGER_AREA, SB2_CHARGER_ROOM);
}

static void play_charger_write(uint8_t command, uint16_t word)
{
    uint8_t message[5];
    put_write(message, 0x12, command, word);
    (void)play_charger_message(message, 4 + below(2), false, SB2_CHARGER_AREA, SB2_CHARGER_ROOM);
}

static void play_charger_transact(size_t length)
{
    uint8_t message[64];
    bool read;
    size_t message_length = some_charger_message(message, &read);
    (void)play_charger_message(message, message_length, read, length, charger_room());
}

/* ---- its life */

static uint32_t charger_gap(unsigned class)
{
    static const uint32_t gaps[7] = {0, 1, 999, 1000, 60000, 174999, 175000};
    if (class == 8) /* over the wrap */
        return 0u - charger_number(C_COUNTER_AT, 4) + below(1000);
    return class == 7 ? 3600000u * (1 + below(1192)) + below(2000) : gaps[class];
}

/* What is measured, at times at a request or one off it. */
static struct sb2_sample charger_measured(uint32_t counter)
{
    struct sb2_sample sample = {some_word(), some_current(), some_word(), counter};
    if (one_in(3)) {
        sample.voltage = (uint16_t)(charger_number(C_VOLTAGE_AT, 2) - 1 + below(3));
        sample.current = (int16_t)(charger_number(C_CURRENT_AT, 2) - 1 + below(3));
    }
    return sample;
}

static void play_charger_time(size_t length)
{
    unsigned class = one_in(2) ? 3 : below(9);
    struct sb2_sample sample = charger_measured(charger_number(C_COUNTER_AT, 4) + charger_gap(class));
    bool served = length == SB2_CHARGER_AREA && sb2_area_charger_sound(charger_bytes());
    play_charger_sample(sample, length);
    if (served)
        other[C_GAP + class]++;
}

static void play_charger_life(void)
{
    uint32_t counter = one_in(4) ? 0xFFFFFFFFu - below(200000) : (uint32_t)draw();
    struct sb2_sample first = {some_word(), some_current(), some_word(), counter};
    play_charger_set_up(first, SB2_CHARGER_AREA);
    for (uint32_t left = 20 + below(60); left > 0; left--) {
        if (one_in(4))
            play_charger_time(charger_size());
        else
            play_charger_transact(charger_size());
        if (one_in(3))
            play_charger_current(charger_size());
        if (one_in(8))
            play_charger_read(0x13);
    }
    play_charger_sound(charger_size());
}

/* Both requests; an alarm and one request again, at times another alarm; then the other one. */
static void play_charger_alarm(void)
{
    uint8_t first = (uint8_t)(0x14 + below(2));
    play_charger_write(0x14, some_word() | 1);
    play_charger_write(0x15, some_word() | 1);
    play_charger_current(SB2_CHARGER_AREA);
    play_charger_write(0x16, (uint16_t)(1u << (12 + below(4)) | below(0x1000)));
    play_charger_current(SB2_CHARGER_AREA);
    play_charger_write(first, some_word() | 1);
    play_charger_current(SB2_CHARGER_AREA);
    if (one_in(3))
        play_charger_write(0x16, (uint16_t)(1u << (12 + below(4))));
    play_charger_read(0x13);
    play_charger_write((uint8_t)(0x29 - first), some_word() | 1);
    play_charger_current(SB2_CHARGER_AREA);
}

/* Samples to the end of the count, past it and about it; then a request starts it again. */
static void play_charger_silence(void)
{
    uint32_t counter = charger_number(C_COUNTER_AT, 4);
    uint32_t part = below(SB2_SILENCE_MS), aim = SB2_SILENCE_MS - 2 + below(4);
    play_charger_write(0x14, some_word());
    play_charger_write(0x15, some_word());
    play_charger_sample(charger_measured(counter += part), SB2_CHARGER_AREA);
    play_charger_current(SB2_CHARGER_AREA);
    play_charger_sample(charger_measured(counter += aim - part), SB2_CHARGER_AREA);
    play_charger_current(SB2_CHARGER_AREA);
    play_charger_sample(charger_measured(counter + below(2)), SB2_CHARGER_AREA);
    play_charger_current(SB2_CHARGER_AREA);
    play_charger_write(0x12, charger_word(0x12));
    play_charger_write((uint8_t)(0x14 + below(2)), some_word());
    play_charger_current(SB2_CHARGER_AREA);
}

/* A right write of five bytes, then with one to three of its bits altered: these are never taken. */
static void play_charger_altered(void)
{
    uint8_t command = (uint8_t)(one_in(4) ? 0x12 : 0x14 + below(3)), message[5];
    uint16_t word = charger_word(command);
    for (uint32_t bits = 0; bits <= 3; bits++) {
        put_write(message, 0x12, command, word);
        alter(message, 5, bits);
        int answer = play_charger_message(message, 5, false, SB2_CHARGER_AREA, SB2_CHARGER_ROOM);
        compare(answer != SB2_SERVED, bits > 0);
        other[C_ALTERED + bits]++;
    }
}

/* Any area that is sound; with these flags, their bits as in charger_flags. */
static void some_charger(uint32_t flags)
{
    fill(charger_area, SB2_CHARGER_AREA);
    put_charger(C_CURRENT_AT, 2, one_in(4) ? 0 : some_word());
    put_charger(C_VOLTAGE_AT, 2, one_in(4) ? 0 : some_word());
    for (size_t i = 0; i < 5; i++)
        put_charger(charger_flags[i], 1, flags >> i & 1);
    put_charger(C_COUNT_AT, 4, one_in(4) ? SB2_SILENCE_MS - below(2) : below(SB2_SILENCE_MS + 1));
}

/* The area in each entry that looks at it; it stays as it is. */
static void play_charger_area(void)
{
    uint8_t kept[SB2_CHARGER_AREA];
    memcpy(kept, charger_area, sizeof kept);
    play_charger_sound(SB2_CHARGER_AREA);
    play_charger_current(SB2_CHARGER_AREA);
    play_charger_read(0x13);
    play_charger_transact(charger_size());
    memcpy(charger_area, kept, sizeof kept);
    play_charger_time(charger_size());
    memcpy(charger_area, kept, sizeof kept);
}

/* Areas with every set of flags, counts about 175,000, and one flag of each kind that is none. */
static void play_charger_areas(void)
{
    const uint32_t counts[5] = {0, SB2_SILENCE_MS - 1, SB2_SILENCE_MS, SB2_SILENCE_MS + 1,
                                SB2_SILENCE_MS + 2 + below(UINT32_MAX - SB2_SILENCE_MS - 1)};
    const uint32_t values[4] = {0, 1, 2, 3 + below(253)};
    uint32_t count = below(5), flag = below(5), value = below(4);
    some_charger(below(32));
    play_charger_area();
    put_charger(C_COUNT_AT, 4, counts[count]);
    play_charger_area();
    other[C_COUNT + count]++;
    some_charger(one_in(2) ? 5 : below(32)); /* both taken */
    put_charger(charger_flags[flag], 1, values[value]);
    play_charger_area();
    other[C_FLAG + 4 * flag + value]++;
    some_charger(one_in(2) ? 5 : below(32));
    for (uint32_t left = 2; left > 0; left--)
        play_charger_write((uint8_t)(one_in(2) ? 0x12 : 0x16), charger_word((uint8_t)(one_in(2) ? 0x12 : 0x16)));
    play_charger_set_up(charger_measured((uint32_t)draw()), charger_size());
}

/* ---- joined to a pack */

/* Every message of a broadcast comes to the charger as a write. */
static void deliver(const uint8_t *bytes, size_t length, size_t each)
{
    for (size_t at = 0; at < length; at += each) {
        uint16_t before = charger_flow();
        int answer = play_charger_message(bytes + at, each, false, SB2_CHARGER_AREA, SB2_CHARGER_ROOM);
        bool to_charger = bytes[at] == 0x12, alarm = bytes[at + 1] == 0x16;
        uint16_t after = charger_flow();
        compare((uint64_t)answer, to_charger ? SB2_SERVED : SB2_NOT_FOR_PACK);
        other[C_DELIVERED + (each == 4 ? 4u : 0u) + (to_charger ? bytes[at + 1] - 0x14u : 3u)]++;
        if (before > 0 && after == 0)
            other[C_STOPPED + !alarm]++;
        if (before == 0 && after > 0)
            other[C_STARTED]++;
    }
}

/* A sample for both: what flows is what the charger gives, at times any; the pack is hot or not, and gets full. */
static bool joined_sample(struct sb2_sample *sample, uint16_t limit, bool plain)
{
    static const uint32_t steps[] = {1000, 1000, 1000, 9000, 10000, 15000, 29999, 30000};
    uint8_t sent[SB2_BROADCAST_ROOM];
    sample->counter += one_in(8) ? some_elapsed() : steps[below(8)];
    sample->current = one_in(8) ? some_current() : (int16_t)charger_flow();
    if (one_in(3))
        sample->temperature = (uint16_t)(limit + below(2));
    if (!play_given_sample(*sample, SNATCHBLOCK_AREA, SB2_BROADCAST_ROOM))
        return false;
    size_t length = sent_bytes;
    memcpy(sent, room.s, length);
    play_charger_sample(*sample, SB2_CHARGER_AREA);
    deliver(sent, length, plain ? 4 : 5);
    play_charger_current(SB2_CHARGER_AREA);
    return true;
}

static void play_joined(void)
{
    static const uint8_t alarm_mode[4] = {0x16, 0x03, 0x00, 0x20};
    struct sb2_set_up in = some_set_up(true);
    bool held = one_in(2); /* the host keeps alarms from going */
    in.charging_current = (uint16_t)(1 + below(32767));
    in.charging_voltage |= 1;
    in.temperature_limit = (uint16_t)(1 + below(65534));
    play_given_set_up(in, SNATCHBLOCK_AREA);
    play_charger_set_up(in.first, SB2_CHARGER_AREA);
    struct sb2_sample sample = in.first;
    for (uint32_t left = 5 + below(30); left > 0; left--) {
        if (held)
            play_message_in(SB2_REPLY_ROOM, alarm_mode, 4, false, SNATCHBLOCK_AREA);
        if (!joined_sample(&sample, in.temperature_limit, in.plain))
            return;
    }
}

/* Eight commands in their turn, read and written. */
static void play_charger_commands(void)
{
    static uint8_t next;
    for (int i = 0; i < 8; i++, next++) {
        play_charger_read(next);
        play_charger_write(next, charger_word(next));
    }
}

/* An area of another size in each entry. */
static void play_charger_sizes(void)
{
    static const size_t sizes[] = {0, SB2_CHARGER_AREA - 1, SB2_CHARGER_AREA + 1, SNATCHBLOCK_AREA};
    size_t kind = below(5);
    size_t size = kind < 4 ? sizes[kind] : SB2_CHARGER_AREA + 2 + below(AREA_MOST - SB2_CHARGER_AREA - 1);
    play_charger_set_up(charger_measured(0), size);
    play_charger_sound(size);
    play_charger_current(size);
    play_charger_time(size);
    play_charger_transact(size);
}

static void play_charger(void)
{
    for (int i = 0; i < 2; i++) {
        play_charger_life();
        play_charger_alarm();
        play_charger_silence();
        play_charger_commands();
        play_charger_sizes();
    }
    for (int i = 0; i < 8; i++) {
        play_charger_areas();
        play_charger_altered();
    }
    play_joined();
}

/* ---- the thirteen-cell pack */

/* Where its area keeps what. */
enum { T_DESIGN_AT = 1, T_DESIGN_VOLTAGE_AT = 3, T_HEALTH_AT = 5, T_LATEST_AT = 7, T_COUNTER_AT = 13, T_CELLS_AT = 17,
       T_CHARGE_AT = 43, T_FULL_AT = 51, T_FLAG_AT = 53, T_TOTALS_AT = 54, T_KEPT_AT = 294, T_BEGUN_MS_AT = 295,
       T_BEGUN_AT = 297 };
static uint8_t thirteen_area[AREA_MOST]; /* between calls */

static struct sb2_bytes thirteen_bytes(void)
{
    return bytes_of(thirteen_area, SB2_THIRTEEN_AREA);
}

static void put_thirteen(size_t at, size_t bytes, uint64_t value)
{
    for (size_t i = 0; i < bytes; i++)
        thirteen_area[at + i] = (uint8_t)(value >> 8 * i);
}

static uint64_t thirteen_number(size_t at, size_t bytes)
{
    uint64_t value = 0;
    for (size_t i = 0; i < bytes; i++)
        value |= (uint64_t)thirteen_area[at + i] << 8 * i;
    return value;
}

static struct sb2_sample thirteen_latest(void)
{
    return (struct sb2_sample){(uint16_t)thirteen_number(T_LATEST_AT, 2), (int16_t)thirteen_number(T_LATEST_AT + 2, 2),
                               (uint16_t)thirteen_number(T_LATEST_AT + 4, 2),
                               (uint32_t)thirteen_number(T_COUNTER_AT, 4)};
}

static uint64_t thirteen_full(void)
{
    return thirteen_number(T_FULL_AT, 2) * SB2_MS_PER_HOUR;
}

static void keep_thirteen(void)
{
    if (area.length == SB2_THIRTEEN_AREA)
        memcpy(thirteen_area, area.s, SB2_THIRTEEN_AREA);
}

/* Mostly the right size, at times any of 0 to 400. */
static size_t thirteen_size(void)
{
    return one_in(40) ? below(401) : SB2_THIRTEEN_AREA;
}

/* An area of another size came to one of the four entries. */
static void note_thirteen_size(unsigned entry, size_t length)
{
    static const size_t sizes[4] = {0, SB2_THIRTEEN_AREA - 1, SB2_THIRTEEN_AREA + 1, SNATCHBLOCK_AREA};
    unsigned class = 0;
    while (class < 4 && length != sizes[class])
        class++;
    if (length != SB2_THIRTEEN_AREA)
        other[T_LENGTH + 5 * entry + class]++;
}

/* Why a set-up was refused, where one reason alone stands; or which charge it began with. */
static void note_thirteen_set_up(const struct sb2_thirteen_set_up *in, uint32_t answer)
{
    const bool reasons[4] = {in->design_capacity == 0, in->design_voltage == 0, in->full_capacity == 0,
                             in->remaining_capacity > in->full_capacity};
    unsigned count = 0, last = 0;
    for (unsigned i = 0; i < 4; i++)
        if (reasons[i]) {
            count++;
            last = i;
        }
    if (answer == SB2_NOT_SOUND)
        return;
    expect((answer == SB2_BAD_SET_UP) == (count > 0), "11");
    if (count == 1)
        other[T_SET_UP + 3 + last]++;
    else if (count == 0)
        other[T_SET_UP + (in->remaining_capacity == 0 ? 0 : in->remaining_capacity == in->full_capacity ? 2 : 1)]++;
}

static void play_thirteen_set_up(const struct sb2_thirteen_set_up *in, size_t length)
{
    if (length == SB2_THIRTEEN_AREA)
        fill(thirteen_area, length);
    lend_area(thirteen_area, length);
    const uint16_t *cells = lend_cells(in->cells);
    begin("thirteen_set_up (cells)", 1, WRITES_AREA, false);
    note(in->design_capacity), note(in->full_capacity), note(in->remaining_capacity), note(in->design_voltage);
    note(in->state_of_health), note_sample(in->first);
    uint32_t proved = proved_thirteen_set_up(area.p, length, in, cells);
    uint32_t second = (uint32_t)sb2_area_thirteen_set_up(area.s, length, in);
    compare(proved, second);
    came_up(THIRTEEN_SET_UP, second);
    note_thirteen_size(0, length);
    note_thirteen_set_up(in, second);
    keep_thirteen();
}

static bool play_thirteen_sound(size_t length)
{
    lend_area(thirteen_area, length);
    begin("thirteen_sound", 0, READS_AREA, false);
    bool proved = snatchblock_thirteen_sound(area.p, length);
    bool second = sb2_area_thirteen_sound(bytes_of(area.s, length));
    compare(proved, second);
    came_up(THIRTEEN_SOUND, second);
    note_thirteen_size(1, length);
    return second;
}

/* ---- its samples */

/* What a served sample leaves as it was, and what it brings. */
static void check_thirteen_sample(const uint16_t cells[SB2_CELLS])
{
    expect(memcmp(area.s, thirteen_area, T_LATEST_AT) == 0, "code and settings");
    expect(memcmp(area.s + T_FULL_AT, thirteen_area + T_FULL_AT, 2) == 0, "full");
    for (size_t i = 0; i < SB2_CELLS; i++)
        expect((area.s[T_CELLS_AT + 2 * i] | area.s[T_CELLS_AT + 2 * i + 1] << 8) == cells[i], "cells");
}

/* Where a served sample brought the charge, and what bit 4 was before; the area still is the one before it. */
static void note_thirteen_charge(const struct sb2_sample *sample, uint32_t elapsed)
{
    struct sb2_thirteen after;
    (void)sb2_area_thirteen_load(bytes_of(area.s, SB2_THIRTEEN_AREA), &after);
    int64_t full = (int64_t)thirteen_full();
    int64_t sum = (int64_t)thirteen_number(T_CHARGE_AT, 8) + (int64_t)sample->current * elapsed;
    other[T_CHARGE + (sum < 0 ? 0 : sum == 0 ? 1 : sum < full ? 2 : sum == full ? 3 : 4)]++;
    expect(after.charge == (uint64_t)(sum < 0 ? 0 : sum > full ? full : sum), "charge");
    unsigned rule = after.charge == 0 ? 0 : 100 * after.charge / (uint64_t)full < 20 ? 1 : 2;
    other[T_BIT_4 + 3u * thirteen_area[T_FLAG_AT] + rule]++;
    expect(after.fully_discharged == (rule == 0 || (rule == 1 && thirteen_area[T_FLAG_AT] == 1)), "bit 4");
}

/* How many seconds it completed, and how many are kept now. */
static void note_thirteen_seconds(uint32_t elapsed)
{
    uint64_t done = (thirteen_number(T_BEGUN_MS_AT, 2) + elapsed) / 1000;
    uint8_t kept = area.s[T_KEPT_AT];
    other[T_DONE + (done < 2 ? done : done < 59 ? 2 : done < 62 ? done - 56 : 6)]++;
    other[T_KEPT + (kept == 0 ? 0 : kept < SB2_SECONDS ? 1 : 2)]++;
}

static void play_thirteen_sample(struct sb2_sample sample, const uint16_t cells[SB2_CELLS], size_t length)
{
    uint32_t before = (uint32_t)thirteen_number(T_COUNTER_AT, 4), elapsed = sample.counter - before;
    lend_area(thirteen_area, length);
    const uint16_t *measured = lend_cells(cells);
    begin("thirteen_sample (cells)", 1, WRITES_AREA, false);
    note_sample(sample);
    uint32_t proved = proved_thirteen_sample(area.p, length, &sample, measured);
    uint32_t second = (uint32_t)sb2_area_thirteen_sample(area.s, length, &sample, measured);
    compare(proved, second);
    came_up(THIRTEEN_SAMPLE, second);
    note_thirteen_size(2, length);
    if (second == SB2_SERVED) {
        check_thirteen_sample(cells);
        note_thirteen_charge(&sample, elapsed);
        note_thirteen_seconds(elapsed);
        other[T_WRAP] += sample.counter < before;
    }
    keep_thirteen();
}

static void play_thirteen_time(size_t length)
{
    static const uint32_t gaps[7] = {0, 1, 999, 1000, 59000, 60000, 61000};
    unsigned class = one_in(2) ? 3 : below(9);
    uint32_t before = (uint32_t)thirteen_number(T_COUNTER_AT, 4);
    uint32_t gap = class == 8 ? 0u - before + below(1000) : 3600000u * (1 + below(1192)) + below(2000);
    uint16_t cells[SB2_CELLS];
    some_cells(cells);
    bool served = length == SB2_THIRTEEN_AREA && sb2_area_thirteen_sound(thirteen_bytes());
    play_thirteen_sample(thirteen_measured(before + (class < 7 ? gaps[class] : gap)), cells, length);
    if (served)
        other[T_GAP + class]++;
}

/* ---- its status: where each bit changes */

enum quantity { MILLIVOLTS, MILLIAMPS, TENTH_KELVINS };
static const struct {
    unsigned bit;
    enum quantity of;
    int32_t border; /* where it is set */
    bool above;     /* it is set above it too, else below */
    int32_t least_current, most_current, least_voltage; /* what the bit wants beside it */
} status_edges[T_EDGES] = {
    {5, MILLIVOLTS, 51001, true, 1, 99, 0},
    {5, MILLIAMPS, 1, true, -32768, 32767, 51001},
    {5, MILLIAMPS, 99, false, -32768, 32767, 51001},
    {6, MILLIAMPS, -1, false, -32768, 32767, 0},
    {8, MILLIVOLTS, 39000, false, -32768, 32767, 0},
    {9, MILLIVOLTS, 54800, true, -32768, 32767, 0},
    {10, MILLIAMPS, 2000, true, -32768, 32767, 0},
    {11, MILLIAMPS, -15000, false, -32768, 32767, 0},
    {12, TENTH_KELVINS, 2731, false, -32768, 32767, 0},
    {13, TENTH_KELVINS, 3232, true, 1, 32767, 0},
    {13, TENTH_KELVINS, 3332, true, -32768, -1, 0},
};

static int32_t quantity_of(struct sb2_sample sample, enum quantity of)
{
    return of == MILLIVOLTS ? sample.voltage : of == MILLIAMPS ? sample.current : sample.temperature;
}

/* The word of a served read of 16, at the latest sample: at each border and one off it, on both sides. */
static void note_thirteen_edges(struct sb2_sample latest, uint16_t word)
{
    for (size_t i = 0; i < T_EDGES; i++) {
        int32_t apart = quantity_of(latest, status_edges[i].of) - status_edges[i].border;
        if (apart < -1 || apart > 1 || latest.current < status_edges[i].least_current ||
            latest.current > status_edges[i].most_current || latest.voltage < status_edges[i].least_voltage)
            continue;
        bool wanted = apart == 0 || (apart > 0) == status_edges[i].above;
        expect((word >> status_edges[i].bit & 1) == wanted, "a bit at its border");
        other[T_EDGE + 3 * i + (size_t)(apart + 1)]++;
    }
}

/* Its bits; and the temperatures about the three limits, with the current below, at and above 0. */
static void note_thirteen_status(uint16_t word)
{
    static const uint16_t degrees[6] = {2731, 2732, 3231, 3232, 3331, 3332};
    struct sb2_sample latest = thirteen_latest();
    for (unsigned bit = 0; bit < 16; bit++)
        other[(word >> bit & 1 ? T_STATUS_SET : T_STATUS_CLEAR) + bit]++;
    note_thirteen_edges(latest, word);
    for (size_t i = 0; i < 6; i++)
        if (latest.temperature == degrees[i])
            other[T_DEGREES + 3 * i + (latest.current < 0 ? 0 : latest.current == 0 ? 1 : 2)]++;
    if (latest.current == 0)
        expect((word & 1 << 13) == 0, "bit 13 at rest");
}

/* ---- its transactions */

/* The current that 13 looks at: the mean of the complete seconds or, with none, the latest. */
static int64_t thirteen_mean(void)
{
    int64_t sum = 0, count = thirteen_area[T_KEPT_AT];
    for (size_t place = 0; place < (size_t)count; place++)
        sum += (int32_t)thirteen_number(T_TOTALS_AT + 4 * place, 4);
    return count == 0 ? thirteen_latest().current : sum / (1000 * count);
}

/* Which of the three a time is; its minutes before the cap, where they are about it; what 13 was worked out from. */
static void note_thirteen_time(uint8_t command, uint16_t word, int answer)
{
    unsigned which = command == 0x13;
    int64_t rate = which ? thirteen_mean() : -(int64_t)thirteen_latest().current;
    uint64_t remaining = thirteen_number(T_CHARGE_AT, 8) / SB2_MS_PER_HOUR;
    uint64_t capacity = which ? thirteen_number(T_FULL_AT, 2) - remaining : remaining;
    uint64_t before_cap = rate > 0 ? 60 * capacity / (uint64_t)rate : 0;
    expect((answer == SB2_OVERFLOW) == (before_cap > 65534), "10");
    other[T_TIME + 3 * which + time_case(word, answer)]++;
    if (before_cap >= FIRST_BORDER && before_cap < FIRST_BORDER + TIME_BORDERS)
        other[T_TIME_BORDER + TIME_BORDERS * which + before_cap - FIRST_BORDER]++;
    if (which && thirteen_area[T_KEPT_AT] == 0)
        other[T_MEAN]++;
    else if (which && rate != thirteen_latest().current)
        other[T_MEAN + 1]++;
}

/* 09 and 0A by what they were rounded from. */
static void note_thirteen_tens(uint8_t command, uint16_t word)
{
    struct sb2_sample latest = thirteen_latest();
    int32_t from = command == 0x09 ? latest.voltage : latest.current, size = from < 0 ? -from : from;
    if (command == 0x09)
        other[T_VOLTAGE + (from < 10 ? 0 : from == 65535 ? 3 : from % 10 == 0 ? 1 : 2)]++;
    else if (size < 10)
        other[T_CURRENT + (from < 0 ? 0 : from == 0 ? 1 : 2)]++;
    else
        other[T_CURRENT + (from == -32768 ? 5 : from == 32767 ? 6 : from < 0 ? 3 : 4)]++;
    expect(word == (uint16_t)(from < 0 ? -(size / 10) : size / 10), "tens");
}

/* A cell's word, where no other cell has the same. */
static void note_thirteen_cell(size_t cell, uint16_t word)
{
    expect(word == thirteen_number(T_CELLS_AT + 2 * cell, 2), "cell");
    for (size_t i = 0; i < SB2_CELLS; i++)
        if (i != cell && thirteen_number(T_CELLS_AT + 2 * i, 2) == word)
            return;
    other[T_CELL + cell]++;
}

static void note_thirteen_word(uint8_t command, uint16_t word, int answer)
{
    if (command == 0x11 || command == 0x13)
        note_thirteen_time(command, word, answer);
    else if (command == 0x09 || command == 0x0A)
        note_thirteen_tens(command, word);
    else if (command == 0x0D)
        other[T_PERCENT + (word == 0 ? 0 : word < 20 ? 1 : word < 100 ? 2 : 3)]++;
    else if (command == 0x16)
        note_thirteen_status(word);
    else if (command >= 0x31 && command <= 0x3D)
        note_thirteen_cell(command - 0x31u, word);
}

/* A served read: its bytes are a word, or of F1 the area's own, and behind them is their PEC. */
static void note_thirteen_read(uint8_t command, size_t sent, int answer)
{
    size_t which = 0;
    while (thirteen_served[which] != command)
        which++;
    other[T_READ + which]++;
    expect(sent == (command == 0xF1 ? CELL_BYTES + 1 : 3), "length");
    if (command == 0xF1)
        expect(memcmp(room.s, thirteen_area + T_CELLS_AT, CELL_BYTES) == 0, "cells");
    else
        note_thirteen_word(command, (uint16_t)(room.s[0] | room.s[1] << 8), answer);
}

static int thirteen_row(uint8_t command)
{
    if (memchr(thirteen_served, command, sizeof thirteen_served) != NULL)
        return SB2_SERVED;
    return memchr(thirteen_not_built, command, sizeof thirteen_not_built) != NULL ? SB2_NOT_BUILT : SB2_RESERVED;
}

/* Each two of the eight conditions that held at once; a form and a PEC, and two of 6, 7 and 8, never do. */
static void note_thirteen_order(bool sound, bool read, struct sb2_bytes m)
{
    int row = m.length > 1 ? thirteen_row(m.at[1]) : -1;
    bool accepted = true;
    if (!read && m.length == 5)
        (void)sb2_check_exchange(m, &accepted);
    const bool holds[8] = {!sound, room.length < SB2_REPLY_ROOM, m.length == 0 || m.at[0] != 0x16,
                           read ? m.length != 3 || m.at[2] != 0x17 : m.length != 5, !accepted, row == SB2_RESERVED,
                           row == SB2_NOT_BUILT, row == SB2_SERVED && !read};
    for (size_t i = 0, both = 0; i < 8; i++)
        for (size_t j = i + 1; j < 8; j++, both++)
            if (holds[i] && holds[j])
                other[T_BOTH + both]++;
}

/* What a message was refused for, or that it was right but for its command or its room. */
static void note_thirteen_message(int answer, bool read, struct sb2_bytes m)
{
    if (answer == SB2_NOT_FOR_PACK)
        other[T_ADDRESS + (m.length == 0 ? 0 : m.at[0] == 0x12 ? 1 : m.at[0] == 0x17 ? 2 : 3)]++;
    else if (answer == SB2_WRONG_FORM && !read && m.length == 4)
        other[T_FOUR + m.at[1]]++;
    else if (answer == SB2_WRONG_FORM)
        other[T_FORM + (!read ? 2 : m.length == 3)]++;
    else if (answer == SB2_WRONG_PEC)
        other[T_WRONG + m.at[1]]++;
    else if (answer == SB2_SERVED || answer > SB2_WRONG_PEC)
        other[(read ? T_COMMAND : T_WRITE) + m.at[1]]++;
    if (answer != SB2_NOT_SOUND && room.length <= 40)
        other[T_ROOM + 41u * !read + room.length]++;
}

/* The code that the answer leaves; 1 to 3 leave it, be it another than 0. */
static void check_thirteen_code(int answer, size_t length)
{
    static const uint8_t codes[11] = {0, 0, 0, 0, 6, 7, 2, 3, 4, 7, 5};
    if (answer >= SB2_NOT_SOUND && answer <= SB2_NOT_FOR_PACK)
        other[T_STAYS + answer - SB2_NOT_SOUND] += length > 0 && thirteen_area[0] > 0;
    else
        expect(area.s[0] == codes[answer], "error code");
}

static int play_thirteen_message(const uint8_t *message, size_t message_length, bool read, size_t length,
                                 size_t room_length)
{
    bool sound = length == SB2_THIRTEEN_AREA && sb2_area_thirteen_sound(thirteen_bytes());
    size_t sent;
    lend_area(thirteen_area, length);
    lend_room(room_length);
    struct sb2_bytes m = lend(0, message, message_length);
    begin("thirteen_transact", 1, WRITES_CODE, true);
    note(read);
    uint32_t proved = snatchblock_thirteen_transact(area.p, length, read, m.at, m.length, room.p, room.length);
    int answer = sb2_area_thirteen_transact(area.s, length, read, m, room.s, room.length, &sent);
    compare(proved, (uint32_t)answer | (uint32_t)sent << 8);
    came_up(THIRTEEN_TRANSACT, (uint32_t)answer);
    note_thirteen_size(3, length);
    note_thirteen_order(sound, read, m);
    note_thirteen_message(answer, read, m);
    check_thirteen_code(answer, length);
    if (answer == SB2_SERVED || answer == SB2_OVERFLOW)
        note_thirteen_read(message[1], sent, answer);
    keep_thirteen();
    return answer;
}

/* Reads, or writes with PEC, whole, in the least room. */
static void play_thirteen_read(uint8_t command)
{
    const uint8_t ask[3] = {0x16, command, 0x17};
    (void)play_thirteen_message(ask, 3, true, SB2_THIRTEEN_AREA, SB2_REPLY_ROOM);
}

static void play_thirteen_transact(size_t length)
{
    uint8_t message[64];
    bool read;
    size_t message_length = some_thirteen_message(message, &read);
    size_t room_length = one_in(8) ? below(41) : one_in(12) ? below(ROOM_MOST + 1) : SB2_REPLY_ROOM;
    (void)play_thirteen_message(message, message_length, read, length, room_length);
}

/* ---- its life */

static void play_likely_thirteen(void)
{
    const struct sb2_thirteen_set_up in = some_thirteen_set_up(true);
    play_thirteen_set_up(&in, SB2_THIRTEEN_AREA);
}

static void play_thirteen_life(void)
{
    play_likely_thirteen();
    for (uint32_t left = 20 + below(60); left > 0; left--)
        if (one_in(4))
            play_thirteen_time(thirteen_size());
        else
            play_thirteen_transact(thirteen_size());
    (void)play_thirteen_sound(thirteen_size());
}

/* A sample with any cells, then a word that shows it. */
static void play_thirteen_shown(struct sb2_sample sample, uint8_t command)
{
    uint16_t cells[SB2_CELLS];
    some_cells(cells);
    play_thirteen_sample(sample, cells, SB2_THIRTEEN_AREA);
    play_thirteen_read(command);
}

/* A run of samples, a current staying for one or for many, and a word after each. */
static void play_thirteen_run(void)
{
    static const uint8_t commands[4] = {0x0D, 0x11, 0x13, 0x16};
    uint32_t stay = one_in(2) ? 1 : 60, step = one_in(2) ? 1000 : 1 + below(2500);
    play_likely_thirteen();
    if (one_in(3))
        put_thirteen(T_COUNTER_AT, 4, 0u - below(20000));
    struct sb2_sample sample = thirteen_measured(0);
    for (uint32_t left = 1 + below(one_in(6) ? 150 : 15); left > 0; left--) {
        if (one_in(stay))
            sample.current = run_current();
        sample.counter = (uint32_t)thirteen_number(T_COUNTER_AT, 4) + (one_in(8) ? some_elapsed() : step);
        play_thirteen_shown(sample, commands[below(4)]);
    }
}

/* A charge that a sample brings to 0 or to full exactly, or one mA·ms off it. */
static void play_thirteen_ends(void)
{
    for (int fill_up = 0; fill_up < 2; fill_up++)
        for (uint64_t apart = 0; apart < 3; apart++) {
            struct sb2_sample sample = thirteen_measured(0);
            uint32_t elapsed = 1000 + below(5000);
            int32_t current = 1 + (int32_t)below(3000);
            play_likely_thirteen();
            put_thirteen(T_FULL_AT, 2, 6 + below(65530)); /* 3,000 mA for 6 s are 5 mAh */
            uint64_t flows = (uint64_t)current * elapsed - 1 + apart;
            put_thirteen(T_CHARGE_AT, 8, fill_up ? thirteen_full() - flows : flows);
            sample.current = (int16_t)(fill_up ? current : -current);
            sample.counter = (uint32_t)thirteen_number(T_COUNTER_AT, 4) + elapsed;
            play_thirteen_shown(sample, 0x16);
        }
}

/* A sample at each border of each bit and one off it, then the status. */
static void play_thirteen_edges(void)
{
    play_likely_thirteen();
    for (size_t i = 0; i < 3 * T_EDGES; i++) {
        int32_t least = status_edges[i / 3].least_current, wide = status_edges[i / 3].most_current - least;
        int32_t at = status_edges[i / 3].border - 1 + (int32_t)(i % 3);
        struct sb2_sample sample = thirteen_measured((uint32_t)thirteen_number(T_COUNTER_AT, 4) + below(1000));
        sample.current = (int16_t)(least + (int32_t)below((uint32_t)wide + 1));
        if (status_edges[i / 3].least_voltage > 0)
            sample.voltage = (uint16_t)(51001 + below(65535 - 51000));
        if (status_edges[i / 3].of == MILLIVOLTS)
            sample.voltage = (uint16_t)at;
        else if (status_edges[i / 3].of == MILLIAMPS)
            sample.current = (int16_t)at;
        else
            sample.temperature = (uint16_t)at;
        play_thirteen_shown(sample, 0x16);
    }
}

/* The three limits of the temperature from both sides, with the current below, at and above 0. */
static void play_thirteen_degrees(void)
{
    static const uint16_t degrees[6] = {2731, 2732, 3231, 3232, 3331, 3332};
    play_likely_thirteen();
    for (size_t i = 0; i < 18; i++) {
        struct sb2_sample sample = thirteen_measured((uint32_t)thirteen_number(T_COUNTER_AT, 4));
        int32_t size = 1 + (int32_t)below(32767);
        sample.temperature = degrees[i / 3];
        sample.current = (int16_t)(i % 3 == 0 ? -size : i % 3 == 1 ? 0 : size);
        play_thirteen_shown(sample, 0x16);
    }
}

/* 09 and 0A of what rounds to 0, of whole tens and one off them, and of the ends. */
static void play_thirteen_tens(void)
{
    static const uint16_t voltages[11] = {0, 1, 9, 10, 11, 19, 20, 54799, 54800, 65534, 65535};
    static const int16_t currents[11] = {-32768, -11, -10, -9, -1, 0, 1, 9, 10, 11, 32767};
    play_likely_thirteen();
    for (size_t i = 0; i < 11; i++) {
        struct sb2_sample sample = thirteen_measured((uint32_t)thirteen_number(T_COUNTER_AT, 4) + below(1000));
        sample.voltage = voltages[i];
        sample.current = currents[i];
        play_thirteen_shown(sample, 0x09);
        play_thirteen_read(0x0A);
    }
}

/* Puts so much to go, to full or to empty, at a current the command's way; for 13 a mean of seconds, or the latest. */
static void put_thirteen_to_go(bool fill_up, uint32_t capacity, int32_t rate)
{
    uint32_t full = one_in(2) ? 65535 : (capacity > 0 ? capacity : 1) + below(65536 - (capacity > 0 ? capacity : 1));
    uint64_t left = fill_up ? full - capacity : capacity;
    uint32_t count = fill_up && one_in(2) ? 1 + below(SB2_SECONDS) : 0;
    int32_t current = fill_up ? rate : -rate;
    put_thirteen(T_FULL_AT, 2, full);
    put_thirteen(T_CHARGE_AT, 8, left * SB2_MS_PER_HOUR + (left < full ? below(SB2_MS_PER_HOUR) : 0));
    put_thirteen(T_LATEST_AT + 2, 2, (uint64_t)(count > 0 ? some_current() : current));
    put_thirteen(T_KEPT_AT, 1, count);
    for (uint32_t place = 0; place < count; place++)
        put_thirteen(T_TOTALS_AT + 4 * place, 4, (uint64_t)(1000 * (int64_t)current));
}

/* 11 and 13 about the cap; at any rate; at rates that don't flow the command's way. */
static void play_thirteen_times(void)
{
    for (unsigned i = 0; i < 2 * (TIME_BORDERS + 3); i++) {
        bool fill_up = i % 2;
        uint32_t rate = 1 + below(32767), capacity = below(65536);
        play_likely_thirteen();
        if (i / 2 < TIME_BORDERS)
            capacity = capacity_of(FIRST_BORDER + i / 2, &rate);
        const int32_t others[2] = {1, -(int32_t)below(32768)};
        put_thirteen_to_go(fill_up, capacity, i / 2 <= TIME_BORDERS ? (int32_t)rate : others[i / 2 - TIME_BORDERS - 1]);
        play_thirteen_read(fill_up ? 0x13 : 0x11);
    }
}

/* Eight commands in their turn: read, written, written with a wrong PEC and with none. */
static void play_thirteen_commands(void)
{
    static uint8_t next;
    for (int i = 0; i < 8; i++, next++) {
        uint8_t message[5];
        put_write(message, 0x16, next, some_word());
        play_thirteen_read(next);
        int answer = play_thirteen_message(message, 5, false, SB2_THIRTEEN_AREA, SB2_REPLY_ROOM);
        int row = thirteen_row(next);
        expect(answer == (row == SB2_SERVED ? SB2_READ_ONLY : row), "a right write");
        message[4] ^= (uint8_t)(1 + below(255));
        answer = play_thirteen_message(message, 5, false, SB2_THIRTEEN_AREA, SB2_REPLY_ROOM);
        expect(answer == SB2_WRONG_PEC, "a wrong PEC");
        answer = play_thirteen_message(message, 4, false, SB2_THIRTEEN_AREA, SB2_REPLY_ROOM);
        expect(answer == SB2_WRONG_FORM, "a write of four bytes");
    }
}

/* Rooms of 0 to 40 bytes, of which 34 are enough, for a read and a write. */
static void play_thirteen_rooms(void)
{
    for (size_t room_length = 0; room_length <= 40; room_length++) {
        const uint8_t command = one_in(2) ? 0xF1 : thirteen_command(), ask[3] = {0x16, command, 0x17};
        uint8_t message[5];
        put_write(message, 0x16, thirteen_command(), some_word());
        int answer = play_thirteen_message(ask, 3, true, SB2_THIRTEEN_AREA, room_length);
        expect((answer == SB2_SMALL_ROOM) == (room_length < SB2_REPLY_ROOM), "2");
        (void)play_thirteen_message(message, 4 + below(2), false, SB2_THIRTEEN_AREA, room_length);
    }
}

/* A right write, then with one to three of its bits altered: those are never more than 3 or 5. */
static void play_thirteen_altered(void)
{
    uint8_t command = thirteen_command(), message[5];
    uint16_t word = some_word();
    for (uint32_t bits = 0; bits <= 3; bits++) {
        put_write(message, 0x16, command, word);
        alter(message, 5, bits);
        int answer = play_thirteen_message(message, 5, false, SB2_THIRTEEN_AREA, SB2_REPLY_ROOM);
        expect((answer == SB2_NOT_FOR_PACK || answer == SB2_WRONG_PEC) == (bits > 0), "a write, altered or not");
        other[T_ALTERED + bits]++;
    }
}

/* ---- F1's exchange of 30 bytes */

static void play_whole_exchange(const uint8_t *bytes, size_t length, bool right)
{
    bool accepted = false;
    struct sb2_bytes exchange = lend(0, bytes, length);
    begin("exchange_check", 1, NO_AREA, false);
    int answer = sb2_check_exchange(exchange, &accepted);
    compare(snatchblock_exchange_check(exchange.at, length), (uint32_t)answer | (uint32_t)accepted << 8);
    expect(accepted == right, "an exchange, altered or not");
    came_up(EXCHANGE, (uint32_t)answer);
}

static void turn(uint8_t *bytes, uint32_t bit)
{
    bytes[bit / 8] ^= (uint8_t)(0x80u >> bit % 8);
}

/* As it went; with one or three bits altered, and with two, which are seen unless they stand 127 bits apart. */
static void play_thirteen_exchange(void)
{
    enum { BYTES = 3 + CELL_BYTES + 1, BITS_IN_IT = 8 * BYTES };
    uint8_t exchange[BYTES] = {0x16, 0xF1, 0x17}, altered[BYTES];
    play_likely_thirteen();
    play_thirteen_read(0xF1);
    memcpy(exchange + 3, room.s, CELL_BYTES + 1);
    for (uint32_t bits = 0; bits <= 4; bits++) { /* the last are two that do */
        uint32_t first = below(BITS_IN_IT - 127), apart = bits == 4 ? 127 : 1 + below(BITS_IN_IT - 1 - first);
        memcpy(altered, exchange, BYTES);
        if (bits % 2 == 1)
            alter(altered, BYTES, bits);
        else if (bits > 0)
            turn(altered, first), turn(altered, first + apart);
        play_whole_exchange(altered, BYTES, bits == 0 || (bits % 2 == 0 && apart == 127));
        other[T_EXCHANGE + bits]++;
    }
}

/* ---- its areas */

/* Any area that is sound. */
static void some_thirteen(void)
{
    uint32_t count = one_in(3) ? SB2_SECONDS : below(SB2_SECONDS + 1), ms = below(1000);
    fill(thirteen_area, SB2_THIRTEEN_AREA);
    put_thirteen(0, 1, below(8));
    put_thirteen(T_DESIGN_AT, 2, some_word() | 1);
    put_thirteen(T_DESIGN_VOLTAGE_AT, 2, some_word() | 1);
    put_thirteen(T_HEALTH_AT, 2, some_word());
    put_thirteen(T_FULL_AT, 2, 1 + below(65535));
    put_thirteen(T_CHARGE_AT, 8, one_in(6) ? 0 : one_in(6) ? thirteen_full() : draw() % (thirteen_full() + 1));
    put_thirteen(T_FLAG_AT, 1, below(2));
    for (uint32_t place = 0; place < SB2_SECONDS; place++)
        put_thirteen(T_TOTALS_AT + 4 * place, 4, place < count ? some_total(1000) : draw());
    put_thirteen(T_KEPT_AT, 1, count);
    put_thirteen(T_BEGUN_MS_AT, 2, ms);
    put_thirteen(T_BEGUN_AT, 4, some_total(ms));
}

/* Puts a total at a border in a place under the count, or beyond it, which no test looks at. */
static void bend_total(unsigned border, bool beyond)
{
    uint32_t place = below(SB2_SECONDS), count = beyond ? below(place + 1) : place + 1 + below(SB2_SECONDS - place);
    for (uint32_t i = 0; i < count; i++)
        put_thirteen(T_TOTALS_AT + 4 * i, 4, some_total(1000));
    put_thirteen(T_TOTALS_AT + 4 * place, 4, border_total(border, 1000));
    put_thirteen(T_KEPT_AT, 1, count);
}

/* Bends a sound area in one way; whether it still is sound. */
static bool bend_thirteen(unsigned kind)
{
    uint64_t full = thirteen_full();
    if (kind >= T_BEND_TOTALS)
        bend_total((kind - T_BEND_TOTALS) % 4, kind >= T_BEND_TOTALS + 4);
    switch (kind) {
    case 0: return true;
    case 1: put_thirteen(0, 1, 7); return true;
    case 2: put_thirteen(0, 1, 8); return false;
    case 3: put_thirteen(0, 1, 9 + below(247)); return false;
    case 4: put_thirteen(T_CHARGE_AT, 8, full - 1); return true;
    case 5: put_thirteen(T_CHARGE_AT, 8, full); return true;
    case 6: put_thirteen(T_CHARGE_AT, 8, full + 1); return false;
    case 7: put_thirteen(T_CHARGE_AT, 8, full + 2 + (draw() >> (1 + below(63)))); return false;
    case 8: put_thirteen(T_DESIGN_AT, 2, 0); return false;
    case 9: put_thirteen(T_DESIGN_VOLTAGE_AT, 2, 0); return false;
    case 10: put_thirteen(T_FULL_AT, 2, 0), put_thirteen(T_CHARGE_AT, 8, 0); return false;
    case 11: put_thirteen(T_KEPT_AT, 1, SB2_SECONDS + 1); return false;
    case 12: put_thirteen(T_KEPT_AT, 1, SB2_SECONDS + 2 + below(194)); return false;
    case 13: put_thirteen(T_BEGUN_MS_AT, 2, 999), put_thirteen(T_BEGUN_AT, 4, some_total(999)); return true;
    case 14: put_thirteen(T_BEGUN_MS_AT, 2, 1000), put_thirteen(T_BEGUN_AT, 4, some_total(999)); return false;
    case 15: put_thirteen(T_BEGUN_MS_AT, 2, 1001 + below(64535)); return false;
    case 16: case 17: case 18: case 19: /* both borders of the begun total, and one beyond each */
        put_thirteen(T_BEGUN_AT, 4, border_total(kind - 16, (uint32_t)thirteen_number(T_BEGUN_MS_AT, 2)));
        return kind % 2 == 0;
    case 20: case 21: put_thirteen(T_FLAG_AT, 1, kind - 20); return true;
    case 22: put_thirteen(T_FLAG_AT, 1, 2); return false;
    case 23: put_thirteen(T_FLAG_AT, 1, 3 + below(253)); return false;
    default: return kind % 2 == 0 || kind >= T_BEND_TOTALS + 4;
    }
}

/* The area in each entry that looks at it; it stays as it is. */
static bool play_thirteen_area(void)
{
    uint8_t kept[SB2_THIRTEEN_AREA];
    memcpy(kept, thirteen_area, sizeof kept);
    bool sound = play_thirteen_sound(SB2_THIRTEEN_AREA);
    play_thirteen_read(thirteen_served[below(22)]);
    play_thirteen_transact(thirteen_size());
    memcpy(thirteen_area, kept, sizeof kept);
    play_thirteen_time(SB2_THIRTEEN_AREA);
    memcpy(thirteen_area, kept, sizeof kept);
    return sound;
}

static void play_thirteen_bends(void)
{
    for (unsigned kind = 0; kind < T_BENDS; kind++) {
        some_thirteen();
        bool wanted = bend_thirteen(kind), sound = play_thirteen_area();
        expect(sound == wanted, "an area bent in one way");
        other[T_BENT + kind]++;
    }
}

/* Some bits or bytes of a sound area altered. */
static void play_thirteen_damage(void)
{
    some_thirteen();
    if (one_in(2))
        alter(thirteen_area, SB2_THIRTEEN_AREA, 1 + below(3));
    else
        fill(thirteen_area + below(SB2_THIRTEEN_AREA), 1 + below(8)); /* at times behind its end */
    other[T_DAMAGED + play_thirteen_area()]++;
}

/* An area of another size in each entry. */
static void play_thirteen_sizes(void)
{
    static const size_t sizes[] = {0, SB2_THIRTEEN_AREA - 1, SB2_THIRTEEN_AREA + 1, SNATCHBLOCK_AREA};
    const struct sb2_thirteen_set_up in = some_thirteen_set_up(one_in(2));
    size_t kind = below(5), size = kind < 4 ? sizes[kind] : below(401);
    play_thirteen_set_up(&in, size);
    (void)play_thirteen_sound(size);
    play_thirteen_time(size);
    play_thirteen_transact(size);
}

/* Set-ups of any words; and refused for each reason alone. */
static void play_thirteen_set_ups(void)
{
    for (unsigned reason = 0; reason < 5; reason++) {
        struct sb2_thirteen_set_up in = some_thirteen_set_up(reason < 4);
        switch (reason) {
        case 0: in.design_capacity = 0; break;
        case 1: in.design_voltage = 0; break;
        case 2: in.full_capacity = in.remaining_capacity = 0; break;
        case 3:
            in.full_capacity = (uint16_t)(1 + below(65534));
            in.remaining_capacity = (uint16_t)(in.full_capacity + 1);
            break;
        default: break;
        }
        play_thirteen_set_up(&in, thirteen_size());
    }
}

static void play_thirteen(void)
{
    for (int i = 0; i < 2; i++) {
        play_thirteen_life();
        play_thirteen_run();
        play_thirteen_commands();
        play_thirteen_sizes();
        play_thirteen_set_ups();
        play_thirteen_exchange();
    }
    for (int i = 0; i < 4; i++) {
        play_thirteen_damage();
        some_thirteen();
        play_thirteen_altered();
    }
    if (one_in(2))
        play_thirteen_rooms();
    play_thirteen_edges();
    play_thirteen_degrees();
    play_thirteen_tens();
    play_thirteen_times();
    play_thirteen_ends();
    play_thirteen_bends();
}

/* ---- all of it */

static void play(void)
{
    switch (below(19)) {
    case 18: play_thirteen(); break;
    case 17: play_edits(); break;
    case 16: play_charger(); break;
    case 15: play_cut_off(); break;
    case 14: play_choices(); break;
    case 13: case 12: play_learning(); break;
    case 11: play_minutes(); break;
    case 0: case 1: case 2: play_life(); break;
    case 3: case 4: play_areas(); break;
    case 5: for (int i = 0; i < 20; i++) play_checks(); break;
    case 6: case 7: for (int i = 0; i < 10; i++) play_keys(); break;
    case 8: for (int i = 0; i < 20; i++) play_sheets(); break;
    case 9: for (int i = 0; i < 20; i++) play_captures(); break;
    default:
        if (one_in(4))
            play_each_place();
        for (int i = 0; i < 20; i++) play_shelf();
        break;
    }
}

/* Bits of the status that document 01 never sets, and the one that it never clears. */
static bool status_as_said(void)
{
    bool as_said = other[STATUS_SET + 15] + other[STATUS_SET + 13] + other[STATUS_SET + 10] + other[STATUS_SET + 3] +
                       other[STATUS_CLEAR + 7] ==
                   0;
    if (!as_said)
        printf("  status bit 15, 13, 10 or 3 set, or 7 clear: WRONG\n");
    return as_said;
}

/* The same of the charger: bits that it never sets, and those that it never clears. */
static bool charger_status_as_said(void)
{
    static const unsigned clear[] = {1, 5, 6, 7, 8, 9, 10, 11, 13}, set[] = {4, 14, 15};
    uint64_t wrong = 0;
    for (size_t i = 0; i < sizeof clear / sizeof *clear; i++)
        wrong += other[C_STATUS_SET + clear[i]];
    for (size_t i = 0; i < sizeof set / sizeof *set; i++)
        wrong += other[C_STATUS_CLEAR + set[i]];
    if (wrong > 0)
        printf("  charger's status bit 1, 5 to 11 or 13 set, or 4, 14 or 15 clear: WRONG\n");
    return wrong == 0;
}

/* And of the thirteen-cell pack. */
static bool thirteen_status_as_said(void)
{
    static const unsigned clear[] = {0, 1, 2, 3, 14, 15};
    uint64_t wrong = other[T_STATUS_CLEAR + 7];
    for (size_t i = 0; i < sizeof clear / sizeof *clear; i++)
        wrong += other[T_STATUS_SET + clear[i]];
    if (wrong > 0)
        printf("  thirteen cells' status bit 0 to 3, 14 or 15 set, or 7 clear: WRONG\n");
    return wrong == 0;
}

/* Prints each class; false if one never came up. */
static bool tally(void)
{
    bool all = true;
    for (int e = 0; e < ENTRIES; e++) {
        printf("  %s:", entries[e].name);
        for (int a = 0; a < ANSWERS; a++)
            if (entries[e].answers >> a & 1) {
                printf("  %d: %llu", a, (unsigned long long)came[e][a]);
                if (came[e][a] == 0) {
                    printf(" NEVER");
                    all = false;
                }
            }
        printf("\n");
    }
    static const struct {
        const char *name;
        size_t first, last;
    } lines[] = {
        {"reads served, 00 to 1C", READ_SERVED, READ_SERVED + 0x1C},
        {"in power mode", READ_SERVED + 64, READ_SERVED + 64 + 0x1C},
        {"block reads served, 20 to 23", READ_SERVED + 0x20, READ_SERVED + 0x23},
        {"in power mode", READ_SERVED + 64 + 0x20, READ_SERVED + 64 + 0x23},
        {"writes served, 00 to 04", WRITE_SERVED, WRITE_SERVED + 4},
        {"in power mode", WRITE_SERVED + 5, WRITE_SERVED + 9},
        {"06, 11, 12, 13, 05: minutes, beyond, not moving", TIME_IN_MAH, TIME_IN_MAH + 14},
        {"06, 11, 12, 13 in power mode: the same", TIME_IN_POWER, TIME_IN_POWER + 11},
        {"05 in power mode: AtRate below 0, 0, above 0", FULL_IN_POWER, FULL_IN_POWER + 2},
        {"each at 65,533 to 65,536 minutes before the cap", BORDER_IN_MAH, BORDER_IN_MAH + 5 * 4 - 1},
        {"06, 11, 12, 13 in power mode: the same", BORDER_IN_POWER, BORDER_IN_POWER + 4 * 4 - 1},
        {"11, 12, 13 at a rate of 0: so, none to go, against", RATE_TO_0, RATE_TO_0 + 3 * 3 - 1},
        {"5 shown after each, in power mode too", CODE_5, CODE_5 + 2 * 5 - 1},
        {"bit 8 by 12, each case: one below, at it, above it", TIME_ALARM, TIME_ALARM + 3 * 3 - 1},
        {"07: 0, 1, and in power mode", AT_RATE_OK, AT_RATE_OK + 3},
        {"status bit 14 set", STATUS_SET + 14, STATUS_SET + 14},
        {"12 and 11 set", STATUS_SET + 11, STATUS_SET + 12},
        {"9 to 4 set", STATUS_SET + 4, STATUS_SET + 9},
        {"2 to 0 set", STATUS_SET, STATUS_SET + 2},
        {"15 to 8 clear", STATUS_CLEAR + 8, STATUS_CLEAR + 15},
        {"6 to 0 clear", STATUS_CLEAR, STATUS_CLEAR + 6},
        {"bit 4 clear: a sample to charge 0, to under 20 %, else", BIT_4_WAS_CLEAR, BIT_4_WAS_CLEAR + 2},
        {"bit 4 set: the same", BIT_4_WAS_SET, BIT_4_WAS_SET + 2},
        {"samples with PEC and no message", MESSAGES, MESSAGES},
        {"with one to four", MESSAGES + 1, MESSAGES + 4},
        {"in plain with no message", MESSAGES + 5, MESSAGES + 5},
        {"with one to four", MESSAGES + 6, MESSAGES + 9},
        {"alarm bits 8 and 9", ALARM_BIT + 8, ALARM_BIT + 9},
        {"alarm bits 11 and 12", ALARM_BIT + 11, ALARM_BIT + 12},
        {"alarm bit 14", ALARM_BIT + 14, ALARM_BIT + 14},
        {"samples over the counter's wrap", COUNTER_WRAPPED, COUNTER_WRAPPED},
        {"holds that ran out", HOLD_RAN_OUT, HOLD_RAN_OUT},
        {"exchanges accepted, and not", EXCHANGE_RIGHT, EXCHANGE_WRONG},
        {"names of the service sheet, the factory's, neither", BLOCK_SERVICE, BLOCK_NEITHER},
        {"steps to a row, of a capture and of other bytes", STEP_ROW, STEP_ROW_OF_OTHERS},
        {"past the last row, in the table, past the end", STEP_PAST_LAST, STEP_PAST_END},
        {"14: at 0, cut table, too long, a row that misfits", STEP_AT_0, STEP_MISFIT},
        {"shelves of 0 to 64 rows", SHELF_OF, SHELF_OF + 64},
        {"16: of 65, of 66, of more", SHELF_OF_MORE, SHELF_OF_MORE + 2},
        {"the lowest row at 0 to 63", SHELF_LOWEST, SHELF_LOWEST + 63},
        {"rows that tie with it, of one full and of another", SHELF_TIE, SHELF_TIE + 1},
        {"rows that are nearest; less remaining; one percent", SHELF_NEAR, SHELF_NEAR + 2},
        {"5 x remaining is full - 5, - 1, + 0, + 1, + 5", SHELF_FIFTH, SHELF_FIFTH + 4},
        {"rows of 0/65,535, 65,535/65,535, 0/1, 1/1", SHELF_EDGE, SHELF_EDGE + 3},
        {"17: one bad row, each reason at 0 to 63", SHELF_BAD_ROW, SHELF_BAD_ROW + 3 * 64 - 1},
        {"17: a row of two reasons, two rows", SHELF_BAD_TWICE, SHELF_BAD_TWICE + 1},
        {"1 to 7 bytes behind the rows", SHELF_RAGGED, SHELF_RAGGED + 6},
        {"rooms of 0 to 20 bytes", SHELF_ROOM, SHELF_ROOM + 20},
        {"each two of 2, 4, 16 and 17 at once", SHELF_ORDER, SHELF_ORDER + 5},
        {"samples at 250, 1,000, 999, 61,000 ms", RUN_OF, RUN_OF + 3},
        {"at hours, over the counter's wrap, mixed", RUN_OF + 4, RUN_OF + 6},
        {"runs of thousands of samples", RUN_LONG, RUN_LONG},
        {"samples that complete 0, 1, 2 to 58, 59, 60, 61 s", SECONDS_DONE, SECONDS_DONE + 5},
        {"more; 4,294,967 s; 4,294,968 s", SECONDS_DONE + 6, SECONDS_DONE + 8},
        {"0 to 60 seconds kept", SECONDS_KEPT, SECONDS_KEPT + 60},
        {"a second begun before the counter's wrap", WRAP_IN_SECOND, WRAP_IN_SECOND},
        {"0B: the latest, exact, cut below 0, above 0", MEAN_OF, MEAN_OF + 3},
        {"0B: -32,768, 32,767", MEAN_OF + 4, MEAN_OF + 5},
        {"0B: not as with the begun second, not the latest", MEAN_OF + 6, MEAN_OF + 7},
        {"counts of 59, 60, 61, 62, 255, 63 to 254", MINUTE_COUNT, MINUTE_COUNT + 5},
        {"begun seconds of 998 to 1,001 ms and of more", MINUTE_MS, MINUTE_MS + 4},
        {"begun totals at both borders, one beyond, any", MINUTE_BEGUN, MINUTE_BEGUN + 4},
        {"totals so in each place under the count", MINUTE_UNDER, MINUTE_UNDER + 5 * 60 - 1},
        {"and in each place beyond it", MINUTE_OVER, MINUTE_OVER + 5 * 60 - 1},
        {"areas of version 1: sound, sample, transact", AREA_OF_OLD, AREA_OF_OLD + 2},
        {"areas of version 2: the same", AREA_OF_OLD + 3, AREA_OF_OLD + 5},
        {"areas of version 3: the same", AREA_OF_OLD + 6, AREA_OF_OLD + 8},
        {"charges of 16-bit parts 0, 1, 32,768, 65,535, any", PARTS_OF, PARTS_OF + 24},
        {"carries of no part, the middle, the lowest, both", CARRIES, CARRIES + 3},
        {"samples of 0, 1, 2 to 999, more cycles", CYCLES_OF, CYCLES_OF + 3},
        {"cycles come to 65,535, and would pass it", CYCLES_END, CYCLES_END + 1},
        {"at 65,535: one more and more; less than one", CYCLES_END + 2, CYCLES_END + 3},
        {"toward the next: 0, one below design, left of more", TOWARD_OF, TOWARD_OF + 2},
        {"drawn at charge 0, a cycle too", DRAWN_EMPTY, DRAWN_EMPTY + 1},
        {"set-ups below full, and full", RUN_OPENS, RUN_OPENS + 1},
        {"a run at full: still, again, with bit 11", RUN_OPENS + 2, RUN_OPENS + 4},
        {"goes on: drawn, low at rest, in no time, at rest", RUN_STAYS, RUN_STAYS + 3},
        {"comes to 65,535 mAh, would pass it, stands there", RUN_HELD, RUN_HELD + 2},
        {"ended by charging in no time, in some", RUN_ENDS, RUN_ENDS + 1},
        {"none open below full, without bit 11 and with it", RUN_NONE, RUN_NONE + 1},
        {"closed at the 1st sample, before the 10th, 100th", CLOSED_AFTER, CLOSED_AFTER + 2},
        {"later: long discharges", CLOSED_AFTER + 3, CLOSED_AFTER + 3},
        {"closed at charge 0, above it, in no time", CLOSED_WITH, CLOSED_WITH + 2},
        {"above 0, bit 4 clear before: no alarm, an alarm", CLOSED_WITH + 3, CLOSED_WITH + 4},
        {"learned 1 of less, 1, more, all 65,535, of more", LEARNED, LEARNED + 4},
        {"learned below design, design, above it", LEARNED_BY_DESIGN, LEARNED_BY_DESIGN + 2},
        {"0E: to 100, above, 65,535", ABSOLUTE, ABSOLUTE + 2},
        {"0D: each of 0 to 100", RELATIVE, RELATIVE + 100},
        {"one below, at, one above the least of a percent", ABOUT_PERCENT, ABOUT_PERCENT + 2},
        {"and about full, one above it refused", ABOUT_FULL, ABOUT_FULL + 2},
        {"areas: toward one below design, design, above, any", TANK_TOWARD, TANK_TOWARD + 3},
        {"a run of 65,535 mAh less 1, all, 1 more, any", TANK_OPEN, TANK_OPEN + 3},
        {"with none open 0, 1, 65,535 mAh, any", TANK_CLOSED, TANK_CLOSED + 3},
        {"flags of bit 4 and of the run: 0, 1, 2, others", TANK_FLAG, TANK_FLAG + 7},
        {"set-ups with PEC and in plain, served and 11", SET_UP_OF, SET_UP_OF + 3},
        {"with PEC: 2 in rooms of 0 to 15 bytes", ROOM_OF, ROOM_OF + 15},
        {"2 in 16 to 19", ROOM_OF + 16, ROOM_OF + 19},
        {"served in 20 and 21", ROOM_OF + 20, ROOM_OF + 21},
        {"in plain: 2 in rooms of 0 to 15 bytes", ROOM_OF + 22, ROOM_OF + 22 + 15},
        {"served in 16 to 21", ROOM_OF + 22 + 16, ROOM_OF + 22 + 21},
        {"1 before 2: PEC under 16, 16 to 19, plain under 16", BEFORE_2, BEFORE_2 + 2},
        {"one sample in either choice, rooms of 15 to 21", ONE_ROOM, ONE_ROOM + 6},
        {"2 with PEC, in plain none to four messages", DUE_REFUSED, DUE_REFUSED + 4},
        {"served in both, none to four messages", DUE_SERVED, DUE_SERVED + 4},
        {"messages right; 1, 2, 3 bits altered: wrong", ALTERED, ALTERED + 3},
        {"flags of plain: 0, 1, 2, others", PLAIN_FLAG, PLAIN_FLAG + 3},
        {"charger: reads of 11 and 13", C_READ, C_READ + 1},
        {"writes of 12, 14, 15, 16, without PEC and with it", C_WRITE, C_WRITE + 7},
        {"status bit 0 set", C_STATUS_SET, C_STATUS_SET},
        {"2 to 4 set", C_STATUS_SET + 2, C_STATUS_SET + 4},
        {"12 set", C_STATUS_SET + 12, C_STATUS_SET + 12},
        {"14 and 15 set", C_STATUS_SET + 14, C_STATUS_SET + 15},
        {"0 to 3 clear", C_STATUS_CLEAR, C_STATUS_CLEAR + 3},
        {"5 to 13 clear", C_STATUS_CLEAR + 5, C_STATUS_CLEAR + 13},
        {"current flows", C_FLOWS, C_FLOWS},
        {"none: no ChargingCurrent, 0; no voltage, 0", C_ZERO, C_ZERO + 3},
        {"either is awaited; inhibited; 175,000 ms", C_ZERO + 4, C_ZERO + 7},
        {"each bit of 12 set", C_MODE_SET, C_MODE_SET + 15},
        {"each clear", C_MODE_CLEAR, C_MODE_CLEAR + 15},
        {"RESET_TO_ZERO, and inhibited: none taken, one, both", C_RESET, C_RESET + 7},
        {"POR_RESET: inhibited, awaiting, both, beside 0 and 3", C_POWER_ON, C_POWER_ON + 3},
        {"each bit of 16 set", C_ALARM_BIT, C_ALARM_BIT + 15},
        {"none of 15 to 12", C_ALARM_NONE, C_ALARM_NONE},
        {"an alarm, each taken and each awaited", C_ALARM_AT, C_ALARM_AT + 11},
        {"14, 15: awaited are none, it, the other, both", C_REQUEST, C_REQUEST + 7},
        {"14 ends an alarm behind 15, 15 behind 14: current", C_BACK, C_BACK + 1},
        {"14, 15 at 175,000 ms", C_AGAIN, C_AGAIN + 1},
        {"gaps of 0, 1, 999, 1,000, 60,000, 174,999, 175,000", C_GAP, C_GAP + 6},
        {"of hours, over the wrap", C_GAP + 7, C_GAP + 8},
        {"counts to 174,999, to 175,000, past it, at it", C_COUNT_TO, C_COUNT_TO + 3},
        {"areas of 0, 174,999, 175,000, 175,001, more", C_COUNT, C_COUNT + 4},
        {"its five flags: 0, 1, 2, others", C_FLAG, C_FLAG + 19},
        {"areas of 0, 22, 24, 330, other bytes in each entry", C_LENGTH, C_LENGTH + 24},
        {"rooms of 0, 1, 2, 3, more, reads and writes", C_ROOM, C_ROOM + 9},
        {"each of 256 commands read", C_COMMAND, C_COMMAND + 255},
        {"and written", C_COMMAND + 256, C_COMMAND + 511},
        {"3: no bytes, 10, 13, 16, others", C_ADDRESS, C_ADDRESS + 4},
        {"4: a read too long or short, or not 13; a write", C_FORM, C_FORM + 2},
        {"1, 2, 3, 4, 5, 6, 8: each two at once", C_BOTH, C_BOTH + 14},
        {"of these 4 or 5 with 6 or 8", C_BOTH + 16, C_BOTH + 19},
        {"writes right; 1, 2, 3 bits altered: not taken", C_ALTERED, C_ALTERED + 3},
        {"broadcast 14, 15, 16, 10 16 delivered, plain too", C_DELIVERED, C_DELIVERED + 7},
        {"the pack's alarm stops it, its words do, start it", C_STOPPED, C_STARTED},
        {"bodies added: alone, first, last, between", E_SET, E_SET + 3},
        {"a longer one in its place: the same", E_SET + 4, E_SET + 7},
        {"a shorter one", E_SET + 8, E_SET + 11},
        {"another as long", E_SET + 12, E_SET + 15},
        {"the same body again", E_SET + 16, E_SET + 19},
        {"bodies removed: alone, first, last, between", E_REMOVED, E_REMOVED + 3},
        {"a tag removed that isn't there", E_ABSENT, E_ABSENT},
        {"each set of tags, each tag set, and removed", E_TAGS, E_TAGS + 2 * 16 * 4 - 1},
        {"sheets that grow by -36 to 36 bytes", E_BY, E_BY + 72},
        {"bodies set of 0 to 32 bytes", E_BODY, E_BODY + 32},
        {"19: of 33, to 255, from 256", E_LONG, E_LONG + 2},
        {"18: 1F, 24, others, set and removed", E_TAG, E_TAG + 5},
        {"rooms of 5 to 145 bytes filled to the last", E_FULL, E_FULL + 140},
        {"20: one byte too long, rooms of 4 to 144", E_OVER, E_OVER + 140},
        {"edits served in rooms of 1 to 160 bytes", E_SERVED + 1, E_SERVED + 160},
        {"refused in rooms of 0 to 160", E_REFUSED, E_REFUSED + 160},
        {"9: stated 0, 1 less, 1 more, past room, 2^32 more", E_STATED, E_STATED + 11},
        {"9: the room ends before the sheet, by 1, by more", E_CUT, E_CUT + 1},
        {"sheets bent: 9, and still a sheet", E_BENT, E_BENT + 1},
        {"each two of 9, 18, 19 and 20 at once", E_ORDER, E_ORDER + 5},
        {"thirteen cells: each served command read", T_READ, T_READ + 21},
        {"each of 256 commands read", T_COMMAND, T_COMMAND + 255},
        {"written with a right PEC", T_WRITE, T_WRITE + 255},
        {"4: written without PEC", T_FOUR, T_FOUR + 255},
        {"5: written with a wrong one", T_WRONG, T_WRONG + 255},
        {"status bits 4 to 13 set", T_STATUS_SET + 4, T_STATUS_SET + 13},
        {"0 to 6 clear", T_STATUS_CLEAR, T_STATUS_CLEAR + 6},
        {"8 to 15 clear", T_STATUS_CLEAR + 8, T_STATUS_CLEAR + 15},
        {"each border of each bit, one below, one above", T_EDGE, T_EDGE + 3 * T_EDGES - 1},
        {"2731 to 3332 in 0.1 K, current below, at, above 0", T_DEGREES, T_DEGREES + 17},
        {"0A: 0 from below, of 0, from above", T_CURRENT, T_CURRENT + 2},
        {"below 0, above 0, -32,768 mA, 32,767", T_CURRENT + 3, T_CURRENT + 6},
        {"09: of under 10 mV, exact, rounded down, of 65,535", T_VOLTAGE, T_VOLTAGE + 3},
        {"each of 13 cells, no other like it", T_CELL, T_CELL + 12},
        {"11, 13: minutes, beyond, not moving", T_TIME, T_TIME + 5},
        {"each at 65,533 to 65,536 minutes before the cap", T_TIME_BORDER, T_TIME_BORDER + 7},
        {"13 of the latest, of a mean that it isn't", T_MEAN, T_MEAN + 1},
        {"0D: 0, under 20, under 100, 100", T_PERCENT, T_PERCENT + 3},
        {"1, 2, 3: a code other than 0 stays", T_STAYS, T_STAYS + 2},
        {"set-ups empty, between, full", T_SET_UP, T_SET_UP + 2},
        {"11: DesignCapacity, DesignVoltage, full, remaining", T_SET_UP + 3, T_SET_UP + 6},
        {"samples past 0, to 0, between, to full, past it", T_CHARGE, T_CHARGE + 4},
        {"bit 4 clear: to charge 0, to under 20 %, else", T_BIT_4, T_BIT_4 + 2},
        {"bit 4 set: the same", T_BIT_4 + 3, T_BIT_4 + 5},
        {"samples that complete 0, 1, 2 to 58, 59 to 61, more s", T_DONE, T_DONE + 6},
        {"0, 1 to 59, 60 seconds kept", T_KEPT, T_KEPT + 2},
        {"gaps of 0, 1, 999, 1,000, 59,000, 60,000, 61,000", T_GAP, T_GAP + 6},
        {"of hours, over the wrap", T_GAP + 7, T_GAP + 8},
        {"samples over the counter's wrap", T_WRAP, T_WRAP},
        {"areas bent in one way: code, charge, 0, the minute", T_BENT, T_BENT + 19},
        {"its flag: 0, 1, 2, others", T_BENT + 20, T_BENT + 23},
        {"totals at the borders, under the count and beyond", T_BENT + T_BEND_TOTALS, T_BENT + T_BENDS - 1},
        {"damaged: not sound, sound", T_DAMAGED, T_DAMAGED + 1},
        {"areas of 0, 300, 302, 330, other bytes in each entry", T_LENGTH, T_LENGTH + 19},
        {"rooms of 0 to 40 bytes, reads and writes", T_ROOM, T_ROOM + 81},
        {"3: no bytes, 12, 17, others", T_ADDRESS, T_ADDRESS + 3},
        {"4: a read too long or short, or not 17; a write", T_FORM, T_FORM + 2},
        {"1 to 8: each two at once", T_BOTH, T_BOTH + 17},
        {"of these 4 or 5 with 6, 7 or 8", T_BOTH + 19, T_BOTH + 24},
        {"writes right; 1, 2, 3 bits altered: 3 or 5", T_ALTERED, T_ALTERED + 3},
        {"30 bytes right; 1, 2, 3 bits altered, 2 127 apart", T_EXCHANGE, T_EXCHANGE + 4},
    };
    for (size_t i = 0; i < sizeof lines / sizeof *lines; i++)
        all = count_classes(other, lines[i].name, lines[i].first, lines[i].last) && all;
    return status_as_said() && charger_status_as_said() && thirteen_status_as_said() && all;
}

static void end_run(void)
{
    bool all = tally();
    printf("compare: %llu calls agree, seed %llu%s\n", (unsigned long long)calls, (unsigned long long)seed,
           all ? ", every class came up" : "");
    if (all || wanted_calls < LEAST)
        exit(0);
    printf("compare: a class never came up, or one that can't be\n");
    exit(1);
}

int main(int count, char **given)
{
    seed = count > 1 ? strtoull(given[1], NULL, 0) : 1;
    wanted_calls = count > 2 ? strtoull(given[2], NULL, 0) : USUAL;
    start_draw(seed);
    printf("compare: seed %llu, %llu calls\n", (unsigned long long)seed, (unsigned long long)wanted_calls);
    fflush(stdout);
    make_lent();
    on_signals(stopped);
    service_length = factory_length = 1;
    play_edit_rooms();
    for (;;)
        play();
}
