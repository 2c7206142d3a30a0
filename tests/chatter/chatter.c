/* Idle chatter must not matter: plays seeded random sequences of calls from a served set-up, and each once more
 * with some of its reads and refused calls struck out:
 *   chatter [SEED [SEQUENCES]]
 * What stays must give what it gave: the same answer, reply and broadcasts, but for the low four bits of the pack's
 * BatteryStatus and the PEC behind them. The ends must be the same but for the error code, which the charger hasn't.
 * The proved library plays in a lent area, the second program in its own structs; at each call they are compared as
 * tests/compare does it. To try a wrong second program, build with -DALONE: that leaves this comparison out, so that
 * only the strikes can tell. Status 0 only if nothing differs and, from LEAST sequences on, every class came up. */
#define _DEFAULT_SOURCE
#include "../compare/given.h"
#include "../compare/proved.h"
#include "../compare/tally.h"

#include <unistd.h>

enum { LEAST = 5000, USUAL = 100000, EVENTS_MOST = 200, ANSWERS = 11 };
enum kind { PACK, CHARGER, THIRTEEN, KINDS };
static const char *const kind_name[KINDS] = {"pack", "charger", "thirteen-cell pack"};
static const size_t area_bytes[KINDS] = {SNATCHBLOCK_AREA, SNATCHBLOCK_CHARGER_AREA, SNATCHBLOCK_THIRTEEN_AREA};
static const size_t code_bytes[KINDS] = {1, 0, 1}; /* the error code at the area's front, which may differ */

static uint64_t seed, sequences, calls, struck_calls;

/* ---- a sequence */

struct sheet {
    uint8_t bytes[SB2_SHEET_ROOM];
    size_t length;
};
enum { SHEETS = 8 };
static struct sheet sheets[SHEETS];

/* A sample or a transaction, with all that is lent to it. */
struct event {
    bool is_sample;
    bool read;     /* the driver's mark */
    bool by_other; /* of two apps the other one made it */
    uint8_t bytes[64];
    size_t length;
    const struct sheet *service, *factory;
    struct sb2_sample sample;
    uint16_t cells[SB2_CELLS];
    size_t room;
};

/* What it gave. */
struct outcome {
    uint32_t result;
    uint8_t bytes[SB2_REPLY_ROOM]; /* reply or broadcasts */
    uint32_t elapsed;              /* of a sample: since the one accepted before it */
    uint16_t flows;                /* what the charger gives afterwards, mA */
};

/* What it gave in the full sequence, and what it found there. */
struct record {
    struct outcome gave;
    bool idle, struck;
    bool held, alarming, open; /* a hold runs; a bit asks for an alarm; a run is open */
};

static enum kind kind;
static struct event events[EVENTS_MOST];
static struct record records[EVENTS_MOST];
static size_t count, at;              /* events, and how many are done */
static const struct event *under_way; /* none at set-up and at the end */
static bool striking;                 /* the second time */
static uint32_t clock_ms;             /* the counter as it was last read, for a refused sample too */

/* The second program's state, and what both set-ups are given. */
static struct sb2_state pack;
static struct sb2_charger charger;
static struct sb2_thirteen thirteen;
static struct sb2_set_up pack_start;
static struct sb2_sample charger_start;
static struct sb2_thirteen_set_up thirteen_start;

static struct both area, room;

static unsigned answer_of(uint32_t result)
{
    return result & 0xFF;
}

static bool is_served(uint32_t result)
{
    return answer_of(result) == SB2_SERVED || answer_of(result) == SB2_OVERFLOW;
}

static bool is_read(const struct event *e)
{
    return !e->is_sample && e->read;
}

/* ---- a difference */

static void show_event(const struct event *e)
{
    printf("  a %s in a room of %zu bytes\n", e->is_sample ? "sample" : e->read ? "read" : "write", e->room);
    if (e->is_sample)
        printf("  %u mV, %d mA, %u in 0.1 K, counter %lu\n", e->sample.voltage, e->sample.current,
               e->sample.temperature, (unsigned long)e->sample.counter);
    else
        show("bytes", e->bytes, e->length);
    if (e->is_sample || kind != PACK)
        return;
    show("service sheet", e->service->bytes, e->service->length);
    show("factory sheet", e->factory->bytes, e->factory->length);
}

/* Where it was seen, and what was struck until then. */
static void report(const char *what)
{
    unsigned long long s = seed, n = sequences;
    printf("DIFFERENCE: %s: seed %llu, sequence %llu (chatter %llu %llu shows it), %s, %s, ", what, s, n, s, n,
           kind_name[kind], striking ? "with strikes" : "in full");
    if (under_way != NULL) {
        printf("event %zu of %zu\n", at + 1, count);
        show_event(under_way);
    } else
        printf("%s of %zu events\n", at < count ? "set-up" : "end", count);
    if (!striking)
        return;
    printf("  struck before it, each with its answer:");
    for (size_t i = 0; i < at; i++)
        if (records[i].struck)
            printf(" %zu (%u)", i + 1, answer_of(records[i].gave.result));
    printf("\n");
}

static _Noreturn void differ(const char *what, const char *one, struct sb2_bytes a, const char *two, struct sb2_bytes b)
{
    report(what);
    show(one, a.at, a.length);
    show(two, b.at, b.length);
    exit(1);
}

static _Noreturn void differ_in(const char *what, const char *one, uint32_t a, const char *two, uint32_t b)
{
    report(what);
    printf("  %-14s %lu (%lx)\n  %-14s %lu (%lx)\n", one, (unsigned long)a, (unsigned long)a, two, (unsigned long)b,
           (unsigned long)b);
    exit(1);
}

static void stopped(int number)
{
    printf("signal %d\n", number);
    report("a signal");
    fflush(stdout);
    _exit(1);
}

/* ---- both programs */

#ifdef ALONE
static const bool alone = true;
#else
static const bool alone = false;
#endif

/* What was lent, with its guard bytes. */
static struct sb2_bytes around(const struct both *b, const uint8_t *memory)
{
    return bytes_of(memory, 2 * GUARD + b->length);
}

/* What both wrote to, and what stays of it: all but the first bytes. */
static void compare_lent(const char *what, const struct both *b, size_t first)
{
    if (memcmp(b->proved, b->second, sizeof b->proved) != 0)
        differ(what, "proved", around(b, b->proved), "second", around(b, b->second));
    if (!stays_behind(b, first))
        differ(what, "before", around(b, b->before), "after", around(b, b->proved));
}

/* Compares what both gave, and what they left in the area. */
static void compare(uint32_t proved, uint32_t second)
{
    if (alone)
        return;
    if (proved != second)
        differ_in("result of the two programs", "proved", proved, "second", second);
    compare_lent("area of the two programs", &area, area.length);
}

/* Puts the second program's state where the proved library's area can be compared with it. */
static void store(void)
{
    switch (kind) {
    case PACK: sb2_area_store(&pack, area.s); break;
    case CHARGER: sb2_area_charger_store(&charger, area.s); break;
    default: sb2_area_thirteen_store(&thirteen, area.s); break;
    }
}

/* Sets both up alike, whatever the area held. */
static void set_up(void)
{
    uint8_t before[AREA_MOST];
    uint32_t proved, second = SB2_SERVED;
    under_way = NULL;
    fill(before, area_bytes[kind]);
    lend_with(&area, before, area_bytes[kind]);
    switch (kind) {
    case PACK:
        proved = proved_set_up(area.p, area.length, &pack_start);
        second = (uint32_t)sb2_set_up(&pack, &pack_start);
        break;
    case CHARGER:
        proved = proved_charger_set_up(area.p, area.length, &charger_start);
        sb2_charger_set_up(&charger, &charger_start);
        break;
    default:
        proved = proved_thirteen_set_up(area.p, area.length, &thirteen_start, thirteen_start.cells);
        second = (uint32_t)sb2_thirteen_set_up(&thirteen, &thirteen_start);
        break;
    }
    store();
    if (second != SB2_SERVED)
        differ_in("set-up", "answer", second, "wanted", SB2_SERVED);
    compare(proved, second);
}

/* In the proved library; what is lent for reading is lent already. */
static uint32_t play_proved(const struct event *e)
{
    struct sb2_bytes m = lent[0].bytes, s = lent[1].bytes, f = lent[2].bytes;
    switch (kind) {
    case PACK:
        if (e->is_sample)
            return proved_sample(area.p, area.length, &e->sample, room.p, room.length);
        return snatchblock_transact(area.p, area.length, s.at, s.length, f.at, f.length, e->read, m.at, m.length,
                                    room.p, room.length);
    case CHARGER:
        if (e->is_sample)
            return proved_charger_sample(area.p, area.length, &e->sample);
        return snatchblock_charger_transact(area.p, area.length, e->read, m.at, m.length, room.p, room.length);
    default:
        if (e->is_sample)
            return proved_thirteen_sample(area.p, area.length, &e->sample, (const void *)m.at);
        return snatchblock_thirteen_transact(area.p, area.length, e->read, m.at, m.length, room.p, room.length);
    }
}

/* In the second program; gives the result packed as the library's. */
static uint32_t play_second(const struct event *e)
{
    struct sb2_bytes m = lent[0].bytes, s = lent[1].bytes, f = lent[2].bytes;
    size_t sent = 0;
    int answer;
    switch (kind) {
    case PACK:
        answer = e->is_sample ? sb2_take_sample(&pack, &e->sample, room.s, room.length, &sent)
                              : sb2_transact(&pack, e->read, m, s, f, room.s, room.length, &sent);
        break;
    case CHARGER:
        answer = e->is_sample ? sb2_charger_sample(&charger, &e->sample)
                              : sb2_charger_transact(&charger, e->read, m, room.s, room.length, &sent);
        break;
    default:
        answer = e->is_sample ? sb2_thirteen_sample(&thirteen, &e->sample, (const void *)m.at)
                              : sb2_thirteen_transact(&thirteen, e->read, m, room.s, room.length, &sent);
        break;
    }
    return (uint32_t)answer | (uint32_t)sent << 8;
}

/* The counter of the latest sample that was accepted. */
static uint32_t latest_counter(void)
{
    return kind == PACK ? pack.latest.counter : kind == CHARGER ? charger.latest.counter : thirteen.latest.counter;
}

/* What the charger gives now, by both programs. */
static uint16_t charger_gives(void)
{
    uint16_t current;
    int answer = sb2_charger_current(&charger, &current);
    compare(snatchblock_charger_current(area.p, area.length), (uint32_t)answer | (uint32_t)current << 8);
    return current;
}

/* Lends what is read, and tells how many slices that are. */
static size_t lend_slices(const struct event *e)
{
    if (e->is_sample && kind != THIRTEEN)
        return 0;
    if (e->is_sample) {
        (void)lend_cells(e->cells);
        return 1;
    }
    (void)lend(0, e->bytes, e->length);
    if (kind != PACK)
        return 1;
    (void)lend(1, e->service->bytes, e->service->length);
    (void)lend(2, e->factory->bytes, e->factory->length);
    return 3;
}

/* A reply ends in the PEC of the request and itself. */
static void check_pec(const struct event *e, const struct outcome *out)
{
    size_t sent = out->result >> 8;
    uint8_t exchange[SB2_MESSAGE_MOST];
    bool right;
    if (e->is_sample || sent == 0)
        return;
    memcpy(exchange, e->bytes, 3);
    memcpy(exchange + 3, out->bytes, sent);
    (void)sb2_check_exchange(bytes_of(exchange, 3 + sent), &right);
    if (!right)
        differ("PEC of a reply", "request", bytes_of(e->bytes, 3), "reply", bytes_of(out->bytes, sent));
}

/* Gives an event to both. */
static struct outcome play(const struct event *e)
{
    struct outcome out = {.elapsed = e->is_sample ? sb2_elapsed(latest_counter(), e->sample.counter) : 0};
    size_t slices = lend_slices(e);
    under_way = e;
    lend_blank(&room, e->room);
    uint32_t proved = play_proved(e);
    out.result = play_second(e);
    store();
    compare(proved, out.result);
    if (!alone)
        compare_lent("room of the two programs", &room, out.result >> 8);
    if (!lent_stay(slices))
        differ_in("bytes lent for reading", "slices", (uint32_t)slices, "result", out.result);
    memcpy(out.bytes, room.s, out.result >> 8);
    if (kind == CHARGER)
        out.flows = charger_gives();
    check_pec(e, &out);
    calls++;
    return out;
}

/* ---- what is played */

/* A sheet of some names, at times bent so that it may be none. */
static void make_sheet(struct sheet *sheet)
{
    uint8_t names[4][SB2_NAME_MOST];
    struct sb2_body bodies[4];
    for (size_t i = 0; i < 4; i++) {
        size_t length = below(SB2_NAME_MOST + 1);
        fill(names[i], length);
        bodies[i] = (struct sb2_body){!one_in(3), bytes_of(names[i], length)};
    }
    (void)sb2_sheet_write(bodies, sheet->bytes, sizeof sheet->bytes, &sheet->length);
    if (one_in(4))
        bend_sheet(sheet->bytes);
}

/* One of no names, no sheet at all, and others. */
static void make_sheets(void)
{
    memset(sheets, 0, sizeof sheets);
    sheets[0].length = 1;
    for (size_t i = 2; i < SHEETS; i++)
        make_sheet(&sheets[i]);
}

static void make_set_up(void)
{
    switch (kind) {
    case PACK:
        make_sheets();
        pack_start = some_set_up(true);
        clock_ms = pack_start.first.counter;
        break;
    case CHARGER:
        clock_ms = one_in(4) ? 0u - below(200000) : (uint32_t)draw();
        charger_start = (struct sb2_sample){some_word(), some_current(), some_word(), clock_ms};
        break;
    default:
        thirteen_start = some_thirteen_set_up(true);
        clock_ms = thirteen_start.first.counter;
        break;
    }
}

/* From none to weeks, mostly a second; at times over the counter's wrap. */
static uint32_t some_gap(void)
{
    switch (one_in(2) ? 0 : below(9)) {
    case 0: return 1000;
    case 1: return 0;
    case 2: return 1 + below(1100);
    case 3: return 1000 * (2 + below(10));
    case 4: return 29000 + below(2001);
    case 5: return 60000 * (1 + below(59));
    case 6: return 174999 + below(3);
    case 7: return 3600000u * (1 + below(one_in(2) ? 5 : 1192));
    default: return 0u - clock_ms + below(1000);
    }
}

/* What goes on at the pack for a while. */
static struct {
    int32_t way; /* of the current */
    bool hot, low;
} scene;

static void turn_scene(void)
{
    scene.way = (int32_t)below(3) - 1;
    scene.hot = one_in(4);
    scene.low = one_in(4);
}

/* Any sample, or one of the scene, about the pack's own limits. */
static void make_pack_sample(struct event *e)
{
    const struct sb2_settings *s = &pack.settings;
    e->room = room_size(s->plain ? SB2_PLAIN_ROOM : SB2_BROADCAST_ROOM);
    if (one_in(5))
        turn_scene();
    if (one_in(4))
        return;
    e->sample.current = (int16_t)(scene.way * (1 + (int32_t)below(one_in(3) ? 32767 : 3000)));
    e->sample.voltage = (uint16_t)(s->discharge_limit - scene.low);
    e->sample.temperature = (uint16_t)(s->temperature_limit + scene.hot);
}

static void put_read(struct event *e, uint8_t address, uint8_t command)
{
    const uint8_t ask[3] = {address, command, address | 1};
    memcpy(e->bytes, ask, sizeof ask);
    e->length = sizeof ask;
    e->read = true;
}

/* A right write is spoiled in one way, so that it is refused. */
static void spoil(struct event *e, uint32_t least_room)
{
    switch (below(6)) {
    case 0:
        e->length = 5;
        e->bytes[4] ^= (uint8_t)(1 + below(255));
        break;
    case 1: e->room = below(least_room); break;
    case 2: e->bytes[0] ^= (uint8_t)(1 + below(255)); break;
    case 3: e->read = true; break;
    case 4: e->length = one_in(2) ? 3 : 6; break;
    default: put_write(e->bytes, e->bytes[0], (uint8_t)(0x17 + below(0x40)), some_word()); break;
    }
}

/* A write with or without PEC, at times spoiled. */
static void make_write(struct event *e, uint8_t address, uint8_t command, uint16_t word)
{
    put_write(e->bytes, address, command, word);
    e->length = 4 + below(2);
    e->read = false;
    if (one_in(3))
        spoil(e, address == 0x16 ? SB2_REPLY_ROOM : SB2_CHARGER_ROOM);
}

/* Much that leaves an error code, that shows it, and that starts and ends a hold. */
static void make_pack_call(struct event *e)
{
    static const uint8_t leaves_code[] = {0x05, 0x06, 0x11, 0x12, 0x13, 0x1D, 0x20, 0x21,
                                          0x22, 0x23, 0x24, 0x2F, 0x3C, 0x3D, 0x3E, 0x3F};
    e->room = room_size(SB2_REPLY_ROOM);
    e->service = &sheets[below(SHEETS)];
    e->factory = &sheets[below(SHEETS)];
    switch (below(8)) {
    case 0: case 1: put_read(e, 0x16, 0x16); break;
    case 2: put_read(e, 0x16, leaves_code[below(sizeof leaves_code)]); break;
    case 3: make_write(e, 0x16, 0x03, (uint16_t)(below(8) << 13 | below(0x2000))); break;
    case 4: make_write(e, 0x16, (uint8_t)below(5), some_word()); break;
    default: e->length = some_message(e->bytes, &e->read); break;
    }
}

static void make_charger_call(struct event *e)
{
    uint8_t command = (uint8_t)(0x14 + below(3));
    e->room = charger_room();
    switch (below(5)) {
    case 0: put_read(e, 0x12, (uint8_t)(one_in(4) ? 0x11 : 0x13)); break;
    case 1: case 2: make_write(e, 0x12, command, charger_word(command)); break;
    default: e->length = some_charger_message(e->bytes, &e->read); break;
    }
}

static void make_thirteen_call(struct event *e)
{
    e->room = room_size(SB2_REPLY_ROOM);
    switch (below(8)) {
    case 0: make_write(e, 0x16, thirteen_command(), some_word()); break;
    case 1: put_read(e, 0x16, one_in(2) ? 0x11 : 0x13); break;
    default: e->length = some_thirteen_message(e->bytes, &e->read); break;
    }
}

static void make_sample(struct event *e)
{
    clock_ms += some_gap();
    e->sample = (struct sb2_sample){some_word(), some_current(), some_word(), clock_ms};
    if (kind == PACK)
        make_pack_sample(e);
    if (kind != THIRTEEN)
        return;
    e->sample = thirteen_measured(clock_ms);
    some_cells(e->cells);
}

/* The next event; one app's calls come in rows. */
static struct event make_event(bool is_sample, bool by_other)
{
    struct event e = {.is_sample = is_sample, .by_other = by_other};
    if (is_sample)
        make_sample(&e);
    else if (kind == PACK)
        make_pack_call(&e);
    else if (kind == CHARGER)
        make_charger_call(&e);
    else
        make_thirteen_call(&e);
    return e;
}

/* ---- classes */

enum choice { NONE, ALL, READS, ONE_APP, SOME, CHOICES };
enum { GAPS = 6 };
enum class {
    CHOSEN, STRUCK_READ = CHOSEN + KINDS * CHOICES, STRUCK_WRITE = STRUCK_READ + KINDS * ANSWERS,
    STRUCK_SAMPLE = STRUCK_WRITE + KINDS * ANSWERS, STRUCK_COMMAND, STAYING_COMMAND = STRUCK_COMMAND + 64,
    WRITTEN = STAYING_COMMAND + 64, IN_HOLD = WRITTEN + 5, IN_RUN = IN_HOLD + 2, BETWEEN_ALARMS, HOLD_STARTS,
    HOLD_ENDED, HOLD_RAN_OUT, CLOSED, RUN_OPENS, RUN_ENDS, CYCLED, BIT_4_SET, BIT_4_CLEARED, ALARM_STARTS, ALARM_ENDS,
    WRAPPED, GAP_OF = WRAPPED + KINDS, SENT = GAP_OF + KINDS * GAPS, SHOWN_OTHER = SENT + 2 * 5,
    SHOWN_SAME = SHOWN_OTHER + 3, END_CODE = SHOWN_SAME + 2, C_COUNTED_OUT = END_CODE + KINDS, C_STOPPED, C_STARTED,
    C_WRITTEN, T_CELLS = C_WRITTEN + 5, T_CUT_OFF, CLASSES
};
static uint64_t came[CLASSES];

/* Strikes so far: in all; since the latest alarm; in this run; in this hold; since the charger's latest request. */
static struct {
    uint64_t all, alarm, run, hold, request;
} strikes;
static bool alarm_was_sent;

static bool is_alarm(const struct outcome *out)
{
    return out->result >> 8 != 0 && out->bytes[1] == 0x16;
}

/* Whether a bit of BatteryStatus asks for an alarm. */
static bool is_alarming(struct sb2_state state)
{
    static const uint8_t ask[3] = {0x16, 0x16, 0x17};
    const struct sb2_bytes none = bytes_of(ask, 0); /* no sheet, for none is looked at */
    uint8_t reply[SB2_REPLY_ROOM];
    size_t sent;
    (void)sb2_transact(&state, true, bytes_of(ask, 3), none, none, reply, sizeof reply, &sent);
    return (reply[1] & 0xDB) != 0;
}

static void note_struck(const struct event *e, const struct record *r)
{
    unsigned answer = answer_of(r->gave.result);
    if (e->is_sample)
        came[STRUCK_SAMPLE]++;
    else
        came[(e->read ? STRUCK_READ : STRUCK_WRITE) + ANSWERS * kind + answer]++;
    if (kind == PACK && is_read(e) && is_served(answer))
        came[STRUCK_COMMAND + e->bytes[1]]++;
    if (r->held)
        came[IN_HOLD + r->alarming]++;
    came[IN_RUN] += r->open;
    strikes.all++;
    strikes.alarm += alarm_was_sent;
    strikes.run += r->open;
    strikes.hold += r->held;
    strikes.request++;
    struck_calls++;
}

/* What a sample of the pack did to hold, run and counts, where something was struck before. */
static void note_pack_sample(const struct sb2_state *was, const struct outcome *out)
{
    const struct sb2_tank *before = &was->tank, *after = &pack.tank;
    bool closed = before->run_open && !after->run_open && pack.latest.current < 0;
    bool alarmed = is_alarming(*was), alarming = is_alarming(pack);
    came[HOLD_RAN_OUT] += strikes.hold > 0 && was->host.alarm_mode && !pack.host.alarm_mode;
    came[CLOSED] += strikes.run > 0 && closed;
    came[RUN_ENDS] += strikes.run > 0 && before->run_open && !after->run_open && !closed;
    came[RUN_OPENS] += strikes.all > 0 && !before->run_open && after->run_open;
    came[CYCLED] += strikes.all > 0 && after->cycle_count > before->cycle_count;
    came[BIT_4_SET] += strikes.all > 0 && !before->fully_discharged && after->fully_discharged;
    came[BIT_4_CLEARED] += strikes.all > 0 && before->fully_discharged && !after->fully_discharged;
    came[ALARM_STARTS] += strikes.all > 0 && !alarmed && alarming;
    came[ALARM_ENDS] += strikes.all > 0 && alarmed && !alarming;
    came[BETWEEN_ALARMS] += strikes.alarm > 0 && is_alarm(out);
    if (strikes.all > 0)
        came[SENT + 5u * pack.settings.plain + (out->result >> 8) / (pack.settings.plain ? 4 : 5)]++;
    if (is_alarm(out)) {
        alarm_was_sent = true;
        strikes.alarm = 0;
    }
    if (!after->run_open || after->run_drawn == 0)
        strikes.run = 0;
    if (!pack.host.alarm_mode)
        strikes.hold = 0;
}

/* What a write did to the hold, or which code a read of BatteryStatus showed the first time and now. */
static void note_pack_call(const struct event *e, const struct sb2_state *was, const struct outcome *full,
                           const struct outcome *now)
{
    unsigned before = full->bytes[0] & 0xF, code = now->bytes[0] & 0xF;
    if (strikes.all == 0)
        return;
    came[e->read ? STAYING_COMMAND + e->bytes[1] : WRITTEN + e->bytes[1]]++;
    if (e->read && e->bytes[1] == 0x16)
        came[before == code ? SHOWN_SAME + (code > 0) : SHOWN_OTHER + (before == 0 ? 0 : code == 0 ? 1 : 2)]++;
    if (e->read || e->bytes[1] != 0x03)
        return;
    came[HOLD_STARTS] += !was->host.alarm_mode && pack.host.alarm_mode;
    came[HOLD_ENDED] += strikes.hold > 0 && !pack.host.alarm_mode;
    strikes.hold = 0;
}

/* Where the charger's count came to its end, and what its writes did. */
static void note_charger(const struct event *e, const struct sb2_charger *was, uint16_t flows)
{
    uint16_t flowed;
    (void)sb2_charger_current(was, &flowed);
    if (was->silence < SB2_SILENCE_MS && charger.silence == SB2_SILENCE_MS)
        came[C_COUNTED_OUT] += strikes.request > 0;
    if (e->is_sample || e->read)
        return;
    came[C_STOPPED] += strikes.all > 0 && e->bytes[1] == 0x16 && flowed > 0 && flows == 0;
    came[C_STARTED] += strikes.all > 0 && flowed == 0 && flows > 0;
    came[C_WRITTEN + e->bytes[1] - 0x12] += strikes.all > 0;
    if (e->bytes[1] == 0x14 || e->bytes[1] == 0x15)
        strikes.request = 0;
}

static void note_thirteen(const struct event *e, const struct outcome *out)
{
    if (e->is_sample || strikes.all == 0)
        return;
    came[T_CELLS] += e->bytes[1] == 0xF1;
    came[T_CUT_OFF] += answer_of(out->result) == SB2_OVERFLOW;
}

/* The time that an accepted sample counts for. */
static void note_time(const struct event *e, uint32_t elapsed)
{
    static const uint32_t most[GAPS - 1] = {0, 999, 1000, 59999, 3599999};
    unsigned class = 0;
    while (class < GAPS - 1 && elapsed > most[class])
        class++;
    if (strikes.all == 0)
        return;
    came[GAP_OF + GAPS * kind + class]++;
    came[WRAPPED + kind] += e->sample.counter < elapsed;
}

/* ---- strikes */

static enum choice some_choice(void)
{
    static const enum choice choices[] = {NONE, ALL, ALL, READS, READS, ONE_APP, ONE_APP, SOME, SOME, SOME, SOME};
    return choices[below(sizeof choices / sizeof *choices)];
}

/* Strikes out some of what was idle in the full sequence. */
static void choose(void)
{
    enum choice choice = some_choice();
    uint32_t chance = 1 + below(99);
    bool any = false;
    for (size_t i = 0; i < count; i++) {
        const bool chosen[CHOICES] = {false, true, is_read(&events[i]), events[i].by_other, below(100) < chance};
        records[i].struck = records[i].idle && chosen[choice];
        any |= records[i].idle && (chosen[choice] || choice == NONE);
    }
    came[CHOSEN + CHOICES * kind + choice] += any;
}

/* Whether a reply shows the error code: the pack's BatteryStatus alone. */
static bool shows_code(const struct event *e, uint32_t result)
{
    return kind == PACK && is_read(e) && is_served(result) && e->bytes[1] == 0x16;
}

/* Whether replies of three bytes differ in the low four bits, with another PEC then, and in nothing else. */
static bool same_but_code(struct sb2_bytes full, struct sb2_bytes now)
{
    unsigned differing = full.at[0] ^ now.at[0];
    return full.length == 3 && now.length == 3 && full.at[1] == now.at[1] && differing > 0 && differing < 16;
}

/* What stays gives what it gave in the full sequence. */
static void compare_with_full(const struct event *e, const struct outcome *full, const struct outcome *now)
{
    const struct sb2_bytes before = bytes_of(full->bytes, full->result >> 8);
    const struct sb2_bytes after = bytes_of(now->bytes, now->result >> 8);
    if (full->elapsed != now->elapsed)
        differ_in("elapsed", "in full", full->elapsed, "with strikes", now->elapsed);
    if (answer_of(full->result) != answer_of(now->result))
        differ_in("answer", "in full", answer_of(full->result), "with strikes", answer_of(now->result));
    bool same = before.length == after.length && memcmp(before.at, after.at, before.length) == 0;
    if (!same && !(shows_code(e, full->result) && same_but_code(before, after)))
        differ(e->is_sample ? "broadcasts" : "reply", "in full", before, "with strikes", after);
    if (full->flows != now->flows)
        differ_in("the charger's current", "in full", full->flows, "with strikes", now->flows);
}

/* ---- a sequence, in full and with strikes */

/* What the full sequence ended with: the proved library's area, the second program's, and its own state of the pack. */
static struct {
    uint8_t proved[AREA_MOST], second[AREA_MOST];
    struct sb2_state pack;
} end;

static void keep_end(void)
{
    memcpy(end.proved, area.p, area.length);
    memcpy(end.second, area.s, area.length);
    end.pack = pack;
}

/* The same but for the error code. */
static void compare_end(const char *what, const uint8_t *full, const uint8_t *now)
{
    size_t code = code_bytes[kind];
    if (memcmp(full + code, now + code, area.length - code) != 0)
        differ(what, "in full", bytes_of(full, area.length), "with strikes", bytes_of(now, area.length));
}

static void compare_ends(void)
{
    under_way = NULL;
    compare_end("end", end.second, area.s);
    compare_end("end of the proved library", end.proved, area.p);
    came[END_CODE + kind] += code_bytes[kind] == 1 && end.second[0] != area.s[0];
    end.pack.error_code = pack.error_code;
    if (kind == PACK && !sb2_same(&end.pack, &pack))
        differ("end by sb2_same", "in full", bytes_of(end.second, area.length), "with strikes",
               bytes_of(area.s, area.length));
}

static struct record play_in_full(const struct event *e)
{
    struct record r = {.held = kind == PACK && pack.host.alarm_mode, .open = kind == PACK && pack.tank.run_open};
    r.alarming = r.held && is_alarming(pack);
    r.gave = play(e);
    if (answer_of(r.gave.result) == SB2_NOT_SOUND)
        differ_in("an answer that no served set-up leads to", "answer", SB2_NOT_SOUND, "result", r.gave.result);
    r.idle = is_read(e) || !is_served(r.gave.result);
    return r;
}

/* An event that stays: the same as before, and its classes. */
static void play_staying(const struct event *e, const struct outcome *full)
{
    struct sb2_state pack_was = pack;
    struct sb2_charger charger_was = charger;
    struct outcome now = play(e);
    compare_with_full(e, full, &now);
    if (!is_served(now.result))
        return;
    if (e->is_sample)
        note_time(e, now.elapsed);
    if (kind == CHARGER)
        note_charger(e, &charger_was, now.flows);
    else if (kind == THIRTEEN)
        note_thirteen(e, &now);
    else if (e->is_sample)
        note_pack_sample(&pack_was, &now);
    else
        note_pack_call(e, &pack_was, full, &now);
}

static void play_full(void)
{
    uint32_t samples = 1 + below(5); /* of eight events, so many are samples */
    bool by_other = false;           /* an app's calls come in rows */
    striking = false;
    count = 5 + below(one_in(2) ? EVENTS_MOST - 4 : 36);
    at = 0;
    set_up();
    for (; at < count; at++) {
        by_other ^= one_in(3);
        events[at] = make_event(below(8) < samples, by_other);
        records[at] = play_in_full(&events[at]);
    }
    keep_end();
}

static void play_with_strikes(void)
{
    memset(&strikes, 0, sizeof strikes);
    alarm_was_sent = false;
    striking = true;
    at = 0;
    set_up();
    for (; at < count; at++)
        if (records[at].struck)
            note_struck(&events[at], &records[at]);
        else
            play_staying(&events[at], &records[at].gave);
    compare_ends();
}

static void play_sequence(void)
{
    static const enum kind kinds[5] = {PACK, PACK, PACK, CHARGER, THIRTEEN};
    kind = kinds[sequences++ % 5];
    make_set_up();
    play_full();
    choose();
    play_with_strikes();
}

/* ---- the tally */

/* Where a kind's classes begin among those that stand once for each kind. */
#define OF(class, kind, each) ((class) + (kind) * (each))
#define READ_OF(kind, answer) (OF(STRUCK_READ, kind, ANSWERS) + (answer))
#define WRITE_OF(kind, answer) (OF(STRUCK_WRITE, kind, ANSWERS) + (answer))

static const struct {
    const char *name;
    size_t first, last;
} lines[] = {
    {"pack: struck none, all, reads, one app's, some", OF(CHOSEN, PACK, CHOICES), OF(CHOSEN, CHARGER, CHOICES) - 1},
    {"charger: the same", OF(CHOSEN, CHARGER, CHOICES), OF(CHOSEN, THIRTEEN, CHOICES) - 1},
    {"thirteen cells: the same", OF(CHOSEN, THIRTEEN, CHOICES), OF(CHOSEN, KINDS, CHOICES) - 1},
    {"pack: struck reads of answer 0", READ_OF(PACK, 0), READ_OF(PACK, 0)},
    {"2 to 4", READ_OF(PACK, 2), READ_OF(PACK, 4)},
    {"6 and 7", READ_OF(PACK, 6), READ_OF(PACK, 7)},
    {"9 and 10", READ_OF(PACK, 9), READ_OF(PACK, 10)},
    {"struck writes of answer 2 to 8", WRITE_OF(PACK, 2), WRITE_OF(PACK, 8)},
    {"struck samples", STRUCK_SAMPLE, STRUCK_SAMPLE},
    {"struck served reads of 00 to 1C", STRUCK_COMMAND, STRUCK_COMMAND + 0x1C},
    {"and of 20 to 23", STRUCK_COMMAND + 0x20, STRUCK_COMMAND + 0x23},
    {"after strikes: reads of 00 to 1C that stay", STAYING_COMMAND, STAYING_COMMAND + 0x1C},
    {"and of 20 to 23", STAYING_COMMAND + 0x20, STAYING_COMMAND + 0x23},
    {"writes to 00 to 04", WRITTEN, WRITTEN + 4},
    {"BatteryStatus: a code for 0, 0 for a code, another", SHOWN_OTHER, SHOWN_OTHER + 2},
    {"the same code: 0, another", SHOWN_SAME, SHOWN_SAME + 1},
    {"strikes in a hold: no alarm due, one due", IN_HOLD, IN_HOLD + 1},
    {"in an open run", IN_RUN, IN_RUN},
    {"strikes between two alarms", BETWEEN_ALARMS, BETWEEN_ALARMS},
    {"after strikes a hold starts", HOLD_STARTS, HOLD_STARTS},
    {"strikes in a hold; a write ends it, it runs out", HOLD_ENDED, HOLD_RAN_OUT},
    {"strikes in a run, and full is learned", CLOSED, CLOSED},
    {"after strikes a run opens; ends unused", RUN_OPENS, RUN_ENDS},
    {"cycles rise", CYCLED, CYCLED},
    {"bit 4 is set, cleared", BIT_4_SET, BIT_4_CLEARED},
    {"an alarm's cause comes, goes", ALARM_STARTS, ALARM_ENDS},
    {"samples with PEC and no message to four", SENT, SENT + 4},
    {"in plain", SENT + 5, SENT + 9},
    {"over the counter's wrap, of each kind", WRAPPED, WRAPPED + KINDS - 1},
    {"after 0 ms, under 1 s, 1 s, under 1 min, 1 h, more", GAP_OF, GAP_OF + GAPS * KINDS - 1},
    {"pack: ends with another error code", END_CODE + PACK, END_CODE + PACK},
    {"charger: struck reads of answer 0", READ_OF(CHARGER, 0), READ_OF(CHARGER, 0)},
    {"2 to 4", READ_OF(CHARGER, 2), READ_OF(CHARGER, 4)},
    {"6", READ_OF(CHARGER, 6), READ_OF(CHARGER, 6)},
    {"8", READ_OF(CHARGER, 8), READ_OF(CHARGER, 8)},
    {"struck writes of answer 2 to 6", WRITE_OF(CHARGER, 2), WRITE_OF(CHARGER, 6)},
    {"8", WRITE_OF(CHARGER, 8), WRITE_OF(CHARGER, 8)},
    {"after strikes the count comes to 175,000", C_COUNTED_OUT, C_COUNTED_OUT},
    {"an alarm stops the current; a write starts it", C_STOPPED, C_STARTED},
    {"a write to 12", C_WRITTEN, C_WRITTEN},
    {"to 14 to 16", C_WRITTEN + 2, C_WRITTEN + 4},
    {"thirteen cells: struck reads of answer 0", READ_OF(THIRTEEN, 0), READ_OF(THIRTEEN, 0)},
    {"2 to 4", READ_OF(THIRTEEN, 2), READ_OF(THIRTEEN, 4)},
    {"6 and 7", READ_OF(THIRTEEN, 6), READ_OF(THIRTEEN, 7)},
    {"10", READ_OF(THIRTEEN, 10), READ_OF(THIRTEEN, 10)},
    {"struck writes of answer 2 to 8", WRITE_OF(THIRTEEN, 2), WRITE_OF(THIRTEEN, 8)},
    {"after strikes all cells read; a time cut off", T_CELLS, T_CUT_OFF},
    {"ends with another error code", END_CODE + THIRTEEN, END_CODE + THIRTEEN},
};

/* Prints each class; false if one never came up. */
static bool tally(void)
{
    bool all = true;
    for (size_t i = 0; i < sizeof lines / sizeof *lines; i++)
        all = count_classes(came, lines[i].name, lines[i].first, lines[i].last) && all;
    return all;
}

int main(int words, char **word)
{
    seed = words > 1 ? strtoull(word[1], NULL, 0) : 1;
    uint64_t wanted = words > 2 ? strtoull(word[2], NULL, 0) : USUAL;
    printf("chatter: seed %llu, %llu sequences\n", (unsigned long long)seed, (unsigned long long)wanted);
    fflush(stdout);
    start_draw(seed);
    make_lent();
    on_signals(stopped);
    while (sequences < wanted)
        play_sequence();
    bool all = tally();
    printf("chatter: %llu sequences, %llu calls, %llu struck: nothing else changes, seed %llu%s\n",
           (unsigned long long)sequences, (unsigned long long)calls, (unsigned long long)struck_calls,
           (unsigned long long)seed, all ? ", every class came up" : "");
    if (all || sequences < LEAST)
        return 0;
    printf("chatter: a class never came up\n");
    return 1;
}
