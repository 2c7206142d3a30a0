/* A pack and a charger joined, by request R-7: both get samples on one clock, at most 1 s apart, and every message that
 * the pack broadcasts comes to the charger as a write. What flows is what the charger gives, less a load. After each
 * sample both halves of the header's promise are looked at; the times of each story are worked by hand: charger words
 * go every 30 s from set-up on, alarms at once and every 10 s. */
#include "check.h"
#include "snatchblock.h"

#include <string.h>

enum { ASKED = 2000, VOLTS = 16800, COOL = 2981, HOT = 3183, WITHIN = 31000, LOW = 100, HALF = 2000 };
enum { OVER_TEMP = 1 << 12, TERMINATE_CHARGE = 1 << 14, ALARM_MODE = 1 << 13, CHARGER_MODE = 1 << 14 };

/* ---- the two, and what is around them */

static uint8_t pack[SNATCHBLOCK_AREA], charger[SNATCHBLOCK_CHARGER_AREA], room[SNATCHBLOCK_REPLY_ROOM];
static uint32_t now;
static int32_t load;           /* mA that something else takes, below 0 puts in */
static uint16_t temperature;
static bool charger_first;     /* it gets its sample before the messages come, else behind them */
static bool host_inhibits;
static size_t heard;           /* messages of the latest broadcast */
static uint32_t set_for, free_for; /* ms for which TERMINATE_CHARGE was set, or nothing stood against charging */
static bool was_set, was_free;
static unsigned stopped, flowing; /* how often each half of the promise was due */
static bool polled;               /* hosts ask both, and are refused, between the samples */
static uint32_t trace;            /* what was given and heard at each sample, put together */

static uint32_t transact(bool read, const uint8_t *bytes, size_t length)
{
    static const uint8_t no_names[1] = {0};
    return snatchblock_transact(pack, sizeof pack, no_names, 1, no_names, 1, read, bytes, length, room, sizeof room);
}

#include "words.h"

static uint16_t given(void)
{
    uint32_t result = snatchblock_charger_current(charger, sizeof charger);
    CHECK(snatchblock_answer_of(result), SNATCHBLOCK_SERVED);
    return snatchblock_charger_current_of(result);
}

/* A host's word to the charger, which the driver hands over as it came. */
static void tell_charger(uint8_t command, uint16_t value)
{
    const uint8_t message[4] = {0x12, command, (uint8_t)(value & 0xFF), (uint8_t)(value >> 8)};
    uint8_t reply[SNATCHBLOCK_CHARGER_REPLY_ROOM];
    CHECK(snatchblock_charger_transact(charger, sizeof charger, false, message, 4, reply, sizeof reply), 0);
}

/* Cuts a broadcast into its messages; those to the host aren't for the charger. */
static void deliver(const uint8_t *bytes, size_t length)
{
    size_t each = snatchblock_message_length(pack);
    uint8_t reply[SNATCHBLOCK_CHARGER_REPLY_ROOM];
    CHECK(length % each, 0);
    for (size_t at = 0; at < length; at += each)
        CHECK(snatchblock_charger_transact(charger, sizeof charger, false, bytes + at, each, reply, sizeof reply),
              bytes[at] == 0x12 ? 0 : 3);
    heard = length / each;
}

/* The promise: 31 s of TERMINATE_CHARGE and the current is 0; 31 s with nothing against it and it is what is asked. */
static void watch(uint32_t ms)
{
    bool words_go = (word(0x03) & CHARGER_MODE) == 0;
    uint16_t status = word(0x16);
    bool is_set = words_go && (status & TERMINATE_CHARGE);
    bool is_free = words_go && !(status & (TERMINATE_CHARGE | OVER_TEMP)) && !host_inhibits;
    set_for = is_set && was_set ? set_for + ms : 0;
    free_for = is_free && was_free ? free_for + ms : 0;
    was_set = is_set;
    was_free = is_free;
    if (set_for >= WITHIN) {
        CHECK(given(), 0);
        stopped++;
    }
    if (free_for >= WITHIN) {
        CHECK(given(), ASKED);
        flowing++;
    }
    CHECK(snatchblock_sound(pack, sizeof pack) && snatchblock_charger_sound(charger, sizeof charger), true);
}

/* ---- hosts that poll */

static uint64_t polls = 20261117;

static uint32_t poll_below(uint32_t limit)
{
    polls = polls * 6364136223846793005u + 1442695040888963407u;
    return (uint32_t)(polls >> 33) % limit;
}

/* A read, or a write whose PEC is wrong, to the pack or to the charger: nothing of either may change but the error code. */
static void poll(void)
{
    uint8_t address = poll_below(2) ? 0x16 : 0x12, reply[SNATCHBLOCK_REPLY_ROOM];
    uint8_t ask[3] = {address, (uint8_t)poll_below(0x40), address | 1};
    uint8_t wrong[5] = {address, (uint8_t)poll_below(0x17), (uint8_t)poll_below(256), (uint8_t)poll_below(256)};
    bool read = poll_below(3) > 0;
    wrong[4] = snatchblock_pec(wrong, 4) ^ (uint8_t)(1 + poll_below(255));
    const uint8_t *bytes = read ? ask : wrong;
    size_t length = read ? sizeof ask : sizeof wrong;
    uint32_t result = address == 0x16 ? transact(read, bytes, length)
                                      : snatchblock_charger_transact(charger, sizeof charger, read, bytes, length, reply,
                                                                     sizeof reply);
    CHECK(read || snatchblock_answer_of(result) == SNATCHBLOCK_WRONG_PEC, true);
}

/* ---- time passes */

/* A sample for both, so many ms on. */
static void pass(uint32_t ms)
{
    uint8_t sent[SNATCHBLOCK_BROADCAST_ROOM];
    for (uint32_t left = polled ? poll_below(4) : 0; left > 0; left--)
        poll();
    now += ms;
    const struct snatchblock_reading reading = {.voltage = 15000, .current = (int16_t)(given() - load),
                                                .temperature = temperature, .counter = now};
    uint32_t result = snatchblock_sample_from(pack, sizeof pack, &reading, sent, sizeof sent);
    CHECK(snatchblock_answer_of(result), SNATCHBLOCK_SERVED);
    if (charger_first)
        CHECK(snatchblock_charger_sample_from(charger, sizeof charger, &reading), 0);
    deliver(sent, snatchblock_length_of(result));
    if (!charger_first)
        CHECK(snatchblock_charger_sample_from(charger, sizeof charger, &reading), 0);
    trace = trace * 31 + given() * 5 + (uint32_t)heard;
    watch(ms);
}

/* Seconds in which the charger gives the same after each sample. */
static void seconds_at(int line, unsigned seconds, uint16_t wanted)
{
    for (unsigned i = 0; i < seconds; i++) {
        pass(1000);
        check_at(line, "current", given(), wanted);
    }
}
#define SECONDS(seconds, wanted) seconds_at(__LINE__, seconds, wanted)

static bool terminates(void)
{
    return (word(0x16) & TERMINATE_CHARGE) != 0;
}

/* So many of 4,000 mAh, at rest; below 400 there is an alarm for the host alone. The counter wraps on the way. */
static void set_up(bool plain, uint16_t remaining)
{
    const struct snatchblock_setup setup = {.DesignCapacity = 4000, .full = 4000, .remaining = remaining,
                                            .DesignVoltage = 14800, .ChargingCurrent = ASKED, .ChargingVoltage = VOLTS,
                                            .TemperatureLimit = HOT - 1, .DischargeLimit = 11000, .plain = plain};
    const struct snatchblock_reading first = {.voltage = 15000, .temperature = COOL, .counter = 4294967000u};
    now = first.counter;
    load = 0;
    temperature = COOL;
    was_set = was_free = host_inhibits = false;
    CHECK(snatchblock_set_up_from(pack, sizeof pack, &setup, &first), 0);
    CHECK(snatchblock_charger_set_up_from(charger, sizeof charger, &first), 0);
}

/* Set up, and on to the first charger words. */
static void start(bool plain, uint16_t remaining)
{
    set_up(plain, remaining);
    SECONDS(29, 0);
    SECONDS(1, ASKED);
    CHECK(heard, 2);
}

/* ---- the stories, each told in seconds from set-up */

/* 1 mAh from full: 1.8 s of 2,000 mA. The alarm goes with the sample that fills it. */
static void full(bool plain)
{
    start(plain, 3999);
    SECONDS(1, ASKED);
    CHECK(terminates(), false);
    SECONDS(1, 0);
    CHECK(terminates(), true);
    CHECK(heard, 2);
    SECONDS(27, 0);
    CHECK(terminates(), false); /* nothing flows */
    SECONDS(1, ASKED);          /* 60: so its words ask for current */
    SECONDS(1, 0);              /* and it is full still */
    load = 3000;                /* the cause is gone: more is taken than the charger gives */
    SECONDS(28, 0);
    SECONDS(120, ASKED); /* from 90 on */
    CHECK(terminates(), false);
}

/* Hot while it charges, then cool: off at once, on with the next words. */
static void hot(bool plain)
{
    start(plain, HALF);
    SECONDS(40, ASKED);
    temperature = HOT;
    SECONDS(1, 0); /* 71 */
    CHECK(terminates(), true);
    temperature = COOL;
    SECONDS(18, 0);
    SECONDS(100, ASKED); /* from 90 on */
}

/* The alarm was just sent, for little is left: it comes 10 s later, and to the charger too. */
static void alarm_later(bool plain)
{
    start(plain, LOW); /* alarms at 1, 11, 21, */
    SECONDS(1, ASKED); /* 31 */
    CHECK(heard, 1);
    SECONDS(4, ASKED);
    temperature = HOT;
    SECONDS(5, ASKED);
    CHECK(terminates(), true);
    SECONDS(1, 0); /* 41 */
    CHECK(heard, 2);
    CHECK(set_for, 5000);
}

/* Another source keeps TERMINATE_CHARGE set: the charger stops at once and stays so, over words and alarms. */
static void another_source(bool plain)
{
    start(plain, HALF);
    load = -500;
    SECONDS(10, ASKED);
    temperature = HOT;
    SECONDS(200, 0);
    CHECK(terminates(), true);
    CHECK(set_for, 199000);
    load = 0;
    temperature = COOL;
    SECONDS(29, 0); /* 240 was with these words still 0; 270 is next */
    SECONDS(60, ASKED);
}

/* The host keeps alarms from going: the next words stop the charger, from every second between two. */
static void by_words_alone(bool plain)
{
    for (unsigned second = 1; second <= 30; second++) {
        start(plain, HALF);
        write_word(0x03, ALARM_MODE);
        if (second > 1)
            SECONDS(second - 1, ASKED);
        temperature = HOT;
        if (second < 30)
            SECONDS(30 - second, ASKED);
        CHECK(second == 30 || terminates(), true);
        SECONDS(1, 0); /* 60 */
        CHECK(terminates(), true);
        CHECK(set_for, 1000 * (30 - second));
        CHECK(word(0x03) & ALARM_MODE, ALARM_MODE);
        CHECK(heard, 2);
        temperature = COOL;
        SECONDS(29, 0);
        SECONDS(10, ASKED);
    }
}

/* A host that takes the charger's words upon itself and then says nothing: 175 s of silence end the charge. */
static void silent(bool plain)
{
    start(plain, HALF);
    write_word(0x03, CHARGER_MODE);
    SECONDS(charger_first ? 174 : 173, ASKED); /* behind the messages this second's sample is on the count already */
    SECONDS(50, 0);
    write_word(0x03, 0);
    SECONDS(29, 0);
    SECONDS(40, ASKED);
}

/* ---- the slowest: words just went, and the last sample before the next comes 1 ms too early for them */

/* Samples from the one after the words on, the first of them `first` ms behind it, to 30,999 ms: the words are due at
 * 30,000. What the charger gives stays until the last. */
static void slowest_at(int line, uint32_t first, uint16_t until, uint16_t then)
{
    pass(first);
    check_at(line, "current", given(), until);
    pass(999 - first);
    check_at(line, "current", given(), until);
    seconds_at(line, 29, until);
    check_at(line, "messages", heard, 0);
    seconds_at(line, 1, then);
    check_at(line, "messages", heard, 2);
}

/* 30,998 and 30,999 ms from the sample that sets TERMINATE_CHARGE to the first current of 0, and as long back. */
static void slowest(bool plain)
{
    for (uint32_t first = 0; first < 2; first++) {
        start(plain, HALF);
        write_word(0x03, ALARM_MODE);
        temperature = HOT;
        slowest_at(__LINE__, first, ASKED, 0);
        CHECK(terminates(), true);
        CHECK(set_for, 30999 - first);
        CHECK(set_for >= 30998 && set_for < WITHIN, true);
        write_word(0x03, ALARM_MODE);
        temperature = COOL;
        slowest_at(__LINE__, first, 0, ASKED);
        CHECK(free_for, 30999 - first);
    }
}

/* ---- any history: what is around the two stays for a while, then changes */

static uint64_t drawn = 20211201;

static uint32_t draw_below(uint32_t limit)
{
    drawn = drawn * 6364136223846793005u + 1442695040888963407u;
    return (uint32_t)(drawn >> 33) % limit;
}

static void any_history(bool plain)
{
    static const int32_t loads[] = {0, -1, -500, -30000, 500, 1999, 2000, 2001, 3000};
    static const uint16_t modes[] = {0, ALARM_MODE, ALARM_MODE, CHARGER_MODE};
    static const uint32_t most[] = {1000, 1000, 1000, 300};
    const unsigned was_stopped = stopped, was_flowing = flowing;
    set_up(plain, HALF);
    for (unsigned part = 0; part < 60; part++) {
        uint32_t kind = draw_below(4), ms;
        load = loads[draw_below(sizeof loads / sizeof *loads)];
        temperature = draw_below(2) ? HOT : COOL;
        if (draw_below(3) == 0)
            write_word(0x03, modes[draw_below(4)]);
        for (uint32_t left = 1 + draw_below(90000); left > 0; left -= ms < left ? ms : left) {
            ms = kind == 0 ? 1000 : draw_below(most[kind] + 1);
            pass(ms);
        }
    }
    CHECK(stopped > was_stopped && flowing > was_flowing, true);
}

/* The same history with nobody polling and with hosts that do: both end the same but for the pack's error code. */
static void any_chatter(bool plain)
{
    uint8_t pack_quiet[SNATCHBLOCK_AREA], charger_quiet[SNATCHBLOCK_CHARGER_AREA];
    const uint64_t history = drawn;
    trace = 0;
    any_history(plain);
    const uint32_t quiet = trace;
    memcpy(pack_quiet, pack, sizeof pack);
    memcpy(charger_quiet, charger, sizeof charger);
    drawn = history;
    trace = 0;
    polled = true;
    any_history(plain);
    polled = false;
    CHECK(trace, quiet);
    CHECK(memcmp(pack_quiet + 1, pack + 1, sizeof pack - 1), 0);
    CHECK(memcmp(charger_quiet, charger, sizeof charger), 0);
}

/* ---- what the header tells an integrator */

/* Hot at rest: charger words come behind the alarm in one broadcast and undo it; TERMINATE_CHARGE stops it 10 s later,
 * and 20 s after that it begins again. */
static void in_turns(bool plain)
{
    set_up(plain, HALF);
    SECONDS(29, 0);
    temperature = HOT;
    for (int turn = 0; turn < 4; turn++) {
        SECONDS(1, ASKED); /* 30, 60, 90, 120 */
        CHECK(heard, 4);
        CHECK(terminates(), false);
        SECONDS(9, ASKED);
        CHECK(terminates(), true);
        SECONDS(20, 0);
        CHECK(terminates(), false);
    }
}

/* The way out: the host reads OVER_TEMP and inhibits while it lasts. */
static void way_out(bool plain)
{
    set_up(plain, HALF);
    SECONDS(29, 0);
    temperature = HOT;
    for (int second = 30; second < 200; second++) {
        pass(1000);
        CHECK((word(0x16) & OVER_TEMP) != 0, true);
        host_inhibits = true;
        tell_charger(0x12, 0x0001);
        CHECK(given(), 0);
    }
    temperature = COOL;
    SECONDS(11, 0); /* words at 210 */
    host_inhibits = false;
    tell_charger(0x12, 0x0000);
    CHECK(given(), ASKED);
    SECONDS(100, ASKED);
}

int main(void)
{
    for (int way = 0; way < 4; way++) {
        bool plain = way % 2 == 1;
        charger_first = way / 2 == 1;
        full(plain);
        hot(plain);
        alarm_later(plain);
        another_source(plain);
        by_words_alone(plain);
        silent(plain);
        slowest(plain);
        in_turns(plain);
        way_out(plain);
        any_chatter(plain);
    }
    CHECK(stopped > 1000 && flowing > 1000, true);
    return checked("joined");
}
