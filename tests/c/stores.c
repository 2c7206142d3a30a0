/* Which bytes of an area, the pack's, the charger's or the thirteen-cell pack's, a call stores. It lies over a seam:
 * what stands before it may be written or not, what stands after it may be read alone. A store past what the call owes
 * ends the process, and each call is held to the same call on an area in plain memory. Plain C11 and POSIX. */
#define _DEFAULT_SOURCE
#include "check.h"
#include "snatchblock.h"

#include <signal.h>
#include <stdio.h>
#include <string.h>
#include <sys/mman.h>
#include <sys/wait.h>
#include <unistd.h>

/* A whole number of pages on every processor that we know. */
enum { PAGE = 65536, FAULT = 3, MARK = 0xA5 };

#define PACKED(answer, length) ((uint32_t)(answer) | (uint32_t)(length) << 8)

/* ---- two pages, and the state in plain memory */

static uint8_t *seam;
static uint8_t state[SNATCHBLOCK_AREA];

static void map_pages(void)
{
    uint8_t *all = mmap(NULL, 3 * PAGE, PROT_READ | PROT_WRITE, MAP_PRIVATE | MAP_ANONYMOUS, -1, 0);
    if (all == MAP_FAILED) {
        perror("stores: mmap");
        _exit(2);
    }
    seam = all + (PAGE - (uintptr_t)all % PAGE) % PAGE + PAGE;
}

static void protect(uint8_t *page, int how)
{
    if (mprotect(page, PAGE, how) != 0) {
        perror("stores: mprotect");
        _exit(2);
    }
}

/* An area with its first bytes before the seam, those pages to be written or not; the rest is read only. */
static uint8_t *laid(const uint8_t *bytes, size_t length, size_t before, bool written)
{
    protect(seam - PAGE, PROT_READ | PROT_WRITE);
    protect(seam, PROT_READ | PROT_WRITE);
    memcpy(seam - before, bytes, length);
    protect(seam, PROT_READ);
    if (!written)
        protect(seam - PAGE, PROT_READ);
    return seam - before;
}

static uint8_t *across(size_t before, bool written)
{
    return laid(state, sizeof state, before, written);
}

static void new_state(void)
{
    CHECK(snatchblock_set_up(state, sizeof state, 4000, 4000, 2000, 14800, 2, 7, 0x526F, 17, 2000, 16800, 3182, 11000,
                             false, 14800, -500, 2981, 0), 0);
}

/* ---- a call, and what it may store */

struct call {
    bool read;
    uint8_t bytes[5];
    size_t length, room;
    const uint8_t *service;
};

static const uint8_t no_names[1] = {0}, bad_sheet[1] = {5};

static uint32_t made(uint8_t *area, const struct call *c, uint8_t *room)
{
    memset(room, MARK, SNATCHBLOCK_REPLY_ROOM);
    return snatchblock_transact(area, SNATCHBLOCK_AREA, c->service, 1, no_names, 1, c->read, c->bytes, c->length, room, c->room);
}

/* The call stores no byte past the first `before`, and none at all unless `written`; and does what it does elsewhere. */
static void stores_at(int line, size_t before, bool written, struct call c, uint32_t wanted)
{
    uint8_t room[SNATCHBLOCK_REPLY_ROOM], other[SNATCHBLOCK_REPLY_ROOM];
    uint8_t *area = across(before, written);
    uint32_t result = made(area, &c, room);
    check_at(line, "the result", result, wanted);
    check_at(line, "the result elsewhere", made(state, &c, other), result);
    check_at(line, "the area", (unsigned long long)memcmp(area, state, sizeof state), 0);
    check_at(line, "the room", (unsigned long long)memcmp(room, other, sizeof room), 0);
}

#define READ(command) (struct call){true, {0x16, command, 0x17}, 3, SNATCHBLOCK_REPLY_ROOM, no_names}
#define WRITE(command, low, high) (struct call){false, {0x16, command, low, high}, 4, SNATCHBLOCK_REPLY_ROOM, no_names}
#define CODE_ALONE(call, wanted) stores_at(__LINE__, 1, true, call, wanted)
#define NOTHING(call, wanted) stores_at(__LINE__, 1, false, call, wanted)

/* ---- the calls */

/* 4 to 9, each from an error code that isn't its own. */
static void refusals(void)
{
    struct call bad_pec = {false, {0x16, 0x02, 10, 0, 0x46}, 5, SNATCHBLOCK_REPLY_ROOM, no_names};
    struct call bad_block = {true, {0x16, 0x20, 0x17}, 3, SNATCHBLOCK_REPLY_ROOM, bad_sheet};
    struct call short_write = {false, {0x16, 0x02, 10}, 3, SNATCHBLOCK_REPLY_ROOM, no_names};
    CODE_ALONE(short_write, 4);
    CHECK(state[0], 6);
    CODE_ALONE(bad_pec, 5);
    CHECK(state[0], 7);
    CODE_ALONE(READ(0x24), 6);
    CHECK(state[0], 2);
    CODE_ALONE(WRITE(0x40, 0, 0), 6);
    CHECK(state[0], 2);
    CODE_ALONE(READ(0x2F), 7);
    CHECK(state[0], 3);
    CODE_ALONE(WRITE(0x09, 0, 0), 8);
    CHECK(state[0], 4);
    CODE_ALONE(bad_block, 9);
    CHECK(state[0], 7);
}

/* 0 and 10: each command that the pack has. */
static void reads(void)
{
    for (unsigned command = 0x00; command <= 0x1C; command++) {
        state[0] = 6;
        CODE_ALONE(READ((uint8_t)command), PACKED(0, 3));
        CHECK(state[0], 0);
    }
    for (unsigned command = 0x20; command <= 0x23; command++) {
        state[0] = 6;
        CODE_ALONE(READ((uint8_t)command), PACKED(0, 2));
        CHECK(state[0], 0);
    }
    CHECK(made(state, &WRITE(0x04, 0xFF, 0xFF), (uint8_t[SNATCHBLOCK_REPLY_ROOM]){0}), 0);
    CODE_ALONE(READ(0x06), PACKED(10, 3)); /* 120,000 minutes */
    CHECK(state[0], 5);
    CHECK(made(state, &WRITE(0x03, 0x00, 0x80), (uint8_t[SNATCHBLOCK_REPLY_ROOM]){0}), 0);
    CODE_ALONE(READ(0x05), PACKED(10, 3));
    CHECK(state[0], 5);
}

/* 1, 2 and 3 store nothing at all. */
static void untouched(void)
{
    struct call small_room = READ(0x09), no_bytes = READ(0x09), foreign = READ(0x09);
    small_room.room = SNATCHBLOCK_REPLY_ROOM - 1;
    no_bytes.length = 0;
    foreign.bytes[0] = 0x14;
    state[0] = 6;
    NOTHING(small_room, 2);
    NOTHING(no_bytes, 3);
    NOTHING(foreign, 3);
    foreign.read = false;
    NOTHING(foreign, 3);
    CHECK(state[0], 6);
    state[0] = 8;
    NOTHING(READ(0x09), 1);
    NOTHING(WRITE(0x02, 10, 0), 1);
    CHECK(state[0], 8);
    state[SNATCHBLOCK_HOST + 8] = 2;
    NOTHING(READ(0x09), 1);
    new_state();
    state[SNATCHBLOCK_PLAIN] = 2;
    NOTHING(READ(0x09), 1);
    NOTHING(WRITE(0x02, 10, 0), 1);
    new_state();
}

/* A sample refused stores nothing. */
static void refused_samples(void)
{
    uint8_t room[SNATCHBLOCK_BROADCAST_ROOM];
    CHECK(snatchblock_sample(across(1, false), SNATCHBLOCK_AREA, 14800, 0, 2981, 1000, room, sizeof room - 1), 2);
    CHECK(memcmp(seam - 1, state, sizeof state), 0);
    state[0] = 8;
    CHECK(snatchblock_sample(across(1, false), SNATCHBLOCK_AREA, 14800, 0, 2981, 1000, room, sizeof room), 1);
    CHECK(memcmp(seam - 1, state, sizeof state), 0);
    new_state();
}

/* ---- the charger: a served write and an accepted sample store, nothing else does */

static uint8_t charger_state[SNATCHBLOCK_CHARGER_AREA];

static uint8_t *charger_across(size_t before, bool written)
{
    return laid(charger_state, sizeof charger_state, before, written);
}

static uint32_t charger_made(uint8_t *area, const struct call *c, uint8_t *room)
{
    memset(room, MARK, SNATCHBLOCK_REPLY_ROOM);
    return snatchblock_charger_transact(area, SNATCHBLOCK_CHARGER_AREA, c->read, c->bytes, c->length, room, c->room);
}

#define CHARGER_READ(command) (struct call){true, {0x12, command, 0x13}, 3, SNATCHBLOCK_CHARGER_REPLY_ROOM, no_names}
#define CHARGER_WRITE(command, low, high) \
    (struct call){false, {0x12, command, low, high}, 4, SNATCHBLOCK_CHARGER_REPLY_ROOM, no_names}

/* A charger that was asked for 2,000 mA and 16,800 mV. */
static void new_charger(void)
{
    uint8_t room[SNATCHBLOCK_REPLY_ROOM];
    CHECK(snatchblock_charger_set_up(charger_state, sizeof charger_state, 14800, 0, 2981, 0), 0);
    CHECK(charger_made(charger_state, &CHARGER_WRITE(0x14, 0xD0, 0x07), room), 0);
    CHECK(charger_made(charger_state, &CHARGER_WRITE(0x15, 0xA0, 0x41), room), 0);
}

/* The call stores no byte of the area, wherever the seam lies, and leaves it as it was. */
static void charger_nothing_at(int line, struct call c, uint32_t wanted)
{
    uint8_t room[SNATCHBLOCK_REPLY_ROOM];
    for (size_t before = 0; before <= SNATCHBLOCK_CHARGER_AREA; before++) {
        uint8_t *area = charger_across(before, false);
        check_at(line, "the result", charger_made(area, &c, room), wanted);
        check_at(line, "the area", (unsigned long long)memcmp(area, charger_state, sizeof charger_state), 0);
    }
}
#define CHARGER_NOTHING(call, wanted) charger_nothing_at(__LINE__, call, wanted)

static void charger_stores_nothing(void)
{
    struct call small_room = CHARGER_READ(0x13), no_bytes = CHARGER_READ(0x13);
    struct call bad_pec = CHARGER_WRITE(0x14, 0xD0, 0x07);
    small_room.room = SNATCHBLOCK_CHARGER_REPLY_ROOM - 1;
    no_bytes.length = 0;
    bad_pec.length = 5; /* it is ED */
    new_charger();
    CHARGER_NOTHING(CHARGER_READ(0x11), PACKED(0, 3));
    CHARGER_NOTHING(CHARGER_READ(0x13), PACKED(0, 3));
    CHARGER_NOTHING(small_room, 2);
    small_room = CHARGER_WRITE(0x14, 0, 0);
    small_room.room = SNATCHBLOCK_CHARGER_REPLY_ROOM - 1;
    CHARGER_NOTHING(small_room, 2);
    CHARGER_NOTHING(no_bytes, 3);
    CHARGER_NOTHING(WRITE(0x14, 0, 0), 3);
    CHARGER_NOTHING(((struct call){false, {0x12, 0x14, 0}, 3, SNATCHBLOCK_CHARGER_REPLY_ROOM, no_names}), 4);
    CHARGER_NOTHING(bad_pec, 5);
    CHARGER_NOTHING(CHARGER_READ(0x10), 6);
    CHARGER_NOTHING(CHARGER_WRITE(0x17, 0, 0), 6);
    CHARGER_NOTHING(CHARGER_READ(0x14), 8);
    CHARGER_NOTHING(CHARGER_WRITE(0x13, 0, 0), 8);
    charger_state[8] = 2;
    CHARGER_NOTHING(CHARGER_READ(0x13), 1);
    CHARGER_NOTHING(CHARGER_WRITE(0x12, 4, 0), 1);
}

/* No sample of a state that isn't sound, no set-up of another length, and no question stores. */
static void charger_refuses(void)
{
    enum { BYTES = SNATCHBLOCK_CHARGER_AREA, COUNT = 9 };
    new_charger();
    CHECK(snatchblock_charger_sound(charger_across(0, false), BYTES), true);
    CHECK(snatchblock_charger_current(charger_across(0, false), BYTES), PACKED(0, 2000));
    CHECK(snatchblock_charger_set_up(charger_across(0, false), BYTES - 1, 14800, 0, 2981, 0), 1);
    CHECK(snatchblock_charger_sample(charger_across(0, false), BYTES - 1, 14800, 0, 2981, 1000), 1);
    charger_state[COUNT + 3] = 1; /* 16,777,216 ms */
    CHECK(snatchblock_charger_sound(charger_across(0, false), BYTES), false);
    CHECK(snatchblock_charger_current(charger_across(0, false), BYTES), 1);
    CHECK(snatchblock_charger_sample(charger_across(0, false), BYTES, 14800, 0, 2981, 1000), 1);
    CHECK(memcmp(seam, charger_state, BYTES), 0);
}

/* ---- the thirteen-cell pack: an accepted sample stores all, a transaction the first byte or nothing */

static uint8_t thirteen_state[SNATCHBLOCK_THIRTEEN_AREA];
static const uint16_t cells[SNATCHBLOCK_THIRTEEN_CELLS] = {3637, 3711, 3583, 3840, 3694, 3755, 3900,
                                                           3651, 3770, 3702, 3811, 3599, 3725};

static uint8_t *thirteen_across(size_t before, bool written)
{
    return laid(thirteen_state, sizeof thirteen_state, before, written);
}

static uint32_t thirteen_made(uint8_t *area, const struct call *c, uint8_t *room)
{
    memset(room, MARK, SNATCHBLOCK_REPLY_ROOM);
    return snatchblock_thirteen_transact(area, SNATCHBLOCK_THIRTEEN_AREA, c->read, c->bytes, c->length, room, c->room);
}

static uint32_t thirteen_set_up(uint8_t *area, size_t length, uint16_t remaining)
{
    return snatchblock_thirteen_set_up(area, length, 5200, 5000, remaining, 48100, 97, 48378, -2, 2982, 0, cells);
}

/* 500 ms later: the last byte of the area, the begun second's, becomes FF. */
static uint32_t thirteen_sample(uint8_t *area, size_t length)
{
    return snatchblock_thirteen_sample(area, length, 48378, -2, 2982, 500, cells);
}

/* 2,184 mAh at -2 mA: 65,520 minutes. */
static void new_thirteen(void)
{
    CHECK(thirteen_set_up(thirteen_state, sizeof thirteen_state, 2184), 0);
}

/* The call stores the first byte alone, or not even that; and does what it does elsewhere. */
static void thirteen_stores_at(int line, bool written, struct call c, uint32_t wanted)
{
    uint8_t room[SNATCHBLOCK_REPLY_ROOM], other[SNATCHBLOCK_REPLY_ROOM];
    uint8_t *area = thirteen_across(1, written);
    check_at(line, "the result", thirteen_made(area, &c, room), wanted);
    check_at(line, "the result elsewhere", thirteen_made(thirteen_state, &c, other), wanted);
    check_at(line, "the area", (unsigned long long)memcmp(area, thirteen_state, sizeof thirteen_state), 0);
    check_at(line, "the room", (unsigned long long)memcmp(room, other, sizeof room), 0);
}
#define THIRTEEN_CODE_ALONE(call, wanted) thirteen_stores_at(__LINE__, true, call, wanted)
#define THIRTEEN_NOTHING(call, wanted) thirteen_stores_at(__LINE__, false, call, wanted)
#define WRITE_PEC(command, low, high, pec) \
    (struct call){false, {0x16, command, low, high, pec}, 5, SNATCHBLOCK_REPLY_ROOM, no_names}

/* 0 and 10: each command that it has. */
static void thirteen_reads(void)
{
    static const uint8_t words[] = {0x08, 0x09, 0x0A, 0x0D, 0x11, 0x13, 0x16, 0x31, 0x32, 0x33, 0x34,
                                    0x35, 0x36, 0x37, 0x38, 0x39, 0x3A, 0x3B, 0x3C, 0x3D, 0x4F};
    new_thirteen();
    for (size_t i = 0; i < sizeof words; i++) {
        thirteen_state[0] = 6;
        THIRTEEN_CODE_ALONE(READ(words[i]), PACKED(0, 3));
        CHECK(thirteen_state[0], 0);
    }
    thirteen_state[0] = 6;
    THIRTEEN_CODE_ALONE(READ(0xF1), PACKED(0, 27));
    CHECK(thirteen_state[0], 0);
    CHECK(thirteen_set_up(thirteen_state, sizeof thirteen_state, 2185), 0);
    THIRTEEN_CODE_ALONE(READ(0x11), PACKED(10, 3)); /* 65,550 minutes */
    CHECK(thirteen_state[0], 5);
}

/* 4 to 8, each from an error code that isn't its own. */
static void thirteen_refusals(void)
{
    new_thirteen();
    THIRTEEN_CODE_ALONE(WRITE(0x4F, 99, 0), 4);
    CHECK(thirteen_state[0], 6);
    THIRTEEN_CODE_ALONE(WRITE_PEC(0x4F, 99, 0, 0x19), 5);
    CHECK(thirteen_state[0], 7);
    THIRTEEN_CODE_ALONE(READ(0x0F), 6);
    CHECK(thirteen_state[0], 2);
    THIRTEEN_CODE_ALONE(READ(0x80), 7);
    CHECK(thirteen_state[0], 3);
    THIRTEEN_CODE_ALONE(WRITE_PEC(0x4F, 99, 0, 0x18), 8);
    CHECK(thirteen_state[0], 4);
    THIRTEEN_CODE_ALONE(WRITE_PEC(0x17, 0, 0, 0xA7), 6);
    CHECK(thirteen_state[0], 2);
    THIRTEEN_CODE_ALONE(WRITE_PEC(0x00, 0x10, 0, 0x44), 7);
    CHECK(thirteen_state[0], 3);
}

/* 1, 2 and 3. */
static void thirteen_untouched(void)
{
    enum { FLAG = 53 };
    struct call small_room = READ(0x09), no_bytes = READ(0x09), foreign = WRITE_PEC(0x4F, 99, 0, 0x18);
    small_room.room = SNATCHBLOCK_REPLY_ROOM - 1;
    no_bytes.length = 0;
    foreign.bytes[0] = 0x12;
    new_thirteen();
    thirteen_state[0] = 6;
    THIRTEEN_NOTHING(small_room, 2);
    THIRTEEN_NOTHING(no_bytes, 3);
    THIRTEEN_NOTHING(foreign, 3);
    CHECK(thirteen_state[0], 6);
    thirteen_state[0] = 8;
    THIRTEEN_NOTHING(READ(0x09), 1);
    THIRTEEN_NOTHING(READ(0xF1), 1);
    THIRTEEN_NOTHING(WRITE_PEC(0x4F, 99, 0, 0x18), 1);
    new_thirteen();
    thirteen_state[FLAG] = 2;
    THIRTEEN_NOTHING(READ(0x09), 1);
    THIRTEEN_NOTHING(WRITE(0x4F, 99, 0), 1);
}

/* No sample of a state that isn't sound, no set-up that is refused, and no question stores. */
static void thirteen_refuses(void)
{
    enum { BYTES = SNATCHBLOCK_THIRTEEN_AREA };
    new_thirteen();
    CHECK(snatchblock_thirteen_sound(thirteen_across(0, false), BYTES), true);
    CHECK(thirteen_set_up(thirteen_across(0, false), BYTES, 5001), 11);
    CHECK(thirteen_set_up(thirteen_across(0, false), BYTES - 1, 2184), 1);
    CHECK(thirteen_sample(thirteen_across(0, false), BYTES - 1), 1);
    CHECK(memcmp(seam, thirteen_state, BYTES), 0);
    thirteen_state[0] = 8;
    CHECK(snatchblock_thirteen_sound(thirteen_across(0, false), BYTES), false);
    CHECK(thirteen_sample(thirteen_across(0, false), BYTES), 1);
    CHECK(memcmp(seam, thirteen_state, BYTES), 0);
}

/* ---- that a store shows */

/* In a child a store past the seam is what was asked; in the test itself it is a failure. */
static void faulted(int number)
{
    (void)number;
    _exit(FAULT);
}

static void strayed(int number)
{
    static const char words[] = "stores: a byte was stored that the call doesn't owe\n";
    (void)number;
    _exit(write(STDOUT_FILENO, words, sizeof words - 1) < 0 ? 2 : 1);
}

static void pack_call(uint8_t *area, const struct call *c)
{
    uint8_t room[SNATCHBLOCK_REPLY_ROOM];
    (void)(c ? made(area, c, room)
             : snatchblock_sample(area, SNATCHBLOCK_AREA, 14800, 0, 2981, 1000, room, sizeof room));
}

static void charger_call(uint8_t *area, const struct call *c)
{
    uint8_t room[SNATCHBLOCK_REPLY_ROOM];
    (void)(c ? charger_made(area, c, room)
             : snatchblock_charger_sample(area, SNATCHBLOCK_CHARGER_AREA, 14800, 0, 2981, 1000));
}

static void thirteen_call(uint8_t *area, const struct call *c)
{
    uint8_t room[SNATCHBLOCK_REPLY_ROOM];
    (void)(c ? thirteen_made(area, c, room) : thirteen_sample(area, SNATCHBLOCK_THIRTEEN_AREA));
}

/* Whether a call that stores more ends there, tried in a child. No call is a sample. */
static bool faults_in(void (*call)(uint8_t *, const struct call *), uint8_t *area, const struct call *c)
{
    fflush(stdout);
    pid_t child = fork();
    if (child == 0) {
        signal(SIGSEGV, faulted);
        signal(SIGBUS, faulted);
        call(area, c);
        _exit(0);
    }
    int status = 0;
    if (child < 0 || waitpid(child, &status, 0) != child) {
        perror("stores: child");
        _exit(2);
    }
    return WIFEXITED(status) && WEXITSTATUS(status) == FAULT;
}

static bool faults(uint8_t *area, const struct call *c)
{
    return faults_in(pack_call, area, c);
}

/* A served write stores what the host wrote and the timers, so none of the recent seconds; a served sample all. */
static void shown(void)
{
    for (unsigned command = 0x00; command <= 0x04; command++) {
        struct call write = WRITE((uint8_t)command, 0x34, 0xF2);
        CHECK(faults(across(1, true), &write), true);
        stores_at(__LINE__, SNATCHBLOCK_RECENT, true, write, 0);
    }
    struct call read = READ(0x09), foreign = READ(0x09);
    foreign.bytes[0] = 0x14;
    CHECK(faults(across(1, true), &read), false);
    CHECK(faults(across(1, false), &read), true);
    CHECK(faults(across(1, false), &foreign), false);
    CHECK(faults(across(SNATCHBLOCK_RECENT, true), NULL), true);
}

/* A charger's served write stores, a sample to the last byte; what a write leaves is the same elsewhere. */
static void charger_shown(void)
{
    enum { ALL = SNATCHBLOCK_CHARGER_AREA };
    static const struct call writes[] = {
        {false, {0x12, 0x12, 0x01, 0x00}, 4, 3, no_names}, {false, {0x12, 0x14, 0xC4, 0x09}, 4, 3, no_names},
        {false, {0x12, 0x15, 0x68, 0x42}, 4, 3, no_names}, {false, {0x12, 0x16, 0x00, 0x40}, 4, 3, no_names}};
    uint8_t room[SNATCHBLOCK_REPLY_ROOM];
    new_charger();
    for (size_t i = 0; i < sizeof writes / sizeof *writes; i++) {
        CHECK(faults_in(charger_call, charger_across(0, true), &writes[i]), true);
        CHECK(charger_made(charger_across(ALL, true), &writes[i], room), 0);
        CHECK(charger_made(charger_state, &writes[i], room), 0);
        CHECK(memcmp(seam - ALL, charger_state, ALL), 0);
    }
    CHECK(faults_in(charger_call, charger_across(0, true), NULL), true);
    CHECK(faults_in(charger_call, charger_across(ALL - 1, true), NULL), true);
    CHECK(faults_in(charger_call, charger_across(ALL, true), NULL), false);
    CHECK(faults_in(charger_call, charger_across(0, false), &CHARGER_READ(0x13)), false);
}

/* Its sample stores to the last byte, a read the first, and what isn't for it none. */
static void thirteen_shown(void)
{
    enum { ALL = SNATCHBLOCK_THIRTEEN_AREA };
    struct call foreign = READ(0x09);
    foreign.bytes[0] = 0x12;
    new_thirteen();
    CHECK(faults_in(thirteen_call, thirteen_across(0, true), NULL), true);
    CHECK(faults_in(thirteen_call, thirteen_across(ALL - 1, true), NULL), true);
    CHECK(faults_in(thirteen_call, thirteen_across(ALL, true), NULL), false);
    CHECK(thirteen_sample(thirteen_across(ALL, true), ALL), 0);
    CHECK(thirteen_sample(thirteen_state, ALL), 0);
    CHECK(memcmp(seam - ALL, thirteen_state, ALL), 0);
    CHECK(thirteen_state[ALL - 1], 0xFF);
    CHECK(faults_in(thirteen_call, thirteen_across(1, true), &READ(0xF1)), false);
    CHECK(faults_in(thirteen_call, thirteen_across(1, false), &READ(0xF1)), true);
    CHECK(faults_in(thirteen_call, thirteen_across(1, false), &foreign), false);
}

int main(void)
{
    signal(SIGSEGV, strayed);
    signal(SIGBUS, strayed);
    map_pages();
    new_state();
    refusals();
    reads();
    untouched();
    refused_samples();
    shown();
    charger_stores_nothing();
    charger_refuses();
    charger_shown();
    thirteen_reads();
    thirteen_refusals();
    thirteen_untouched();
    thirteen_refuses();
    thirteen_shown();
    return checked("stores");
}
