/* Writes seeded captures for the two players: generate SEED ROWS FOLDER
 *
 * FOLDER gets 00001.cap, 00002.cap and so on: sweeps over every command and
 * length, random scenes of at least ROWS rows in all, captures at the edges of
 * the form, and files that are no capture. One seed always gives one set.
 */
#include <stdbool.h>
#include <stdint.h>
#include <stdio.h>
#include <stdlib.h>
#include <string.h>

enum { ROWS_MOST = 255, BODY_MOST = 37, CAPTURE_MOST = 1 + ROWS_MOST * (2 + BODY_MOST), FILE_MOST = 200000 };
enum { WRITE, READ };

struct row {
    uint8_t mark;
    uint8_t length;
    uint8_t body[BODY_MOST + 1];
};

static uint64_t seed_state;
static const char *folder;
static unsigned files;
static unsigned long rows_total;
static struct row rows[ROWS_MOST];
static size_t row_count;

/* ---- chance */

/* The next number of the seeded sequence. */
static uint64_t draw(void)
{
    seed_state += UINT64_C(0x9E3779B97F4A7C15);
    uint64_t mixed = seed_state;
    mixed = (mixed ^ (mixed >> 30)) * UINT64_C(0xBF58476D1CE4E5B9);
    mixed = (mixed ^ (mixed >> 27)) * UINT64_C(0x94D049BB133111EB);
    return mixed ^ (mixed >> 31);
}

/* A number from 0 to n − 1. */
static unsigned below(unsigned n)
{
    return (unsigned)(draw() % n);
}

/* A number from low to high, both included. */
static unsigned between(unsigned low, unsigned high)
{
    return low + below(high - low + 1);
}

/* One word of a list. */
static uint16_t one_of(const uint16_t *list, size_t count)
{
    return list[below((unsigned)count)];
}
#define ONE_OF(list) one_of(list, sizeof(list) / sizeof *(list))

/* ---- files */

static void write_file(const uint8_t *bytes, size_t length)
{
    char name[4096];
    files++;
    if (snprintf(name, sizeof name, "%s/%05u.cap", folder, files) >= (int)sizeof name) {
        fputs("generate: the folder's name is too long\n", stderr);
        exit(2);
    }
    FILE *file = fopen(name, "wb");
    if (!file || fwrite(bytes, 1, length, file) != length || fclose(file) != 0) {
        fprintf(stderr, "generate: %s can't be written\n", name);
        exit(2);
    }
}

/* Lays the gathered rows out as a capture. */
static size_t lay_out(uint8_t *bytes)
{
    size_t place = 1 + 2 * row_count;
    bytes[0] = (uint8_t)row_count;
    for (size_t i = 0; i < row_count; i++) {
        bytes[1 + 2 * i] = rows[i].mark;
        bytes[2 + 2 * i] = rows[i].length;
        memcpy(bytes + place, rows[i].body, rows[i].length);
        place += rows[i].length;
    }
    return place;
}

static void end_capture(void)
{
    static uint8_t bytes[CAPTURE_MOST];
    write_file(bytes, lay_out(bytes));
    rows_total += row_count;
    row_count = 0;
}

static void add(struct row row)
{
    rows[row_count++] = row;
    if (row_count == ROWS_MOST)
        end_capture();
}

/* ---- right messages */

/* The check byte, bit by bit. */
static uint8_t pec(const uint8_t *bytes, size_t length)
{
    unsigned rest = 0;
    for (size_t i = 0; i < length; i++) {
        rest ^= bytes[i];
        for (int bit = 0; bit < 8; bit++)
            rest = rest & 0x80 ? (rest << 1 ^ 0x107) : rest << 1;
    }
    return (uint8_t)rest;
}

static struct row a_read(uint8_t command)
{
    struct row row = {READ, 3, {0x16, command, 0x17}};
    return row;
}

static struct row a_write(uint8_t command, uint16_t word, bool with_pec)
{
    struct row row = {WRITE, with_pec ? 5 : 4, {0x16, command, (uint8_t)(word & 0xFF), (uint8_t)(word >> 8)}};
    row.body[4] = pec(row.body, 4);
    return row;
}

static bool coin(void)
{
    return below(2) == 1;
}

static uint16_t any_word(void)
{
    static const uint16_t edges[] = {0, 1, 2, 9, 10, 11, 255, 256, 0x7FFF, 0x8000, 0x8001, 0xFFFE, 0xFFFF};
    return coin() ? ONE_OF(edges) : (uint16_t)draw();
}

/* A command, more often one of the table's 64. */
static uint8_t any_command(void)
{
    switch (below(4)) {
    case 0: return (uint8_t)below(5);
    case 1: return (uint8_t)below(0x24);
    case 2: return (uint8_t)below(0x40);
    default: return (uint8_t)below(256);
    }
}

static struct row any_right(void)
{
    return coin() ? a_read(any_command()) : a_write(any_command(), any_word(), coin());
}

/* ---- damage */

static void flip_bits(struct row *row, unsigned count)
{
    unsigned chosen[3] = {0, 0, 0};
    for (unsigned k = 0; k < count; k++) {
        bool again = true;
        while (again) {
            chosen[k] = below(8u * row->length);
            again = false;
            for (unsigned j = 0; j < k; j++)
                again = again || chosen[j] == chosen[k];
        }
        row->body[chosen[k] / 8] ^= (uint8_t)(1u << chosen[k] % 8);
    }
}

static struct row damaged(void)
{
    struct row row = any_right();
    switch (below(10)) {
    case 0: /* one to three bits of a write with PEC */
        row = a_write((uint8_t)below(5), any_word(), true);
        flip_bits(&row, between(1, 3));
        break;
    case 1: /* one to three bits of anything */
        flip_bits(&row, between(1, 3));
        break;
    case 2: /* a check byte of another message */
        row = a_write(any_command(), any_word(), true);
        row.body[4] = (uint8_t)(row.body[4] ^ between(1, 255));
        break;
    case 3: /* cut short */
        row.length = (uint8_t)below(row.length);
        break;
    case 4: { /* too long */
        uint8_t longer = (uint8_t)between(row.length + 1u, BODY_MOST);
        while (row.length < longer)
            row.body[row.length++] = (uint8_t)draw();
        break;
    }
    case 5: /* the other mark */
        row.mark = row.mark == READ ? WRITE : READ;
        break;
    case 6: /* another address */
        row.body[0] = (uint8_t)(0x16 ^ between(1, 255));
        break;
    case 7: /* no bytes */
        row.length = 0;
        break;
    case 8: /* a read that doesn't turn round at 17 */
        row = a_read(any_command());
        row.body[2] = (uint8_t)(0x17 ^ between(1, 255));
        break;
    default: /* any bytes, half of them to the pack */
        row.mark = (uint8_t)below(2);
        row.length = (uint8_t)between(1, BODY_MOST);
        for (unsigned i = 0; i < row.length; i++)
            row.body[i] = (uint8_t)draw();
        if (coin())
            row.body[0] = 0x16;
        break;
    }
    return row;
}

/* ---- scenes: a few rows that belong together */

static void scene(void)
{
    static const uint16_t rates[] = {0,      1,      2,      3,      119,    120,   1829,  1831,   2000, 4000,
                                     0x7FFF, 0x7FFE, 0x8000, 0x8001, 0xFFFF, 65534, 65533, 0xFF38, 0xF830};
    static const uint16_t capacities[] = {0, 1, 399, 400, 401, 1999, 2000, 2001, 2959, 2960, 2961, 4000, 5920, 0xFFFF};
    static const uint16_t modes[] = {0x0000, 0x8000, 0x4000, 0x2000, 0xE000, 0x1FFF, 0xFFFF, 0xA000, 0x6000};
    switch (below(12)) {
    case 0:
        add(a_read((uint8_t)below(0x1D)));
        break;
    case 1:
        add(a_read(any_command()));
        break;
    case 2: /* AtRate and what hangs on it */
        add(a_write(0x04, below(3) ? ONE_OF(rates) : (uint16_t)draw(), coin()));
        add(a_read(0x05));
        add(a_read(0x06));
        add(a_read(0x07));
        if (coin())
            add(a_read(0x04));
        break;
    case 3: /* a mode and a look at some words */
        add(a_write(0x03, below(3) ? ONE_OF(modes) : (uint16_t)draw(), coin()));
        add(a_read(0x03));
        for (unsigned n = below(6); n > 0; n--)
            add(a_read((uint8_t)below(0x1D)));
        break;
    case 4: /* the capacity limit */
        add(a_write(0x01, coin() ? ONE_OF(capacities) : (uint16_t)draw(), coin()));
        add(a_read(0x16));
        add(a_read(0x01));
        break;
    case 5: /* the time limit */
        add(a_write(0x02, any_word(), coin()));
        add(a_read(0x16));
        add(a_read(0x02));
        break;
    case 6:
        add(a_read((uint8_t)between(0x20, 0x23)));
        break;
    case 7: /* a time at AtRate, at 1 mA or 10 mW cut off, and the code that it leaves */
        add(a_write(0x03, coin() ? 0x8000 : 0x0000, coin()));
        add(a_write(0x04, coin() ? ONE_OF(rates) : coin() ? 1 : 0xFFFF, coin()));
        add(a_read(coin() ? 0x05 : 0x06));
        add(a_read(0x16));
        add(a_read(0x16));
        break;
    case 8:
        add(a_write(any_command(), any_word(), coin()));
        if (coin())
            add(a_read(0x16));
        break;
    case 9:
    case 10: /* damage, and the code that it leaves */
        add(damaged());
        if (coin())
            add(a_read(0x16));
        break;
    default: /* a host that sends twice */
    {
        struct row row = any_right();
        add(row);
        add(row);
        break;
    }
    }
}

/* ---- sweeps: each command, each length, once for sure */

static void sweeps(void)
{
    for (unsigned power = 0; power < 2; power++) {
        add(a_write(0x03, power ? 0x8000 : 0, true));
        for (unsigned command = 0; command < 256; command++) {
            add(a_read((uint8_t)command));
            if (row_count == 0 && power) /* a new capture has a new pack */
                add(a_write(0x03, 0x8000, false));
        }
    }
    if (row_count > 0)
        end_capture();
    for (unsigned command = 0; command < 256; command++) {
        add(a_write((uint8_t)command, any_word(), false));
        add(a_write((uint8_t)command, any_word(), true));
        struct row wrong = a_write((uint8_t)command, any_word(), true);
        wrong.body[4] = (uint8_t)(wrong.body[4] ^ between(1, 255));
        add(wrong);
    }
    for (unsigned mark = 0; mark < 2; mark++)
        for (unsigned other = 0; other < 2; other++)
            for (unsigned length = 0; length <= BODY_MOST; length++) {
                struct row row = {(uint8_t)mark, (uint8_t)length, {0}};
                for (unsigned i = 0; i < length; i++)
                    row.body[i] = (uint8_t)draw();
                row.body[0] = other ? (uint8_t)(0x16 ^ between(1, 255)) : 0x16;
                add(row);
            }
    if (row_count > 0)
        end_capture();
}

/* ---- the edges of the form, and what lies beyond them */

/* A small good capture of one or more rows, laid out and not written. */
static size_t small_capture(uint8_t *bytes)
{
    row_count = 0;
    for (unsigned n = between(1, 12); n > 0; n--)
        rows[row_count++] = below(3) ? any_right() : damaged();
    size_t length = lay_out(bytes);
    row_count = 0;
    return length;
}

static void edges(void)
{
    static uint8_t bytes[FILE_MOST];
    size_t length;

    bytes[0] = 0; /* no row: a capture all the same */
    write_file(bytes, 1);

    for (row_count = 0; row_count < ROWS_MOST; row_count++) { /* the longest capture */
        rows[row_count].mark = (uint8_t)below(2);
        rows[row_count].length = BODY_MOST;
        for (unsigned i = 0; i < BODY_MOST; i++)
            rows[row_count].body[i] = (uint8_t)draw();
        rows[row_count].body[0] = coin() ? 0x16 : (uint8_t)draw();
    }
    rows_total += row_count;
    length = lay_out(bytes);
    write_file(bytes, length);
    write_file(bytes, length - 1);
    for (unsigned more = 1; more <= 3; more++) { /* one byte and many more than the longest */
        size_t end = more == 1 ? length + 1 : more == 2 ? length + 4096 : sizeof bytes;
        for (size_t i = length; i < end; i++)
            bytes[i] = (uint8_t)draw();
        write_file(bytes, end);
    }
    row_count = 0;

    write_file(bytes, 0);
    for (unsigned round = 0; round < 8; round++) {
        /* cut in the bodies, in the rows and behind the count */
        length = small_capture(bytes);
        size_t head = 1 + 2 * (size_t)bytes[0];
        if (length > head)
            write_file(bytes, head + below((unsigned)(length - head)));
        write_file(bytes, between(1, (unsigned)head - 1));
        write_file(bytes, 1);
        /* bytes behind the end */
        length = small_capture(bytes);
        for (unsigned more = between(1, 40); more > 0; more--)
            bytes[length++] = round % 2 ? (uint8_t)draw() : 0;
        write_file(bytes, length);
        /* a mark that is none, all else right */
        length = small_capture(bytes);
        bytes[1 + 2 * below(bytes[0])] = round < 2 ? (uint8_t)(2 + 253 * round) : (uint8_t)between(2, 255);
        write_file(bytes, length);
        /* a body of 38 bytes or more, all of it there */
        length = small_capture(bytes);
        head = 1 + 2 * (size_t)bytes[0];
        unsigned longer = round < 2 ? 38 : between(38, 255);
        length += longer - bytes[head - 1];
        bytes[head - 1] = (uint8_t)longer;
        for (size_t i = length - longer; i < length; i++)
            bytes[i] = (uint8_t)draw();
        write_file(bytes, length);
        /* more rows claimed than there are */
        length = small_capture(bytes);
        bytes[0] = round < 2 ? 255 : (uint8_t)between(bytes[0] + 1u, 255);
        write_file(bytes, length);
        /* fewer */
        length = small_capture(bytes);
        bytes[0] = (uint8_t)below(bytes[0]);
        write_file(bytes, length);
        /* any bytes */
        length = between(1, 600);
        for (size_t i = 0; i < length; i++)
            bytes[i] = (uint8_t)(i % 2 && coin() ? below(3) : draw());
        write_file(bytes, length);
    }
}

int main(int argc, char **argv)
{
    char *end_of_seed = NULL;
    char *end_of_rows = NULL;
    if (argc != 4) {
        fputs("usage: generate SEED ROWS FOLDER\n", stderr);
        return 2;
    }
    seed_state = strtoull(argv[1], &end_of_seed, 10);
    unsigned long wanted = strtoul(argv[2], &end_of_rows, 10);
    if (*argv[1] == '\0' || *end_of_seed != '\0' || *argv[2] == '\0' || *end_of_rows != '\0') {
        fputs("generate: the seed and the number of rows are decimal numbers\n", stderr);
        return 2;
    }
    folder = argv[3];
    sweeps();
    edges();
    while (rows_total < wanted) {
        /* most captures are full, some are short: the pack starts anew with each */
        size_t rows_here = below(8) ? ROWS_MOST : between(1, ROWS_MOST - 1);
        unsigned before = files;
        while (files == before && row_count < rows_here)
            scene();
        if (files == before)
            end_capture();
    }
    if (row_count > 0)
        end_capture();
    printf("%lu rows in %u files, seed %s\n", rows_total, files, argv[1]);
    return 0;
}
