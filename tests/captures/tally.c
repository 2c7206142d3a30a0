/* Counts what a set of captures has put to the players: tally FOLDER LEAST
 *
 * FOLDER holds 00001.cap, 00002.cap and so on, and beside each the second
 * program's lines, 00001.second and so on. Every class below is worked out from
 * the capture's bytes and those lines alone; one that never came up, or fewer
 * rows than LEAST, ends the run with status 1.
 *
 * tally --row NUMBER CAPTURE prints one row of a capture for a reader.
 */
#include <stdbool.h>
#include <stdint.h>
#include <stdio.h>
#include <stdlib.h>
#include <string.h>

enum { BODY_MOST = 37, CAPTURE_MOST = 1 + 255 * 39, READ_MOST = 1 << 20 };

static unsigned long missing;

/* ---- the captures' form */

enum form { FORM_GOOD, FORM_EMPTY, FORM_TOO_LONG, FORM_ROWS_CUT, FORM_MARK, FORM_LENGTH, FORM_BODIES_CUT, FORM_TRAILING, FORMS };
static const char *const form_names[FORMS] = {
    "a capture",
    "no capture: no bytes",
    "no capture: over 9,946 bytes",
    "no capture: fewer bytes than its rows need",
    "no capture: a mark other than 0 and 1",
    "no capture: a length over 37",
    "no capture: bodies cut short",
    "no capture: bytes behind the end",
};
static unsigned long forms[FORMS];
static unsigned long captures_without_rows, captures_of_255, captures_longest;

static enum form form_of(const uint8_t *bytes, size_t length)
{
    if (length == 0)
        return FORM_EMPTY;
    if (length > CAPTURE_MOST)
        return FORM_TOO_LONG;
    size_t end = 1 + 2 * (size_t)bytes[0];
    if (length < end)
        return FORM_ROWS_CUT;
    for (size_t i = 1; i < 1 + 2 * (size_t)bytes[0]; i += 2) {
        if (bytes[i] > 1)
            return FORM_MARK;
        if (bytes[i + 1] > BODY_MOST)
            return FORM_LENGTH;
        end += bytes[i + 1];
    }
    return length < end ? FORM_BODIES_CUT : length > end ? FORM_TRAILING : FORM_GOOD;
}

/* ---- check bytes */

static uint8_t pec(const uint8_t *bytes, size_t length)
{
    unsigned rest = 0;
    for (size_t i = 0; i < length; i++) {
        rest ^= bytes[i];
        for (int bit = 0; bit < 8; bit++)
            rest = rest & 0x80 ? (rest << 1 ^ 0x107) : rest << 1;
    }
    return (uint8_t)rest;
}

/* distance[s]: the fewest bits to turn in five bytes to move the check by s, 4 if over 3. */
static uint8_t distance[256];

static void fill_distances(void)
{
    uint8_t of_bit[40];
    for (unsigned bit = 0; bit < 40; bit++) {
        uint8_t bytes[5] = {0, 0, 0, 0, 0};
        bytes[bit / 8] = (uint8_t)(1u << bit % 8);
        of_bit[bit] = pec(bytes, 4) ^ bytes[4];
    }
    memset(distance, 4, sizeof distance);
    for (unsigned i = 0; i < 40; i++)
        for (unsigned j = 0; j < i; j++)
            for (unsigned k = 0; k < j; k++)
                distance[of_bit[i] ^ of_bit[j] ^ of_bit[k]] = 3;
    for (unsigned i = 0; i < 40; i++)
        for (unsigned j = 0; j < i; j++)
            distance[of_bit[i] ^ of_bit[j]] = 2;
    for (unsigned i = 0; i < 40; i++)
        distance[of_bit[i]] = 1;
    distance[0] = 0;
}

/* ---- what is counted over rows */

static unsigned long rows_seen, answers[16];
static unsigned long reads[256], plain_writes[256], checked_writes[256], wrong_checks[256];
static unsigned long lengths[2][BODY_MOST + 1];
static unsigned long damage[4], damage_of_words;
static unsigned long empty_rows[2], other_address[2], read_no_turn, read_form_as_write, write_form_as_read;
static unsigned long served_reads[2][0x24];
static unsigned long empty_blocks[4];
static unsigned long codes_shown[8], low_capacity[2][2], mode_writes[8];

enum { RATES = 6 };
static const char *const rate_names[RATES] = {"0", "1", "-1", "-32768", "other above 0", "other below 0"};
static unsigned long at_rate_reads[2][3][RATES];
enum { TIMES = 4 };
static const char *const time_names[TIMES] = {"65535, answered 0", "65535, answered 10", "65534, answered 10",
                                              "less, answered 0"};
static unsigned long time_words[2][2][TIMES + 1], time_codes[2][2];
static unsigned long at_rate_fine[2];

static unsigned rate_class(int rate)
{
    return rate == 0 ? 0 : rate == 1 ? 1 : rate == -1 ? 2 : rate == -32768 ? 3 : rate > 0 ? 4 : 5;
}

/* Which of these a served time is; TIMES for what the player's pack never shows. */
static unsigned time_class(unsigned word, int answer)
{
    if (word == 65535)
        return answer == 10;
    return word == 65534 && answer == 10 ? 2 : word < 65534 && answer == 0 ? 3 : TIMES;
}

/* In power mode 05 shows 65,535 alone, cut off; no other time does. */
static bool time_can_be(unsigned power, unsigned command, unsigned kind)
{
    return kind < TIMES && (kind == 1) == (power == 1 && command == 0x05);
}

/* What the served writes of a capture have left, and the command that the row before has read as cut off, else 0. */
struct pack {
    bool power;
    int at_rate;
    uint8_t cut_off;
};

struct line {
    int answer;
    size_t length;
    uint8_t reply[64];
};

/* Counts one row and its line; false for a reply that breaks the promise on damaged writes. */
static bool count_row(struct pack *pack, unsigned mark, const uint8_t *body, size_t length, const struct line *line)
{
    bool fine = true;
    uint8_t cut_off = pack->cut_off;
    pack->cut_off = line->answer == 10 ? body[1] : 0;
    rows_seen++;
    answers[line->answer]++;
    lengths[mark][length]++;
    if (length == 0) {
        empty_rows[mark]++;
        return true;
    }
    if (mark == 0 && length == 5) {
        unsigned bits = distance[pec(body, 4) ^ body[4]];
        if (bits >= 1 && bits <= 3) {
            damage[bits]++;
            damage_of_words += body[0] == 0x16 && body[1] < 5;
            fine = line->answer == 3 || line->answer == 5;
        }
    }
    if (body[0] != 0x16) {
        other_address[mark]++;
        return fine;
    }
    if (mark == 1) {
        read_no_turn += length == 3 && body[2] != 0x17;
        write_form_as_read += length == 4 || (length == 5 && pec(body, 4) == body[4]);
    } else {
        read_form_as_write += length == 3 && body[2] == 0x17;
    }
    uint8_t command = length > 1 ? body[1] : 0;
    bool served = line->answer == 0 || line->answer == 10;
    if (mark == 1 && length == 3 && body[2] == 0x17) {
        reads[command]++;
        if (served && command < 0x24)
            served_reads[pack->power][command]++;
        if (served && command >= 0x20 && command <= 0x23)
            empty_blocks[command - 0x20] += line->length == 2 && line->reply[0] == 0;
        if (served && line->length == 3) {
            unsigned word = line->reply[0] | (unsigned)line->reply[1] << 8;
            if (command >= 0x05 && command <= 0x07)
                at_rate_reads[pack->power][command - 0x05][rate_class(pack->at_rate)]++;
            if (command == 0x05 || command == 0x06)
                time_words[pack->power][command - 0x05][time_class(word, line->answer)]++;
            if (command == 0x07)
                at_rate_fine[pack->power] += word == 1;
            if (command == 0x16) {
                codes_shown[word & 7]++;
                low_capacity[pack->power][word >> 9 & 1]++;
                if (cut_off == 0x05 || cut_off == 0x06)
                    time_codes[pack->power][cut_off - 0x05] += (word & 0xF) == 5;
            }
        }
    }
    if (mark == 0 && (length == 4 || length == 5)) {
        bool right = length == 4 || pec(body, 4) == body[4];
        if (!right)
            wrong_checks[command]++;
        else if (length == 5)
            checked_writes[command]++;
        else
            plain_writes[command]++;
        if (line->answer == 0) {
            int word = body[2] | body[3] << 8;
            if (command == 0x03) {
                pack->power = word & 0x8000;
                mode_writes[word >> 13]++;
            } else if (command == 0x04) {
                pack->at_rate = word < 0x8000 ? word : word - 0x10000;
            }
        }
    }
    return fine;
}

/* ---- reading */

static size_t read_whole(const char *name, uint8_t *room, size_t most)
{
    FILE *file = fopen(name, "rb");
    if (!file) {
        fprintf(stderr, "tally: %s can't be read\n", name);
        exit(2);
    }
    size_t length = fread(room, 1, most, file);
    fclose(file);
    return length;
}

static int hex_digit(int c)
{
    return c >= '0' && c <= '9' ? c - '0' : c >= 'a' && c <= 'f' ? c - 'a' + 10 : -1;
}

/* Takes one line "N" or "N hex"; false if it isn't one. */
static bool take_line(const char **text, struct line *line)
{
    const char *at = *text;
    line->answer = 0;
    line->length = 0;
    if (hex_digit(*at) < 0 || hex_digit(*at) > 9)
        return false;
    while (hex_digit(*at) >= 0 && hex_digit(*at) <= 9) {
        line->answer = line->answer * 10 + hex_digit(*at++);
        if (line->answer > 15)
            return false;
    }
    if (*at == ' ') {
        at++;
        while (hex_digit(at[0]) >= 0 && hex_digit(at[1]) >= 0 && line->length < sizeof line->reply) {
            line->reply[line->length++] = (uint8_t)(hex_digit(at[0]) << 4 | hex_digit(at[1]));
            at += 2;
        }
        if (line->length == 0)
            return false;
    }
    if (*at != '\n')
        return false;
    *text = at + 1;
    return true;
}

/* Counts one capture; false, with a message, if the lines don't fit it. */
static bool count_capture(const char *name, const uint8_t *bytes, size_t length, const char *text)
{
    struct line line;
    enum form form = form_of(bytes, length);
    forms[form]++;
    if (form != FORM_GOOD) {
        answers[14]++;
        if (strcmp(text, "14\n") == 0)
            return true;
        printf("%s: %s, and the line isn't 14 alone\n", name, form_names[form]);
        return false;
    }
    size_t rows = bytes[0];
    captures_without_rows += rows == 0;
    captures_of_255 += rows == 255;
    captures_longest += length == CAPTURE_MOST;
    struct pack pack = {false, 0, 0};
    size_t place = 1 + 2 * rows;
    for (size_t i = 0; i < rows; i++) {
        unsigned mark = bytes[1 + 2 * i];
        size_t body = bytes[2 + 2 * i];
        if (!take_line(&text, &line)) {
            printf("%s: row %zu has no line of the form\n", name, i + 1);
            return false;
        }
        if (!count_row(&pack, mark, bytes + place, body, &line)) {
            printf("%s: row %zu lies one to three bits from a right write and was answered %d\n", name, i + 1, line.answer);
            return false;
        }
        place += body;
    }
    if (*text != '\0')
        printf("%s: more lines than rows\n", name);
    return *text == '\0';
}

/* ---- printing */

static void want(const char *name, unsigned long count)
{
    printf("  %9lu  %s%s\n", count, name, count == 0 ? "   NEVER CAME UP" : "");
    missing += count == 0;
}

static void want_all(const char *name, const unsigned long *counts, unsigned from, unsigned to, bool hex)
{
    printf("%s\n", name);
    for (unsigned i = from; i <= to; i++) {
        printf(hex ? "%s%02x:%lu" : "%s%u:%lu", (i - from) % 16 == 0 ? "  " : " ", i, counts[i]);
        if ((i - from) % 16 == 15 || i == to)
            putchar('\n');
    }
    for (unsigned i = from; i <= to; i++)
        if (counts[i] == 0) {
            printf(hex ? "  %02x NEVER CAME UP\n" : "  %u NEVER CAME UP\n", i);
            missing++;
        }
}

/* The words of 05 and 06 with their answers, and the code that a cut-off one leaves. */
static void print_times(void)
{
    char name[96];
    for (unsigned i = 0; i < 2 * 2 * (TIMES + 1); i++) {
        unsigned power = i / (2 * (TIMES + 1)), command = i / (TIMES + 1) % 2, kind = i % (TIMES + 1);
        unsigned long count = time_words[power][command][kind];
        const char *mode = power ? "power mode" : "mAh";
        if (!time_can_be(power, 5 + command, kind)) {
            if (count > 0)
                printf("  %9lu  %s, %02x with an answer or a word that can't be   WRONG\n", count, mode, 5 + command);
            missing += count > 0;
            continue;
        }
        snprintf(name, sizeof name, "%s, %02x shows %s", mode, 5 + command, time_names[kind]);
        want(name, count);
    }
    want("mAh, error code 5 after 05", time_codes[0][0]);
    want("mAh, error code 5 after 06", time_codes[0][1]);
    want("power mode, error code 5 after 05", time_codes[1][0]);
    want("power mode, error code 5 after 06", time_codes[1][1]);
}

static void print_classes(void)
{
    char name[96];
    static const unsigned reachable[] = {0, 3, 4, 5, 6, 7, 8, 10, 14};
    printf("answers\n");
    for (size_t i = 0; i < sizeof reachable / sizeof *reachable; i++) {
        snprintf(name, sizeof name, "answer %u", reachable[i]);
        want(name, answers[reachable[i]]);
    }
    puts("  not from the player, whose pack is fixed: 1 (its state is sound), 2 (its room is enough), 9 (both\n"
         "  sheets are good), 11 (its set-up is served), 12 and 13 (it handles no key and writes no sheet),\n"
         "  15 (it checks and compares no exchange)");
    puts("captures");
    for (unsigned i = 0; i < FORMS; i++)
        want(form_names[i], forms[i]);
    want("a capture without rows", captures_without_rows);
    want("a capture of 255 rows", captures_of_255);
    want("the longest capture, 9,946 bytes", captures_longest);
    want_all("reads of each command", reads, 0, 255, true);
    want_all("writes of each command without PEC", plain_writes, 0, 255, true);
    want_all("writes of each command with PEC", checked_writes, 0, 255, true);
    want_all("writes of each command with a wrong PEC", wrong_checks, 0, 255, true);
    want_all("rows marked as writes, by length", lengths[0], 0, BODY_MOST, false);
    want_all("rows marked as reads, by length", lengths[1], 0, BODY_MOST, false);
    puts("damage");
    want("five bytes one bit from a right write", damage[1]);
    want("five bytes two bits from one", damage[2]);
    want("five bytes three bits from one", damage[3]);
    want("of these, to a word that the host may write", damage_of_words);
    want("empty, marked as a write", empty_rows[0]);
    want("empty, marked as a read", empty_rows[1]);
    want("another address, marked as a write", other_address[0]);
    want("another address, marked as a read", other_address[1]);
    want("a read without 17 as its third byte", read_no_turn);
    want("a read's bytes marked as a write", read_form_as_write);
    want("a write's bytes marked as a read", write_form_as_read);
    want_all("served reads in mAh, words", served_reads[0], 0x00, 0x1C, true);
    want_all("served reads in mAh, blocks", served_reads[0], 0x20, 0x23, true);
    want_all("served reads in power mode, words", served_reads[1], 0x00, 0x1C, true);
    want_all("served reads in power mode, blocks", served_reads[1], 0x20, 0x23, true);
    puts("sheets: a name listed in neither sheet, a block of no bytes (the player's sheets list none)");
    for (unsigned i = 0; i < 4; i++) {
        snprintf(name, sizeof name, "block %02x of no bytes", 0x20 + i);
        want(name, empty_blocks[i]);
    }
    puts("BatteryMode writes, bits 15 to 13");
    for (unsigned i = 0; i < 8; i++) {
        snprintf(name, sizeof name, "bits %u%u%u", i >> 2, i >> 1 & 1, i & 1);
        want(name, mode_writes[i]);
    }
    puts("BatteryStatus");
    for (unsigned i = 0; i < 8; i++)
        if (i != 1) { /* the pack is never busy */
            snprintf(name, sizeof name, "error code %u shown", i);
            want(name, codes_shown[i]);
        }
    for (unsigned power = 0; power < 2; power++)
        for (unsigned set = 0; set < 2; set++) {
            snprintf(name, sizeof name, "%s, capacity alarm %s", power ? "power mode" : "mAh", set ? "set" : "clear");
            want(name, low_capacity[power][set]);
        }
    puts("AtRate and the words on it");
    for (unsigned power = 0; power < 2; power++)
        for (unsigned command = 0; command < 3; command++)
            for (unsigned rate = 0; rate < RATES; rate++) {
                snprintf(name, sizeof name, "%s, read of %02x at AtRate %s", power ? "power mode" : "mAh", 5 + command, rate_names[rate]);
                want(name, at_rate_reads[power][command][rate]);
            }
    print_times();
    want("mAh, 07 shows 1", at_rate_fine[0]);
    want("power mode, 07 shows 1", at_rate_fine[1]);
    puts("  not from the player, which takes no sample: 07 showing 0, words on a current other than 0, the\n"
         "  status bits 14, 12, 11, 8, 5 and 4, holds running out, broadcasts");
}

static int show_row(const char *number, const char *name)
{
    static uint8_t bytes[READ_MOST];
    size_t length = read_whole(name, bytes, sizeof bytes);
    unsigned long wanted = strtoul(number, NULL, 10);
    enum form form = form_of(bytes, length);
    if (form != FORM_GOOD || wanted < 1 || wanted > bytes[0]) {
        printf("%s\n", form == FORM_GOOD ? "no such row" : form_names[form]);
        return 0;
    }
    size_t place = 1 + 2 * (size_t)bytes[0];
    for (unsigned long i = 1; i < wanted; i++)
        place += bytes[2 * i];
    printf("row %lu, %s:", wanted, bytes[2 * wanted - 1] ? "read" : "write");
    for (size_t i = 0; i < bytes[2 * wanted]; i++)
        printf(" %02x", bytes[place + i]);
    putchar('\n');
    return 0;
}

int main(int argc, char **argv)
{
    static uint8_t bytes[READ_MOST];
    static uint8_t text[READ_MOST + 1];
    if (argc == 4 && strcmp(argv[1], "--row") == 0)
        return show_row(argv[2], argv[3]);
    if (argc != 3) {
        fputs("usage: tally FOLDER LEAST, or tally --row NUMBER CAPTURE\n", stderr);
        return 2;
    }
    fill_distances();
    unsigned long least = strtoul(argv[2], NULL, 10);
    bool fine = true;
    unsigned long files = 0;
    for (;;) {
        char name[4096];
        snprintf(name, sizeof name, "%s/%05lu.cap", argv[1], files + 1);
        FILE *there = fopen(name, "rb");
        if (!there)
            break;
        fclose(there);
        files++;
        size_t length = read_whole(name, bytes, sizeof bytes);
        char lines[4096];
        snprintf(lines, sizeof lines, "%s/%05lu.second", argv[1], files);
        text[read_whole(lines, text, READ_MOST)] = 0;
        fine = count_capture(name, bytes, length, (const char *)text) && fine;
    }
    print_classes();
    printf("%lu rows in %lu captures and other files\n", rows_seen, files);
    if (missing > 0)
        printf("%lu classes never came up\n", missing);
    if (rows_seen < least)
        printf("fewer than %lu rows\n", least);
    return fine && missing == 0 && rows_seen >= least ? 0 : 1;
}
