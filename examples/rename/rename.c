/* Renames a pack: sets or removes one body of the service sheet in a file, by the proved library. */
#include <errno.h>
#include <stdio.h>
#include <stdlib.h>
#include <string.h>

#include "snatchblock.h"

/* One byte more than any sheet has, so that a longer file is seen. */
enum { ROOM = SNATCHBLOCK_SHEET_ROOM + 1 };

/* Why an edit was refused, in words. */
static const char *reason(enum snatchblock_answer answer)
{
    switch (answer) {
    case SNATCHBLOCK_BAD_SHEET: return "the file is no sheet";
    case SNATCHBLOCK_BAD_TAG: return "the tag isn't 20 to 23";
    case SNATCHBLOCK_LONG_BODY: return "the name is over 32 bytes";
    default: return "the sheet is too long"; /* never: any sheet fits this room */
    }
}

/* A tag in hex, all of it; 0 else, which is no tag. */
static uint8_t tag_of(const char *text)
{
    char *end;
    unsigned long tag = strtoul(text, &end, 16);
    return *text != 0 && *end == 0 && tag < 256 ? (uint8_t)tag : 0;
}

/* Each tag that the sheet lists, with its name; bytes that don't print are dots. */
static void show(const uint8_t *sheet, size_t length)
{
    static const uint8_t none[] = {0};
    for (unsigned tag = 0x20; tag <= 0x23; tag++) {
        uint64_t block = snatchblock_block(sheet, length, none, sizeof none, (uint8_t)tag);
        if (snatchblock_block_in_factory(block))
            continue;
        printf("%02x ", tag);
        for (size_t i = 0; i < snatchblock_block_length(block); i++) {
            uint8_t b = sheet[snatchblock_block_offset(block) + i];
            putchar(b >= 0x20 && b < 0x7F ? b : '.');
        }
        putchar('\n');
    }
}

/* The new sheet goes into a file beside the old one, which it then replaces: a power cut leaves one of the two. */
static int store(const char *path, const uint8_t *sheet, size_t length)
{
    char beside[4096];
    if ((size_t)snprintf(beside, sizeof beside, "%s.new", path) >= sizeof beside)
        return ENAMETOOLONG;
    FILE *file = fopen(beside, "wb");
    if (!file)
        return errno;
    size_t put = fwrite(sheet, 1, length, file);
    if (fclose(file) != 0 || put != length || rename(beside, path) != 0) {
        int why = errno;
        (void)remove(beside);
        return why;
    }
    return 0;
}

static int failed(const char *path, int why)
{
    fprintf(stderr, "rename: %s: %s\n", path, strerror(why));
    return 1;
}

int main(int count, char **words)
{
    if (count < 3 || count > 4) {
        fputs("rename SHEET TAG [NAME]: the tag, 20 to 23, gets the name; with no NAME it is removed\n", stderr);
        return 2;
    }
    uint8_t room[ROOM];
    FILE *file = fopen(words[1], "rb");
    if (!file)
        return failed(words[1], errno);
    size_t stated = fread(room, 1, sizeof room, file);
    (void)fclose(file);
    uint8_t tag = tag_of(words[2]);
    uint32_t result = count == 3 ? snatchblock_remove_body(room, sizeof room, stated, tag)
                                 : snatchblock_set_body(room, sizeof room, stated, tag, (const uint8_t *)words[3],
                                                        strlen(words[3]));
    if (!snatchblock_served(result)) {
        fprintf(stderr, "rename: %u: %s\n", (unsigned)snatchblock_answer_of(result), reason(snatchblock_answer_of(result)));
        return 1;
    }
    int why = store(words[1], room, snatchblock_length_of(result));
    if (why != 0)
        return failed(words[1], why);
    show(room, snatchblock_length_of(result));
    return 0;
}
