/* Memory that is lent to both programs. Bytes for reading end at a page that can't be read; what is for writing each
 * program has for itself, with guard bytes on both sides. Who includes this defines _DEFAULT_SOURCE first. */
#ifndef LENT_H
#define LENT_H

#include "../../second/snatchblock2.h"
#include "draw.h"

#include <signal.h>
#include <stdio.h>
#include <stdlib.h>
#include <string.h>
#include <sys/mman.h>

enum { GUARD = 16, AREA_MOST = 660, PAGE = 4096, LENT_PAGES = 4, SLICES = 4 };

static inline struct sb2_bytes bytes_of(const uint8_t *at, size_t length)
{
    return (struct sb2_bytes){at, length};
}

/* Bytes lent for reading: they end where a page begins that can't be read. */
struct lent {
    uint8_t *end;
    uint8_t copy[LENT_PAGES * PAGE];
    struct sb2_bytes bytes;
};
static struct lent lent[SLICES];

static inline void make_lent(void)
{
    for (int i = 0; i < SLICES; i++) {
        uint8_t *at = mmap(NULL, (LENT_PAGES + 1) * PAGE, PROT_READ | PROT_WRITE, MAP_PRIVATE | MAP_ANONYMOUS, -1, 0);
        if (at == MAP_FAILED || mprotect(at + LENT_PAGES * PAGE, PAGE, PROT_NONE) != 0) {
            perror("lent memory");
            exit(2);
        }
        lent[i].end = at + LENT_PAGES * PAGE;
    }
}

static inline struct sb2_bytes lend(int slot, const uint8_t *at, size_t length)
{
    struct lent *l = &lent[slot];
    memcpy(l->end - length, at, length);
    memcpy(l->copy, at, length);
    l->bytes = (struct sb2_bytes){l->end - length, length};
    return l->bytes;
}

/* Lent for writing, once for each program, with guard bytes around. */
struct both {
    uint8_t proved[2 * GUARD + AREA_MOST];
    uint8_t second[2 * GUARD + AREA_MOST];
    uint8_t before[2 * GUARD + AREA_MOST];
    size_t length;
    uint8_t *p;
    uint8_t *s;
};

static inline void lend_both(struct both *b, size_t length)
{
    size_t shift = below(8);
    b->length = length;
    b->p = b->proved + GUARD - shift;
    b->s = b->second + GUARD - shift;
    memcpy(b->before, b->second, sizeof b->before);
}

/* The same byte all over; `length` bytes of it are lent. */
static inline void lend_blank(struct both *b, size_t length)
{
    memset(b->second, (int)below(256), sizeof b->second);
    memcpy(b->proved, b->second, sizeof b->second);
    lend_both(b, length);
}

/* Memory with the given content; `length` bytes of it are lent. */
static inline void lend_with(struct both *b, const uint8_t *content, size_t length)
{
    memset(b->second, (int)below(256), sizeof b->second);
    lend_both(b, length);
    memcpy(b->s, content, length);
    memcpy(b->proved, b->second, sizeof b->second);
    memcpy(b->before, b->second, sizeof b->before);
}

/* Whether all but the first bytes of what is lent, guards too, are as they were. */
static inline bool stays_behind(const struct both *b, size_t first)
{
    size_t from = (size_t)(b->p - b->proved);
    size_t to = from + (first < b->length ? first : b->length);
    return memcmp(b->proved, b->before, from) == 0 &&
           memcmp(b->proved + to, b->before + to, sizeof b->before - to) == 0;
}

/* Whether the first slices lent for reading are as they were. */
static inline bool lent_stay(size_t slices)
{
    for (size_t i = 0; i < slices; i++)
        if (memcmp(lent[i].bytes.at, lent[i].copy, lent[i].bytes.length) != 0)
            return false;
    return true;
}

static inline void show(const char *name, const uint8_t *at, size_t length)
{
    printf("  %-14s %5zu: ", name, length);
    for (size_t i = 0; i < length; i++)
        printf("%02x", at[i]);
    printf("\n");
}

/* What is called where a program reads or writes past what it was lent. */
static inline void on_signals(void (*stopped)(int))
{
    signal(SIGSEGV, stopped);
    signal(SIGBUS, stopped);
    signal(SIGILL, stopped);
    signal(SIGFPE, stopped);
}

#endif
