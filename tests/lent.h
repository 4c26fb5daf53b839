/*
 * Memory lent to a call, so placed that a byte touched beyond it is seen. The archive is proved and built elsewhere, so no compiler's
 * check stands in its code; what it touches has to be seen from outside:
 *   - in the middle: guard bytes on both sides show a byte written beyond, and what was written;
 *   - on the heap: a block of exactly the length, where a memory checker sees a byte read or written beyond;
 *   - at the start, at the end: right behind or right before memory without any access, where the first byte beyond ends the program,
 *     read or written, in every build.
 */
#ifndef LENT_H
#define LENT_H

#include <stdint.h>
#include <stdlib.h>
#include <string.h>
#include <sys/mman.h>
#include <unistd.h>

enum site { IN_THE_MIDDLE, ON_THE_HEAP, AT_THE_START, AT_THE_END, SITES };
static const char *const site_names[SITES] = {"in the middle", "on the heap", "at the start", "at the end"};

/* More than the longest frame on either side, so that a whole frame written beyond is seen. */
enum { GUARD = 128 };

/* Memory between two fences, for one loan at a time. */
struct room {
    uint8_t *start;
    size_t length;
};

/* The bytes lent, and how many guard bytes stand before and after them. */
struct lent {
    enum site site;
    uint8_t *bytes;
    size_t length;
    size_t before;
    size_t after;
};

/* No byte is like a digit or 0A, and two neighbours differ. */
static uint8_t filling(size_t i)
{
    return (uint8_t)(0x80 + i % 61);
}

/* Room for loans up to this length. */
static struct room fenced_room(size_t longest)
{
    size_t unit = (size_t)sysconf(_SC_PAGESIZE);
    size_t length = (GUARD + longest + GUARD + unit - 1) / unit * unit;
    void *all = mmap(NULL, unit + length + unit, PROT_NONE, MAP_PRIVATE | MAP_ANONYMOUS, -1, 0);
    if (all == MAP_FAILED || mprotect((uint8_t *)all + unit, length, PROT_READ | PROT_WRITE) != 0)
        abort();
    return (struct room){(uint8_t *)all + unit, length};
}

/* Lends a copy of these bytes. On the heap no byte more than the length is asked for, not even for none. */
static struct lent lend(enum site site, struct room room, const void *bytes, size_t length)
{
    struct lent l = {site, NULL, length, 0, 0};
    if (site == ON_THE_HEAP) {
        l.bytes = malloc(length);
    } else {
        l.before = site == AT_THE_START ? 0 : GUARD;
        l.after = site == AT_THE_END ? 0 : GUARD;
        l.bytes = site == AT_THE_END ? room.start + room.length - length : room.start + l.before;
    }
    if (!l.bytes || GUARD + length + GUARD > room.length)
        abort();
    for (size_t i = 0; i < l.before; i++)
        *(l.bytes - 1 - i) = filling(i);
    for (size_t i = 0; i < l.after; i++)
        l.bytes[length + i] = filling(i);
    memcpy(l.bytes, bytes, length);
    return l;
}

/* Whether these bytes stand where the loan was made, with its guards as they were. */
static int lent_is(struct lent l, const void *bytes)
{
    for (size_t i = 0; i < l.before; i++)
        if (*(l.bytes - 1 - i) != filling(i))
            return 0;
    for (size_t i = 0; i < l.after; i++)
        if (l.bytes[l.length + i] != filling(i))
            return 0;
    return memcmp(l.bytes, bytes, l.length) == 0;
}

static void give_back(struct lent l)
{
    if (l.site == ON_THE_HEAP)
        free(l.bytes);
}

#endif
