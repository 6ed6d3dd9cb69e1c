/*
 * Buffers between two pages that nothing may touch: a stray access ends the program at once, with no sanitizer.
 *
 * A buffer lies against one of the two pages; what is left of its own pages on the other side is filled, so that a
 * write there can be seen afterwards. A program that includes this defines _DEFAULT_SOURCE first, for mmap.
 */
#ifndef GUARDED_H
#define GUARDED_H

#include <stdint.h>
#include <stdio.h>
#include <stdlib.h>
#include <string.h>
#include <sys/mman.h>
#include <unistd.h>

enum side { AGAINST_LOWER, AGAINST_UPPER };

enum { FILLER = 0xc5 };

struct lent {
    uint8_t *bytes; /* what is lent */
    size_t len;
    unsigned char *map; /* all of it, with the two pages */
    size_t map_len;
    unsigned char *room; /* between the two pages */
    size_t room_len;
};

/* Ends the program where the system refuses something. */
static inline void fail(const char *what)
{
    perror(what);
    exit(2);
}

/* A new buffer, filled. */
static inline struct lent lend(size_t len, enum side side)
{
    size_t page = (size_t)sysconf(_SC_PAGESIZE);
    struct lent lent;

    lent.len = len;
    lent.room_len = (len + page - 1) / page * page;
    lent.map_len = lent.room_len + 2 * page;
    lent.map = mmap(NULL, lent.map_len, PROT_NONE, MAP_PRIVATE | MAP_ANONYMOUS, -1, 0);
    if (lent.map == MAP_FAILED)
        fail("mmap");
    lent.room = lent.map + page;
    if (lent.room_len != 0) {
        if (mprotect(lent.room, lent.room_len, PROT_READ | PROT_WRITE) != 0)
            fail("mprotect");
        memset(lent.room, FILLER, lent.room_len);
    }
    lent.bytes = side == AGAINST_UPPER ? lent.room + lent.room_len - len : lent.room;
    return lent;
}

/* From here on a write into the buffer ends the program too. */
static inline void only_read(const struct lent *lent)
{
    if (lent->room_len != 0 && mprotect(lent->room, lent->room_len, PROT_READ) != 0)
        fail("mprotect");
}

/* Whether what is left beside the buffer is as it was. */
static inline int beside_untouched(const struct lent *lent)
{
    const unsigned char *end = lent->room + lent->room_len;
    const unsigned char *place;

    for (place = lent->room; place < lent->bytes; place++)
        if (*place != FILLER)
            return 0;
    for (place = lent->bytes + lent->len; place < end; place++)
        if (*place != FILLER)
            return 0;
    return 1;
}

/* A number in a buffer: four bytes, the low one first. */
static inline uint32_t number_of(const uint8_t *four)
{
    return (uint32_t)four[0] | (uint32_t)four[1] << 8 | (uint32_t)four[2] << 16 | (uint32_t)four[3] << 24;
}

static inline void take_back(const struct lent *lent)
{
    if (munmap(lent->map, lent->map_len) != 0)
        fail("munmap");
}

#endif
