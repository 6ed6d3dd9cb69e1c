/*
 * The replay on the viewer's own buffers, and what came of it page by page.
 */
#ifndef DESK_H
#define DESK_H

#include "hazelcrook.h"

/* The three files of a folder. */
enum { TRACE, FLASH_DUMP, EEPROM_DUMP, FILES };

struct file {
    const char *name;
    const char *sum; /* its SHA-256 as 64 digits; NULL where there is no such file */
    size_t len;      /* of all of it, read or not */
};

struct chip {
    const char *name, *said, *id; /* at a sentence's start, within one, in the page's names */
    uint32_t number; /* the library's */
    size_t pages;
    size_t first_entry;   /* of its pages in the table of times */
    size_t first_address; /* that of the image's first byte */
    int digits;           /* of an address */
    uint8_t *values, *masks;
    size_t values_len; /* an image's, but for a dump of another length */
};

/* What the records tell together with their replies. */
struct played {
    size_t records, played;
    uint32_t first, last; /* stamps of the trace */
    size_t compared;      /* recorded replies */
    size_t running[2];    /* for each chip the line at which the cycle started that still runs; 0 where none does */
    uint32_t offs[HAZELCROOK_REPLIES / 4]; /* the stamps of `off`, rising */
    size_t off_count;
};

struct desk {
    const char *folder; /* its own name */
    struct file files[FILES];
    const uint8_t *text;
    size_t text_len;
    struct chip flash, eeprom;
    uint8_t times[HAZELCROOK_TIMES], replies[HAZELCROOK_REPLIES], result[HAZELCROOK_RESULT];
    uint32_t answer;
    uint32_t at; /* the line of answers 3, 4, 5, the stamp of 6, 7, 8 */
    uint32_t count, field;
    struct played played;
};

/* A page as it stands after the replay. */
struct page {
    size_t number, place, len; /* its place is one of the image */
    size_t address;            /* of its first byte, in the chip */
    int written;
    uint32_t stamp;  /* of its last writing */
    size_t doubtful; /* bits */
};

/* Reads the files that have a sum, from the present folder, and replays. It ends the program where one cannot be read,
 * and where the library breaks its word. */
void replay_here(struct desk *desk);

/* Whether there is something to show: the trace settled or stopped. */
int shows(const struct desk *desk);

struct page page_of(const struct desk *desk, const struct chip *chip, size_t number);

size_t bits_of(const struct page *page);

/* The four bytes of the reply to the record on that line. */
const uint8_t *reply_at(const struct desk *desk, size_t line);

/* Ends the program, for a fault of the command, a file or the system. */
_Noreturn void give_up(const char *what, const char *why);

#endif
