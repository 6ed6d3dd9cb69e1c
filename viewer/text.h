/*
 * The trace as lines, fields and records. Lines and fields can be taken from every text, a record only from a line that
 * the library has found to be of the form.
 */
#ifndef TEXT_H
#define TEXT_H

#include "desk.h"

struct span {
    const uint8_t *bytes;
    size_t len;
};

struct line {
    size_t number;
    struct span all; /* without its LF */
    int ended;       /* by an LF */
};

/* Goes through the lines in turn. */
struct reader {
    struct span rest;
    size_t line; /* the number of the last one taken */
};

struct record {
    size_t line;
    struct span stamp;
    char channel;
    struct span event; /* with its fields */
};

struct line line_at(const struct desk *desk, size_t number);

/* The first field of what is left of a line, which is left without it and its tab. */
struct span take_field(struct span *rest);

size_t fields_in(struct span line);

struct record record_of(const struct line *line);

/* All records, from line 2 on. */
struct reader records_of(const struct desk *desk);

int next_record(struct reader *reader, struct record *record);

/* The next record of that channel at that stamp. */
int next_tied(struct reader *reader, uint32_t stamp, char channel, struct record *record);

uint32_t decimal_of(struct span digits);

int is_word(struct span span, const char *word);

#endif
