/*
 * Writing HTML to the standard output. What comes from outside, from the trace or the folder's name, is written by
 * these functions alone, escaped.
 */
#ifndef HTML_H
#define HTML_H

#include "text.h"

void put(const char *markup);

/* Whether a byte is a visible character of ASCII; a blank is not. */
int is_visible(int byte);

/* Bytes of the trace. One that is no visible character of ASCII, a blank too, is shown by its number, boxed: a
 * mistyped letter may look like another. */
void put_bytes(struct span span);

/* An event with its fields, blanks for tabs. */
void put_event(struct span event);

/* A name of the file system: letters of two bytes in UTF-8 (Latin, Greek, Cyrillic) as such, other bytes by number. */
void put_name(const char *name);

/* A number, its digits parted by commas in threes. */
void put_count(size_t number);

/* A count with its noun, `1 page`, `2 pages`. */
void put_counted(size_t number, const char *one, const char *many);

/* An address of the chip. */
void put_address(const struct chip *chip, size_t address);

#endif
