#include "text.h"

#include <string.h>

/* Cuts off what stands before the first such byte, or all; the rest then begins behind that byte. */
static struct span cut_off(struct span *rest, int byte)
{
    const uint8_t *end = rest->len == 0 ? NULL : memchr(rest->bytes, byte, rest->len);
    struct span part = {rest->bytes, end == NULL ? rest->len : (size_t)(end - rest->bytes)};
    size_t gone = part.len + (end != NULL);

    rest->bytes += gone;
    rest->len -= gone;
    return part;
}

static struct reader lines_of(const struct desk *desk)
{
    struct reader reader = {{desk->text, desk->text_len}, 0};

    return reader;
}

/* The next line; 0 where the text is at its end. */
static int next_line(struct reader *reader, struct line *line)
{
    size_t before = reader->rest.len;

    if (before == 0)
        return 0;
    line->number = ++reader->line;
    line->all = cut_off(&reader->rest, '\n');
    line->ended = before - reader->rest.len > line->all.len;
    return 1;
}

struct line line_at(const struct desk *desk, size_t number)
{
    struct reader reader = lines_of(desk);
    struct line line = {0, {desk->text, 0}, 0};

    while (line.number < number && next_line(&reader, &line))
        ;
    return line;
}

struct span take_field(struct span *rest)
{
    return cut_off(rest, '\t');
}

size_t fields_in(struct span line)
{
    size_t fields = 1, at;

    for (at = 0; at < line.len; at++)
        fields += line.bytes[at] == '\t';
    return fields;
}

struct reader records_of(const struct desk *desk)
{
    struct reader reader = lines_of(desk);
    struct line board;

    next_line(&reader, &board);
    return reader;
}

struct record record_of(const struct line *line)
{
    struct record record = {.line = line->number, .event = line->all};

    record.stamp = take_field(&record.event);
    record.channel = (char)take_field(&record.event).bytes[0];
    return record;
}

int next_record(struct reader *reader, struct record *record)
{
    struct line line;

    if (!next_line(reader, &line))
        return 0;
    *record = record_of(&line);
    return 1;
}

int next_tied(struct reader *reader, uint32_t stamp, char channel, struct record *record)
{
    while (next_record(reader, record))
        if (record->channel == channel && decimal_of(record->stamp) == stamp)
            return 1;
    return 0;
}

uint32_t decimal_of(struct span digits)
{
    uint32_t number = 0;
    size_t at;

    for (at = 0; at < digits.len; at++)
        number = 10 * number + (uint32_t)(digits.bytes[at] - '0');
    return number;
}

int is_word(struct span span, const char *word)
{
    return span.len == strlen(word) && memcmp(span.bytes, word, span.len) == 0;
}
