/*
 * The verdict on a trace that was refused: what is at fault, and the line quoted.
 */
#include "html.h"
#include "sections.h"

#include <stdio.h>

static void put_dump_fault(const struct file *dump)
{
    if (dump->sum == NULL || dump->len == HAZELCROOK_IMAGE)
        return;
    printf(" %s has ", dump->name);
    put_counted(dump->len, "byte", "bytes");
    put("; a dump has ");
    put_count(HAZELCROOK_IMAGE);
    put(".");
}

/* Where a line of wrong form goes wrong: its field is there, or one past the last that is. */
static void put_form_fault(const struct desk *desk, const struct line *line)
{
    printf(" Line %u is not of the form of document 01. ", (unsigned)desk->at);
    if (desk->field <= fields_in(line->all))
        printf("Field %u is the first that is wrong: it is not what its place allows, or it is one too many.",
               (unsigned)desk->field);
    else if (line->ended)
        printf("All that is there is good, but field %u is missing.", (unsigned)desk->field);
    else
        printf("All that is there is good, but the text ends where field %u or the line's end should come.",
               (unsigned)desk->field);
}

/* The library read the line before, so there is one with a stamp. */
static void put_time_fault(const struct desk *desk, const struct line *line)
{
    struct line before = line_at(desk, desk->at - 1);
    struct span rest = line->all;

    printf(" The stamp of line %u, ", (unsigned)desk->at);
    put_bytes(take_field(&rest));
    put(", is below the one before, ");
    put_bytes(take_field(&before.all));
    put(".");
}

/* Why a record of a bus cannot stand behind the one before it on its bus, `end` left out; none is before the first. */
static const char *why_impossible(const struct record *record, const struct record *before)
{
    int cut = before->line != 0 && is_word(before->event, "cut");

    if (record->channel == 'F' && cut)
        return "from a <code>cut</code> to the next <code>des</code> nothing of channel F but <code>end</code> can be";
    if (record->channel == 'F')
        return is_word(record->event, "sel") ? "the flash is selected already" : "the flash is not selected";
    return cut ? "from a <code>cut</code> to the next <code>sta</code> or <code>sto</code> nothing of channel E but "
                 "<code>end</code> can be"
               : "there is no <code>sta</code> since the start or the last <code>sto</code>";
}

static void put_impossible(const struct desk *desk, const struct line *line)
{
    struct record refused = record_of(line), record, before = {.line = 0};
    struct reader reader = records_of(desk);

    while (next_record(&reader, &record) && record.line < line->number)
        if (record.channel == refused.channel && !is_word(record.event, "end"))
            before = record;
    printf(" The record on line %zu can't be: %s", line->number, why_impossible(&refused, &before));
    if (before.line != 0) {
        printf(" (before it on channel %c: <code>", refused.channel);
        put_event(before.event);
        printf("</code> on line %zu)", before.line);
    }
    put(".");
}

static void put_fault(const struct desk *desk, const struct line *line)
{
    switch (desk->answer) {
    case HAZELCROOK_BAD_BUFFERS:
        put_dump_fault(&desk->files[FLASH_DUMP]);
        put_dump_fault(&desk->files[EEPROM_DUMP]);
        break;
    case HAZELCROOK_TOO_LONG:
        put(" trace.tsv has ");
        put_count(desk->files[TRACE].len);
        put(" bytes; a trace has at most ");
        put_count(HAZELCROOK_TEXT);
        put(".");
        break;
    case HAZELCROOK_BAD_LINE:
        if (desk->text_len == 0)
            put(desk->files[TRACE].sum == NULL ? " There is no trace.tsv." : " trace.tsv is empty.");
        else
            put_form_fault(desk, line);
        break;
    case HAZELCROOK_BACK_IN_TIME:
        put_time_fault(desk, line);
        break;
    default:
        put_impossible(desk, line);
    }
}

enum { BYTES_QUOTED = 240, FIELDS_QUOTED = 8 };

/* As much of a line as is quoted: whole fields but for the last, and no tab behind it. */
static struct span quoted(struct span line)
{
    struct span part = {line.bytes, 0};
    size_t tabs = 0;

    while (part.len < line.len && part.len < BYTES_QUOTED) {
        tabs += line.bytes[part.len] == '\t';
        if (tabs == FIELDS_QUOTED)
            break;
        part.len++;
    }
    return part;
}

/* How many characters bytes take where they are shown. */
static size_t width_of(struct span span)
{
    size_t width = 0, at;

    for (at = 0; at < span.len; at++)
        width += is_visible(span.bytes[at]) ? 1 : 4;
    return width;
}

/* A field in its cell; a long one may be broken. */
static void put_field(struct span field, int bad)
{
    printf("<td class=\"field%s%s%s\">", bad ? " bad" : "", width_of(field) > 10 ? " long" : "", bad && field.len == 0 ? " none" : "");
    put_bytes(field);
    if (bad && field.len == 0)
        put("(empty)");
    put("</td>");
}

/* The line that was refused, field by field; a field that is missing is a place of its own. */
static void put_line(const struct desk *desk, const struct line *line)
{
    struct span rest = quoted(line->all);
    size_t fields = fields_in(rest), more = line->all.len - rest.len, field;
    size_t bad = desk->answer == HAZELCROOK_BACK_IN_TIME ? 1 : desk->field;
    int missing = more == 0 && bad == fields + 1;

    printf("<p>Line %u of trace.tsv, its fields counted from 1:</p>\n<table id=\"line\"><thead><tr>", (unsigned)desk->at);
    for (field = 1; field <= fields + (size_t)missing; field++)
        printf("<th>%zu</th>", field);
    put(more != 0 ? "<th></th></tr></thead>\n<tbody><tr>" : "</tr></thead>\n<tbody><tr>");
    for (field = 1; field <= fields; field++)
        put_field(take_field(&rest), field == bad);
    if (missing)
        printf("<td class=\"bad missing\">missing%s</td>", line->ended ? "" : ": a field or the line's end");
    if (more != 0) {
        put("<td class=\"more\">and ");
        put_counted(more, "byte more", "bytes more");
        put("</td>");
    }
    put("</tr></tbody></table>\n");
}

void put_refused(const struct desk *desk)
{
    struct line line = line_at(desk, desk->at);

    put("<p class=\"answer\"><strong>Refused: no replay.</strong>");
    put_fault(desk, &line);
    put("</p>\n");
    if (desk->answer >= HAZELCROOK_BAD_LINE && desk->text_len != 0) {
        put_line(desk, &line);
        put("<p>This is the first line at fault; those behind it have not been judged.</p>\n");
    }
    put("<p>Without a replay nothing is told of the chips. Correct the file against its source, or ask for it again.</p>\n");
}
