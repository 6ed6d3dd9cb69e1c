/*
 * The verdict in the words of README's tables, with what follows from it.
 */
#include "html.h"
#include "played.h"
#include "sections.h"

#include <stdio.h>

/* The answer as the listing's last line has it, blanks for tabs. */
static void put_last_line(const struct desk *desk)
{
    if (desk->answer == HAZELCROOK_SETTLED)
        printf("settled %u", (unsigned)desk->count);
    else if (shows(desk))
        printf("stop %u %u", (unsigned)desk->answer, (unsigned)desk->at);
    else
        printf("refused %u %u %u", (unsigned)desk->answer, (unsigned)desk->at, (unsigned)desk->field);
}

/* Settled or stopped. */

enum { LINES_NAMED = 20 };

/* The lines of the replies that disagree, the first ones. */
static void put_lines(const struct desk *desk)
{
    struct reader reader = records_of(desk);
    struct record record;
    unsigned named = 0;

    put(desk->count == 1 ? "line " : "lines ");
    while (named < LINES_NAMED && next_record(&reader, &record)) {
        if (reply_at(desk, record.line)[3] == 2) {
            printf("%s<a href=\"#line-%zu\">%zu</a>", named == 0 ? "" : ", ", record.line, record.line);
            named++;
        }
    }
    if (desk->count > named) {
        put(" and ");
        put_count(desk->count - named);
        put(" more");
    }
}

/* How much was replayed. */
static void put_extent(const struct desk *desk)
{
    const struct played *played = &desk->played;

    put("<p id=\"extent\">The trace has ");
    put_counted(played->records, "record", "records");
    if (played->records != 0)
        printf(", stamps %u to %u", (unsigned)played->first, (unsigned)played->last);
    if (desk->answer != HAZELCROOK_SETTLED) {
        put("; replayed: ");
        put_count(played->played);
        put(", those before that stamp");
    }
    put(".</p>\n");
}

/* What came of the recorded replies. */
static void put_compared(const struct desk *desk)
{
    const char *where = desk->answer == HAZELCROOK_SETTLED ? "" : " before that stamp";
    size_t compared = desk->played.compared;
    int one = desk->count == 1;

    put("<p id=\"compared\">");
    if (compared == 0) {
        printf("No recorded reply%s could be compared.</p>\n", where);
        return;
    }
    put_counted(compared, "recorded reply", "recorded replies");
    printf("%s %s compared, on the sure bits: ", where, compared == 1 ? "was" : "were");
    if (desk->count == 0) {
        put("none disagrees.</p>\n");
        return;
    }
    put("<strong>");
    put_counted(desk->count, "disagrees", "disagree");
    put("</strong> (");
    put_lines(desk);
    printf("). %s still settled, but %s not what the chip answers by the rules. What is shown of the chips follows the rules, not "
           "%s.</p>\n",
           desk->answer == HAZELCROOK_SETTLED ? "The trace is" : "What is shown is",
           one ? "this recording is" : "these recordings are", one ? "it" : "them");
}

/* A cycle that nothing has ended or cut. What it has done by then nobody recorded. */
static void put_running(const struct desk *desk, const struct chip *chip)
{
    size_t line = desk->played.running[chip->number];

    if (line == 0)
        return;
    printf("<p class=\"running\"><strong>A write cycle of the %s, started on line %zu, still runs</strong> ", chip->said, line);
    if (desk->answer == HAZELCROOK_SETTLED)
        put("where the trace ends");
    else
        printf("before stamp %u", (unsigned)desk->at);
    printf(": what it alters%s is not known, not shown, and not marked as doubtful.</p>\n",
           chip->number == 0 ? ", bytes or status," : "");
}

static void put_common(const struct desk *desk)
{
    put_extent(desk);
    put_compared(desk);
    put_running(desk, &desk->flash);
    put_running(desk, &desk->eeprom);
}

static void put_settled(const struct desk *desk)
{
    put("<p class=\"answer\"><strong>Settled.</strong> Every order of the records that the stamps allow leads to the same "
        "replies and the same contents. What is shown is what the trace proves, with the dumps that were given; a bit that it "
        "does not fix is marked as doubtful");
    put(runs(desk) ? ", but for what a write cycle that still runs alters.</p>\n" : ".</p>\n");
    put_common(desk);
}

/* Stopped. */

static const char *reason(uint32_t answer)
{
    switch (answer) {
    case HAZELCROOK_CROWDED:
        return "More than 8 records of the flash, 8 of the EEPROM or 2 of the lines share this stamp: too many to be held "
               "against each other.";
    case HAZELCROOK_ORDERS_DIFFER:
        return "Records share this stamp, their order matters, and nobody recorded it.";
    default:
        return "The supply fell while the flash wrote its status: which sectors are locked is unknown from here on.";
    }
}

static const char *what_then(uint32_t answer)
{
    switch (answer) {
    case HAZELCROOK_CROWDED:
        return "Use what stands before it; ask for a recording with finer stamps.";
    case HAZELCROOK_ORDERS_DIFFER:
        return "Don't choose an order. If another source shows which came first, a trace with parted stamps is a new trace, "
               "and that source belongs to the claim.";
    default:
        return "Use what stands before it; only a trace that begins after status and contents were read anew can go on from "
               "there.";
    }
}

static const char channels[] = "FEL";

enum { CHANNELS = sizeof channels - 1, ROWS_SHOWN = 100 };

static size_t tied_of(const struct desk *desk, char channel)
{
    struct reader reader = records_of(desk);
    struct record record;
    size_t count = 0;

    while (next_tied(&reader, desk->at, channel, &record))
        count++;
    return count;
}

static void put_head(const char *name, size_t count)
{
    printf("<th>%s: ", name);
    put_counted(count, "record", "records");
    put("</th>");
}

/* The next record of a channel, in its column; behind the last one the column is empty. */
static void put_tied(const struct desk *desk, struct reader *reader, char channel)
{
    struct record record;

    if (!next_tied(reader, desk->at, channel, &record)) {
        put("<td></td>");
        return;
    }
    printf("<td class=\"rec\">%zu: ", record.line);
    put_event(record.event);
    put("</td>");
}

/* How many records of a column are not shown. */
static void put_rest(size_t count)
{
    put("<td>");
    if (count > ROWS_SHOWN) {
        put("and ");
        put_count(count - ROWS_SHOWN);
        put(" more");
    }
    put("</td>");
}

/* Rows of the stamp's records, a column for each channel. */
static void put_rows(const struct desk *desk, const size_t *counts)
{
    struct reader readers[CHANNELS];
    size_t row, most = 0;
    int which;

    for (which = 0; which < CHANNELS; which++) {
        readers[which] = records_of(desk);
        most = counts[which] > most ? counts[which] : most;
    }
    for (row = 0; row < most && row < ROWS_SHOWN; row++) {
        put("<tr>");
        for (which = 0; which < CHANNELS; which++)
            put_tied(desk, &readers[which], channels[which]);
        put("</tr>\n");
    }
    if (most <= ROWS_SHOWN)
        return;
    put("<tr class=\"rest\">");
    for (which = 0; which < CHANNELS; which++)
        put_rest(counts[which]);
    put("</tr>\n");
}

static void put_stamp(const struct desk *desk)
{
    size_t counts[CHANNELS];
    int which;

    for (which = 0; which < CHANNELS; which++)
        counts[which] = tied_of(desk, channels[which]);
    printf("<p>The records at stamp %u, line number and event, side by side by channel. <strong>No order among the channels is "
           "recorded</strong>, and the order of the lines in the file says nothing about it: only within a column did they "
           "come as they stand, from top to bottom.</p>\n<table id=\"stamp\"><thead><tr>",
           (unsigned)desk->at);
    put_head("F (flash)", counts[0]);
    put_head("E (EEPROM)", counts[1]);
    put_head("L (supply and lock)", counts[2]);
    put("</tr></thead>\n<tbody>\n");
    put_rows(desk, counts);
    put("</tbody></table>\n");
}

static void put_stopped(const struct desk *desk)
{
    printf("<p class=\"answer\"><strong>Stopped at stamp %u.</strong> %s</p>\n", (unsigned)desk->at, reason(desk->answer));
    printf("<p>%s</p>\n", what_then(desk->answer));
    put("<p>All before that stamp is settled and shown; from it on nothing is claimed, and nothing shown but the records of that "
        "stamp. Where a replay stops follows from the trace alone: another dump of 32,768 bytes, or none, may change what is "
        "shown, never that.</p>\n");
    put_stamp(desk);
    put_common(desk);
}

void put_verdict(const struct desk *desk)
{
    int settled = desk->answer == HAZELCROOK_SETTLED;

    printf("<section id=\"verdict\" class=\"%s\">\n<h2>1. Verdict</h2>\n",
           settled ? "settled" : shows(desk) ? "stopped" : "refused");
    if (settled)
        put_settled(desk);
    else if (shows(desk))
        put_stopped(desk);
    else
        put_refused(desk);
    put("<p>The listing ends with <code id=\"last\">");
    put_last_line(desk);
    put("</code>.</p>\n</section>\n");
}
