/*
 * The records, as the listing has them.
 */
#include "html.h"
#include "sections.h"

#include <stdio.h>
#include <string.h>

static const char *reply_word(uint8_t kind)
{
    switch (kind) {
    case HAZELCROOK_ACK: return "ack";
    case HAZELCROOK_NO_ACK: return "no";
    case HAZELCROOK_STARTS: return "starts";
    case HAZELCROOK_ENDS: return "ends";
    case HAZELCROOK_NO_CYCLE: return "idle";
    default: return "-";
    }
}

static void put_record(const struct record *record, const uint8_t *reply)
{
    int bad = reply[3] == 2;

    if (bad)
        printf("<tr class=\"bad\" id=\"line-%zu\">", record->line);
    else
        put("<tr>");
    printf("<td class=\"br\"></td><td class=\"n\">%zu</td><td class=\"t\">", record->line);
    put_bytes(record->stamp);
    printf("</td><td class=\"c\">%c</td><td class=\"e\">", record->channel);
    put_event(record->event);
    put("</td><td class=\"r\">");
    if (reply[0] == HAZELCROOK_BYTE)
        printf("%02x/%02x", reply[1], reply[2]);
    else
        put(reply_word(reply[0]));
    printf("</td><td class=\"m\">%c</td></tr>\n", bad ? '!' : reply[3] == 1 ? '=' : '.');
}

static int same_stamp(const struct record *one, const struct record *other)
{
    return one->stamp.len == other->stamp.len && memcmp(one->stamp.bytes, other->stamp.bytes, one->stamp.len) == 0;
}

/* The next record that was played. */
static int next_played(const struct desk *desk, struct reader *reader, struct record *record)
{
    return next_record(reader, record) && reply_at(desk, record->line)[0] != HAZELCROOK_NOT_PLAYED;
}

/* A body of the table for each stamp. */
static void put_listing(const struct desk *desk)
{
    struct reader reader = records_of(desk);
    struct record record, next;
    int more = next_played(desk, &reader, &record), open = 0;

    while (more) {
        int tied;

        more = next_played(desk, &reader, &next);
        tied = more && same_stamp(&record, &next);
        if (!open)
            put(tied ? "<tbody class=\"tied\">\n" : "<tbody>\n");
        put_record(&record, reply_at(desk, record.line));
        if (!tied)
            put("</tbody>\n");
        open = tied;
        if (more)
            record = next;
    }
}

void put_records(const struct desk *desk)
{
    put("<section id=\"records\">\n<h2>5. The records</h2>\n");
    if (!shows(desk)) {
        put("<p>Not shown: there was no replay.</p>\n</section>\n");
        return;
    }
    put("<p>For each record its line in the trace, its stamp, channel and event; what the chip must have answered; and whether "
        "the recording agrees: <code>=</code> it does, <strong>!</strong> it does not, <code>.</code> there is nothing to "
        "compare. A rule parts the stamps. A bracket joins records that share one: within a channel they came as they stand, "
        "among channels no order is recorded. Replies: <code>-</code> nothing is told (the chip is silent, its byte is not kept or its place not known, or it is a line's "
        "record), <code>a5/00</code> a byte as value/mask, a 1 in the "
        "mask being a doubtful bit, <code>ack</code> and <code>no</code> acknowledge and none, <code>starts</code> and "
        "<code>ends</code> of a write cycle, <code>idle</code> an <code>end</code> with no cycle. A recording is compared on the "
        "sure bits alone, and never makes a doubtful bit sure.</p>\n");
    put("<div class=\"columns\"><table id=\"listing\"><thead><tr><th></th><th>line</th><th>stamp</th><th></th><th>event</th><th>reply</th>"
        "<th>match</th></tr></thead>\n");
    put_listing(desk);
    put("</table></div>\n");
    if (desk->answer != HAZELCROOK_SETTLED)
        printf("<p>From stamp %u on nothing is claimed, and no record is listed.</p>\n", (unsigned)desk->at);
    put("</section>\n");
}
