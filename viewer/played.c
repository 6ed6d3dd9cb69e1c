#include "played.h"

/* A cycle runs from the record that starts it to the `end` that ends it, or to `off`. That none of these stands in another
 * order is what settled means: with `off` at one stamp they would differ. */
static void note_cycle(struct played *played, const struct record *record, uint8_t kind)
{
    int chip = record->channel == 'E';

    if (record->channel == 'L') {
        if (is_word(record->event, "off"))
            played->running[0] = played->running[1] = 0;
    } else if (kind == HAZELCROOK_STARTS) {
        played->running[chip] = record->line;
    } else if (kind == HAZELCROOK_ENDS) {
        played->running[chip] = 0;
    }
}

static void note_record(struct played *played, const struct record *record, const uint8_t *reply)
{
    uint32_t stamp = decimal_of(record->stamp);

    if (played->records++ == 0)
        played->first = stamp;
    played->last = stamp;
    if (reply[0] == HAZELCROOK_NOT_PLAYED)
        return;
    played->played++;
    played->compared += reply[3] != 0;
    note_cycle(played, record, reply[0]);
    if (record->channel == 'L' && is_word(record->event, "off"))
        played->offs[played->off_count++] = stamp;
}

void note_played(struct desk *desk)
{
    struct reader reader = records_of(desk);
    struct record record;

    while (next_record(&reader, &record))
        note_record(&desk->played, &record, reply_at(desk, record.line));
}

int runs(const struct desk *desk)
{
    return desk->played.running[0] != 0 || desk->played.running[1] != 0;
}

int cut_at(const struct desk *desk, uint32_t stamp)
{
    size_t at = 0;

    while (at < desk->played.off_count && desk->played.offs[at] < stamp)
        at++;
    return at < desk->played.off_count && desk->played.offs[at] == stamp;
}
