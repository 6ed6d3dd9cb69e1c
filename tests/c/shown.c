/*
 * What a report of the files in the present folder must show, worked out from the C call alone, one fact a line. The page in
 * the browser is read back into the same lines (tests/report/look.js), and the two are compared.
 *
 *   shown
 *
 * It reads trace.tsv, flash.bin and eeprom.bin, each there or not. Exit status: 0 whatever the answer; 2 a file is at fault.
 */
#include "hazelcrook.h"

#include <errno.h>
#include <stdio.h>
#include <stdlib.h>
#include <string.h>

/* The files and the call. */

struct chip {
    const char *name, *dump;
    size_t pages, page_length, first_entry;
    int digits;         /* of an address */
    unsigned long base; /* the chip's own address of the first byte that is kept */
    long size;          /* of the dump; -1 where there is none */
    size_t len;
    uint8_t image[HAZELCROOK_IMAGE + 1], mask[HAZELCROOK_IMAGE];
};

static struct chip chips[2] = {
    {.name = "flash", .dump = "flash.bin", .pages = HAZELCROOK_FLASH_PAGES, .page_length = 256, .digits = 5},
    {.name = "eeprom", .dump = "eeprom.bin", .pages = HAZELCROOK_EEPROM_PAGES, .page_length = 64,
     .first_entry = HAZELCROOK_FLASH_PAGES, .digits = 4},
};
static uint8_t text[HAZELCROOK_TEXT + 1], times[HAZELCROOK_TIMES], replies[HAZELCROOK_REPLIES], result[HAZELCROOK_RESULT];
static long text_size;
static size_t text_len;
static uint32_t answer;

static uint32_t number(const uint8_t *four)
{
    return four[0] | (uint32_t)four[1] << 8 | (uint32_t)four[2] << 16 | (uint32_t)four[3] << 24;
}

static void at_fault(const char *name)
{
    perror(name);
    exit(2);
}

/* A count below a million, its thousands parted. */
static void put_count(long count)
{
    if (count < 1000)
        printf(" %ld", count);
    else
        printf(" %ld,%03ld", count / 1000, count % 1000);
}

/* Up to `most` bytes of a file, and a line with its whole size, which is returned; -1 where there is no file. */
static long loaded(const char *name, uint8_t *bytes, size_t most)
{
    FILE *file = fopen(name, "rb");
    long size;

    printf("size %s", name);
    if (file == NULL && errno == ENOENT) {
        printf(" not given\n");
        return -1;
    }
    if (file == NULL || fseek(file, 0, SEEK_END) != 0 || (size = ftell(file)) < 0)
        at_fault(name);
    put_count(size);
    printf("\n");
    rewind(file);
    if (fread(bytes, 1, most, file) != ((size_t)size < most ? (size_t)size : most))
        at_fault(name);
    fclose(file);
    return size;
}

static void load_chip(struct chip *chip)
{
    chip->size = loaded(chip->dump, chip->image, sizeof chip->image);
    memset(chip->mask, chip->size < 0 ? 0xff : 0x00, sizeof chip->mask);
    /* One byte more than is right is wrong enough. */
    chip->len = chip->size < 0 ? HAZELCROOK_IMAGE : (size_t)chip->size;
    if (chip->len > sizeof chip->image)
        chip->len = sizeof chip->image;
}

static void play(void)
{
    text_size = loaded("trace.tsv", text, sizeof text);
    text_len = text_size < 0 ? 0 : (size_t)text_size;
    if (text_len > sizeof text)
        text_len = sizeof text;
    load_chip(&chips[0]);
    load_chip(&chips[1]);
    answer = hazelcrook_replay(text, text_len, chips[0].image, chips[0].len, chips[0].mask, sizeof chips[0].mask,
                               chips[1].image, chips[1].len, chips[1].mask, sizeof chips[1].mask, times, sizeof times,
                               replies, sizeof replies, result, sizeof result);
}

static int refused(void)
{
    return answer >= 1 && answer <= 5;
}

/* What the files were taken as. */

static const char *dump_is(const struct chip *chip, const char *held)
{
    if (chip->size >= 0 && chip->size != HAZELCROOK_IMAGE)
        return "refused: a dump has 32,768 bytes";
    if (chip->size < 0)
        return refused() ? "-" : "all in doubt before the trace";
    return refused() ? "not used: no replay" : held;
}

static void show_files(void)
{
    printf("is trace.tsv %s\n", text_size < 0 ? "no text" : "the trace");
    printf("is flash.bin %s\n", dump_is(&chips[0], "what the sector held before, taken as sure"));
    printf("is eeprom.bin %s\n", dump_is(&chips[1], "what the EEPROM held before, taken as sure"));
}

/* The trace, line by line. */

struct line {
    size_t from, end; /* its bytes, without the line end */
};

/* Moves to the next line; 0 where there is none. A line has begun wherever the text goes on. */
static int next_line(struct line *line, int first)
{
    line->from = first ? 0 : line->end + 1;
    if (line->from >= text_len)
        return 0;
    for (line->end = line->from; line->end < text_len && text[line->end] != '\n';)
        line->end++;
    return 1;
}

/* Where field `which`, from 1, begins; the line's end where there is no such field. */
static size_t field(const struct line *line, int which)
{
    size_t at = line->from;

    for (; which > 1 && at < line->end; at++)
        which -= text[at] == '\t';
    return at;
}

static unsigned long stamp_of(const struct line *line)
{
    return strtoul((const char *)text + line->from, NULL, 10);
}

static char channel_of(const struct line *line)
{
    return (char)text[field(line, 2)];
}

static int has_event(const struct line *line, const char *word)
{
    size_t at = field(line, 3), end = field(line, 4), len = strlen(word);

    return at + len <= line->end && memcmp(text + at, word, len) == 0 && (at + len == line->end || at + len + 1 == end);
}

/* The event with its fields, blanks between. */
static void put_event(const struct line *line)
{
    size_t at;

    for (at = field(line, 3); at < line->end; at++)
        putchar(text[at] == '\t' ? ' ' : text[at]);
}

/* The verdict and what explains it. */

static void show_answer(void)
{
    unsigned second = number(result + 4), count = number(result + 8), bad = number(result + 12);

    printf("verdict %s\n", answer == 0 ? "settled" : refused() ? "refused" : "stopped");
    if (answer == 0)
        printf("last settled %u\n", count);
    else if (refused())
        printf("last refused %u %u %u\n", (unsigned)answer, second, bad);
    else
        printf("last stop %u %u\n", (unsigned)answer, second);
}

/* How many records there are, from which stamp to which, and of a stop how many were played. */
static void show_extent(void)
{
    unsigned long records = 0, first = 0, last = 0;
    long played = 0;
    struct line line;

    for (next_line(&line, 1); next_line(&line, 0);) {
        last = stamp_of(&line);
        first = records++ == 0 ? last : first;
        played += replies[4 * (records - 1)] != HAZELCROOK_NOT_PLAYED;
    }
    printf("extent");
    put_count((long)records);
    if (records != 0)
        printf(" %lu %lu", first, last);
    if (answer != 0)
        put_count(played);
    printf("\n");
}

/* How many replies were compared, how many of these disagree, the first that do, and how many more. */
static void show_compared(void)
{
    unsigned line, compared = 0, count = 0;

    for (line = 2; 4 * (line - 1) <= sizeof replies; line++) {
        compared += replies[4 * (line - 2) + 3] != 0;
        count += replies[4 * (line - 2) + 3] == 2;
    }
    printf("compared");
    put_count(compared);
    put_count(count);
    printf("\ndisagree");
    for (line = 2, count = 0; 4 * (line - 1) <= sizeof replies; line++)
        if (replies[4 * (line - 2) + 3] == 2 && ++count <= 20)
            printf(" %u", line);
    printf(", more");
    put_count(count > 20 ? count - 20 : 0);
    printf("\n");
}

/* Whether a cycle runs at the end of what was played: the call is asked what an `end` behind it would be answered. What is
 * kept of the chips does not matter for that. -1 where the text or its stamps have no room for one more record. */
static int still_runs(char channel, size_t played_len, unsigned records, unsigned long last)
{
    static uint8_t asked[HAZELCROOK_TEXT], images[2][HAZELCROOK_IMAGE], masks[2][HAZELCROOK_IMAGE];
    static uint8_t own_times[HAZELCROOK_TIMES], own_replies[HAZELCROOK_REPLIES], own_result[HAZELCROOK_RESULT];
    char end[32];
    size_t len = (size_t)snprintf(end, sizeof end, "%lu\t%c\tend\n", last + 1, channel);

    if (played_len + len > sizeof asked || last >= 4294967295)
        return -1;
    memcpy(asked, text, played_len);
    memcpy(asked + played_len, end, len);
    memset(images, 0, sizeof images);
    memset(masks, 0xff, sizeof masks);
    if (hazelcrook_replay(asked, played_len + len, images[0], sizeof images[0], masks[0], sizeof masks[0], images[1],
                          sizeof images[1], masks[1], sizeof masks[1], own_times, sizeof own_times, own_replies,
                          sizeof own_replies, own_result, sizeof own_result) != HAZELCROOK_SETTLED)
        printf("what was played does not settle by itself\n");
    return own_replies[4 * records] == HAZELCROOK_ENDS;
}

/* A chip's cycle that runs at the end of what was played, with the line that started it: the last that did on its channel.
 * Where the call cannot be asked, nothing has ended or cut that cycle since. */
static void show_running(char channel, const char *chip)
{
    unsigned records = 0, started = 0, over = 0;
    unsigned long last = 0;
    struct line line;
    size_t played_len;
    int runs;

    next_line(&line, 1);
    for (played_len = line.end + 1; next_line(&line, 0) && replies[4 * records] != HAZELCROOK_NOT_PLAYED; records++) {
        if (channel_of(&line) == channel && replies[4 * records] == HAZELCROOK_STARTS)
            started = records + 2;
        if ((channel_of(&line) == channel && replies[4 * records] == HAZELCROOK_ENDS) || has_event(&line, "off"))
            over = records + 2;
        last = stamp_of(&line);
        played_len = line.end + 1;
    }
    runs = still_runs(channel, played_len, records, last);
    if (runs == 1 || (runs == -1 && started > over))
        printf("running %s %u\n", chip, started);
}

/* What line 1 says: status with the sectors that it locks and WPEN, the sector with its addresses, the wired address in bits.
 * It was judged good where nothing was refused before it and it was not refused itself. */
static void show_board(void)
{
    static const char *const locked[] = {"none", "4", "34", "all"};
    struct line line;
    unsigned long status, wired;

    if (answer == 1 || answer == 2 || (answer == 3 && number(result + 4) == 1)) {
        printf("board not told\n");
        return;
    }
    next_line(&line, 1);
    status = strtoul((const char *)text + field(&line, 2), NULL, 16);
    wired = text[field(&line, 4)] - '0';
    chips[0].base = (unsigned long)(text[field(&line, 3)] - '1') * HAZELCROOK_IMAGE;
    printf("board %02lx, locked %s, %lu, ", status, locked[status >> 2 & 3], status >> 7);
    printf("sector %c from %05lx to %05lx, ", text[field(&line, 3)], chips[0].base, chips[0].base + HAZELCROOK_IMAGE - 1);
    printf("wired %lu %lu%lu%lu\n", wired, wired >> 2, wired >> 1 & 1, wired & 1);
}

static const char channels[] = "FEL";

enum { CHANNELS = 3, ROWS_SHOWN = 100 };

struct tied {
    struct line line;
    size_t number;
};

/* A row of the stop's stamp: each channel's next record. */
static void show_tied(struct tied tied[CHANNELS][HAZELCROOK_TEXT], const size_t *count, size_t row)
{
    size_t channel;

    for (channel = 0; channel < CHANNELS; channel++) {
        printf("stop %zu %c ", row + 1, channels[channel]);
        if (row < count[channel]) {
            printf("%zu: ", tied[channel][row].number);
            put_event(&tied[channel][row].line);
        }
        printf("\n");
    }
}

/* The records at the stop's stamp: how many each channel has, the first ones row by row, and how many more. */
static void show_stamp(void)
{
    static struct tied tied[CHANNELS][HAZELCROOK_TEXT];
    size_t count[CHANNELS] = {0}, most = 0, row, channel, n = 1;
    struct line line;

    for (next_line(&line, 1); next_line(&line, 0);) {
        n++;
        if (stamp_of(&line) != number(result + 4))
            continue;
        channel = (size_t)(strchr(channels, channel_of(&line)) - channels);
        tied[channel][count[channel]++] = (struct tied){line, n};
        most = count[channel] > most ? count[channel] : most;
    }
    for (channel = 0; channel < CHANNELS; channel++) {
        printf("stop %c", channels[channel]);
        put_count((long)count[channel]);
        printf("\n");
    }
    for (row = 0; row < most && row < ROWS_SHOWN; row++)
        show_tied(tied, count, row);
    for (channel = 0; channel < CHANNELS && most > ROWS_SHOWN; channel++) {
        printf("rest %c", channels[channel]);
        if (count[channel] > ROWS_SHOWN)
            put_count((long)(count[channel] - ROWS_SHOWN));
        printf("\n");
    }
}

/* A byte of a refused line. What is no visible character is marked as its number, so that no text looks like it. */
static void put_byte(uint8_t byte)
{
    if (byte > ' ' && byte <= '~')
        putchar(byte);
    else
        printf("[\\x%02x]", byte);
}

/* Before a field. Of a bad one that is empty it is told that it is. */
static void put_head(const struct line *line, unsigned which, unsigned bad)
{
    size_t at = field(line, (int)which);

    printf("%sfield %u%s", which == 1 ? "" : "\n", which, which == bad ? " bad" : "");
    printf(which == bad && (at == line->end || text[at] == '\t') ? " none (empty)" : ": ");
}

enum { BYTES_SHOWN = 240, FIELDS_SHOWN = 8 };

/* The refused line, field by field, as much as is shown of it; the bad one marked, also where it is missing. */
static void show_line(const struct line *line)
{
    unsigned bad = answer == 4 ? 1 : number(result + 12), which = 1;
    size_t at;

    put_head(line, 1, bad);
    for (at = line->from; at < line->end && at - line->from < BYTES_SHOWN; at++) {
        if (text[at] == '\t' && which == FIELDS_SHOWN)
            break;
        if (text[at] == '\t')
            put_head(line, ++which, bad);
        else
            put_byte(text[at]);
    }
    printf("\n");
    if (at < line->end) {
        printf("more");
        put_count((long)(line->end - at));
        printf("\n");
    } else if (bad > which) {
        printf("field %u missing%s\n", bad, line->end < text_len ? "" : ": a field or the line's end");
    }
}

/* Why the record on a line cannot be: whether its bus is idle, open (selected, started) or cut by what came before; and the
 * last of that, but for `end`, which tells nothing of the bus. */
static void put_reason(const struct line *impossible, unsigned which)
{
    const char *state = "idle";
    struct line line, last;
    unsigned n, found = 0;

    next_line(&line, 1);
    for (n = 2; n < which && next_line(&line, 0); n++) {
        if (channel_of(&line) != channel_of(impossible) || has_event(&line, "end"))
            continue;
        if (has_event(&line, "sel") || has_event(&line, "sta"))
            state = "open";
        else if (has_event(&line, "des") || has_event(&line, "sto"))
            state = "idle";
        else if (has_event(&line, "cut"))
            state = "cut";
        last = line;
        found = n;
    }
    printf(" %s", state);
    if (found == 0)
        return;
    printf(" [");
    put_event(&last);
    printf("] %u", found);
}

/* The numbers in the verdict's words on a refusal, and why a record cannot be. */
static void show_told(const struct line *line, const struct line *before)
{
    unsigned which = number(result + 4);
    size_t chip;

    printf("told");
    for (chip = 0; chip < 2 && answer == 1; chip++) {
        if (chips[chip].size >= 0 && chips[chip].size != HAZELCROOK_IMAGE) {
            put_count(chips[chip].size);
            put_count(HAZELCROOK_IMAGE);
        }
    }
    if (answer == 2) {
        put_count(text_size);
        put_count(HAZELCROOK_TEXT);
    }
    if (answer >= 3 && text_len != 0)
        printf(" %u", which);
    if (answer == 3 && text_len != 0)
        printf(" %u", (unsigned)number(result + 12));
    if (answer == 4)
        printf(" %lu %lu", stamp_of(line), stamp_of(before));
    if (answer == 5)
        put_reason(line, which);
    printf("\n");
}

static void show_refused(void)
{
    unsigned which = number(result + 4);
    struct line line = {0, 0}, before = line;
    int there = next_line(&line, 1);

    for (; there && which > 1; which--) {
        before = line;
        there = next_line(&line, 0);
    }
    show_told(&line, &before);
    if (answer >= 3 && there)
        show_line(&line);
}

/* The chips. */

static unsigned ones(uint8_t byte)
{
    unsigned count = 0;

    for (; byte != 0; byte &= (uint8_t)(byte - 1))
        count++;
    return count;
}

static unsigned long doubt(const struct chip *chip, size_t page)
{
    unsigned long count = 0;
    size_t at;

    for (at = page * chip->page_length; at < (page + 1) * chip->page_length; at++)
        count += ones(chip->mask[at]);
    return count;
}

static const uint8_t *entry(const struct chip *chip, size_t page)
{
    return times + HAZELCROOK_TIME * (chip->first_entry + page);
}

static int written(const struct chip *chip, size_t page)
{
    return entry(chip, page)[0] == HAZELCROOK_WRITTEN;
}

/* 0 no bit in doubt, 1 some, 2 all. */
static int degree(const struct chip *chip, size_t page)
{
    unsigned long count = doubt(chip, page);

    return count == 0 ? 0 : count < 8 * chip->page_length ? 1 : 2;
}

static void show_squares(const struct chip *chip)
{
    static const char *const degrees[] = {"sure", "some", "all"};
    size_t page, kinds[2][3] = {{0}}, squares = refused() ? 0 : chip->pages;

    for (page = 0; page < squares; page++) {
        int wrote = written(chip, page);

        kinds[wrote][degree(chip, page)]++;
        printf("square %s %s %s page %zu: ", chip->name, wrote ? "written" : "never", degrees[degree(chip, page)], page);
        if (wrote)
            printf("last written at %u", (unsigned)number(entry(chip, page) + 1));
        else
            printf("never written");
        printf("; %lu of %zu bits in doubt\n", doubt(chip, page), 8 * chip->page_length);
    }
    printf("squares %s %zu: never %zu %zu %zu, written %zu %zu %zu (sure, some, all)\n", chip->name, squares, kinds[0][0],
           kinds[0][1], kinds[0][2], kinds[1][0], kinds[1][1], kinds[1][2]);
    if (!refused()) /* the same in words: written, never; some, all, sure */
        printf("summed %s %zu %zu %zu %zu %zu\n", chip->name, kinds[1][0] + kinds[1][1] + kinds[1][2],
               kinds[0][0] + kinds[0][1] + kinds[0][2], kinds[0][1] + kinds[1][1], kinds[0][2] + kinds[1][2],
               kinds[0][0] + kinds[1][0]);
}

/* What was last on a page at its stamp: the `end` of a cycle of its chip, or else the `off` that cut one. */
static const char *writer(const struct chip *chip, unsigned long stamp)
{
    char channel = chip == &chips[0] ? 'F' : 'E';
    unsigned record = 0;
    struct line line;

    for (next_line(&line, 1); next_line(&line, 0); record++)
        if (stamp_of(&line) == stamp && channel_of(&line) == channel && replies[4 * record] == HAZELCROOK_ENDS)
            return "end";
    return "off";
}

static void show_written(const struct chip *chip)
{
    size_t page;

    for (page = 0; page < chip->pages && !refused(); page++)
        if (written(chip, page))
            printf("written %s %zu %0*lx %u %s %lu\n", chip->name, page, chip->digits, chip->base + page * chip->page_length,
                   (unsigned)number(entry(chip, page) + 1), writer(chip, number(entry(chip, page) + 1)), doubt(chip, page));
}

/* The bytes. */

enum { ROW = 16 };

static unsigned long marked; /* doubtful bits that are shown */

static void show_row(const struct chip *chip, size_t at)
{
    const uint8_t *value = chip->image + at, *mask = chip->mask + at;
    int column;

    printf("row %0*lx", chip->digits, chip->base + at);
    for (column = 0; column < ROW; column++) {
        printf(" %02x/%02x", value[column], mask[column]);
        marked += ones(mask[column]);
    }
    printf(" ");
    for (column = 0; column < ROW; column++) {
        if (mask[column] != 0)
            printf("\u00bf");
        else if (value[column] >= ' ' && value[column] <= '~')
            putchar(value[column]);
        else
            printf("\u00b7");
    }
    printf("|\n");
}

/* The numbers of a page's heading: its own, the stamp where it was written, and the bits in doubt where there are any. */
static void show_heading(const struct chip *chip, size_t page)
{
    printf("page %s-%zu: %zu", chip->name, page, page);
    if (written(chip, page))
        printf(" %u", (unsigned)number(entry(chip, page) + 1));
    if (degree(chip, page) != 0)
        printf(" %lu %zu", doubt(chip, page), 8 * chip->page_length);
    printf("\n");
}

static void show_page(const struct chip *chip, size_t page)
{
    size_t from = page * chip->page_length, to = from + chip->page_length, at, same = 0;

    show_heading(chip, page);
    for (at = from; at < to; at += ROW) {
        if (at > from && memcmp(chip->image + at, chip->image + at - ROW, ROW) == 0 &&
            memcmp(chip->mask + at, chip->mask + at - ROW, ROW) == 0) {
            same++;
            continue;
        }
        if (same != 0)
            printf("same %zu to %0*lx\n", same, chip->digits, chip->base + at - ROW);
        same = 0;
        show_row(chip, at);
    }
    if (same != 0)
        printf("same %zu to %0*lx\n", same, chip->digits, chip->base + to - ROW);
}

static int same_pages(const struct chip *chip, size_t one, size_t other)
{
    size_t len = chip->page_length;

    return memcmp(entry(chip, one), entry(chip, other), HAZELCROOK_TIME) == 0 &&
           memcmp(chip->image + one * len, chip->image + other * len, len) == 0 &&
           memcmp(chip->mask + one * len, chip->mask + other * len, len) == 0;
}

/* The pages behind one that are the same, with the same time: their last, or that page itself. */
static size_t show_alike(const struct chip *chip, size_t page)
{
    size_t last = page;

    while (last + 1 < chip->pages && same_pages(chip, page, last + 1))
        last++;
    if (last == page)
        return page;
    printf("alike %s %zu to %zu ", chip->name, page + 1, last);
    if (written(chip, page))
        printf("at %u", (unsigned)number(entry(chip, page) + 1));
    else
        printf("never");
    printf(" as %zu\n", page);
    return last;
}

static void show_bytes(const struct chip *chip)
{
    size_t page;

    for (page = 0; page < chip->pages && !refused(); page++) {
        if (!written(chip, page) && degree(chip, page) != 1)
            continue;
        show_page(chip, page);
        page = show_alike(chip, page);
    }
}

/* The records. */

static void put_reply(const uint8_t *reply)
{
    static const char *const words[] = {"?", "-", "", "ack", "no", "starts", "ends", "idle"};

    if (reply[0] == HAZELCROOK_BYTE)
        printf(" %02x/%02x", reply[1], reply[2]);
    else
        printf(" %s", reply[0] < 8 ? words[reply[0]] : "?");
    printf(" %c\n", ".=!"[reply[3]]);
}

/* Each record that was played, a group for each stamp, tied where it has more than one. */
static void show_records(void)
{
    unsigned long rows = 0, bad = 0, groups = 0, tied = 0, in_group = 0, stamp = 0;
    struct line line;
    const uint8_t *reply = replies;

    for (next_line(&line, 1); !refused() && next_line(&line, 0) && reply[0] != HAZELCROOK_NOT_PLAYED; reply += 4) {
        if (rows == 0 || stamp_of(&line) != stamp) {
            groups++;
            in_group = 0;
        }
        tied += ++in_group == 2;
        stamp = stamp_of(&line);
        bad += reply[3] == 2;
        printf("record %lu %lu %lu %c ", groups, ++rows + 1, stamp, channel_of(&line));
        put_event(&line);
        put_reply(reply);
    }
    printf("records %lu, bad %lu, stamps %lu, tied %lu\n", rows, bad, groups, tied);
}

int main(void)
{
    play();
    show_files();
    show_answer();
    if (refused()) {
        show_refused();
    } else {
        show_extent();
        show_compared();
        show_running('F', "flash");
        show_running('E', "eeprom");
    }
    if (answer > 5)
        show_stamp();
    show_board();
    show_squares(&chips[0]);
    show_squares(&chips[1]);
    show_written(&chips[0]);
    show_written(&chips[1]);
    show_bytes(&chips[0]);
    show_bytes(&chips[1]);
    printf("marked %lu\n", marked);
    show_records();
    return ferror(stdout) || fflush(stdout) != 0;
}
