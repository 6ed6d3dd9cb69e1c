/*
 * What the chips hold: a map of their pages, a table of those that were written, and bytes.
 */
#include "html.h"
#include "played.h"
#include "sections.h"

#include <stdio.h>
#include <string.h>

static const char *doubt_class(const struct page *page)
{
    return page->doubtful == 0 ? "sure" : page->doubtful == bits_of(page) ? "all" : "some";
}

/* The mark in a square, for print without colour. */
static const char *doubt_mark(const struct page *page)
{
    return page->doubtful == 0 ? "" : page->doubtful == bits_of(page) ? "&#215;" : "?";
}

static void put_time(const struct page *page)
{
    if (page->written)
        printf("last written at %u", (unsigned)page->stamp);
    else
        put("never written");
}

/* The map. */

/* Pages in a row of the map: two rows of the EEPROM's make as many bytes as one of the flash's. */
static size_t columns_of(const struct chip *chip)
{
    return chip->pages == HAZELCROOK_FLASH_PAGES ? 16 : 32;
}

static void put_square(const struct page *page)
{
    printf("<td class=\"sq %s %s\" title=\"page %zu: ", page->written ? "written" : "never", doubt_class(page), page->number);
    put_time(page);
    printf("; %zu of %zu bits in doubt\">%s</td>", page->doubtful, bits_of(page), doubt_mark(page));
}

static void put_squares(const struct desk *desk, const struct chip *chip)
{
    size_t columns = columns_of(chip), number;

    printf("<table class=\"map\" id=\"%s-map\"><thead><tr><th>page</th>", chip->id);
    for (number = 0; number < columns; number++)
        printf("<th>%s%zu</th>", number == 0 ? "" : "+", number);
    put("</tr></thead>\n<tbody>\n");
    for (number = 0; number < chip->pages; number++) {
        struct page page = page_of(desk, chip, number);

        if (number % columns == 0)
            printf("<tr><th>%zu</th>", number);
        put_square(&page);
        if (number % columns == columns - 1)
            put("</tr>\n");
    }
    put("</tbody></table>\n");
}

struct sums {
    size_t written, some, all;
};

static struct sums sums_of(const struct desk *desk, const struct chip *chip)
{
    struct sums sums = {0, 0, 0};
    size_t number;

    for (number = 0; number < chip->pages; number++) {
        struct page page = page_of(desk, chip, number);
        int all = page.doubtful == bits_of(&page);

        sums.written += (size_t)page.written;
        sums.all += (size_t)all;
        sums.some += page.doubtful != 0 && !all;
    }
    return sums;
}

static void put_heading(const struct chip *chip, const struct page *first)
{
    printf("<h3>%s", chip->name);
    if (chip->number == 0)
        printf(", sector %zu", 1 + chip->first_address / HAZELCROOK_IMAGE);
    put(", addresses ");
    put_address(chip, chip->first_address);
    put(" to ");
    put_address(chip, chip->first_address + HAZELCROOK_IMAGE - 1);
    printf(": %zu pages of %zu bytes</h3>\n", chip->pages, first->len);
}

/* The pages that were written, in a table. */
static void put_written(const struct desk *desk, const struct chip *chip)
{
    size_t number;

    printf("<div class=\"columns\"><table class=\"list\" id=\"%s-written\"><thead><tr><th>page</th><th>from</th><th>last written at</th>"
           "<th>by</th><th>doubtful bits</th></tr></thead>\n<tbody>\n",
           chip->id);
    for (number = 0; number < chip->pages; number++) {
        struct page page = page_of(desk, chip, number);

        if (!page.written)
            continue;
        printf("<tr><td class=\"page\">%zu</td><td class=\"from\">", number);
        put_address(chip, page.address);
        printf("</td><td class=\"time\">%u</td><td class=\"by\">%s</td><td class=\"doubt\">%zu</td></tr>\n", (unsigned)page.stamp,
               cut_at(desk, page.stamp) ? "off" : "end", page.doubtful);
    }
    put("</tbody></table></div>\n");
}

static void put_chip(const struct desk *desk, const struct chip *chip)
{
    struct page first = page_of(desk, chip, 0);
    struct sums sums = sums_of(desk, chip);

    put_heading(chip, &first);
    printf("<p>%zu written, %zu never written; %zu with doubtful bits, %zu all in doubt, %zu without doubt.</p>\n", sums.written,
           chip->pages - sums.written, sums.some, sums.all, chip->pages - sums.some - sums.all);
    put_squares(desk, chip);
    if (sums.written != 0)
        put_written(desk, chip);
}

/* Up to where something holds: of a trace that settles in its own words, of one that stops before that stamp. */
static void put_until(const struct desk *desk, const char *settled, const char *stopped)
{
    if (desk->answer == HAZELCROOK_SETTLED)
        put(settled);
    else
        printf("%s%sbefore stamp %u", stopped, *stopped == '\0' ? "" : " ", (unsigned)desk->at);
}

/* A refused trace has neither map nor bytes. */
static int refused(const struct desk *desk)
{
    if (shows(desk))
        return 0;
    put("<p>Not shown: there was no replay.</p>\n</section>\n");
    return 1;
}

void put_map(const struct desk *desk)
{
    put("<section id=\"map\">\n<h2>3. The chips' pages</h2>\n");
    if (refused(desk))
        return;
    put("<p>The pages as ");
    put_until(desk, "the trace leaves them", "they stand");
    put(", one square each. A thick frame: written, which is to say that a write cycle on the page ended or was cut (in the tables by "
        "<code>end</code> or <code>off</code>), the last one at the stamp told. A thin frame: never written ");
    put_until(desk, "in this trace", "");
    put(", so the page holds what the dump had or, without a dump, is all in doubt. In the square <b>?</b>: some of its bits are in "
        "doubt; <b>&#215;</b>: all are; nothing: all are sure.");
    if (runs(desk))
        put(" A write cycle still runs (see 1): the pages stand here as they were before it.");
    put("</p>\n");
    put("<table class=\"map key\"><tbody><tr><td class=\"never sure\"></td><th>never written</th><td class=\"written sure\"></td>"
        "<th>written</th><td class=\"written some\">?</td><th>with doubtful bits</th><td class=\"written all\">&#215;</td>"
        "<th>all in doubt</th><td class=\"never all\">&#215;</td><th>never written, no dump</th></tr></tbody></table>\n");
    put_chip(desk, &desk->flash);
    put_chip(desk, &desk->eeprom);
    put("</section>\n");
}

/* The bytes. */

enum { ROW = 16 };

static void put_bit(unsigned value, unsigned mask, unsigned bit)
{
    putchar(mask >> bit & 1 ? '?' : value >> bit & 1 ? '1' : '0');
}

static void put_byte(unsigned value, unsigned mask)
{
    unsigned bit;

    if (mask == 0) {
        printf("<td class=\"b\">%02x</td>", value);
    } else if (mask == 0xff) {
        put("<td class=\"b all\">?\?</td>");
    } else {
        put("<td class=\"b some\">");
        for (bit = 8; bit-- > 0;) {
            put_bit(value, mask, bit);
            if (bit == 4)
                put("<br/>");
        }
        put("</td>");
    }
}

/* The row as text, by signs that no sure byte has for what cannot be shown. */
static void put_text(const uint8_t *values, const uint8_t *masks)
{
    int column;

    put("<td class=\"text\">");
    for (column = 0; column < ROW; column++) {
        struct span one = {values + column, 1};

        if (masks[column] != 0)
            put("&#191;");
        else if (values[column] == ' ')
            put(" ");
        else if (values[column] < ' ' || values[column] > '~')
            put("&#183;");
        else
            put_bytes(one);
    }
    put("</td>");
}

static void put_row(const struct chip *chip, size_t place)
{
    int column;

    put("<tr><th>");
    put_address(chip, chip->first_address + place);
    put("</th>");
    for (column = 0; column < ROW; column++)
        put_byte(chip->values[place + (size_t)column], chip->masks[place + (size_t)column]);
    put_text(chip->values + place, chip->masks + place);
    put("</tr>\n");
}

static int alike(const struct chip *chip, size_t one, size_t other)
{
    return memcmp(chip->values + one, chip->values + other, ROW) == 0 &&
           memcmp(chip->masks + one, chip->masks + other, ROW) == 0;
}

/* How many rows from a place on, before the end, are like the one above them. */
static size_t rows_alike(const struct chip *chip, size_t place, size_t end)
{
    size_t rows = 0;

    while (place + ROW * rows < end && alike(chip, place + ROW * rows, place - ROW))
        rows++;
    return rows;
}

/* A page's rows; those like the one above are counted, not shown. */
static void put_rows(const struct chip *chip, const struct page *page)
{
    size_t end = page->place + page->len, at = page->place;

    while (at < end) {
        size_t rows;

        put_row(chip, at);
        at += ROW;
        rows = rows_alike(chip, at, end);
        at += ROW * rows;
        if (rows != 0) {
            printf("<tr class=\"same\"><td colspan=\"18\">%zu more %s the same, to ", rows, rows == 1 ? "row" : "rows");
            put_address(chip, chip->first_address + at - ROW);
            put("</td></tr>\n");
        }
    }
}

static void put_page(const struct chip *chip, const struct page *page)
{
    printf("<div class=\"whole\"><h4>%s, page %zu, ", chip->name, page->number);
    put_time(page);
    if (page->doubtful != 0)
        printf(", %zu of %zu bits in doubt", page->doubtful, bits_of(page));
    printf("</h4>\n<table class=\"bytes\" id=\"%s-%zu\"><tbody>\n", chip->id, page->number);
    put_rows(chip, page);
    put("</tbody></table></div>\n");
}

static int same_page(const struct chip *chip, const struct page *one, const struct page *other)
{
    return one->written == other->written && one->stamp == other->stamp &&
           memcmp(chip->values + one->place, chip->values + other->place, one->len) == 0 &&
           memcmp(chip->masks + one->place, chip->masks + other->place, one->len) == 0;
}

/* The pages next after one that are the same as it; the number of the first that is not. An erase leaves many such. */
static size_t put_same(const struct desk *desk, const struct chip *chip, const struct page *page)
{
    size_t next = page->number + 1;

    for (; next < chip->pages; next++) {
        struct page other = page_of(desk, chip, next);

        if (!same_page(chip, page, &other))
            break;
    }
    if (next == page->number + 1)
        return next;
    printf("<p class=\"alike\">%s, page%s %zu", chip->name, next == page->number + 2 ? "" : "s", page->number + 1);
    if (next > page->number + 2)
        printf(" to %zu", next - 1);
    put(", ");
    put_time(page);
    printf(": the same, bit by bit, as page %zu.</p>\n", page->number);
    return next;
}

static size_t put_pages(const struct desk *desk, const struct chip *chip)
{
    size_t number = 0, shown = 0;

    while (number < chip->pages) {
        struct page page = page_of(desk, chip, number);

        if (page.written || (page.doubtful != 0 && page.doubtful != bits_of(&page))) {
            put_page(chip, &page);
            number = put_same(desk, chip, &page);
            shown++;
        } else {
            number++;
        }
    }
    return shown;
}

void put_contents(const struct desk *desk)
{
    size_t shown;

    put("<section id=\"bytes\">\n<h2>4. The bytes</h2>\n");
    if (refused(desk))
        return;
    put("<p>Of each page that was written, or is partly in doubt: 16 bytes a row behind the address of the first, then the row as "
        "text. <code>a5</code> is a sure byte, <code>?\?</code> one in which every bit is in doubt. A byte with some doubtful bits is "
        "shown bit by bit, the high four above the low four, each doubtful one as <code>?</code>. In the text "
        "<code>&#191;</code> stands for a byte with any doubt, <code>&#183;</code> for one that is no character.</p>\n");
    shown = put_pages(desk, &desk->flash);
    shown += put_pages(desk, &desk->eeprom);
    if (shown == 0) {
        put("<p>No page was written ");
        put_until(desk, "in this trace", "");
        put(", and none is partly in doubt.</p>\n");
    }
    put("</section>\n");
}
