/*
 * What the report rests on: the files, the board, and how far it is proved.
 */
#include "html.h"
#include "sections.h"

#include <stdio.h>

static void put_file(const struct file *file, const char *is)
{
    printf("<tr><th>%s</th><td class=\"size\">", file->name);
    if (file->sum == NULL)
        put("not given");
    else
        put_count(file->len);
    printf("</td><td class=\"is\">%s</td><td class=\"sum\">%s</td></tr>\n", is, file->sum == NULL ? "-" : file->sum);
}

/* What was made of a dump. */
static const char *dump_is(const struct desk *desk, const struct file *dump, const char *held)
{
    if (dump->sum == NULL)
        return shows(desk) ? "all in doubt before the trace" : "-";
    if (dump->len != HAZELCROOK_IMAGE)
        return "refused: a dump has 32,768 bytes";
    return shows(desk) ? held : "not used: no replay";
}

static void put_files(const struct desk *desk)
{
    const struct file *trace = &desk->files[TRACE], *flash = &desk->files[FLASH_DUMP], *eeprom = &desk->files[EEPROM_DUMP];

    put("<table id=\"files\"><thead><tr><th>file</th><th>bytes</th><th>is</th><th>SHA-256</th></tr></thead>\n<tbody>\n");
    put_file(trace, trace->sum == NULL ? "no text" : "the trace");
    put_file(flash, dump_is(desk, flash, "what the sector held before, taken as sure"));
    put_file(eeprom, dump_is(desk, eeprom, "what the EEPROM held before, taken as sure"));
    put("</tbody></table>\n");
}

/* Sectors that a status locks, by its bits 3 and 2. */
static const char *locked_sectors(unsigned status)
{
    switch (status & 0x0c) {
    case 0x00: return "no sector is locked";
    case 0x04: return "sector 4 is locked";
    case 0x08: return "sectors 3 and 4 are locked";
    default: return "all four sectors are locked";
    }
}

static unsigned digit_of(uint8_t digit)
{
    return digit <= '9' ? digit - (unsigned)'0' : digit - (unsigned)'a' + 10;
}

/* Line 1, `board`, status, sector, address, parted by tabs: each has a fixed place. */
static void put_board(const struct desk *desk)
{
    const uint8_t *text = desk->text;
    unsigned status = 16 * digit_of(text[6]) + digit_of(text[7]), sector = digit_of(text[9]), wired = digit_of(text[11]);
    unsigned first = HAZELCROOK_IMAGE * (sector - 1);

    put("<p>The board, by line 1 of the trace:</p>\n<ul id=\"board\">\n");
    printf("<li>The flash's status at the start is %02x: %s; %s (WPEN %u).</li>\n", status, locked_sectors(status),
           status & 0x80 ? "in a frame in which the lock is on at any time it cannot be written"
                         : "the lock does not keep it from being written",
           status >> 7);
    printf("<li>Of the flash the bytes of sector %u are kept, addresses %05x to %05x; of its other sectors nothing is shown.</li>\n",
           sector, first, first + HAZELCROOK_IMAGE - 1);
    printf("<li>The EEPROM is wired to address %u (A2 A1 A0 = %u%u%u); all its bytes are kept.</li>\n", wired, wired >> 2 & 1,
           wired >> 1 & 1, wired & 1);
    put("</ul>\n<p>Not recorded, and set by the rules: at the start the supply is on, the lock off, both chips are idle, write enable "
        "is off and the EEPROM's counter lost.</p>\n");
}

void put_basis(const struct desk *desk)
{
    put("<section id=\"basis\">\n<h2>2. What this report rests on</h2>\n");
    put_files(desk);
    /* A refused line behind the first is told only where the first was good. */
    if (shows(desk) || (desk->answer >= HAZELCROOK_BAD_LINE && desk->at > 1))
        put_board(desk);
    else
        put("<p>The board is not known: there is no line 1, it was not read, or it is refused.</p>\n");
    put("<p>Verdict, replies, contents, doubtful bits and times are those of Hazelcrook's replay, which is proved to keep the rules: "
        "those of document 01 with requests 1/12, 2/12 and 3/12 of document 02. The program that sets them out on this page, with "
        "words of its own on the board, a refused line, and cycles that run or were cut, is tested, not proved.</p>\n");
    if (shows(desk))
        put("<p>What doubt means is proved too (request 8/12): a bit is in doubt exactly where two histories of the chips differ in "
            "it, and a bit without doubt has the shown value in all of them. A history goes by the rules through the records shown, "
            "in an order that the stamps allow, with any value for each bit in doubt before the trace, the old or the new for each "
            "bit of a cut PROGRAM, and any for each bit of a cut erase or EEPROM page. A cycle alters nothing before its end or its "
            "cut, and recorded replies rule no history out.</p>\n");
    put("</section>\n");
}
