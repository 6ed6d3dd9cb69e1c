#include "desk.h"

#include <errno.h>
#include <stdio.h>
#include <stdlib.h>
#include <string.h>

_Noreturn void give_up(const char *what, const char *why)
{
    fprintf(stderr, "report: %s: %s\n", what, why);
    exit(2);
}

static _Noreturn void broken(const char *word)
{
    fprintf(stderr, "report: the library broke its word: %s\n", word);
    exit(1);
}

/* A buffer of just that length, so that what goes beyond it can be noticed. */
static uint8_t *room(size_t len, int byte)
{
    uint8_t *bytes = malloc(len == 0 ? 1 : len);

    if (bytes == NULL)
        give_up("memory", strerror(errno));
    return memset(bytes, byte, len);
}

/* A file's first bytes: one more than the library takes is enough for it to refuse them. The rest is counted only. */
static uint8_t *load(struct file *file, size_t most, size_t *kept)
{
    static uint8_t first[HAZELCROOK_TEXT + 1], rest[4096];
    FILE *from = fopen(file->name, "rb");
    size_t more;

    if (from == NULL)
        give_up(file->name, strerror(errno));
    *kept = fread(first, 1, most + 1, from);
    file->len = *kept;
    while (*kept == most + 1 && (more = fread(rest, 1, sizeof rest, from)) != 0)
        file->len += more;
    if (ferror(from))
        give_up(file->name, strerror(errno));
    fclose(from);
    return memcpy(room(*kept, 0), first, *kept);
}

/* A dump is sure; without one every bit is doubtful, and 0 in the value. */
static void load_image(struct chip *chip, struct file *dump)
{
    chip->values_len = HAZELCROOK_IMAGE;
    chip->values = dump->sum != NULL ? load(dump, HAZELCROOK_IMAGE, &chip->values_len) : room(HAZELCROOK_IMAGE, 0x00);
    chip->masks = room(HAZELCROOK_IMAGE, dump->sum != NULL ? 0x00 : 0xff);
}

static uint32_t number_at(const uint8_t *four)
{
    return (uint32_t)four[0] | (uint32_t)four[1] << 8 | (uint32_t)four[2] << 16 | (uint32_t)four[3] << 24;
}

static void name_chips(struct desk *desk)
{
    desk->flash.name = "Flash";
    desk->flash.said = desk->flash.id = "flash";
    desk->flash.number = 0;
    desk->flash.pages = HAZELCROOK_FLASH_PAGES;
    desk->flash.first_entry = 0;
    desk->flash.digits = 5;
    desk->eeprom.name = desk->eeprom.said = "EEPROM";
    desk->eeprom.id = "eeprom";
    desk->eeprom.number = 1;
    desk->eeprom.pages = HAZELCROOK_EEPROM_PAGES;
    desk->eeprom.first_entry = HAZELCROOK_FLASH_PAGES;
    desk->eeprom.digits = 4;
}

/* The watched sector stands in line 1, `board`, status, sector, address, each parted by a tab. */
static void place_sector(struct desk *desk)
{
    desk->flash.first_address = HAZELCROOK_IMAGE * (size_t)(desk->text[9] - '1');
}

void replay_here(struct desk *desk)
{
    struct chip *flash = &desk->flash, *eeprom = &desk->eeprom;

    name_chips(desk);
    desk->text = desk->files[TRACE].sum != NULL ? load(&desk->files[TRACE], HAZELCROOK_TEXT, &desk->text_len) : room(0, 0);
    load_image(flash, &desk->files[FLASH_DUMP]);
    load_image(eeprom, &desk->files[EEPROM_DUMP]);
    desk->answer = hazelcrook_replay(desk->text, desk->text_len, flash->values, flash->values_len, flash->masks,
                                     HAZELCROOK_IMAGE, eeprom->values, eeprom->values_len, eeprom->masks,
                                     HAZELCROOK_IMAGE, desk->times, sizeof desk->times, desk->replies,
                                     sizeof desk->replies, desk->result, sizeof desk->result);
    if (desk->answer > HAZELCROOK_STATUS_LOST || desk->answer != number_at(desk->result))
        broken("an answer that is none, or not the one in the result");
    desk->at = number_at(desk->result + 4);
    desk->count = number_at(desk->result + 8);
    desk->field = number_at(desk->result + 12);
    if (shows(desk))
        place_sector(desk);
}

int shows(const struct desk *desk)
{
    return desk->answer == HAZELCROOK_SETTLED || desk->answer >= HAZELCROOK_CROWDED;
}

static size_t ones(unsigned byte)
{
    size_t count = 0;

    for (; byte != 0; byte &= byte - 1)
        count++;
    return count;
}

struct page page_of(const struct desk *desk, const struct chip *chip, size_t number)
{
    const uint8_t *entry = desk->times + HAZELCROOK_TIME * (chip->first_entry + number);
    struct page page = {.number = number};
    size_t at;

    page.place = hazelcrook_page_place(desk->flash.values_len, desk->eeprom.values_len, chip->number, number);
    page.len = hazelcrook_page_length(desk->flash.values_len, desk->eeprom.values_len, chip->number, number);
    page.address = chip->first_address + page.place;
    page.written = entry[0] == HAZELCROOK_WRITTEN;
    page.stamp = number_at(entry + 1);
    for (at = page.place; at < page.place + page.len; at++)
        page.doubtful += ones(chip->masks[at]);
    return page;
}

size_t bits_of(const struct page *page)
{
    return 8 * page->len;
}

const uint8_t *reply_at(const struct desk *desk, size_t line)
{
    return desk->replies + 4 * (line - 2);
}
