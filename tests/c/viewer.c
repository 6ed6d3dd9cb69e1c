/*
 * A viewer of the desk: replays a trace on its own buffers and shows what came of it.
 *
 *   viewer [-f FLASH.BIN] [-e EEPROM.BIN] TRACE [flash|eeprom PAGE]
 *
 * It prints the answer, with its line or its stamp and the count, and of a line of wrong form the bad field; the reply
 * of each record that was played; and the page asked for, with the stamp at which it was last written. In a page a sure
 * byte is two digits, and a byte with doubtful bits is value/mask as in a listing: 0f/f0 has four sure ones, and four
 * bits that the trace does not fix. A row like the one above it is left out; `*` stands for all such rows in a run.
 *
 * Exit status: 0 whatever the answer; 1 the library broke its word; 2 a file or the command is at fault.
 */
#define _DEFAULT_SOURCE

#include "hazelcrook.h"

#include "guarded.h"

/* The eight buffers, in the order of the call. Here they lie between pages that nothing may touch, as this viewer is a
 * test too; any memory of the caller will do. */
enum { TEXT, FLASH, FLASH_MASK, EEPROM, EEPROM_MASK, TIMES, REPLIES, RESULT, BUFFERS };

static uint32_t replay(const struct lent *desk)
{
    return hazelcrook_replay(desk[TEXT].bytes, desk[TEXT].len, desk[FLASH].bytes, desk[FLASH].len,
                             desk[FLASH_MASK].bytes, desk[FLASH_MASK].len, desk[EEPROM].bytes, desk[EEPROM].len,
                             desk[EEPROM_MASK].bytes, desk[EEPROM_MASK].len, desk[TIMES].bytes, desk[TIMES].len,
                             desk[REPLIES].bytes, desk[REPLIES].len, desk[RESULT].bytes, desk[RESULT].len);
}

/* Filling the buffers. */

static struct lent filled(size_t len, uint8_t byte)
{
    struct lent lent = lend(len, AGAINST_UPPER);

    if (len != 0)
        memset(lent.bytes, byte, len);
    return lent;
}

/* A file's bytes, `most` of them at the most. One more than the library takes is enough: it refuses what is too long. */
static struct lent loaded(const char *name, size_t most)
{
    static uint8_t bytes[HAZELCROOK_TEXT + 1];
    FILE *file = fopen(name, "rb");
    struct lent lent;
    size_t len;

    if (file == NULL)
        fail(name);
    len = fread(bytes, 1, most, file);
    if (ferror(file))
        fail(name);
    fclose(file);
    lent = lend(len, AGAINST_UPPER);
    if (len != 0)
        memcpy(lent.bytes, bytes, len);
    return lent;
}

/* An image and its mask: a dump is sure, and without one every bit is doubtful. A doubtful bit is 0 in the image. */
static void put_image(struct lent *image, struct lent *mask, const char *dump)
{
    *image = dump != NULL ? loaded(dump, HAZELCROOK_IMAGE + 1) : filled(HAZELCROOK_IMAGE, 0x00);
    *mask = filled(HAZELCROOK_IMAGE, dump != NULL ? 0x00 : 0xff);
}

static void set_up(struct lent *desk, const char *trace, const char *flash_dump, const char *eeprom_dump)
{
    desk[TEXT] = loaded(trace, HAZELCROOK_TEXT + 1);
    only_read(&desk[TEXT]);
    put_image(&desk[FLASH], &desk[FLASH_MASK], flash_dump);
    put_image(&desk[EEPROM], &desk[EEPROM_MASK], eeprom_dump);
    desk[TIMES] = filled(HAZELCROOK_TIMES, 0xee);
    desk[REPLIES] = filled(HAZELCROOK_REPLIES, 0);
    desk[RESULT] = filled(HAZELCROOK_RESULT, 0xee);
}

/* Showing what came of it. */

/* A number of the result: 0 the answer, 1 the line or the stamp, 2 the count, 3 the field. */
static uint32_t result_number(const struct lent *desk, int which)
{
    return number_of(desk[RESULT].bytes + 4 * which);
}

static const char *answer_words(uint32_t answer)
{
    switch (answer) {
    case HAZELCROOK_SETTLED: return "settled";
    case HAZELCROOK_BAD_BUFFERS: return "refused, a buffer does not fit";
    case HAZELCROOK_TOO_LONG: return "refused, the text is too long";
    case HAZELCROOK_BAD_LINE: return "refused, a line of wrong form";
    case HAZELCROOK_BACK_IN_TIME: return "refused, a stamp below the one before";
    case HAZELCROOK_IMPOSSIBLE: return "refused, an impossible record";
    case HAZELCROOK_CROWDED: return "stop, the stamp is crowded";
    case HAZELCROOK_ORDERS_DIFFER: return "stop, the orders of the stamp differ";
    case HAZELCROOK_STATUS_LOST: return "stop, the flash's status is lost";
    default: return "no answer of this library";
    }
}

/* Whether the line has such a field; `place` is where it begins, or else where the line ends. */
static int has_field(const struct lent *text, uint32_t line, uint32_t field, size_t *place)
{
    size_t at = 0;

    for (; line > 1 && at < text->len; at++)
        line -= text->bytes[at] == '\n';
    for (; field > 1 && at < text->len && text->bytes[at] != '\n'; at++)
        field -= text->bytes[at] == '\t';
    *place = at;
    return field == 1;
}

enum { FIELD_SHOWN = 20 };

/* What stands in a field from its place on; a byte that can't be seen is shown as its number. */
static void show_content(const struct lent *text, size_t place)
{
    const uint8_t *bytes = text->bytes + place;
    size_t len = 0, shown;

    while (len < text->len - place && bytes[len] != '\t' && bytes[len] != '\n')
        len++;
    printf("\"");
    for (shown = 0; shown < len && shown < FIELD_SHOWN; shown++)
        printf(bytes[shown] >= ' ' && bytes[shown] <= '~' ? "%c" : "\\x%02x", bytes[shown]);
    printf(shown < len ? "\".. is wrong here\n" : "\" is wrong here\n");
}

/* The bad field of a bad line: the library tells its number, the text what stands there. */
static void show_field(const struct lent *text, uint32_t line, uint32_t field)
{
    size_t place;
    int there = has_field(text, line, field, &place);

    printf("field %u: ", (unsigned)field);
    if (text->len == 0)
        printf("there is no text\n");
    else if (there)
        show_content(text, place);
    else
        printf(place == text->len ? "the text ends before it, without a line end\n" : "the line ends before it\n");
}

static void show_answer(const struct lent *desk)
{
    uint32_t answer = result_number(desk, 0);

    printf("answer %u: %s\n", (unsigned)answer, answer_words(answer));
    if (answer >= HAZELCROOK_BAD_LINE && answer <= HAZELCROOK_IMPOSSIBLE)
        printf("line %u\n", (unsigned)result_number(desk, 1));
    if (answer == HAZELCROOK_BAD_LINE)
        show_field(&desk[TEXT], result_number(desk, 1), result_number(desk, 3));
    if (answer >= HAZELCROOK_CROWDED)
        printf("stamp %u\n", (unsigned)result_number(desk, 1));
    if (answer == HAZELCROOK_SETTLED || answer >= HAZELCROOK_CROWDED)
        printf("count %u\n", (unsigned)result_number(desk, 2));
}

static const char *kind_words(uint8_t kind)
{
    switch (kind) {
    case HAZELCROOK_SILENT: return "silent";
    case HAZELCROOK_BYTE: return "byte ";
    case HAZELCROOK_ACK: return "acknowledge";
    case HAZELCROOK_NO_ACK: return "no acknowledge";
    case HAZELCROOK_STARTS: return "a cycle starts";
    case HAZELCROOK_ENDS: return "the cycle ends";
    case HAZELCROOK_NO_CYCLE: return "no cycle to end";
    default: return "no kind of this library";
    }
}

static const char *match_words(uint8_t match)
{
    switch (match) {
    case 0: return "";
    case 1: return ", agrees";
    case 2: return ", DISAGREES";
    default: return ", no match of this library";
    }
}

/* The reply of the record on line n stands at 4 * (n - 2). The first that was not played ends the list. */
static void show_replies(const struct lent *desk)
{
    size_t at;

    for (at = 0; at < HAZELCROOK_REPLIES; at += 4) {
        const uint8_t *reply = desk[REPLIES].bytes + at;

        if (reply[0] == HAZELCROOK_NOT_PLAYED)
            return;
        printf("line %u: %s", (unsigned)(at / 4 + 2), kind_words(reply[0]));
        if (reply[0] == HAZELCROOK_BYTE)
            printf("%02x/%02x", reply[1], reply[2]);
        printf("%s\n", match_words(reply[3]));
    }
}

enum { ROW = 8 };

static void show_row(size_t place, const uint8_t *values, const uint8_t *masks)
{
    int column;

    printf("%04x", (unsigned)place);
    for (column = 0; column < ROW; column++) {
        if (masks[column] != 0)
            printf(" %02x/%02x", values[column], masks[column]);
        else
            printf(column + 1 < ROW ? " %02x   " : " %02x", values[column]);
    }
    printf("\n");
}

/* The rows of a page from its place on; every page is a whole number of rows. */
static void show_rows(const uint8_t *values, const uint8_t *masks, size_t place, size_t length)
{
    int starred = 0;
    size_t at;

    for (at = place; at < place + length; at += ROW) {
        int again = at > place && memcmp(values + at, values + at - ROW, ROW) == 0 &&
                    memcmp(masks + at, masks + at - ROW, ROW) == 0;

        if (!again)
            show_row(at, values + at, masks + at);
        else if (!starred)
            printf("*\n");
        starred = again;
    }
}

/* When a page was last written. A refused trace tells nothing of it; one that stops, what was before that stamp. */
static void show_time(const struct lent *desk, uint32_t chip, size_t number)
{
    const uint8_t *entry = desk[TIMES].bytes + HAZELCROOK_TIME * (chip == 0 ? number : HAZELCROOK_FLASH_PAGES + number);
    uint32_t answer = result_number(desk, 0);

    if (answer == HAZELCROOK_SETTLED || answer >= HAZELCROOK_CROWDED) {
        if (entry[0] == HAZELCROOK_WRITTEN)
            printf(", last written at %u", (unsigned)number_of(entry + 1));
        else
            printf(answer == HAZELCROOK_SETTLED ? ", not written in this trace" : ", not written before the stop");
    }
    printf("\n");
}

/* A page is a part of the caller's own image: the library says where it stands. Length 0 is refusal 11. */
static void show_page(const struct lent *desk, uint32_t chip, size_t number)
{
    size_t place = hazelcrook_page_place(desk[FLASH].len, desk[EEPROM].len, chip, number);
    size_t length = hazelcrook_page_length(desk[FLASH].len, desk[EEPROM].len, chip, number);
    int image = chip == 0 ? FLASH : EEPROM;

    printf("%s page %zu: ", chip == 0 ? "flash" : "eeprom", number);
    if (length == 0) {
        printf("refused 11 (place %zu, length %zu)\n", place, length);
        return;
    }
    printf("%zu bytes from %04x", length, (unsigned)place);
    show_time(desk, chip, number);
    show_rows(desk[image].bytes, desk[image + 1].bytes, place, length);
}

/* Holding the library to its word. */

static void broken(const char *word)
{
    fflush(stdout);
    fprintf(stderr, "the library broke its word: %s\n", word);
    exit(1);
}

static void check_beside(const struct lent *desk)
{
    int which;

    for (which = 0; which < BUFFERS; which++)
        if (!beside_untouched(&desk[which]))
            broken("it wrote beside a buffer");
}

static void check_result(const struct lent *desk, uint32_t answer)
{
    if (answer != result_number(desk, 0))
        broken("the answer returned is not the one in the result");
    if (answer != HAZELCROOK_BAD_LINE && result_number(desk, 3) != 0)
        broken("a field is told where no line is of wrong form");
}

/* With a result that is not 16 bytes the call answers 1 and writes nothing, whatever the other buffers are. */
static void check_wrong_result(struct lent *desk, size_t len)
{
    struct lent result = desk[RESULT];
    struct lent before[BUFFERS];
    int which;

    desk[RESULT] = filled(len, 0xee);
    for (which = 0; which < BUFFERS; which++) {
        before[which] = lend(desk[which].len, AGAINST_UPPER);
        memcpy(before[which].bytes, desk[which].bytes, desk[which].len);
    }
    if (replay(desk) != HAZELCROOK_BAD_BUFFERS)
        broken("a result of a wrong length is not answered by 1");
    for (which = 0; which < BUFFERS; which++) {
        if (memcmp(before[which].bytes, desk[which].bytes, desk[which].len) != 0)
            broken("a refusal for a result of a wrong length wrote something");
        take_back(&before[which]);
    }
    check_beside(desk);
    take_back(&desk[RESULT]);
    desk[RESULT] = result;
    printf("a result of %zu bytes: answer 1, nothing written\n", len);
}

/* The command. */

static void usage(void)
{
    fputs("usage: viewer [-f FLASH.BIN] [-e EEPROM.BIN] TRACE [flash|eeprom PAGE]\n", stderr);
    exit(2);
}

static size_t page_number(const char *word)
{
    char *end;
    unsigned long number = strtoul(word, &end, 10);

    if (word[0] < '0' || word[0] > '9' || *end != '\0')
        usage();
    return number;
}

static uint32_t chip_number(const char *word)
{
    if (strcmp(word, "flash") != 0 && strcmp(word, "eeprom") != 0)
        usage();
    return strcmp(word, "flash") == 0 ? 0 : 1;
}

int main(int argc, char **argv)
{
    const char *flash_dump = NULL, *eeprom_dump = NULL;
    struct lent desk[BUFFERS];
    uint32_t answer, chip = 0;
    size_t page = 0;
    int option, which;

    while ((option = getopt(argc, argv, "f:e:")) != -1) {
        if (option == 'f')
            flash_dump = optarg;
        else if (option == 'e')
            eeprom_dump = optarg;
        else
            usage();
    }
    argc -= optind;
    argv += optind;
    if (argc != 1 && argc != 3)
        usage();
    if (argc == 3) {
        chip = chip_number(argv[1]);
        page = page_number(argv[2]);
    }

    set_up(desk, argv[0], flash_dump, eeprom_dump);
    answer = replay(desk);
    check_beside(desk);
    check_result(desk, answer);
    show_answer(desk);
    show_replies(desk);
    if (argc == 3)
        show_page(desk, chip, page);
    check_wrong_result(desk, HAZELCROOK_RESULT - 1);
    check_wrong_result(desk, 12); /* its length before it had a field */
    for (which = 0; which < BUFFERS; which++)
        take_back(&desk[which]);
    return 0;
}
