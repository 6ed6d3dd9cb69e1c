/*
 * Puts a call of the library on lent buffers and says what came of it.
 *
 *   driver          the replay: text, flash image, flash mask, EEPROM image, EEPROM mask, page times, replies, result
 *   driver plan     the plan: present and wanted content, status (one byte), list, result
 *   driver merge    the merge: level text, logger's trace, output, result
 *   driver levels   the second engine: level text, logger's trace, flash image, flash mask, EEPROM image, EEPROM mask,
 *                   result
 *
 * A request on standard input: the lengths of the buffers, each in four bytes with the low one first, then the bytes of
 * each. The answer on standard output: the call's answer in four bytes, then the buffers that the call may write, as
 * long as they were. Lengths that are all zero, or the end of the input, end the program.
 *
 * Every buffer lies between two pages that nothing may touch (guarded.h): in even cases against the upper one, in odd
 * cases against the lower; what is left of its pages on the other side must come back unchanged. The texts, the two
 * contents and the status may only be read.
 */
#define _DEFAULT_SOURCE

#include "guarded.h"
#include "hazelcrook.h"

enum { MOST_BUFFERS = 8, STATUS = 2 };

/* A call by its word, the buffers lent to it, and how many of them, from the first on, may only be read. */
struct call {
    const char *word;
    uint32_t (*run)(const struct lent *lent);
    int buffers, only_read;
};

static uint32_t replay(const struct lent *lent)
{
    return hazelcrook_replay(lent[0].bytes, lent[0].len, lent[1].bytes, lent[1].len, lent[2].bytes, lent[2].len,
                             lent[3].bytes, lent[3].len, lent[4].bytes, lent[4].len, lent[5].bytes, lent[5].len,
                             lent[6].bytes, lent[6].len, lent[7].bytes, lent[7].len);
}

static uint32_t plan(const struct lent *lent)
{
    if (lent[STATUS].len != 1) {
        fputs("a status is one byte\n", stderr);
        exit(2);
    }
    return hazelcrook_plan(lent[0].bytes, lent[0].len, lent[1].bytes, lent[1].len, lent[STATUS].bytes[0],
                           lent[3].bytes, lent[3].len, lent[4].bytes, lent[4].len);
}

static uint32_t merge(const struct lent *lent)
{
    return hazelcrook_merge(lent[0].bytes, lent[0].len, lent[1].bytes, lent[1].len, lent[2].bytes, lent[2].len,
                            lent[3].bytes, lent[3].len);
}

static uint32_t play_levels(const struct lent *lent)
{
    return hazelcrook_play_levels(lent[0].bytes, lent[0].len, lent[1].bytes, lent[1].len, lent[2].bytes, lent[2].len,
                                  lent[3].bytes, lent[3].len, lent[4].bytes, lent[4].len, lent[5].bytes, lent[5].len,
                                  lent[6].bytes, lent[6].len);
}

/* The replay has no word: it is made where none is given. */
static const struct call CALLS[] = {
    {"", replay, 8, 1}, {"plan", plan, 5, 3}, {"merge", merge, 4, 2}, {"levels", play_levels, 7, 2}};

/* The call of a word; none where no call has it. */
static const struct call *call_of(const char *word)
{
    size_t which;

    for (which = 0; which < sizeof CALLS / sizeof CALLS[0]; which++)
        if (strcmp(word, CALLS[which].word) == 0)
            return &CALLS[which];
    return NULL;
}

/* 1 where all was read, 0 where the input had ended. */
static int read_all(void *into, size_t len)
{
    if (len == 0 || fread(into, 1, len, stdin) == len)
        return 1;
    if (ferror(stdin))
        fail("reading a request");
    return 0;
}

static void write_all(const void *from, size_t len)
{
    if (len != 0 && fwrite(from, 1, len, stdout) != len)
        fail("writing an answer");
}

static void answer(const struct call *call, const struct lent *lent, uint32_t number)
{
    unsigned char four[4];
    int which;

    for (which = 0; which < 4; which++)
        four[which] = (unsigned char)(number >> (8 * which));
    write_all(four, sizeof four);
    for (which = call->only_read; which < call->buffers; which++)
        write_all(lent[which].bytes, lent[which].len);
    if (fflush(stdout) != 0)
        fail("writing an answer");
}

/* Makes the call; a buffer that was written past its end is told of instead of the answer. */
static void make(const struct call *call, const struct lent *lent)
{
    uint32_t number = call->run(lent);
    int which;

    for (which = 0; which < call->buffers; which++)
        if (!beside_untouched(&lent[which])) {
            fprintf(stderr, "bytes beside buffer %d were changed\n", which);
            exit(3);
        }
    answer(call, lent, number);
}

/* The buffers of a request, with their bytes. */
static void take(const struct call *call, const unsigned char *lengths, enum side side, struct lent *lent)
{
    int which;

    for (which = 0; which < call->buffers; which++) {
        lent[which] = lend(number_of(lengths + 4 * which), side);
        if (!read_all(lent[which].bytes, lent[which].len)) {
            fputs("a request broke off\n", stderr);
            exit(2);
        }
        if (which < call->only_read)
            only_read(&lent[which]);
    }
}

/* One request; 0 where there is none. */
static int serve(const struct call *call, enum side side)
{
    unsigned char lengths[4 * MOST_BUFFERS];
    struct lent lent[MOST_BUFFERS];
    size_t total = 0;
    int which;

    if (!read_all(lengths, 4 * (size_t)call->buffers))
        return 0;
    for (which = 0; which < call->buffers; which++)
        total += number_of(lengths + 4 * which);
    if (total == 0)
        return 0;
    take(call, lengths, side, lent);
    make(call, lent);
    for (which = 0; which < call->buffers; which++)
        take_back(&lent[which]);
    return 1;
}

int main(int argc, char **argv)
{
    const struct call *call = call_of(argc > 1 ? argv[1] : "");
    enum side side = AGAINST_UPPER;

    if (argc > 2 || call == NULL) {
        fputs("usage: driver [plan | merge | levels]\n", stderr);
        return 2;
    }
    while (serve(call, side))
        side = side == AGAINST_UPPER ? AGAINST_LOWER : AGAINST_UPPER;
    return 0;
}
