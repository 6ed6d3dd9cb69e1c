/*
 * How long a capture takes: the proved library's merge and its second engine on level texts of 65,536 bytes, each with a
 * logger's trace (tests/rust/src/generate/capture_samples.rs).
 *
 *   bench_captures TURNS (judged|told) (NAME LEVELS TRACE)..
 *
 * LEVELS and TRACE are files. Each call is on the same buffers; output, images, masks and result are restored before it,
 * outside of the timed part. The images are without dumps. The merge is called twice over: with an output that no merged
 * trace is longer than, and with one that just fits, whose length the merge must know before it writes. There are as many
 * turns as fit into a second for each call, at least 9 and at most TURNS, after one that is not counted; every turn must
 * answer 0 and leave what the first one left. A line for each capture and call tells least and median in microseconds; then
 * the bar is told: every median is under 3 ms. Where an emulator runs this program the figures are told without the bar.
 *
 * Exit status: 0 the bar holds, or is not judged; 1 it is missed; 2 a capture is refused or differs from itself.
 */
#define _DEFAULT_SOURCE

#include <stdio.h>
#include <stdlib.h>
#include <string.h>

#include "hazelcrook.h"
#include "measure.h"

enum { LEAST_TURNS = 9, MOST_TURNS = 100000, WORDS = 3 };

static const double BUDGET = 1.0;   /* seconds a call */
static const double MOST = 3000e-6; /* the bar */

struct text {
    uint8_t bytes[HAZELCROOK_TEXT];
    size_t len;
};

/* What is lent to be written. */
struct lent {
    uint8_t output[HAZELCROOK_MERGED];
    uint8_t flash[HAZELCROOK_IMAGE], flash_mask[HAZELCROOK_IMAGE];
    uint8_t eeprom[HAZELCROOK_IMAGE], eeprom_mask[HAZELCROOK_IMAGE];
    uint8_t result[HAZELCROOK_RESULT];
};

static struct text levels, trace;
static struct lent lent, first;
static size_t fitting; /* the length of the merged trace, once it is known */
static double times[MOST_TURNS];

static void read_text(struct text *text, const char *path)
{
    FILE *file = fopen(path, "rb");

    if (file == NULL || (text->len = fread(text->bytes, 1, sizeof text->bytes, file)) == 0 || getc(file) != EOF) {
        fprintf(stderr, "bench_captures: no text of at most %d bytes in %s\n", (int)sizeof text->bytes, path);
        exit(2);
    }
    fclose(file);
}

static uint32_t merge_into(size_t len)
{
    return hazelcrook_merge(levels.bytes, levels.len, trace.bytes, trace.len, lent.output, len, lent.result,
                            sizeof lent.result);
}

static uint32_t merge(void)
{
    uint32_t answer = merge_into(sizeof lent.output);

    fitting = lent.result[8] | (size_t)lent.result[9] << 8 | (size_t)lent.result[10] << 16;
    return answer;
}

static uint32_t merge_fitting(void)
{
    return merge_into(fitting);
}

static uint32_t play(void)
{
    return hazelcrook_play_levels(levels.bytes, levels.len, trace.bytes, trace.len, lent.flash, sizeof lent.flash,
                                  lent.flash_mask, sizeof lent.flash_mask, lent.eeprom, sizeof lent.eeprom,
                                  lent.eeprom_mask, sizeof lent.eeprom_mask, lent.result, sizeof lent.result);
}

struct call {
    const char *name;
    uint32_t (*make)(void);
};

/* In this order: the first tells what the second needs. */
static const struct call CALLS[] = {{"merge", merge}, {"fitting", merge_fitting}, {"levels", play}};

/* One call on buffers as they were, and how long it took. */
static double timed(const struct call *call, const char *name)
{
    static const uint8_t zeros[4];
    double begin, seconds;
    uint32_t answer;

    memset(&lent, 0, sizeof lent);
    memset(lent.flash_mask, 0xff, sizeof lent.flash_mask);
    memset(lent.eeprom_mask, 0xff, sizeof lent.eeprom_mask);
    memset(lent.result, 0x5a, sizeof lent.result);
    begin = now();
    answer = call->make();
    seconds = now() - begin;
    if (answer != 0 || memcmp(lent.result, zeros, sizeof zeros) != 0) {
        fprintf(stderr, "bench_captures: %s, %s: answer %u where 0 is due\n", name, call->name, (unsigned)answer);
        exit(2);
    }
    return seconds;
}

/* Tells least and median; the median is given back. */
static double measure(const struct call *call, const char *name, int most)
{
    double once = timed(call, name);
    int turns = BUDGET / once < most ? (int)(BUDGET / once) : most, turn;

    first = lent;
    if (turns < LEAST_TURNS)
        turns = LEAST_TURNS;
    for (turn = 0; turn < turns; turn++) {
        times[turn] = timed(call, name);
        if (memcmp(&first, &lent, sizeof lent) != 0) {
            fprintf(stderr, "bench_captures: %s, %s: a call differs from itself\n", name, call->name);
            exit(2);
        }
    }
    qsort(times, (size_t)turns, sizeof times[0], by_size);
    printf("%-20s %-8s %6u %6u %5d  %9.1f %9.1f\n", name, call->name, (unsigned)levels.len, (unsigned)trace.len, turns,
           times[0] * 1e6, times[turns / 2] * 1e6);
    fflush(stdout);
    return times[turns / 2];
}

int main(int argc, char **argv)
{
    int turns = argc > 2 ? atoi(argv[1]) : 0, judged = argc > 2 && strcmp(argv[2], "judged") == 0, word;
    double worst = 0;
    size_t call;

    if (turns < 1 || turns > MOST_TURNS || (!judged && strcmp(argv[2], "told") != 0) || argc < 3 + WORDS ||
        (argc - 3) % WORDS != 0) {
        fputs("usage: bench_captures TURNS (judged|told) (NAME LEVELS TRACE)..\n", stderr);
        return 2;
    }
    printf("%-20s %-8s %6s %6s %5s  %9s %9s\n", "capture, us", "call", "levels", "trace", "turns", "least", "median");
    for (word = 3; word < argc; word += WORDS) {
        read_text(&levels, argv[word + 1]);
        read_text(&trace, argv[word + 2]);
        for (call = 0; call < sizeof CALLS / sizeof CALLS[0]; call++) {
            double median = measure(&CALLS[call], argv[word], turns);

            worst = median > worst ? median : worst;
        }
    }
    return tell_worst("every capture merged and played", worst, MOST, judged) ? 0 : 1;
}
