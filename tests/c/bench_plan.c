/*
 * How long a plan takes: the proved library's call on contents of the whole chip.
 *
 *   bench_plan TURNS (judged|told)
 *
 * Each call is on the same buffers; the list and the result are restored before it, outside of the timed part. There
 * are as many turns as fit into a second for each pair of contents, at least 9 and at most TURNS, after one that is not
 * counted and that must answer as is due here. A line for each pair tells least and median in microseconds; then the
 * bar is told: every median is under 2 ms. Where an emulator runs this program the figures are told without the bar.
 *
 * Exit status: 0 the bar holds, or is not judged; 1 it is missed; 2 a plan is not the one that is due.
 */
#define _DEFAULT_SOURCE

#include <stdio.h>
#include <stdlib.h>
#include <string.h>

#include "hazelcrook.h"
#include "measure.h"

enum { LEAST_TURNS = 9, MOST_TURNS = 100000, PAGE = 256, PAGES = HAZELCROOK_CHIP / PAGE, SECTOR = 32768, SECTORS = 4 };

static const double BUDGET = 1.0;     /* seconds a pair */
static const double MOST = 2000e-6;   /* the bar */

static uint8_t present[HAZELCROOK_CHIP], wanted[HAZELCROOK_CHIP], list[HAZELCROOK_PLAN_LIST];
static uint8_t first_list[HAZELCROOK_PLAN_LIST], result[HAZELCROOK_PLAN_RESULT];
static double times[MOST_TURNS];

/* Contents. */

/* A small seeded generator (splitmix64): the same bytes on each run. */
static uint8_t any_byte(void)
{
    static uint64_t state = 6;
    uint64_t mixed = state += 0x9e3779b97f4a7c15;

    mixed = (mixed ^ mixed >> 30) * 0xbf58476d1ce4e5b9;
    mixed = (mixed ^ mixed >> 27) * 0x94d049bb133111eb;
    return (uint8_t)(mixed >> 56);
}

static void fill_any(uint8_t *content)
{
    size_t place;

    for (place = 0; place < HAZELCROOK_CHIP; place++)
        content[place] = any_byte();
}

static void equal(void)
{
    fill_any(present);
    memcpy(wanted, present, sizeof wanted);
}

static void equal_erased(void)
{
    memset(present, 0xff, sizeof present);
    memset(wanted, 0xff, sizeof wanted);
}

static void all_differ(void)
{
    fill_any(present);
    fill_any(wanted);
}

static void to_erased(void)
{
    memset(present, 0x00, sizeof present);
    memset(wanted, 0xff, sizeof wanted);
}

static void from_erased(void)
{
    memset(present, 0xff, sizeof present);
    memset(wanted, 0x5a, sizeof wanted);
}

/* Every byte falls but the last of each sector, which rises: nothing before it says that the sector must be erased. */
static void rises_last(void)
{
    size_t sector;

    memset(present, 0x7e, sizeof present);
    memset(wanted, 0x3c, sizeof wanted);
    for (sector = 1; sector <= SECTORS; sector++)
        wanted[sector * SECTOR - 1] = 0xff;
}

/* The same with sector 1 as wanted and full, so that the sectors are erased one by one. */
static void rises_last_in_three(void)
{
    rises_last();
    memcpy(present, wanted, SECTOR);
}

/* The chip's last byte alone rises. */
static void rises_at_the_end(void)
{
    equal();
    present[HAZELCROOK_CHIP - 1] = 0x7f;
    wanted[HAZELCROOK_CHIP - 1] = 0xff;
}

/* The last byte of each page falls, or rises; all others are equal and none is ff. */
static void falls_in_pages(void)
{
    size_t page;

    memset(present, 0x55, sizeof present);
    memset(wanted, 0x55, sizeof wanted);
    for (page = 1; page <= PAGES; page++)
        wanted[page * PAGE - 1] = 0x54;
}

static void rises_in_pages(void)
{
    size_t page;

    falls_in_pages();
    for (page = 1; page <= PAGES; page++)
        wanted[page * PAGE - 1] = 0x57;
}

/* Pages that are ff but in their last byte: each has to be read to its end to know that it must be programmed. */
static void ends_in_pages(void)
{
    size_t page;

    memset(wanted, 0xff, sizeof wanted);
    for (page = 1; page <= PAGES; page++)
        wanted[page * PAGE - 1] = 0x54;
    memcpy(present, wanted, sizeof present);
    for (page = 1; page <= SECTORS; page++)
        present[page * SECTOR - 1] = 0x50;
}

/* The chip's last byte differs, and all is locked: all is read, and nothing planned. */
static void differs_locked(void)
{
    equal();
    wanted[HAZELCROOK_CHIP - 1] = (uint8_t)~present[HAZELCROOK_CHIP - 1];
}

struct pair {
    const char *name;
    void (*make)(void);
    uint8_t status;
    size_t list_len;
    uint32_t answer, number; /* that are due */
};

static const struct pair PAIRS[] = {
    {"equal", equal, 0x00, HAZELCROOK_PLAN_LIST, 0, 0},
    {"equal, erased", equal_erased, 0x00, HAZELCROOK_PLAN_LIST, 0, 0},
    {"equal, all locked", equal, 0x0c, HAZELCROOK_PLAN_LIST, 0, 0},
    {"all differ", all_differ, 0x00, HAZELCROOK_PLAN_LIST, 0, 1 + PAGES},
    {"00 to ff", to_erased, 0x00, HAZELCROOK_PLAN_LIST, 0, 1},
    {"ff to 5a", from_erased, 0x00, HAZELCROOK_PLAN_LIST, 0, PAGES},
    {"each sector rises in its last byte", rises_last, 0x00, HAZELCROOK_PLAN_LIST, 0, 1 + PAGES},
    {"three sectors rise in their last byte", rises_last_in_three, 0x00, HAZELCROOK_PLAN_LIST, 0,
     3 + 3 * PAGES / SECTORS},
    {"the chip rises in its last byte", rises_at_the_end, 0x00, HAZELCROOK_PLAN_LIST, 0, 1 + PAGES / SECTORS},
    {"each page falls in its last byte", falls_in_pages, 0x00, HAZELCROOK_PLAN_LIST, 0, PAGES},
    {"each page rises in its last byte", rises_in_pages, 0x00, HAZELCROOK_PLAN_LIST, 0, 1 + PAGES},
    {"each page ff but its last byte", ends_in_pages, 0x00, HAZELCROOK_PLAN_LIST, 0, 1 + PAGES},
    {"the last byte locked (15)", differs_locked, 0x0c, HAZELCROOK_PLAN_LIST, 15, 0},
    {"room for all but a byte (16)", rises_last, 0x00, HAZELCROOK_PLAN_LIST - 1, 16, 0},
};

/* Measuring. */

static uint32_t number_at(const uint8_t *four)
{
    return (uint32_t)four[0] | (uint32_t)four[1] << 8 | (uint32_t)four[2] << 16 | (uint32_t)four[3] << 24;
}

/* One call, and how long it took. */
static double timed(const struct pair *pair)
{
    double begin, seconds;
    uint32_t answer;

    memset(list, 0x5a, sizeof list);
    memset(result, 0x5a, sizeof result);
    begin = now();
    answer = hazelcrook_plan(present, sizeof present, wanted, sizeof wanted, pair->status, list, pair->list_len, result,
                             sizeof result);
    seconds = now() - begin;
    if (answer != pair->answer || number_at(result) != answer || number_at(result + 4) != pair->number) {
        fprintf(stderr, "bench_plan: %s: answer %u, result %u %u where %u, %u are due\n", pair->name, (unsigned)answer,
                (unsigned)number_at(result), (unsigned)number_at(result + 4), (unsigned)pair->answer,
                (unsigned)pair->number);
        exit(2);
    }
    return seconds;
}

/* Tells least and median; the median is given back. */
static double measure(const struct pair *pair, int most)
{
    double once;
    int turns, turn;

    pair->make();
    once = timed(pair);
    memcpy(first_list, list, sizeof list);
    turns = BUDGET / once < most ? (int)(BUDGET / once) : most;
    if (turns < LEAST_TURNS)
        turns = LEAST_TURNS;
    for (turn = 0; turn < turns; turn++) {
        times[turn] = timed(pair);
        if (memcmp(first_list, list, sizeof list) != 0) {
            fprintf(stderr, "bench_plan: %s: a plan differs from itself\n", pair->name);
            exit(2);
        }
    }
    qsort(times, (size_t)turns, sizeof times[0], by_size);
    printf("%-38s %6u %6u %5d  %9.1f %9.1f\n", pair->name, (unsigned)pair->answer, (unsigned)pair->number, turns,
           times[0] * 1e6, times[turns / 2] * 1e6);
    fflush(stdout);
    return times[turns / 2];
}

int main(int argc, char **argv)
{
    int turns = argc == 3 ? atoi(argv[1]) : 0, judged = argc == 3 && strcmp(argv[2], "judged") == 0;
    double worst = 0;
    size_t pair;

    if (turns < 1 || turns > MOST_TURNS || (!judged && strcmp(argv[2], "told") != 0)) {
        fputs("usage: bench_plan TURNS (judged|told)\n", stderr);
        return 2;
    }
    printf("%-38s %6s %6s %5s  %9s %9s\n", "plan, us", "answer", "cycles", "turns", "least", "median");
    for (pair = 0; pair < sizeof PAIRS / sizeof PAIRS[0]; pair++) {
        double median = measure(&PAIRS[pair], turns);

        worst = median > worst ? median : worst;
    }
    return tell_worst("every plan", worst, MOST, judged) ? 0 : 1;
}
