/*
 * How long a replay takes: the proved library, plain Rust and one plain pass in C, in turns in one process.
 *
 *   bench TURNS (tied|untied|growth|spoilt FILE)..
 *
 * With 0 turns nothing is timed: what the three leave is compared, of a trace to be spoilt also where each of its bytes
 * is, and the last line is a tally.
 *
 * Each call is on the same buffers without dumps, restored before it outside of the timed part; the order of the three
 * goes round, and back. There are as many turns as fit into two seconds a trace, at least 9 and at most TURNS, after one that is
 * not counted. A line for each trace tells least and median in microseconds and the ratios; then the bars are told.
 *
 * Exit status: 0 every bar holds; 1 one is missed; 2 the replays differ in what they leave, or a file is at fault.
 */
#define _DEFAULT_SOURCE

#include <stdio.h>
#include <stdlib.h>
#include <string.h>

#include "hazelcrook.h"
#include "measure.h"
#include "replays.h"

enum way { LIBRARY, PLAIN, PASS, WAYS };
enum group { TIED, UNTIED, GROWTH, SPOILT, GROUPS };
enum { LEAST_TURNS = 9, MOST_TURNS = 100000 };

static const char *const GROUP_NAMES[GROUPS] = {"tied", "untied", "growth", "spoilt"};
/* Where Rust builds no code that can be linked with the library, plain Rust is left out, and nothing is timed. */
#ifdef WITHOUT_PLAIN
static replay_call *const REPLAYS[WAYS] = {hazelcrook_replay, NULL, pass_replay};
#else
static replay_call *const REPLAYS[WAYS] = {hazelcrook_replay, plain_replay, pass_replay};
#endif
static const double BUDGET = 2.0; /* seconds a trace */

/* What is lent to a call beside the text, and what the call answered. */
struct desk {
    _Alignas(64) uint8_t flash[HAZELCROOK_IMAGE];
    uint8_t flash_mask[HAZELCROOK_IMAGE];
    uint8_t eeprom[HAZELCROOK_IMAGE];
    uint8_t eeprom_mask[HAZELCROOK_IMAGE];
    uint8_t times[HAZELCROOK_TIMES];
    uint8_t replies[HAZELCROOK_REPLIES];
    uint8_t result[HAZELCROOK_RESULT];
    uint32_t answer;
};

struct trace {
    const char *file;
    char name[40];
    enum group group;
    uint8_t text[HAZELCROOK_TEXT + 1];
    size_t len;
    unsigned records, stamps;
    uint32_t answer;
    int turns;
    double least[WAYS], median[WAYS]; /* seconds */
};

static struct desk desk, left[WAYS];
static double times[WAYS][MOST_TURNS];

static void fault(const char *what, const char *which)
{
    fprintf(stderr, "bench: %s: %s\n", what, which);
    exit(2);
}

/* Traces. */

/* How many records there are, and how many stamps: a record of the stamp before begins with the same digits. */
static void count_records(struct trace *trace)
{
    const uint8_t *end = trace->text + trace->len, *before = NULL, *line;
    size_t digits = 0;

    line = memchr(trace->text, '\n', trace->len);
    while (line != NULL && ++line < end) {
        if (before == NULL || strncmp((const char *)before, (const char *)line, digits) != 0) {
            before = line;
            digits = strcspn((const char *)line, "\t\n") + 1;
            trace->stamps++;
        }
        trace->records++;
        line = memchr(line, '\n', (size_t)(end - line));
    }
}

static void load(struct trace *trace, const char *group, const char *name)
{
    const char *last = strrchr(name, '/');
    FILE *file = fopen(name, "rb");
    int which = 0;

    while (which < GROUPS && strcmp(group, GROUP_NAMES[which]) != 0)
        which++;
    if (which == GROUPS)
        fault("no such group", group);
    if (file == NULL)
        fault("can't be opened", name);
    memset(trace, 0, sizeof *trace);
    trace->len = fread(trace->text, 1, sizeof trace->text - 1, file);
    if (ferror(file) || getc(file) != EOF)
        fault("can't be read, or is too long", name);
    fclose(file);
    trace->file = name;
    trace->group = (enum group)which;
    snprintf(trace->name, sizeof trace->name, "%.*s", (int)strcspn(last == NULL ? name : last + 1, "."),
             last == NULL ? name : last + 1);
    count_records(trace);
}

/* Measuring. */

static void restore(void)
{
    memset(desk.flash, 0x00, sizeof desk.flash);
    memset(desk.flash_mask, 0xff, sizeof desk.flash_mask);
    memset(desk.eeprom, 0x00, sizeof desk.eeprom);
    memset(desk.eeprom_mask, 0xff, sizeof desk.eeprom_mask);
    memset(desk.times, 0x5a, sizeof desk.times);
    memset(desk.replies, 0x5a, sizeof desk.replies);
    memset(desk.result, 0x5a, sizeof desk.result);
}

/* One call on fresh buffers, and how long it took. */
static double timed(const struct trace *trace, enum way way)
{
    double begin;

    restore();
    begin = now();
    desk.answer = REPLAYS[way](trace->text, trace->len, desk.flash, sizeof desk.flash, desk.flash_mask,
                               sizeof desk.flash_mask, desk.eeprom, sizeof desk.eeprom, desk.eeprom_mask,
                               sizeof desk.eeprom_mask, desk.times, sizeof desk.times, desk.replies,
                               sizeof desk.replies, desk.result, sizeof desk.result);
    return now() - begin;
}

static int same_result(const struct desk *one, const struct desk *other)
{
    return one->answer == other->answer && memcmp(one->result, other->result, sizeof one->result) == 0;
}

/* The name of the first thing in which two desks differ. */
static const char *difference(const struct desk *one, const struct desk *other)
{
    if (!same_result(one, other))
        return "answer or result";
    if (memcmp(one->flash, other->flash, sizeof one->flash) != 0)
        return "flash image";
    if (memcmp(one->flash_mask, other->flash_mask, sizeof one->flash_mask) != 0)
        return "flash mask";
    if (memcmp(one->eeprom, other->eeprom, sizeof one->eeprom) != 0)
        return "EEPROM image";
    if (memcmp(one->eeprom_mask, other->eeprom_mask, sizeof one->eeprom_mask) != 0)
        return "EEPROM mask";
    if (memcmp(one->times, other->times, sizeof one->times) != 0)
        return "page times";
    if (memcmp(one->replies, other->replies, sizeof one->replies) != 0)
        return "replies";
    return NULL;
}

/* What differs from the library where the same is due. The pass tries no orders, so it is not held to a stop; it undoes
   nothing, so of a refused trace it is held to answer and result. */
static const char *wrong_difference(enum way way)
{
    uint32_t answer = left[LIBRARY].answer;

    if (way == PLAIN || answer == HAZELCROOK_SETTLED)
        return difference(&left[LIBRARY], &left[way]);
    if (answer < HAZELCROOK_CROWDED && !same_result(&left[LIBRARY], &left[way]))
        return "answer or result";
    return NULL;
}

/* The first turn: what each leaves is kept and compared. */
static double first_turn(struct trace *trace)
{
    double seconds = 0;
    int way;

    for (way = 0; way < WAYS; way++)
        if (REPLAYS[way] != NULL) {
            seconds += timed(trace, (enum way)way);
            left[way] = desk;
        }
    trace->answer = left[LIBRARY].answer;
    for (way = PLAIN; way < WAYS; way++) {
        const char *differs = REPLAYS[way] != NULL ? wrong_difference((enum way)way) : NULL;

        if (differs != NULL) {
            fprintf(stderr, "bench: %s: %s differs between the library and %s\n", trace->file, differs,
                    way == PLAIN ? "plain Rust" : "the pass in C");
            exit(2);
        }
    }
    return seconds;
}

/* Which comes at a place of a turn: the order goes round from turn to turn, and every other time back, so that each comes
   as often after each of the others. */
static enum way at_place(int turn, int place)
{
    int step = turn / WAYS % 2 == 0 ? place : WAYS - place;

    return (enum way)((turn + step) % WAYS);
}

static void measure(struct trace *trace, int most)
{
    double turn = first_turn(trace);
    int way, number;

    trace->turns = BUDGET / turn < most ? (int)(BUDGET / turn) : most;
    if (trace->turns < LEAST_TURNS)
        trace->turns = LEAST_TURNS;
    for (number = 0; number < trace->turns; number++)
        for (way = 0; way < WAYS; way++) {
            enum way next = at_place(number, way);

            times[next][number] = timed(trace, next);
            if (difference(&left[next], &desk) != NULL)
                fault("a replay differs from itself", trace->file);
        }
    for (way = 0; way < WAYS; way++) {
        qsort(times[way], (size_t)trace->turns, sizeof times[way][0], by_size);
        trace->least[way] = times[way][0];
        trace->median[way] = times[way][trace->turns / 2];
    }
}

/* Telling. */

static void tell_heading(void)
{
    printf("%-15s %6s %7s %6s %6s %5s  %19s  %21s  %15s  %15s  %13s\n", "", "", "", "", "", "", "ours, us",
           "plain Rust, us", "ours/plain", "pass in C, us", "ours/pass");
    printf("%-15s %6s %7s %6s %6s %5s  %9s %9s  %10s %10s  %7s %7s  %7s %7s  %6s %6s\n", "trace", "bytes", "records",
           "stamps", "answer", "turns", "least", "median", "least", "median", "least", "median", "least", "median",
           "least", "median");
}

static double least_ratio(const struct trace *trace, enum way to)
{
    return trace->least[LIBRARY] / trace->least[to];
}

static double median_ratio(const struct trace *trace, enum way to)
{
    return trace->median[LIBRARY] / trace->median[to];
}

static void tell(const struct trace *trace)
{
    printf("%-15s %6zu %7u %6u %6u %5d", trace->name, trace->len, trace->records, trace->stamps,
           (unsigned)trace->answer, trace->turns);
    printf("  %9.1f %9.1f  %10.1f %10.1f", trace->least[LIBRARY] * 1e6, trace->median[LIBRARY] * 1e6,
           trace->least[PLAIN] * 1e6, trace->median[PLAIN] * 1e6);
    printf("  %7.4f %7.4f  %7.1f %7.1f", least_ratio(trace, PLAIN), median_ratio(trace, PLAIN),
           trace->least[PASS] * 1e6, trace->median[PASS] * 1e6);
    printf("  %6.2f %6.2f\n", least_ratio(trace, PASS), median_ratio(trace, PASS));
    fflush(stdout);
}

/* A bar: ours takes at most so many times of what another takes, by the least and by the median. */
struct bar {
    const char *says;
    enum way to;
    double most;
    const char *trace; /* one trace by name, */
    int group;         /* or a group, or GROUPS for all but growth */
};

static const struct bar BARS[] = {
    {"on each trace no more time than plain Rust", PLAIN, 1.0, NULL, GROUPS},
    {"on each tied trace at most half of plain Rust's time", PLAIN, 0.5, NULL, TIED},
    {"on full-tied at most a fiftieth of plain Rust's time", PLAIN, 0.02, "full-tied", GROUPS},
    {"on long-untied at most three times the pass in C", PASS, 3.0, "long-untied", GROUPS},
};

static int concerns(const struct bar *bar, const struct trace *trace)
{
    if (bar->trace != NULL)
        return strcmp(bar->trace, trace->name) == 0;
    return trace->group != GROWTH && (bar->group == GROUPS || bar->group == (int)trace->group);
}

/* Tells how one bar stands; 0 where a trace misses it, or none is there to ask. */
static int tell_bar(const struct bar *bar, const struct trace *traces, int count)
{
    int asked = 0, missed = 0, number;

    for (number = 0; number < count; number++) {
        const struct trace *trace = &traces[number];

        if (!concerns(bar, trace))
            continue;
        asked++;
        if (least_ratio(trace, bar->to) > bar->most || median_ratio(trace, bar->to) > bar->most) {
            printf("MISSED: %s: %s has %.4f (least), %.4f (median)\n", bar->says, trace->name,
                   least_ratio(trace, bar->to), median_ratio(trace, bar->to));
            missed++;
        }
    }
    if (asked == 0)
        printf("MISSED: %s: no such trace\n", bar->says);
    else if (missed == 0)
        printf("holds: %s (%d asked)\n", bar->says, asked);
    return asked != 0 && missed == 0;
}

/* The ways to spoil a trace at a place: its end or the byte is lost, a bit is changed, or another byte stands there. */
enum { CUT_OFF, BYTE_LOST, BIT_CHANGED, OTHER_BYTE };

static const char OTHER_BYTES[] = {'\t', ' ', '\n', 'O', '9'};

enum { SPOILS = OTHER_BYTE + sizeof OTHER_BYTES };

static void spoil(struct trace *trace, size_t place, int how)
{
    uint8_t *at = trace->text + place;

    switch (how) {
    case CUT_OFF: trace->len = place; break;
    case BYTE_LOST: memmove(at, at + 1, --trace->len - place); break;
    case BIT_CHANGED: *at ^= 1; break;
    default: *at = (uint8_t)OTHER_BYTES[how - OTHER_BYTE]; break;
    }
}

/* Spoilt at each of its bytes in each way, most often into a line of wrong form: the line and its bad field are the same. */
static void compare_spoilt(const struct trace *trace)
{
    static struct trace spoilt;
    char told[80];
    size_t place;
    int how;

    for (place = 0; place < trace->len; place++)
        for (how = 0; how < SPOILS; how++) {
            spoilt = *trace;
            spoil(&spoilt, place, how);
            snprintf(told, sizeof told, "%s, spoilt at byte %zu (%d)", trace->name, place, how);
            spoilt.file = told;
            first_turn(&spoilt);
        }
    printf("passed: %s: spoilt at each byte it leaves the same too\n", trace->name);
}

/* Every trace once: one that differs ends the program. */
static void compare_all(struct trace *traces, int count)
{
    int passed = 0, number;

    for (number = 0; number < count; number++) {
        first_turn(&traces[number]);
        printf("passed: %s: the library and what is measured beside it leave the same\n", traces[number].name);
        passed++;
        if (traces[number].group == SPOILT) {
            compare_spoilt(&traces[number]);
            passed++;
        }
    }
    printf("%d passed, 0 failed\n", passed);
}

/* Every trace in turns, then the bars; those of growth have none. 0 where a bar is missed. */
static int measure_all(struct trace *traces, int count, int turns)
{
    int held = 1, number;
    size_t bar;

    tell_heading();
    for (number = 0; number < count; number++) {
        measure(&traces[number], turns);
        tell(&traces[number]);
    }
    for (bar = 0; bar < sizeof BARS / sizeof BARS[0] && traces[0].group != GROWTH; bar++)
        held &= tell_bar(&BARS[bar], traces, count);
    return held;
}

int main(int argc, char **argv)
{
    int turns = argc > 1 ? atoi(argv[1]) : -1, count = (argc - 2) / 2, held = 1, number;
    struct trace *traces;

    if (turns < 0 || turns > MOST_TURNS || argc < 4 || argc % 2 != 0)
        fault("usage", "bench TURNS (tied|untied|growth|spoilt FILE)..");
    if (turns != 0 && REPLAYS[PLAIN] == NULL)
        fault("nothing is timed", "built without plain Rust");
    traces = calloc((size_t)count, sizeof *traces);
    if (traces == NULL)
        fault("no memory", "traces");
    for (number = 0; number < count; number++)
        load(&traces[number], argv[2 + 2 * number], argv[3 + 2 * number]);
    if (turns == 0)
        compare_all(traces, count);
    else
        held = measure_all(traces, count, turns);
    free(traces);
    return held ? 0 : 1;
}
