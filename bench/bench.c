/* Measures the proved library against the hand-written code, in one run: areas a second for
 * read, check, write and read with write, over three sets of areas. The answers are held
 * against each other first. Rounds of the two take turns; printed are the best round of each,
 * the ratio of these, and the median of the ratios of rounds that stand side by side, which
 * other work on the machine disturbs less. Buffers are not cleared between calls. */
#include "areas.h"
#include "hand.h"
#include "same.h"

#include <stdio.h>
#include <stdlib.h>
#include <time.h>

enum { ROUNDS = 200, SHEET_ROOM = GIR_SHEET_ROOM(GIR_LONGEST_AREA), LIST_ROOM = 8192 };
static const double ROUND_SECONDS = 0.002;

static const desk proved = {"proved", gir_read, gir_check, gir_write};
static const desk hand = {"hand", hand_read, hand_check, hand_write};

/* The sheets of the set that is measured, and the buffers of the answers. */
static uint8_t sheets[MESSAGES][SHEET_ROOM];
static size_t lengths[MESSAGES];
static uint8_t sheet[SHEET_ROOM], written[GIR_LONGEST_AREA];
static uint32_t list[LIST_ROOM];

/* A sum of what the answers say, so that no call can be left out. */
static uint64_t said;

static double now(void)
{
    struct timespec at;
    clock_gettime(CLOCK_MONOTONIC, &at);
    return (double)at.tv_sec + 1e-9 * (double)at.tv_nsec;
}

static void read_all(const desk *by, const area_set *set)
{
    for (size_t k = 0; k < set->count; k++) {
        const area *of = &set->areas[k];
        said += by->read(of->octets, of->length, of->kind, of->flags, sheet, SHEET_ROOM).length;
    }
}

static void check_all(const desk *by, const area_set *set)
{
    for (size_t k = 0; k < set->count; k++) {
        const area *of = &set->areas[k];
        said += by->check(of->octets, of->length, of->kind, of->flags, list, LIST_ROOM).length;
    }
}

static void write_all(const desk *by, const area_set *set)
{
    for (size_t k = 0; k < set->count; k++)
        said += by->write(sheets[k], lengths[k], written, sizeof written).length;
}

static void read_and_write_all(const desk *by, const area_set *set)
{
    for (size_t k = 0; k < set->count; k++) {
        const area *of = &set->areas[k];
        gir_answer read = by->read(of->octets, of->length, of->kind, of->flags, sheet, SHEET_ROOM);
        said += by->write(sheet, read.length, written, sizeof written).length;
    }
}

typedef struct job {
    const char *name;
    void (*all)(const desk *, const area_set *);
} job;

static const job jobs[] = {
    {"read", read_all},
    {"check", check_all},
    {"write", write_all},
    {"read + write", read_and_write_all},
};

/* How often the set is gone through in one round. */
static unsigned long turns_of(const job *what, const area_set *set)
{
    unsigned long turns = 1;
    for (;;) {
        double start = now();
        for (unsigned long k = 0; k < turns; k++)
            what->all(&hand, set);
        if (now() - start > ROUND_SECONDS)
            return turns;
        turns *= 2;
    }
}

/* Areas a second in one round. */
static double speed(const desk *by, const job *what, const area_set *set, unsigned long turns)
{
    double start = now();
    for (unsigned long k = 0; k < turns; k++)
        what->all(by, set);
    return (double)turns * (double)set->count / (now() - start);
}

static int rising(const void *x, const void *y)
{
    double a = *(const double *)x, b = *(const double *)y;
    return (a > b) - (a < b);
}

/* Rounds of both take turns, and which is first takes turns too. */
static void measure(const job *what, const area_set *set)
{
    const desk *both[2] = {&proved, &hand};
    double best[2] = {0, 0}, ratios[ROUNDS];
    unsigned long turns = turns_of(what, set);
    for (int round = 0; round < ROUNDS; round++) {
        double found[2];
        for (int n = 0; n < 2; n++) {
            int which = (round + n) % 2;
            found[which] = speed(both[which], what, set, turns);
            best[which] = found[which] > best[which] ? found[which] : best[which];
        }
        ratios[round] = found[0] / found[1];
    }
    qsort(ratios, ROUNDS, sizeof *ratios, rising);
    printf("%-30s %-13s %11.0f %11.0f %7.2f %8.2f\n", set->name, what->name, best[0], best[1],
           best[0] / best[1], ratios[ROUNDS / 2]);
}

/* Keeps the sheets of the set, by the hand-written code: the answers are the same. */
static void keep_sheets(const area_set *set)
{
    for (size_t k = 0; k < set->count; k++) {
        const area *of = &set->areas[k];
        lengths[k] =
            hand_read(of->octets, of->length, of->kind, of->flags, sheets[k], SHEET_ROOM).length;
    }
}

static void hold_against_each_other(const area_set *sets, size_t count)
{
    unsigned long asked = 0;
    for (size_t n = 0; n < count; n++)
        for (size_t k = 0; k < sets[n].count; k++) {
            unsigned long more = same_answers(&proved, &hand, &sets[n].areas[k]);
            if (more == 0) {
                fprintf(stderr, "bench: %s, area %zu: the answers differ\n", sets[n].name, k);
                exit(1);
            }
            asked += more;
        }
    printf("%lu questions, every answer and every octet of the buffers the same\n", asked);
}

int main(void)
{
    const area_set sets[] = {messages(), shortest_attributes(), longest_attributes()};
    const size_t count = sizeof sets / sizeof *sets;
    size_t octets = 0, breaches = 0;
    for (size_t k = 0; k < sets[0].count; k++) {
        const area *of = &sets[0].areas[k];
        octets += of->length;
        breaches += hand_check(of->octets, of->length, of->kind, of->flags, list, LIST_ROOM).length;
    }
    hold_against_each_other(sets, count);
    printf("messages: %zu, %zu octets each on average, %zu breaches in all\n", sets[0].count,
           octets / sets[0].count, breaches);
    printf("areas a second, best of %d rounds in turn; buffers are not cleared between calls\n",
           ROUNDS);
    printf("%-30s %-13s %11s %11s %7s %8s\n", "areas", "job", "proved", "hand", "ratio", "in turn");
    for (size_t n = 0; n < count; n++) {
        keep_sheets(&sets[n]);
        for (size_t k = 0; k < sizeof jobs / sizeof *jobs; k++)
            measure(&jobs[k], &sets[n]);
    }
    return said == 0;
}
