/* ours.c: runs the library so many times on a policy, for callgrind and the clock.
 *
 * usage: ours compile|sound|summarize|change|relabel|sound-change|sound-relabel FILE TIMES
 * change asks a granted change of the first user's first context, on class 1 (the first after process), permission 0: all its constraints
 * are consulted. relabel asks a granted relabelling of a file of that class, with that context for all three. The same with sound- in front is asked of the
 * table that was tested once, with its summary; since the clock itself takes as long as some of them, the time is that of BATCH questions, by their
 * number. Prints the answer and, as its last word, the best time of one run in nanoseconds. */
#include <stdio.h>
#include <stdlib.h>
#include <string.h>
#include <time.h>

#include "tegzhumbi.h"

#define BATCH 64

static uint8_t text[65536], table[186068];
static size_t length, used;
static tegzhumbi_summary summary;

static double now(void) {
    struct timespec t;
    clock_gettime(CLOCK_MONOTONIC, &t);
    return 1e9 * (double)t.tv_sec + (double)t.tv_nsec;
}

/* What can be run: each gives two numbers of its answer. */
typedef struct {
    unsigned a, b;
} said;

static said compile(void) {
    tegzhumbi_compiled compiled = tegzhumbi_compile(text, length, table, sizeof table);
    return (said){compiled.number, compiled.place};
}

static said sound(void) { return (said){tegzhumbi_sound(table, used), 0}; }

static said summarize(void) { return (said){tegzhumbi_summarize(table, used, &summary), 0}; }

static said answered(tegzhumbi_answer answer) { return (said){answer.outcome, answer.consulted}; }

static said change(void) { return answered(tegzhumbi_change(table, used, 0, 0, 0, 0, 0, 0, 1, 0)); }

static said relabel(void) { return answered(tegzhumbi_relabel(table, used, 1, 0, 0, 0, 0, 0, 0, 0, 0, 0)); }

static said sound_change(void) { return answered(tegzhumbi_sound_change(table, used, &summary, 0, 0, 0, 0, 0, 0, 1, 0)); }

static said sound_relabel(void) { return answered(tegzhumbi_sound_relabel(table, used, &summary, 1, 0, 0, 0, 0, 0, 0, 0, 0, 0)); }

static const struct {
    const char *name;
    said (*run)(void);
    int batch;
} runs[] = {{"compile", compile, 1}, {"sound", sound, 1}, {"summarize", summarize, 1}, {"change", change, 1}, {"relabel", relabel, 1},
            {"sound-change", sound_change, BATCH}, {"sound-relabel", sound_relabel, BATCH}};

int main(int argc, char **argv) {
    if (argc != 4) return 2;
    FILE *file = fopen(argv[2], "rb");
    if (!file) return 2;
    length = fread(text, 1, sizeof text, file);
    int times = atoi(argv[3]);
    size_t what = 0;
    while (strcmp(runs[what].name, argv[1]))
        if (++what == sizeof runs / sizeof *runs) return 2;
    if (what > 0) {
        used = tegzhumbi_compile(text, length, table, sizeof table).place;
        if (!tegzhumbi_summarize(table, used, &summary)) return 3;
    }
    double best = 1e18;
    said last = {0, 0};
    for (int i = 0; i < times; i++) {
        double start = now();
        for (int k = 0; k < runs[what].batch; k++) last = runs[what].run();
        double took = (now() - start) / runs[what].batch;
        if (took < best) best = took;
    }
    printf("%s %u %u best %.0f\n", argv[1], last.a, last.b, best);
    return 0;
}
