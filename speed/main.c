/* Runs one kind of work on one side:  work SIDE WORK NETWORKS CONTROLLERS ROUNDS [REPEATS]
   SIDE      proved, yardstick
   WORK      resting, busy, listening, answers, closed
   It prints the sum of what was handed out, and of REPEATS runs the best time of a round in nanoseconds. */
#define _POSIX_C_SOURCE 200809L
#include "work.h"
#include <stdio.h>
#include <stdlib.h>
#include <string.h>
#include <time.h>

static const struct {
    const char *side, *name;
    work *run;
    int style; /* of the box; -1: the number of controllers instead */
} WORKS[] = {
    { "proved", "resting", proved_ticks, CALM },     { "yardstick", "resting", yardstick_ticks, CALM },
    { "proved", "busy", proved_ticks, DEAF },        { "yardstick", "busy", yardstick_ticks, DEAF },
    { "proved", "listening", proved_quiet_ticks, DEAF },
    { "yardstick", "listening", yardstick_quiet_ticks, DEAF },
    { "proved", "answers", proved_answers, -1 },     { "yardstick", "answers", yardstick_answers, -1 },
    { "proved", "closed", proved_play, RESTLESS },   { "yardstick", "closed", yardstick_play, RESTLESS },
    /* for the checksums: the same boxes, and every record handed out goes into the sum */
    { "proved", "calm-box", proved_play, CALM },     { "yardstick", "calm-box", yardstick_play, CALM },
    { "proved", "deaf-box", proved_play, DEAF },     { "yardstick", "deaf-box", yardstick_play, DEAF },
    { "proved", "quiet-box", proved_quiet_play, RESTLESS },
    { "yardstick", "quiet-box", yardstick_quiet_play, RESTLESS },
};

static double seconds(void) {
    struct timespec now;
    clock_gettime(CLOCK_MONOTONIC, &now);
    return (double)now.tv_sec + (double)now.tv_nsec / 1e9;
}

static unsigned number(const char *text, unsigned least, unsigned most, const char *what) {
    char *end;
    unsigned long value = strtoul(text, &end, 10);
    if (*end || end == text || value < least || value > most) {
        fprintf(stderr, "work: %s is %u to %u, not '%s'\n", what, least, most, text);
        exit(2);
    }
    return (unsigned)value;
}

int main(int count, char **words) {
    static uint8_t sheet[SHEET_ROOM], out[ROOM];
    if (count < 6 || count > 7) {
        fputs("usage: work SIDE WORK NETWORKS CONTROLLERS ROUNDS [REPEATS]\n", stderr);
        return 2;
    }
    unsigned networks = number(words[3], 1, 8, "NETWORKS"), controllers = number(words[4], 1, 4, "CONTROLLERS");
    unsigned rounds = number(words[5], 1, 4000000000u, "ROUNDS"), repeats = count > 6 ? number(words[6], 1, 1000, "REPEATS") : 1;
    size_t length = write_sheet(sheet, networks, controllers);
    for (size_t i = 0; i < sizeof WORKS / sizeof *WORKS; i++) {
        if (strcmp(words[1], WORKS[i].side) || strcmp(words[2], WORKS[i].name)) continue;
        uint8_t setting = (uint8_t)(WORKS[i].style < 0 ? (int)(networks * controllers) : WORKS[i].style);
        double best = 1e9;
        uint32_t sum = 0;
        for (unsigned repeat = 0; repeat < repeats; repeat++) {
            double start = seconds();
            sum = WORKS[i].run(sheet, length, setting, rounds, out);
            double taken = seconds() - start;
            if (taken < best) best = taken;
        }
        printf("%u %.3f\n", sum, best * 1e9 / rounds);
        return 0;
    }
    fprintf(stderr, "work: no work '%s' of '%s'\n", words[2], words[1]);
    return 2;
}
