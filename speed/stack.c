/* How much stack the work takes, once it has settled:  stack SIDE ROUNDS
   A timer's signal interrupts the work, again and again. Its handler, which has a stack of its own, notes the stack pointer: the highest
   one seen is that of the loop itself, between two calls. The first time it also fills all stack below what is in use with a pattern: what
   the rest of the work has written over is seen afterwards. Where the work wrote over nothing of it, the lowest pointer seen counts. */
#define _GNU_SOURCE
#include "work.h"
#include <signal.h>
#include <stdio.h>
#include <stdlib.h>
#include <string.h>
#include <sys/time.h>
#include <ucontext.h>

enum { DEPTH = 65536, RED_ZONE = 128, PATTERN = 0xA5, SETTLED = 20, MILLISECOND = 1000 };

static uint8_t *lowest; /* the end of the stack that is filled */
static uint8_t *filled; /* where the pattern ends, above */
static uint8_t *highest, *deepest; /* the highest and the lowest stack pointer seen */
static volatile sig_atomic_t signals;

static void interrupted(int number, siginfo_t *information, void *context) {
    uint8_t *pointer = (uint8_t *)((ucontext_t *)context)->uc_mcontext.gregs[REG_RSP];
    (void)number;
    (void)information;
    if (++signals < SETTLED) return;
    if (!filled) {
        filled = pointer - RED_ZONE;
        for (uint8_t *at = lowest; at < filled; at++) *(volatile uint8_t *)at = PATTERN;
    }
    if (!highest || pointer > highest) highest = pointer;
    if (!deepest || pointer < deepest) deepest = pointer;
}

/* Makes the stack that far below the caller part of the program. */
__attribute__((noinline)) static void reach(uint8_t *top) {
    volatile uint8_t room[DEPTH];
    for (size_t i = 0; i < sizeof room; i += 512) room[i] = 0;
    lowest = top - DEPTH;
}

static void every_millisecond(int on) {
    struct itimerval timer = { { 0, on * MILLISECOND }, { 0, on * MILLISECOND } };
    setitimer(ITIMER_REAL, &timer, NULL);
}

/* One line: the stack below the caller, of it that of the loop, and the rest, which is that of the call. */
__attribute__((noinline)) static void measure(const char *name, work *run, uint8_t setting, uint64_t rounds) {
    static uint8_t sheet[SHEET_ROOM], out[ROOM];
    size_t length = write_sheet(sheet, 8, 4);
    uint8_t *top;
    filled = highest = deepest = NULL;
    signals = 0;
    __asm__ volatile("mov %%rsp, %0" : "=r"(top));
    reach(top);
    every_millisecond(1);
    run(sheet, length, setting, rounds, out);
    every_millisecond(0);
    if (!filled) {
        printf("%s too-few-rounds\n", name);
        return;
    }
    uint8_t *at = lowest;
    while (at < filled && *at == PATTERN) at++;
    if (at == filled) at = deepest;
    printf("%s %ld %ld %ld\n", name, (long)(top - at), (long)(top - highest), (long)(highest - at));
}

int main(int count, char **words) {
    static uint8_t own[1 << 16];
    stack_t stack = { .ss_sp = own, .ss_size = sizeof own };
    struct sigaction action = { .sa_sigaction = interrupted, .sa_flags = SA_SIGINFO | SA_ONSTACK | SA_RESTART };
    int proved = count == 3 && !strcmp(words[1], "proved");
    if (count != 3 || (!proved && strcmp(words[1], "yardstick"))) {
        fputs("usage: stack proved|yardstick ROUNDS\n", stderr);
        return 2;
    }
    uint64_t rounds = strtoull(words[2], NULL, 10);
    sigaltstack(&stack, NULL);
    sigaction(SIGALRM, &action, NULL);
    measure("answers", proved ? proved_answers : yardstick_answers, 32, 10 * rounds);
    measure("resting", proved ? proved_ticks : yardstick_ticks, CALM, rounds);
    measure("busy", proved ? proved_ticks : yardstick_ticks, DEAF, rounds);
    measure("closed", proved ? proved_play : yardstick_play, RESTLESS, rounds);
    return 0;
}
