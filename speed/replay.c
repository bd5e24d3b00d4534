/* Recordings through the rules in C, so that a test can hold them against the model. Standard input has for each recording four bytes length, high
   byte first, and then its bytes: a good sheet and good events. For each recording a line `case K` is written, K from 1, and then the line of each
   event, as `cantrace` has it. */
#include <stdio.h>
#include "manager.h"

enum { REQUEST = 0x10, BUS_OFF, ANSWER, TRANSCEIVER_MODE, CLEAR_DONE, CHECK_DONE, TICK, POLL, STALL, LISTEN };
enum { HEAD = 3, LENGTH = 4, LARGEST = 65536, ROOM = 144, NO_HANDLE = 3 };

static uint8_t recording[LARGEST];

/* The place after the field at this place. */
static size_t after(size_t at) { return at + HEAD + (size_t)(recording[at + 1] << 8 | recording[at + 2]); }

/* The call of the event with this tag and value; the records go to the buffer. */
static struct outcome make(struct manager *manager, uint8_t tag, const uint8_t *value, uint8_t *out) {
    struct outcome outcome = {0, 0};
    switch (tag) {
    case REQUEST: outcome.answer = manager_request(manager, value[0], value[1]); break;
    case BUS_OFF: outcome = manager_bus_off(manager, value[0], out, ROOM); break;
    case ANSWER: outcome.answer = manager_controller_answer(manager, value[0], value[1], value[2]); break;
    case TRANSCEIVER_MODE: outcome.answer = manager_transceiver_mode(manager, value[0], value[1]); break;
    case CLEAR_DONE: outcome.answer = manager_clear_done(manager, value[0]); break;
    case CHECK_DONE: outcome.answer = manager_check_done(manager, value[0]); break;
    case TICK: outcome = manager_tick(manager, out, ROOM); break;
    case STALL: outcome = manager_stall(manager, value[0], out, ROOM); break;
    case LISTEN: outcome = manager_listen(manager, value[0], out, ROOM); break;
    }
    return outcome;
}

/* The line of an event. The rules in C have no poll: the mode last told is read off the network. */
static void print_event(struct manager *manager, unsigned number, uint8_t tag, const uint8_t *value) {
    uint8_t out[ROOM];
    if (tag == POLL) {
        unsigned found = manager->by_handle[value[0]];
        printf("%u %d %d\n", number, found ? 0 : NO_HANDLE, found ? manager->network[found - 1].told : 0);
        return;
    }
    struct outcome outcome = make(manager, tag, value, out);
    printf("%u %d", number, outcome.answer);
    for (size_t i = 0; i < outcome.count; i++) printf(" %d:%d:%d", out[RECORD * i], out[RECORD * i + 1], out[RECORD * i + 2]);
    printf("\n");
}

/* The recording of this length: its sheet ends where the first tag of an event stands. */
static void replay(size_t length) {
    static struct manager manager;
    size_t at = 0;
    while (at < length && recording[at] < REQUEST) at = after(at);
    manager = (struct manager){0};
    manager_start(&manager, recording, at);
    for (unsigned number = 1; at < length; at = after(at)) print_event(&manager, number++, recording[at], recording + at + HEAD);
}

int main(void) {
    uint8_t head[LENGTH];
    for (unsigned number = 1; fread(head, 1, LENGTH, stdin) == LENGTH; number++) {
        size_t length = (size_t)head[0] << 24 | (size_t)head[1] << 16 | (size_t)head[2] << 8 | head[3];
        if (length > LARGEST || fread(recording, 1, length, stdin) != length) return 1;
        printf("case %u\n", number);
        replay(length);
    }
    return 0;
}
