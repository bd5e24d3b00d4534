/* The work of crates/workload, on the rules in C. The two are written alike, call by call. */
#include "work.h"
#include "manager.h"

enum { MOST_RECORDS = 48, SETTLING = 100 };

static inline uint32_t mix(uint32_t sum, uint8_t number) { return sum * 33 + number; }

static inline uint32_t mix_record(uint32_t sum, const uint8_t *record) {
    return mix(mix(mix(sum, record[0]), record[1]), record[2]);
}

/* A bus-off of a network's first controller, whose id is the network's handle in the sheets of this work. */
static uint32_t strike(struct manager *manager, uint8_t handle, uint32_t sum) {
    uint8_t records[BUS_OFF_ROOM];
    struct outcome outcome = manager_bus_off(manager, handle, records, sizeof records);
    for (size_t k = 0; k < outcome.count; k++) sum = mix_record(sum, records + RECORD * k);
    return sum;
}

static uint32_t play(struct manager *manager, uint8_t style, uint64_t rounds, uint8_t *out) {
    uint32_t sum = 0;
    int shutdown = 0;
    for (uint64_t round = 0; round < rounds; round++) {
        size_t count = manager_tick(manager, out, ROOM).count;
        for (size_t k = 0; k < count && k < MOST_RECORDS; k++) {
            uint8_t kind = out[RECORD * k], target = out[RECORD * k + 1], argument = out[RECORD * k + 2];
            sum = mix_record(sum, out + RECORD * k);
            if (kind == 1) {
                if (style != DEAF) manager_controller_answer(manager, target, argument, 1);
            } else if (kind == 2) {
                manager_transceiver_mode(manager, target, argument);
            } else if (kind == 4) {
                manager_clear_done(manager, target);
            } else if (kind == 5) {
                manager_check_done(manager, target);
            } else if (kind == 6 && argument == 0) {
                manager_request(manager, target, 2);
            } else if (kind == 8 && argument == 0 && style == RESTLESS) {
                if (shutdown) manager_request(manager, target, 0);
                else sum = strike(manager, target, sum);
                shutdown = !shutdown;
            }
        }
    }
    return sum;
}

uint32_t yardstick_play(const uint8_t *sheet, size_t length, uint8_t style, uint64_t rounds, uint8_t *out) {
    static struct manager manager;
    manager_start(&manager, sheet, length);
    return play(&manager, style, rounds, out);
}

uint32_t yardstick_ticks(const uint8_t *sheet, size_t length, uint8_t style, uint64_t rounds, uint8_t *out) {
    static struct manager manager;
    uint32_t sum = 0;
    manager_start(&manager, sheet, length);
    play(&manager, style, SETTLING, out);
    for (uint64_t round = 0; round < rounds; round++) sum = mix(sum, (uint8_t)manager_tick(&manager, out, ROOM).count);
    return sum;
}

uint32_t yardstick_quiet_play(const uint8_t *sheet, size_t length, uint8_t style, uint64_t rounds, uint8_t *out) {
    static struct manager manager;
    manager_start(&manager, sheet, length);
    manager_listen(&manager, 1, out, ROOM);
    return play(&manager, style, rounds, out);
}

uint32_t yardstick_quiet_ticks(const uint8_t *sheet, size_t length, uint8_t style, uint64_t rounds, uint8_t *out) {
    static struct manager manager;
    uint32_t sum = 0;
    manager_start(&manager, sheet, length);
    manager_listen(&manager, 1, out, ROOM);
    play(&manager, style, SETTLING, out);
    for (uint64_t round = 0; round < rounds; round++) sum = mix(sum, (uint8_t)manager_tick(&manager, out, ROOM).count);
    return sum;
}

uint32_t yardstick_answers(const uint8_t *sheet, size_t length, uint8_t controllers, uint64_t rounds, uint8_t *out) {
    static struct manager manager;
    uint32_t sum = 0;
    uint8_t id = 0, okay = 1;
    manager_start(&manager, sheet, length);
    play(&manager, DEAF, SETTLING, out);
    for (uint64_t round = 0; round < rounds; round++) {
        sum = mix(sum, manager_controller_answer(&manager, id, 0, okay));
        if (++id >= controllers) {
            id = 0;
            okay = 1 - okay;
        }
    }
    return sum;
}
