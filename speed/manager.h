/* The same rules as the proved manager, in plain C: one structure, updated in place. It is the yardstick of the measurements. */
#ifndef MANAGER_H
#define MANAGER_H
#include <stddef.h>
#include <stdint.h>

enum { MOST_NETWORKS = 8, MOST_CONTROLLERS = 4, RECORD = 3, BUS_OFF_ROOM = 9, STALL_ROOM = 3, IDS = 256 };

struct network {
    /* the settings */
    uint8_t handle, controllers, controller[MOST_CONTROLLERS], transceiver, has_transceiver, threshold, partial, at_or_above;
    uint16_t short_delay, long_delay, ensure;
    /* N3: the record, with a bit for each controller that answered ok, and for each that refused */
    uint8_t step, wanted, told, bus_offs, asked, okay, refused, reported;
    uint16_t ticks;
};

struct manager {
    /* L1: whether the manager listens is kept beside the networks */
    uint8_t started, count, listening;
    uint16_t tick_room, listen_room;
    struct network network[MOST_NETWORKS];
    /* by id: 0 where nobody has it, else 1 + the network (of a controller: 1 + 4 x the network + its place there) */
    uint8_t by_handle[IDS], by_controller[IDS], by_transceiver[IDS];
};

/* R1, H2: what a call gives, its answer (0: accepted) and the number of records handed out. */
struct outcome {
    uint8_t answer;
    size_t count;
};

/* Starts a manager with a sheet, which is taken to be a good one. */
void manager_start(struct manager *manager, const uint8_t *sheet, size_t length);
struct outcome manager_tick(struct manager *manager, uint8_t *out, size_t room);
struct outcome manager_bus_off(struct manager *manager, uint8_t id, uint8_t *out, size_t room);
struct outcome manager_stall(struct manager *manager, uint8_t handle, uint8_t *out, size_t room);
struct outcome manager_listen(struct manager *manager, uint8_t value, uint8_t *out, size_t room);
uint8_t manager_controller_answer(struct manager *manager, uint8_t id, uint8_t mode, uint8_t okay);
uint8_t manager_transceiver_mode(struct manager *manager, uint8_t id, uint8_t mode);
uint8_t manager_clear_done(struct manager *manager, uint8_t id);
uint8_t manager_check_done(struct manager *manager, uint8_t id);
uint8_t manager_request(struct manager *manager, uint8_t handle, uint8_t mode);
#endif
