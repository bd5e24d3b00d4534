/* The rules of docs/RULES.md in C, written by hand for speed: tables by step, answers as bits, networks found by an index of their ids. */
#include "manager.h"
#include <string.h>

/* N1: the seventeen steps. */
enum {
    NO_COMMUNICATION, TRANSCEIVER_NORMAL, CONTROLLERS_STOPPED, CONTROLLERS_STARTED, CHECKING, FULL_STEP, RESTARTING, WAITING, SILENT_STEP,
    CLEAR_WAKE, DOWN_STOPPED, TRANSCEIVER_STANDBY, CONTROLLERS_SLEEP, CHECK_WAKE, CHECK_WAKE_AGAIN, RESET_STOPPED, RESET_STARTED
};
enum { NO, SILENT, FULL };
enum { ASK_NOTHING, ASK_CONTROLLERS, ASK_TRANSCEIVER, ASK_CLEAR, ASK_CHECK };
/* H5 to H12: the kinds of records. */
enum { CONTROLLER = 1, TRANSCEIVER, PDU, CLEAR, CHECK, TELL, NOTE, REPORT };
/* H7: the arguments of kind 3. */
enum { ONLINE, TX_OFFLINE, TX_OFFLINE_ACTIVE };
/* R7, R9 to R15: the refusals of these calls. */
enum {
    NOT_READY = 1, NO_HANDLE = 3, NO_CONTROLLER, NO_TRANSCEIVER, ASLEEP = 8, TOO_SHORT = 0x20, OUT_OF_RANGE, NOT_TAKEN, COMING_UP = 0x24, GOING_DOWN
};

/* N1, N10: what each step asks for. */
static const uint8_t ASKS[] = {
    ASK_NOTHING, ASK_TRANSCEIVER, ASK_CONTROLLERS, ASK_CONTROLLERS, ASK_NOTHING, ASK_NOTHING, ASK_CONTROLLERS, ASK_NOTHING, ASK_NOTHING,
    ASK_CLEAR, ASK_CONTROLLERS, ASK_TRANSCEIVER, ASK_CONTROLLERS, ASK_CHECK, ASK_CHECK, ASK_CONTROLLERS, ASK_CONTROLLERS
};
/* The mode that a step asks for: of controllers stopped 0, started 1, sleep 2; of the transceiver normal 0, standby 1. */
static const uint8_t MODES[] = { 0, 0, 0, 1, 0, 0, 1, 0, 0, 0, 0, 1, 2, 0, 0, 0, 1 };

struct records {
    uint8_t *out;
    size_t count;
    /* L2: the argument with which online goes out */
    uint8_t online;
};

static inline struct records records_of(const struct manager *manager, uint8_t *out) {
    return (struct records){ out, 0, manager->listening ? TX_OFFLINE_ACTIVE : ONLINE };
}

/* H1, H2: a record is written behind the last one. */
static inline void put(struct records *to, uint8_t kind, uint8_t target, uint8_t argument) {
    uint8_t *at = to->out + RECORD * to->count++;
    at[0] = kind;
    at[1] = target;
    at[2] = argument;
}

static inline void put_each(struct records *to, const struct network *network, uint8_t kind, uint8_t argument) {
    for (unsigned i = 0; i < network->controllers; i++) put(to, kind, network->controller[i], argument);
}

static inline void tell(struct records *to, struct network *network, uint8_t mode) {
    put(to, TELL, network->handle, mode);
    network->told = mode;
}

static inline void forget(struct network *network) {
    network->asked = network->okay = network->refused = network->reported = 0;
}

static inline void move(struct network *network, uint8_t step) {
    network->step = step;
    network->ticks = 0;
    forget(network);
}

/* N4: up are steps 4 to 8, 15 and 16. */
static inline int is_up(uint8_t step) { return (step >= CHECKING && step <= SILENT_STEP) || step >= RESET_STOPPED; }

/* L3, L6: the steps in which each controller was last handed online are 4, 5, 15 and 16. */
static inline int is_online(uint8_t step) { return step == CHECKING || step == FULL_STEP || step >= RESET_STOPPED; }

/* T3: the steps from which a network goes down are those that come up and those that are up. */
static inline int can_go_down(uint8_t step) { return (step >= TRANSCEIVER_NORMAL && step <= SILENT_STEP) || step >= RESET_STOPPED; }

/* N13: a step is done that has asked, and what it asked for is there. */
static inline int is_done(const struct network *network) {
    if (!network->asked) return 0;
    switch (ASKS[network->step]) {
    case ASK_NOTHING: return 0;
    case ASK_CONTROLLERS: return network->okay == (1u << network->controllers) - 1;
    default: return network->reported;
    }
}

/* N11, N12: the requests of the step, to each controller where they are about controllers. */
static void ask(struct records *to, struct network *network) {
    uint8_t mode = MODES[network->step];
    switch (ASKS[network->step]) {
    case ASK_NOTHING: return;
    case ASK_CONTROLLERS: put_each(to, network, CONTROLLER, mode); break;
    case ASK_TRANSCEIVER: put(to, TRANSCEIVER, network->transceiver, mode); break;
    case ASK_CLEAR: put(to, CLEAR, network->transceiver, 0); break;
    case ASK_CHECK: put(to, CHECK, network->transceiver, 0); break;
    }
    network->asked = 1;
}

/* N11: the answers are forgotten, and the step that is entered asks. */
static void enter(struct records *to, struct network *network, uint8_t step) {
    move(network, step);
    ask(to, network);
}

/* T23: step 4 with 0 ticks. */
static void enter_full(struct records *to, struct network *network) {
    put_each(to, network, PDU, to->online);
    tell(to, network, FULL);
    put(to, NOTE, network->handle, 2);
    move(network, CHECKING);
}

/* T24: step 8. */
static void enter_silent(struct records *to, struct network *network) {
    put_each(to, network, PDU, TX_OFFLINE);
    tell(to, network, SILENT);
    put(to, NOTE, network->handle, 1);
    move(network, SILENT_STEP);
}

/* T28: step 0. */
static void enter_no(struct records *to, struct network *network) {
    tell(to, network, NO);
    move(network, NO_COMMUNICATION);
}

/* T25: the first down step, with its requests behind the notices. */
static void go_down(struct records *to, struct network *network) {
    put(to, NOTE, network->handle, 0);
    if (network->told == FULL) tell(to, network, SILENT);
    enter(to, network, network->partial ? CLEAR_WAKE : DOWN_STOPPED);
}

/* N12: not done, it asks again. */
static void go_on(struct records *to, struct network *network, uint8_t step) {
    if (is_done(network)) enter(to, network, step);
    else ask(to, network);
}

static void end_down(struct records *to, struct network *network) {
    if (is_done(network)) enter_no(to, network);
    else ask(to, network);
}

/* S27, T13: the long delay where the count is above the threshold, and by the newer rule at it; else the short one. */
static inline uint16_t delay(const struct network *network) {
    unsigned count = network->bus_offs, threshold = network->threshold;
    int is_long = network->at_or_above ? count >= threshold : count > threshold;
    return is_long ? network->long_delay : network->short_delay;
}

/* T1: one network's move. */
static void tick_network(struct records *to, struct network *network) {
    uint8_t step = network->step;
    /* T3: no is looked at first. */
    if (network->wanted == NO && can_go_down(step)) {
        go_down(to, network);
        return;
    }
    switch (step) {
    /* T4: full is wanted. */
    case NO_COMMUNICATION:
        if (network->wanted == FULL) enter(to, network, network->has_transceiver ? TRANSCEIVER_NORMAL : CONTROLLERS_STOPPED);
        break;
    /* T5 to T7: coming up. */
    case TRANSCEIVER_NORMAL: go_on(to, network, CONTROLLERS_STOPPED); break;
    case CONTROLLERS_STOPPED: go_on(to, network, CONTROLLERS_STARTED); break;
    case CONTROLLERS_STARTED:
        if (is_done(network)) enter_full(to, network);
        else ask(to, network);
        break;
    /* T8 to T10: silent is wanted, or the ensure time is reached. */
    case CHECKING:
        if (network->wanted == SILENT) {
            enter_silent(to, network);
        } else if (++network->ticks >= network->ensure) {
            put(to, REPORT, network->handle, 0);
            network->bus_offs = 0;
            move(network, FULL_STEP);
        }
        break;
    /* T8: silent is wanted. */
    case FULL_STEP:
        if (network->wanted == SILENT) enter_silent(to, network);
        break;
    /* T11: all controllers run. */
    case RESTARTING:
        if (is_done(network)) {
            put_each(to, network, PDU, TX_OFFLINE);
            move(network, WAITING);
        } else {
            ask(to, network);
        }
        break;
    /* T12, T13: the delay is reached. */
    case WAITING:
        if (++network->ticks >= delay(network)) {
            if (network->wanted == FULL) enter_full(to, network);
            else enter_silent(to, network);
        }
        break;
    /* T14: full is wanted. */
    case SILENT_STEP:
        if (network->wanted == FULL) enter_full(to, network);
        break;
    /* T15 to T22: going down. */
    case CLEAR_WAKE: go_on(to, network, DOWN_STOPPED); break;
    case DOWN_STOPPED: go_on(to, network, network->partial ? TRANSCEIVER_STANDBY : CONTROLLERS_SLEEP); break;
    case TRANSCEIVER_STANDBY:
        if (network->partial) go_on(to, network, CONTROLLERS_SLEEP);
        else end_down(to, network);
        break;
    case CONTROLLERS_SLEEP:
        if (network->partial) {
            if (network->refused) enter(to, network, CHECK_WAKE_AGAIN);
            else go_on(to, network, CHECK_WAKE);
        } else if (network->has_transceiver) {
            go_on(to, network, TRANSCEIVER_STANDBY);
        } else {
            end_down(to, network);
        }
        break;
    case CHECK_WAKE: end_down(to, network); break;
    case CHECK_WAKE_AGAIN: go_on(to, network, CLEAR_WAKE); break;
    /* T29: all controllers are stopped. */
    case RESET_STOPPED: go_on(to, network, RESET_STARTED); break;
    /* T30: all controllers run again. */
    case RESET_STARTED:
        if (!is_done(network)) ask(to, network);
        else if (network->wanted == SILENT) enter_silent(to, network);
        else enter_full(to, network);
        break;
    }
}

/* R7, R9, R16, T1: the networks in the order of the sheet. */
struct outcome manager_tick(struct manager *manager, uint8_t *out, size_t room) {
    if (!manager->started) return (struct outcome){ NOT_READY, 0 };
    if (room < manager->tick_room) return (struct outcome){ TOO_SHORT, 0 };
    struct records to = records_of(manager, out);
    for (unsigned i = 0; i < manager->count; i++) tick_network(&to, &manager->network[i]);
    return (struct outcome){ 0, to.count };
}

/* R7, R9, R11, R17, B1 to B6: a bus-off of a controller. */
struct outcome manager_bus_off(struct manager *manager, uint8_t id, uint8_t *out, size_t room) {
    if (!manager->started) return (struct outcome){ NOT_READY, 0 };
    if (room < BUS_OFF_ROOM) return (struct outcome){ TOO_SHORT, 0 };
    unsigned found = manager->by_controller[id];
    if (!found) return (struct outcome){ NO_CONTROLLER, 0 };
    struct network *network = &manager->network[(found - 1) / MOST_CONTROLLERS];
    struct records to = records_of(manager, out);
    if (is_up(network->step)) {
        if (network->step != RESTARTING && network->bus_offs < 255) network->bus_offs++;
        put(&to, REPORT, network->handle, 1);
        tell(&to, network, SILENT);
        put(&to, NOTE, network->handle, 3);
        move(network, RESTARTING);
    } else if (network->step == CONTROLLERS_STARTED) {
        forget(network);
    } else {
        return (struct outcome){ NOT_TAKEN, 0 };
    }
    return (struct outcome){ 0, to.count };
}

/* R7, R9, R10, R21, X1 to X5: the sending of a network has stuck. */
struct outcome manager_stall(struct manager *manager, uint8_t handle, uint8_t *out, size_t room) {
    if (!manager->started) return (struct outcome){ NOT_READY, 0 };
    if (room < STALL_ROOM) return (struct outcome){ TOO_SHORT, 0 };
    unsigned found = manager->by_handle[handle];
    if (!found) return (struct outcome){ NO_HANDLE, 0 };
    struct network *network = &manager->network[found - 1];
    if (network->step != CHECKING && network->step != FULL_STEP) return (struct outcome){ NOT_TAKEN, 0 };
    struct records to = records_of(manager, out);
    tell(&to, network, SILENT);
    move(network, RESET_STOPPED);
    return (struct outcome){ 0, to.count };
}

/* R7, R9, R13, R24, L1 to L4: listening is set or cleared, and online goes out anew where that changes it. */
struct outcome manager_listen(struct manager *manager, uint8_t value, uint8_t *out, size_t room) {
    if (!manager->started) return (struct outcome){ NOT_READY, 0 };
    if (room < manager->listen_room) return (struct outcome){ TOO_SHORT, 0 };
    if (value > 1) return (struct outcome){ OUT_OF_RANGE, 0 };
    if (value == manager->listening) return (struct outcome){ 0, 0 };
    manager->listening = value;
    struct records to = records_of(manager, out);
    for (unsigned i = 0; i < manager->count; i++) {
        const struct network *network = &manager->network[i];
        if (is_online(network->step)) put_each(&to, network, PDU, to.online);
    }
    return (struct outcome){ 0, to.count };
}

/* R7, R11, R13, A1, A2, A6: the last answer of the controller is kept. */
uint8_t manager_controller_answer(struct manager *manager, uint8_t id, uint8_t mode, uint8_t okay) {
    if (!manager->started) return NOT_READY;
    unsigned found = manager->by_controller[id];
    if (!found) return NO_CONTROLLER;
    if (mode > 2 || okay > 1) return OUT_OF_RANGE;
    struct network *network = &manager->network[(found - 1) / MOST_CONTROLLERS];
    if (!network->asked || ASKS[network->step] != ASK_CONTROLLERS || MODES[network->step] != mode) return NOT_TAKEN;
    uint8_t bit = 1u << (found - 1) % MOST_CONTROLLERS;
    network->okay = okay ? network->okay | bit : network->okay & ~bit;
    network->refused = okay ? network->refused & ~bit : network->refused | bit;
    return 0;
}

/* A3 to A6: a report is taken where the step asks for it and has asked. */
static uint8_t report(struct manager *manager, unsigned found, uint8_t asked, uint8_t mode) {
    struct network *network = &manager->network[found - 1];
    if (!network->asked || ASKS[network->step] != asked || MODES[network->step] != mode) return NOT_TAKEN;
    network->reported = 1;
    return 0;
}

/* R7, R12, R13, A3: the transceiver's mode. */
uint8_t manager_transceiver_mode(struct manager *manager, uint8_t id, uint8_t mode) {
    if (!manager->started) return NOT_READY;
    unsigned found = manager->by_transceiver[id];
    if (!found) return NO_TRANSCEIVER;
    if (mode > 2) return OUT_OF_RANGE;
    return report(manager, found, ASK_TRANSCEIVER, mode);
}

/* R7, R12, A4: the flag was cleared. */
uint8_t manager_clear_done(struct manager *manager, uint8_t id) {
    if (!manager->started) return NOT_READY;
    unsigned found = manager->by_transceiver[id];
    return found ? report(manager, found, ASK_CLEAR, 0) : NO_TRANSCEIVER;
}

/* R7, R12, A5: the flag was checked. */
uint8_t manager_check_done(struct manager *manager, uint8_t id) {
    if (!manager->started) return NOT_READY;
    unsigned found = manager->by_transceiver[id];
    return found ? report(manager, found, ASK_CHECK, 0) : NO_TRANSCEIVER;
}

/* N15, R14, R22, R23: silent is taken while the network is up; else it is asleep, comes up or goes down. */
static inline uint8_t answer_to_silent(uint8_t step) {
    if (is_up(step)) return 0;
    if (step == NO_COMMUNICATION) return ASLEEP;
    return step <= CONTROLLERS_STARTED ? COMING_UP : GOING_DOWN;
}

/* R7, R10, R13, N14: the wanted mode is stored. */
uint8_t manager_request(struct manager *manager, uint8_t handle, uint8_t mode) {
    if (!manager->started) return NOT_READY;
    unsigned found = manager->by_handle[handle];
    if (!found) return NO_HANDLE;
    if (mode > FULL) return OUT_OF_RANGE;
    struct network *network = &manager->network[found - 1];
    uint8_t answer = mode == SILENT ? answer_to_silent(network->step) : 0;
    if (!answer) network->wanted = mode;
    return answer;
}

static uint16_t number(const uint8_t *at) { return (uint16_t)(at[0] << 8 | at[1]); }

/* S4 to S9, S27: one field of the sheet, its tag and its value. */
static void take_field(struct manager *manager, struct network *network, uint8_t tag, const uint8_t *value) {
    unsigned place = (unsigned)(network - manager->network);
    switch (tag) {
    case 1:
        network->handle = value[0];
        manager->by_handle[value[0]] = (uint8_t)(1 + place);
        break;
    case 2:
        manager->by_controller[value[0]] = (uint8_t)(1 + MOST_CONTROLLERS * place + network->controllers);
        network->controller[network->controllers++] = value[0];
        break;
    case 3:
        network->transceiver = value[0];
        network->has_transceiver = 1;
        manager->by_transceiver[value[0]] = (uint8_t)(1 + place);
        break;
    case 4:
        network->short_delay = number(value);
        network->long_delay = number(value + 2);
        network->ensure = number(value + 4);
        break;
    case 5: network->threshold = value[0]; break;
    case 6: network->partial = value[0]; break;
    case 7: network->at_or_above = value[0]; break;
    }
}

/* R16, R24, N7, N8, L5: every network in its first down step, without listening; and the room of a tick and of a call to listen. */
void manager_start(struct manager *manager, const uint8_t *sheet, size_t length) {
    memset(manager, 0, sizeof *manager);
    for (size_t at = 0; at + 3 <= length; at += 3u + number(sheet + at + 1)) {
        if (sheet[at] == 1) manager->count++;
        take_field(manager, &manager->network[manager->count - 1], sheet[at], sheet + at + 3);
    }
    for (unsigned i = 0; i < manager->count; i++) {
        struct network *network = &manager->network[i];
        network->step = network->partial ? CLEAR_WAKE : DOWN_STOPPED;
        manager->tick_room += RECORD * (network->controllers + 2);
        manager->listen_room += RECORD * network->controllers;
    }
    manager->started = 1;
}
