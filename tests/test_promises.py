#!/usr/bin/env python3
"""The promises of demand 3 and beside it, tried on histories of the model and on wrong boxes.

Every statement has to hold of the model, whatever its neighbours do. A wrong box is the model with some of its functions replaced; of each
the test says which statement is false of it, and finds a history that shows it.
"""

import unittest
from collections import Counter
from contextlib import ExitStack, contextmanager
from dataclasses import replace
from random import Random
from typing import Callable, Dict, Iterator, List, NamedTuple, Optional, Sequence, Set, Tuple
from unittest.mock import patch

import model
from model import ControllerMode, Kind, Limit, Mode, Outfit, Refusal, Relation, Settings, Step, TransceiverMode
from promises import ANSWER, BUS_OFF, CHECKED, CLEARED, LISTEN, NOT_OK, NOTHING, OFF, OK, ON, REPORT, REQUEST, STALL, TICK, Call, Entry
from promises import History, Words, broken, ever_broken, faults_of_listening, last_pdu, listening, most_ticks, own_records, plainly, ticked, ticks
from promises import ticks_from_rest, ticks_from_start, ticks_to_rest, unturned, view

HISTORIES = 60
CALLS_OF_A_HISTORY = 70
# Histories that end with good ticks.
KIND_HISTORIES = 60
# A wrong box may need a rare history: so many are tried before it counts as not found.
MOST_HISTORIES = 400
FULL_ROOM = 144


def random_sheet(random: Random, sizes: Sequence[int] = (1, 2)) -> List[Settings]:
    """One or two networks with so many controllers each, short times, every outfit, and both rules for the threshold."""
    networks = []
    for number in range(random.choice((1, 1, 2))):
        outfit = random.choice((0, 1, 2))
        networks.append(
            Settings(
                handle=number + 1,
                controllers=[max(sizes) * number + at for at in range(random.choice(sizes))],
                transceiver=None if outfit == 0 else number,
                short_delay=random.randint(1, 3),
                long_delay=random.randint(1, 6),
                ensure_time=random.randint(1, 8),
                threshold=random.choice((0, 1, 1, 2)),
                partial_networking=int(outfit == 2),
                relation=random.choice(tuple(Relation)),
            )
        )
    return networks


def answer_to(record: model.Record, ok: int = OK) -> List[Call]:
    """What a neighbour below answers to a record, if it asks for something; only a controller can say that it is not ok."""
    kind, target, argument = record
    calls = {
        Kind.CONTROLLER_MODE: Call(ANSWER, (target, argument, ok)),
        Kind.TRANSCEIVER_MODE: Call(REPORT, (target, argument)),
        Kind.CLEAR_WAKE_FLAG: Call(CLEARED, (target,)),
        Kind.CHECK_WAKE_FLAG: Call(CHECKED, (target,)),
    }
    return [calls[kind]] if kind in calls else []


def answers_to(random: Random, records: List[model.Record]) -> List[Call]:
    """What the neighbours below answer to records: mostly what was asked for, in some order, some twice or not at all."""
    calls = []
    for record in records:
        calls += answer_to(record, int(random.random() < 0.85) if record[0] == Kind.CONTROLLER_MODE else OK)
    if random.random() < 0.2:
        calls += calls
    random.shuffle(calls)
    return [call for call in calls if random.random() < 0.92]


def listen_call(random: Random, networks: List[Settings]) -> Call:
    """A call to listen, mostly with a value that there is, with and without room for all controllers of the networks."""
    needed = Limit.RECORD_BYTES * sum(len(network.controllers) for network in networks)
    return Call(LISTEN, (random.choice((ON, ON, OFF, OFF, Limit.LISTEN + 1)),), random.choice((FULL_ROOM, FULL_ROOM, needed, needed - 1)))


def stray_call(random: Random, networks: List[Settings]) -> Call:
    """A call that nobody asked for: a request, a bus-off or a stall with or without room, an answer or report of any kind, a tick without
    room."""
    network = random.choice(networks)
    controller = random.choice(network.controllers)
    transceiver = 0 if network.transceiver is None else network.transceiver
    return random.choice(
        (
            Call(REQUEST, (network.handle, Mode.FULL)),
            Call(REQUEST, (network.handle, random.randint(0, 3))),
            Call(REQUEST, (network.handle, Mode.SILENT)),
            Call(BUS_OFF, (controller,), random.choice((FULL_ROOM, FULL_ROOM, Limit.BUS_OFF_BYTES - 1))),
            Call(BUS_OFF, (controller,), FULL_ROOM),
            Call(STALL, (network.handle,), random.choice((FULL_ROOM, Limit.STALL_BYTES, Limit.STALL_BYTES - 1))),
            Call(STALL, (random.choice((network.handle, 99)),), FULL_ROOM),
            Call(ANSWER, (controller, random.randint(0, 3), random.randint(0, 2))),
            Call(REPORT, (transceiver, random.randint(0, 3))),
            Call(random.choice((CLEARED, CHECKED)), (transceiver,)),
            Call(TICK, (), 0),
        )
    )


def made(manager: model.Manager, call: Call) -> model.Outcome:
    if call.name == TICK:
        return manager.tick(call.lent)
    if call.name == BUS_OFF:
        return manager.bus_off(*call.values, call.lent)
    if call.name == STALL:
        return manager.stall(*call.values, call.lent)
    if call.name == LISTEN:
        return manager.listen(*call.values, call.lent)
    calls = {
        ANSWER: manager.controller_answer,
        REQUEST: manager.request,
        REPORT: manager.transceiver_mode,
        CLEARED: manager.clear_done,
        CHECKED: manager.check_done,
    }
    return calls[call.name](*call.values)


class Life(NamedTuple):
    """A life since the start: the sheet, each call with its number and records, and the ticks with room that were refused."""

    networks: List[Settings]
    entries: List[Entry]
    refused_with_room: List[int]


def entry_of(manager: model.Manager, call: Call) -> Entry:
    outcome = made(manager, call)
    return Entry(call, outcome.answer, outcome.records)


def started(networks: List[Settings]) -> model.Manager:
    manager = model.Manager.new()
    manager.read(model.write_sheet(networks))
    manager.start()
    return manager


def chips_beside(networks: List[Settings], controller: int) -> List[int]:
    """The other controllers of the network that has this one."""
    return [chip for network in networks if controller in network.controllers for chip in network.controllers if chip != controller]


def random_entries(random: Random, networks: List[Settings], manager: model.Manager, most: int) -> Tuple[List[Entry], List[int]]:
    """So many calls: the neighbours answer mostly, and stray calls come in between; a full network is stalled now and then, and a bus-off is often
    reported by every chip of its network. Among them come calls to listen, by a chance of their own, which the other calls do not hang on. With
    them the numbers of the ticks with room that were refused."""
    hearing = Random(repr(networks))
    entries: List[Entry] = []
    refused_with_room = []
    coming = [Call(REQUEST, (network.handle, Mode.FULL)) for network in networks if random.random() < 0.9]
    calm = random.random() < 0.5
    for _ in range(most):
        call = coming.pop(0) if coming else Call(TICK, (), FULL_ROOM)
        if random.random() < 0.03:
            call = Call(REQUEST, (networks[0].handle, Mode.FULL))
        if random.random() < (0.02 if calm else 0.12):
            call = stray_call(random, networks)
        full = [network.settings.handle for network in manager.networks if network.told == Mode.FULL]
        if full and random.random() < 0.06:
            call = Call(STALL, (random.choice(full),), FULL_ROOM)
        if hearing.random() < 0.1:
            entries.append(entry_of(manager, listen_call(hearing, networks)))
        entries.append(entry_of(manager, call))
        if call.name == BUS_OFF and random.random() < 0.4:
            # the other chips of the network report the same fault
            coming = [Call(BUS_OFF, (chip,), FULL_ROOM) for chip in chips_beside(networks, call.values[0])] + coming
        if call.name == TICK and call.lent == FULL_ROOM:
            _, number, records = entries[-1]
            if number != model.ACCEPTED:
                refused_with_room.append(len(entries))
            coming = answers_to(random, records)
    return entries, refused_with_room


def random_life(random: Random) -> Life:
    networks = random_sheet(random)
    return Life(networks, *random_entries(random, networks, started(networks), CALLS_OF_A_HISTORY))


def kind_answers(random: Random, records: List[model.Record]) -> List[Call]:
    """The last answer to each request is ok; before it another may say ok, not ok, or a value that there is not."""
    early = [call for record in records for ok in (NOT_OK, OK, Limit.OK + 1) for call in answer_to(record, ok) if random.random() < 0.15]
    last = [call for record in records for call in answer_to(record)]
    random.shuffle(early)
    random.shuffle(last)
    return early + last


def harmless_call(random: Random, network: model.NetworkRecord) -> Call:
    """A call that does good ticks no harm: what is wanted once more, a mode that there is not, a bus-off or a stall that is refused, what nobody
    asked for, a tick without room, a call to listen."""
    settings = network.settings
    controller = random.choice(settings.controllers)
    transceiver = Limit.TRANSCEIVER_ID if settings.transceiver is None else settings.transceiver
    unasked = [mode for mode in range(Limit.MODE + 2) if mode != model.CONTROLLER_MODE_OF_STEP.get(network.step)]
    return random.choice(
        (
            Call(REQUEST, (settings.handle, random.choice((network.wanted, Limit.MODE + 1)))),
            Call(BUS_OFF, (controller,), Limit.BUS_OFF_BYTES - 1 if model.takes_bus_off(network) else FULL_ROOM),
            Call(STALL, (settings.handle,), Limit.STALL_BYTES - 1 if model.takes_stall(network) else FULL_ROOM),
            Call(ANSWER, (controller, random.choice(unasked), random.choice((NOT_OK, OK)))),
            Call(REPORT, (transceiver, random.randint(0, Limit.MODE + 1))),
            Call(random.choice((CLEARED, CHECKED)), (transceiver,)),
            Call(TICK, (), 0),
            Call(LISTEN, (random.choice((ON, ON, OFF, Limit.LISTEN + 1)),), FULL_ROOM),
        )
    )


def among_harmless_calls(random: Random, manager: model.Manager, calls: List[Call]) -> List[Entry]:
    """These calls, and in between some that do the first network no harm."""
    entries = []
    for call in calls:
        if random.random() < 0.1:
            entries.append(entry_of(manager, harmless_call(random, manager.networks[0])))
        entries.append(entry_of(manager, call))
    return entries


def kind_entries(random: Random, networks: List[Settings], manager: model.Manager, mode: int, count: int) -> List[Entry]:
    """So many ticks at which this mode of the first network is wanted, and to which its neighbours are kind; those of the other networks may do
    anything."""
    entries = among_harmless_calls(random, manager, [Call(REQUEST, (networks[0].handle, mode))])
    for _ in range(count):
        entries += among_harmless_calls(random, manager, [Call(TICK, (), FULL_ROOM)])
        records = entries[-1][2]
        own = own_records(networks[0], records)
        coming = answers_to(random, [record for record in records if record not in own]) + kind_answers(random, own)
        if networks[1:] and random.random() < 0.1:
            coming.append(stray_call(random, networks[1:]))
        entries += among_harmless_calls(random, manager, coming)
    return entries


def kind_life(random: Random) -> Life:
    """First nothing, anything, or the way up; then no may be wanted for a while; then come as many good ticks as are enough from anywhere, or one
    more."""
    networks = random_sheet(random, range(1, Limit.CONTROLLERS_OF_A_NETWORK + 1))
    manager = started(networks)
    entries: List[Entry] = []
    refused_with_room: List[int] = []
    first = random.random()
    if first < 0.4:
        entries, refused_with_room = random_entries(random, networks, manager, random.randint(1, 30))
    elif first < 0.6:
        entries = kind_entries(random, networks, manager, Mode.FULL, ticks_from_start(networks[0]))
    if random.random() < 0.5:
        entries += kind_entries(random, networks, manager, Mode.NO, random.randint(1, 6))
    entries += kind_entries(random, networks, manager, Mode.FULL, most_ticks(networks[0]) + random.randint(0, 1))
    return Life(networks, entries, refused_with_room)


# The one network of the lives below: the short delay is 1, the long one 5. Then the same with a transceiver, and with partial networking.
LONE = Settings(handle=1, controllers=[0], short_delay=1, long_delay=5, ensure_time=9, threshold=1)
FITTED = replace(LONE, transceiver=0)
PARTIAL = replace(FITTED, partial_networking=1)
WANTS = {mode: [Call(REQUEST, (LONE.handle, mode))] for mode in (Mode.NO, Mode.SILENT, Mode.FULL)}
FALLS = [Call(BUS_OFF, (0,), FULL_ROOM)]
STALLS = [Call(STALL, (LONE.handle,), FULL_ROOM)]
SETS = [Call(LISTEN, (ON,), FULL_ROOM)]
CLEARS = [Call(LISTEN, (OFF,), FULL_ROOM)]


def prompt_life(after_tick: Dict[int, List[Call]], count: int, network: Settings = LONE, unanswered: Sequence[int] = ()) -> Life:
    """A life of one network with so many ticks, whose neighbours answer every request with ok at once, but for those of the ticks that are named;
    after the tick of a number come these calls."""
    manager = started([network])
    entries: List[Entry] = []
    for number in range(count + 1):
        coming = after_tick.get(number, [])
        if number > 0:
            entries.append(entry_of(manager, Call(TICK, (), FULL_ROOM)))
        if number > 0 and number not in unanswered:
            coming = [call for record in entries[-1][2] for call in answer_to(record)] + coming
        entries += [entry_of(manager, call) for call in coming]
    return Life([network], entries, [])


def there_and_back() -> Life:
    """Up; a bus-off; full again; silent and back to full; a second bus-off, which is above the threshold."""
    return prompt_life({0: WANTS[Mode.FULL], 7: FALLS, 11: WANTS[Mode.SILENT], 12: WANTS[Mode.FULL], 14: FALLS}, 24)


def stalls_and_falls() -> Life:
    """Up; three stalls, each when full is told again; then a bus-off, the first, which brings the short delay; a stall; a second bus-off."""
    return prompt_life({0: WANTS[Mode.FULL], 7: STALLS, 10: STALLS, 13: STALLS, 16: FALLS, 20: STALLS, 23: FALLS}, 34)


def stalls_and_wishes() -> Life:
    """Up; a stall, in which silent is wanted; full again; passed and a stall after it; silent wanted before a stall; a stall in silent."""
    calls = {0: WANTS[Mode.FULL], 7: STALLS + WANTS[Mode.SILENT], 11: STALLS + WANTS[Mode.FULL], 22: STALLS, 25: WANTS[Mode.SILENT] + STALLS}
    return prompt_life({**calls, 29: STALLS + WANTS[Mode.FULL], 31: STALLS, 32: WANTS[Mode.NO]}, 40)


def short_stall() -> Life:
    """Up; stalls with too few bytes, and an answer that nobody asked for; then a stall, and answers before they are asked for."""
    early = [Call(ANSWER, (0, mode, 1)) for mode in (0, 1)]
    short = [Call(STALL, (1,), lent) for lent in range(Limit.STALL_BYTES)]
    return prompt_life({0: WANTS[Mode.FULL], 7: short + early + [Call(STALL, (1,), Limit.STALL_BYTES)] + early}, 14)


def two_chips() -> Life:
    """Up; one fault that both chips report, at once and after the tick that asks; full, and passed. A fault, and a second one in step 7; passed.
    A fault, a shutdown in step 6, and up again, where a fault is the second. Two controllers."""
    first, other = [Call(BUS_OFF, (0,), FULL_ROOM)], [Call(BUS_OFF, (1,), FULL_ROOM)]
    one = {0: WANTS[Mode.FULL], 7: first + other, 8: other}
    two = {21: first + other, 23: other + first}
    apart = {40: other + first + WANTS[Mode.NO], 43: WANTS[Mode.FULL], 47: first, 48: other}
    return prompt_life({**one, **two, **apart}, 57, replace(LONE, controllers=[0, 1]))


def faults_in_silent() -> Life:
    """Up; a fault; full again, then silent, and there a second fault; full is wanted again."""
    fault = [Call(BUS_OFF, (1,), FULL_ROOM), Call(BUS_OFF, (0,), FULL_ROOM)]
    calls = {0: WANTS[Mode.FULL], 7: fault, 10: WANTS[Mode.SILENT], 12: fault + WANTS[Mode.FULL]}
    return prompt_life(calls, 20, replace(LONE, controllers=[0, 1]))


def two_faults(relation: Relation) -> Life:
    """Up; a bus-off; full again, and a second one before passed. With the threshold 2 the second one comes up to it and does not exceed it."""
    return prompt_life({0: WANTS[Mode.FULL], 7: FALLS, 12: FALLS}, 22, replace(LONE, threshold=2, relation=relation))


def at_the_threshold() -> Life:
    return two_faults(Relation.AT_OR_ABOVE)


def below_and_at_the_threshold() -> Life:
    return two_faults(Relation.ABOVE)


def troubles_on_the_way() -> Life:
    """A not-ok before the ok; up; bus-offs and stalls in each step of a recovery and of a reset, with answers that come too early; silent asked for
    in silent, and a mode that there is not."""
    stops = [Call(ANSWER, (0, ControllerMode.STOPPED, ok)) for ok in (NOT_OK, OK)]
    runs = [Call(ANSWER, (0, ControllerMode.STARTED, OK))]
    recovery = {7: FALLS + runs + STALLS, 8: FALLS + runs + STALLS, 10: STALLS, 12: STALLS + FALLS + STALLS}
    resets = {22: STALLS + STALLS, 23: STALLS, 24: STALLS}
    silent = {20: WANTS[Mode.SILENT], 21: WANTS[Mode.SILENT] + [Call(REQUEST, (LONE.handle, Limit.MODE + 1))] + WANTS[Mode.FULL]}
    return prompt_life({0: WANTS[Mode.FULL], 1: stops, **recovery, **silent, **resets}, 26)


def down_and_up(network: Settings) -> Life:
    """Up; shut down, and full is wanted again before the network rests; shut down once more, a while at rest, and up from there."""
    return prompt_life({0: WANTS[Mode.FULL], 12: WANTS[Mode.NO], 13: WANTS[Mode.FULL], 25: WANTS[Mode.NO], 33: WANTS[Mode.FULL]}, 38, network)


def down_and_up_without_a_transceiver() -> Life:
    return down_and_up(LONE)


def down_and_up_with_a_transceiver() -> Life:
    return down_and_up(FITTED)


def down_and_up_with_partial_networking() -> Life:
    return down_and_up(PARTIAL)


def silent_on_the_way() -> Life:
    """Partial networking; silent is asked for after every tick until the network is up, and again on its way down."""
    coming_up = {number: WANTS[Mode.SILENT] for number in range(1, 10)}
    going_down = {number: WANTS[Mode.SILENT] for number in range(12, 18)}
    return prompt_life({0: WANTS[Mode.FULL], **coming_up, 11: WANTS[Mode.NO], **going_down}, 18, PARTIAL)


def listening_in_each_step() -> Life:
    """Listening is set and cleared in each step that a network without a transceiver comes to, asked and not asked; in steps 4 and 15 twice each."""
    both, twice = SETS + CLEARS, SETS + SETS + CLEARS + CLEARS
    calls = {number: both for number in (1, 2, 3, 4, 5, 9, 10, 14, 15, 17)}
    calls.update({0: WANTS[Mode.FULL] + both, 6: twice, 8: both + FALLS + both, 11: WANTS[Mode.SILENT], 12: both + WANTS[Mode.FULL]})
    calls.update({13: STALLS + twice, 16: WANTS[Mode.NO]})
    return prompt_life(calls, 18, replace(LONE, ensure_time=2))


def listening_all_along() -> Life:
    """Listening is set before the first tick. Up; a bus-off; silent and back; a stall; silent wanted of a reset; down and up; cleared, and set."""
    calls = {0: SETS + WANTS[Mode.FULL], 7: FALLS, 12: WANTS[Mode.SILENT], 14: WANTS[Mode.FULL], 16: STALLS, 20: STALLS + WANTS[Mode.SILENT]}
    return prompt_life({**calls, 24: WANTS[Mode.FULL], 26: WANTS[Mode.NO], 30: WANTS[Mode.FULL], 36: CLEARS, 38: SETS}, 40)


def listening_by_turns() -> Life:
    """Set in full, cleared in step 15 before it has asked, set in 16, cleared in full; set in step 6, cleared in 7, set in full, cleared in silent.
    Two controllers and a transceiver."""
    falls = [Call(BUS_OFF, (1,), FULL_ROOM)]
    calls = {0: WANTS[Mode.FULL], 9: SETS + STALLS + CLEARS, 11: SETS, 13: CLEARS, 14: falls + SETS, 16: CLEARS, 19: SETS, 20: WANTS[Mode.SILENT]}
    return prompt_life({**calls, 22: CLEARS + WANTS[Mode.FULL]}, 26, replace(FITTED, controllers=[0, 1]))


def listening_after_a_bus_off() -> Life:
    """Up; a bus-off, and then listening is set, in step 6; full again, and cleared."""
    return prompt_life({0: WANTS[Mode.FULL], 7: FALLS + SETS, 12: CLEARS}, 14)


def refused_listening() -> Life:
    """Up; calls to listen with too few bytes and with values that there are not, before listening is set and after it. Two controllers."""
    network = replace(LONE, controllers=[0, 1])
    needed = Limit.RECORD_BYTES * 2
    refused = [Call(LISTEN, (value,), needed - 1) for value in (OFF, ON, 2)] + [Call(LISTEN, (2,), needed), Call(LISTEN, (255,), FULL_ROOM)]
    exact = [[Call(LISTEN, (value,), needed)] for value in (OFF, ON)]
    return prompt_life({0: refused + WANTS[Mode.FULL], 7: refused + exact[ON] + refused, 9: STALLS + refused + exact[OFF] + refused}, 14, network)


class Slow(NamedTuple):
    """A life that needs as many good ticks as any: its network, what comes after the tick of a number, the ticks that nobody answers, the last tick
    before those that are good, and how many of those there are."""

    network: Settings
    after_tick: Dict[int, List[Call]]
    unanswered: Sequence[int]
    last: int
    good: int

    def life(self) -> Life:
        return prompt_life({0: WANTS[Mode.FULL], **self.after_tick}, self.last + self.good, self.network, self.unanswered)


REFUSES_SLEEP = [Call(ANSWER, (0, ControllerMode.SLEEP, NOT_OK))]
SLOWEST: Dict[str, Slow] = {
    # where the long delay is 2, no delay is long enough to count
    "stop is not answered": Slow(replace(LONE, long_delay=2), {}, (1,), 1, 6),
    "stop is not answered, with a transceiver": Slow(replace(FITTED, long_delay=2), {}, (1,), 1, 8),
    "sleep is refused": Slow(replace(PARTIAL, long_delay=2), {4: REFUSES_SLEEP}, (4,), 4, 11),
    "sleep is refused, and the check is not answered": Slow(replace(PARTIAL, long_delay=2), {4: REFUSES_SLEEP}, (4, 5), 5, 11),
    "a second bus-off": Slow(replace(LONE, long_delay=10), {7: FALLS, 10: FALLS}, (), 10, 12),
    "a first bus-off, and the threshold is 0": Slow(replace(PARTIAL, long_delay=12, threshold=0), {11: FALLS}, (), 11, 14),
    "a first bus-off, and the short delay is longer": Slow(replace(LONE, short_delay=10), {7: FALLS}, (), 7, 12),
}


def sleep_refused() -> Life:
    return SLOWEST["sleep is refused"].life()


def history_of(life: Life, network: Settings) -> History:
    return [view(network, *entry) for entry in life.entries]


def modes_told(manager: model.Manager) -> List[int]:
    return [manager.poll(settings.handle).mode for settings in manager.sheet]


def nothing_else(life: Life) -> bool:
    """Where the calls to listen are left out of a life, all the others give the same answers, modes and records, but for the form of online; and the
    records of the networks are the same at every moment."""
    whole, without = started(life.networks), started(life.networks)
    for call, _, _ in life.entries:
        outcome = made(whole, call)
        if call.name != LISTEN:
            other = made(without, call)
            if (outcome.answer, [unturned(record) for record in outcome.records]) != (other.answer, other.records):
                return False
        if modes_told(whole) != modes_told(without) or whole.networks != without.networks:
            return False
    return True


def whole_faults(life: Life) -> Set[str]:
    """The names of the statements about a whole life that it breaks."""
    names = {"tick-accepted": not life.refused_with_room, "nothing-else": nothing_else(life)}
    return {name for name, holds in names.items() if not holds}


def faults(life: Life) -> Set[str]:
    """The names of the statements that a life breaks first, for any of its networks."""
    names = whole_faults(life)
    for network in life.networks:
        found = broken(network, history_of(life, network))
        if found:
            names.update(found[1])
    for _, found_of_listening in faults_of_listening(life.networks, life.entries):
        return names | found_of_listening
    return names


def all_faults(life: Life) -> Set[str]:
    """The names of all statements that a life ever breaks, for any of its networks."""
    names = whole_faults(life).union(*(ever_broken(network, history_of(life, network)) for network in life.networks))
    return names.union(*(found for _, found in faults_of_listening(life.networks, life.entries)))


def conclusions(network: Settings, history: History) -> Set[str]:
    """The statements on good ticks whose conclusion a history comes to: it has the tick that they speak of, and before these ticks full was not told.
    And whether from the start full was wanted only later."""
    words = Words(network)
    found = set()
    starts = words.good_starts(history)
    if any(ticks(history[start:]) >= ticks_from_rest(network) and words.at_rest(history[:start]) for start in starts):
        found.add("from-rest")
    if words.good_ticks(ticks_to_rest(network) + 1, history, []) and ticks(history) >= ticks_from_start(network):
        found.add("from-start")
        if not words.good_ticks(1, history, []):
            found.add("wanted-late")
    if ticks(history[starts[-1]:]) >= most_ticks(network) and words.told(history[:starts[-1]]) != Mode.FULL:
        found.add("never-stuck")
    return found


def miscounted(life: Life) -> List[str]:
    """Where the words of a history and the model's records part: at rest and step 0, restarting and step 6, held and steps 15 and 16, sending and
    those and 4 and 5, the bus-offs that count and the count; and whether the manager listens."""
    manager = started(life.networks)
    found = []
    for number, (call, _, _) in enumerate(life.entries, 1):
        made(manager, call)
        if listening(life.entries[:number]) != manager.listening:
            found.append(f"entry {number}: listening")
        for network, record in zip(life.networks, manager.networks):
            words, history = Words(network), [view(network, *entry) for entry in life.entries[:number]]
            if words.at_rest(history) != (record.step == Step.NO_COMMUNICATION):
                found.append(f"entry {number}: at rest")
            if words.restarting(history) != (record.step == Step.RESTARTING):
                found.append(f"entry {number}: restarting")
            if words.held(history) != (record.step in (Step.RESET_STOPPED, Step.RESET_STARTED)):
                found.append(f"entry {number}: held")
            if words.sending(history) != (record.step in (Step.CHECKING, Step.FULL, Step.RESET_STOPPED, Step.RESET_STARTED)):
                found.append(f"entry {number}: sending")
            if min(words.falls(history), Limit.BUS_OFF_COUNT) != record.bus_off_count:
                found.append(f"entry {number}: count")
    return found


# ---------------------------------------------------------------------------
# Wrong boxes: functions of the model that are replaced
# ---------------------------------------------------------------------------

real_bus_off = model.bus_off_network
real_go_down = model.go_down
real_waiting = model.next_step_waiting
real_requests = model.requests_of_step
real_begin_waiting = model.begin_waiting
real_enter_full = model.enter_full
real_timer = model.timer_is_reached
real_enter_silent = model.enter_silent
real_answer_to_silent = model.answer_to_silent
real_request = model.Manager.request
real_tick = model.Manager.tick
real_manager_bus_off = model.Manager.bus_off
real_answer = model.Manager.controller_answer
real_enter_asking = model.enter_asking_step
real_stall = model.stall_network
real_takes_stall = model.takes_stall
real_resetting = model.next_step_resetting
real_manager_stall = model.Manager.stall
real_read = model.Manager.read
real_tick_network = model.tick_network
real_from_rest = model.next_step_from_no_communication
real_down = model.next_step_down
real_coming_up = model.next_step_coming_up
real_is_done = model.is_done
real_takes_transceiver_mode = model.takes_transceiver_mode
real_listen = model.Manager.listen
real_handing_out = model.Manager.handing_out
real_online = model.online_records


def quiet_bus_off(network):
    """No record of a bus-off goes out, but silent."""
    return [record for record in real_bus_off(network) if record[0] == Kind.COMMUNICATION_MANAGER]


def no_delay(network):
    return network.step == Step.WAITING or real_timer(network)


def every_bus_off_counts(network):
    """What a box did before a second chip's report was told from a second fault."""
    count = network.bus_off_count
    records = real_bus_off(network)
    if network.step == Step.RESTARTING:
        network.bus_off_count = min(count + 1, Limit.BUS_OFF_COUNT)
    return records


def not_counted_in(step):
    """In this step a bus-off is not counted."""
    def box(network):
        count, before = network.bus_off_count, network.step
        records = real_bus_off(network)
        if before == step:
            network.bus_off_count = count
        return records
    return box


def restarting_over_a_shutdown(network):
    """Whether the fault is the one from before is remembered over a shutdown."""
    again = getattr(network, "down_from_restarting", False)
    count = network.bus_off_count
    records = real_bus_off(network)
    if again:
        network.bus_off_count = count
    network.down_from_restarting = False
    return records


def down_from_restarting(network, step):
    network.down_from_restarting = network.step == Step.RESTARTING
    return real_go_down(network, step)


def second_report_changes_nothing(network):
    """In step 6 a bus-off says its records, and the answers are kept."""
    if network.step != Step.RESTARTING:
        return real_bus_off(network)
    asked, answers = network.asked, list(network.answers)
    records = real_bus_off(network)
    network.asked, network.answers = asked, answers
    return records


def second_report_says_nothing(network):
    """In step 6 a bus-off hands out nothing."""
    second = network.step == Step.RESTARTING
    records = real_bus_off(network)
    return [] if second else records


def silent_said_while_restarting(network):
    """Where step 6 asks again, it says silent in the place of the requests."""
    if network.step == Step.RESTARTING and network.asked:
        step, count, answers = network.step, network.bus_off_count, list(network.answers)
        records = real_enter_silent(network)
        network.step, network.bus_off_count, network.answers, network.asked = step, count, answers, True
        return records
    return real_requests(network)


def passed_while_restarting(network):
    """With the requests of step 6 it says passed, and counts from 0."""
    records = real_requests(network)
    if network.step != Step.RESTARTING:
        return records
    network.bus_off_count = 0
    return records + model.tell_event_manager(network, model.EventManagerNotice.PASSED)


def no_offline_in_the_wait(network):
    real_begin_waiting(network)
    return []


def second_bus_off_cancels(network):
    """A second bus-off during the recovery is not said, and ends the wait."""
    if network.step in (Step.RESTARTING, Step.WAITING):
        model.set_step(network, Step.SILENT)
        return []
    return real_bus_off(network)


def silent_shutdown(network, step):
    """Controllers are stopped, and nobody above hears of it."""
    return [record for record in real_go_down(network, step) if record[0] < Kind.COMMUNICATION_MANAGER]


def bus_off_in_a_short_buffer(self, controller, lent):
    """A bus-off with too few bytes is accepted, and nothing is done about it."""
    if self.is_started() and lent < Limit.BUS_OFF_BYTES:
        return model.Outcome(0)
    return real_manager_bus_off(self, controller, lent)


def full_though_silent(wanted, reached):
    return real_waiting(Mode.FULL if wanted == Mode.SILENT else wanted, reached)


def refuses_at_rest(self, lent):
    if self.is_started() and all(network.step == Step.FULL and network.wanted == Mode.FULL for network in self.networks):
        return model.refused(Refusal.BUFFER_TOO_SHORT)
    return real_tick(self, lent)


def only_the_first_is_asked(network):
    return real_requests(network)[:1]


def not_ok_refused_after_ok(self, controller, mode, ok):
    network = self.network_of_controller(controller)
    if network is not None and ok == 0 and network.answers[network.settings.controllers.index(controller)]:
        return model.refused(Refusal.NOT_TAKEN)
    return real_answer(self, controller, mode, ok)


def online_in_the_wait(network):
    return [(kind, target, 0) for kind, target, _ in real_begin_waiting(network)]


def start_while_going_down(network, step):
    return real_go_down(network, step) + model.records_for_controllers(network, Kind.CONTROLLER_MODE, 1)[:1]


def false_no(network, step):
    """Where a step is entered a second time in the same recovery, the mode manager hears no, though nothing is shut down."""
    records = real_enter_asking(network, step)
    if step == Step.CONTROLLERS_STARTED:
        records = model.tell_mode_manager(network, 0) + records
    return records


def full_a_tick_early(network):
    network.tick_count += 1
    found = real_timer(network)
    network.tick_count -= 1
    return found


def silent_clears(network):
    network.bus_off_count = 0
    return real_enter_silent(network)


def answers_kept(network):
    answers = list(network.answers)
    asked = network.asked
    records = real_bus_off(network)
    if network.step in (Step.CONTROLLERS_STARTED, Step.RESTARTING):
        network.answers = answers
        network.asked = asked
    return records


def stall_taken_in(step):
    """One step more takes a stall."""
    return lambda network: network.step == step or real_takes_stall(network)


def stall_not_taken_in(step):
    return lambda network: network.step != step and real_takes_stall(network)


def stall_says_nothing(network):
    """The reset begins, and full is still told."""
    real_stall(network)
    network.told = Mode.FULL
    return []


def stall_does_nothing(network):
    """Silent is said, and no reset begins."""
    return model.tell_communication_manager(network, Mode.SILENT)


def reset_with_old_answers(network):
    """The answers to the last request to start are kept, as if they were answers to the request to stop."""
    records = real_stall(network)
    network.asked = True
    network.answers = [True] * len(network.answers)
    return records


def answers_taken_before_the_request(network):
    """The step of the reset counts as one that has asked."""
    records = real_stall(network)
    network.asked = True
    return records


def stop_counts_as_start(network, step):
    """What was answered on stopped is kept as the answer on started."""
    answers = list(network.answers)
    records = real_enter_asking(network, step)
    if step == Step.RESET_STARTED:
        network.answers = answers
    return records


def straight_to_started(network):
    """Nobody is asked to stop."""
    records = real_stall(network)
    network.step = Step.RESET_STARTED
    return records


def stall_counts(network):
    network.bus_off_count = min(network.bus_off_count + 1, Limit.BUS_OFF_COUNT)
    return real_stall(network)


def stall_clears(network):
    network.bus_off_count = 0
    return real_stall(network)


def stall_wants_full(network):
    network.wanted = Mode.FULL
    return real_stall(network)


def full_though_silent_after_a_reset(step, wanted, done):
    return real_resetting(step, Mode.FULL, done)


def silent_after_a_reset(step, wanted, done):
    return real_resetting(step, Mode.SILENT, done)


def full_without_starting(step, wanted, done):
    """Full when the controllers are stopped."""
    return real_resetting(Step.RESET_STARTED if done else step, wanted, done)


def idle_reset(step, wanted, done):
    """The controllers are asked to stop a second time after they have started."""
    return Step.RESET_STOPPED if step == Step.RESET_STARTED and done else real_resetting(step, wanted, done)


def stall_notes(network):
    """The mode manager hears of a stall too."""
    return real_stall(network) + model.tell_mode_manager(network, 1)


def stall_in_a_short_buffer(self, handle, lent):
    """A stall with too few bytes is accepted, and nothing is done about it."""
    if self.is_started() and lent < Limit.STALL_BYTES:
        return model.Outcome(0)
    return real_manager_stall(self, handle, lent)


def stall_refused_otherwise(self, handle, lent):
    """A stall that the step does not take has the number of silent that is asked for at rest."""
    outcome = real_manager_stall(self, handle, lent)
    return model.refused(Refusal.ASLEEP) if outcome.answer == Refusal.NOT_TAKEN else outcome


def stall_taken_for_a_bus_off(network):
    return real_bus_off(network)


def one_number_for_every_silent(step):
    """What a box did before the three refusals were told apart."""
    return model.ACCEPTED if step in model.UP_STEPS else Refusal.ASLEEP


def coming_up_and_going_down_swapped(step):
    swapped = {Refusal.COMING_UP: Refusal.GOING_DOWN, Refusal.GOING_DOWN: Refusal.COMING_UP}
    answer = real_answer_to_silent(step)
    return swapped.get(answer, answer)


def silent_answered_in(place, number):
    """In this one step silent has another answer."""
    return lambda step: number if step == place else real_answer_to_silent(step)


def full_refused_at_rest(self, handle, mode):
    """Full has the number of silent that is asked for at rest."""
    network = self.network_of_handle(handle)
    at_rest = network is not None and network.step == Step.NO_COMMUNICATION
    return model.refused(Refusal.ASLEEP) if at_rest and mode == Mode.FULL else real_request(self, handle, mode)


def unknown_mode_taken_for_silent(self, handle, mode):
    """A mode that there is not is answered as silent is."""
    return real_request(self, handle, mode if mode <= Limit.MODE else Mode.SILENT)


def newer_rule_for_all(settings, bus_off_count):
    """The long delay at the threshold, though the field for it is absent."""
    return bus_off_count >= settings.threshold


def older_rule_for_all(settings, bus_off_count):
    """What a box did before there was field 07: at the threshold still the short delay."""
    return bus_off_count > settings.threshold


def rules_swapped(settings, bus_off_count):
    rule = older_rule_for_all if settings.relation == Relation.AT_OR_ABOVE else newer_rule_for_all
    return rule(settings, bus_off_count)


def long_one_below_the_threshold(settings, bus_off_count):
    """By the newer rule one bus-off too few brings the long delay."""
    newer = settings.relation == Relation.AT_OR_ABOVE
    return bus_off_count + newer >= settings.threshold if newer else older_rule_for_all(settings, bus_off_count)


def rule_of_the_first_for_all(self, data):
    """Field 07 of the first network holds for every network."""
    outcome = real_read(self, data)
    for settings in self.sheet or []:
        settings.relation = self.sheet[0].relation
    return outcome


def asks_once_more_in(step):
    """When all is answered in this step, it asks once more before it goes on."""
    def box(network):
        more = network.step == step and network.wanted == Mode.FULL and real_is_done(network) and not getattr(network, "asked_more", False)
        network.asked_more = more
        return model.ask(network) if more else real_tick_network(network)
    return box


def idles_at_rest(network):
    """The first tick at which full is wanted at rest does nothing."""
    idle = network.step == Step.NO_COMMUNICATION and network.wanted == Mode.FULL and not getattr(network, "idled", False)
    network.idled = idle
    return [] if idle else real_tick_network(network)


def one_request_twice_in(step):
    """In this step the first request is handed out twice."""
    def box(network):
        records = real_requests(network)
        return records + records[:1] if network.step == step else records
    return box


def full_without_the_mode_manager(network):
    """The mode manager does not hear of full."""
    return [record for record in real_enter_full(network) if record[0] != Kind.MODE_MANAGER]


def never_leaves(step):
    return lambda network: model.stay(network) if network.step == step else real_tick_network(network)


def once_it_was_full(box):
    """Ticks as this box makes them, of a network that was full before."""
    def tick(network):
        was_full = getattr(network, "was_full", False)
        records = box(network) if was_full else real_tick_network(network)
        network.was_full = was_full or network.told == Mode.FULL
        return records
    return tick


def rests_without_standby(step, done, outfit):
    """The transceiver is not asked to stand by."""
    return real_down(step, done, Outfit.NO_TRANSCEIVER)


def straight_to_stopped(wanted, outfit):
    """From rest the controllers are asked to stop at once, with a transceiver too."""
    return real_from_rest(wanted, Outfit.NO_TRANSCEIVER)


def asks_both(network):
    return network.step == Step.CONTROLLERS_STOPPED and network.settings.transceiver is not None


def normal_and_stopped(network):
    """With the controllers the transceiver is asked."""
    normal = [(Kind.TRANSCEIVER_MODE, network.settings.transceiver, TransceiverMode.NORMAL)]
    return real_requests(network) + (normal if asks_both(network) else [])


def normal_taken_while_stopping(network, mode):
    taken = asks_both(network) and network.asked and mode == TransceiverMode.NORMAL
    return taken or real_takes_transceiver_mode(network, mode)


def done_with_both(network):
    return real_is_done(network) and (network.reported or not asks_both(network))


def starts_without_stopping(step, done):
    """From the transceiver straight to the request to start."""
    return real_coming_up(Step.CONTROLLERS_STOPPED if step == Step.TRANSCEIVER_NORMAL else step, done)


def every_pdu_mode_turned(record):
    """TX offline goes out as 2 too."""
    return (*record[:2], model.PduMode.TX_OFFLINE_ACTIVE) if record[0] == Kind.PDU_MODE else record


def handed_out_each_time(self, value, lent):
    """Where nothing changes, the records go out as well."""
    outcome = real_listen(self, value, lent)
    if outcome.answer != model.ACCEPTED:
        return outcome
    return self.handing_out([record for network in self.networks for record in real_online(network)])


def online_with_full(network):
    """With online goes full, which was told already."""
    records = real_online(network)
    return records + model.tell_communication_manager(network, Mode.FULL) if records else []


def full_noted(network):
    """With online the mode manager hears of full."""
    records = real_online(network)
    return records + model.tell_mode_manager(network, Mode.FULL) if records else []


def cleared_with_2(self, value, lent):
    """What is handed out when listening is cleared has the argument from before."""
    outcome = real_listen(self, value, lent)
    return model.accepted_with_records([model.quiet_twin(record) for record in outcome.records]) if outcome.records else outcome


def set_with_0(self, value, lent):
    """What is handed out when listening is set is still online."""
    outcome = real_listen(self, value, lent)
    return model.accepted_with_records([(*record[:2], 0) for record in outcome.records]) if outcome.records else outcome


def ticks_as_ever(self, lent):
    """While the manager listens a tick hands out online."""
    listened, self.listening = self.listening, False
    outcome = real_tick(self, lent)
    self.listening = listened
    return outcome


def slow_while_listening(self, lent):
    """While the manager listens, ticks do not count towards the ensure time and the delay."""
    before = [network.tick_count for network in self.networks]
    outcome = real_tick(self, lent)
    for network, count in zip(self.networks, before):
        if self.listening and network.step in model.TIMED_STEPS and network.tick_count > 0:
            network.tick_count = count
    return outcome


def change_counts_as_a_tick(self, value, lent):
    """A change of listening counts as a tick towards the ensure time."""
    before = self.listening
    outcome = real_listen(self, value, lent)
    for network in self.networks:
        if self.listening != before and network.step == Step.CHECKING:
            network.tick_count += 1
    return outcome


def answers_forgotten(self, value, lent):
    """A call to listen makes the steps ask anew."""
    outcome = real_listen(self, value, lent)
    for network in self.networks:
        model.forget_answers(network)
    return outcome


def stall_ends_listening(self, handle, lent):
    outcome = real_manager_stall(self, handle, lent)
    self.listening = self.listening and outcome.answer != model.ACCEPTED
    return outcome


def bus_off_ends_listening(self, controller, lent):
    outcome = real_manager_bus_off(self, controller, lent)
    self.listening = self.listening and outcome.answer != model.ACCEPTED
    return outcome


def first_network_alone(self, value, lent):
    """Only the first network of the sheet gets the change at once."""
    outcome = real_listen(self, value, lent)
    own = self.networks[0].settings.controllers if self.is_started() else []
    return replace(outcome, records=[record for record in outcome.records if record[1] in own])


def listen_in_a_short_buffer(self, value, lent):
    """A call to listen needs no more bytes than it uses."""
    needed = sum(len(real_online(network)) for network in self.networks) * Limit.RECORD_BYTES
    return real_listen(self, value, FULL_ROOM if lent >= needed else lent)


def value_before_room(self, value, lent):
    """A value that there is not is refused before too few bytes are."""
    return model.refused(Refusal.VALUE_OUT_OF_RANGE) if value > Limit.LISTEN else real_listen(self, value, lent)


def any_value_sets(self, value, lent):
    """A value above 1 sets listening as 1 does."""
    return real_listen(self, min(value, Limit.LISTEN), lent)


WRONG_BOXES: Dict[str, Tuple[Dict[str, object], Dict[str, object], Set[str]]] = {
    # what the box does: functions of the model, methods of its manager, and the statements of which at least one catches it
    "no bus-off is said and no delay kept": (
        {"bus_off_network": quiet_bus_off, "timer_is_reached": no_delay}, {}, {"told-exactly", "bus-off-records"},
    ),
    "no bus-off is said": ({"bus_off_network": quiet_bus_off}, {}, {"bus-off-records"}),
    "no delay is kept": ({"timer_is_reached": no_delay}, {}, {"told-exactly"}),
    "a second bus-off ends the wait": ({"bus_off_network": second_bus_off_cancels}, {}, {"bus-off-records"}),
    "a second chip's report is counted": ({"bus_off_network": every_bus_off_counts}, {}, {"told-exactly"}),
    "a bus-off in step 7 is not counted": ({"bus_off_network": not_counted_in(Step.WAITING)}, {}, {"told-exactly"}),
    "a bus-off in step 15 is not counted": ({"bus_off_network": not_counted_in(Step.RESET_STOPPED)}, {}, {"told-exactly"}),
    "a bus-off in step 8 is not counted": ({"bus_off_network": not_counted_in(Step.SILENT)}, {}, {"told-exactly"}),
    "restarting is remembered over a shutdown": (
        {"bus_off_network": restarting_over_a_shutdown, "go_down": down_from_restarting}, {}, {"told-exactly"},
    ),
    "a second chip's report keeps the answers": ({"bus_off_network": second_report_changes_nothing}, {}, {"told-exactly", "answer-taken"}),
    "a second chip's report hands out nothing": ({"bus_off_network": second_report_says_nothing}, {}, {"bus-off-records"}),
    "silent is said while restarting": ({"requests_of_step": silent_said_while_restarting}, {}, {"silent-entered"}),
    "passed is said while restarting": ({"requests_of_step": passed_while_restarting}, {}, {"one-fault"}),
    "nobody goes offline in the wait": ({"begin_waiting": no_offline_in_the_wait}, {}, {"offline"}),
    "a shutdown is not said": ({"go_down": silent_shutdown}, {}, {"shutdown"}),
    "a bus-off in a short buffer is accepted": ({}, {"bus_off": bus_off_in_a_short_buffer}, {"bus-off-records", "bus-off-accepted"}),
    "full though silent is wanted": ({"next_step_waiting": full_though_silent}, {}, {"told-exactly", "full-told-by"}),
    "a tick is refused at rest": ({}, {"tick": refuses_at_rest}, {"tick-accepted"}),
    "only the first controller is asked": ({"requests_of_step": only_the_first_is_asked}, {}, {"answer-taken", "bus-off-accepted"}),
    "a not-ok after an ok is refused": ({}, {"controller_answer": not_ok_refused_after_ok}, {"answer-taken"}),
    "online before full": ({"begin_waiting": online_in_the_wait}, {}, {"online-with-full"}),
    "start is asked while going down": ({"go_down": start_while_going_down}, {}, {"start-asked"}),
    "a false no": ({"enter_asking_step": false_no}, {}, {"shutdown"}),
    "full and passed a tick early": ({"timer_is_reached": full_a_tick_early}, {}, {"told-exactly", "passed"}),
    "silent clears the count": ({"enter_silent": silent_clears}, {}, {"told-exactly"}),
    "answers are kept over a bus-off": ({"bus_off_network": answers_kept}, {}, {"answer-taken", "told-exactly"}),
    "a stall is taken in silent": ({"takes_stall": stall_taken_in(Step.SILENT)}, {}, {"stall-accepted"}),
    "a stall is taken while restarting": ({"takes_stall": stall_taken_in(Step.RESTARTING)}, {}, {"stall-accepted"}),
    "a stall is taken while waiting": ({"takes_stall": stall_taken_in(Step.WAITING)}, {}, {"stall-accepted"}),
    "a stall is taken in a reset": ({"takes_stall": stall_taken_in(Step.RESET_STARTED)}, {}, {"stall-accepted"}),
    "a stall is not taken in step 5": ({"takes_stall": stall_not_taken_in(Step.FULL)}, {}, {"stall-accepted"}),
    "a stall is not taken in step 4": ({"takes_stall": stall_not_taken_in(Step.CHECKING)}, {}, {"stall-accepted"}),
    "a stall leaves full told": ({"stall_network": stall_says_nothing}, {}, {"stall-records"}),
    "a stall begins no reset": ({"stall_network": stall_does_nothing}, {}, {"passed", "third-tick"}),
    "a reset keeps the answers of before": ({"stall_network": reset_with_old_answers}, {}, {"start-after-stall"}),
    "a stall is followed by answers that nobody asked for": ({"stall_network": answers_taken_before_the_request}, {}, {"answer-taken"}),
    "a stop counts as a start": ({"enter_asking_step": stop_counts_as_start}, {}, {"told-exactly"}),
    "nobody is asked to stop": ({"stall_network": straight_to_started}, {}, {"start-after-stall"}),
    "a stall is counted as a bus-off": ({"stall_network": stall_counts}, {}, {"told-exactly"}),
    "a stall clears the count": ({"stall_network": stall_clears}, {}, {"told-exactly"}),
    "a stall wants full": ({"stall_network": stall_wants_full}, {}, {"full-told-by"}),
    "full after a reset though silent is wanted": ({"next_step_resetting": full_though_silent_after_a_reset}, {}, {"full-told-by"}),
    "silent after every reset": ({"next_step_resetting": silent_after_a_reset}, {}, {"told-exactly", "third-tick"}),
    "full when the controllers are stopped": ({"next_step_resetting": full_without_starting}, {}, {"told-exactly", "third-tick"}),
    "a reset that never ends": ({"next_step_resetting": idle_reset}, {}, {"told-exactly", "third-tick"}),
    "a stall is noted by the mode manager": ({"stall_network": stall_notes}, {}, {"stall-records"}),
    "a stall in a short buffer is accepted": ({}, {"stall": stall_in_a_short_buffer}, {"stall-records"}),
    "a stall is refused by another number": ({}, {"stall": stall_refused_otherwise}, {"stall-accepted"}),
    "a stall is taken for a bus-off": ({"stall_network": stall_taken_for_a_bus_off}, {}, {"stall-records"}),
    "one number for every silent": ({"answer_to_silent": one_number_for_every_silent}, {}, {"silent-asleep"}),
    "coming up and going down swapped": (
        {"answer_to_silent": coming_up_and_going_down_swapped}, {}, {"silent-coming-up", "silent-going-down"},
    ),
    "asleep in step 1": ({"answer_to_silent": silent_answered_in(Step.TRANSCEIVER_NORMAL, Refusal.ASLEEP)}, {}, {"silent-asleep"}),
    "coming up in step 0": ({"answer_to_silent": silent_answered_in(Step.NO_COMMUNICATION, Refusal.COMING_UP)}, {}, {"silent-coming-up"}),
    "going down in step 8": ({"answer_to_silent": silent_answered_in(Step.SILENT, Refusal.GOING_DOWN)}, {}, {"silent-going-down"}),
    "asleep in the last step of a shutdown": (
        {"answer_to_silent": silent_answered_in(Step.CHECK_WAKE, Refusal.ASLEEP)}, {}, {"silent-asleep"},
    ),
    "full is refused at rest": ({}, {"request": full_refused_at_rest}, {"silent-asleep"}),
    "a mode above 2 is taken for silent": ({}, {"request": unknown_mode_taken_for_silent}, {"request-out-of-range"}),
    "the newer rule without field 07": ({"brings_long_delay": newer_rule_for_all}, {}, {"on-just-that-tick"}),
    "at the threshold still short, with field 07": ({"brings_long_delay": older_rule_for_all}, {}, {"delayed"}),
    "the two rules swapped": ({"brings_long_delay": rules_swapped}, {}, {"late-answers"}),
    "the long delay one below the threshold": ({"brings_long_delay": long_one_below_the_threshold}, {}, {"told-exactly"}),
    "field 07 of the first network holds for all": ({}, {"read": rule_of_the_first_for_all}, {"told-exactly"}),
    "stop is asked once more, coming up": ({"tick_network": asks_once_more_in(Step.CONTROLLERS_STOPPED)}, {}, {"from-rest"}),
    "normal is asked once more": ({"tick_network": asks_once_more_in(Step.TRANSCEIVER_NORMAL)}, {}, {"from-rest"}),
    "stop is asked once more, going down": ({"tick_network": asks_once_more_in(Step.DOWN_STOPPED)}, {}, {"to-rest"}),
    "the check after a refusal is asked once more": ({"tick_network": asks_once_more_in(Step.CHECK_WAKE_AGAIN)}, {}, {"never-stuck"}),
    "a tick is idle at rest": ({"tick_network": idles_at_rest}, {}, {"from-rest"}),
    "a tick is idle at rest once full was told": ({"tick_network": once_it_was_full(idles_at_rest)}, {}, {"from-rest"}),
    "a controller is asked twice to stop, coming up": (
        {"requests_of_step": one_request_twice_in(Step.CONTROLLERS_STOPPED)}, {}, {"records-from-rest", "records-from-start"},
    ),
    "a transceiver is asked twice for normal": (
        {"requests_of_step": one_request_twice_in(Step.TRANSCEIVER_NORMAL)}, {}, {"records-from-rest", "records-from-start"},
    ),
    "a controller is asked twice to sleep": ({"requests_of_step": one_request_twice_in(Step.CONTROLLERS_SLEEP)}, {}, {"records-from-start"}),
    "the mode manager does not hear of full": ({"enter_full": full_without_the_mode_manager}, {}, {"records-from-rest"}),
    "step 13 is never left": ({"tick_network": never_leaves(Step.CHECK_WAKE)}, {}, {"to-rest"}),
    "step 13 is never left once full was told": ({"tick_network": once_it_was_full(never_leaves(Step.CHECK_WAKE))}, {}, {"never-stuck"}),
    "step 14 is never left": ({"tick_network": never_leaves(Step.CHECK_WAKE_AGAIN)}, {}, {"never-stuck"}),
    "no is told before standby": ({"next_step_down": rests_without_standby}, {}, {"to-rest"}),
    "transceiver and controllers are asked at once": (
        {
            "next_step_from_no_communication": straight_to_stopped, "requests_of_step": normal_and_stopped,
            "takes_transceiver_mode": normal_taken_while_stopping, "is_done": done_with_both,
        },
        {}, {"from-rest", "from-start"},
    ),
    "start is asked without stop": ({"next_step_coming_up": starts_without_stopping}, {}, {"start-after-stop"}),
    "listening does not reach step 15": ({"ONLINE_STEPS": (4, 5, 16)}, {}, {"anew"}),
    "listening does not reach step 16": ({"ONLINE_STEPS": (4, 5, 15)}, {}, {"anew"}),
    "listening does not reach step 4": ({"ONLINE_STEPS": (5, 15, 16)}, {}, {"last"}),
    "listening does not reach step 5": ({"ONLINE_STEPS": (4, 15, 16)}, {}, {"last"}),
    "listening reaches step 6": ({"ONLINE_STEPS": (4, 5, 6, 15, 16)}, {}, {"anew"}),
    "listening reaches step 7": ({"ONLINE_STEPS": (4, 5, 7, 15, 16)}, {}, {"anew"}),
    "listening reaches step 8": ({"ONLINE_STEPS": (4, 5, 8, 15, 16)}, {}, {"anew"}),
    "listening reaches step 3": ({"ONLINE_STEPS": (3, 4, 5, 15, 16)}, {}, {"anew"}),
    "TX offline is turned too": ({"quiet_twin": every_pdu_mode_turned}, {}, {"offline"}),
    "setting twice hands out twice": ({}, {"listen": handed_out_each_time}, {"again"}),
    "a call to listen tells full": ({"online_records": online_with_full}, {}, {"full-told-by"}),
    "a call to listen is noted by the mode manager": ({"online_records": full_noted}, {}, {"anew"}),
    "clearing hands out 2": ({}, {"listen": cleared_with_2}, {"aloud"}),
    "setting hands out online": ({}, {"listen": set_with_0}, {"quiet"}),
    "a tick hands out online while listening": ({}, {"tick": ticks_as_ever}, {"quiet"}),
    "ticks do not count while listening": ({}, {"tick": slow_while_listening}, {"nothing-else"}),
    "a change of listening counts as a tick": ({}, {"listen": change_counts_as_a_tick}, {"nothing-else"}),
    "a call to listen forgets the answers": ({}, {"listen": answers_forgotten}, {"answer-taken"}),
    "a stall ends listening": ({}, {"stall": stall_ends_listening}, {"quiet"}),
    "a bus-off ends listening": ({}, {"bus_off": bus_off_ends_listening}, {"quiet"}),
    "listening reaches the first network alone": ({}, {"listen": first_network_alone}, {"last"}),
    "a call to listen in a short buffer is accepted": ({}, {"listen": listen_in_a_short_buffer}, {"listen-answered"}),
    "a value is refused before the room": ({}, {"listen": value_before_room}, {"listen-answered"}),
    "any value above 1 sets listening": ({}, {"listen": any_value_sets}, {"listen-answered"}),
}
# These are tried first: random lives show some of it late.
ARRANGED_LIVES = (
    there_and_back, stalls_and_falls, stalls_and_wishes, short_stall, two_chips, faults_in_silent, at_the_threshold, below_and_at_the_threshold,
    troubles_on_the_way, down_and_up_without_a_transceiver, down_and_up_with_a_transceiver, down_and_up_with_partial_networking,
    silent_on_the_way, sleep_refused, listening_in_each_step, listening_all_along, listening_by_turns, listening_after_a_bus_off,
    refused_listening,
)


# All that is false of a box in one life, and not only what is false first.
BROKEN_IN_ONE_LIFE: Dict[str, Tuple[Callable[[], Life], Set[str]]] = {
    "stop is asked once more, coming up": (
        down_and_up_without_a_transceiver, {"from-rest", "records-from-rest", "from-start", "records-from-start"},
    ),
    "normal is asked once more": (
        down_and_up_with_a_transceiver, {"from-rest", "records-from-rest", "from-start", "records-from-start", "never-stuck"},
    ),
    "stop is asked once more, going down": (
        down_and_up_with_a_transceiver, {"to-rest", "from-start", "records-from-start", "never-stuck"},
    ),
    "the check after a refusal is asked once more": (sleep_refused, {"never-stuck"}),
    "a tick is idle at rest": (down_and_up_without_a_transceiver, {"from-rest", "records-from-rest", "from-start", "records-from-start"}),
    "a tick is idle at rest once full was told": (down_and_up_without_a_transceiver, {"from-rest", "records-from-rest"}),
    "a controller is asked twice to stop, coming up": (down_and_up_with_partial_networking, {"records-from-rest", "records-from-start"}),
    "a transceiver is asked twice for normal": (down_and_up_with_a_transceiver, {"records-from-rest", "records-from-start"}),
    "a controller is asked twice to sleep": (down_and_up_with_a_transceiver, {"records-from-start"}),
    "the mode manager does not hear of full": (down_and_up_with_a_transceiver, {"records-from-rest", "records-from-start"}),
    "step 13 is never left": (down_and_up_with_partial_networking, {"to-rest", "from-start", "records-from-start", "never-stuck"}),
    "step 13 is never left once full was told": (down_and_up_with_partial_networking, {"never-stuck"}),
    "step 14 is never left": (sleep_refused, {"never-stuck"}),
    "no is told before standby": (down_and_up_with_a_transceiver, {"to-rest", "from-start", "records-from-start"}),
    "transceiver and controllers are asked at once": (down_and_up_with_partial_networking, {"from-rest", "from-start"}),
    "start is asked without stop": (
        down_and_up_with_a_transceiver, {"start-after-stop", "from-rest", "records-from-rest", "from-start", "records-from-start"},
    ),
    "listening does not reach step 15": (listening_in_each_step, {"anew", "last"}),
    "listening does not reach step 16": (listening_in_each_step, {"anew", "last"}),
    "listening reaches step 6": (listening_after_a_bus_off, {"anew"}),
    "setting twice hands out twice": (listening_in_each_step, {"again"}),
    "TX offline is turned too": (listening_after_a_bus_off, {"offline", "online-with-full", "nothing-else"}),
    "a tick hands out online while listening": (listening_after_a_bus_off, {"quiet", "last"}),
    "ticks do not count while listening": (listening_all_along, {"nothing-else"}),
    "a value is refused before the room": (refused_listening, {"listen-answered"}),
}


def many_lives() -> Iterator[Life]:
    """Arranged ones, random ones and kind ones."""
    for life in ARRANGED_LIVES:
        yield life()
    for seed in range(HISTORIES // 2):
        yield random_life(Random(seed))
        yield kind_life(Random(seed))


@contextmanager
def replaced(functions: Dict[str, object], methods: Dict[str, object]) -> Iterator[None]:
    """The model with these functions, and its manager with these methods."""
    with ExitStack() as stack:
        for owner, replacements in ((model, functions), (model.Manager, methods)):
            for name, replacement in replacements.items():
                stack.enter_context(patch.object(owner, name, replacement))
        yield


def caught(functions: Dict[str, object], methods: Dict[str, object], wanted: Set[str]) -> Optional[Set[str]]:
    """The first set of broken statements that has one of the wanted, over lives of the box; None where there is none."""
    with replaced(functions, methods):
        for number in range(MOST_HISTORIES):
            arranged = number < len(ARRANGED_LIVES)
            found = faults(ARRANGED_LIVES[number]() if arranged else random_life(Random(number)))
            if found & wanted:
                return found
    return None


def ticks_that_tell_full(life: Life) -> List[int]:
    """The numbers of the ticks that tell full of network 1."""
    tells = [(Kind.COMMUNICATION_MANAGER, 1, Mode.FULL) in records for call, _, records in life.entries if call.name == TICK]
    return [number for number, told in enumerate(tells, 1) if told]


class Promises(unittest.TestCase):
    def test_the_model_keeps_all(self):
        for seed in range(HISTORIES):
            self.assertEqual(faults(random_life(Random(seed))), set(), f"seed {seed}")
        for seed in range(KIND_HISTORIES):
            self.assertEqual(faults(kind_life(Random(seed))), set(), f"seed {seed}, kind")
        for life in ARRANGED_LIVES:
            self.assertEqual(faults(life()), set(), life.__name__)

    def test_the_words_are_those_of_the_records(self):
        for seed in range(HISTORIES):
            self.assertEqual(miscounted(random_life(Random(seed))), [], f"seed {seed}")
        for seed in range(KIND_HISTORIES // 2):
            self.assertEqual(miscounted(kind_life(Random(seed))), [], f"seed {seed}, kind")
        for life in ARRANGED_LIVES:
            self.assertEqual(miscounted(life()), [], life.__name__)

    def test_a_wrong_count_is_seen(self):
        for box in (every_bus_off_counts, not_counted_in(Step.WAITING), not_counted_in(Step.SILENT)):
            with patch.object(model, "bus_off_network", box):
                self.assertNotEqual([found for life in ARRANGED_LIVES for found in miscounted(life())], [], box)

    def test_a_wrong_rest_is_seen(self):
        with patch.object(model, "tick_network", idles_at_rest):
            found = miscounted(down_and_up_without_a_transceiver())
        self.assertEqual([fault.split(": ")[1] for fault in found], ["at rest"] * 3)

    def test_good_parts_are_found_from_the_end(self):
        """The places that are found backwards are those from which on the ticks are good, each looked at by itself."""
        for seed in range(KIND_HISTORIES // 2):
            for life in (random_life(Random(seed)), kind_life(Random(seed))):
                words, history = Words(life.networks[0]), history_of(life, life.networks[0])
                good = [place for place in range(len(history), -1, -1) if words.good_ticks(1, history[place:], history[:place])]
                self.assertEqual(words.good_starts(history), good, f"seed {seed}")

    def test_the_conclusions_are_come_to(self):
        """Of kind lives many come to the tick that a statement on good ticks speaks of, with every outfit."""
        met = Counter()
        for seed in range(KIND_HISTORIES):
            life = kind_life(Random(seed))
            met.update((model.outfit_of(life.networks[0]), name) for name in conclusions(life.networks[0], history_of(life, life.networks[0])))
        for outfit in model.ALL_OUTFITS:
            for name in ("from-rest", "from-start", "never-stuck"):
                self.assertGreater(met[outfit, name], KIND_HISTORIES // 12, (outfit, name))
            self.assertGreater(met[outfit, "wanted-late"], 0)

    def test_the_bound_is_reached(self):
        """Each of these lives needs all the good ticks that are allowed from anywhere: full is told on the last of them, and not before."""
        for name, slow in SLOWEST.items():
            with self.subTest(name):
                words, history = Words(slow.network), history_of(slow.life(), slow.network)
                places = [place for place, entry in enumerate(history) if ticked(entry)]
                first, last = places[-slow.good], places[-1]
                self.assertTrue(words.good_ticks(1, history[first:], history[:first]))
                self.assertNotEqual(words.told(history[:last]), Mode.FULL)
                self.assertEqual(words.told(history), Mode.FULL)
                self.assertEqual(most_ticks(slow.network), slow.good)

    def test_wrong_boxes_are_caught(self):
        for name, (functions, methods, wanted) in WRONG_BOXES.items():
            with self.subTest(name):
                self.assertIsNotNone(caught(functions, methods, wanted), name)

    def test_what_a_box_breaks_in_one_life(self):
        for name, (life, statements) in BROKEN_IN_ONE_LIFE.items():
            functions, methods, _ = WRONG_BOXES[name]
            with self.subTest(name), replaced(functions, methods):
                self.assertEqual(all_faults(life()), statements)

    def test_stuck_and_nothing_else(self):
        """A box that waits for ever in step 13, but only once it was full: over many lives, kind ones among them, it breaks one statement alone."""
        functions, methods, _ = WRONG_BOXES["step 13 is never left once full was told"]
        with replaced(functions, methods):
            found = [all_faults(life) for life in many_lives()]
        self.assertEqual(set().union(*found), {"never-stuck"})
        self.assertGreater(sum(map(bool, found)), 1)

    def test_full_is_told_in_many_histories(self):
        told = 0
        for seed in range(HISTORIES):
            networks, entries, _ = random_life(Random(seed))
            told += any((Kind.COMMUNICATION_MANAGER, networks[0].handle, Mode.FULL) in records for _, _, records in entries)
        self.assertGreater(told, HISTORIES // 3)

    def test_stalls_are_taken_and_refused_in_many_histories(self):
        answers = Counter(
            number for seed in range(HISTORIES) for call, number, _ in random_life(Random(seed)).entries if call.name == STALL
        )
        self.assertGreater(answers[model.ACCEPTED], HISTORIES // 2)
        for number in (Refusal.NOT_TAKEN, Refusal.UNKNOWN_HANDLE, Refusal.BUFFER_TOO_SHORT):
            self.assertGreater(answers[number], HISTORIES // 20)

    def test_listening_is_changed_in_many_histories(self):
        """Calls to listen are accepted and refused; of those that change something many hand it out, and many hand out nothing."""
        answers, handed = Counter(), Counter()
        for seed in range(HISTORIES):
            entries = random_life(Random(seed)).entries
            for number, (call, answer, records) in enumerate(entries):
                if call.name == LISTEN:
                    answers[answer] += 1
                    handed[listening(entries[:number]) != listening(entries[:number + 1]), bool(records)] += 1
        self.assertGreater(answers[model.ACCEPTED], HISTORIES)
        for number in (Refusal.VALUE_OUT_OF_RANGE, Refusal.BUFFER_TOO_SHORT):
            self.assertGreater(answers[number], HISTORIES // 4)
        self.assertEqual(handed[False, True], 0)
        for found in (handed[True, True], handed[True, False], handed[False, False]):
            self.assertGreater(found, HISTORIES // 2)

    def test_a_controller_may_have_been_handed_online_last_while_listening(self):
        """A bus-off, and then listening is set: in step 6 nothing goes out for it. So "while the manager listens no controller was last handed
        online" is false; it is true where the network is full or held."""
        life = listening_after_a_bus_off()
        self.assertEqual(faults(life), set())
        parts = [life.entries[:number + 1] for number in range(len(life.entries))]
        last = [last_pdu(0, part) if listening(part) else None for part in parts]
        first = next(number for number, (call, _, _) in enumerate(life.entries) if call.name == LISTEN)
        # the call itself, the tick that asks to start, the answer; then TX offline; then full, and the ticks after it
        self.assertEqual(last[first:first + 7], [0, 0, 0, 1, 2, 2, 2])
        self.assertEqual([life.entries[place].records for place in (first - 1, first)], [[(8, 1, 1), (6, 1, 1), (7, 1, 3)], []])

    def test_a_network_does_not_see_listening(self):
        """In what it sees of a tick online is online, and of a call to listen it sees nothing; TX offline and all else it sees as it is."""
        records = [(3, 0, 2), (3, 1, 0), (3, 1, 1), (6, 1, 2), (1, 1, 2)]
        plain = [(3, 0, 0), (3, 1, 0), (3, 1, 1), (6, 1, 2), (1, 1, 2)]
        self.assertEqual(plainly(Call(TICK, (), FULL_ROOM), model.ACCEPTED, records), plain)
        self.assertEqual(plainly(SETS[0], Refusal.BUFFER_TOO_SHORT, records), plain)
        self.assertEqual(plainly(SETS[0], model.ACCEPTED, records), plain[2:])
        for life in (listening_all_along(), listening_by_turns(), listening_after_a_bus_off()):
            [network] = life.networks
            heard = [view(network, *entry) for entry in life.entries if entry.call.name == LISTEN]
            self.assertEqual({(entry.sight, len(entry.records)) for entry in heard}, {(NOTHING, 0)})
            others = [entry for entry in life.entries if entry.call.name != LISTEN]
            manager = started(life.networks)
            without = [entry_of(manager, entry.call) for entry in others]
            self.assertNotEqual(others, without)
            self.assertEqual([view(network, *entry) for entry in others], [view(network, *entry) for entry in without])

    def test_full_is_told_on_the_same_ticks_while_listening(self):
        """As in the life of stalls and bus-offs without it: on the third tick after each stall, after the bus-offs by the delays."""
        calls = {0: WANTS[Mode.FULL] + SETS, 7: STALLS, 10: STALLS, 13: STALLS, 16: FALLS, 20: STALLS, 23: FALLS}
        self.assertEqual(ticks_that_tell_full(prompt_life(calls, 34)), ticks_that_tell_full(stalls_and_falls()))

    def test_one_fault_of_two_chips_brings_the_short_delay(self):
        """Full is told on the third tick after the last report of one fault, by the short delay of 1, on the seventh after a second one, by the long
        delay of 5, and on the seventh after the last report where a shutdown came between two."""
        self.assertEqual(ticks_that_tell_full(two_chips()), [6, 11, 30, 46, 55])

    def test_the_rules_part_at_the_threshold(self):
        """The first bus-off is below the threshold of 2, and by both rules full is told on the third tick after it. The second one comes up to it:
        by the newer rule full is told on the seventh tick, by the older one on the third again."""
        self.assertEqual(ticks_that_tell_full(two_faults(Relation.AT_OR_ABOVE)), [6, 10, 19])
        self.assertEqual(ticks_that_tell_full(two_faults(Relation.ABOVE)), [6, 10, 15])

    def test_the_third_tick_is_tried(self):
        """Full is told on the third tick after each stall; after the bus-offs the short delay of 1 and two, and the long one of 5 and two."""
        self.assertEqual(ticks_that_tell_full(stalls_and_falls()), [6, 10, 13, 16, 19, 23, 30])


if __name__ == "__main__":
    unittest.main()
