#!/usr/bin/env python3
"""That nothing leaks across, tried on pairs of runs of the model and on wrong boxes.

A pair has two runs that are the same to one network: the second keeps what reached the network in the first, and all else is other. The two
have one sheet, or two in which the network has the same settings. A wrong box is the model with some methods of its manager replaced. The
pairs are made with the model as it is, and a box makes their calls anew; of each the test says which parts of the rules are false of it.
"""

import sys
import unittest
from collections import Counter
from dataclasses import replace
from functools import lru_cache
from pathlib import Path
from random import Random
from typing import Callable, Dict, Iterable, List, NamedTuple, Optional, Sequence, Set, Tuple
from unittest.mock import patch

import model
from across import BY_CONTROLLER, BY_HANDLE, BY_TRANSCEIVER, POLL, READ, START, TO_NOBODY, WRITE
from across import Entry, Given, Run, asked, asked_by, faults, given, names, same_to
from model import ACCEPTED, ControllerMode, EventTag, Kind, Limit, Manager, Mode, NetworkRecord, Outcome, Outfit, Record, Refusal, Relation
from model import Settings, Step
from promises import ANSWER, BUS_OFF, CHECKED, CLEARED, LISTEN, OFF, OK, ON, REPORT, REQUEST, STALL, TICK, Call, own_records

ROOT = Path(__file__).resolve().parent.parent
sys.path.append(str(ROOT / "tools"))

from recording_script import recording_of  # found by the line above

# So many pairs have one sheet, and so many two.
PAIRS = 60
TURNS_OF_A_RUN = 30
FULL_ROOM = Limit.PROGRAM_BUFFER_BYTES
# All three kinds of ids are taken from these, so that a number is often an id of several kinds.
IDS = range(Limit.TRANSCEIVER_ID + 1)
MORE_IDS = range(2 * len(IDS))


# ---------------------------------------------------------------------------
# Sheets
# ---------------------------------------------------------------------------


def random_network(random: Random, handle: int, controllers: List[int], transceiver: int) -> Settings:
    """A network of any outfit with short times, which has the transceiver where it has one."""
    outfit = random.choice(model.ALL_OUTFITS)
    return Settings(
        handle=handle,
        controllers=controllers,
        transceiver=None if outfit == Outfit.NO_TRANSCEIVER else transceiver,
        short_delay=random.randint(1, 3),
        long_delay=random.randint(1, 6),
        ensure_time=random.randint(1, 8),
        threshold=random.choice((0, 1, 1, 2)),
        partial_networking=int(outfit == Outfit.PARTIAL_NETWORKING),
        relation=random.choice(tuple(Relation)),
    )


def handles_of(networks: Iterable[Settings]) -> List[int]:
    """The handles of networks."""
    return [network.handle for network in networks]


def controllers_of(networks: Iterable[Settings]) -> List[int]:
    """The controllers of networks."""
    return [controller for network in networks for controller in network.controllers]


def transceivers_of(networks: Iterable[Settings]) -> List[int]:
    """The transceivers of networks."""
    return [network.transceiver for network in networks if network.transceiver is not None]


def free_ids(random: Random, used: List[int]) -> List[int]:
    """The ids that are not used, in some order."""
    free = [number for number in IDS if number not in used]
    random.shuffle(free)
    return free


def random_networks(random: Random, count: int, beside: Sequence[Settings] = ()) -> List[Settings]:
    """So many networks that can stand beside these in a sheet."""
    handles = free_ids(random, handles_of(beside))
    controllers = free_ids(random, controllers_of(beside))
    transceivers = free_ids(random, transceivers_of(beside))
    networks = []
    for _ in range(count):
        own = [controllers.pop() for _ in range(random.choice((1, 2)))]
        networks.append(random_network(random, handles.pop(), own, transceivers.pop()))
    return networks


def other_sheet(random: Random, network: Settings) -> List[Settings]:
    """A sheet in which the network stands alone, or with other networks and at any place."""
    networks = random_networks(random, random.choice((0, 1, 2, 3)), [network])
    networks.insert(random.randint(0, len(networks)), network)
    return networks


# ---------------------------------------------------------------------------
# Calls
# ---------------------------------------------------------------------------

METHODS = {
    WRITE: "write", START: "start", TICK: "tick", LISTEN: "listen", REQUEST: "request", POLL: "poll", STALL: "stall", BUS_OFF: "bus_off",
    ANSWER: "controller_answer", REPORT: "transceiver_mode", CLEARED: "clear_done", CHECKED: "check_done",
}
LENT = (WRITE, TICK, LISTEN, BUS_OFF, STALL)


def make(manager: Manager, call: Call) -> Outcome:
    """Make a call."""
    if call.name == READ:
        return manager.read(bytes(call.values))
    lent = (call.lent,) if call.name in LENT else ()
    return getattr(manager, METHODS[call.name])(*call.values, *lent)


def entry_of(manager: Manager, call: Call) -> Entry:
    """Make a call, and keep what it gives."""
    outcome = make(manager, call)
    return Entry(call, outcome.answer, outcome.mode, outcome.records)


def started(networks: List[Settings]) -> Manager:
    """A manager with this sheet, just started."""
    manager = Manager.new()
    manager.read(model.write_sheet(networks))
    manager.start()
    return manager


# The call of each event that stands in the two recordings of the README.
EVENTS = {
    EventTag.REQUEST: REQUEST, EventTag.BUS_OFF: BUS_OFF, EventTag.CONTROLLER_ANSWER: ANSWER, EventTag.TICK: TICK, EventTag.POLL: POLL,
    EventTag.STALL: STALL,
}


def recorded_run(example: str, handle: int) -> Run:
    """What the model makes of a recording among the examples, as a run of the network with this handle."""
    data = recording_of((ROOT / "examples" / f"{example}.script").read_bytes())
    place = model.split_place(data)
    networks = model.read_sheet(data[:place]).networks
    calls = []
    while place < len(data):
        name, length = EVENTS[data[place]], model.LENGTH_OF_EVENT[data[place]]
        place += Limit.HEADER_BYTES + length
        calls.append(Call(name, tuple(data[place - length:place]), FULL_ROOM if name in LENT else 0))
    return run_of(next(network for network in networks if network.handle == handle), networks, calls)


def enough(random: Random, needed: int) -> int:
    """As many bytes as are needed, or more."""
    return random.choice((needed, needed + 1, max(needed, FULL_ROOM)))


def too_few(random: Random, needed: int) -> int:
    """Fewer bytes than are needed, which may be enough with another sheet."""
    return random.choice((0, needed - Limit.RECORD_BYTES, needed - 1))


def some_room(random: Random, needed: int) -> int:
    """Mostly as many bytes as are needed, or more."""
    return too_few(random, needed) if random.random() < 0.2 else enough(random, needed)


def call_with_handle(random: Random, handle: int) -> Call:
    """A request, a stall or a poll."""
    modes = (Mode.FULL, Mode.FULL, Mode.FULL, Mode.SILENT, Mode.SILENT, Mode.NO, Limit.MODE + 1)
    return random.choice(
        (
            Call(REQUEST, (handle, random.choice(modes))),
            Call(STALL, (handle,), some_room(random, Limit.STALL_BYTES)),
            Call(POLL, (handle,)),
        )
    )


def call_with_controller(random: Random, controller: int) -> Call:
    """A bus-off, or an answer to anything."""
    return random.choice(
        (
            Call(BUS_OFF, (controller,), some_room(random, Limit.BUS_OFF_BYTES)),
            Call(BUS_OFF, (controller,), FULL_ROOM),
            Call(ANSWER, (controller, random.randint(0, Limit.MODE + 1), random.randint(0, Limit.OK + 1))),
        )
    )


def call_with_transceiver(random: Random, transceiver: int) -> Call:
    """A report of any kind."""
    return random.choice(
        (
            Call(REPORT, (transceiver, random.randint(0, Limit.MODE + 1))),
            Call(CLEARED, (transceiver,)),
            Call(CHECKED, (transceiver,)),
        )
    )


def call_to(random: Random, network: Settings) -> Call:
    """A call that names the network, and that nobody has asked for."""
    calls = [call_with_handle(random, network.handle), call_with_handle(random, network.handle)]
    calls += [call_with_controller(random, random.choice(network.controllers)) for _ in range(2)]
    calls += [call_with_transceiver(random, transceiver) for transceiver in transceivers_of([network])]
    return random.choice(calls)


def unknown_id(random: Random, used: List[int]) -> int:
    """A number that is not used; it may well be an id of another kind."""
    return random.choice([number for number in MORE_IDS if number not in used])


def call_to_nobody(random: Random, manager: Manager) -> Call:
    """A call that reaches no network: with an id that nobody has, a refused tick or call to listen, a read, a write or a start."""
    sheet = manager.sheet
    written = model.write_sheet(sheet)
    return random.choice(
        (
            call_with_handle(random, unknown_id(random, handles_of(sheet))),
            call_with_controller(random, unknown_id(random, controllers_of(sheet))),
            call_with_transceiver(random, unknown_id(random, transceivers_of(sheet))),
            Call(TICK, (), too_few(random, manager.tick_bytes())),
            Call(TICK, (), too_few(random, manager.tick_bytes())),
            Call(LISTEN, (random.choice((OFF, ON)),), too_few(random, manager.listen_bytes())),
            Call(LISTEN, (Limit.LISTEN + 1,), enough(random, manager.listen_bytes())),
            Call(READ, tuple(random.choice((written, written[:-1])))),
            Call(WRITE, (), some_room(random, len(written))),
            Call(WRITE, (), FULL_ROOM),
            Call(START),
        )
    )


def answer_to(record: Record, ok: int) -> List[Call]:
    """What a neighbour below answers to a record, if it asks for something; only a controller can say that it is not ok."""
    kind, target, argument = record
    calls = {
        Kind.CONTROLLER_MODE: Call(ANSWER, (target, argument, ok)),
        Kind.TRANSCEIVER_MODE: Call(REPORT, (target, argument)),
        Kind.CLEAR_WAKE_FLAG: Call(CLEARED, (target,)),
        Kind.CHECK_WAKE_FLAG: Call(CHECKED, (target,)),
    }
    return [calls[kind]] if kind in calls else []


def answers_to(random: Random, records: List[Record]) -> List[Call]:
    """What the neighbours below answer to records: mostly what was asked for, and some not at all."""
    calls = [call for record in records for call in answer_to(record, int(random.random() < 0.9))]
    return [call for call in calls if random.random() < 0.95]


def stray_calls(random: Random, networks: List[Settings], manager: Manager, chance: float) -> List[Call]:
    """Calls that nobody has asked for: of this chance one to each of these networks, and now and then one that reaches none."""
    calls = [call_to(random, network) for network in networks if random.random() < chance]
    return calls + ([call_to_nobody(random, manager)] if random.random() < 0.3 else [])


# ---------------------------------------------------------------------------
# Runs
# ---------------------------------------------------------------------------


def first_wishes(random: Random, networks: List[Settings]) -> List[Call]:
    """Full is wanted of most networks."""
    return [Call(REQUEST, (network.handle, Mode.FULL)) for network in networks if random.random() < 0.8]


def random_entries(random: Random, networks: List[Settings]) -> List[Entry]:
    """A run of all networks: by turns answers and calls that nobody has asked for, and a tick."""
    manager = started(networks)
    chance = random.choice((0.1, 0.2, 0.4))
    coming = first_wishes(random, networks)
    entries = []
    for _ in range(TURNS_OF_A_RUN):
        coming += stray_calls(random, networks, manager, chance)
        if random.random() < 0.15:
            coming.append(Call(LISTEN, (random.choice((OFF, ON)),), enough(random, manager.listen_bytes())))
        random.shuffle(coming)
        coming.append(Call(TICK, (), enough(random, manager.tick_bytes())))
        entries += [entry_of(manager, call) for call in coming]
        coming = answers_to(random, entries[-1].records)
    return entries


def merged(random: Random, kept: List[Call], others: List[Call]) -> List[Call]:
    """All these calls; those to keep stay in their order, and the others come anywhere."""
    calls = list(kept)
    for call in others:
        calls.insert(random.randint(0, len(calls)), call)
    return calls


def lent_anew(random: Random, manager: Manager, call: Call) -> Call:
    """An accepted tick or call to listen with as many bytes as this manager needs, or more; any other call is as it is."""
    needed = {TICK: manager.tick_bytes(), LISTEN: manager.listen_bytes()}
    return call._replace(lent=enough(random, needed[call.name])) if call.name in needed else call


def other_entries(random: Random, network: Settings, networks: List[Settings], reached: List[Call]) -> List[Entry]:
    """A run in which just this reaches the network; before each tick come other calls, which do not."""
    manager = started(networks)
    beside = [other for other in networks if other != network]
    chance = random.choice((0.1, 0.2, 0.4))
    coming = first_wishes(random, beside)
    kept: List[Call] = []
    entries: List[Entry] = []
    for call in reached:
        kept.append(lent_anew(random, manager, call))
        if call.name == TICK:
            coming += stray_calls(random, beside, manager, chance)
            entries += [entry_of(manager, made) for made in merged(random, kept[:-1], coming) + kept[-1:]]
            records = entries[-1].records
            own = own_records(network, records)
            coming = answers_to(random, [record for record in records if record not in own])
            kept = []
    return entries


class Pair(NamedTuple):
    """Two runs that are the same to the network: the sheet and the calls of each."""

    network: Settings
    networks: List[Settings]
    calls: List[Call]
    other_networks: List[Settings]
    other_calls: List[Call]


def calls_of(entries: List[Entry]) -> List[Call]:
    """The calls of entries."""
    return [entry.call for entry in entries]


def random_pair(random: Random, two_sheets: bool) -> Pair:
    """A pair on a sheet of two to four networks; the second run is on the same sheet, or on another one."""
    networks = random_networks(random, random.choice((2, 3, 4)))
    network = random.choice(networks)
    entries = random_entries(random, networks)
    other_networks = other_sheet(random, network) if two_sheets else networks
    others = other_entries(random, network, other_networks, asked(network, entries))
    return Pair(network, networks, calls_of(entries), other_networks, calls_of(others))


@lru_cache(maxsize=None)
def pairs(two_sheets: bool) -> List[Pair]:
    """The pairs that all tests look at; they are made once, with the model as it is."""
    return [random_pair(Random(2 * number + two_sheets), two_sheets) for number in range(PAIRS)]


def run_of(network: Settings, networks: List[Settings], calls: List[Call]) -> Run:
    """The calls since a start with this sheet, and the record that the network is left with."""
    manager = started(networks)
    entries = [entry_of(manager, call) for call in calls]
    return Run(networks, entries, manager.networks[networks.index(network)])


def runs_of(pair: Pair) -> Tuple[Run, Run]:
    """The two runs of a pair, as the model makes them, or the box that is in its place."""
    return run_of(pair.network, pair.networks, pair.calls), run_of(pair.network, pair.other_networks, pair.other_calls)


def faults_of(pair: Pair) -> Set[str]:
    """The parts of the rules that are false of a pair."""
    return faults(pair.network, *runs_of(pair))


# ---------------------------------------------------------------------------
# Wrong boxes: methods of the manager that are replaced
# ---------------------------------------------------------------------------

real_start = Manager.start
real_read = Manager.read
real_write = Manager.write
real_request = Manager.request
real_bus_off = Manager.bus_off
real_stall = Manager.stall
real_answer = Manager.controller_answer
real_tick = Manager.tick
real_listen = Manager.listen
real_poll = Manager.poll
real_network_of_transceiver = Manager.network_of_transceiver


def accepted(outcome: Outcome) -> bool:
    """Whether a call was accepted."""
    return outcome.answer == ACCEPTED


def in_step(manager: Manager, step: int) -> bool:
    """Whether some network is in this step."""
    return any(network.step == step for network in manager.networks)


def timers_set_back(self: Manager, controller: int, lent: int) -> Outcome:
    """A bus-off lets the ticks of all other networks count from 0."""
    outcome = real_bus_off(self, controller, lent)
    for network in self.networks:
        if accepted(outcome) and controller not in network.settings.controllers:
            network.tick_count = 0
    return outcome


def tick_for(manager: Manager, lent: int, networks: List[NetworkRecord]) -> Outcome:
    """A tick that passes for these networks alone."""
    every, manager.networks = manager.networks, networks
    outcome = real_tick(manager, lent)
    manager.networks = every
    return outcome


def later_ones_stay_away(self: Manager, lent: int) -> Outcome:
    """While a network restarts, no tick passes for those that stand behind it."""
    steps = [network.step for network in self.networks]
    return tick_for(self, lent, [network for place, network in enumerate(self.networks) if Step.RESTARTING not in steps[:place]])


def first_controller(manager: Manager, number: int) -> int:
    """The first controller of the network that has the number as its handle; where there is none, the number itself."""
    network = manager.network_of_handle(number)
    return number if network is None else network.settings.controllers[0]


def bus_off_by_handle(self: Manager, controller: int, lent: int) -> Outcome:
    """The id of a controller is looked for among the handles first."""
    return real_bus_off(self, first_controller(self, controller), lent)


def answer_by_handle(self: Manager, controller: int, mode: int, ok: int) -> Outcome:
    """The id of a controller is looked for among the handles first."""
    return real_answer(self, first_controller(self, controller), mode, ok)


def transceiver_among_controllers(self: Manager, transceiver: int) -> NetworkRecord:
    """The id of a transceiver is looked for among the controllers first."""
    return self.network_of_controller(transceiver) or real_network_of_transceiver(self, transceiver)


def unknown_is_the_last(self: Manager, controller: int, lent: int) -> Outcome:
    """A bus-off of a controller that nobody has is one of the last network."""
    known = self.network_of_controller(controller) is not None
    return real_bus_off(self, controller if known else self.networks[-1].settings.controllers[0], lent)


def stored_in_the_first(self: Manager, controller: int, mode: int, ok: int) -> Outcome:
    """Whichever network was named, its answer is stored in the first."""
    network = self.network_of_controller(controller)
    before = [] if network is None else list(network.answers)
    outcome = real_answer(self, controller, mode, ok)
    if accepted(outcome):
        network.answers = before
        self.networks[0].answers[0] = ok == OK
    return outcome


def refused_tick_counts(self: Manager, lent: int) -> Outcome:
    """A tick that is refused counts towards the ensure time and the delay."""
    outcome = real_tick(self, lent)
    for network in self.networks:
        if not accepted(outcome) and network.step in model.TIMED_STEPS:
            network.tick_count += 1
    return outcome


def request_ends_listening(self: Manager, handle: int, mode: int) -> Outcome:
    """A request that is accepted ends listening."""
    outcome = real_request(self, handle, mode)
    self.listening = self.listening and not accepted(outcome)
    return outcome


def silent_of_all(self: Manager, controller: int, lent: int) -> Outcome:
    """A bus-off tells silent of every other network too, and leaves their records as they are."""
    outcome = real_bus_off(self, controller, lent)
    own = self.network_of_controller(controller)
    told = [(Kind.COMMUNICATION_MANAGER, network.settings.handle, Mode.SILENT) for network in self.networks if network is not own]
    return self.handing_out(outcome.records + told) if accepted(outcome) else outcome


def silent_by_the_controller(self: Manager, controller: int, lent: int) -> Outcome:
    """A bus-off tells silent of the number of the controller, as if that were the handle."""
    outcome = real_bus_off(self, controller, lent)
    told = [(kind, controller if kind == Kind.COMMUNICATION_MANAGER else target, argument) for kind, target, argument in outcome.records]
    return replace(outcome, records=told)


def refused_tick_asks(self: Manager, lent: int) -> Outcome:
    """A tick that is refused hands out what the steps ask for."""
    outcome = real_tick(self, lent)
    requests = [record for network in self.networks for record in model.requests_of_step(network)]
    return outcome if accepted(outcome) else replace(outcome, records=requests)


def no_tick_while_restarting(self: Manager, lent: int) -> Outcome:
    """While a network restarts every tick is refused."""
    return model.refused(Refusal.BUFFER_TOO_SHORT) if in_step(self, Step.RESTARTING) else real_tick(self, lent)


def no_listening_while_restarting(self: Manager, value: int, lent: int) -> Outcome:
    """While a network restarts every call to listen is refused."""
    return model.refused(Refusal.BUFFER_TOO_SHORT) if in_step(self, Step.RESTARTING) else real_listen(self, value, lent)


def not_written_while_full(self: Manager, lent: int) -> Outcome:
    """While a network is in step 5 no sheet is written."""
    return model.refused(Refusal.NOT_READY) if in_step(self, Step.FULL) else real_write(self, lent)


def settled_by_the_first_writing(self: Manager, lent: int) -> Outcome:
    """Where a network is in step 5 at the first writing, no sheet is ever written."""
    self.never_writes = getattr(self, "never_writes", in_step(self, Step.FULL))
    return model.refused(Refusal.NOT_READY) if self.never_writes else real_write(self, lent)


def mode_of_the_last(self: Manager, handle: int) -> Outcome:
    """A poll gives the mode of the network that was polled before it."""
    outcome = real_poll(self, handle)
    if accepted(outcome):
        outcome = real_poll(self, getattr(self, "last_polled", handle))
        self.last_polled = handle
    return outcome


def one_count_for_all(self: Manager, controller: int, lent: int) -> Outcome:
    """The bus-offs of all networks are counted together."""
    outcome = real_bus_off(self, controller, lent)
    own = self.network_of_controller(controller)
    for network in self.networks:
        if accepted(outcome):
            network.bus_off_count = own.bus_off_count
    return outcome


def tick_by_settings(manager: Manager, lent: int, changed: Callable[[int, Settings], Settings]) -> Outcome:
    """A tick for which each network has settings that are changed, by its place in the sheet."""
    own = [network.settings for network in manager.networks]
    for place, network in enumerate(manager.networks):
        network.settings = changed(place, network.settings)
    outcome = real_tick(manager, lent)
    for network, settings in zip(manager.networks, own):
        network.settings = settings
    return outcome


def delays_of_the_first(self: Manager, lent: int) -> Outcome:
    """The delays of the first network hold for all."""
    first = self.sheet[0]
    return tick_by_settings(self, lent, lambda _, own: replace(own, short_delay=first.short_delay, long_delay=first.long_delay))


def longer_by_the_place(self: Manager, lent: int) -> Outcome:
    """The ensure time of a network is longer by its place in the sheet."""
    return tick_by_settings(self, lent, lambda place, own: replace(own, ensure_time=own.ensure_time + place))


def stops_at_the_first(self: Manager, lent: int) -> Outcome:
    """A tick ends with the first network that has something to hand out."""
    if lent < self.tick_bytes():
        return real_tick(self, lent)
    for network in self.networks:
        records = model.tick_network(network)
        if records:
            return self.handing_out(records)
    return self.handing_out([])


def with_records_of(networks: List[NetworkRecord], records: List[Record]) -> List[NetworkRecord]:
    """The networks that have some of these records."""
    return [network for network in networks if own_records(network.settings, records)]


def stored_up_to_the_first(self: Manager, lent: int) -> Outcome:
    """A tick hands out all its records, and the networks behind the first that has some stay as they were."""
    before = [replace(network) for network in self.networks]
    outcome = real_tick(self, lent)
    if outcome.records:
        behind = self.networks.index(with_records_of(self.networks, outcome.records)[0]) + 1
        self.networks[behind:] = before[behind:]
    return outcome


def backwards_of_two(self: Manager, lent: int) -> Outcome:
    """Where a tick has records of two networks, they come backwards."""
    outcome = real_tick(self, lent)
    several = len(with_records_of(self.networks, outcome.records)) > 1
    return replace(outcome, records=outcome.records[::-1]) if several else outcome


def first_hears_of_listening(self: Manager, value: int, lent: int) -> Outcome:
    """A call to listen hands out the records of the first network that has some, and no other."""
    outcome = real_listen(self, value, lent)
    first = with_records_of(self.networks, outcome.records)[:1]
    return replace(outcome, records=[record for network in first for record in own_records(network.settings, outcome.records)])


def listens_though_refused(self: Manager, value: int, lent: int) -> Outcome:
    """A call to listen that is refused sets listening."""
    outcome = real_listen(self, value, lent)
    self.listening = self.listening or not accepted(outcome)
    return outcome


def starts_anew(self: Manager) -> Outcome:
    """A start on a running manager begins anew."""
    self.networks = None
    return real_start(self)


def reading_ends_listening(self: Manager, data: bytes) -> Outcome:
    """A reading on a running manager is refused, and ends listening."""
    self.listening = False
    return real_read(self, data)


def more_room_more_ticks(self: Manager, lent: int) -> Outcome:
    """A tick that is lent more than it needs counts twice towards the ensure time and the delay."""
    outcome = real_tick(self, lent)
    for network in self.networks:
        if lent > self.tick_bytes() and network.step in model.TIMED_STEPS:
            network.tick_count += 1
    return outcome


def one_fault_at_a_time(self: Manager, controller: int, lent: int) -> Outcome:
    """While another network restarts a bus-off is not taken."""
    network = self.network_of_controller(controller)
    waits = any(other is not network and other.step == Step.RESTARTING for other in self.networks)
    return model.refused(Refusal.NOT_TAKEN) if network is not None and waits else real_bus_off(self, controller, lent)


def number_by_the_others(self: Manager, handle: int, lent: int) -> Outcome:
    """A stall that is not taken has another number while a network is in step 5."""
    outcome = real_stall(self, handle, lent)
    return model.refused(Refusal.ASLEEP) if outcome.answer == Refusal.NOT_TAKEN and in_step(self, Step.FULL) else outcome


def marks_the_others(self: Manager, handle: int, mode: int) -> Outcome:
    """A request leaves its mode in the tick count of the others, in steps where nobody reads it."""
    for network in self.networks:
        if network.settings.handle != handle and network.step not in model.TIMED_STEPS:
            network.tick_count = mode
    return real_request(self, handle, mode)


# The parts of the rules; V4 and V6 have the same.
RECORD = {"V4 record", "V6 record"}
NUMBER = {"V4 given number", "V6 given number"}
MODE = {"V4 given mode", "V6 given mode"}
RECORDS = {"V4 given records", "V6 given records"}
ELSEWHERE = {"V5"}
HELD_UP = {"V7"}
ALL_PARTS = RECORD | NUMBER | MODE | RECORDS | ELSEWHERE | HELD_UP
OTHER_SHEET = {part for part in ALL_PARTS if part.startswith("V6")}


class Box(NamedTuple):
    """A wrong box: the methods that are replaced, the parts of the rules that have to be found false of it, and those that may be."""

    methods: Dict[str, Callable]
    parts: Set[str]
    at_most: Set[str] = ALL_PARTS


def just(methods: Dict[str, Callable], parts: Set[str]) -> Box:
    """A box of which these parts are false, and no other."""
    return Box(methods, parts, parts)


WRONG_BOXES: Dict[str, Box] = {
    "a bus-off sets back the timers of the others": Box({"bus_off": timers_set_back}, RECORD | RECORDS),
    "later networks stay away while an earlier one restarts": Box({"tick": later_ones_stay_away}, RECORD | NUMBER | RECORDS),
    "a controller is found among the handles": Box(
        {"bus_off": bus_off_by_handle, "controller_answer": answer_by_handle}, RECORD | NUMBER | RECORDS | ELSEWHERE,
    ),
    "a transceiver is found among the controllers": Box(
        {"network_of_transceiver": transceiver_among_controllers}, RECORD | NUMBER | RECORDS,
    ),
    "an unknown controller is one of the last network": Box({"bus_off": unknown_is_the_last}, RECORD | RECORDS | ELSEWHERE),
    "an answer is stored in the first network": Box({"controller_answer": stored_in_the_first}, RECORD | RECORDS),
    "a refused tick counts for the timers": Box({"tick": refused_tick_counts}, RECORD | RECORDS),
    "a request ends listening": just({"request": request_ends_listening}, RECORDS),
    "a bus-off tells silent of every network": just({"bus_off": silent_of_all}, ELSEWHERE),
    "silent is told of the number of the controller": just({"bus_off": silent_by_the_controller}, ELSEWHERE),
    "a refused tick asks all the same": just({"tick": refused_tick_asks}, ELSEWHERE),
    "a tick is refused while a network restarts": just({"tick": no_tick_while_restarting}, HELD_UP),
    "a call to listen is refused while a network restarts": just({"listen": no_listening_while_restarting}, HELD_UP),
    "no sheet is written while a network is full": just({"write": not_written_while_full}, HELD_UP),
    "the first writing settles whether a sheet is written": just({"write": settled_by_the_first_writing}, HELD_UP),
    "a poll gives the mode of the network polled last": just({"poll": mode_of_the_last}, MODE),
    "one count of bus-offs for all networks": Box({"bus_off": one_count_for_all}, RECORD | RECORDS),
    "the delays of the first network hold for all": Box({"tick": delays_of_the_first}, {"V6 record", "V6 given records"}, OTHER_SHEET),
    "the ensure time is longer by the place": Box({"tick": longer_by_the_place}, {"V6 record", "V6 given records"}, OTHER_SHEET),
    "a tick ends with the first network that hands out": Box({"tick": stops_at_the_first}, RECORD | NUMBER | RECORDS),
    "a tick is stored up to the first network that hands out": Box({"tick": stored_up_to_the_first}, RECORD | NUMBER | RECORDS),
    "records come backwards where two networks have some": just({"tick": backwards_of_two}, RECORDS),
    "one network alone hears of listening": just({"listen": first_hears_of_listening}, RECORDS),
    "a refused call to listen sets listening": just({"listen": listens_though_refused}, RECORDS),
    "a start on a running manager begins anew": Box({"start": starts_anew}, RECORD | NUMBER | RECORDS),
    "a reading on a running manager ends listening": just({"read": reading_ends_listening}, RECORDS),
    "a tick that is lent more counts twice": Box({"tick": more_room_more_ticks}, RECORD | RECORDS),
    "a bus-off is not taken while another network restarts": Box({"bus_off": one_fault_at_a_time}, RECORD | NUMBER | RECORDS),
    "a stall is refused by another number while a network is full": just({"stall": number_by_the_others}, NUMBER),
    "a request leaves a mark in the records of the others": just({"request": marks_the_others}, RECORD),
}


# ---------------------------------------------------------------------------
# Boxes in which nothing leaks
# ---------------------------------------------------------------------------


def last_match(manager: Manager, has_id: Callable[[Settings], bool]) -> Optional[NetworkRecord]:
    """The last network that has the id."""
    return next((network for network in reversed(manager.networks) if has_id(network.settings)), None)


def last_with_handle(self: Manager, handle: int) -> Optional[NetworkRecord]:
    """The last network with this handle."""
    return last_match(self, lambda settings: settings.handle == handle)


def last_with_controller(self: Manager, controller: int) -> Optional[NetworkRecord]:
    """The last network with this controller."""
    return last_match(self, lambda settings: controller in settings.controllers)


def last_with_transceiver(self: Manager, transceiver: int) -> Optional[NetworkRecord]:
    """The last network with this transceiver."""
    return last_match(self, lambda settings: settings.transceiver == transceiver)


def two_ticks_for_one(self: Manager, lent: int) -> Outcome:
    """A tick that is accepted passes twice, and hands out what the second has."""
    outcome = real_tick(self, lent)
    return real_tick(self, lent) if accepted(outcome) else outcome


def taken_in_just_enough_room(self: Manager, controller: int, lent: int) -> Outcome:
    """A bus-off that is lent more than it needs is not taken."""
    known = self.network_of_controller(controller) is not None
    return model.refused(Refusal.NOT_TAKEN) if known and lent > Limit.BUS_OFF_BYTES else real_bus_off(self, controller, lent)


def listening_is_forgotten(self: Manager, value: int, lent: int) -> Outcome:
    """A call to listen hands out what it has to, and is forgotten at once."""
    outcome = real_listen(self, value, lent)
    self.listening = False
    return outcome


# Does just what the model does.
HARMLESS_BOX = {
    "network_of_handle": last_with_handle, "network_of_controller": last_with_controller, "network_of_transceiver": last_with_transceiver,
}
# Are wrong by other rules.
TIGHT_BOXES: Dict[str, Dict[str, Callable]] = {
    "a tick passes twice": {"tick": two_ticks_for_one},
    "a bus-off is taken in just enough room": {"bus_off": taken_in_just_enough_room},
    "listening is forgotten": {"listen": listening_is_forgotten},
}


# ---------------------------------------------------------------------------
# How two runs differ
# ---------------------------------------------------------------------------


class Moment(NamedTuple):
    """Something that reached a network: what came before it and did not, since the last such moment; the entry; the steps of the others."""

    between: List[Entry]
    entry: Entry
    steps: List[int]


def moments_of(network: Settings, run: Run) -> List[Moment]:
    """The moments of a run."""
    manager = started(run.networks)
    moments = []
    between: List[Entry] = []
    for call in calls_of(run.entries):
        steps = [record.step for record in manager.networks if record.settings != network]
        entry = entry_of(manager, call)
        if asked_by(network, entry):
            moments.append(Moment(between, entry, steps))
            between = []
        else:
            between.append(entry)
    return moments


def outcome_of(entry: Entry) -> str:
    """The name of a call, and whether it was accepted."""
    return f"{entry.call.name} {'accepted' if entry.number == ACCEPTED else 'refused'}"


def traits_beside(network: Settings, moment: Moment) -> Set[str]:
    """How each call came out that did not reach the network, whether one has a number of the network's ids, and the steps of the others."""
    numbers = {network.handle, *network.controllers, *transceivers_of([network])}
    traits = {outcome_of(entry) for entry in moment.between} | {f"step {step}" for step in moment.steps}
    crossed = any(entry.call.name not in TO_NOBODY and entry.call.values[0] in numbers for entry in moment.between)
    return traits | ({"own number"} if crossed else set())


def own_traits(network: Settings, entry: Entry) -> Set[str]:
    """How something came out that reached the network, whether it tells full, and whether listening hands out online anew."""
    records = own_records(network, entry.records)
    tells_full = (Kind.COMMUNICATION_MANAGER, network.handle, Mode.FULL) in records
    anew = entry.call.name == LISTEN and records
    return {outcome_of(entry)} | ({"full"} if tells_full else set()) | ({"online anew"} if anew else set())


def contrasts_of(pair: Pair) -> Counter:
    """What holds at so many moments of one run of a pair and not of the other; and at how many they differ in the bytes that are lent."""
    found: Counter = Counter()
    run, other = runs_of(pair)
    for one, two in zip(moments_of(pair.network, run), moments_of(pair.network, other)):
        found.update(traits_beside(pair.network, one) ^ traits_beside(pair.network, two))
        found["lent"] += one.entry.call.lent != two.entry.call.lent
    return found


def contrasts_of_sheets(pair: Pair) -> Set[str]:
    """How the two sheets of a pair differ."""
    place, other_place = pair.networks.index(pair.network), pair.other_networks.index(pair.network)
    lone = len(pair.other_networks) == 1
    found = {"alone"} if lone else {"beside others"}
    if not lone and place != other_place:
        found.add("earlier" if other_place < place else "later")
    return found | {f"outfit {model.outfit_of(pair.network)}"}


def reaching(pair: Pair) -> List[Entry]:
    """The entries of the first run of a pair that reach the network."""
    return [entry for entry in runs_of(pair)[0].entries if asked_by(pair.network, entry)]


def shortened(network: Settings, run: Run, name: str) -> List[Tuple[Run, bool]]:
    """The run without the first accepted call of this name that reached the network, and whether all else that the network has of it is as
    it was; as a list of none or one."""
    places = [place for place, entry in enumerate(run.entries) if asked_by(network, entry)]
    for number, place in enumerate(places):
        if outcome_of(run.entries[place]) == f"{name} accepted":
            calls, due = calls_of(run.entries), given(network, run.entries)
            rest = run_of(network, run.networks, calls[:place] + calls[place + 1:])
            return [(rest, (rest.record, given(network, rest.entries)) == (run.record, due[:number] + due[number + 1:]))]
    return []


# ---------------------------------------------------------------------------
# Tests
# ---------------------------------------------------------------------------


def all_pairs() -> List[Pair]:
    """All pairs, by turns with one sheet and with two."""
    return [pair for both in zip(pairs(two_sheets=False), pairs(two_sheets=True)) for pair in both]


def runs_of_each(tried: List[Pair]) -> List[Tuple[Run, Run]]:
    """The runs of these pairs."""
    return [runs_of(pair) for pair in tried]


def faults_of_some(tried: List[Pair], runs: List[Tuple[Run, Run]]) -> Set[str]:
    """The parts of the rules that are false of some of these pairs, by the runs of each."""
    return {part for pair, both in zip(tried, runs) for part in faults(pair.network, *both)}


def caught(box: Box) -> Dict[str, Pair]:
    """Each part of the rules that is found false of a box, with the first pair that shows it; where any part may be false, the search ends
    with those that have to be."""
    tried = all_pairs()
    found: Dict[str, Pair] = {}
    with patch.multiple(Manager, **box.methods):
        for pair in tried:
            for part in faults_of(pair):
                found.setdefault(part, pair)
            if box.at_most == ALL_PARTS and box.parts <= set(found):
                break
    return found


# Two networks whose ids cross: the handle of each is the controller of the other. A tick needs 18 bytes, and a call to listen 6.
NEAR = Settings(handle=1, controllers=[2], short_delay=1, long_delay=2, ensure_time=3, threshold=1)
FAR = replace(NEAR, handle=2, controllers=[1], transceiver=1)
CROSSED = [NEAR, FAR]
TICK_ROOM = 18
LISTEN_ROOM = 6
TICKS = Call(TICK, (), TICK_ROOM)
LISTENS = Call(LISTEN, (ON,), LISTEN_ROOM)
FALLS = Call(BUS_OFF, (2,), Limit.BUS_OFF_BYTES)
# Each of these does something to a network, some of them now and then; a poll does not.
CHANGING = (REQUEST, STALL, BUS_OFF, ANSWER, REPORT, CLEARED, CHECKED, TICK, LISTEN)


class Statement(unittest.TestCase):
    """The words of the rules, on two networks whose ids cross."""

    def test_a_call_names_by_its_kind(self):
        """A number is the handle of one network, a controller of the other, and a transceiver of one or of nobody."""
        named = {
            (name, number): handles_of(network for network in CROSSED if names(network, Call(name, (number,))))
            for name in BY_HANDLE + BY_CONTROLLER + BY_TRANSCEIVER + TO_NOBODY for number in (0, 1, 2)
        }
        due = {(name, network.handle): [network.handle] for name in BY_HANDLE for network in CROSSED}
        due.update({(name, network.controllers[0]): [network.handle] for name in BY_CONTROLLER for network in CROSSED})
        due.update({(name, FAR.transceiver): [FAR.handle] for name in BY_TRANSCEIVER})
        self.assertEqual({key: handles for key, handles in named.items() if handles}, due)

    def test_what_reaches_a_network_and_what_it_is_given(self):
        """A short run: every second call reaches the first network, and the others do not."""
        stop, sleep = ((Kind.CONTROLLER_MODE, 2, mode) for mode in (ControllerMode.STOPPED, ControllerMode.SLEEP))
        own = [
            (Call(REQUEST, (NEAR.handle, Mode.FULL)), Given(ACCEPTED, 0, [])),
            (TICKS, Given(ACCEPTED, 0, [stop])),
            (Call(ANSWER, (2, ControllerMode.STOPPED, OK)), Given(ACCEPTED, 0, [])),
            (Call(BUS_OFF, (2,), Limit.BUS_OFF_BYTES - 1), Given(Refusal.BUFFER_TOO_SHORT, 0, [])),
            (LISTENS, Given(ACCEPTED, 0, [])),
            (Call(TICK, (), FULL_ROOM), Given(ACCEPTED, 0, [sleep])),
            (Call(POLL, (NEAR.handle,)), Given(ACCEPTED, Mode.NO, [])),
        ]
        strange = [
            TICKS._replace(lent=TICK_ROOM - 1), Call(ANSWER, (1, ControllerMode.STOPPED, OK)), Call(BUS_OFF, (1,), Limit.BUS_OFF_BYTES),
            LISTENS._replace(lent=LISTEN_ROOM - 1), Call(POLL, (FAR.handle,)), Call(WRITE, (), FULL_ROOM), Call(START),
        ]
        entries = run_of(NEAR, CROSSED, [call for (mine, _), other in zip(own, strange) for call in (mine, other)]).entries
        self.assertEqual(asked(NEAR, entries), [call._replace(lent=0) if call.name in (TICK, LISTEN) else call for call, _ in own])
        self.assertEqual(given(NEAR, entries), [due for _, due in own])

    def test_what_counts(self):
        """Of a tick that it came, of a call to listen the value too, of a call that names the network all; and the order."""
        def same(*calls: Call) -> bool:
            """Whether these are the same to the first network as a tick, a call to listen and a bus-off."""
            return same_to(NEAR, run_of(NEAR, CROSSED, [TICKS, LISTENS, FALLS]), run_of(NEAR, CROSSED, list(calls)))
        self.assertTrue(same(TICKS._replace(lent=FULL_ROOM), LISTENS._replace(lent=FULL_ROOM), FALLS))
        self.assertTrue(same(TICKS, FALLS._replace(values=(1,)), TICKS._replace(lent=0), LISTENS, FALLS))
        self.assertFalse(same(TICKS, LISTENS._replace(values=(OFF,)), FALLS))
        self.assertFalse(same(TICKS, LISTENS, FALLS._replace(lent=FULL_ROOM)))
        self.assertFalse(same(LISTENS, TICKS, FALLS))
        self.assertFalse(same(TICKS, TICKS, LISTENS, FALLS))
        self.assertFalse(same(TICKS, LISTENS))


class Across(unittest.TestCase):
    def test_the_model_keeps_all_on_one_sheet(self):
        """V4, V5 and V7: the two runs are the same to the network, and nothing is false of them."""
        for number, pair in enumerate(pairs(two_sheets=False)):
            run, other = runs_of(pair)
            self.assertEqual(run.networks, other.networks)
            self.assertTrue(same_to(pair.network, run, other), f"pair {number}")
            self.assertEqual(faults(pair.network, run, other), set(), f"pair {number}")

    def test_the_model_keeps_all_on_two_sheets(self):
        """V6, and V5 and V7 of each: the network stands alone, or beside others and at another place."""
        for number, pair in enumerate(pairs(two_sheets=True)):
            run, other = runs_of(pair)
            self.assertNotEqual(run.networks, other.networks)
            self.assertTrue(same_to(pair.network, run, other), f"pair {number}")
            self.assertEqual(faults(pair.network, run, other), set(), f"pair {number}")

    def test_the_runs_of_a_pair_differ(self):
        """At many moments a call beside came out in some way in one run alone, or another network was in some step in one run alone."""
        found = sum((contrasts_of(pair) for pair in pairs(two_sheets=False)), Counter())
        beside = [f"{name} {end}" for name in BY_HANDLE + BY_CONTROLLER + BY_TRANSCEIVER for end in ("accepted", "refused")]
        nobody = ["tick refused", "listen refused", "read refused", "start refused", "write accepted", "write refused"]
        for name in beside + nobody + [f"step {step}" for step in model.ALL_STEPS]:
            self.assertGreater(found[name], PAIRS // 4, name)
        for name in ("tick refused", "bus-off accepted", "answer accepted", "request accepted", f"step {Step.RESTARTING}"):
            self.assertGreater(found[name], 2 * PAIRS, name)
        for name in ("own number", "lent"):
            self.assertGreater(found[name], 10 * PAIRS, name)

    def test_much_reaches_the_network(self):
        """Its calls are accepted and refused, full is told in most runs, and listening hands out online anew."""
        traits = [[own_traits(pair.network, entry) for entry in reaching(pair)] for pair in pairs(two_sheets=False)]
        found = Counter(trait for run in traits for entry in run for trait in entry)
        ends = [f"{name} {end}" for name in CHANGING[:-2] for end in ("accepted", "refused")]
        for name in ends + ["tick accepted", "listen accepted", "poll accepted", "online anew"]:
            self.assertGreater(found[name], PAIRS // 6, name)
        self.assertGreater(sum(any("full" in entry for entry in run) for run in traits), PAIRS // 2)

    def test_calls_that_name_nobody_are_made_in_both_runs(self):
        """V7 has much to hold against each other: the same such call in both runs of a pair, and with each name."""
        found = Counter(call.name for pair in pairs(two_sheets=False) for call in set(pair.calls) & set(pair.other_calls))
        for name in TO_NOBODY:
            self.assertGreater(found[name], PAIRS // 6, name)

    def test_the_sheets_of_a_pair_differ(self):
        """The network is alone in some second sheets, and in others stands earlier or later than in the first; it has every outfit."""
        found = Counter(name for pair in pairs(two_sheets=True) for name in contrasts_of_sheets(pair))
        for name in ("alone", "beside others", "earlier", "later", *(f"outfit {outfit}" for outfit in model.ALL_OUTFITS)):
            self.assertGreater(found[name], PAIRS // 10, name)

    def test_all_that_reaches_a_network_matters(self):
        """Without a call of one name that reached the network the runs are not the same to it, and the rules say nothing. In some pair the
        network then has another record, or is given something else; a poll alone leaves nothing behind."""
        changed = Counter()
        for pair in pairs(two_sheets=False):
            run, other = runs_of(pair)
            for name in (*CHANGING, POLL):
                for rest, is_equal in shortened(pair.network, other, name):
                    self.assertFalse(same_to(pair.network, run, rest))
                    self.assertEqual(faults(pair.network, run, rest), set())
                    changed[name] += not is_equal
        self.assertEqual({name for name, count in changed.items() if count > 0}, set(CHANGING))

    def test_wrong_boxes_are_caught(self):
        """Of each box the parts are found that have to be, and none that may not be; of the model none is false on the very same pairs."""
        for name, box in WRONG_BOXES.items():
            with self.subTest(name):
                found = caught(box)
                self.assertLessEqual(box.parts, set(found))
                self.assertLessEqual(set(found), box.at_most)
                self.assertEqual([faults_of(pair) for pair in found.values()], [set()] * len(found))

    def test_either_run_may_be_the_first(self):
        """Of two runs the same parts are false by turns, also where a box shows itself in one of them alone."""
        tried = all_pairs()
        with patch.multiple(Manager, bus_off=silent_of_all, write=settled_by_the_first_writing):
            found = runs_of_each(tried)
        for pair, (run, other) in zip(tried, found):
            self.assertEqual(faults(pair.network, run, other), faults(pair.network, other, run))

    def test_each_part_is_needed(self):
        """For each part of the rules there is a box of which it alone is false; and one of which nothing is false on one sheet."""
        for parts in (RECORD, NUMBER, MODE, RECORDS, ELSEWHERE, HELD_UP):
            self.assertIn((parts, parts), [(box.parts, box.at_most) for box in WRONG_BOXES.values()])
        self.assertIn(OTHER_SHEET, [box.at_most for box in WRONG_BOXES.values()])

    def test_a_harmless_box_is_innocent(self):
        """A box that finds networks by the last match makes the very same runs."""
        tried = all_pairs()
        due = runs_of_each(tried)
        with patch.multiple(Manager, **HARMLESS_BOX):
            found = runs_of_each(tried)
        self.assertEqual(found, due)
        self.assertEqual(faults_of_some(tried, found), set())

    def test_boxes_that_leak_nothing_are_innocent(self):
        """They are wrong in other ways, and make other runs."""
        tried = all_pairs()
        due = runs_of_each(tried)
        for name, methods in TIGHT_BOXES.items():
            with self.subTest(name):
                with patch.multiple(Manager, **methods):
                    found = runs_of_each(tried)
                self.assertNotEqual(found, due)
                self.assertEqual(faults_of_some(tried, found), set())

    def test_the_recordings_of_the_readme_are_such_a_pair(self):
        """They are the same to network 7, which is given full twice in both, and not the same to its neighbour."""
        runs = [recorded_run(name, 7) for name in ("calm-neighbour", "noisy-neighbour")]
        near, far = runs[0].networks
        self.assertTrue(same_to(near, *runs))
        self.assertFalse(same_to(far, *runs))
        self.assertEqual(faults(near, *runs), set())
        for run in runs:
            handed = [record for due in given(near, run.entries) for record in due.records]
            self.assertEqual(handed.count((Kind.COMMUNICATION_MANAGER, near.handle, Mode.FULL)), 2)


if __name__ == "__main__":
    unittest.main()
