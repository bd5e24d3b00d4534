"""What recorded inputs reach of the rules, held against what the program can reach at all.

A run of the model is watched on its way; the model stays as it is. What can be reached is worked out from the model's own
rules, from the start of a network on, so a list of cases can be held against it:

steps         the seventeen steps
transitions   each step and next step that a tick, a bus-off or a stall can make, for each outfit; staying is one too
decisions     each thing that a tick can find: what the model's `next_step` is given
counts        each step that takes a bus-off, and whether one is counted there
delays        which delay ends, where the count is below the threshold, at it and above it, by each of the two rules
listens       each step in which listening is set and cleared, whether that changes anything, and whether kind 3 is handed out for it
sending       what a tick hands out of kind 3, by the step that it finds and by whether the manager listens
answers       each number that reading the sheet or an event can be answered with
refusals      the refusal numbers among the answers
fields        each refusal of a sheet that its field of a tag can have, where the refusal stands at the field
places        how far behind the tag a wrong length and a number out of its range are pointed at, in each field, in a first and a later network
records       each kind of record with each argument
endings       each way in which the program's output can end
"""

from collections import Counter
from functools import lru_cache
from typing import Dict, FrozenSet, Iterable, Iterator, List, NamedTuple, Optional, Set, Tuple
from unittest import mock

import model
from model import EventTag, Limit, Mode, Outfit, Refusal, Relation, Step, Tag

OUTFIT_NAMES = {
    Outfit.NO_TRANSCEIVER: "bare",
    Outfit.TRANSCEIVER: "fitted",
    Outfit.PARTIAL_NETWORKING: "partial",
}
MODE_NAMES = {Mode.NO: "no", Mode.SILENT: "silent", Mode.FULL: "full"}
CONFIG = 0  # stands in the place of an event's tag for the reading of the sheet
EVENT_NAMES = {
    CONFIG: "config",
    EventTag.REQUEST: "request",
    EventTag.BUS_OFF: "bus-off",
    EventTag.CONTROLLER_ANSWER: "answer",
    EventTag.TRANSCEIVER_MODE: "transceiver mode",
    EventTag.CLEAR_DONE: "clear done",
    EventTag.CHECK_DONE: "check done",
    EventTag.TICK: "tick",
    EventTag.POLL: "poll",
    EventTag.STALL: "stall",
    EventTag.LISTEN: "listen",
}
MOVING_EVENTS = (EventTag.TICK, EventTag.BUS_OFF, EventTag.STALL)


class Situation(NamedTuple):
    """What the tick's one decision looks at, in the order of the model's `next_step`."""

    step: int
    wanted: int
    done: bool
    refusal_present: bool
    reached: bool
    outfit: int


class Delay(NamedTuple):
    """A delay of a recovery ends: the network's rule, where the count stands to the threshold, and which of the two delays it is."""

    rule: str
    count: str
    name: str


class Place(NamedTuple):
    """A refusal points into a field: how far behind its tag, which of the three times are 0, and whether it is in a later network than the first."""

    tag: int
    answer: int
    distance: int
    zeros: Tuple[int, ...]
    later: bool


class Listened(NamedTuple):
    """A call to listen finds a network in a step: whether it sets or clears, whether that is a change, whether kind 3 goes to its controllers."""

    sets: bool
    changes: bool
    step: int
    handed: bool


class Sending(NamedTuple):
    """A tick hands out kind 3 with this argument to a network that it finds in this step, while the manager listens or not."""

    step: int
    listening: bool
    argument: int


class Transition(NamedTuple):
    """A tick, a bus-off or a stall brings a network of this outfit from a step to a step, perhaps the same."""

    outfit: int
    cause: int
    step: int
    next_step: int


# ---------------------------------------------------------------------------
# What can be reached
# ---------------------------------------------------------------------------

SHEET_REFUSALS = tuple(range(Refusal.SHEET_CUT, Refusal.SHEET_NO_NETWORK + 1))

# The table of refusal numbers, read for the program: which number which event can be answered with.
POSSIBLE_ANSWERS = {
    CONFIG: (model.ACCEPTED, *SHEET_REFUSALS),
    EventTag.REQUEST: (
        model.ACCEPTED, Refusal.UNKNOWN_HANDLE, Refusal.VALUE_OUT_OF_RANGE, Refusal.ASLEEP, Refusal.COMING_UP, Refusal.GOING_DOWN,
    ),
    EventTag.BUS_OFF: (model.ACCEPTED, Refusal.UNKNOWN_CONTROLLER, Refusal.NOT_TAKEN),
    EventTag.CONTROLLER_ANSWER: (
        model.ACCEPTED, Refusal.UNKNOWN_CONTROLLER, Refusal.VALUE_OUT_OF_RANGE, Refusal.NOT_TAKEN,
    ),
    EventTag.TRANSCEIVER_MODE: (
        model.ACCEPTED, Refusal.UNKNOWN_TRANSCEIVER, Refusal.VALUE_OUT_OF_RANGE, Refusal.NOT_TAKEN,
    ),
    EventTag.CLEAR_DONE: (model.ACCEPTED, Refusal.UNKNOWN_TRANSCEIVER, Refusal.NOT_TAKEN),
    EventTag.CHECK_DONE: (model.ACCEPTED, Refusal.UNKNOWN_TRANSCEIVER, Refusal.NOT_TAKEN),
    EventTag.TICK: (model.ACCEPTED,),
    EventTag.POLL: (model.ACCEPTED, Refusal.UNKNOWN_HANDLE),
    EventTag.STALL: (model.ACCEPTED, Refusal.UNKNOWN_HANDLE, Refusal.NOT_TAKEN),
    EventTag.LISTEN: (model.ACCEPTED, Refusal.VALUE_OUT_OF_RANGE),
}

# S15 to S23, S27: what a field of each tag can be refused with, where it is the field that is at fault.
REFUSALS_OF_EVERY_FIELD = (Refusal.SHEET_CUT, Refusal.SHEET_WRONG_LENGTH, Refusal.SHEET_WRONG_ORDER)
REFUSALS_OF_TAG = {
    Tag.HANDLE: (Refusal.SHEET_USED_BEFORE, Refusal.SHEET_TOO_MANY),
    Tag.CONTROLLER: (Refusal.SHEET_OUT_OF_RANGE, Refusal.SHEET_USED_BEFORE, Refusal.SHEET_TOO_MANY),
    Tag.TRANSCEIVER: (Refusal.SHEET_OUT_OF_RANGE, Refusal.SHEET_USED_BEFORE),
    Tag.TIMES: (Refusal.SHEET_OUT_OF_RANGE,),
    Tag.THRESHOLD: (Refusal.SHEET_OUT_OF_RANGE,),
    Tag.PARTIAL_NETWORKING: (Refusal.SHEET_OUT_OF_RANGE, Refusal.SHEET_NO_TRANSCEIVER),
    Tag.RELATION: (Refusal.SHEET_OUT_OF_RANGE,),
}

# S29: how far behind the tag of field 04 the refusal points, by the numbers of the times that are 0.
DISTANCE_OF_ZEROS = {(1,): 3, (2,): 5, (3,): 7, (1, 2): 3, (1, 3): 3, (2, 3): 5, (1, 2, 3): 3}

# S8, S27, T13: which delay is due, by the network's rule and by where the count stands to the threshold.
RULE_NAMES = {Relation.ABOVE: "older", Relation.AT_OR_ABOVE: "newer"}
POSSIBLE_DELAYS = (
    Delay("older", "below", "short"), Delay("older", "at", "short"), Delay("older", "above", "long"),
    Delay("newer", "below", "short"), Delay("newer", "at", "long"), Delay("newer", "above", "long"),
)

# L3: the steps in which a change of listening is handed out.
HANDING_STEPS = (Step.CHECKING, Step.FULL, Step.RESET_STOPPED, Step.RESET_STARTED)
# T7, T13, T14, T30: the steps from which a tick enters full.
STEPS_TO_FULL = (Step.CONTROLLERS_STARTED, Step.WAITING, Step.SILENT, Step.RESET_STARTED)
# T8, T11, T13, T30: the steps from which it enters silent or begins the wait, and so sets the controllers TX offline.
STEPS_TO_TX_OFFLINE = (Step.CHECKING, Step.FULL, Step.RESTARTING, Step.WAITING, Step.RESET_STARTED)

# The refusal numbers of the rules that the program cannot give, and why.
UNREACHABLE_REFUSALS = {
    Refusal.NOT_READY: "the program makes every call on a started manager",
    Refusal.ALREADY_STARTED: "the program reads one sheet and starts once",
    Refusal.BUFFER_TOO_SHORT: "the program's lent buffer of 144 bytes has room for any call",
}

# 'Records handed out': how many arguments a kind has; they are numbered from 0.
ARGUMENTS_OF_KIND = {
    model.Kind.CONTROLLER_MODE: 3,
    model.Kind.TRANSCEIVER_MODE: 2,
    model.Kind.PDU_MODE: 3,
    model.Kind.CLEAR_WAKE_FLAG: 1,
    model.Kind.CHECK_WAKE_FLAG: 1,
    model.Kind.COMMUNICATION_MANAGER: 3,
    model.Kind.MODE_MANAGER: 4,
    model.Kind.EVENT_MANAGER: 2,
}

# Steps that a network does not come to for want of something in its settings.
TRANSCEIVER_STEPS = (Step.TRANSCEIVER_NORMAL, Step.TRANSCEIVER_STANDBY)
PARTIAL_STEPS = model.CLEAR_STEPS + model.CHECK_STEPS
FOREIGN_STEP = "a network of this outfit never comes to the step"


class Ending:
    """The ways in which the output of the program can end."""

    WHOLE = "whole input"
    TOO_LONG = "too long"
    SHEET_REFUSED = "sheet refused"
    HEADER_CUT = "stop, header cut"
    TAG_BELOW = "stop, tag below 10"
    TAG_UNKNOWN = "stop, tag above 19"
    LENGTH_ABOVE = "stop, length above that of the tag"
    LENGTH_BELOW = "stop, length below that of the tag"
    VALUE_CUT = "stop, value cut"

    ALL = (
        WHOLE, TOO_LONG, SHEET_REFUSED, HEADER_CUT, TAG_BELOW, TAG_UNKNOWN, LENGTH_ABOVE, LENGTH_BELOW, VALUE_CUT,
    )


def contradiction(situation: Situation) -> str:
    """Why no record of a network is as this situation says, whatever its outfit; empty where one can be."""
    step = situation.step
    if situation.wanted == Mode.SILENT and step not in model.UP_STEPS:
        return "silent is wanted only while a network is up (refusals 08, 24 and 25, and wanted no goes before a shutdown)"
    if situation.done and step not in model.ASKING_STEPS:
        return "a step that asks nothing is not done"
    if situation.refusal_present and step not in model.CONTROLLER_MODE_OF_STEP:
        return "only a step that asks controllers has their answers"
    if situation.refusal_present and situation.done:
        return "with a refusal among the last answers a step is not done"
    if situation.reached and step not in model.TIMED_STEPS:
        return "only steps 4 and 7 have a timer"
    return ""


def example_settings(outfit: int) -> model.Settings:
    """The settings of a network of this outfit."""
    transceiver = None if outfit == Outfit.NO_TRANSCEIVER else 5
    partial = 1 if outfit == Outfit.PARTIAL_NETWORKING else 0
    return model.Settings(7, [3], transceiver, 2, 5, 3, 1, partial)


def bus_off_transitions(outfit: int, step: int) -> Iterator[Transition]:
    """Where a bus-off takes a network of this outfit from this step; nothing where it is refused."""
    network = model.NetworkRecord(example_settings(outfit), step, [None])
    if model.takes_bus_off(network):
        model.bus_off_network(network)
        yield Transition(outfit, EventTag.BUS_OFF, step, network.step)


def possible_counts() -> Iterator[Tuple[int, bool]]:
    """The steps that take a bus-off, each with whether the first one there is counted."""
    for step in model.ALL_STEPS:
        network = model.NetworkRecord(example_settings(Outfit.PARTIAL_NETWORKING), step, [None])
        if model.takes_bus_off(network):
            model.bus_off_network(network)
            yield step, network.bus_off_count > 0


def possible_places() -> Iterator[Place]:
    """Where a wrong length and a number out of its range can be pointed at."""
    for later in (False, True):
        for tag, own in REFUSALS_OF_TAG.items():
            # S28: behind each tag
            yield Place(tag, Refusal.SHEET_WRONG_LENGTH, 1, (), later)
            # S29: a value of one byte has one place
            if Refusal.SHEET_OUT_OF_RANGE in own and tag != Tag.TIMES:
                yield Place(tag, Refusal.SHEET_OUT_OF_RANGE, 3, (), later)
        for zeros, distance in DISTANCE_OF_ZEROS.items():
            yield Place(Tag.TIMES, Refusal.SHEET_OUT_OF_RANGE, distance, zeros, later)


def possible_listens() -> Iterator[Listened]:
    """Listening can be set and cleared in every step, with a change or without; in some a change is handed out."""
    for step in model.ALL_STEPS:
        for sets in (False, True):
            yield Listened(sets, False, step, False)
            yield Listened(sets, True, step, step in HANDING_STEPS)


def possible_sending() -> Iterator[Sending]:
    """What ticks hand out of kind 3."""
    # L2: online as 2 while the manager listens, and TX offline as ever
    for listening, online in ((False, model.PduMode.ONLINE), (True, model.PduMode.TX_OFFLINE_ACTIVE)):
        yield from (Sending(step, listening, online) for step in STEPS_TO_FULL)
        yield from (Sending(step, listening, model.PduMode.TX_OFFLINE) for step in STEPS_TO_TX_OFFLINE)


def stall_transitions(outfit: int, step: int) -> Iterator[Transition]:
    """Where a stall takes a network of this outfit from this step; nothing where it is refused."""
    network = model.NetworkRecord(example_settings(outfit), step, [None])
    if model.takes_stall(network):
        model.stall_network(network)
        yield Transition(outfit, EventTag.STALL, step, network.step)


@lru_cache(maxsize=None)
def sound_situations() -> Tuple[Situation, ...]:
    """All situations without a contradiction in themselves."""
    situations = (Situation(*situation) for situation in model.situations())
    return tuple(situation for situation in situations if not contradiction(situation))


def tick_transitions(outfit: int, step: int) -> Iterator[Transition]:
    """Where a tick can take a network of this outfit from this step."""
    for situation in sound_situations():
        if (situation.outfit, situation.step) == (outfit, step):
            yield Transition(outfit, EventTag.TICK, step, model.next_step(*situation))


def transitions_from(outfit: int, step: int) -> Set[Transition]:
    """Where a tick, a bus-off or a stall can take a network of this outfit from this step."""
    return {*tick_transitions(outfit, step), *bus_off_transitions(outfit, step), *stall_transitions(outfit, step)}


@lru_cache(maxsize=None)
def possible_transitions(outfit: int) -> FrozenSet[Transition]:
    """All transitions of a network of this outfit: those from its first step, those from where they lead, and so on."""
    found: Set[Transition] = set()
    seen: Set[int] = set()
    left = {model.first_down_step(outfit)}
    while left:
        step = left.pop()
        seen.add(step)
        found |= transitions_from(outfit, step)
        left |= {transition.next_step for transition in found} - seen
    return frozenset(found)


def reachable_steps(outfit: int) -> Set[int]:
    """The steps that a network of this outfit can come to, its first step among them."""
    return {transition.step for transition in possible_transitions(outfit)}


@lru_cache(maxsize=None)
def possible_situations() -> Tuple[Situation, ...]:
    """All situations that a tick can find, in the model's order."""
    return tuple(
        situation for situation in sound_situations() if situation.step in reachable_steps(situation.outfit)
    )


@lru_cache(maxsize=None)
def possible() -> Dict[str, FrozenSet]:
    """All that the program can reach, by the names in the first lines of this file."""
    answers = frozenset((tag, answer) for tag, numbers in POSSIBLE_ANSWERS.items() for answer in numbers)
    fields = frozenset((tag, answer) for tag, own in REFUSALS_OF_TAG.items() for answer in REFUSALS_OF_EVERY_FIELD + own)
    records = frozenset((kind, argument) for kind, number in ARGUMENTS_OF_KIND.items() for argument in range(number))
    transitions = frozenset().union(*(possible_transitions(outfit) for outfit in model.ALL_OUTFITS))
    return {
        "steps": frozenset(transition.step for transition in transitions),
        "transitions": transitions,
        "decisions": frozenset(possible_situations()),
        "counts": frozenset(possible_counts()),
        "delays": frozenset(POSSIBLE_DELAYS),
        "listens": frozenset(possible_listens()),
        "sending": frozenset(possible_sending()),
        "answers": answers,
        "refusals": frozenset(answer for _, answer in answers if answer != model.ACCEPTED),
        "fields": fields,
        "places": frozenset(possible_places()),
        "records": records,
        "endings": frozenset(Ending.ALL),
    }


# ---------------------------------------------------------------------------
# What was reached
# ---------------------------------------------------------------------------


def situation_of(network: model.NetworkRecord) -> Situation:
    """What a tick finds in this network."""
    return Situation(
        network.step,
        network.wanted,
        model.is_done(network),
        model.refusal_is_present(network),
        model.timer_is_reached(network),
        model.outfit_of(network.settings),
    )


def ending_delay(network: model.NetworkRecord) -> Optional[Delay]:
    """The delay that this tick ends; None where it ends none, or where the two delays are the same and cannot be told apart."""
    settings, count = network.settings, network.bus_off_count
    if network.step != Step.WAITING or not model.timer_is_reached(network) or settings.short_delay == settings.long_delay:
        return None
    place = "below" if count < settings.threshold else "at" if count == settings.threshold else "above"
    name = "long" if network.tick_count + 1 == settings.long_delay else "short"
    return Delay(RULE_NAMES[settings.relation], place, name)


def modes_handed(network: model.NetworkRecord, records: List[model.Record]) -> List[int]:
    """The arguments of kind 3 that go to the controllers of this network."""
    return [argument for kind, target, argument in records if kind == model.Kind.PDU_MODE and target in network.settings.controllers]


def stop_reason(data: bytes, place: int) -> str:
    """Why the program stops at the event field at this place."""
    if len(data) - place < Limit.HEADER_BYTES:
        return Ending.HEADER_CUT
    tag = data[place]
    length = model.two_byte_number(data, place + 1)
    if tag < EventTag.FIRST:
        return Ending.TAG_BELOW
    if tag not in model.LENGTH_OF_EVENT:
        return Ending.TAG_UNKNOWN
    if length > model.LENGTH_OF_EVENT[tag]:
        return Ending.LENGTH_ABOVE
    if length < model.LENGTH_OF_EVENT[tag]:
        return Ending.LENGTH_BELOW
    return Ending.VALUE_CUT


def ending_of(data: bytes, output: str) -> str:
    """How the output for this input ends."""
    last_line = output.splitlines()[-1]
    words = last_line.split()
    if last_line == "too long":
        return Ending.TOO_LONG
    if words[0] == "stop":
        return stop_reason(data, int(words[1]))
    if words[0] == "config" and int(words[1]) != model.ACCEPTED:
        return Ending.SHEET_REFUSED
    return Ending.WHOLE


def field_starts(data: bytes, place: int) -> List[int]:
    """Where the fields begin, from the first one to the one in which this place is."""
    starts = [0]
    while len(data) - starts[-1] >= Limit.HEADER_BYTES:
        end = starts[-1] + Limit.HEADER_BYTES + model.two_byte_number(data, starts[-1] + 1)
        if end > place:
            break
        starts.append(end)
    return starts


def zero_times(field: bytes) -> Tuple[int, ...]:
    """The numbers, from 1 on, of the times of a field 04 that are 0."""
    return tuple(number for number in (1, 2, 3) if not any(field[2 * number + 1:2 * number + 3]))


class Reached:
    """How often each thing was reached, by the names in the first lines of this file."""

    def __init__(self) -> None:
        self.times: Dict[str, Counter] = {name: Counter() for name in possible()}

    def note_answer(self, tag: int, answer: int) -> None:
        """Reading the sheet, or an event, was answered so."""
        self.times["answers"][tag, answer] += 1
        if answer != model.ACCEPTED:
            self.times["refusals"][answer] += 1

    def note_transition(self, cause: int, found: Situation, next_step: int) -> None:
        """A tick, a bus-off or a stall found a network so and left it in the next step."""
        self.times["transitions"][Transition(found.outfit, cause, found.step, next_step)] += 1
        self.times["steps"][next_step] += 1
        if cause == EventTag.TICK:
            self.times["decisions"][found] += 1

    def note_event(self, tag: int, outcome: model.Outcome) -> None:
        """An event came to this outcome."""
        self.note_answer(tag, outcome.answer)
        for kind, _, argument in outcome.records:
            self.times["records"][kind, argument] += 1

    def note_count(self, step: int, before: int, after: int) -> None:
        """A bus-off was taken in this step, with so many counted before and after; one that finds 255 shows nothing."""
        if before < Limit.BUS_OFF_COUNT:
            self.times["counts"][step, after > before] += 1

    def note_delays(self, delays: List[Optional[Delay]]) -> None:
        """A tick ended these delays, one of each network where it ended one."""
        self.times["delays"].update(delay for delay in delays if delay is not None)

    def note_listen(self, listened: bool, manager: model.Manager, records: List[model.Record]) -> None:
        """A call to listen was accepted, and handed out these records; before it the manager listened or not."""
        changes = manager.listening != listened
        self.times["listens"].update(
            Listened(manager.listening, changes, network.step, bool(modes_handed(network, records))) for network in manager.networks
        )

    def note_sending(self, step: int, listening: bool, modes: List[int]) -> None:
        """A tick found a network in this step, and handed out kind 3 with these arguments to its controllers."""
        self.times["sending"].update(Sending(step, listening, mode) for mode in set(modes))

    def note_field(self, data: bytes, answer: int, place: int) -> None:
        """A sheet was refused at this place, where a field of the table may stand."""
        starts = field_starts(data, place)
        field = data[starts[-1]:]
        if not field or field[0] not in model.LENGTH_OF_TAG:
            return
        self.times["fields"][field[0], answer] += 1
        if place > starts[-1]:
            zeros = zero_times(field) if (field[0], answer) == (Tag.TIMES, Refusal.SHEET_OUT_OF_RANGE) else ()
            later = sum(data[start] == Tag.HANDLE for start in starts) > 1
            self.times["places"][Place(field[0], answer, place - starts[-1], zeros, later)] += 1

    def note_output(self, data: bytes, output: str) -> None:
        """The first line of a whole output, and how it ends."""
        words = output.split()
        if words[0] == "config":
            self.note_answer(CONFIG, int(words[1]))
            if int(words[1]) != model.ACCEPTED:
                self.note_field(data, int(words[1]), int(words[2]))
        self.times["endings"][ending_of(data, output)] += 1


def moved_networks(manager: model.Manager, tag: int, value: bytes) -> List[model.NetworkRecord]:
    """The networks whose step this event may change: all at a tick, that of the controller at a bus-off, of the handle at a stall."""
    if tag == EventTag.TICK:
        return manager.networks
    named = manager.network_of_controller if tag == EventTag.BUS_OFF else manager.network_of_handle
    network = named(value[0])
    return [] if network is None else [network]


def watched_cantrace(data: bytes, reached: Reached) -> str:
    """What `model.cantrace` gives; on the way it is noted what the run reaches."""
    plain_run_event = model.run_event

    def run_event(manager: model.Manager, tag: int, value: bytes) -> model.Outcome:
        """The model's `run_event`, watched."""
        moving = moved_networks(manager, tag, value) if tag in MOVING_EVENTS else []
        found = [situation_of(network) for network in moving]
        counted = [network.bus_off_count for network in moving]
        delays = [ending_delay(network) for network in moving] if tag == EventTag.TICK else []
        listened = manager.listening
        outcome = plain_run_event(manager, tag, value)
        reached.note_event(tag, outcome)
        if outcome.answer == model.ACCEPTED:
            reached.note_delays(delays)
            if tag == EventTag.LISTEN:
                reached.note_listen(listened, manager, outcome.records)
            for situation, count, network in zip(found, counted, moving):
                reached.note_transition(tag, situation, network.step)
                if tag == EventTag.BUS_OFF:
                    reached.note_count(situation.step, count, network.bus_off_count)
                if tag == EventTag.TICK:
                    reached.note_sending(situation.step, manager.listening, modes_handed(network, outcome.records))
        return outcome

    with mock.patch.object(model, "run_event", run_event):
        output = model.cantrace(data)
    reached.note_output(data, output)
    return output


# ---------------------------------------------------------------------------
# In words
# ---------------------------------------------------------------------------


def yes_or_no(words: str, holds: bool) -> str:
    """A property in words, or its contrary."""
    return words if holds else f"not {words}"


def situation_words(situation: Situation) -> str:
    """A situation in words, such as 'bare, step 4, full wanted, not at its time'."""
    words = [OUTFIT_NAMES[situation.outfit], f"step {situation.step}", f"{MODE_NAMES[situation.wanted]} wanted"]
    if situation.step in model.ASKING_STEPS:
        words.append(yes_or_no("done", situation.done))
    if situation.refusal_present:
        words.append("a refusal")
    if situation.step in model.TIMED_STEPS:
        words.append(yes_or_no("at its time", situation.reached))
    return ", ".join(words)


def transition_words(transition: Transition) -> str:
    """A transition in words, such as 'bare, tick, 4 to 5'."""
    outfit = OUTFIT_NAMES[transition.outfit]
    return f"{outfit}, {EVENT_NAMES[transition.cause]}, {transition.step} to {transition.next_step}"


def delay_words(delay: Delay) -> str:
    """A delay in words, such as 'newer rule, at the threshold, the long delay'."""
    return f"{delay.rule} rule, {delay.count} the threshold, the {delay.name} delay"


def change_words(changes: bool) -> str:
    """Whether a call to listen changes anything, in words."""
    return "a change" if changes else "no change"


def listened_words(listened: Listened) -> str:
    """A call to listen in words, such as 'listening set in step 4, a change, handed out'."""
    name = "set" if listened.sets else "cleared"
    return f"listening {name} in step {listened.step}, {change_words(listened.changes)}, {yes_or_no('handed out', listened.handed)}"


def sending_words(sending: Sending) -> str:
    """What a tick hands out of kind 3 in words, such as 'a tick in step 7, not listening, argument 1'."""
    return f"a tick in step {sending.step}, {yes_or_no('listening', sending.listening)}, argument {sending.argument}"


def place_words(place: Place) -> str:
    """Where a refusal points, in words, such as '34 points 5 behind tag 04, times 2, 3 zero, later network'."""
    zeros = f", times {', '.join(map(str, place.zeros))} zero" if place.zeros else ""
    return f"{place.answer:02X} points {place.distance} behind tag {place.tag:02X}{zeros}, {'later' if place.later else 'first'} network"


def words_of(name: str, thing: object) -> str:
    """One of the things that can be reached, in words."""
    if name == "transitions":
        return transition_words(thing)
    if name == "decisions":
        return situation_words(thing)
    if name == "answers":
        return f"{EVENT_NAMES[thing[0]]} answered {thing[1]:02X}"
    if name == "refusals":
        return f"{thing:02X}"
    if name == "fields":
        return f"a field {thing[0]:02X} refused with {thing[1]:02X}"
    if name == "places":
        return place_words(thing)
    if name == "counts":
        return f"a bus-off in step {thing[0]}, {yes_or_no('counted', thing[1])}"
    if name == "delays":
        return delay_words(thing)
    if name == "listens":
        return listened_words(thing)
    if name == "sending":
        return sending_words(thing)
    if name == "records":
        return f"kind {thing[0]} argument {thing[1]}"
    return str(thing)


def missing(reached: Reached) -> List[str]:
    """What could be reached and was not, a line each."""
    return [
        f"{name}: {words_of(name, thing)}"
        for name, things in possible().items()
        for thing in sorted(things)
        if thing not in reached.times[name]
    ]


def surprises(reached: Reached) -> List[str]:
    """What was reached though it is not among what can be, a line each: then this file is wrong."""
    return [
        f"{name}: {words_of(name, thing)}"
        for name, things in possible().items()
        for thing in sorted(set(reached.times[name]) - things)
    ]


def summary(reached: Reached) -> List[str]:
    """How many of the things that can be reached were, a line for each name."""
    return [
        f"  {name:12} {len(things & set(reached.times[name])):4} of {len(things):4}"
        for name, things in possible().items()
    ]


def rows(entries: Iterable[str], width: int = 110) -> Iterator[str]:
    """Short entries in lines of about this width."""
    line: List[str] = []
    for entry in entries:
        if sum(len(word) + 3 for word in line) + len(entry) > width:
            yield "  " + "   ".join(line)
            line = []
        line.append(entry)
    yield "  " + "   ".join(line)


def transition_rows(reached: Reached) -> Iterator[str]:
    """How often each transition was made, by outfit and cause."""
    times = reached.times["transitions"]
    for outfit in model.ALL_OUTFITS:
        for cause in MOVING_EVENTS:
            yield f"transitions of a {OUTFIT_NAMES[outfit]} network by {EVENT_NAMES[cause]}, step>next step: times"
            chosen = [move for move in sorted(possible_transitions(outfit)) if move.cause == cause]
            yield from rows(f"{move.step}>{move.next_step}: {times[move]}" for move in chosen)


def listen_rows(reached: Reached) -> Iterator[str]:
    """How often listening was set and cleared in each step, with a change and without; a plus stands where kind 3 is handed out."""
    times = reached.times["listens"]
    for sets in (True, False):
        for changes in (True, False):
            yield f"listening {'set' if sets else 'cleared'}, {change_words(changes)}, step and + where kind 3 is handed out: times"
            chosen = [each for each in sorted(possible()["listens"]) if (each.sets, each.changes) == (sets, changes)]
            yield from rows(f"{each.step}{'+' if each.handed else ''}: {times[each]}" for each in chosen)


def answer_rows(reached: Reached) -> Iterator[str]:
    """How often each number was the answer, by event; the numbers are hexadecimal as in the rules."""
    yield "answers, number: times"
    times = reached.times["answers"]
    for tag, numbers in POSSIBLE_ANSWERS.items():
        words = "   ".join(f"{answer:02X}: {times[tag, answer]}" for answer in sorted(numbers))
        yield f"  {EVENT_NAMES[tag]:16} {words}"


def missing_steps(outfit: int) -> str:
    """The steps that a network of this outfit never comes to, and why."""
    absent = [step for step in model.ALL_STEPS if step not in reachable_steps(outfit)]
    reasons = []
    for steps, reason in ((TRANSCEIVER_STEPS, "it has no transceiver"), (PARTIAL_STEPS, "it has no partial networking")):
        found = [str(step) for step in absent if step in steps]
        if found:
            reasons.append(f"{', '.join(found)} ({reason})")
    return "; ".join(reasons) or "none"


def unreachable() -> Iterator[str]:
    """What the program cannot reach, with the reasons."""
    yield "not to be reached in the program:"
    for refusal, reason in UNREACHABLE_REFUSALS.items():
        yield f"  refusal {refusal:02X}: {reason}"
    for outfit in model.ALL_OUTFITS:
        yield f"  steps of a {OUTFIT_NAMES[outfit]} network: {missing_steps(outfit)}"
    situations = [Situation(*situation) for situation in model.situations()]
    reasons = Counter(contradiction(situation) or FOREIGN_STEP for situation in situations)
    reasons[FOREIGN_STEP] -= len(possible_situations())
    yield f"  of the {len(situations)} situations of the tick's decision {len(possible_situations())} can occur; of the others"
    for reason, number in reasons.most_common():
        yield f"    {number} cannot: {reason}"


def table(reached: Reached) -> List[str]:
    """The whole table: the summary, and how often each thing was reached."""
    steps, records, endings = (reached.times[name] for name in ("steps", "records", "endings"))
    lines = ["reached, of all that the program can reach:", *summary(reached)]
    lines.append("steps: times that a tick, a bus-off or a stall ended there")
    lines += rows(f"{step}: {steps[step]}" for step in sorted(possible()["steps"]))
    lines += transition_rows(reached)
    lines.append("bus-offs, step and whether it was counted: times")
    counts = reached.times["counts"]
    lines += rows(f"{step} {yes_or_no('counted', counted)}: {counts[step, counted]}" for step, counted in sorted(possible()["counts"]))
    lines.append("delays that came to their end, by the rule and by the count: times")
    delays = reached.times["delays"]
    lines += [f"  {delay_words(delay)}: {delays[delay]}" for delay in POSSIBLE_DELAYS]
    lines += listen_rows(reached)
    lines.append("kind 3 of a tick, by the step and by listening: times")
    sending = reached.times["sending"]
    lines += rows(f"{sending_words(each)}: {sending[each]}" for each in sorted(possible()["sending"]))
    lines += answer_rows(reached)
    lines.append("fields of a sheet, tag and the number that it was refused with: times")
    fields = reached.times["fields"]
    lines += rows(f"{tag:02X} {answer:02X}: {fields[tag, answer]}" for tag, answer in sorted(possible()["fields"]))
    lines.append("where a wrong length and a number out of its range are pointed at: times")
    places = reached.times["places"]
    lines += rows(f"{place_words(place)}: {places[place]}" for place in sorted(possible()["places"]))
    lines.append("records, kind:argument: times")
    lines += rows(f"{kind}:{argument}: {records[kind, argument]}" for kind, argument in sorted(possible()["records"]))
    lines.append("endings: times")
    return lines + [f"  {ending}: {endings[ending]}" for ending in Ending.ALL]
