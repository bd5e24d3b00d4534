#!/usr/bin/env python3
"""A model of the CAN state manager, written from the rules of docs/RULES.md and not from the code.

It is the oracle in tests: slow, plain and close to the rules. A comment that begins with numbers of
rules and a colon, as `# S19: ..`, stands above the lines that say these rules.
Run as a program it does what `cantrace` does: recorded input in, lines out.
"""

import sys
from dataclasses import dataclass, field
from enum import Enum
from typing import Iterator, List, NamedTuple, Optional, Tuple

# ---------------------------------------------------------------------------
# Named numbers
# ---------------------------------------------------------------------------

# R1: the answer of an accepted call; any other number refuses it
ACCEPTED = 0


class Refusal:
    """The numbers of the refusals."""

    # R7: the manager was not started, or has no sheet
    NOT_READY = 0x01
    # R10: no network has the handle
    UNKNOWN_HANDLE = 0x03
    # R11: no network has the controller
    UNKNOWN_CONTROLLER = 0x04
    # R12: no network has the transceiver
    UNKNOWN_TRANSCEIVER = 0x05
    # R14: silent is asked for, and the network is in step 0
    ASLEEP = 0x08
    # R8: the manager runs already
    ALREADY_STARTED = 0x0B
    # R9: too few bytes were lent
    BUFFER_TOO_SHORT = 0x20
    # R13: there is no such mode, ok value or value to listen
    VALUE_OUT_OF_RANGE = 0x21
    # R15: the step does not take the answer, the report, the bus-off or the stall
    NOT_TAKEN = 0x22
    # R22: silent is asked for, and the network comes up
    COMING_UP = 0x24
    # R23: silent is asked for, and the network goes down
    GOING_DOWN = 0x25
    # S15, S18, S26: the bytes end too early
    SHEET_CUT = 0x30
    # S16: the tag is none of the table
    SHEET_UNKNOWN_TAG = 0x31
    # S17: the length is not the tag's
    SHEET_WRONG_LENGTH = 0x32
    # S19: the tag may not stand here
    SHEET_WRONG_ORDER = 0x33
    # S20: the value is out of its range
    SHEET_OUT_OF_RANGE = 0x34
    # S21: the id was used before
    SHEET_USED_BEFORE = 0x35
    # S22: a network or a controller too many
    SHEET_TOO_MANY = 0x36
    # S23: partial networking without a transceiver
    SHEET_NO_TRANSCEIVER = 0x37
    # S25: there is no network
    SHEET_NO_NETWORK = 0x38


class Kind:
    """The kinds of the records handed out."""

    # H5 to H12: a number for each kind
    CONTROLLER_MODE = 1
    TRANSCEIVER_MODE = 2
    PDU_MODE = 3
    CLEAR_WAKE_FLAG = 4
    CHECK_WAKE_FLAG = 5
    COMMUNICATION_MANAGER = 6
    MODE_MANAGER = 7
    EVENT_MANAGER = 8


class ControllerMode:
    """The modes of a controller."""

    # H5: the arguments of kind 1
    STOPPED = 0
    STARTED = 1
    SLEEP = 2


class TransceiverMode:
    """The modes of a transceiver."""

    # H6: the arguments of kind 2
    NORMAL = 0
    STANDBY = 1


class PduMode:
    """Whether a controller may send."""

    # H7: the arguments of kind 3
    ONLINE = 0
    TX_OFFLINE = 1
    TX_OFFLINE_ACTIVE = 2


class Mode:
    """The modes of a network, wanted and told."""

    # H10: the arguments of kind 6
    NO = 0
    SILENT = 1
    FULL = 2


class ModeManagerNotice:
    """What the mode manager is told."""

    # H11: the arguments of kind 7
    NO = 0
    SILENT = 1
    FULL = 2
    BUS_OFF = 3


class EventManagerNotice:
    """What the event manager is told."""

    # H12: the arguments of kind 8
    PASSED = 0
    PREFAILED = 1


class Step:
    """The steps that a network can be in."""

    # N1: the seventeen steps
    NO_COMMUNICATION = 0
    TRANSCEIVER_NORMAL = 1
    CONTROLLERS_STOPPED = 2
    CONTROLLERS_STARTED = 3
    CHECKING = 4
    FULL = 5
    RESTARTING = 6
    WAITING = 7
    SILENT = 8
    CLEAR_WAKE = 9
    DOWN_STOPPED = 10
    TRANSCEIVER_STANDBY = 11
    CONTROLLERS_SLEEP = 12
    CHECK_WAKE = 13
    CHECK_WAKE_AGAIN = 14
    RESET_STOPPED = 15
    RESET_STARTED = 16


class Outfit:
    """What a network has: no transceiver, a transceiver, or one with partial networking."""

    NO_TRANSCEIVER = 0
    TRANSCEIVER = 1
    PARTIAL_NETWORKING = 2


class Relation(Enum):
    """How a count of bus-offs is held against the threshold."""

    # S8, S27: the older rule, where there is no field 07, and the newer one, which is its value
    ABOVE = 0
    AT_OR_ABOVE = 1


class Tag:
    """The tags of the settings sheet; NONE stands before the first field."""

    NONE = 0x00
    # S4 to S9, S27: a tag for each field of the table
    HANDLE = 0x01
    CONTROLLER = 0x02
    TRANSCEIVER = 0x03
    TIMES = 0x04
    THRESHOLD = 0x05
    PARTIAL_NETWORKING = 0x06
    RELATION = 0x07


class EventTag:
    """The tags of the events of the recorded input."""

    # C3: the lowest tag of an event
    FIRST = 0x10
    # C7 to C14, C22, C23: a tag for each event
    REQUEST = 0x10
    BUS_OFF = 0x11
    CONTROLLER_ANSWER = 0x12
    TRANSCEIVER_MODE = 0x13
    CLEAR_DONE = 0x14
    CHECK_DONE = 0x15
    TICK = 0x16
    POLL = 0x17
    STALL = 0x18
    LISTEN = 0x19


class Limit:
    """The limits that the rules name."""

    # S22: no sheet has more networks, and no network more controllers
    NETWORKS = 8
    CONTROLLERS_OF_A_NETWORK = 4
    # S5, S6, S8: the largest ids, and the largest threshold
    CONTROLLER_ID = 31
    TRANSCEIVER_ID = 7
    THRESHOLD = 254
    # B2: where the count of bus-offs stays
    BUS_OFF_COUNT = 255
    # R13: the largest mode, the largest ok value, and the largest value to listen
    MODE = 2
    OK = 1
    LISTEN = 1
    # S1: a tag and a length
    HEADER_BYTES = 3
    # H1: a kind, a target and an argument
    RECORD_BYTES = 3
    # R17: what a bus-off needs, in every step
    BUS_OFF_BYTES = 9
    # R21: what a stall needs, in every step
    STALL_BYTES = 3
    # C1: what the program reads at most
    PROGRAM_INPUT_BYTES = 65536
    # C5: what the program lends each call
    PROGRAM_BUFFER_BYTES = 144


# S4 to S9, S27: how many bytes the value of each field has
LENGTH_OF_TAG = {
    Tag.HANDLE: 1,
    Tag.CONTROLLER: 1,
    Tag.TRANSCEIVER: 1,
    Tag.TIMES: 6,
    Tag.THRESHOLD: 1,
    Tag.PARTIAL_NETWORKING: 1,
    Tag.RELATION: 1,
}

# S2, S3, S19, S27: which fields may follow which
ALLOWED_AFTER = {
    Tag.NONE: (Tag.HANDLE,),
    Tag.HANDLE: (Tag.CONTROLLER,),
    Tag.CONTROLLER: (Tag.CONTROLLER, Tag.TRANSCEIVER, Tag.TIMES),
    Tag.TRANSCEIVER: (Tag.TIMES,),
    Tag.TIMES: (Tag.THRESHOLD,),
    Tag.THRESHOLD: (Tag.PARTIAL_NETWORKING,),
    Tag.PARTIAL_NETWORKING: (Tag.RELATION, Tag.HANDLE),
    Tag.RELATION: (Tag.HANDLE,),
}
# S2, S27: the fields with which a network is whole, so that the bytes may also end after them
ENDING_TAGS = (Tag.PARTIAL_NETWORKING, Tag.RELATION)

# C7 to C14, C22, C23: how many bytes the value of each event has
LENGTH_OF_EVENT = {
    EventTag.REQUEST: 2,
    EventTag.BUS_OFF: 1,
    EventTag.CONTROLLER_ANSWER: 3,
    EventTag.TRANSCEIVER_MODE: 2,
    EventTag.CLEAR_DONE: 1,
    EventTag.CHECK_DONE: 1,
    EventTag.TICK: 0,
    EventTag.POLL: 1,
    EventTag.STALL: 1,
    EventTag.LISTEN: 1,
}

# N1: the mode that a step asks the controllers for
CONTROLLER_MODE_OF_STEP = {
    Step.CONTROLLERS_STOPPED: ControllerMode.STOPPED,
    Step.CONTROLLERS_STARTED: ControllerMode.STARTED,
    Step.RESTARTING: ControllerMode.STARTED,
    Step.DOWN_STOPPED: ControllerMode.STOPPED,
    Step.CONTROLLERS_SLEEP: ControllerMode.SLEEP,
    Step.RESET_STOPPED: ControllerMode.STOPPED,
    Step.RESET_STARTED: ControllerMode.STARTED,
}

# N1: the mode that a step asks the transceiver for
TRANSCEIVER_MODE_OF_STEP = {
    Step.TRANSCEIVER_NORMAL: TransceiverMode.NORMAL,
    Step.TRANSCEIVER_STANDBY: TransceiverMode.STANDBY,
}

# N1: the steps that ask for the wake flag to be cleared, and those that ask for it to be checked
CLEAR_STEPS = (Step.CLEAR_WAKE,)
CHECK_STEPS = (Step.CHECK_WAKE, Step.CHECK_WAKE_AGAIN)
# N2: the steps that have a number of ticks with them
TIMED_STEPS = (Step.CHECKING, Step.WAITING)
ALL_STEPS = range(17)
ALL_OUTFITS = (Outfit.NO_TRANSCEIVER, Outfit.TRANSCEIVER, Outfit.PARTIAL_NETWORKING)
# N10: the steps that ask
ASKING_STEPS = (1, 2, 3, 6, 9, 10, 11, 12, 13, 14, 15, 16)
COMING_UP_STEPS = (1, 2, 3)
# N4: the steps in which a network is up
UP_STEPS = (4, 5, 6, 7, 8, 15, 16)
GOING_DOWN_STEPS = (9, 10, 11, 12, 13, 14)
# X2: the steps that take a stall
STALL_STEPS = (4, 5)
# L3, L6: the steps in which each controller was last handed online, or what goes out in its place while the manager listens
ONLINE_STEPS = (4, 5, 15, 16)

# H1: kind, target, argument
Record = Tuple[int, int, int]


# ---------------------------------------------------------------------------
# The settings sheet
# ---------------------------------------------------------------------------


@dataclass
class Settings:
    """The settings of one network; the fields after the handle are filled as they are read."""

    handle: int
    controllers: List[int] = field(default_factory=list)
    transceiver: Optional[int] = None
    short_delay: int = 0
    long_delay: int = 0
    ensure_time: int = 0
    threshold: int = 0
    partial_networking: int = 0
    relation: Relation = Relation.ABOVE


class Reading(NamedTuple):
    """What reading a sheet gives; the list of networks is empty beside a refusal."""

    refusal: int
    place: int
    networks: List[Settings]


def two_byte_number(data: bytes, offset: int) -> int:
    """The number of two bytes."""
    # S1: the high byte comes first
    return data[offset] * 256 + data[offset + 1]


def times_of(value: bytes) -> Tuple[int, int, int]:
    """The short delay, the long delay and the ensure time."""
    # S7: three times of two bytes each
    return two_byte_number(value, 0), two_byte_number(value, 2), two_byte_number(value, 4)


def layout_refusal(data: bytes, place: int) -> int:
    """What is wrong with the bytes of a field, whatever stands before it."""
    left = len(data) - place
    # S15: one or two bytes are left
    if left < Limit.HEADER_BYTES:
        return Refusal.SHEET_CUT
    tag = data[place]
    length = two_byte_number(data, place + 1)
    # S16: the tag is none of the table
    if tag not in LENGTH_OF_TAG:
        return Refusal.SHEET_UNKNOWN_TAG
    # S17: the length is not the tag's
    if length != LENGTH_OF_TAG[tag]:
        return Refusal.SHEET_WRONG_LENGTH
    # S18: the value runs past the end
    if left < Limit.HEADER_BYTES + length:
        return Refusal.SHEET_CUT
    return ACCEPTED


def value_in_range(tag: int, value: bytes) -> bool:
    """Whether the value is in the range that the table gives its field."""
    # S5: the id of a controller
    if tag == Tag.CONTROLLER:
        return value[0] <= Limit.CONTROLLER_ID
    # S6: the id of a transceiver
    if tag == Tag.TRANSCEIVER:
        return value[0] <= Limit.TRANSCEIVER_ID
    # S7, S11: no time is 0; the two delays are not compared
    if tag == Tag.TIMES:
        return all(number >= 1 for number in times_of(value))
    # S8: the threshold
    if tag == Tag.THRESHOLD:
        return value[0] <= Limit.THRESHOLD
    # S9: partial networking is 0 or 1
    if tag == Tag.PARTIAL_NETWORKING:
        return value[0] <= 1
    # S27: of the two relations the field says the newer one alone
    if tag == Tag.RELATION:
        return value[0] == Relation.AT_OR_ABOVE.value
    # S4: a handle may be any byte
    return True


def used_before(tag: int, value: bytes, networks: List[Settings]) -> bool:
    """Whether the id stands in the sheet already, in a finished network or in the last one."""
    # S10, S21: each kind of ids is compared with its own
    if tag == Tag.HANDLE:
        return any(value[0] == network.handle for network in networks)
    if tag == Tag.CONTROLLER:
        return any(value[0] in network.controllers for network in networks)
    if tag == Tag.TRANSCEIVER:
        return any(value[0] == network.transceiver for network in networks)
    return False


def one_too_many(tag: int, networks: List[Settings]) -> bool:
    """Whether the sheet or its last network has no room for one more."""
    # S22: a ninth network, or a network's fifth controller
    if tag == Tag.HANDLE:
        return len(networks) == Limit.NETWORKS
    if tag == Tag.CONTROLLER:
        return len(networks[-1].controllers) == Limit.CONTROLLERS_OF_A_NETWORK
    return False


def content_refusal(tag: int, value: bytes, last_tag: int, networks: List[Settings]) -> int:
    """What is wrong with a whole field, by its value and by the fields before it."""
    # S19: the tag may not stand here
    if tag not in ALLOWED_AFTER[last_tag]:
        return Refusal.SHEET_WRONG_ORDER
    # S20: the value is out of its range
    if not value_in_range(tag, value):
        return Refusal.SHEET_OUT_OF_RANGE
    # S21: the id was used before
    if used_before(tag, value, networks):
        return Refusal.SHEET_USED_BEFORE
    # S22: a network or a controller too many
    if one_too_many(tag, networks):
        return Refusal.SHEET_TOO_MANY
    # S9, S23: partial networking needs a transceiver
    if tag == Tag.PARTIAL_NETWORKING and value[0] == 1 and networks[-1].transceiver is None:
        return Refusal.SHEET_NO_TRANSCEIVER
    return ACCEPTED


def refused_at(refusal: int, data: bytes, place: int) -> int:
    """Where a refusal points, of the field whose tag stands at this place."""
    # S28: at the first length byte
    if refusal == Refusal.SHEET_WRONG_LENGTH:
        return place + 1
    value_place = place + Limit.HEADER_BYTES
    # S29: at the first byte of the number that is out of its range; of the three times it is the first that is 0
    if refusal == Refusal.SHEET_OUT_OF_RANGE and data[place] == Tag.TIMES:
        return value_place + 2 * times_of(data[value_place:]).index(0)
    if refusal == Refusal.SHEET_OUT_OF_RANGE:
        return value_place
    # S24: every other one at the tag
    return place


def keep_field(tag: int, value: bytes, networks: List[Settings]) -> None:
    """Store one good field: a handle begins a network, the others belong to the last one."""
    if tag == Tag.HANDLE:
        networks.append(Settings(value[0]))
    elif tag == Tag.CONTROLLER:
        # S14: the controllers keep the order of the sheet
        networks[-1].controllers.append(value[0])
    elif tag == Tag.TRANSCEIVER:
        networks[-1].transceiver = value[0]
    elif tag == Tag.TIMES:
        network = networks[-1]
        network.short_delay, network.long_delay, network.ensure_time = times_of(value)
    elif tag == Tag.THRESHOLD:
        networks[-1].threshold = value[0]
    elif tag == Tag.PARTIAL_NETWORKING:
        networks[-1].partial_networking = value[0]
    elif tag == Tag.RELATION:
        networks[-1].relation = Relation(value[0])


def read_sheet(data: bytes) -> Reading:
    """What reading a sheet gives."""
    networks = []
    last_tag = Tag.NONE
    # S13: the fields are read one by one, and the place moves on with them
    place = 0
    while place < len(data):
        refusal = layout_refusal(data, place)
        if refusal != ACCEPTED:
            return Reading(refusal, refused_at(refusal, data, place), [])
        tag = data[place]
        value_place = place + Limit.HEADER_BYTES
        value = data[value_place:value_place + LENGTH_OF_TAG[tag]]
        refusal = content_refusal(tag, value, last_tag, networks)
        if refusal != ACCEPTED:
            return Reading(refusal, refused_at(refusal, data, place), [])
        keep_field(tag, value, networks)
        last_tag = tag
        place = value_place + len(value)
    # S25: the bytes end before there is a network
    if not networks:
        return Reading(Refusal.SHEET_NO_NETWORK, 0, [])
    # S26: the bytes end within a network
    if last_tag not in ENDING_TAGS:
        return Reading(Refusal.SHEET_CUT, len(data), [])
    # R5: the place of an accepted reading is the length of the sheet
    return Reading(ACCEPTED, len(data), networks)


def write_field(tag: int, value: bytes) -> bytes:
    """A field as bytes."""
    # S1: its tag, the length of its value with the high byte first, its value
    return bytes([tag]) + len(value).to_bytes(2, "big") + value


def write_network(network: Settings) -> bytes:
    """The fields of a network as bytes."""
    times = b"".join(
        number.to_bytes(2, "big")
        for number in (network.short_delay, network.long_delay, network.ensure_time)
    )
    # S3: in the order of the table
    written = write_field(Tag.HANDLE, bytes([network.handle]))
    for controller in network.controllers:
        written += write_field(Tag.CONTROLLER, bytes([controller]))
    if network.transceiver is not None:
        written += write_field(Tag.TRANSCEIVER, bytes([network.transceiver]))
    written += write_field(Tag.TIMES, times)
    written += write_field(Tag.THRESHOLD, bytes([network.threshold]))
    written += write_field(Tag.PARTIAL_NETWORKING, bytes([network.partial_networking]))
    # S27: the field stands just where the newer rule holds
    if network.relation == Relation.AT_OR_ABOVE:
        written += write_field(Tag.RELATION, bytes([network.relation.value]))
    return written


def write_sheet(networks: List[Settings]) -> bytes:
    """The sheet of these networks."""
    # S2: a network, and then a further one or nothing more
    return b"".join(write_network(network) for network in networks)


def outfit_of(settings: Settings) -> int:
    """The one of the three outfits that the settings of a network describe."""
    if settings.partial_networking == 1:
        return Outfit.PARTIAL_NETWORKING
    if settings.transceiver is not None:
        return Outfit.TRANSCEIVER
    return Outfit.NO_TRANSCEIVER


# ---------------------------------------------------------------------------
# The one decision of a tick
# ---------------------------------------------------------------------------


def first_down_step(outfit: int) -> int:
    """The step in which going down begins."""
    # N7: 9 with partial networking, else 10
    if outfit == Outfit.PARTIAL_NETWORKING:
        return Step.CLEAR_WAKE
    return Step.DOWN_STOPPED


def next_step_from_no_communication(wanted: int, outfit: int) -> int:
    """The step after a tick in step 0."""
    # T4: where full is wanted step 1, without a transceiver step 2
    if wanted != Mode.FULL:
        return Step.NO_COMMUNICATION
    if outfit == Outfit.NO_TRANSCEIVER:
        return Step.CONTROLLERS_STOPPED
    return Step.TRANSCEIVER_NORMAL


def next_step_coming_up(step: int, done: bool) -> int:
    """The step after a tick in one of the steps 1 to 3."""
    if not done:
        return step
    # T5 to T7: each leads to the next, and the last of them to full
    return {
        Step.TRANSCEIVER_NORMAL: Step.CONTROLLERS_STOPPED,
        Step.CONTROLLERS_STOPPED: Step.CONTROLLERS_STARTED,
        Step.CONTROLLERS_STARTED: Step.CHECKING,
    }[step]


def next_step_full(step: int, wanted: int, reached: bool) -> int:
    """The step after a tick in step 4 or 5."""
    # T8: silent is wanted
    if wanted == Mode.SILENT:
        return Step.SILENT
    # T10: the ensure time is reached
    if step == Step.CHECKING and reached:
        return Step.FULL
    return step


def next_step_waiting(wanted: int, reached: bool) -> int:
    """The step after a tick in step 7."""
    if not reached:
        return Step.WAITING
    # T13: the delay is over
    if wanted == Mode.FULL:
        return Step.CHECKING
    return Step.SILENT


def next_step_resetting(step: int, wanted: int, done: bool) -> int:
    """The step after a tick in step 15 or 16."""
    if not done:
        return step
    # T29: the controllers are stopped, and are to start again
    if step == Step.RESET_STOPPED:
        return Step.RESET_STARTED
    # T30: the controllers run again: full, or silent where that is wanted
    return Step.SILENT if wanted == Mode.SILENT else Step.CHECKING


def next_step_up(step: int, wanted: int, done: bool, reached: bool) -> int:
    """The step after a tick in one of the steps in which a network is up."""
    if step in (Step.CHECKING, Step.FULL):
        return next_step_full(step, wanted, reached)
    # T11: the controllers run again, and the wait begins
    if step == Step.RESTARTING:
        return Step.WAITING if done else step
    if step == Step.WAITING:
        return next_step_waiting(wanted, reached)
    if step in (Step.RESET_STOPPED, Step.RESET_STARTED):
        return next_step_resetting(step, wanted, done)
    # T14: from silent back to full
    return Step.CHECKING if wanted == Mode.FULL else step


def next_step_down(step: int, done: bool, outfit: int) -> int:
    """The step after a tick in one of the steps 9 to 14, without partial networking.

    The steps 9, 13 and 14 do not occur there; they stay.
    """
    if not done:
        return step
    # T15: from stopped to asleep
    if step == Step.DOWN_STOPPED:
        return Step.CONTROLLERS_SLEEP
    # T16: from asleep to standby where there is a transceiver
    if step == Step.CONTROLLERS_SLEEP and outfit == Outfit.TRANSCEIVER:
        return Step.TRANSCEIVER_STANDBY
    # T16, T17: else from asleep, and from standby, to step 0
    if step in (Step.CONTROLLERS_SLEEP, Step.TRANSCEIVER_STANDBY):
        return Step.NO_COMMUNICATION
    return step


def next_step_down_partial(step: int, done: bool, refusal_present: bool) -> int:
    """The step after a tick in one of the steps 9 to 14, with partial networking."""
    # T19: some controller refuses to sleep
    if step == Step.CONTROLLERS_SLEEP and refusal_present:
        return Step.CHECK_WAKE_AGAIN
    if not done:
        return step
    # T18, T20 to T22: from 9 to 12 one after the other, then 13 and 0; from 14 back to 9
    return {
        Step.CLEAR_WAKE: Step.DOWN_STOPPED,
        Step.DOWN_STOPPED: Step.TRANSCEIVER_STANDBY,
        Step.TRANSCEIVER_STANDBY: Step.CONTROLLERS_SLEEP,
        Step.CONTROLLERS_SLEEP: Step.CHECK_WAKE,
        Step.CHECK_WAKE: Step.NO_COMMUNICATION,
        Step.CHECK_WAKE_AGAIN: Step.CLEAR_WAKE,
    }[step]


def next_step(
    step: int, wanted: int, done: bool, refusal_present: bool, reached: bool, outfit: int
) -> int:
    """The step after one tick."""
    if step == Step.NO_COMMUNICATION:
        return next_step_from_no_communication(wanted, outfit)
    # T3: where no is wanted the network goes down, before anything else is looked at
    if step in COMING_UP_STEPS + UP_STEPS and wanted == Mode.NO:
        return first_down_step(outfit)
    if step in UP_STEPS:
        return next_step_up(step, wanted, done, reached)
    if step in COMING_UP_STEPS:
        return next_step_coming_up(step, done)
    if outfit == Outfit.PARTIAL_NETWORKING:
        return next_step_down_partial(step, done, refusal_present)
    return next_step_down(step, done, outfit)


def situations() -> Iterator[Tuple[int, int, bool, bool, bool, int]]:
    """All arguments of `next_step`, in order; the outfit varies fastest."""
    for step in ALL_STEPS:
        for wanted in (Mode.NO, Mode.SILENT, Mode.FULL):
            for done in (True, False):
                for refusal_present in (True, False):
                    for reached in (True, False):
                        for outfit in ALL_OUTFITS:
                            yield step, wanted, done, refusal_present, reached, outfit


def decisions() -> Iterator[int]:
    """All 1,224 next steps, in the order of `situations`."""
    for situation in situations():
        yield next_step(*situation)


# ---------------------------------------------------------------------------
# One network
# ---------------------------------------------------------------------------


@dataclass
class NetworkRecord:
    """What the manager keeps of a network. An answer is None until it comes."""

    settings: Settings
    # N1: the step that it is in
    step: int
    # N3: the last answer of each controller in this step
    answers: List[Optional[bool]]
    # N2: the ticks of step 4 or 7
    tick_count: int = 0
    # N3: the wanted mode, and the mode that kind 6 last told
    wanted: int = Mode.NO
    told: int = Mode.NO
    # N3: the count of bus-offs
    bus_off_count: int = 0
    # N3: whether the step has asked, and whether the report that it waits for has come
    asked: bool = False
    reported: bool = False


def started_network(settings: Settings) -> NetworkRecord:
    """What the manager keeps of a network right after the start."""
    # N7, N8: the first down step, not asked yet; no is wanted and told, no bus-off is counted
    step = first_down_step(outfit_of(settings))
    return NetworkRecord(settings, step, [None] * len(settings.controllers))


def set_step(network: NetworkRecord, step: int) -> None:
    """Put the network in a step with nothing asked, nothing answered and tick count 0."""
    network.step = step
    network.tick_count = 0
    forget_answers(network)


def forget_answers(network: NetworkRecord) -> None:
    """Let the step have asked for nothing yet, and forget what was answered."""
    network.asked = False
    network.answers = [None] * len(network.settings.controllers)
    network.reported = False


def records_for_controllers(network: NetworkRecord, kind: int, argument: int) -> List[Record]:
    """A record for each controller of the network."""
    # S14: in the order of the sheet
    return [(kind, controller, argument) for controller in network.settings.controllers]


def tell_communication_manager(network: NetworkRecord, mode: int) -> List[Record]:
    """Hand out kind 6, and keep what was told."""
    # N5, N6: by this mode the network is full or not, and a poll gives it
    network.told = mode
    return [(Kind.COMMUNICATION_MANAGER, network.settings.handle, mode)]


def tell_mode_manager(network: NetworkRecord, notice: int) -> List[Record]:
    """Hand out kind 7."""
    return [(Kind.MODE_MANAGER, network.settings.handle, notice)]


def tell_event_manager(network: NetworkRecord, notice: int) -> List[Record]:
    """Hand out kind 8."""
    return [(Kind.EVENT_MANAGER, network.settings.handle, notice)]


def requests_of_step(network: NetworkRecord) -> List[Record]:
    """What the step asks for, as records."""
    step = network.step
    transceiver = network.settings.transceiver
    # N11: where it is about controllers, each of the network is asked
    if step in CONTROLLER_MODE_OF_STEP:
        return records_for_controllers(network, Kind.CONTROLLER_MODE, CONTROLLER_MODE_OF_STEP[step])
    if step in TRANSCEIVER_MODE_OF_STEP:
        return [(Kind.TRANSCEIVER_MODE, transceiver, TRANSCEIVER_MODE_OF_STEP[step])]
    # H8, H9: the argument is 0
    if step in CLEAR_STEPS:
        return [(Kind.CLEAR_WAKE_FLAG, transceiver, 0)]
    if step in CHECK_STEPS:
        return [(Kind.CHECK_WAKE_FLAG, transceiver, 0)]
    return []


def ask(network: NetworkRecord) -> List[Record]:
    """Hand out what the step asks for, and keep that it has asked."""
    # N11, N12: on entering the step, and again on each later tick until it is done
    network.asked = True
    return requests_of_step(network)


def is_done(network: NetworkRecord) -> bool:
    """Whether the network is in a step that asks, and all that it asks for is answered."""
    # N13: it has asked; and every controller's last answer is ok, or the report has come
    if network.step not in ASKING_STEPS or not network.asked:
        return False
    if network.step in CONTROLLER_MODE_OF_STEP:
        return all(answer is True for answer in network.answers)
    return network.reported


def refusal_is_present(network: NetworkRecord) -> bool:
    """Whether the last answer of some controller is a refusal."""
    # T19: an answer that has not come is no refusal
    return any(answer is False for answer in network.answers)


def brings_long_delay(settings: Settings, bus_off_count: int) -> bool:
    """Whether so many bus-offs bring the long delay, by the network's own rule."""
    # S27: by the newer rule at the threshold too
    if settings.relation == Relation.AT_OR_ABOVE:
        return bus_off_count >= settings.threshold
    # S8: by the older rule above it alone
    return bus_off_count > settings.threshold


def timer_is_reached(network: NetworkRecord) -> bool:
    """Whether this tick reaches the time that the step waits for."""
    settings = network.settings
    risen = network.tick_count + 1
    # T10: the ensure time
    if network.step == Step.CHECKING:
        return risen >= settings.ensure_time
    # T13: the long delay where the count brings it, else the short one
    if network.step == Step.WAITING:
        is_long = brings_long_delay(settings, network.bus_off_count)
        return risen >= (settings.long_delay if is_long else settings.short_delay)
    return False


def enter_asking_step(network: NetworkRecord, step: int) -> List[Record]:
    """Enter a step that asks."""
    # N11: the answers are forgotten, and it asks at once
    set_step(network, step)
    return ask(network)


def enter_full(network: NetworkRecord) -> List[Record]:
    """Enter full."""
    # T23: step 4 with 0 ticks; every controller may send, and both managers are told full
    set_step(network, Step.CHECKING)
    records = records_for_controllers(network, Kind.PDU_MODE, PduMode.ONLINE)
    records += tell_communication_manager(network, Mode.FULL)
    return records + tell_mode_manager(network, ModeManagerNotice.FULL)


def enter_silent(network: NetworkRecord) -> List[Record]:
    """Enter silent."""
    # T24: step 8; no controller may send, and both managers are told silent
    set_step(network, Step.SILENT)
    records = records_for_controllers(network, Kind.PDU_MODE, PduMode.TX_OFFLINE)
    records += tell_communication_manager(network, Mode.SILENT)
    return records + tell_mode_manager(network, ModeManagerNotice.SILENT)


def all_clear(network: NetworkRecord) -> List[Record]:
    """Give the all-clear."""
    # T10, T27: step 5; the bus-offs count from 0, and the event manager is told passed
    set_step(network, Step.FULL)
    network.bus_off_count = 0
    return tell_event_manager(network, EventManagerNotice.PASSED)


def begin_waiting(network: NetworkRecord) -> List[Record]:
    """Begin the wait of a recovery."""
    # T11: step 7 with 0 ticks; no controller may send
    set_step(network, Step.WAITING)
    return records_for_controllers(network, Kind.PDU_MODE, PduMode.TX_OFFLINE)


def go_down(network: NetworkRecord, step: int) -> List[Record]:
    """Go down, beginning with this step."""
    # T25: no for the mode manager, silent where full was told, then what the step asks for
    records = tell_mode_manager(network, ModeManagerNotice.NO)
    if network.told == Mode.FULL:
        records += tell_communication_manager(network, Mode.SILENT)
    return records + enter_asking_step(network, step)


def enter_no_communication(network: NetworkRecord) -> List[Record]:
    """Enter step 0."""
    # T28: the communication manager is told no, whatever it was told before
    set_step(network, Step.NO_COMMUNICATION)
    return tell_communication_manager(network, Mode.NO)


def move_to(network: NetworkRecord, step: int) -> List[Record]:
    """Move the network to another step, with the effects that the way there has."""
    if step == Step.NO_COMMUNICATION:
        return enter_no_communication(network)
    if step == Step.CHECKING:
        return enter_full(network)
    if step == Step.FULL:
        return all_clear(network)
    if step == Step.WAITING:
        return begin_waiting(network)
    if step == Step.SILENT:
        return enter_silent(network)
    # T26: a shutdown begins from a step that comes up or is up, and not on the way from 14 to 9
    if network.step in COMING_UP_STEPS + UP_STEPS and network.wanted == Mode.NO:
        return go_down(network, step)
    return enter_asking_step(network, step)


def stay(network: NetworkRecord) -> List[Record]:
    """What a tick does to a network that stays in its step."""
    # T9, T12: one tick more is counted
    if network.step in TIMED_STEPS:
        network.tick_count += 1
    # N12: a step that is not done asks for all of it again, and keeps the answers that came
    if network.step in ASKING_STEPS and not is_done(network):
        return ask(network)
    return []


def tick_network(network: NetworkRecord) -> List[Record]:
    """What a tick does to a network."""
    # T1: one move at most
    step = next_step(
        network.step,
        network.wanted,
        is_done(network),
        refusal_is_present(network),
        timer_is_reached(network),
        outfit_of(network.settings),
    )
    if step == network.step:
        return stay(network)
    return move_to(network, step)


def bus_off_network(network: NetworkRecord) -> List[Record]:
    """What a bus-off does to a network in a step that takes it."""
    # B5: in step 3 the answers are forgotten, and that is all
    if network.step == Step.CONTROLLERS_STARTED:
        forget_answers(network)
        return []
    # B2: one bus-off more, up to 255; but not in step 6, where a second chip may report the same fault
    if network.step != Step.RESTARTING:
        network.bus_off_count = min(network.bus_off_count + 1, Limit.BUS_OFF_COUNT)
    # B4: step 6, which has not asked
    set_step(network, Step.RESTARTING)
    # B3: the event manager, the communication manager and the mode manager are told
    records = tell_event_manager(network, EventManagerNotice.PREFAILED)
    records += tell_communication_manager(network, Mode.SILENT)
    return records + tell_mode_manager(network, ModeManagerNotice.BUS_OFF)


def takes_bus_off(network: NetworkRecord) -> bool:
    """Whether the step takes a bus-off."""
    # B6: step 3 and the steps in which the network is up, and no other
    return network.step in UP_STEPS or network.step == Step.CONTROLLERS_STARTED


def answer_to_silent(step: int) -> int:
    """What a request for silent is answered with in this step."""
    # N15: silent may be asked for while the network is up, which a recovery is
    if step in UP_STEPS:
        return ACCEPTED
    # R22: in steps 1 to 3 it comes up
    if step in COMING_UP_STEPS:
        return Refusal.COMING_UP
    # R23: in steps 9 to 14 it goes down
    if step in GOING_DOWN_STEPS:
        return Refusal.GOING_DOWN
    # R14: step 0 alone is left
    return Refusal.ASLEEP


def stall_network(network: NetworkRecord) -> List[Record]:
    """What a stall does to a network in a step that takes it."""
    # X3, X4: step 15, which has not asked; the count of bus-offs and the wanted mode stay
    set_step(network, Step.RESET_STOPPED)
    # X2: the communication manager is told silent, and nobody else is told anything
    return tell_communication_manager(network, Mode.SILENT)


def takes_stall(network: NetworkRecord) -> bool:
    """Whether the step takes a stall."""
    # X2, X5: the steps 4 and 5 alone
    return network.step in STALL_STEPS


def online_records(network: NetworkRecord) -> List[Record]:
    """Online for each controller of a network that was last handed it, for a call that changes what goes out for it."""
    # L3, L4: in steps 4, 5, 15 and 16; the record of the network is looked at, and stays
    if network.step not in ONLINE_STEPS:
        return []
    return records_for_controllers(network, Kind.PDU_MODE, PduMode.ONLINE)


def quiet_twin(record: Record) -> Record:
    """What goes out in the place of a record while the manager listens."""
    kind, target, argument = record
    # L2: of 3 online the argument becomes 2; every other record goes out as it is, 3 TX offline too
    if (kind, argument) == (Kind.PDU_MODE, PduMode.ONLINE):
        return kind, target, PduMode.TX_OFFLINE_ACTIVE
    return record


def takes_controller_answer(network: NetworkRecord, mode: int) -> bool:
    """Whether the step takes a controller's answer."""
    # A2: it has asked the controllers, and for this very mode
    return network.asked and CONTROLLER_MODE_OF_STEP.get(network.step) == mode


def takes_transceiver_mode(network: NetworkRecord, mode: int) -> bool:
    """Whether the step takes a transceiver's report."""
    # A3: it has asked the transceiver, and for this very mode
    return network.asked and TRANSCEIVER_MODE_OF_STEP.get(network.step) == mode


def takes_clear_done(network: NetworkRecord) -> bool:
    """Whether the step takes the report that the flag was cleared."""
    # A4: step 9, once it has asked
    return network.asked and network.step in CLEAR_STEPS


def takes_check_done(network: NetworkRecord) -> bool:
    """Whether the step takes the report that the flag was checked."""
    # A5: steps 13 and 14, once they have asked
    return network.asked and network.step in CHECK_STEPS


# ---------------------------------------------------------------------------
# The manager
# ---------------------------------------------------------------------------


@dataclass
class Outcome:
    """What a call gives back; what does not apply to the call is 0 or empty.

    The count is the number of records of a tick, a bus-off, a stall or a call to listen, the number of
    networks of a reading, the sheet's length of a writing.
    """

    answer: int
    records: List[Record] = field(default_factory=list)
    count: int = 0
    mode: int = 0
    place: int = 0
    sheet: bytes = b""


def refused(answer: int) -> Outcome:
    """A refused call."""
    # R3: no records, and every number beside the answer is 0
    return Outcome(answer)


def accepted_with_records(records: List[Record]) -> Outcome:
    """An accepted call that hands out records."""
    # H2: with them goes how many there are
    return Outcome(ACCEPTED, records=records, count=len(records))


def lent_bytes_after(before: bytes, outcome: Outcome) -> bytes:
    """The lent buffer after a call."""
    # H2 to H4: records or a sheet fill it from its front, and the bytes behind them stay
    # R2: a refused call has neither, so every byte stays
    written = outcome.sheet + b"".join(bytes(record) for record in outcome.records)
    return written + before[len(written):]


class Manager:
    """The state manager. Before the start it has no network records, and does not listen."""

    # R2, R6: each call makes its tests first, in the order of the table, and only then a change

    def __init__(self):
        self.sheet: Optional[List[Settings]] = None
        self.networks: Optional[List[NetworkRecord]] = None
        # L1: kept beside the records of the networks
        self.listening = False

    @classmethod
    def new(cls) -> "Manager":
        """A manager without a sheet, not started."""
        return cls()

    def is_started(self) -> bool:
        """Whether a start has been accepted."""
        return self.networks is not None

    def number_of_controllers(self) -> int:
        """How many controllers all networks of the sheet have."""
        return sum(len(settings.controllers) for settings in self.sheet)

    def tick_bytes(self) -> int:
        """How many bytes a tick needs."""
        # R16: three for each controller and six for each network
        return Limit.RECORD_BYTES * (self.number_of_controllers() + 2 * len(self.sheet))

    def listen_bytes(self) -> int:
        """How many bytes a call to listen needs."""
        # R24: three for each controller of all networks, in every step
        return Limit.RECORD_BYTES * self.number_of_controllers()

    def handing_out(self, records: List[Record]) -> Outcome:
        """An accepted call that hands out these records: every call that hands out any ends here."""
        # L2: while the manager listens each goes out as its quiet twin
        if self.listening:
            records = [quiet_twin(record) for record in records]
        return accepted_with_records(records)

    # N16: of the networks only the one that has the id is given to a call, to be changed

    def network_of_handle(self, handle: int) -> Optional[NetworkRecord]:
        """The network with this handle, if there is one."""
        for network in self.networks:
            if network.settings.handle == handle:
                return network
        return None

    def network_of_controller(self, controller: int) -> Optional[NetworkRecord]:
        """The network that has this controller, if there is one."""
        for network in self.networks:
            if controller in network.settings.controllers:
                return network
        return None

    def network_of_transceiver(self, transceiver: int) -> Optional[NetworkRecord]:
        """The network that has this transceiver, if there is one."""
        for network in self.networks:
            if network.settings.transceiver == transceiver:
                return network
        return None

    def read(self, data: bytes) -> Outcome:
        """Read a sheet."""
        # R4, R8: a manager that runs reads no sheet, and the place is 0
        if self.is_started():
            return refused(Refusal.ALREADY_STARTED)
        reading = read_sheet(data)
        # R4, R20: refused by its bytes; the place is theirs, and the former sheet stays in force
        if reading.refusal != ACCEPTED:
            return Outcome(reading.refusal, place=reading.place)
        # R19, L5: the sheet takes the place of the one before, and whether the manager listens stays
        self.sheet = reading.networks
        # R5: how many networks there are, and how long the sheet is
        return Outcome(ACCEPTED, count=len(reading.networks), place=reading.place)

    def write(self, lent_length: int) -> Outcome:
        """Write the sheet into a buffer of this length."""
        # R7: no sheet was read
        if self.sheet is None:
            return refused(Refusal.NOT_READY)
        sheet = write_sheet(self.sheet)
        # R9, R18: fewer bytes are lent than the sheet has
        if lent_length < len(sheet):
            return refused(Refusal.BUFFER_TOO_SHORT)
        # H4: the count is the length of the sheet
        return Outcome(ACCEPTED, count=len(sheet), sheet=sheet)

    def start(self) -> Outcome:
        """Start the manager."""
        # R7: no sheet was read
        if self.sheet is None:
            return refused(Refusal.NOT_READY)
        # R8: the manager runs already
        if self.is_started():
            return refused(Refusal.ALREADY_STARTED)
        # N7 to N9: every network goes down first, and nothing is handed out
        self.networks = [started_network(settings) for settings in self.sheet]
        # L5: it begins without listening
        self.listening = False
        return Outcome(ACCEPTED)

    def request(self, handle: int, mode: int) -> Outcome:
        """Want a mode of the network with this handle."""
        # R7: the manager was not started
        if not self.is_started():
            return refused(Refusal.NOT_READY)
        # R10: no network has the handle
        network = self.network_of_handle(handle)
        if network is None:
            return refused(Refusal.UNKNOWN_HANDLE)
        # R13: there is no such mode
        if mode > Limit.MODE:
            return refused(Refusal.VALUE_OUT_OF_RANGE)
        # N15: no and full may be asked for in every step
        answer = answer_to_silent(network.step) if mode == Mode.SILENT else ACCEPTED
        if answer != ACCEPTED:
            return refused(answer)
        # N14: the mode is stored, and nothing else happens
        network.wanted = mode
        return Outcome(ACCEPTED)

    def bus_off(self, controller: int, lent_length: int) -> Outcome:
        """A bus-off of this controller."""
        # R7: the manager was not started
        if not self.is_started():
            return refused(Refusal.NOT_READY)
        # R9, R17: it needs 9 bytes in every step
        if lent_length < Limit.BUS_OFF_BYTES:
            return refused(Refusal.BUFFER_TOO_SHORT)
        # B1, R11: it concerns the network that has the controller, and there may be none
        network = self.network_of_controller(controller)
        if network is None:
            return refused(Refusal.UNKNOWN_CONTROLLER)
        # B6, R15: the step does not take it
        if not takes_bus_off(network):
            return refused(Refusal.NOT_TAKEN)
        return self.handing_out(bus_off_network(network))

    def stall(self, handle: int, lent_length: int) -> Outcome:
        """The sending of the network with this handle has stuck."""
        # R7: the manager was not started
        if not self.is_started():
            return refused(Refusal.NOT_READY)
        # R9, R21: it needs 3 bytes in every step
        if lent_length < Limit.STALL_BYTES:
            return refused(Refusal.BUFFER_TOO_SHORT)
        # X1, R10: it concerns the network that has the handle, and there may be none
        network = self.network_of_handle(handle)
        if network is None:
            return refused(Refusal.UNKNOWN_HANDLE)
        # X5, R15: the step does not take it
        if not takes_stall(network):
            return refused(Refusal.NOT_TAKEN)
        return self.handing_out(stall_network(network))

    def listen(self, value: int, lent_length: int) -> Outcome:
        """Set listening for the whole manager, or clear it."""
        # R7: the manager was not started
        if not self.is_started():
            return refused(Refusal.NOT_READY)
        # R9, R24: too few bytes are lent, also where nothing would go out
        if lent_length < self.listen_bytes():
            return refused(Refusal.BUFFER_TOO_SHORT)
        # R13: the value is 0 or 1
        if value > Limit.LISTEN:
            return refused(Refusal.VALUE_OUT_OF_RANGE)
        # L1: 1 sets listening and 0 clears it
        before, self.listening = self.listening, value == 1
        # L3: where nothing changes nothing is handed out
        if self.listening == before:
            return self.handing_out([])
        # L3: else online, as it goes out from now on, in the order of the sheet
        records = []
        for network in self.networks:
            records += online_records(network)
        return self.handing_out(records)

    def controller_answer(self, controller: int, mode: int, ok: int) -> Outcome:
        """The answer of a controller to the request for a mode."""
        # R7: the manager was not started
        if not self.is_started():
            return refused(Refusal.NOT_READY)
        # R11: no network has the controller
        network = self.network_of_controller(controller)
        if network is None:
            return refused(Refusal.UNKNOWN_CONTROLLER)
        # A1, R13: the mode is from 0 to 2, and ok is 0 or 1
        if mode > Limit.MODE or ok > Limit.OK:
            return refused(Refusal.VALUE_OUT_OF_RANGE)
        # A6, R15: the step does not take it
        if not takes_controller_answer(network, mode):
            return refused(Refusal.NOT_TAKEN)
        # A2: it takes the place of an earlier answer
        network.answers[network.settings.controllers.index(controller)] = ok == 1
        return Outcome(ACCEPTED)

    def transceiver_mode(self, transceiver: int, mode: int) -> Outcome:
        """The report of a transceiver that it is in a mode."""
        # R7: the manager was not started
        if not self.is_started():
            return refused(Refusal.NOT_READY)
        # R12: no network has the transceiver
        network = self.network_of_transceiver(transceiver)
        if network is None:
            return refused(Refusal.UNKNOWN_TRANSCEIVER)
        # A3, R13: the mode is from 0 to 2
        if mode > Limit.MODE:
            return refused(Refusal.VALUE_OUT_OF_RANGE)
        # A6, R15: the step does not take it
        if not takes_transceiver_mode(network, mode):
            return refused(Refusal.NOT_TAKEN)
        network.reported = True
        return Outcome(ACCEPTED)

    def clear_done(self, transceiver: int) -> Outcome:
        """The report that the wake flag of a transceiver was cleared."""
        # R7: the manager was not started
        if not self.is_started():
            return refused(Refusal.NOT_READY)
        # R12: no network has the transceiver
        network = self.network_of_transceiver(transceiver)
        if network is None:
            return refused(Refusal.UNKNOWN_TRANSCEIVER)
        # A6, R15: the step does not take it
        if not takes_clear_done(network):
            return refused(Refusal.NOT_TAKEN)
        network.reported = True
        return Outcome(ACCEPTED)

    def check_done(self, transceiver: int) -> Outcome:
        """The report that the wake flag of a transceiver was checked."""
        # R7: the manager was not started
        if not self.is_started():
            return refused(Refusal.NOT_READY)
        # R12: no network has the transceiver
        network = self.network_of_transceiver(transceiver)
        if network is None:
            return refused(Refusal.UNKNOWN_TRANSCEIVER)
        # A6, R15: the step does not take it
        if not takes_check_done(network):
            return refused(Refusal.NOT_TAKEN)
        network.reported = True
        return Outcome(ACCEPTED)

    def tick(self, lent_length: int) -> Outcome:
        """Let one tick pass."""
        # R7: the manager was not started
        if not self.is_started():
            return refused(Refusal.NOT_READY)
        # R9, R16, T2: too few bytes are lent; for no network has a tick passed
        if lent_length < self.tick_bytes():
            return refused(Refusal.BUFFER_TOO_SHORT)
        # T1: the networks move in the order of the sheet
        records = []
        for network in self.networks:
            records += tick_network(network)
        return self.handing_out(records)

    def poll(self, handle: int) -> Outcome:
        """The mode of the network with this handle."""
        # R7: the manager was not started
        if not self.is_started():
            return refused(Refusal.NOT_READY)
        # R10: no network has the handle
        network = self.network_of_handle(handle)
        if network is None:
            return refused(Refusal.UNKNOWN_HANDLE)
        # N6: the mode that kind 6 last told
        return Outcome(ACCEPTED, mode=network.told)


# ---------------------------------------------------------------------------
# The program
# ---------------------------------------------------------------------------


def field_is_cut(data: bytes, place: int) -> bool:
    """Whether the field at this place lacks some byte of its header or its value."""
    left = len(data) - place
    if left < Limit.HEADER_BYTES:
        return True
    return left < Limit.HEADER_BYTES + two_byte_number(data, place + 1)


def split_place(data: bytes) -> int:
    """Where the sheet ends and the events begin."""
    place = 0
    # C2, C3: from field to field up to the first event; its tag is looked at before a cut
    while place < len(data) and data[place] < EventTag.FIRST:
        # C4: all that is left belongs to the sheet
        if field_is_cut(data, place):
            return len(data)
        place += Limit.HEADER_BYTES + two_byte_number(data, place + 1)
    return place


def event_is_bad(data: bytes, place: int) -> bool:
    """Whether the field at this place is no good event."""
    # C21: it is cut, no event has its tag, or its length is not that of the event
    if field_is_cut(data, place):
        return True
    return LENGTH_OF_EVENT.get(data[place]) != two_byte_number(data, place + 1)


def run_event(manager: Manager, tag: int, value: bytes) -> Outcome:
    """Make the call of an event."""
    # C7: a handle and a mode
    if tag == EventTag.REQUEST:
        return manager.request(value[0], value[1])
    # C5, C8: a controller
    if tag == EventTag.BUS_OFF:
        return manager.bus_off(value[0], Limit.PROGRAM_BUFFER_BYTES)
    # C9: a controller, a mode and ok
    if tag == EventTag.CONTROLLER_ANSWER:
        return manager.controller_answer(value[0], value[1], value[2])
    # C10: a transceiver and a mode
    if tag == EventTag.TRANSCEIVER_MODE:
        return manager.transceiver_mode(value[0], value[1])
    # C11: a transceiver
    if tag == EventTag.CLEAR_DONE:
        return manager.clear_done(value[0])
    # C12: a transceiver
    if tag == EventTag.CHECK_DONE:
        return manager.check_done(value[0])
    # C5, C13: no value
    if tag == EventTag.TICK:
        return manager.tick(Limit.PROGRAM_BUFFER_BYTES)
    # C5, C22: a handle
    if tag == EventTag.STALL:
        return manager.stall(value[0], Limit.PROGRAM_BUFFER_BYTES)
    # C5, C23: a value
    if tag == EventTag.LISTEN:
        return manager.listen(value[0], Limit.PROGRAM_BUFFER_BYTES)
    # C14: a handle
    return manager.poll(value[0])


def event_line(number: int, tag: int, outcome: Outcome) -> str:
    """The line of an event."""
    # C17, C20: its number and the answer; all numbers are decimal
    words = [str(number), str(outcome.answer)]
    # C19: a poll has its mode in place of records
    if tag == EventTag.POLL:
        words.append(str(outcome.mode))
    # C18: the records
    for kind, target, argument in outcome.records:
        words.append(f"{kind}:{target}:{argument}")
    return " ".join(words)


def event_lines(manager: Manager, data: bytes, place: int) -> List[str]:
    """The lines of all events, whose fields begin at this place of the input."""
    lines = []
    while place < len(data):
        # C21: at a bad field the output ends
        if event_is_bad(data, place):
            return lines + [f"stop {place}"]
        # C6, C17: the call of each event, and a line for it, with numbers from 1 on
        tag = data[place]
        value_place = place + Limit.HEADER_BYTES
        value = data[value_place:value_place + LENGTH_OF_EVENT[tag]]
        lines.append(event_line(len(lines) + 1, tag, run_event(manager, tag, value)))
        place = value_place + len(value)
    return lines


def cantrace_lines(data: bytes) -> List[str]:
    """The lines of the whole output."""
    # C1: too long an input has one line
    if len(data) > Limit.PROGRAM_INPUT_BYTES:
        return ["too long"]
    # C6: the sheet is read, the manager is started, and the events follow
    manager = Manager.new()
    place = split_place(data)
    reading = manager.read(data[:place])
    # C16: of a refused sheet its number and the place, and no other line
    if reading.answer != ACCEPTED:
        return [f"config {reading.answer} {reading.place}"]
    manager.start()
    # C15: of an accepted one how many networks it has
    return [f"config {reading.answer} {reading.count}"] + event_lines(manager, data, place)


def cantrace(data: bytes) -> str:
    """The whole output of the program; every line ends with a newline."""
    return "".join(line + "\n" for line in cantrace_lines(data))


def main() -> None:
    """Standard input in, standard output out."""
    # C1: one byte more is read, which shows that the input is too long
    data = sys.stdin.buffer.read(Limit.PROGRAM_INPUT_BYTES + 1)
    sys.stdout.write(cantrace(data))


if __name__ == "__main__":
    main()
