"""Recorded inputs in the making: a sheet, then events that are chosen by what has come of those before.

A `Trace` lives through its own events in a manager of the model, so the layer above and the layer below can be played in a
closed loop: every request handed out is answered before the next tick, or refused, or left alone, as the maker likes.
"""

from dataclasses import replace
from typing import Iterator, List, NamedTuple, Optional, Tuple

import model
from coverage import Situation, situation_of
from model import EventTag, Kind, Limit, Mode, Outfit, Relation, Step

Event = Tuple[int, ...]

OK = 1
NOT_OK = 0
# What a call to listen says.
ON = 1
OFF = 0
REQUEST_KINDS = (Kind.CONTROLLER_MODE, Kind.TRANSCEIVER_MODE, Kind.CLEAR_WAKE_FLAG, Kind.CHECK_WAKE_FLAG)
FULL_STEPS = (Step.CHECKING, Step.FULL)
RECOVERY_STEPS = (Step.RESTARTING, Step.WAITING)
RESET_STEPS = (Step.RESET_STOPPED, Step.RESET_STARTED)
DOWN_STEPS = (9, 10, 11, 12, 13, 14)
MOST_TURNS_OF_A_WAY = 100


class Case(NamedTuple):
    """One case: what is tried, the input, and where the rules say it at once the last line of the output."""

    name: str
    data: bytes
    last_line: str = ""


# ---------------------------------------------------------------------------
# Networks
# ---------------------------------------------------------------------------


def network(
    handle: int,
    controllers: List[int],
    transceiver: Optional[int] = None,
    times: Tuple[int, int, int] = (2, 5, 3),
    threshold: int = 1,
    partial: int = 0,
    relation: Relation = Relation.ABOVE,
) -> model.Settings:
    """The settings of a network; the times are short delay, long delay and ensure time."""
    return model.Settings(handle, controllers, transceiver, *times, threshold, partial, relation)


def by_the_newer_rule(settings: model.Settings) -> model.Settings:
    """The same network with field 07."""
    return replace(settings, relation=Relation.AT_OR_ABOVE)


# The network of the whole case and of the bench cases, its sheet, and the whole case.
BENCH_NETWORK = network(7, [3])
SHEET = bytes.fromhex("01000107 02000103 040006000200050003 05000101 06000100")
WHOLE_CASE = SHEET + bytes.fromhex(
    "160000 120003030001 160000 120003030201 160000 1000020702"
    "160000 120003030001 160000 120003030101 160000 11000103"
    "160000 120003030101 160000 160000 160000 17000107"
)
# A network of each outfit, with two controllers.
OF_OUTFIT = {
    Outfit.NO_TRANSCEIVER: network(7, [3, 12]),
    Outfit.TRANSCEIVER: network(9, [4, 0], 6),
    Outfit.PARTIAL_NETWORKING: network(20, [30, 1], 5, partial=1),
}
# The largest sheet without field 07, 328 bytes: eight networks of four controllers and a transceiver, half of them with partial networking.
LARGEST = [
    network(255 - n, list(range(4 * n, 4 * n + 4)), 7 - n, times=(1 + n, 2 * n + 1, 2), threshold=n, partial=n % 2)
    for n in range(Limit.NETWORKS)
]
# The largest there is, 360 bytes: field 07 in each of these.
LARGEST_BY_THE_NEWER_RULE = [by_the_newer_rule(settings) for settings in LARGEST]


# ---------------------------------------------------------------------------
# A trace
# ---------------------------------------------------------------------------


def field(tag: int, *value: int) -> bytes:
    """The bytes of one field of the sheet or of one event."""
    return model.write_field(tag, bytes(value))


TICK = field(EventTag.TICK)


def answer_to(request: model.Record, ok: int = OK) -> Event:
    """The event that answers a request; whether it is ok is said by controllers only."""
    kind, target, argument = request
    if kind == Kind.CONTROLLER_MODE:
        return EventTag.CONTROLLER_ANSWER, target, argument, ok
    if kind == Kind.TRANSCEIVER_MODE:
        return EventTag.TRANSCEIVER_MODE, target, argument
    if kind == Kind.CLEAR_WAKE_FLAG:
        return EventTag.CLEAR_DONE, target
    return EventTag.CHECK_DONE, target


def wanted_on_the_way(step: int, target: int) -> int:
    """The mode to want in a step on the way to another one."""
    if target == Step.SILENT and step in FULL_STEPS:
        return Mode.SILENT
    if target in DOWN_STEPS and step in model.COMING_UP_STEPS + model.UP_STEPS:
        return Mode.NO
    if target in model.COMING_UP_STEPS and step in model.UP_STEPS:
        return Mode.NO
    if target == Step.CHECKING and step == Step.FULL:
        return Mode.NO
    return Mode.NO if target == Step.NO_COMMUNICATION else Mode.FULL


class Trace:
    """A recorded input that grows event by event, and the manager that lives through it."""

    def __init__(self, *networks: model.Settings) -> None:
        sheet = model.write_sheet(list(networks))
        self.fields: List[bytes] = [sheet]
        self.length = len(sheet)
        self.manager = model.Manager.new()
        self.open_requests: List[model.Record] = []
        if self.manager.read(sheet).answer != model.ACCEPTED:
            raise ValueError(f"no good sheet: {sheet.hex()}")
        self.manager.start()

    def recorded(self) -> bytes:
        """The input as it stands."""
        return b"".join(self.fields)

    def number_of_events(self) -> int:
        """How many events there are so far."""
        return len(self.fields) - 1

    def network(self, index: int = 0) -> model.NetworkRecord:
        """The record of the network at this place of the sheet."""
        return self.manager.networks[index]

    def controllers(self, index: int = 0) -> List[int]:
        """The controllers of the network at this place of the sheet."""
        return self.network(index).settings.controllers

    # One event each

    def event(self, tag: int, *value: int) -> model.Outcome:
        """Record an event and live through it."""
        self.fields.append(field(tag, *value))
        self.length += len(self.fields[-1])
        outcome = model.run_event(self.manager, tag, bytes(value))
        if tag == EventTag.TICK:
            self.open_requests = [record for record in outcome.records if record[0] in REQUEST_KINDS]
        elif tag == EventTag.BUS_OFF and outcome.answer == model.ACCEPTED:
            self.drop_requests(self.manager.network_of_controller(value[0]).settings.controllers)
        return outcome

    def drop_requests(self, controllers: List[int]) -> None:
        """What these controllers were asked is stale after a bus-off."""
        self.open_requests = [
            (kind, target, argument)
            for kind, target, argument in self.open_requests
            if kind != Kind.CONTROLLER_MODE or target not in controllers
        ]

    def tick(self, number: int = 1) -> None:
        """So many ticks; what is open stays unanswered."""
        for _ in range(number):
            self.event(EventTag.TICK)

    def poll(self, index: int = 0) -> None:
        """Ask for the mode last told."""
        self.event(EventTag.POLL, self.network(index).settings.handle)

    def want(self, mode: int, index: int = 0) -> None:
        """Request a mode."""
        self.event(EventTag.REQUEST, self.network(index).settings.handle, mode)

    def bus_off(self, index: int = 0, controller: int = 0) -> None:
        """A bus-off of one of the network's controllers, by its place among them."""
        self.event(EventTag.BUS_OFF, self.controllers(index)[controller])

    def stall(self, index: int = 0) -> None:
        """The sending of a network has stuck. Where that is taken nothing was asked of the network, so no request becomes stale."""
        self.event(EventTag.STALL, self.network(index).settings.handle)

    def listen(self, value: int = ON) -> None:
        """All networks are to hear and stay quiet, or to send again. It asks for nothing and forgets nothing, so no request becomes stale."""
        self.event(EventTag.LISTEN, value)

    # Runs of events

    def reply(self, ok: int = OK) -> None:
        """Answer every open request, in the order in which they were handed out."""
        for request in self.open_requests:
            self.event(*answer_to(request, ok))
        self.open_requests = []

    def replied_tick(self, number: int = 1) -> None:
        """So many times: answer what is open, then tick."""
        for _ in range(number):
            self.reply()
            self.tick()

    def turn_to(self, mode: int, index: int = 0) -> None:
        """Request a mode unless it is the wanted one."""
        if self.network(index).wanted != mode:
            self.want(mode, index)

    def way_to(self, step: int, index: int = 0) -> Iterator[None]:
        """Bring a network to a step, turn by turn; after each of them something else may happen."""
        for _ in range(MOST_TURNS_OF_A_WAY):
            if self.network(index).step == step:
                return
            self.go_on(step, index)
            yield
        raise ValueError(f"step {step} was not reached")

    def go_to(self, step: int, index: int = 0) -> None:
        """Bring a network to a step by requests, answers, bus-offs, stalls and ticks; where it is there already, do nothing."""
        for _ in self.way_to(step, index):
            pass

    def go_on(self, target: int, index: int) -> None:
        """A bus-off, a stall, or one replied tick more, on the way to the target step."""
        step = self.network(index).step
        if step in FULL_STEPS and target in RECOVERY_STEPS:
            self.bus_off(index)
            return
        if step in FULL_STEPS and target in RESET_STEPS:
            self.stall(index)
            return
        self.turn_to(wanted_on_the_way(step, target), index)
        if step == Step.CONTROLLERS_SLEEP and target == Step.CHECK_WAKE_AGAIN:
            self.reply(NOT_OK)
        self.replied_tick()


# ---------------------------------------------------------------------------
# A network just so
# ---------------------------------------------------------------------------


def answer_partly(trace: Trace, refused: bool) -> None:
    """The last controller that was asked answers alone: with a refusal, or with an ok that leaves others open."""
    if refused:
        trace.event(*answer_to(trace.open_requests[-1], NOT_OK))
    elif len(trace.open_requests) > 1:
        trace.event(*answer_to(trace.open_requests[-1]))
    trace.open_requests = []


def arrange(trace: Trace, situation: Situation) -> None:
    """Bring the first network to a situation, so that the next tick finds it just so."""
    record = trace.network()
    trace.go_to(situation.step)
    if situation.step in model.ASKING_STEPS and not record.asked:
        trace.tick()
    if situation.done:
        trace.reply()
    else:
        answer_partly(trace, situation.refusal_present)
    while situation.reached and not model.timer_is_reached(record):
        trace.tick()
    trace.turn_to(situation.wanted)
    if situation_of(record) != situation:
        raise ValueError(f"{situation} was to be arranged, and {situation_of(record)} is there")
