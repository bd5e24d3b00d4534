"""Cases for the program `trace_cases` that are played in a closed loop: good sheets, good events, every step and transition.

A case says "go to step 7, then a bus-off"; the requests on the way are answered ok before the next tick.
"""

from typing import Iterator, List, Tuple

import coverage
import model
from model import ControllerMode, EventTag, Limit, Mode, Outfit, Relation, Step
from traces import BENCH_NETWORK, FULL_STEPS, LARGEST, LARGEST_BY_THE_NEWER_RULE, NOT_OK, OF_OUTFIT, OFF, OK, ON, RESET_STEPS, SHEET, TICK
from traces import WHOLE_CASE, Case, Trace, answer_to, arrange, by_the_newer_rule, network

UNKNOWN_ID = 99


# ---------------------------------------------------------------------------
# The whole case and the bench cases, E13 and E1 to E12 of docs/RULES.md
# ---------------------------------------------------------------------------


def one_bus_off() -> bytes:
    """A bus-off in step 5, and four ticks later the network is full."""
    trace = Trace(BENCH_NETWORK)
    trace.go_to(Step.FULL)
    trace.bus_off()
    trace.replied_tick(4)
    trace.poll()
    return trace.recorded()


def second_bus_off_in_waiting() -> bytes:
    """Another bus-off in step 7, and seven ticks later the network is full."""
    trace = Trace(BENCH_NETWORK)
    trace.go_to(Step.FULL)
    trace.go_to(Step.WAITING)
    trace.bus_off()
    trace.replied_tick(6)
    trace.poll()
    trace.replied_tick()
    trace.poll()
    return trace.recorded()


def started_answer_before_the_request() -> bytes:
    """An answer "started" after the bus-off and before the next tick is refused, and does not count afterwards."""
    trace = Trace(BENCH_NETWORK)
    trace.go_to(Step.FULL)
    trace.bus_off()
    trace.event(EventTag.CONTROLLER_ANSWER, 3, ControllerMode.STARTED, OK)
    trace.tick(2)
    trace.replied_tick()
    return trace.recorded()


def silent_in_no_communication() -> bytes:
    """Silent asked for in step 0."""
    trace = Trace(BENCH_NETWORK)
    trace.go_to(Step.NO_COMMUNICATION)
    trace.want(Mode.SILENT)
    return trace.recorded()


def passed_on_the_third_tick() -> bytes:
    """Passed comes with the third tick after full was told."""
    trace = Trace(BENCH_NETWORK)
    trace.go_to(Step.CHECKING)
    trace.tick(3)
    return trace.recorded()


def paper_cases() -> Iterator[Case]:
    """Those of docs/RULES.md. A tick with too short a buffer, as in E12, is not possible in the program."""
    yield Case("the whole case", WHOLE_CASE, "18 0 2")
    yield Case("E1: empty input", b"", "config 56 0")
    yield Case("E2: the sheet alone", SHEET, "config 0 1")
    yield Case("E3: its first 24 bytes", SHEET[:24], "config 48 21")
    yield Case("E4: its first 21 bytes", SHEET[:21], "config 48 21")
    yield Case("E5: short delay zero", SHEET[:11] + bytes(2) + SHEET[13:] + TICK, "config 52 11")
    yield Case("E6: the controller field twice", SHEET[:8] + SHEET[4:] + TICK, "config 53 8")
    yield Case("E7: threshold 254", SHEET[:20] + b"\xfe" + SHEET[21:] + TICK, "1 0 1:3:0")
    yield Case("E7: threshold 255", SHEET[:20] + b"\xff" + SHEET[21:] + TICK, "config 52 20")
    yield Case("E8: partial networking without transceiver", SHEET[:24] + b"\x01" + TICK, "config 55 21")
    yield Case("E9: one bus-off in step 5", one_bus_off(), "21 0 2")
    yield Case("E9: a second one in step 7", second_bus_off_in_waiting(), "29 0 2")
    yield Case("E10: a started answer before the new request", started_answer_before_the_request(), "20 0 3:3:1")
    yield Case("E11: silent in step 0", silent_in_no_communication(), "6 8")
    yield Case("E12: passed on the third tick", passed_on_the_third_tick(), "14 0 8:7:0")


# ---------------------------------------------------------------------------
# Ticks: in each step of each outfit, each thing that a tick can find there
# ---------------------------------------------------------------------------


def ticks_in_step(outfit: int, step: int) -> bytes:
    """Each situation in turn: a tick, a poll, and one more tick after all answers."""
    trace = Trace(OF_OUTFIT[outfit])
    for situation in coverage.possible_situations():
        if (situation.outfit, situation.step) == (outfit, step):
            arrange(trace, situation)
            trace.tick()
            trace.poll()
            trace.replied_tick()
    return trace.recorded()


def steps_without_a_stall(outfit: int) -> List[int]:
    """The steps that a network of this outfit can come to while its sending never sticks."""
    return sorted(coverage.reachable_steps(outfit) - set(RESET_STEPS))


def tick_cases() -> Iterator[Case]:
    """Every transition that a tick can make is among them and among `reset_cases`, and every way to stay."""
    for outfit, name in coverage.OUTFIT_NAMES.items():
        for step in steps_without_a_stall(outfit):
            yield Case(f"{name}, ticks in step {step}", ticks_in_step(outfit, step))


# ---------------------------------------------------------------------------
# Calls: in each step of each outfit, each event with each kind of value
# ---------------------------------------------------------------------------


def every_request(trace: Trace) -> None:
    """Requests of silent and of no mode, of a known and an unknown handle; then the wanted mode is as before."""
    before = trace.network().wanted
    for mode in (Mode.SILENT, 3, 255):
        trace.want(mode)
        trace.event(EventTag.REQUEST, UNKNOWN_ID, mode)
    trace.want(before)


def every_answer(trace: Trace) -> None:
    """Answers of the first controller: each mode, first not ok, then ok; beyond the ranges; of an unknown one."""
    controller = trace.controllers()[0]
    for ok in (NOT_OK, OK):
        for mode in (ControllerMode.STOPPED, ControllerMode.STARTED, ControllerMode.SLEEP):
            trace.event(EventTag.CONTROLLER_ANSWER, controller, mode, ok)
    trace.event(EventTag.CONTROLLER_ANSWER, controller, 3, OK)
    trace.event(EventTag.CONTROLLER_ANSWER, controller, ControllerMode.STOPPED, 2)
    trace.event(EventTag.CONTROLLER_ANSWER, UNKNOWN_ID, 3, 2)


def every_report(trace: Trace) -> None:
    """Reports of an unknown transceiver, then of the known one, or of 5 where there is none: clear, check, each mode."""
    own = trace.network().settings.transceiver
    for transceiver in (UNKNOWN_ID, 5 if own is None else own):
        trace.event(EventTag.TRANSCEIVER_MODE, transceiver, 3)
        trace.event(EventTag.TRANSCEIVER_MODE, transceiver, 2)
        trace.event(EventTag.CLEAR_DONE, transceiver)
        trace.event(EventTag.CHECK_DONE, transceiver)
        trace.event(EventTag.TRANSCEIVER_MODE, transceiver, model.TransceiverMode.NORMAL)
        trace.event(EventTag.TRANSCEIVER_MODE, transceiver, model.TransceiverMode.STANDBY)


def calls_in_step(outfit: int, step: int) -> bytes:
    """Every event but a stall and a call to listen, with known and unknown ids, then a tick; in the step again a bus-off, and ticks after it."""
    trace = Trace(OF_OUTFIT[outfit])
    trace.go_to(step)
    trace.poll()
    trace.event(EventTag.POLL, UNKNOWN_ID)
    trace.event(EventTag.BUS_OFF, UNKNOWN_ID)
    every_request(trace)
    every_answer(trace)
    every_report(trace)
    trace.tick()
    trace.poll()
    trace.go_to(step)
    trace.bus_off(controller=1)
    trace.poll()
    trace.replied_tick(3)
    return trace.recorded()


def call_cases() -> Iterator[Case]:
    """A bus-off in each step is among them and `reset_cases`, and every number that an event can be answered with, but a stall or a call to listen.

    01, 0B and 20 cannot occur in the program: it reads one sheet, starts once, makes its calls on a started manager, and
    lends 144 bytes, which is room for any call.
    """
    for outfit, name in coverage.OUTFIT_NAMES.items():
        for step in steps_without_a_stall(outfit):
            yield Case(f"{name}, every call in step {step}", calls_in_step(outfit, step))


# ---------------------------------------------------------------------------
# Bus-offs and the delays
# ---------------------------------------------------------------------------


def recover(trace: Trace) -> None:
    """After a bus-off: replied ticks until the network is full again."""
    trace.go_to(Step.CHECKING)
    trace.poll()


def short_long_short() -> bytes:
    """The short delay at the threshold, the long one above it, and after passed the short one again."""
    trace = Trace(BENCH_NETWORK)
    trace.go_to(Step.FULL)
    for _ in range(2):
        trace.bus_off()
        recover(trace)
    trace.go_to(Step.FULL)
    trace.bus_off()
    recover(trace)
    return trace.recorded()


def two_recoveries(times: Tuple[int, int, int], threshold: int, relation: Relation = Relation.ABOVE) -> bytes:
    """Two bus-offs and their recoveries, with these times and this threshold."""
    trace = Trace(network(7, [3], times=times, threshold=threshold, relation=relation))
    trace.go_to(Step.FULL)
    for _ in range(2):
        trace.bus_off()
        recover(trace)
    trace.go_to(Step.FULL)
    return trace.recorded()


def many_bus_offs(number: int, in_step: int, relation: Relation = Relation.ABOVE) -> bytes:
    """So many bus-offs at the threshold 254, all but the first in this step, then the delay; after passed one more bus-off."""
    trace = Trace(network(7, [3], times=(1, 4, 2), threshold=254, relation=relation))
    trace.go_to(Step.FULL)
    trace.bus_off()
    for _ in range(number - 1):
        trace.go_to(in_step)
        trace.bus_off()
    recover(trace)
    trace.go_to(Step.FULL)
    trace.bus_off()
    recover(trace)
    return trace.recorded()


def bus_offs_in_restarting() -> bytes:
    """In step 6: before the request, after it, after one answer, after both."""
    trace = Trace(network(7, [3, 12], threshold=4))
    trace.go_to(Step.RESTARTING)
    trace.bus_off(controller=1)
    trace.tick()
    trace.bus_off()
    trace.tick()
    trace.event(EventTag.CONTROLLER_ANSWER, 3, ControllerMode.STARTED, OK)
    trace.bus_off()
    trace.event(EventTag.CONTROLLER_ANSWER, 12, ControllerMode.STARTED, OK)
    trace.tick()
    trace.reply()
    trace.bus_off(controller=1)
    trace.tick(2)
    recover(trace)
    return trace.recorded()


def bus_offs_in_waiting() -> bytes:
    """In step 7 at each tick count; the delay begins anew each time."""
    trace = Trace(network(7, [3], times=(3, 4, 2), threshold=2))
    for ticks in range(4):
        trace.go_to(Step.WAITING)
        trace.tick(ticks)
        trace.bus_off()
    recover(trace)
    return trace.recorded()


def bus_offs_in_coming_up() -> bytes:
    """In step 3 before and after an answer; they are not counted: the one in step 4 has the short delay."""
    trace = Trace(network(7, [3, 12]))
    trace.go_to(Step.CONTROLLERS_STARTED)
    trace.bus_off()
    trace.event(EventTag.CONTROLLER_ANSWER, 3, ControllerMode.STARTED, OK)
    trace.tick()
    trace.reply()
    trace.bus_off(controller=1)
    trace.bus_off()
    trace.tick()
    trace.event(EventTag.CONTROLLER_ANSWER, 12, ControllerMode.STARTED, OK)
    trace.tick()
    trace.replied_tick()
    trace.poll()
    trace.bus_off()
    recover(trace)
    return trace.recorded()


def count_through(step: int, settings: model.Settings = BENCH_NETWORK) -> bytes:
    """The way through this step and back to full keeps the count: the second bus-off has the long delay."""
    trace = Trace(settings)
    trace.go_to(Step.FULL)
    trace.bus_off()
    recover(trace)
    trace.go_to(step)
    trace.go_to(Step.CHECKING)
    trace.bus_off()
    recover(trace)
    return trace.recorded()


def recovery_with_other_wishes(step: int, modes: List[int]) -> bytes:
    """A bus-off in silent; in this step of the recovery these modes are requested one after the other."""
    trace = Trace(OF_OUTFIT[Outfit.TRANSCEIVER])
    trace.go_to(Step.SILENT)
    trace.bus_off()
    while trace.network().step != step:
        trace.replied_tick()
    for mode in modes:
        trace.want(mode)
        trace.poll()
    trace.replied_tick(6)
    trace.poll()
    return trace.recorded()


def late_started_answer() -> bytes:
    """The answer to a request from before a bus-off that comes after the next tick cannot be told apart, and is taken."""
    trace = Trace(BENCH_NETWORK)
    trace.go_to(Step.CONTROLLERS_STARTED)
    late = answer_to(trace.open_requests[0])
    trace.bus_off()
    trace.event(*late)
    trace.tick()
    trace.event(*late)
    trace.tick()
    trace.poll()
    return trace.recorded()


def each_controller_of_four() -> bytes:
    """Bus-offs of each controller of a network of four."""
    trace = Trace(network(0, [31, 0, 17, 5], 0, times=(1, 2, 1), threshold=3))
    trace.go_to(Step.FULL)
    for controller in range(4):
        trace.bus_off(controller=controller)
        recover(trace)
    return trace.recorded()


def bus_off_cases() -> Iterator[Case]:
    """Short and long delay, the count to its end and beyond, bus-offs while others are being recovered from."""
    yield Case("short delay, long delay, short delay", short_long_short())
    yield Case("threshold 0: the first bus-off is above it", two_recoveries((1, 4, 2), 0))
    yield Case("long delay below the short one", two_recoveries((6, 1, 2), 1))
    yield Case("all times 1", two_recoveries((1, 1, 1), 0))
    for number in (254, 255, 256, 300):
        yield Case(f"one fault, reported {number} times at the threshold 254", many_bus_offs(number, Step.RESTARTING))
    yield Case("bus-offs in step 6", bus_offs_in_restarting())
    yield Case("bus-offs in step 7", bus_offs_in_waiting())
    yield Case("bus-offs in step 3", bus_offs_in_coming_up())
    yield Case("the count through a shutdown", count_through(Step.NO_COMMUNICATION))
    yield Case("the count through silent", count_through(Step.SILENT))
    yield Case("bus-off in silent, back to silent", recovery_with_other_wishes(Step.RESTARTING, []))
    for step in (Step.RESTARTING, Step.WAITING):
        yield Case(f"bus-off in silent, full wanted in step {step}", recovery_with_other_wishes(step, [Mode.FULL]))
        yield Case(f"bus-off in silent, no wanted in step {step}", recovery_with_other_wishes(step, [Mode.NO]))
    yield Case("the wish changed twice in step 7", recovery_with_other_wishes(7, [Mode.NO, Mode.SILENT]))
    yield Case("a late started answer", late_started_answer())
    yield Case("bus-offs of each controller of four", each_controller_of_four())


# ---------------------------------------------------------------------------
# Answers
# ---------------------------------------------------------------------------


def last_answer_counts(first: int, second: int) -> bytes:
    """In each step on the way up the last one asked answers twice more; the second answer counts."""
    trace = Trace(network(7, [3, 12], 6))
    trace.want(Mode.FULL)
    trace.tick()
    while trace.network().step != Step.CHECKING:
        step = trace.network().step
        requests = trace.open_requests
        trace.reply()
        for request in requests[-1:]:
            trace.event(*answer_to(request, first))
            trace.event(*answer_to(request, second))
        trace.tick()
        if trace.network().step == step:
            trace.replied_tick()
    return trace.recorded()


def answers_trickle_in() -> bytes:
    """Four controllers answer one at a tick, twice each and not in the order of the requests; what is answered stays."""
    trace = Trace(network(7, [9, 2, 25, 14]))
    trace.want(Mode.FULL)
    trace.tick()
    while trace.network().step != Step.CHECKING:
        requests = trace.open_requests
        for place in (2, 0, 3, 1) if requests else ():
            trace.event(*answer_to(requests[place]))
            trace.event(*answer_to(requests[place]))
            trace.tick()
        if not requests:
            trace.tick()
    trace.poll()
    return trace.recorded()


def before_the_first_tick(outfit: int) -> bytes:
    """Nothing is asked yet: all answers are refused, and the first tick asks all the same."""
    trace = Trace(OF_OUTFIT[outfit])
    every_answer(trace)
    every_report(trace)
    trace.bus_off()
    trace.poll()
    trace.tick(2)
    return trace.recorded()


def sleep_refused(outfit: int, place: int, times: int) -> bytes:
    """The controller at this place refuses sleep so many times, then all agree."""
    trace = Trace(OF_OUTFIT[outfit])
    for _ in range(times):
        trace.go_to(Step.CONTROLLERS_SLEEP)
        trace.event(*answer_to(trace.open_requests[place], NOT_OK))
        trace.tick()
        trace.poll()
    trace.go_to(Step.NO_COMMUNICATION)
    trace.poll()
    return trace.recorded()


def refusal_taken_back() -> bytes:
    """With partial networking: sleep refused, and agreed to before the tick: to step 13 and not 14."""
    trace = Trace(OF_OUTFIT[Outfit.PARTIAL_NETWORKING])
    trace.go_to(Step.CONTROLLERS_SLEEP)
    trace.event(*answer_to(trace.open_requests[0], NOT_OK))
    trace.replied_tick()
    trace.go_to(Step.NO_COMMUNICATION)
    return trace.recorded()


def answers_of_the_step_before(outfit: int) -> bytes:
    """All the way down and up, what the step before asked for is reported once more after each tick."""
    trace = Trace(OF_OUTFIT[outfit])
    trace.want(Mode.FULL)
    trace.tick()
    while trace.network().step != Step.FULL:
        before = trace.open_requests
        trace.replied_tick()
        for request in before:
            trace.event(*answer_to(request))
    return trace.recorded()


def answer_cases() -> Iterator[Case]:
    """Which answers count, and for how long."""
    yield Case("ok, then refused: not done", last_answer_counts(OK, NOT_OK))
    yield Case("refused, then ok: done", last_answer_counts(NOT_OK, OK))
    yield Case("answers trickle in", answers_trickle_in())
    yield Case("sleep refused, and taken back", refusal_taken_back())
    for outfit, name in coverage.OUTFIT_NAMES.items():
        yield Case(f"{name}, before the first tick", before_the_first_tick(outfit))
        yield Case(f"{name}, sleep refused by the first", sleep_refused(outfit, 0, 1))
        yield Case(f"{name}, sleep refused by the last, three times", sleep_refused(outfit, -1, 3))
        yield Case(f"{name}, answers of the step before", answers_of_the_step_before(outfit))


# ---------------------------------------------------------------------------
# Requests, what is told, and numbers at their ends
# ---------------------------------------------------------------------------


def last_request_counts() -> bytes:
    """Several requests between two ticks: only the last one counts, and none hands out anything."""
    trace = Trace(BENCH_NETWORK)
    trace.go_to(Step.NO_COMMUNICATION)
    for modes in ([2, 0], [0, 2], [0, 2], [2, 0, 2], [1, 0, 2], [2, 1], [0, 1], [1, 2], [2, 1, 0], [2, 0]):
        for mode in modes:
            trace.want(mode)
        trace.replied_tick()
        trace.poll()
    return trace.recorded()


def full_wanted_while_going_down(outfit: int) -> bytes:
    """Full is wanted again right after a shutdown began: the network goes down whole, and then up."""
    trace = Trace(OF_OUTFIT[outfit])
    trace.go_to(Step.FULL)
    trace.want(Mode.NO)
    trace.tick()
    trace.poll()
    trace.want(Mode.FULL)
    trace.want(Mode.SILENT)
    trace.go_to(Step.CHECKING)
    trace.poll()
    return trace.recorded()


def told_while_stopping() -> bytes:
    """Silent and not full is told while controllers are being stopped; no is told at the end."""
    trace = Trace(OF_OUTFIT[Outfit.TRANSCEIVER])
    trace.go_to(Step.FULL)
    trace.poll()
    trace.want(Mode.NO)
    for _ in range(4):
        trace.poll()
        trace.replied_tick()
    trace.poll()
    return trace.recorded()


def silent_and_back() -> bytes:
    """Silent and full by turns; each return to full begins the ensure time anew."""
    trace = Trace(OF_OUTFIT[Outfit.TRANSCEIVER])
    for ticks in range(4):
        trace.go_to(Step.SILENT)
        trace.tick(ticks)
        trace.poll()
        trace.go_to(Step.CHECKING)
        trace.tick(ticks)
        trace.poll()
    return trace.recorded()


def tick_until(trace: Trace, step: int) -> None:
    """Ticks without answers until the first network is in this step."""
    while trace.network().step != step:
        trace.tick()


def times_above_a_byte() -> bytes:
    """Short delay 258, long delay 259 and ensure time 257: each once to its end."""
    trace = Trace(network(7, [3], times=(258, 259, 257)))
    trace.go_to(Step.CHECKING)
    for _ in range(2):
        trace.bus_off()
        trace.replied_tick(2)
        tick_until(trace, Step.CHECKING)
    tick_until(trace, Step.FULL)
    return trace.recorded()


def longest_times() -> bytes:
    """All times 65,535: neither passed nor the end of the delay comes within 300 ticks."""
    trace = Trace(network(7, [3], times=(65535, 65535, 65535), threshold=0))
    trace.go_to(Step.CHECKING)
    trace.tick(300)
    trace.bus_off()
    trace.replied_tick(300)
    trace.poll()
    return trace.recorded()


def ids_at_their_ends() -> bytes:
    """The least and the greatest handle, controllers and transceiver; ids of different kinds do not clash."""
    trace = Trace(network(0, [31, 0], 0), network(255, [7, 1], 7, partial=1), network(7, [30, 2], 1))
    up_together(trace)
    for index in range(3):
        trace.bus_off(index)
        trace.poll(index)
    trace.replied_tick(4)
    return trace.recorded()


def request_cases() -> Iterator[Case]:
    """What is wanted, what is told, and numbers at their ends."""
    yield Case("the last request counts", last_request_counts())
    for outfit, name in coverage.OUTFIT_NAMES.items():
        yield Case(f"{name}, full wanted while going down", full_wanted_while_going_down(outfit))
    yield Case("told while stopping", told_while_stopping())
    yield Case("silent and back", silent_and_back())
    yield Case("times above a byte", times_above_a_byte())
    yield Case("the longest times", longest_times())
    yield Case("ids at their ends", ids_at_their_ends())


# ---------------------------------------------------------------------------
# Many networks
# ---------------------------------------------------------------------------


def want_of_all(trace: Trace, mode: int) -> None:
    """The same request for every network."""
    for index in range(len(trace.manager.networks)):
        trace.want(mode, index)


def poll_all(trace: Trace) -> None:
    """A poll of every network."""
    for index in range(len(trace.manager.networks)):
        trace.poll(index)


def up_together(trace: Trace) -> None:
    """Full is wanted of all; replied ticks until all are there."""
    want_of_all(trace, Mode.FULL)
    while any(record.step not in FULL_STEPS for record in trace.manager.networks):
        trace.replied_tick()


def together(*networks: model.Settings) -> bytes:
    """All up, a bus-off of each in turn, silent for every other one, all down."""
    trace = Trace(*networks)
    up_together(trace)
    for index in range(len(networks)):
        trace.bus_off(index)
        trace.replied_tick()
        poll_all(trace)
    for index in range(0, len(networks), 2):
        trace.want(Mode.SILENT, index)
    trace.replied_tick(6)
    poll_all(trace)
    want_of_all(trace, Mode.NO)
    trace.replied_tick(7)
    poll_all(trace)
    return trace.recorded()


def one_after_the_other(*networks: model.Settings) -> bytes:
    """At each tick full is wanted of one network more, then no; so they are in different steps at one tick."""
    trace = Trace(*networks)
    for mode in (Mode.FULL, Mode.NO):
        for index in range(len(networks)):
            trace.replied_tick()
            trace.want(mode, index)
    trace.replied_tick(2)
    poll_all(trace)
    return trace.recorded()


def only_one_is_answered(chosen: int, *networks: model.Settings) -> bytes:
    """Only what is asked of one network is answered; the others are asked again at each tick."""
    trace = Trace(*networks)
    settings = trace.network(chosen).settings
    trace.want(Mode.FULL, chosen)
    while trace.network(chosen).step != Step.FULL:
        for request in trace.open_requests:
            of_controllers = request[0] == model.Kind.CONTROLLER_MODE
            if request[1] in (settings.controllers if of_controllers else [settings.transceiver]):
                trace.event(*answer_to(request))
        trace.tick()
    trace.bus_off(chosen)
    poll_all(trace)
    return trace.recorded()


def largest_ticks() -> bytes:
    """The ticks that hand out most: all eight networks enter full, and all go down, on one tick."""
    trace = Trace(*(network(n, list(range(4 * n, 4 * n + 4)), n, times=(1, 1, 1)) for n in range(Limit.NETWORKS)))
    up_together(trace)
    want_of_all(trace, Mode.NO)
    trace.tick()
    poll_all(trace)
    return trace.recorded()


def network_cases() -> Iterator[Case]:
    """Two, three and eight networks; a call that names an id of one of them changes none of the others."""
    bare, fitted, partial = OF_OUTFIT.values()
    yield Case("two networks together", together(partial, bare))
    yield Case("two networks of four controllers together", together(*LARGEST[:2]))
    yield Case("two networks one after the other", one_after_the_other(fitted, partial))
    yield Case("two networks, one is answered", only_one_is_answered(1, bare, fitted))
    yield Case("three networks together", together(bare, fitted, partial))
    yield Case("three networks one after the other", one_after_the_other(partial, bare, fitted))
    yield Case("three networks, one is answered", only_one_is_answered(1, fitted, partial, bare))
    yield Case("three networks of four controllers together", together(*LARGEST[:3]))
    yield Case("eight networks together", together(*LARGEST))
    yield Case("eight networks one after the other", one_after_the_other(*LARGEST))
    yield Case("eight networks, the last is answered", only_one_is_answered(7, *LARGEST))
    yield Case("the largest ticks", largest_ticks())
    yield Case("the largest sheet alone", model.write_sheet(LARGEST), "config 0 8")


# ---------------------------------------------------------------------------
# Stalls, and the resets that they bring
# ---------------------------------------------------------------------------


def reset_cases() -> Iterator[Case]:
    """Ticks and every call in the two steps of a reset, as `tick_cases` and `call_cases` have them of the others."""
    for outfit, name in coverage.OUTFIT_NAMES.items():
        for step in RESET_STEPS:
            yield Case(f"{name}, ticks in step {step}", ticks_in_step(outfit, step))
            yield Case(f"{name}, every call in step {step}", calls_in_step(outfit, step))


def stall_in_step(outfit: int, step: int) -> bytes:
    """Stalls of an unknown handle, of an id that is no handle, and of the network; ticks after them, and a stall once more."""
    trace = Trace(OF_OUTFIT[outfit])
    trace.go_to(step)
    trace.event(EventTag.STALL, UNKNOWN_ID)
    trace.event(EventTag.STALL, trace.controllers()[0])
    trace.poll()
    trace.stall()
    trace.poll()
    trace.stall()
    trace.tick()
    trace.stall()
    trace.replied_tick(3)
    trace.stall()
    trace.poll()
    return trace.recorded()


def reset(trace: Trace) -> None:
    """A stall in full, and three replied ticks, with which the network is full again."""
    trace.stall()
    trace.replied_tick(3)
    trace.poll()


def full_on_the_third_tick(step: int) -> bytes:
    """A stall in this step, and three ticks later the network is full; it is not with the second."""
    trace = Trace(BENCH_NETWORK)
    trace.go_to(step)
    trace.stall()
    trace.poll()
    trace.replied_tick(2)
    trace.poll()
    trace.replied_tick()
    trace.poll()
    return trace.recorded()


def passed_comes_again() -> bytes:
    """After a stall in step 5 passed comes with the third tick after full was told again."""
    trace = Trace(BENCH_NETWORK)
    trace.go_to(Step.FULL)
    reset(trace)
    trace.tick(3)
    return trace.recorded()


def stall_at_each_tick_of_checking() -> bytes:
    """Stalls in step 4 at each number of its ticks; the ensure time begins anew each time."""
    trace = Trace(network(7, [3], times=(2, 5, 4)))
    trace.go_to(Step.CHECKING)
    for ticks in range(4):
        trace.tick(ticks)
        reset(trace)
    trace.tick(4)
    return trace.recorded()


def answers_before_the_request() -> bytes:
    """Answers of every mode after the stall and before the next tick are refused, and do not count afterwards."""
    trace = Trace(BENCH_NETWORK)
    trace.go_to(Step.CHECKING)
    trace.stall()
    for mode in (ControllerMode.STOPPED, ControllerMode.STARTED, ControllerMode.SLEEP):
        trace.event(EventTag.CONTROLLER_ANSWER, 3, mode, OK)
    trace.tick(2)
    trace.event(EventTag.CONTROLLER_ANSWER, 3, ControllerMode.STARTED, OK)
    trace.tick()
    trace.replied_tick()
    trace.event(EventTag.CONTROLLER_ANSWER, 3, ControllerMode.STOPPED, OK)
    trace.tick()
    trace.replied_tick()
    return trace.recorded()


def late_answers_in_a_reset() -> bytes:
    """Four controllers answer one at a tick and not in order; two refuse first; what is answered stays."""
    trace = Trace(network(7, [9, 2, 25, 14]))
    trace.go_to(Step.FULL)
    trace.stall()
    trace.tick()
    while trace.network().step in RESET_STEPS:
        requests = trace.open_requests
        for place in (3, 1):
            trace.event(*answer_to(requests[place], NOT_OK))
        for place in (2, 3, 0, 1):
            trace.event(*answer_to(requests[place]))
            trace.tick()
    trace.poll()
    return trace.recorded()


def count_through_a_stall() -> bytes:
    """A stall between two bus-offs keeps the count: the second bus-off has the long delay."""
    trace = Trace(BENCH_NETWORK)
    trace.go_to(Step.FULL)
    trace.bus_off()
    recover(trace)
    reset(trace)
    trace.bus_off()
    recover(trace)
    return trace.recorded()


def stalls_are_not_counted(number: int) -> bytes:
    """So many stalls, each after full was told again; then a bus-off, which has the short delay."""
    trace = Trace(BENCH_NETWORK)
    trace.go_to(Step.CHECKING)
    for _ in range(number):
        reset(trace)
    trace.bus_off()
    recover(trace)
    return trace.recorded()


def bus_offs_in_a_reset() -> bytes:
    """In 15 before the request, after it and after an answer; in 16 after one answer and after both."""
    trace = Trace(network(7, [3, 12], threshold=4))
    for answered in range(-1, 2):
        trace.go_to(Step.RESET_STOPPED)
        trace.tick(1 if answered >= 0 else 0)
        for request in trace.open_requests[:max(answered, 0)]:
            trace.event(*answer_to(request))
        trace.bus_off(controller=1)
        trace.event(EventTag.CONTROLLER_ANSWER, 3, ControllerMode.STOPPED, OK)
        recover(trace)
    for answered in (1, 2):
        trace.go_to(Step.RESET_STARTED)
        for request in trace.open_requests[:answered]:
            trace.event(*answer_to(request))
        trace.bus_off()
        trace.event(EventTag.CONTROLLER_ANSWER, 12, ControllerMode.STARTED, OK)
        trace.tick(2)
        recover(trace)
    return trace.recorded()


def reset_with_other_wishes(step: int, modes: List[int]) -> bytes:
    """In this step of a reset, or before its stall, these modes are requested one after the other."""
    trace = Trace(OF_OUTFIT[Outfit.TRANSCEIVER])
    trace.go_to(step)
    for mode in modes:
        trace.want(mode)
        trace.poll()
    if step in FULL_STEPS:
        trace.stall()
    trace.replied_tick(6)
    trace.poll()
    trace.stall()
    return trace.recorded()


def silent_and_full_by_turns_in_a_reset() -> bytes:
    """Silent is wanted in 15 and full again in 16, and the other way round; from silent the way to full is one tick."""
    trace = Trace(BENCH_NETWORK)
    for first, second in ((Mode.SILENT, Mode.FULL), (Mode.FULL, Mode.SILENT)):
        trace.go_to(Step.RESET_STOPPED)
        trace.want(first)
        trace.replied_tick(2)
        trace.want(second)
        trace.replied_tick()
        trace.poll()
    trace.want(Mode.FULL)
    trace.tick()
    trace.poll()
    return trace.recorded()


def down_from_a_reset(outfit: int, step: int) -> bytes:
    """No is wanted in this step with all answers there: it goes down whole, and comes up again."""
    trace = Trace(OF_OUTFIT[outfit])
    trace.go_to(step)
    trace.tick(1 if step == Step.RESET_STOPPED else 0)
    trace.reply()
    trace.want(Mode.NO)
    trace.tick()
    trace.poll()
    trace.stall()
    trace.go_to(Step.NO_COMMUNICATION)
    trace.stall()
    trace.go_to(Step.CHECKING)
    trace.stall()
    return trace.recorded()


def resets_over_and_over() -> bytes:
    """Fifty stalls, each as soon as full is told again; then passed after all."""
    trace = Trace(network(200, [3, 12], 6, times=(1, 2, 2)))
    trace.go_to(Step.CHECKING)
    for _ in range(50):
        reset(trace)
    trace.tick(2)
    return trace.recorded()


def handles_and_other_ids() -> bytes:
    """A handle that is also a controller's or a transceiver's id of another network: the stall goes by the handle."""
    trace = Trace(network(0, [31, 7], 1), network(7, [3], 0, partial=1), network(255, [0], 7))
    up_together(trace)
    for index in range(3):
        trace.stall(index)
        poll_all(trace)
        trace.replied_tick(3)
    trace.event(EventTag.STALL, 3)
    trace.event(EventTag.STALL, 31)
    poll_all(trace)
    return trace.recorded()


def stalls_together(*networks: model.Settings) -> bytes:
    """All up; all stalled at once; then one at each tick, so that they are in different steps; a bus-off of each in turn."""
    trace = Trace(*networks)
    up_together(trace)
    for index in range(len(networks)):
        trace.stall(index)
    poll_all(trace)
    trace.replied_tick(3)
    poll_all(trace)
    for index in range(len(networks)):
        trace.stall(index)
        trace.replied_tick()
    poll_all(trace)
    trace.replied_tick(3)
    for index in range(len(networks)):
        trace.stall(index)
        trace.bus_off(index)
        trace.replied_tick()
    trace.replied_tick(4)
    poll_all(trace)
    return trace.recorded()


def stall_beside_others() -> bytes:
    """One network is stalled while the second recovers from a bus-off, goes down, and comes up."""
    bare, fitted, partial = OF_OUTFIT.values()
    trace = Trace(partial, bare, fitted)
    up_together(trace)
    trace.bus_off(1)
    trace.replied_tick()
    reset(trace)
    trace.want(Mode.NO, 1)
    trace.replied_tick()
    reset(trace)
    trace.want(Mode.FULL, 1)
    trace.replied_tick(2)
    reset(trace)
    trace.want(Mode.SILENT, 2)
    trace.replied_tick()
    trace.stall(2)
    reset(trace)
    poll_all(trace)
    return trace.recorded()


def largest_resets() -> bytes:
    """All eight networks of four controllers stalled at once: the ticks ask all 32 to stop, to start, and tell full."""
    trace = Trace(*(network(n, list(range(4 * n, 4 * n + 4)), n, times=(1, 1, 1)) for n in range(Limit.NETWORKS)))
    up_together(trace)
    for index in range(Limit.NETWORKS):
        trace.stall(index)
    trace.replied_tick(3)
    poll_all(trace)
    return trace.recorded()


def stall_cases() -> Iterator[Case]:
    """A stall in each step of each outfit, what a reset keeps and forgets, what can come in between, and many networks."""
    for outfit, name in coverage.OUTFIT_NAMES.items():
        for step in sorted(coverage.reachable_steps(outfit)):
            yield Case(f"{name}, a stall in step {step}", stall_in_step(outfit, step))
        for step in RESET_STEPS:
            yield Case(f"{name}, down from step {step}", down_from_a_reset(outfit, step))
    yield Case("a stall in step 4, full on the third tick", full_on_the_third_tick(Step.CHECKING), "20 0 2")
    yield Case("a stall in step 5, full on the third tick", full_on_the_third_tick(Step.FULL), "23 0 2")
    yield Case("passed comes again after a stall", passed_comes_again(), "24 0 8:7:0")
    yield Case("a stall at each tick of step 4", stall_at_each_tick_of_checking())
    yield Case("answers between a stall and the request", answers_before_the_request(), "25 0 3:3:0 6:7:2 7:7:2")
    yield Case("late answers in a reset", late_answers_in_a_reset())
    yield Case("the count through a stall", count_through_a_stall())
    for number in (1, 2, 5):
        yield Case(f"{number} stalls are not counted", stalls_are_not_counted(number))
    yield Case("bus-offs in steps 15 and 16", bus_offs_in_a_reset())
    for step in (Step.CHECKING, *RESET_STEPS):
        yield Case(f"silent wanted of a reset in step {step}", reset_with_other_wishes(step, [Mode.SILENT]))
        yield Case(f"no wanted of a reset in step {step}", reset_with_other_wishes(step, [Mode.NO]))
        yield Case(f"the wish changed twice in step {step}", reset_with_other_wishes(step, [Mode.NO, Mode.SILENT, Mode.FULL]))
    yield Case("silent and full by turns in a reset", silent_and_full_by_turns_in_a_reset())
    yield Case("resets over and over", resets_over_and_over())
    yield Case("stalls by handles that are other ids too", handles_and_other_ids())
    bare, fitted, partial = OF_OUTFIT.values()
    yield Case("two networks stalled", stalls_together(partial, bare))
    yield Case("three networks stalled", stalls_together(bare, fitted, partial))
    yield Case("eight networks stalled", stalls_together(*LARGEST))
    yield Case("a stall beside others", stall_beside_others())
    yield Case("the largest ticks of a reset", largest_resets())


# ---------------------------------------------------------------------------
# Silent: which of its refusals is given
# ---------------------------------------------------------------------------


def silent_all_the_way(outfit: int) -> bytes:
    """From the start to rest, up to full and down again: silent is asked for before each tick, and then what was wanted before."""
    trace = Trace(OF_OUTFIT[outfit])
    for wish in (Mode.NO, Mode.FULL, Mode.NO):
        for _ in range(8):
            trace.want(Mode.SILENT)
            trace.want(wish)
            trace.replied_tick()
    trace.poll()
    return trace.recorded()


def silent_before_the_first_tick_up(outfit: int) -> bytes:
    """Full is wanted at rest: until a tick comes the network is asleep, and from that tick on it comes up."""
    trace = Trace(OF_OUTFIT[outfit])
    trace.go_to(Step.NO_COMMUNICATION)
    trace.want(Mode.FULL)
    trace.want(Mode.SILENT)
    trace.tick()
    trace.want(Mode.SILENT)
    return trace.recorded()


def silent_after_no(outfit: int) -> bytes:
    """No is wanted in each step that comes up: silent is refused as before, until a tick makes the network go down."""
    trace = Trace(OF_OUTFIT[outfit])
    for step in sorted(coverage.reachable_steps(outfit) & set(model.COMING_UP_STEPS)):
        trace.go_to(step)
        trace.want(Mode.NO)
        trace.want(Mode.SILENT)
        trace.tick()
        trace.want(Mode.SILENT)
    return trace.recorded()


def silent_of_each(trace: Trace) -> None:
    """Silent is asked for of every network, and then what was wanted of it before."""
    for index, record in enumerate(trace.manager.networks):
        before = record.wanted
        trace.want(Mode.SILENT, index)
        trace.want(before, index)


def silent_beside_others(*networks: model.Settings) -> bytes:
    """Networks that are called up one after the other, and down in the same order: each answers by its own step."""
    trace = Trace(*networks)
    for wish in (Mode.FULL, Mode.NO):
        for index in range(len(networks)):
            trace.want(wish, index)
            for _ in range(3):
                trace.replied_tick()
                silent_of_each(trace)
    poll_all(trace)
    return trace.recorded()


def silent_cases() -> Iterator[Case]:
    """Silent asked for through a whole life of each outfit, at the borders between its answers, and of many networks at once."""
    for outfit, name in coverage.OUTFIT_NAMES.items():
        yield Case(f"{name}, silent asked for all the way", silent_all_the_way(outfit))
        yield Case(f"{name}, silent before the first tick up", silent_before_the_first_tick_up(outfit))
        yield Case(f"{name}, silent after no was wanted", silent_after_no(outfit))
    bare, fitted, partial = OF_OUTFIT.values()
    yield Case("silent asked for of two networks", silent_beside_others(partial, bare))
    yield Case("silent asked for of three networks", silent_beside_others(bare, fitted, partial))
    yield Case("silent asked for of eight networks", silent_beside_others(*LARGEST))


# ---------------------------------------------------------------------------
# Two chips, one cable
# ---------------------------------------------------------------------------

# Two controllers on one cable: a fault of the cable is reported by both. One fault still brings the short delay.
TWO_CHIPS = network(7, [3, 12], threshold=1)


def reports(trace: Trace, *controllers: int) -> None:
    """Bus-offs of these controllers, by their places, one after the other."""
    for controller in controllers:
        trace.bus_off(controller=controller)


def faults_of_two_chips(number: int) -> bytes:
    """So many faults in step 5 and in step 7, each reported by both chips before the next tick; then full again, and passed."""
    trace = Trace(TWO_CHIPS)
    trace.go_to(Step.FULL)
    for _ in range(number - 1):
        reports(trace, 0, 1)
        trace.go_to(Step.WAITING)
    reports(trace, 1, 0)
    recover(trace)
    trace.poll()
    trace.go_to(Step.FULL)
    return trace.recorded()


def reports_late() -> bytes:
    """The second chip reports in step 6: after the tick that asks, after its own answer, after both answers. Each begins the recovery anew."""
    trace = Trace(TWO_CHIPS)
    trace.go_to(Step.FULL)
    for answered in range(3):
        trace.bus_off()
        trace.tick()
        for controller in (12, 3)[:answered]:
            trace.event(EventTag.CONTROLLER_ANSWER, controller, ControllerMode.STARTED, OK)
        trace.bus_off(controller=1)
        trace.event(EventTag.CONTROLLER_ANSWER, 3, ControllerMode.STARTED, OK)
        recover(trace)
        trace.go_to(Step.FULL)
    return trace.recorded()


def report_after_the_restart() -> bytes:
    """The second chip reports only in step 7, when both run again: that is a second fault, with the long delay."""
    trace = Trace(TWO_CHIPS)
    trace.go_to(Step.FULL)
    trace.bus_off()
    trace.go_to(Step.WAITING)
    trace.bus_off(controller=1)
    recover(trace)
    return trace.recorded()


def faults_in(step: int) -> bytes:
    """A fault, reported by both chips, in this step, and after it a second one in step 7: the long delay from there on."""
    trace = Trace(TWO_CHIPS)
    trace.go_to(step)
    reports(trace, 1, 0)
    trace.go_to(Step.WAITING)
    reports(trace, 0, 1)
    trace.want(Mode.FULL)
    recover(trace)
    return trace.recorded()


def down_while_restarting() -> bytes:
    """A fault, a shutdown in step 6, and up again: a bus-off then is a second fault, though nobody has gone TX offline since the first."""
    trace = Trace(TWO_CHIPS)
    trace.go_to(Step.FULL)
    reports(trace, 0, 1)
    trace.tick()
    trace.want(Mode.NO)
    trace.go_to(Step.NO_COMMUNICATION)
    trace.go_to(Step.CHECKING)
    reports(trace, 1, 0)
    recover(trace)
    return trace.recorded()


def fault_of_four_chips() -> bytes:
    """Four chips on one cable, of a network beside another one: each reports the fault twice, and the other network counts nothing of it."""
    trace = Trace(network(0, [31, 0, 17, 5], times=(1, 4, 2), threshold=1), network(9, [1, 2], times=(1, 4, 2), threshold=1))
    for index in range(2):
        trace.go_to(Step.FULL, index)
    for controller in (0, 1, 2, 3, 3, 2, 1, 0):
        trace.bus_off(0, controller)
    trace.replied_tick(5)
    trace.bus_off(1, 1)
    trace.bus_off(1, 0)
    trace.replied_tick(5)
    for index in range(2):
        trace.poll(index)
    return trace.recorded()


def two_chip_cases() -> Iterator[Case]:
    """A fault that both chips of a network report is counted once; a second fault brings the long delay."""
    for number in (1, 2, 3):
        yield Case(f"faults that both chips report: {number}", faults_of_two_chips(number))
    yield Case("the second chip reports after the request", reports_late())
    yield Case("the second chip reports in step 7", report_after_the_restart())
    for step in sorted(model.UP_STEPS):
        yield Case(f"both chips report in step {step}, and in step 7", faults_in(step))
    yield Case("both chips report, and a shutdown in step 6", down_while_restarting())
    yield Case("four chips report one fault", fault_of_four_chips())
    for number in (254, 255, 256):
        yield Case(f"{number} faults at the threshold 254", many_bus_offs(number, Step.WAITING))


# ---------------------------------------------------------------------------
# At the threshold or above it: field 07
# ---------------------------------------------------------------------------

# Three networks that differ in field 07 and in ids: a bus-off of each comes up to the threshold, and does not exceed it.
OLDER, NEWER, NEWER_TOO = network(1, [10]), by_the_newer_rule(network(2, [11])), by_the_newer_rule(network(3, [12]))


def falls_one_by_one(threshold: int, relation: Relation, number: int) -> bytes:
    """So many bus-offs, each when full is told again and before passed; in the last wait a poll after each tick. Short delay 2, long delay 5."""
    trace = Trace(network(7, [3], threshold=threshold, relation=relation))
    trace.go_to(Step.FULL)
    for _ in range(number - 1):
        trace.bus_off()
        recover(trace)
    trace.bus_off()
    for _ in range(7):
        trace.replied_tick()
        trace.poll()
    trace.go_to(Step.FULL)
    return trace.recorded()


def side_by_side(*networks: model.Settings) -> bytes:
    """All are up, and each has the same events at the same time, twice a bus-off; polls after each tick show where they part."""
    trace = Trace(*networks)
    up_together(trace)
    for _ in range(2):
        for index in range(len(networks)):
            trace.bus_off(index)
        for _ in range(8):
            trace.replied_tick()
            poll_all(trace)
    return trace.recorded()


def recovery_of_outfit(outfit: int) -> bytes:
    """By the newer rule a network of this outfit: up, a bus-off at the threshold, passed, a stall, a bus-off in step 7, and down."""
    trace = Trace(by_the_newer_rule(OF_OUTFIT[outfit]))
    trace.go_to(Step.FULL)
    trace.bus_off(controller=1)
    recover(trace)
    trace.go_to(Step.FULL)
    reset(trace)
    trace.go_to(Step.WAITING)
    trace.bus_off()
    recover(trace)
    trace.go_to(Step.NO_COMMUNICATION)
    return trace.recorded()


def reports_below_the_threshold() -> bytes:
    """By the newer rule with the threshold 2: one fault that both chips report five times is one; a second one comes up to the threshold."""
    trace = Trace(by_the_newer_rule(network(7, [3, 12], threshold=2)))
    trace.go_to(Step.FULL)
    reports(trace, 0, 1, 0, 1, 1)
    recover(trace)
    reports(trace, 1, 0)
    recover(trace)
    return trace.recorded()


def silent_at_the_threshold() -> bytes:
    """By the newer rule a bus-off in step 8, with silent wanted to the end of the long delay, and then full."""
    trace = Trace(by_the_newer_rule(BENCH_NETWORK))
    trace.go_to(Step.SILENT)
    trace.bus_off()
    trace.replied_tick(7)
    trace.poll()
    trace.want(Mode.FULL)
    trace.tick()
    trace.poll()
    return trace.recorded()


def threshold_cases() -> Iterator[Case]:
    """By both rules a bus-off below the threshold, at it and above it; the ends of its range; and networks of both rules in one sheet."""
    for name, relation in (("older", Relation.ABOVE), ("newer", Relation.AT_OR_ABOVE)):
        for threshold in (0, 1, 2):
            for number in range(max(threshold - 1, 1), threshold + 2):
                yield Case(f"{name} rule, threshold {threshold}, bus-offs: {number}", falls_one_by_one(threshold, relation, number))
    newer = Relation.AT_OR_ABOVE
    for number in (253, 254, 256):
        yield Case(f"newer rule, {number} faults at the threshold 254", many_bus_offs(number, Step.WAITING, newer))
    yield Case("newer rule, long delay below the short one", two_recoveries((6, 1, 2), 1, newer))
    yield Case("newer rule, all times 1", two_recoveries((1, 1, 1), 1, newer))
    for step, words in ((Step.NO_COMMUNICATION, "a shutdown"), (Step.SILENT, "silent"), (Step.RESET_STARTED, "a reset")):
        yield Case(f"newer rule, the count through {words}", count_through(step, by_the_newer_rule(network(7, [3], threshold=2))))
    yield Case("newer rule, one fault of two chips below the threshold", reports_below_the_threshold())
    yield Case("newer rule, a bus-off in silent", silent_at_the_threshold())
    for outfit, name in coverage.OUTFIT_NAMES.items():
        yield Case(f"{name}, newer rule", recovery_of_outfit(outfit))
    yield Case("both rules in one sheet, the older first", side_by_side(OLDER, NEWER))
    yield Case("both rules in one sheet, the newer first", side_by_side(NEWER, OLDER))
    yield Case("both rules in one sheet, the older in the middle", side_by_side(NEWER, OLDER, NEWER_TOO))
    yield Case("eight networks by the newer rule, the largest sheet", side_by_side(*LARGEST_BY_THE_NEWER_RULE))
    mixed = [by_the_newer_rule(settings) if place % 2 else settings for place, settings in enumerate(LARGEST)]
    yield Case("eight networks, every second by the newer rule", side_by_side(*mixed))


# ---------------------------------------------------------------------------
# Listening
# ---------------------------------------------------------------------------


def set_and_cleared(trace: Trace) -> None:
    """Listening is set twice and cleared twice; in between come values that are none."""
    for value in (ON, 2, ON, OFF, 255, OFF):
        trace.listen(value)


def listening_in_each_step(outfit: int) -> bytes:
    """In each step of a network of this outfit: set twice and cleared twice, and a tick after it; in step 15 also before it has asked."""
    trace = Trace(OF_OUTFIT[outfit])
    for step in sorted(coverage.reachable_steps(outfit)):
        trace.go_to(step)
        set_and_cleared(trace)
        trace.tick()
        if step == Step.RESET_STOPPED:
            set_and_cleared(trace)
    return trace.recorded()


def life_of_outfit(trace: Trace) -> Iterator[None]:
    """Up, passed, silent and back, a bus-off, silent and back, a stall, silent out of a reset and out of a recovery, and down; after each turn it
    lets others act."""
    for step in (Step.FULL, Step.SILENT, Step.FULL, Step.WAITING, Step.CHECKING, Step.SILENT, Step.CHECKING, Step.RESET_STARTED):
        yield from trace.way_to(step)
    trace.want(Mode.SILENT)
    trace.replied_tick()
    yield
    trace.bus_off()
    for _ in range(7):
        trace.replied_tick()
        yield
    for step in (Step.CHECKING, Step.NO_COMMUNICATION):
        yield from trace.way_to(step)


def listening_all_along(outfit: int) -> bytes:
    """A whole life with listening set before the first tick, and cleared at its end."""
    trace = Trace(OF_OUTFIT[outfit])
    trace.listen()
    for _ in life_of_outfit(trace):
        pass
    trace.poll()
    trace.listen(OFF)
    return trace.recorded()


def listening_by_turns(outfit: int) -> bytes:
    """The same life, and after each turn listening is changed: so between the requests of a tick and the answers to them."""
    trace = Trace(OF_OUTFIT[outfit])
    for _ in life_of_outfit(trace):
        trace.listen(OFF if trace.manager.listening else ON)
    trace.poll()
    return trace.recorded()


def every_value() -> bytes:
    """All values that a byte has, in step 5; two of them are taken."""
    trace = Trace(BENCH_NETWORK)
    trace.go_to(Step.FULL)
    for value in range(256):
        trace.listen(value)
    trace.listen(OFF)
    return trace.recorded()


def listening_after_a_bus_off() -> bytes:
    """A bus-off first: set in step 6 nothing goes out, though online was handed out last. Then TX offline, and full with 2; cleared then."""
    trace = Trace(network(7, [3, 12]))
    trace.go_to(Step.FULL)
    trace.bus_off()
    trace.listen()
    trace.replied_tick(4)
    trace.poll()
    trace.listen(OFF)
    return trace.recorded()


def listening_within_a_reset(on: int, off: int) -> bytes:
    """A stall; set after so many ticks of the reset, and cleared after so many."""
    trace = Trace(BENCH_NETWORK)
    trace.go_to(Step.FULL)
    trace.stall()
    for ticks in range(5):
        if ticks == on:
            trace.listen()
        if ticks == off:
            trace.listen(OFF)
        trace.replied_tick()
    trace.poll()
    return trace.recorded()


def listen_and_tick(trace: Trace) -> None:
    """Listening is changed; then a replied tick."""
    trace.listen(OFF if trace.manager.listening else ON)
    trace.replied_tick()


def trouble_of(trace: Trace, index: int) -> None:
    """By its place in the sheet a network is stalled, has a bus-off, is wanted silent, or is to go down."""
    if index % 4 == 0:
        trace.stall(index)
    elif index % 4 == 1:
        trace.bus_off(index)
    else:
        trace.want(Mode.SILENT if index % 4 == 2 else Mode.NO, index)


def listening_beside_others(*networks: model.Settings) -> bytes:
    """At each tick full is wanted of one network more, so that they are in different steps; listening changes at each, and at last all are full.
    Then, at each tick one, they are stalled, have a bus-off, are wanted silent or go down, each fourth alike."""
    trace = Trace(*networks)
    for index in range(len(networks)):
        trace.want(Mode.FULL, index)
        listen_and_tick(trace)
    for index in range(len(networks)):
        for _ in trace.way_to(Step.FULL, index):
            trace.listen(OFF if trace.manager.listening else ON)
    for index in range(len(networks)):
        trouble_of(trace, index)
        listen_and_tick(trace)
    for _ in range(3):
        listen_and_tick(trace)
    poll_all(trace)
    return trace.recorded()


def largest_listen() -> bytes:
    """All eight networks of four controllers are full, then on their way through a reset: a change hands out 32 records."""
    trace = Trace(*(network(n, list(range(4 * n, 4 * n + 4)), n, times=(1, 1, 1)) for n in range(Limit.NETWORKS)))
    up_together(trace)
    trace.listen()
    trace.listen(OFF)
    for index in range(Limit.NETWORKS):
        trace.stall(index)
    trace.listen()
    trace.replied_tick(3)
    trace.listen(OFF)
    return trace.recorded()


def listen_cases() -> Iterator[Case]:
    """Listening set and cleared in each step of each outfit, all along and by turns; every value; what is asked and told over it; many networks."""
    for outfit, name in coverage.OUTFIT_NAMES.items():
        yield Case(f"{name}, listening in each step", listening_in_each_step(outfit))
        yield Case(f"{name}, listening all along", listening_all_along(outfit))
        yield Case(f"{name}, listening by turns", listening_by_turns(outfit))
    yield Case("every value to listen", every_value())
    yield Case("listening after a bus-off", listening_after_a_bus_off(), "28 0 3:3:0 3:12:0")
    for on, off in ((0, 1), (0, 2), (1, 2), (2, 3), (1, 4)):
        yield Case(f"listening from tick {on} to tick {off} of a reset", listening_within_a_reset(on, off))
    bare, fitted, partial = OF_OUTFIT.values()
    yield Case("two networks, listening", listening_beside_others(partial, bare))
    yield Case("three networks, listening", listening_beside_others(bare, fitted, partial))
    yield Case("eight networks, listening", listening_beside_others(*LARGEST))
    yield Case("the largest calls to listen", largest_listen())
