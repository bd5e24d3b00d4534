#!/usr/bin/env python3
"""Checks the makers of recorded inputs, what is said of their coverage, and the comparison of a program with the model.

Where a program is needed, the model stands in for it, as it is or with a fault of its own.
"""

import os
import re
import shutil
import subprocess
import sys
import tempfile
import unittest
from pathlib import Path
from random import Random
from unittest import mock

import batches
import coverage
import damaged_cases
import model
import played_cases
import random_traces
import run_program
import trace_cases
from coverage import CONFIG, Delay, Ending, Listened, Place, Reached, Sending, Situation, Transition, watched_cantrace
from model import EventTag, Mode, Outfit, Relation, Tag
from traces import LARGEST, LARGEST_BY_THE_NEWER_RULE, NOT_OK, OF_OUTFIT, OFF, SHEET, TICK, WHOLE_CASE, Case, Trace, answer_to, arrange
from traces import by_the_newer_rule, field, network

TESTS_FOLDER = Path(__file__).resolve().parent

# T3 to T22, T29 and T30: the next steps of each step, itself among them where a tick can leave it there; the first down step is one more
# of each step that comes up or is up.
SHARED_NEXT_STEPS = {
    2: (2, 3), 3: (3, 4), 4: (4, 5, 8), 5: (5, 8), 6: (6, 7), 7: (7, 4, 8), 8: (8, 4), 15: (15, 16), 16: (16, 4, 8),
}
STEPS_THAT_GO_DOWN = (1, 2, 3, 4, 5, 6, 7, 8, 15, 16)
NEXT_STEPS = {
    Outfit.NO_TRANSCEIVER: {0: (0, 2), 10: (10, 12), 12: (12, 0)},
    Outfit.TRANSCEIVER: {0: (0, 1), 1: (1, 2), 10: (10, 12), 11: (11, 0), 12: (12, 11)},
    Outfit.PARTIAL_NETWORKING: {
        0: (0, 1), 1: (1, 2), 9: (9, 10), 10: (10, 11), 11: (11, 12), 12: (12, 13, 14), 13: (13, 0), 14: (14, 9),
    },
}
# B4, B5: those that take a bus-off, and the step after it.
BUS_OFF_STEPS = {(3, 3), (4, 6), (5, 6), (6, 6), (7, 6), (8, 6), (15, 6), (16, 6)}
# X2, X3: those that take a stall, and the step after it.
STALL_STEPS = {(4, 15), (5, 15)}
# L3: those in which a change of listening is handed out.
HANDING_STEPS = (4, 5, 15, 16)


def reached_by(*inputs):
    """What these inputs reach, each kind of thing as a set."""
    reached = Reached()
    for data in inputs:
        watched_cantrace(data, reached)
    return {name: set(times) for name, times in reached.times.items()}


class PossibleTest(unittest.TestCase):
    """What is said to be reachable, against the rules."""

    def test_transitions(self):
        for outfit, own in NEXT_STEPS.items():
            down = 9 if outfit == Outfit.PARTIAL_NETWORKING else 10
            expected = {(step, target) for step, targets in {**SHARED_NEXT_STEPS, **own}.items() for target in targets}
            expected |= {(step, down) for step in {**SHARED_NEXT_STEPS, **own} if step in STEPS_THAT_GO_DOWN}
            for cause, moves in ((EventTag.TICK, expected), (EventTag.BUS_OFF, BUS_OFF_STEPS), (EventTag.STALL, STALL_STEPS)):
                found = coverage.possible_transitions(outfit)
                self.assertEqual(moves, {(move.step, move.next_step) for move in found if move.cause == cause})

    def test_steps_of_each_outfit(self):
        self.assertEqual({0, 2, 3, 4, 5, 6, 7, 8, 10, 12, 15, 16}, coverage.reachable_steps(Outfit.NO_TRANSCEIVER))
        self.assertEqual({*range(9), 10, 11, 12, 15, 16}, coverage.reachable_steps(Outfit.TRANSCEIVER))
        self.assertEqual(set(range(17)), coverage.reachable_steps(Outfit.PARTIAL_NETWORKING))

    def test_every_refusal_number_is_possible_or_has_a_reason(self):
        numbers = {number for name, number in vars(model.Refusal).items() if name.isupper()}
        self.assertEqual(numbers, coverage.possible()["refusals"] | set(coverage.UNREACHABLE_REFUSALS))
        self.assertFalse(coverage.possible()["refusals"] & set(coverage.UNREACHABLE_REFUSALS))

    def test_every_tag_of_a_sheet_has_its_refusals(self):
        self.assertEqual(set(model.LENGTH_OF_TAG), set(coverage.REFUSALS_OF_TAG))
        of_field_07 = {answer for tag, answer in coverage.possible()["fields"] if tag == Tag.RELATION}
        self.assertEqual({0x30, 0x32, 0x33, 0x34}, of_field_07)

    def test_where_a_refusal_can_point(self):
        """32 behind each of seven tags, 34 at each of five numbers of one byte, and at one of three times by those of them that are 0."""
        places = coverage.possible()["places"]
        for later in (False, True):
            lengths = {(place.tag, place.distance) for place in places if place.answer == 0x32 and place.later == later}
            self.assertEqual({(tag, 1) for tag in range(1, 8)}, lengths)
            values = {(place.tag, place.distance, place.zeros) for place in places if place.answer == 0x34 and place.later == later}
            times = {(4, 3, (1,)), (4, 5, (2,)), (4, 7, (3,)), (4, 3, (1, 2)), (4, 3, (1, 3)), (4, 5, (2, 3)), (4, 3, (1, 2, 3))}
            self.assertEqual(times | {(tag, 3, ()) for tag in (2, 3, 5, 6, 7)}, values)
        self.assertEqual(38, len(places))

    def test_the_two_rules_part_at_the_threshold_alone(self):
        names = {rule: {delay.count: delay.name for delay in coverage.possible()["delays"] if delay.rule == rule} for rule in ("older", "newer")}
        self.assertEqual({"below": "short", "at": "short", "above": "long"}, names["older"])
        self.assertEqual({"below": "short", "at": "long", "above": "long"}, names["newer"])

    def test_listening_in_every_step(self):
        """L3: set and cleared, with a change and without, in each of seventeen steps; kind 3 goes out for a change in four of them."""
        listens = coverage.possible()["listens"]
        self.assertEqual(68, len(listens))
        self.assertEqual({(step, True) for step in HANDING_STEPS}, {(each.step, each.changes) for each in listens if each.handed})

    def test_kind_3_of_ticks(self):
        """T23, T24, T11 and L2: full from 3, 7, 8 and 16, with 0 or 2; TX offline from 4, 5, 6, 7 and 16, listening or not."""
        found = {(sending.argument, sending.listening): set() for sending in coverage.possible()["sending"]}
        for sending in coverage.possible()["sending"]:
            found[sending.argument, sending.listening].add(sending.step)
        full, offline = {3, 7, 8, 16}, {4, 5, 6, 7, 16}
        self.assertEqual({(0, False): full, (2, True): full, (1, False): offline, (1, True): offline}, found)

    def test_all_is_missing_where_nothing_is_run(self):
        self.assertEqual(sum(len(things) for things in coverage.possible().values()), len(coverage.missing(Reached())))


class ReachedTest(unittest.TestCase):
    """What tiny known traces reach."""

    def test_whole_case(self):
        reached = reached_by(WHOLE_CASE)
        moves = [(10, 10), (10, 12), (12, 0), (0, 2), (2, 3), (3, 4), (6, 6), (6, 7), (7, 7), (7, 4)]
        expected = {Transition(Outfit.NO_TRANSCEIVER, EventTag.TICK, *move) for move in moves}
        expected.add(Transition(Outfit.NO_TRANSCEIVER, EventTag.BUS_OFF, 4, 6))
        self.assertEqual(expected, reached["transitions"])
        self.assertEqual({10, 12, 0, 2, 3, 4, 6, 7}, reached["steps"])
        self.assertEqual(set(), reached["refusals"])
        self.assertEqual({Ending.WHOLE}, reached["endings"])
        records = {(1, 0), (1, 1), (1, 2), (3, 0), (3, 1), (6, 0), (6, 1), (6, 2), (7, 2), (7, 3), (8, 1)}
        self.assertEqual(records, reached["records"])

    def test_one_tick(self):
        reached = reached_by(SHEET + TICK)
        self.assertEqual({Situation(10, Mode.NO, False, False, False, Outfit.NO_TRANSCEIVER)}, reached["decisions"])
        self.assertEqual({(CONFIG, 0), (EventTag.TICK, 0)}, reached["answers"])
        self.assertEqual({(1, 0)}, reached["records"])

    def test_refused_sheet(self):
        reached = reached_by(TICK)
        self.assertEqual({(CONFIG, 0x38)}, reached["answers"])
        self.assertEqual({0x38}, reached["refusals"])
        self.assertEqual(set(), reached["steps"])

    def test_refused_bus_off_moves_nothing(self):
        reached = reached_by(SHEET + field(EventTag.BUS_OFF, 3), SHEET + field(EventTag.BUS_OFF, 4))
        self.assertEqual({0x04, 0x22}, reached["refusals"])
        self.assertEqual(set(), reached["transitions"])

    def test_bus_off_moves_one_network_only(self):
        trace = Trace(*OF_OUTFIT.values())
        trace.go_to(4, index=1)
        before = len(trace.recorded())
        trace.bus_off(index=1)
        after = reached_by(trace.recorded())["transitions"] - reached_by(trace.recorded()[:before])["transitions"]
        self.assertEqual({Transition(Outfit.TRANSCEIVER, EventTag.BUS_OFF, 4, 6)}, after)

    def test_refused_stall_moves_nothing(self):
        reached = reached_by(SHEET + field(EventTag.STALL, 7), SHEET + field(EventTag.STALL, 3))
        self.assertEqual({0x03, 0x22}, reached["refusals"])
        self.assertEqual(set(), reached["transitions"])

    def test_stall_moves_one_network_only(self):
        trace = Trace(*OF_OUTFIT.values())
        for index in range(3):
            trace.go_to(5, index=index)
        before = len(trace.recorded())
        trace.stall(index=2)
        after = reached_by(trace.recorded())["transitions"] - reached_by(trace.recorded()[:before])["transitions"]
        self.assertEqual({Transition(Outfit.PARTIAL_NETWORKING, EventTag.STALL, 5, 15)}, after)

    def test_listening(self):
        """In step 10, then in step 4 of the first network and step 5 of the second; a refused call is not noted."""
        trace = Trace(*(network(handle, [handle], times=(2, 5, handle)) for handle in (3, 1)))
        for value in (0, 1, 1, 0, 2):
            trace.listen(value)
        self.assertEqual(
            {Listened(False, False, 10, False), Listened(True, True, 10, False), Listened(True, False, 10, False), Listened(False, True, 10, False)},
            reached_by(trace.recorded())["listens"],
        )
        before = trace.recorded()
        trace.want(Mode.FULL, 1)
        trace.go_to(4)
        trace.tick()
        for value in (1, 1, 255):
            trace.listen(value)
        after = reached_by(trace.recorded())["listens"] - reached_by(before)["listens"]
        self.assertEqual({Listened(True, changes, step, changes) for changes in (False, True) for step in (4, 5)}, after)

    def test_sending(self):
        """Full from step 3; then, while the manager listens, the wait and full after it, silent and back."""
        trace = Trace(OF_OUTFIT[Outfit.TRANSCEIVER])
        trace.go_to(4)
        self.assertEqual({Sending(3, False, 0)}, reached_by(trace.recorded())["sending"])
        trace.listen()
        for step in (7, 4, 8, 4):
            trace.go_to(step)
        expected = {Sending(3, False, 0), Sending(6, True, 1), Sending(7, True, 2), Sending(4, True, 1), Sending(8, True, 2)}
        self.assertEqual(expected, reached_by(trace.recorded())["sending"])

    def test_a_wrong_model_of_listening_is_noticed(self):
        """Online is not turned; TX offline is; a step is left out; a step too many hands out."""
        trace = Trace(OF_OUTFIT[Outfit.NO_TRANSCEIVER])
        trace.go_to(15)
        trace.listen()
        trace.go_to(8)
        trace.listen(OFF)
        plain = Reached()
        watched_cantrace(trace.recorded(), plain)
        self.assertEqual([], coverage.surprises(plain))
        for name, wrong, words in (
            ("quiet_twin", lambda record: record, "sending: a tick in step 16, listening, argument 0"),
            ("quiet_twin", lambda record: (*record[:2], 2) if record[0] == 3 else record, "sending: a tick in step 4, listening, argument 2"),
            ("ONLINE_STEPS", (4, 5, 16), "listens: listening set in step 15, a change, not handed out"),
            ("ONLINE_STEPS", (4, 5, 8, 15, 16), "listens: listening cleared in step 8, a change, handed out"),
        ):
            reached = Reached()
            with mock.patch.object(model, name, wrong):
                watched_cantrace(trace.recorded(), reached)
            self.assertIn(words, coverage.surprises(reached))

    def test_delays(self):
        """One bus-off after the other, with the threshold 2; where both delays are the same nothing is noted."""
        for rule, settings in (("older", network(7, [3], threshold=2)), ("newer", by_the_newer_rule(network(7, [3], threshold=2)))):
            trace = Trace(settings)
            found = []
            for _ in range(3):
                trace.go_to(4)
                trace.bus_off()
                trace.go_to(4)
                found.append(reached_by(trace.recorded())["delays"])
            at = "long" if rule == "newer" else "short"
            due = [Delay(rule, "below", "short"), Delay(rule, "at", at), Delay(rule, "above", "long")]
            self.assertEqual([set(due[:1]), set(due[:2]), set(due)], found)
        trace = Trace(network(7, [3], times=(2, 2, 3)))
        trace.go_to(7)
        trace.go_to(4)
        self.assertEqual(set(), reached_by(trace.recorded())["delays"])

    def test_refused_fields(self):
        newer = field(Tag.RELATION, 1)
        for data, expected in (
            (SHEET + newer, set()),
            (SHEET + field(Tag.RELATION, 0) + TICK, {(Tag.RELATION, 0x34)}),
            (newer, {(Tag.RELATION, 0x33)}),
            (SHEET + newer + newer, {(Tag.RELATION, 0x33)}),
            (SHEET + field(Tag.RELATION), {(Tag.RELATION, 0x32)}),
            (SHEET + newer[:3], {(Tag.RELATION, 0x30)}),
            (SHEET + newer + SHEET, {(Tag.HANDLE, 0x35)}),
            (SHEET + field(8, 1), set()),
            (SHEET[:21] + TICK, set()),
            (SHEET[:21], set()),
        ):
            self.assertEqual(expected, reached_by(data)["fields"])

    def test_where_refusals_point(self):
        zeros = SHEET[:13] + bytes(4) + SHEET[17:]
        for data, expected in (
            (SHEET + TICK, set()),
            (zeros + TICK, {Place(4, 0x34, 5, (2, 3), False)}),
            (model.write_sheet(LARGEST[1:2]) + zeros, {Place(4, 0x34, 5, (2, 3), True)}),
            (SHEET[:11] + b"\x01" + bytes(3) + SHEET[15:], {Place(4, 0x34, 5, (2,), False)}),
            (SHEET[:20] + b"\xff" + TICK, {Place(5, 0x34, 3, (), False)}),
            (SHEET + field(Tag.RELATION, 0) + TICK, {Place(7, 0x34, 3, (), False)}),
            (field(Tag.HANDLE), {Place(1, 0x32, 1, (), False)}),
            (SHEET + field(Tag.HANDLE) + TICK, {Place(1, 0x32, 1, (), True)}),
            (SHEET + b"\x01\xff\xff", {Place(1, 0x32, 1, (), True)}),
            (SHEET[:8] + field(Tag.TIMES) + TICK, {Place(4, 0x32, 1, (), False)}),
            (SHEET + SHEET, set()),
            (SHEET[:24], set()),
            (SHEET + field(8, 1), set()),
            (TICK, set()),
        ):
            self.assertEqual(expected, reached_by(data)["places"])

    def test_a_reader_that_points_elsewhere_is_noticed(self):
        zeros = SHEET[:13] + bytes(4) + SHEET[17:]
        reached = Reached()
        with mock.patch.object(model, "refused_at", lambda refusal, data, place: place + 7):
            watched_cantrace(zeros, reached)
        self.assertEqual(["places: 34 points 7 behind tag 04, times 2, 3 zero, first network"], coverage.surprises(reached))
        reached = Reached()
        with mock.patch.object(model, "refused_at", lambda refusal, data, place: place):
            watched_cantrace(zeros, reached)
        self.assertEqual(set(), set(reached.times["places"]))

    def test_endings(self):
        for data, ending in (
            (SHEET, Ending.WHOLE),
            (bytes(65537), Ending.TOO_LONG),
            (b"", Ending.SHEET_REFUSED),
            (SHEET + b"\x16", Ending.HEADER_CUT),
            (SHEET + TICK + b"\x0f\x00\x00", Ending.TAG_BELOW),
            (SHEET + b"\x1a\x00\x00", Ending.TAG_UNKNOWN),
            (SHEET + b"\x19\x00\x00", Ending.LENGTH_BELOW),
            (SHEET + b"\x19\x00\x02\x01\x01", Ending.LENGTH_ABOVE),
            (SHEET + b"\x19\x00\x01", Ending.VALUE_CUT),
            (SHEET + b"\x19\x00\x01\x07", Ending.WHOLE),
            (SHEET + b"\x16\x00\x01", Ending.LENGTH_ABOVE),
            (SHEET + b"\x17\x00\x00", Ending.LENGTH_BELOW),
            (SHEET + b"\x18\x00\x00", Ending.LENGTH_BELOW),
            (SHEET + b"\x18\x00\x02\x07\x07", Ending.LENGTH_ABOVE),
            (SHEET + b"\x18\x00\x01", Ending.VALUE_CUT),
            (SHEET + b"\x17\x00\x01", Ending.VALUE_CUT),
        ):
            self.assertEqual({ending}, reached_by(data)["endings"])

    def test_watching_changes_nothing(self):
        plain = model.run_event
        for data in (b"", WHOLE_CASE, SHEET + TICK + b"\x16", bytes(65537)):
            self.assertEqual(model.cantrace(data), watched_cantrace(data, Reached()))
        self.assertIs(plain, model.run_event)


class TraceTest(unittest.TestCase):
    """Traces that live through their own events."""

    def test_every_step_can_be_gone_to_from_every_other(self):
        for outfit, settings in OF_OUTFIT.items():
            steps = sorted(coverage.reachable_steps(outfit))
            trace = Trace(settings)
            for step in (step for first in steps for second in steps for step in (first, second)):
                trace.go_to(step)
                self.assertEqual(step, trace.network().step)

    def test_every_situation_can_be_arranged(self):
        for situation in coverage.possible_situations():
            trace = Trace(OF_OUTFIT[situation.outfit])
            arrange(trace, situation)
            before, after = Reached(), Reached()
            watched_cantrace(trace.recorded(), before)
            watched_cantrace(trace.recorded() + TICK, after)
            self.assertEqual([situation], list((after.times["decisions"] - before.times["decisions"])))

    def test_an_impossible_situation_is_not_arranged(self):
        with self.assertRaises(ValueError):
            arrange(Trace(OF_OUTFIT[Outfit.NO_TRANSCEIVER]), Situation(0, Mode.SILENT, False, False, False, 0))

    def test_the_program_sees_what_the_trace_saw(self):
        trace = Trace(*LARGEST)
        trace.go_to(5, index=3)
        lines = model.cantrace(trace.recorded()).splitlines()
        self.assertEqual("config 0 8", lines[0])
        self.assertEqual(trace.number_of_events(), len(lines) - 1)
        self.assertEqual(trace.length, len(trace.recorded()))

    def test_a_bus_off_makes_open_requests_stale(self):
        trace = Trace(*OF_OUTFIT.values())
        trace.go_to(3, index=0)
        others = [request for request in trace.open_requests if request[1] not in (3, 12)]
        trace.bus_off(index=0)
        self.assertEqual(others, trace.open_requests)

    def test_answers(self):
        self.assertEqual((0x12, 3, 1, 0), answer_to((1, 3, 1), NOT_OK))
        self.assertEqual((0x13, 5, 1), answer_to((2, 5, 1)))
        self.assertEqual((0x14, 5), answer_to((4, 5, 0)))
        self.assertEqual((0x15, 5), answer_to((5, 5, 0)))

    def test_the_largest_sheets(self):
        self.assertEqual(328, len(Trace(*LARGEST).recorded()))
        self.assertEqual(360, len(Trace(*LARGEST_BY_THE_NEWER_RULE).recorded()))

    def test_a_bad_sheet_is_no_trace(self):
        with self.assertRaises(ValueError):
            Trace(*LARGEST, OF_OUTFIT[Outfit.NO_TRANSCEIVER])


class BatchTest(unittest.TestCase):
    """The form of the program's input and output."""

    def test_pack(self):
        self.assertEqual(bytes.fromhex("00000000 00000002 6162"), batches.pack([b"", b"ab"]))
        self.assertEqual(bytes.fromhex("00010001"), batches.pack([bytes(65537)])[:4])

    def test_unpack(self):
        inputs = [b"", b"\x00", bytes(65537), WHOLE_CASE]
        self.assertEqual(inputs, batches.unpack(batches.pack(inputs)))
        self.assertEqual([], batches.unpack(b""))
        for damaged in (b"\x00", b"\x00\x00\x00\x01", batches.pack(inputs)[:-1]):
            with self.assertRaises(ValueError):
                batches.unpack(damaged)

    def test_outputs(self):
        outputs = ["config 56 0\n", "config 0 1\n1 0\n", "too long\n"]
        text = batches.join_outputs(outputs)
        self.assertEqual("expected output made by: python3 tests/trace_cases.py", text.splitlines()[0])
        self.assertEqual(["case 1", "config 56 0", "case 2"], text.splitlines()[1:4])
        self.assertEqual(outputs, batches.split_outputs(text))

    def test_outputs_of_a_program_that_ended_early(self):
        text = batches.join_outputs(["config 56 0\n", "config 0 1\n1 0\n"])
        self.assertEqual(["config 56 0\n", "config 0 1\n"], batches.split_outputs(text[:-4]))
        self.assertEqual([], batches.split_outputs(""))
        self.assertEqual([], batches.split_outputs("something else\n"))

    def test_a_wrong_output_is_noticed(self):
        expected = [model.cantrace(data) for data in (b"", SHEET, WHOLE_CASE)]
        text = batches.join_outputs(expected)
        self.assertIsNone(batches.first_difference(batches.split_outputs(text), expected))
        for mutated, index in (
            (text.replace("8:7:1", "8:7:0"), 2),
            (text.replace("18 0 2", "18 0 1"), 2),
            (text[:-1], 2),
            (text + "19 0\n", 2),
            (text + "case 4\nconfig 56 0\n", 3),
            (text.replace("config 56 0\n", ""), 0),
            (text.replace("case 2\n", ""), 0),
            (text.replace("expected", "written"), 0),
        ):
            self.assertEqual(index, batches.first_difference(batches.split_outputs(mutated), expected))

    def test_differing_lines(self):
        self.assertIn("line 2: found '1 0', expected '1 34'", batches.line_difference("a\n1 0\n", "a\n1 34\n"))
        self.assertIn("line 2: found None, expected '1 0'", batches.line_difference("a\n", "a\n1 0\n"))
        self.assertIn("newline", batches.line_difference("a", "a\n"))


class StoredCasesTest(unittest.TestCase):
    """The stored cases of the program `trace_cases`."""

    @classmethod
    def setUpClass(cls):
        cls.cases = trace_cases.all_cases()
        cls.reached = Reached()
        cls.outputs = [watched_cantrace(case.data, cls.reached) for case in cls.cases]

    def test_they_are_many_and_not_too_long(self):
        files = trace_cases.expected_files(self.cases, self.outputs)
        self.assertGreaterEqual(len(self.cases), 200)
        # the longest inputs have 380,000 bytes of it, and the cases of listening 27,000
        self.assertLess(len(files["stdout"]), 730_000)
        self.assertEqual([case.data for case in self.cases], batches.unpack(files["stdin"]))

    def test_they_reach_all(self):
        self.assertEqual([], trace_cases.coverage_faults(self.reached))

    def test_their_last_lines_are_those_written_by_hand(self):
        self.assertEqual([], trace_cases.case_faults(self.cases, self.outputs))
        wrong = Case("E1", b"", "config 56 1")
        self.assertEqual(1, len(trace_cases.case_faults([wrong], [model.cantrace(b"")])))

    def test_played_cases_run_to_their_end(self):
        groups = (
            played_cases.tick_cases, played_cases.call_cases, played_cases.bus_off_cases, played_cases.network_cases,
            played_cases.reset_cases, played_cases.stall_cases, played_cases.threshold_cases, played_cases.listen_cases,
        )
        for case in (case for group in groups for case in group()):
            lines = model.cantrace(case.data).splitlines()
            self.assertTrue(lines[0].startswith("config 0 "), case.name)
            self.assertFalse(lines[-1].startswith("stop"), case.name)

    def test_cases_that_are_left_out_are_noticed(self):
        reached = Reached()
        for case in self.cases:
            if case.name not in ("partial, ticks in step 14", "partial, a stall in step 14", "partial, listening in each step"):
                watched_cantrace(case.data, reached)
        faults = trace_cases.coverage_faults(reached)
        self.assertIn("trace_cases: not reached: transitions: partial, tick, 14 to 14", faults)
        self.assertIn("trace_cases: not reached: decisions: partial, step 14, no wanted, not done", faults)

    def test_threshold_cases_that_are_left_out_are_noticed(self):
        reached = Reached()
        left_out = {case.name for case in played_cases.threshold_cases()}
        for case in self.cases:
            if case.name not in left_out:
                watched_cantrace(case.data, reached)
        self.assertEqual([
            "trace_cases: not reached: delays: newer rule, above the threshold, the long delay",
            "trace_cases: not reached: delays: newer rule, at the threshold, the long delay",
            "trace_cases: not reached: delays: newer rule, below the threshold, the short delay",
        ], trace_cases.coverage_faults(reached))

    def test_cases_of_listening_that_are_left_out_are_noticed(self):
        reached = Reached()
        left_out = {case.name for case in played_cases.listen_cases()}
        for case in self.cases:
            if case.name not in left_out:
                watched_cantrace(case.data, reached)
        faults = trace_cases.coverage_faults(reached)
        self.assertIn("trace_cases: not reached: records: kind 3 argument 2", faults)
        self.assertIn("trace_cases: not reached: listens: listening set in step 15, a change, handed out", faults)
        self.assertIn("trace_cases: not reached: listens: listening cleared in step 14, no change, not handed out", faults)
        self.assertIn("trace_cases: not reached: sending: a tick in step 8, listening, argument 2", faults)

    def test_listening_changes_no_other_record_and_no_time(self):
        """A whole life with listening and without: line by line the same, but for online."""
        for outfit, name in coverage.OUTFIT_NAMES.items():
            data = played_cases.listening_all_along(outfit)
            off = data.replace(field(EventTag.LISTEN, 1), field(EventTag.LISTEN, 0))
            with self.subTest(name):
                quiet, usual = model.cantrace(data), model.cantrace(off)
                self.assertNotEqual(quiet, usual)
                self.assertEqual(re.sub(r" 3:(\d+):2", r" 3:\1:0", quiet), usual)

    def test_cases_of_places_that_are_left_out_are_noticed(self):
        reached = Reached()
        left_out = {case.name for case in damaged_cases.pointed_at_cases()}
        for case in self.cases:
            if case.name not in left_out:
                watched_cantrace(case.data, reached)
        faults = trace_cases.coverage_faults(reached)
        self.assertIn("trace_cases: not reached: places: 34 points 5 behind tag 04, times 2, 3 zero, later network", faults)
        self.assertIn("trace_cases: not reached: places: 32 points 1 behind tag 03, later network", faults)

    def test_two_networks_with_the_same_events_part_at_the_threshold(self):
        """Polls of both after each of eight ticks, twice. The older rule has full from the fourth tick on, the newer from the seventh; after the
        second bus-off too, before which only the first network has passed and counts from 0."""
        older, newer = [Mode.SILENT] * 3 + [Mode.FULL] * 5, [Mode.SILENT] * 6 + [Mode.FULL] * 2
        for name, expected in (
            ("both rules in one sheet, the older first", (older, newer)), ("both rules in one sheet, the newer first", (newer, older)),
        ):
            [output] = [output for case, output in zip(self.cases, self.outputs) if case.name == name]
            polled = [int(line.split()[2]) for line in output.splitlines()[1:] if len(line.split()) == 3 and ":" not in line]
            self.assertEqual((expected[0] * 2, expected[1] * 2), (polled[::2], polled[1::2]))

    def test_the_same_input_twice_is_noticed(self):
        twice = [lambda: iter([Case("one", b""), Case("two", b"")])]
        with mock.patch.object(trace_cases, "GROUPS", twice), self.assertRaises(ValueError):
            trace_cases.all_cases()


class StoredFilesTest(unittest.TestCase):
    """The comparison of the stored files, on a few cases in a folder of its own."""

    def setUp(self):
        folder = tempfile.TemporaryDirectory()
        self.addCleanup(folder.cleanup)
        self.folder = Path(folder.name) / "crates" / "trace_cases"
        self.cases = [Case("empty", b""), Case("sheet", SHEET), Case("whole", WHOLE_CASE)]
        self.outputs = [model.cantrace(case.data) for case in self.cases]

    def faults(self):
        """What is wrong with the files in the folder."""
        with mock.patch.object(trace_cases, "PRODUCT_FOLDER", self.folder):
            return trace_cases.file_faults(self.cases, self.outputs)

    def write(self):
        """Write the files as they should be."""
        with mock.patch.object(trace_cases, "PRODUCT_FOLDER", self.folder):
            trace_cases.write_files(trace_cases.expected_files(self.cases, self.outputs))

    def change(self, name, old, new):
        """Change one of the files."""
        path = self.folder / name
        self.assertIn(old, path.read_bytes())
        path.write_bytes(path.read_bytes().replace(old, new))

    def test_files_as_written(self):
        self.write()
        self.assertEqual([], self.faults())

    def test_missing_files(self):
        self.assertEqual(["trace_cases: stdin is missing", "trace_cases: stdout is missing"], self.faults())

    def test_changed_input(self):
        self.write()
        self.change("stdin", b"\x12\x00\x03", b"\x12\x00\x04")
        self.assertEqual(["trace_cases: stdin differs from the cases"], self.faults())

    def test_changed_outputs(self):
        for old, new, words in (
            (b"8:7:1 ", b"", "case 3 (whole), line 13: found '12 0 6:7:1 7:7:3', expected '12 0 8:7:1 6:7:1 7:7:3'"),
            (b"config 56 0", b"config 56 1", "case 1 (empty), line 1: found 'config 56 1', expected 'config 56 0'"),
            (b"18 0 2\n", b"18 0 2\ncase 4\n", "case 4 is one too many"),
            (b"tests/trace_cases.py", b"another script", "case 1 (empty) is missing"),
        ):
            self.write()
            self.change("stdout", old, new)
            self.assertEqual([f"trace_cases: stdout differs from the model: {words}"], self.faults())


class RandomInputsTest(unittest.TestCase):
    """The random inputs are what they claim to be."""

    def test_traces_are_valid(self):
        for seed in range(40):
            data = random_traces.long_trace(Random(seed))
            lines = model.cantrace(data).splitlines()
            self.assertTrue(lines[0].startswith("config 0 "))
            self.assertFalse(lines[-1].startswith("stop"))
            self.assertTrue(50 <= len(lines) - 1 <= 400)

    def test_stalls_are_taken_and_refused(self):
        reached = Reached()
        for seed in range(60):
            watched_cantrace(random_traces.long_trace(Random(seed)), reached)
        answers = reached.times["answers"]
        self.assertGreater(answers[EventTag.STALL, model.ACCEPTED], 100)
        self.assertGreater(answers[EventTag.STALL, model.Refusal.NOT_TAKEN], 100)
        self.assertGreater(answers[EventTag.STALL, model.Refusal.UNKNOWN_HANDLE], 0)
        moves = reached.times["transitions"]
        for outfit in model.ALL_OUTFITS:
            for move in ((4, 15), (5, 15)):
                self.assertGreater(moves[Transition(outfit, EventTag.STALL, *move)], 0)
            for move in ((15, 15), (15, 16), (16, 16), (16, 4), (16, 8)):
                self.assertGreater(moves[Transition(outfit, EventTag.TICK, *move)], 0)

    def test_listening_is_changed_and_refused(self):
        reached = Reached()
        for seed in range(60):
            watched_cantrace(random_traces.long_trace(Random(seed)), reached)
        answers = reached.times["answers"]
        self.assertGreater(answers[EventTag.LISTEN, model.ACCEPTED], 100)
        self.assertGreater(answers[EventTag.LISTEN, model.Refusal.VALUE_OUT_OF_RANGE], 10)
        self.assertEqual(coverage.possible()["sending"], set(reached.times["sending"]))
        changes = {each for each in coverage.possible()["listens"] if each.changes and each.step in model.UP_STEPS}
        self.assertEqual(set(), changes - set(reached.times["listens"]))

    def test_sheets_are_good_and_varied(self):
        numbers, outfits, rules = set(), set(), set()
        for seed in range(100):
            networks = random_traces.random_networks(Random(seed))
            reading = model.read_sheet(model.write_sheet(networks))
            self.assertEqual(model.ACCEPTED, reading.refusal)
            numbers.add(len(networks))
            outfits |= {model.outfit_of(settings) for settings in networks}
            rules |= {settings.relation for settings in networks}
        self.assertEqual(set(range(1, 9)), numbers)
        self.assertEqual(set(model.ALL_OUTFITS), outfits)
        self.assertEqual(set(Relation), rules)

    def test_both_rules_come_to_the_threshold(self):
        reached = Reached()
        for seed in range(60):
            watched_cantrace(random_traces.long_trace(Random(seed)), reached)
        self.assertEqual(coverage.possible()["delays"], set(reached.times["delays"]))

    def test_damage_is_done(self):
        reached = Reached()
        for seed in range(300):
            watched_cantrace(random_traces.damaged_sheet(Random(seed)), reached)
            watched_cantrace(random_traces.damaged_events(Random(seed)), reached)
        refusals = {answer for tag, answer in reached.times["answers"] if tag == CONFIG}
        self.assertEqual(set(coverage.POSSIBLE_ANSWERS[CONFIG]), refusals | {0x38})
        self.assertLessEqual({0x32, 0x33, 0x34}, {answer for tag, answer in reached.times["fields"] if tag == Tag.RELATION})
        self.assertEqual(set(Ending.ALL) - {Ending.TOO_LONG}, set(reached.times["endings"]))

    def test_damaged_sheets_are_pointed_at_everywhere(self):
        reached = Reached()
        for seed in range(2000):
            watched_cantrace(random_traces.damaged_sheet(Random(seed)), reached)
        self.assertEqual(coverage.possible()["places"], set(reached.times["places"]))

    def test_a_seed_gives_the_same_inputs(self):
        first, second = Random(5), Random(5)
        for _ in range(20):
            self.assertEqual(random_traces.random_input(first), random_traces.random_input(second))

    def test_two_thirds_are_long_traces(self):
        self.assertEqual(1000, sum(random_traces.WAYS.values()))
        self.assertEqual(667, random_traces.WAYS[random_traces.long_trace])

    def test_fields_are_split(self):
        fields = [b"\x01\x00\x01\x07", b"\x16\x00\x00", b"\x12\x00\x03abc"]
        self.assertEqual(fields, random_traces.split_fields(b"".join(fields)))


class RunProgramTest(unittest.TestCase):
    """How a program is run on the kinds of machine there are."""

    def setUp(self):
        folder = tempfile.TemporaryDirectory()
        self.addCleanup(folder.cleanup)
        self.folder = Path(folder.name).resolve()
        self.program = self.executable("program", b"\x7fELF" + bytes(14) + b"\x3e\x00" + bytes(40))

    def executable(self, name, content=b""):
        """A file that may be run."""
        path = self.folder / name
        path.parent.mkdir(parents=True, exist_ok=True)
        path.write_bytes(content)
        path.chmod(0o755)
        return path

    def command(self, machine, *folders):
        """The command on this kind of machine, with these folders as the PATH."""
        path = os.pathsep.join(str(self.folder / folder) for folder in folders)
        with mock.patch.dict(os.environ, {"PATH": path, "RATTLE_HOME": ""}):
            return run_program.command_of(self.program, machine)

    def test_directly_on_x86_64(self):
        self.assertEqual([str(self.program)], self.command("x86_64"))

    def test_a_script_is_run_directly_anywhere(self):
        self.program = self.executable("script", b"#!/bin/sh\n")
        self.assertEqual([str(self.program)], self.command("aarch64"))

    def test_with_the_emulator_of_the_toolchain(self):
        self.executable("kit/bin/rt")
        emulator = self.executable("kit/on/aarch64/toolchain/bin/qemu-x86_64")
        loader = self.executable("kit/on/aarch64/toolchain/lib/ld-linux-x86-64.so.2")
        expected = [str(emulator), str(loader), "--library-path", str(loader.parent), str(self.program)]
        self.assertEqual(expected, self.command("aarch64", "kit/bin"))
        (self.folder / "linked").mkdir()
        (self.folder / "linked" / "rt").symlink_to(self.folder / "kit" / "bin" / "rt")
        self.assertEqual(expected, self.command("aarch64", "linked"))

    def test_with_an_emulator_on_the_path(self):
        emulator = self.executable("usual/qemu-x86_64")
        self.assertEqual([str(emulator), str(self.program)], self.command("aarch64", "usual"))

    def test_without_an_emulator(self):
        with self.assertRaisesRegex(run_program.CannotRun, "qemu-x86_64"):
            self.command("aarch64", "empty")


FAKE_PROGRAM = """#!{python}
import os
import sys

sys.dont_write_bytecode = True
sys.path.insert(0, {tests!r})
import batches
import model


def output_of(data):
    output = model.cantrace(data)
    {fault}
    return output


data = sys.stdin.buffer.read()
if {batch}:
    sys.stdout.write(batches.FIRST_LINE + "\\n")
    for number, case in enumerate(batches.unpack(data), start=1):
        sys.stdout.write(batches.case_line(number))
        sys.stdout.flush()
        sys.stdout.write(output_of(case))
else:
    sys.stdout.write(output_of(data))
"""


class DifferentialTest(unittest.TestCase):
    """The comparison with programs that the model stands in for, in a project folder of their own."""

    def setUp(self):
        folder = tempfile.TemporaryDirectory()
        self.addCleanup(folder.cleanup)
        self.root = Path(folder.name)
        for crate in ("cantrace", "trace_cases"):
            (self.root / "crates" / crate / "out").mkdir(parents=True)
        shutil.copytree(TESTS_FOLDER, self.root / "tests", ignore=shutil.ignore_patterns("__pycache__", "*.txt"))

    def fake(self, path, batch, fault="pass"):
        """A program that does what the model does, with a fault of its own."""
        program = self.root / path
        text = FAKE_PROGRAM.format(python=sys.executable, tests=str(TESTS_FOLDER), batch=batch, fault=fault)
        program.write_text(text, encoding="utf-8")
        program.chmod(0o755)

    def fakes(self, fault="pass"):
        """All programs; only the one for batches has the fault."""
        self.fake("crates/trace_cases/out/trace_cases", True, fault)
        self.fake("crates/cantrace/out/cantrace", False)
        self.fake("cantrace", False)

    def run_differential(self, *arguments):
        """The exit status and what was printed."""
        command = [sys.executable, "-B", str(self.root / "tests" / "differential"), *arguments]
        done = subprocess.run(command, capture_output=True, text=True, check=False)
        self.assertEqual("", done.stderr)
        return done.returncode, done.stdout

    def kept(self):
        """The names of the kept files."""
        return sorted(path.name for path in (self.root / "target" / "differential").glob("*"))

    def test_all_agree(self):
        self.fakes()
        status, printed = self.run_differential("12", "3")
        self.assertEqual(0, status)
        self.assertIn("12 inputs agree through trace_cases, 12 through ./cantrace, 0 differ", printed)
        self.assertIn("transitions of a bare network by tick", printed)
        self.assertEqual([], self.kept())

    def test_a_fault_is_found_and_kept(self):
        self.fakes('output = output.replace(" 0 3:", " 0 4:", 1)')
        status, printed = self.run_differential("6", "3")
        self.assertEqual(1, status)
        self.assertRegex(printed, r"trace_cases, input \d+ \(long trace\): line \d+: found '\d+ 0 4:")
        names = [name[:-4] for name in self.kept() if name.endswith(".bin")]
        self.assertTrue(names)
        kept = self.root / "target" / "differential"
        expected = (kept / f"{names[0]}.expected").read_text()
        self.assertEqual(model.cantrace((kept / f"{names[0]}.bin").read_bytes()), expected)
        self.assertEqual(expected.replace(" 0 3:", " 0 4:", 1), (kept / f"{names[0]}.found").read_text())

    def test_a_fault_of_the_script_is_found(self):
        self.fakes()
        self.fake("cantrace", False, "output = output[:-1]")
        status, printed = self.run_differential("3", "3")
        self.assertEqual(1, status)
        self.assertIn("3 inputs agree through trace_cases, 0 through ./cantrace, 3 differ", printed)

    def test_an_early_end_is_found_and_the_rest_is_compared(self):
        self.fakes("len(output.splitlines()) == {} and os._exit(3)".format(self.number_of_lines(5)))
        status, printed = self.run_differential("8", "3")
        self.assertEqual(1, status)
        self.assertIn("trace_cases, input 5 ", printed)
        self.assertIn("the program ended with status 3", printed)
        self.assertIn("7 inputs agree through trace_cases, 8 through ./cantrace, 1 differ", printed)

    def number_of_lines(self, number):
        """How many lines the model writes for one of the inputs of the seed 3."""
        random = Random(3)
        inputs = [random_traces.random_input(random) for _ in range(number)]
        return len(model.cantrace(inputs[-1].data).splitlines())

    def test_what_is_not_there_is_named(self):
        status, printed = self.run_differential()
        self.assertEqual(2, status)
        self.assertIn("crates/trace_cases/out/trace_cases", printed)
        self.assertIn("cd crates/trace_cases && rt run", printed)

    def test_wrong_arguments(self):
        for arguments in (("many",), ("0",), ("1", "2", "3")):
            self.assertEqual(2, self.run_differential(*arguments)[0])


if __name__ == "__main__":
    unittest.main()
