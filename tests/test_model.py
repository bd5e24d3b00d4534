#!/usr/bin/env python3
"""Checks the model against the worked examples of docs/RULES.md and against its rules, one by one.

The expected values here are written by hand from the rules; none is made by the model.
"""

import random
import unittest
from copy import deepcopy
from unittest import mock

import manager_cases
import model
import sheet_cases
import trace_cases
from model import Kind, Manager, Mode, Outfit, Relation

BENCH_SHEET = bytes.fromhex("01000107 02000103 040006000200050003 05000101 06000100")
TRANSCEIVER_SHEET = bytes.fromhex("01000107 02000103 02000104 03000105 040006000200050003 05000101 06000100")
PARTIAL_SHEET = bytes.fromhex("01000109 02000101 02000102 03000106 040006000200050003 05000101 06000101")
SECOND_SHEET = bytes.fromhex("01000108 02000104 040006000200050003 05000101 06000100")
FIELD_07 = bytes.fromhex("07000101")
LARGE_BUFFER = 144
UP_STEPS = (4, 5, 6, 7, 8, 15, 16)

WHOLE_CASE_INPUT = bytes.fromhex(
    "01000107 02000103 040006000200050003 05000101 06000100"
    "160000 120003030001 160000 120003030201 160000 1000020702"
    "160000 120003030001 160000 120003030101 160000 11000103"
    "160000 120003030101 160000 160000 160000 17000107"
)
WHOLE_CASE_OUTPUT = """\
config 0 1
1 0 1:3:0
2 0
3 0 1:3:2
4 0
5 0 6:7:0
6 0
7 0 1:3:0
8 0
9 0 1:3:1
10 0
11 0 3:3:0 6:7:2 7:7:2
12 0 8:7:1 6:7:1 7:7:3
13 0 1:3:1
14 0
15 0 3:3:1
16 0
17 0 3:3:0 6:7:2 7:7:2
18 0 2
"""


class Box:
    """A started manager with one network, and a layer below that answers as it is told."""

    def __init__(self, sheet=BENCH_SHEET):
        self.manager = Manager.new()
        assert self.manager.read(sheet).answer == model.ACCEPTED
        assert self.manager.start().answer == model.ACCEPTED
        self.network = self.manager.networks[0]
        self.handle = self.network.settings.handle
        self.controller = self.network.settings.controllers[0]
        self.transceiver = self.network.settings.transceiver
        self.records = []

    def tick(self):
        """One tick with a large buffer; gives its records."""
        self.records = self.manager.tick(LARGE_BUFFER).records
        return self.records

    def reply(self):
        """Answer every request of the last tick ok."""
        for kind, target, argument in self.records:
            if kind == Kind.CONTROLLER_MODE:
                assert self.manager.controller_answer(target, argument, 1).answer == 0
            elif kind == Kind.TRANSCEIVER_MODE:
                assert self.manager.transceiver_mode(target, argument).answer == 0
            elif kind == Kind.CLEAR_WAKE_FLAG:
                assert self.manager.clear_done(target).answer == 0
            elif kind == Kind.CHECK_WAKE_FLAG:
                assert self.manager.check_done(target).answer == 0
        self.records = []

    def replied_tick(self):
        """Answer the last requests ok, then tick."""
        self.reply()
        return self.tick()

    def want(self, mode):
        """Request a mode and insist that it is accepted."""
        assert self.manager.request(self.handle, mode).answer == model.ACCEPTED

    def bus_off(self):
        """A bus-off of the first controller."""
        self.records = []
        return self.manager.bus_off(self.controller, LARGE_BUFFER)

    def stall(self):
        """The sending of the network has stuck."""
        self.records = []
        return self.manager.stall(self.handle, LARGE_BUFFER)

    def listen(self, value=1):
        """The box is to hear and stay quiet, or with 0 to send again; what was asked for stays open."""
        return self.manager.listen(value, LARGE_BUFFER)

    def tick_until(self, step):
        """Tick, with all requests answered, until the network has just come to the step."""
        for _ in range(40):
            if self.network.step == step:
                return
            self.replied_tick()
        raise AssertionError(f"step {step} was not reached")

    def go_to(self, step):
        """Bring the network by calls alone to the step; a tick brings it there, except for 6 and 15,
        and except for the step of the start."""
        if step in (0, 9, 10, 11, 12, 13):
            self.tick_until(step)
        elif step == 14:
            self.tick_until(12)
            self.manager.controller_answer(self.controller, 2, 0)
            self.records = []
            self.tick()
        elif step in (1, 2, 3, 4, 5):
            self.tick_until(0)
            self.want(Mode.FULL)
            self.tick_until(step)
        elif step in (6, 7):
            self.go_to(5)
            self.bus_off()
            self.tick_until(step)
        elif step == 8:
            self.go_to(5)
            self.want(Mode.SILENT)
            self.tick_until(8)
        elif step in (15, 16):
            self.go_to(5)
            self.stall()
            self.tick_until(step)
        assert self.network.step == step


def box_in_step(step, sheet=BENCH_SHEET):
    """A box brought to a step."""
    box = Box(sheet)
    box.go_to(step)
    return box


def replied_ticks_until_full(box):
    """How many ticks, with all requests answered, until a tick tells full."""
    for number in range(1, 40):
        if (Kind.COMMUNICATION_MANAGER, box.handle, Mode.FULL) in box.replied_tick():
            return number
    raise AssertionError("full was never told")


class WorkedExamples(unittest.TestCase):
    """The whole case, E13, and the bench cases, E1 to E12."""

    def reading(self, sheet):
        reading = model.read_sheet(sheet)
        return reading.refusal, reading.place, len(reading.networks)

    def test_whole_case(self):
        self.assertEqual(model.cantrace(WHOLE_CASE_INPUT), WHOLE_CASE_OUTPUT)

    def test_e1_to_e4_empty_good_and_cut(self):
        self.assertEqual(self.reading(b""), (0x38, 0, 0))
        self.assertEqual(self.reading(BENCH_SHEET), (0, 25, 1))
        self.assertEqual(self.reading(BENCH_SHEET[:24]), (0x30, 21, 0))
        self.assertEqual(self.reading(BENCH_SHEET[:21]), (0x30, 21, 0))

    def test_e5_a_delay_of_zero(self):
        for place in (11, 13):
            sheet = BENCH_SHEET[:place] + b"\x00\x00" + BENCH_SHEET[place + 2:]
            self.assertEqual(self.reading(sheet), (0x34, place, 0))

    def test_e6_controller_field_twice(self):
        sheet = BENCH_SHEET[:8] + BENCH_SHEET[4:8] + BENCH_SHEET[8:]
        self.assertEqual(self.reading(sheet), (0x35, 8, 0))

    def test_e7_threshold(self):
        self.assertEqual(self.reading(BENCH_SHEET[:20] + b"\xfe" + BENCH_SHEET[21:]), (0, 25, 1))
        self.assertEqual(self.reading(BENCH_SHEET[:20] + b"\xff" + BENCH_SHEET[21:]), (0x34, 20, 0))

    def test_e8_partial_networking_without_transceiver(self):
        self.assertEqual(self.reading(BENCH_SHEET[:24] + b"\x01"), (0x37, 21, 0))

    def test_e9_full_on_the_fourth_and_on_the_seventh_tick(self):
        box = box_in_step(5)
        self.assertEqual(box.bus_off().answer, 0)
        self.assertEqual(replied_ticks_until_full(box), 4)
        box = box_in_step(7)
        self.assertEqual(box.bus_off().answer, 0)
        self.assertEqual(replied_ticks_until_full(box), 7)

    def test_e10_started_answer_before_the_new_request(self):
        box = box_in_step(5)
        box.bus_off()
        self.assertEqual(box.manager.controller_answer(3, 1, 1).answer, 0x22)

    def test_e11_silent_asked_for_in_step_0(self):
        self.assertEqual(box_in_step(0).manager.request(7, 1).answer, 0x08)

    def test_e12_tick_with_8_and_with_9_bytes(self):
        manager = Box().manager
        refused = manager.tick(8)
        self.assertEqual((refused.answer, refused.records, refused.count), (0x20, [], 0))
        accepted = manager.tick(9)
        self.assertEqual((accepted.answer, accepted.records, accepted.count), (0, [(1, 3, 0)], 1))

    def test_e12_passed_with_the_third_tick_after_full(self):
        box = box_in_step(4)
        self.assertEqual([box.tick(), box.tick(), box.tick()], [[], [], [(8, 7, 0)]])


class OldFaults(unittest.TestCase):
    """What went wrong in older boxes, E14 to E17, must not be in the model."""

    def test_started_answer_from_before_a_bus_off_does_not_count(self):
        box = box_in_step(3)
        box.bus_off()
        self.assertEqual(box.manager.controller_answer(3, 1, 1).answer, 0x22)
        self.assertEqual(box.tick(), [(1, 3, 1)])
        self.assertEqual(box.replied_tick(), [(3, 3, 0), (6, 7, 2), (7, 7, 2)])

    def test_long_delay_begins_above_the_threshold(self):
        box = box_in_step(5)
        box.bus_off()
        self.assertEqual(box.network.bus_off_count, box.network.settings.threshold)
        self.assertEqual(replied_ticks_until_full(box), 4)

    def test_told_mode_is_not_full_while_controllers_are_being_stopped(self):
        box = box_in_step(5)
        box.want(Mode.NO)
        self.assertEqual(box.manager.poll(7).mode, Mode.FULL)
        self.assertEqual(box.tick(), [(7, 7, 0), (6, 7, 1), (1, 3, 0)])
        self.assertEqual(box.manager.poll(7).mode, Mode.SILENT)

    def test_silent_and_back_keeps_the_count(self):
        box = box_in_step(4)
        box.bus_off()
        replied_ticks_until_full(box)
        box.want(Mode.SILENT)
        self.assertEqual(box.tick(), [(3, 3, 1), (6, 7, 1), (7, 7, 1)])
        box.want(Mode.FULL)
        self.assertEqual(box.tick(), [(3, 3, 0), (6, 7, 2), (7, 7, 2)])
        self.assertEqual(box.network.bus_off_count, 1)
        box.bus_off()
        self.assertEqual(replied_ticks_until_full(box), 7)

    def test_passed_clears_the_count(self):
        box = box_in_step(4)
        box.bus_off()
        box.tick_until(5)
        self.assertEqual(box.network.bus_off_count, 0)
        box.bus_off()
        self.assertEqual(replied_ticks_until_full(box), 4)


class Program(unittest.TestCase):
    """The splitting of the input and the lines of `cantrace`."""

    def after_bench_sheet(self, events):
        return model.cantrace(BENCH_SHEET + bytes.fromhex(events))

    def test_sheet_and_then_the_tag_of_an_event_cut(self):
        self.assertEqual(self.after_bench_sheet("16"), "config 0 1\nstop 25\n")

    def test_sheet_and_then_a_low_tag_cut(self):
        self.assertEqual(self.after_bench_sheet("09"), "config 48 25\n")

    def test_low_tag_not_cut_belongs_to_the_sheet(self):
        self.assertEqual(self.after_bench_sheet("090000 160000"), "config 49 25\n")

    def test_cut_field_before_an_event_makes_all_the_rest_sheet(self):
        self.assertEqual(self.after_bench_sheet("0200ff 160000"), "config 50 26\n")
        self.assertEqual(self.after_bench_sheet("0100ff 160000"), "config 50 26\n")

    def test_empty_input(self):
        self.assertEqual(model.cantrace(b""), "config 56 0\n")

    def test_first_tag_10(self):
        self.assertEqual(model.cantrace(bytes.fromhex("160000")), "config 56 0\n")
        self.assertEqual(model.cantrace(bytes.fromhex("10")), "config 56 0\n")

    def test_tag_0f_is_below_10(self):
        self.assertEqual(model.cantrace(bytes.fromhex("0f0000")), "config 49 0\n")

    def test_exactly_65536_bytes(self):
        # 25 bytes of sheet and 21,837 ticks are 65,536 bytes.
        data = BENCH_SHEET + bytes.fromhex("160000") * 21837
        self.assertEqual(len(data), 65536)
        expected = "config 0 1\n" + "".join(f"{number} 0 1:3:0\n" for number in range(1, 21838))
        self.assertEqual(model.cantrace(data), expected)

    def test_too_long(self):
        self.assertEqual(model.cantrace(BENCH_SHEET + bytes(65512)), "too long\n")

    def test_bad_events_stop(self):
        for events in ("18 0000", "ff0000", "100001 07", "160001 00", "1600", "170001", "12000303 01",
                       "090000", "00", "190000", "190002 0101", "190001", "19", "1a0000", "1a0001 01",
                       "180001", "180002 0707", "18"):
            with self.subTest(events=events):
                output = self.after_bench_sheet("160000" + events)
                self.assertEqual(output, "config 0 1\n1 0 1:3:0\nstop 28\n")

    def test_events_after_a_stop_are_not_run(self):
        self.assertEqual(self.after_bench_sheet("180000 160000"), "config 0 1\nstop 25\n")

    def test_refused_poll_prints_0(self):
        self.assertEqual(self.after_bench_sheet("160000 160000 17000108").splitlines()[3], "3 3 0")

    def test_refusals_are_decimal(self):
        expected = ["config 0 1", "1 3", "2 33", "3 37", "4 4", "5 34", "6 5", "7 5", "8 5", "9 3", "10 34", "11 33"]
        events = "1000020802 1000020703 1000020701 11000104 11000103 1300020000 14000100 15000100 18000108 18000107 19000102"
        self.assertEqual(self.after_bench_sheet(events).splitlines(), expected)

    def test_no_events(self):
        self.assertEqual(self.after_bench_sheet(""), "config 0 1\n")


class Traces(unittest.TestCase):
    """Recorded inputs with the lines that the rules give, written by hand."""

    DOWN_WITH_TRANSCEIVER = [  # from the start to step 0
        ("160000", "0 1:3:0 1:4:0"),
        ("120003 030001", "0"),
        ("160000", "0 1:3:0 1:4:0"),  # sent again to all, one answer is already there
        ("120003 040001", "0"),
        ("160000", "0 1:3:2 1:4:2"),
        ("120003 030200", "0"),
        ("120003 040201", "0"),
        ("160000", "0 1:3:2 1:4:2"),  # without partial networking a refusal makes it ask again
        ("120003 030201", "0"),
        ("160000", "0 2:5:1"),
        ("130002 0500", "34"),
        ("130002 0502", "34"),
        ("160000", "0 2:5:1"),
        ("130002 0501", "0"),
        ("160000", "0 6:7:0"),
        ("160000", "0"),
    ]

    UP_WITH_TRANSCEIVER = [  # from step 0 to full, silent and a shutdown
        ("100002 0702", "0"),
        ("160000", "0 2:5:0"),
        ("130002 0500", "0"),
        ("160000", "0 1:3:0 1:4:0"),
        ("120003 040001", "0"),
        ("120003 030001", "0"),
        ("160000", "0 1:3:1 1:4:1"),
        ("120003 030101", "0"),
        ("110001 04", "0"),           # bus-off in 3 hands out nothing
        ("120003 040101", "34"),
        ("160000", "0 1:3:1 1:4:1"),
        ("120003 040101", "0"),
        ("160000", "0 1:3:1 1:4:1"),  # the answer from before the bus-off is forgotten
        ("120003 030101", "0"),
        ("160000", "0 3:3:0 3:4:0 6:7:2 7:7:2"),
        ("100002 0701", "0"),
        ("160000", "0 3:3:1 3:4:1 6:7:1 7:7:1"),
        ("100002 0700", "0"),
        ("170001 07", "0 1"),
        ("160000", "0 7:7:0 1:3:0 1:4:0"),  # told is silent, so no kind 6
        ("170001 07", "0 1"),
    ]

    def check(self, sheet, pairs):
        events = b"".join(bytes.fromhex(event) for event, _ in pairs)
        lines = [f"{number} {line}" for number, (_, line) in enumerate(pairs, start=1)]
        found = model.cantrace(sheet + events).splitlines()
        self.assertEqual(found, ["config 0 1"] + lines)

    def test_network_with_transceiver(self):
        self.check(TRANSCEIVER_SHEET, self.DOWN_WITH_TRANSCEIVER + self.UP_WITH_TRANSCEIVER)

    def test_network_with_partial_networking(self):
        down_to_sleep = [
            ("160000", "0 4:6:0"),
            ("140001 06", "0"),
            ("160000", "0 1:1:0 1:2:0"),
            ("120003 010001", "0"),
            ("120003 020001", "0"),
            ("160000", "0 2:6:1"),
            ("130002 0601", "0"),
            ("160000", "0 1:1:2 1:2:2"),
        ]
        self.check(PARTIAL_SHEET, down_to_sleep + [
            ("120003 020200", "0"),       # one refusal is enough, the other answer is not awaited
            ("160000", "0 5:6:0"),
            ("160000", "0 5:6:0"),
            ("150001 06", "0"),
        ] + down_to_sleep + [             # 14 to 9 only enters 9: no kind 7, no kind 6
            ("120003 010201", "0"),
            ("120003 020201", "0"),
            ("160000", "0 5:6:0"),
            ("150001 06", "0"),
            ("160000", "0 6:9:0"),
            ("100002 0902", "0"),
            ("160000", "0 2:6:0"),
            ("100002 0900", "0"),
            ("130002 0600", "0"),
            ("160000", "0 7:9:0 4:6:0"),  # wanted no comes before done
        ])

    def test_two_bus_offs_and_the_long_delay(self):
        self.check(BENCH_SHEET, [
            ("160000", "0 1:3:0"), ("120003 030001", "0"),
            ("160000", "0 1:3:2"), ("120003 030201", "0"),
            ("160000", "0 6:7:0"), ("100002 0702", "0"),
            ("160000", "0 1:3:0"), ("120003 030001", "0"),
            ("160000", "0 1:3:1"), ("120003 030101", "0"),
            ("160000", "0 3:3:0 6:7:2 7:7:2"),
            ("110001 03", "0 8:7:1 6:7:1 7:7:3"),
            ("110001 03", "0 8:7:1 6:7:1 7:7:3"),  # taken in 6 too, and not counted: the short delay
            ("160000", "0 1:3:1"), ("120003 030101", "0"),
            ("160000", "0 3:3:1"),
            ("160000", "0"),
            ("110001 03", "0 8:7:1 6:7:1 7:7:3"),  # in 7 it is counted: the long delay
            ("160000", "0 1:3:1"), ("120003 030101", "0"),
            ("160000", "0 3:3:1"),
            ("160000", "0"), ("160000", "0"), ("160000", "0"), ("160000", "0"),
            ("160000", "0 3:3:0 6:7:2 7:7:2"),
        ])


class SheetList(unittest.TestCase):
    """The case list says in words what the model must do with each sheet."""

    @classmethod
    def setUpClass(cls):
        cls.cases = sheet_cases.parse_cases(sheet_cases.CASE_FILE.read_text(encoding="ascii"))

    def test_the_model_does_what_the_list_says(self):
        for case in self.cases:
            with self.subTest(case=case.name):
                words = sheet_cases.outcome_in_words(Manager.new().read(case.sheet))
                self.assertEqual(words, case.expectation)

    def test_the_list_is_sound_and_covers_every_refusal(self):
        sheet_cases.require_sound_list(self.cases)
        self.assertGreaterEqual(len(self.cases), 70)
        seen = {model.read_sheet(case.sheet).refusal for case in self.cases}
        self.assertEqual(seen, {0} | set(range(0x30, 0x39)))

    def test_accepted_sheets_are_written_as_they_were_read(self):
        for case in self.cases:
            reading = model.read_sheet(case.sheet)
            if reading.refusal == 0:
                with self.subTest(case=case.name):
                    self.assertEqual(model.write_sheet(reading.networks), case.sheet)
                    self.assertEqual(reading.place, len(case.sheet))
                    self.assertTrue(25 <= len(case.sheet) <= 360)

    def test_settings_of_the_sheet_with_partial_networking(self):
        networks = model.read_sheet(PARTIAL_SHEET).networks
        self.assertEqual(networks, [model.Settings(9, [1, 2], 6, 2, 5, 3, 1, 1)])

    def test_lines_of_the_bench_sheet(self):
        case = sheet_cases.Case("", "", BENCH_SHEET)
        self.assertEqual(sheet_cases.case_lines(2, case), [
            "2 0 1 25",
            "2 net 7 3 - 2 5 3 1 0",
            "2 write 0 25 01000107020001030400060002000500030500010106000100eeee",
            "2 short 32 0 eeeeeeee",
        ])
        self.assertEqual(sheet_cases.case_lines(1, sheet_cases.Case("", "", b"")), ["1 56 0 0"])


def large_network(number):
    """The bytes of the largest network without field 07, 41 of them; ids by the number."""
    controllers = b"".join(bytes([2, 0, 1, 4 * number + place]) for place in range(4))
    return bytes([1, 0, 1, number]) + controllers + bytes([3, 0, 1, number]) + bytes.fromhex("040006ffffffffffff 050001fe 06000101")


class Field07(unittest.TestCase):
    """S27: the field that says the newer rule, in the sheet."""

    # Where the bench sheet's fields begin.
    FIELDS = (0, 4, 8, 17, 21)
    EIGHT = [large_network(number) for number in range(8)]

    def reading(self, *parts):
        reading = model.read_sheet(b"".join(parts))
        return reading.refusal, reading.place, len(reading.networks)

    def relations(self, sheet):
        return [network.relation for network in model.read_sheet(sheet).networks]

    def test_a_network_has_the_older_rule_without_it_and_the_newer_with_it(self):
        older, newer = Relation.ABOVE, Relation.AT_OR_ABOVE
        self.assertEqual(self.relations(BENCH_SHEET), [older])
        self.assertEqual(self.relations(BENCH_SHEET + FIELD_07), [newer])
        self.assertEqual(self.relations(BENCH_SHEET + FIELD_07 + SECOND_SHEET), [newer, older])
        self.assertEqual(self.relations(BENCH_SHEET + SECOND_SHEET + FIELD_07), [older, newer])
        self.assertEqual(self.relations(BENCH_SHEET + FIELD_07 + SECOND_SHEET + FIELD_07), [newer, newer])

    def test_all_else_is_as_without_it(self):
        for sheet in (BENCH_SHEET, TRANSCEIVER_SHEET, PARTIAL_SHEET):
            [with_it] = model.read_sheet(sheet + FIELD_07).networks
            with_it.relation = Relation.ABOVE
            self.assertEqual([with_it], model.read_sheet(sheet).networks)

    def test_it_is_out_of_order_first_and_within_a_network(self):
        for place in self.FIELDS:
            for value in (0, 1, 2):
                with self.subTest(place=place, value=value):
                    field = bytes([7, 0, 1, value])
                    self.assertEqual(self.reading(BENCH_SHEET[:place], field), (0x33, place, 0))
                    self.assertEqual(self.reading(BENCH_SHEET[:place], field, BENCH_SHEET[place:]), (0x33, place, 0))
                    self.assertEqual(self.reading(BENCH_SHEET, FIELD_07, SECOND_SHEET[:place], field), (0x33, 29 + place, 0))
        self.assertEqual(self.reading(TRANSCEIVER_SHEET[:16], FIELD_07), (0x33, 16, 0))
        self.assertEqual(self.reading(TRANSCEIVER_SHEET[:12], FIELD_07), (0x33, 12, 0))

    def test_a_second_one_is_out_of_order(self):
        for value in (0, 1, 2, 255):
            self.assertEqual(self.reading(BENCH_SHEET, FIELD_07, bytes([7, 0, 1, value])), (0x33, 29, 0))
        self.assertEqual(self.reading(BENCH_SHEET, FIELD_07, SECOND_SHEET, FIELD_07, FIELD_07), (0x33, 58, 0))

    def test_its_one_value_is_1(self):
        for value in range(256):
            expected = (0, 29, 1) if value == 1 else (0x34, 28, 0)
            self.assertEqual(self.reading(BENCH_SHEET, bytes([7, 0, 1, value])), expected)
        self.assertEqual(self.reading(BENCH_SHEET, b"\x07\x00\x01\x00", SECOND_SHEET), (0x34, 28, 0))

    def test_its_length_is_1(self):
        for field in ("070000", "0700020101", "070002", "07000201", "07010101", "07ffff"):
            with self.subTest(field=field):
                self.assertEqual(self.reading(BENCH_SHEET, bytes.fromhex(field)), (0x32, 26, 0))
                self.assertEqual(self.reading(bytes.fromhex(field), BENCH_SHEET), (0x32, 1, 0))
                self.assertEqual(self.reading(BENCH_SHEET, FIELD_07, bytes.fromhex(field)), (0x32, 30, 0))

    def test_it_is_cut(self):
        for field in ("07", "0700", "070001"):
            with self.subTest(field=field):
                self.assertEqual(self.reading(BENCH_SHEET, bytes.fromhex(field)), (0x30, 25, 0))
                self.assertEqual(self.reading(BENCH_SHEET, FIELD_07, bytes.fromhex(field)), (0x30, 29, 0))
                self.assertEqual(self.reading(BENCH_SHEET[:8], bytes.fromhex(field)), (0x30, 8, 0))
                self.assertEqual(self.reading(bytes.fromhex(field)), (0x30, 0, 0))

    def test_after_it_come_a_network_or_the_end(self):
        for place, end in zip(self.FIELDS[1:], (*self.FIELDS[2:], 25)):
            self.assertEqual(self.reading(BENCH_SHEET, FIELD_07, SECOND_SHEET[place:end]), (0x33, 29, 0))
        self.assertEqual(self.reading(BENCH_SHEET, FIELD_07, b"\x03\x00\x01\x05"), (0x33, 29, 0))
        self.assertEqual(self.reading(BENCH_SHEET, FIELD_07, BENCH_SHEET), (0x35, 29, 0))
        self.assertEqual(self.reading(BENCH_SHEET, FIELD_07, SECOND_SHEET[:4], BENCH_SHEET[4:8]), (0x35, 33, 0))
        self.assertEqual(self.reading(BENCH_SHEET, FIELD_07, SECOND_SHEET[:21]), (0x30, 50, 0))
        self.assertEqual(self.reading(BENCH_SHEET, FIELD_07, SECOND_SHEET[:20] + b"\xff"), (0x34, 49, 0))
        self.assertEqual(self.reading(BENCH_SHEET, FIELD_07, SECOND_SHEET[:24] + b"\x01"), (0x37, 50, 0))

    def test_tag_08_is_unknown(self):
        for before in (b"", BENCH_SHEET[:8], BENCH_SHEET, BENCH_SHEET + FIELD_07):
            self.assertEqual(self.reading(before, b"\x08\x00\x01\x01"), (0x31, len(before), 0))
            self.assertEqual(self.reading(before, b"\x08\xff\xff"), (0x31, len(before), 0))

    def test_after_the_eighth_network(self):
        self.assertEqual(self.reading(*self.EIGHT, FIELD_07), (0, 332, 8))
        self.assertEqual(self.reading(*self.EIGHT, b"\x07\x00\x01\x00"), (0x34, 331, 0))
        self.assertEqual(self.reading(*self.EIGHT, FIELD_07, FIELD_07), (0x33, 332, 0))
        self.assertEqual(self.reading(*self.EIGHT, FIELD_07, b"\x01\x00\x01\x08"), (0x36, 332, 0))
        self.assertEqual(self.reading(*self.EIGHT, FIELD_07, b"\x01\x00\x01\x07"), (0x35, 332, 0))
        self.assertEqual(self.reading(*self.EIGHT, FIELD_07, b"\x02\x00\x01\x00"), (0x33, 332, 0))

    def test_the_largest_sheet_has_360_bytes(self):
        sheet = b"".join(network + FIELD_07 for network in self.EIGHT)
        self.assertEqual(len(sheet), 360)
        self.assertEqual(self.reading(sheet), (0, 360, 8))
        manager = Manager.new()
        manager.read(sheet)
        self.assertEqual((manager.write(359).answer, manager.write(359).sheet), (0x20, b""))
        self.assertEqual((manager.write(360).answer, manager.write(360).count, manager.write(360).sheet), (0, 360, sheet))

    def test_sheets_are_written_as_they_were_read_whichever_networks_have_it(self):
        for chosen in range(256):
            sheet = b"".join(network + (FIELD_07 if chosen >> place & 1 else b"") for place, network in enumerate(self.EIGHT))
            networks = model.read_sheet(sheet).networks
            self.assertEqual([network.relation == Relation.AT_OR_ABOVE for network in networks], [bool(chosen >> place & 1) for place in range(8)])
            self.assertEqual(model.write_sheet(networks), sheet)

    def test_different_rules_have_different_sheets(self):
        older = model.Settings(7, [3], None, 2, 5, 3, 1, 0)
        newer = model.Settings(7, [3], None, 2, 5, 3, 1, 0, Relation.AT_OR_ABOVE)
        self.assertEqual(model.write_sheet([older]), BENCH_SHEET)
        self.assertEqual(model.write_sheet([newer]), BENCH_SHEET + FIELD_07)
        self.assertEqual(model.read_sheet(model.write_sheet([newer])).networks, [newer])

    def test_lines_of_a_sheet_with_it(self):
        case = sheet_cases.Case("", "", BENCH_SHEET + FIELD_07 + SECOND_SHEET)
        self.assertEqual(sheet_cases.case_lines(4, case)[:3], ["4 0 2 54", "4 net 7 3 - 2 5 3 1 0 1", "4 net 8 4 - 2 5 3 1 0"])

    def test_the_program_takes_it_for_a_field_of_the_sheet(self):
        self.assertEqual(model.cantrace(BENCH_SHEET + FIELD_07 + b"\x16\x00\x00"), "config 0 1\n1 0 1:3:0\n")
        self.assertEqual(model.cantrace(BENCH_SHEET + b"\x07\x00\x01\x00\x16\x00\x00"), "config 52 28\n")
        self.assertEqual(model.cantrace(BENCH_SHEET + b"\x16\x00\x00" + FIELD_07), "config 0 1\n1 0 1:3:0\nstop 28\n")


class Places(unittest.TestCase):
    """S24, S28, S29: where a refusal of a sheet points."""

    # A network with each of the seven fields, which begin at 0, 4, 8, 12, 21, 25 and 29.
    NETWORK = bytes.fromhex("010001ff 0200011f 03000107 040006000200050003 05000101 06000100 07000101")
    # What stands before it: nothing, a network of 25 bytes, seven of 41.
    BEFORE = (b"", BENCH_SHEET, b"".join(large_network(number) for number in range(7)))

    def check(self, network, refusal, place):
        """The network is refused so, wherever it stands in a sheet."""
        for before in self.BEFORE:
            reading = model.read_sheet(before + network)
            self.assertEqual((reading.refusal, reading.place, reading.networks), (refusal, len(before) + place, []))

    def changed(self, place, value):
        """The network with these bytes from this place on."""
        return self.NETWORK[:place] + value + self.NETWORK[place + len(value):]

    def test_the_network_is_a_good_one(self):
        for before in self.BEFORE:
            self.assertEqual(model.read_sheet(before + self.NETWORK).refusal, 0)

    def test_34_points_at_the_number_of_one_byte(self):
        for place, values in ((7, (32, 128, 255)), (11, (8, 128, 255)), (24, (255,)), (28, (2, 255)), (32, (0, 2, 255))):
            for value in values:
                self.check(self.changed(place, bytes([value])), 0x34, place)
                self.check(self.changed(place, bytes([value]))[:place + 1], 0x34, place)

    def test_34_points_at_the_first_time_that_is_0(self):
        for times, place in (
            ("0000 0005 0003", 15), ("0002 0000 0003", 17), ("0002 0005 0000", 19),
            ("0000 0000 0003", 15), ("0000 0005 0000", 15), ("0002 0000 0000", 17), ("0000 0000 0000", 15),
            # A byte of 0 is no number of 0.
            ("0100 0000 0003", 17), ("0100 0100 0000", 19), ("00ff 0000 0100", 17), ("ffff ffff 0000", 19), ("0001 0001 0000", 19),
        ):
            with self.subTest(times=times):
                self.check(self.changed(15, bytes.fromhex(times)), 0x34, place)
                self.check(self.changed(15, bytes.fromhex(times))[:21], 0x34, place)

    def test_32_points_at_the_first_length_byte(self):
        for place, right in ((1, 1), (5, 1), (9, 1), (13, 6), (22, 1), (26, 1), (30, 1)):
            for length in {0, 1, 2, 5, 6, 7, 255, 256, 257, 262, 65535} - {right}:
                with self.subTest(place=place, length=length):
                    wrong = self.changed(place, length.to_bytes(2, "big"))
                    # With all bytes there, with few, and as the very last ones; most of these lengths run past the end.
                    for sheet in (wrong + bytes(300), wrong, wrong[:place + 3], wrong[:place + 2]):
                        self.check(sheet, 0x32, place)
                    self.check(wrong[:place + 1], 0x30, place - 1)

    def test_every_other_refusal_points_at_the_tag(self):
        for network, refusal, place in (
            (self.NETWORK[:6], 0x30, 4),
            (self.NETWORK[:20], 0x30, 12),
            (self.changed(21, b"\x08"), 0x31, 21),
            (self.changed(21, b"\x08\xff\xff"), 0x31, 21),
            (self.changed(8, b"\x05"), 0x33, 8),
            (self.changed(8, b"\x05\x00\x01\xff"), 0x33, 8),
            (self.NETWORK[:8] + self.NETWORK[4:], 0x35, 8),
            (self.NETWORK + self.NETWORK, 0x35, 33),
            (self.NETWORK[:8] + b"\x06\x00\x01\x01", 0x33, 8),
            (self.NETWORK[:8] + self.NETWORK[12:28] + b"\x01", 0x37, 21),
            (self.NETWORK[:21], 0x30, 21),
            (self.NETWORK[:4], 0x30, 4),
        ):
            with self.subTest(refusal=refusal, place=place):
                self.check(network, refusal, place)
        fifth = BENCH_SHEET[:4] + b"".join(bytes([2, 0, 1, number]) for number in range(5))
        self.assertEqual(model.read_sheet(fifth)[:2], (0x36, 20))
        self.assertEqual(model.read_sheet(b"".join(large_network(number) for number in range(8)) + BENCH_SHEET)[:2], (0x35, 328))
        self.assertEqual(model.read_sheet(b"")[:2], (0x38, 0))

    def test_the_manager_and_the_program_say_the_place(self):
        sheet = BENCH_SHEET + self.changed(17, b"\x00\x00")
        manager = Manager.new()
        self.assertEqual((manager.read(sheet).answer, manager.read(sheet).place, manager.read(sheet).count), (0x34, 42, 0))
        self.assertEqual(model.cantrace(sheet + b"\x16\x00\x00"), "config 52 42\n")
        self.assertEqual(model.cantrace(BENCH_SHEET + self.changed(14, b"\x05")), "config 50 38\n")
        manager.read(BENCH_SHEET)
        manager.start()
        self.assertEqual((manager.read(sheet).answer, manager.read(sheet).place), (0x0B, 0))


real_place = model.refused_at


def further_on(refusal, distance):
    """A reader that points so many bytes behind the right place, or before it, for one refusal."""
    return lambda number, data, place: real_place(number, data, place) + (distance if number == refusal else 0)


def times_by(choose):
    """A reader that points at that one of the three times which is chosen from the numbers, 0 to 2, of those that are 0."""
    def place_of(number, data, place):
        if number != model.Refusal.SHEET_OUT_OF_RANGE or data[place] != model.Tag.TIMES:
            return real_place(number, data, place)
        return place + 3 + choose([index for index in range(3) if not any(data[place + 3 + 2 * index:place + 5 + 2 * index])])
    return place_of


def first_byte_of_0(number, data, place):
    """Of the three times, the first byte that is 0, though its number may not be."""
    if number == model.Refusal.SHEET_OUT_OF_RANGE and data[place] == model.Tag.TIMES:
        return data.index(0, place + 3)
    return real_place(number, data, place)


def differing_length_byte(number, data, place):
    """Of the two length bytes, the low one where the high one is right."""
    return real_place(number, data, place) + (number == model.Refusal.SHEET_WRONG_LENGTH and data[place + 1] == 0)


def tag_of_a_length_that_overruns(number, data, place):
    """A wrong length is pointed at by its tag where the value runs past the end too."""
    overruns = number == model.Refusal.SHEET_WRONG_LENGTH and place + 3 + model.two_byte_number(data, place + 1) > len(data)
    return place if overruns else real_place(number, data, place)


def not_behind_field(tag):
    """A reader that points at this tag itself where the field's value is out of its range."""
    return lambda number, data, place: place if number == 0x34 and data[place] == tag else real_place(number, data, place)


# What a reader does that points elsewhere: in place of the model's `refused_at`.
WRONG_READERS = {
    "34 at the tag": further_on(0x34, -3),
    "34 at the length": further_on(0x34, -2),
    "34 one byte on, at the low byte of a time": further_on(0x34, 1),
    "34 always at the first of three times": times_by(lambda zeros: 0),
    "34 at the last time that is 0": times_by(lambda zeros: 2 * zeros[-1]),
    "34 at the last of three times": times_by(lambda zeros: 4),
    "34 at the time by its number, not by its bytes": times_by(lambda zeros: zeros[0]),
    "34 at the first byte that is 0": first_byte_of_0,
    "34 of field 02 at the tag": not_behind_field(0x02),
    "34 of field 03 at the tag": not_behind_field(0x03),
    "34 of field 05 at the tag": not_behind_field(0x05),
    "34 of field 06 at the tag": not_behind_field(0x06),
    "34 of field 07 at the tag": not_behind_field(0x07),
    "32 at the tag": further_on(0x32, -1),
    "32 at the second length byte": further_on(0x32, 1),
    "32 at the value": further_on(0x32, 2),
    "32 at that length byte which is wrong": differing_length_byte,
    "32 at the tag where the value overruns": tag_of_a_length_that_overruns,
    "30 at the length too": further_on(0x30, 1),
    "31 at the length too": further_on(0x31, 1),
    "33 at the value too": further_on(0x33, 3),
    "35 at the id": further_on(0x35, 3),
    "36 at the id": further_on(0x36, 3),
    "37 at the value too": further_on(0x37, 3),
}


class WrongReaders(unittest.TestCase):
    """Readers that point elsewhere: the stored cases tell each from the right one, by what is written there by hand or stored."""

    @classmethod
    def setUpClass(cls):
        cls.sheets = sheet_cases.parse_cases(sheet_cases.CASE_FILE.read_text(encoding="ascii"))
        cls.calls = (manager_cases.FOLDER / "stdout").read_bytes()
        cls.recordings = [case for case in trace_cases.all_cases() if case.last_line.startswith("config ")]

    def told_by(self, reader):
        """The kinds of stored cases by which this reader is told from the right one."""
        with mock.patch.object(model, "refused_at", reader):
            told = {
                "sheets": any(sheet_cases.outcome_in_words(Manager.new().read(case.sheet)) != case.expectation for case in self.sheets),
                "calls": manager_cases.expected_output() != self.calls,
                "recordings": any(model.cantrace(case.data) != case.last_line + "\n" for case in self.recordings),
            }
        return {kind for kind, differs in told.items() if differs}

    def test_each_is_told_by_all_three_kinds(self):
        for name, reader in WRONG_READERS.items():
            with self.subTest(name):
                self.assertEqual(self.told_by(reader), {"sheets", "calls", "recordings"})

    def test_the_right_one_is_not(self):
        self.assertEqual(self.told_by(real_place), set())


class CallsBeforeTheStart(unittest.TestCase):
    """R7, R8, R19 and R20: 01 and 0B, and what reading again does."""

    def calls_that_need_a_start(self, manager):
        return [
            manager.tick(0), manager.bus_off(99, 0), manager.request(99, 9), manager.poll(99),
            manager.controller_answer(99, 9, 9), manager.transceiver_mode(99, 9),
            manager.clear_done(99), manager.check_done(99), manager.stall(99, 0), manager.listen(9, 0),
        ]

    def test_calls_without_a_start_give_01_before_all_else(self):
        manager = Manager.new()
        self.assertEqual([call.answer for call in self.calls_that_need_a_start(manager)], [1] * 10)
        manager.read(BENCH_SHEET)
        self.assertEqual([call.answer for call in self.calls_that_need_a_start(manager)], [1] * 10)

    def test_start_and_write_need_a_sheet(self):
        manager = Manager.new()
        self.assertEqual(manager.start().answer, 0x01)
        self.assertEqual(manager.write(0).answer, 0x01)
        manager.read(b"\x01")
        self.assertEqual(manager.start().answer, 0x01)

    def test_read_and_start_on_a_started_manager(self):
        manager = Box().manager
        refused = manager.read(b"\x00\x00\x00")
        self.assertEqual((refused.answer, refused.place, refused.count), (0x0B, 0, 0))
        self.assertEqual(manager.read(PARTIAL_SHEET).answer, 0x0B)
        self.assertEqual(manager.start().answer, 0x0B)

    def test_reading_again_replaces_and_a_refused_reading_keeps(self):
        manager = Manager.new()
        manager.read(BENCH_SHEET)
        refused = manager.read(BENCH_SHEET[:24])
        self.assertEqual((refused.answer, refused.place, refused.count), (0x30, 21, 0))
        self.assertEqual(manager.write(368).sheet, BENCH_SHEET)
        self.assertEqual(manager.read(PARTIAL_SHEET).count, 1)
        self.assertEqual(manager.write(368).sheet, PARTIAL_SHEET)

    def test_write_before_and_after_the_start(self):
        manager = Manager.new()
        manager.read(BENCH_SHEET)
        self.assertEqual(manager.write(25).count, 25)
        self.assertEqual((manager.write(24).answer, manager.write(24).count), (0x20, 0))
        manager.start()
        self.assertEqual(manager.write(25).sheet, BENCH_SHEET)

    def test_start_puts_each_network_in_its_first_down_step(self):
        for sheet, step in ((BENCH_SHEET, 10), (TRANSCEIVER_SHEET, 10), (PARTIAL_SHEET, 9)):
            box = Box(sheet)
            network = box.network
            self.assertEqual((network.step, network.asked, network.bus_off_count), (step, False, 0))
            self.assertEqual((network.wanted, network.told), (Mode.NO, Mode.NO))
            self.assertEqual(box.manager.poll(box.handle).mode, Mode.NO)


class RefusalOrder(unittest.TestCase):
    """R6: where several refusals apply, the highest of the table is the answer."""

    def setUp(self):
        self.manager = Box(PARTIAL_SHEET).manager

    def test_bus_off(self):
        self.assertEqual(self.manager.bus_off(99, 8).answer, 0x20)
        self.assertEqual(self.manager.bus_off(1, 8).answer, 0x20)
        self.assertEqual(self.manager.bus_off(99, 9).answer, 0x04)
        self.assertEqual(self.manager.bus_off(1, 9).answer, 0x22)

    def test_bus_off_needs_9_bytes_in_step_3_too(self):
        manager = box_in_step(3, PARTIAL_SHEET).manager
        self.assertEqual(manager.bus_off(1, 8).answer, 0x20)
        accepted = manager.bus_off(1, 9)
        self.assertEqual((accepted.answer, accepted.records, accepted.count), (0, [], 0))

    def test_stall(self):
        self.assertEqual(self.manager.stall(7, 2).answer, 0x20)
        self.assertEqual(self.manager.stall(9, 2).answer, 0x20)
        self.assertEqual(self.manager.stall(7, 3).answer, 0x03)
        self.assertEqual(self.manager.stall(9, 3).answer, 0x22)

    def test_stall_needs_3_bytes_in_the_steps_that_take_it_too(self):
        for step in (4, 5):
            manager = box_in_step(step, PARTIAL_SHEET).manager
            for length in (0, 1, 2):
                refused = manager.stall(9, length)
                self.assertEqual((refused.answer, refused.records, refused.count), (0x20, [], 0))
            self.assertEqual(manager.stall(7, 3).answer, 0x03)
            accepted = manager.stall(9, 3)
            self.assertEqual((accepted.answer, accepted.records, accepted.count), (0, [(6, 9, 1)], 1))

    def test_listen(self):
        # Two controllers: 3 x 2 = 6 bytes.
        for value in (0, 1, 2, 255):
            for length in (0, 3, 5):
                refused = self.manager.listen(value, length)
                self.assertEqual((refused.answer, refused.records, refused.count), (0x20, [], 0))
        for length in (6, LARGE_BUFFER):
            self.assertEqual([self.manager.listen(value, length).answer for value in (2, 3, 255)], [0x21] * 3)
            self.assertEqual([self.manager.listen(value, length).answer for value in (0, 1)], [0, 0])

    def test_listen_needs_room_for_all_networks_in_every_step(self):
        # Three controllers and two networks: 3 x 3 = 9 bytes, also where nothing would go out.
        manager = Manager.new()
        manager.read(PARTIAL_SHEET + BENCH_SHEET)
        manager.start()
        self.assertEqual((manager.listen(0, 8).answer, manager.listen(1, 8).answer, manager.listen(2, 8).answer), (0x20, 0x20, 0x20))
        self.assertFalse(manager.listening)
        self.assertEqual((manager.listen(0, 9).answer, manager.listen(2, 9).answer, manager.listen(1, 9).answer), (0, 0x21, 0))
        for step in range(17):
            box = box_in_step(step, PARTIAL_SHEET)
            with self.subTest(step=step):
                self.assertEqual([box.manager.listen(value, 5).answer for value in (0, 1, 2)], [0x20] * 3)
                self.assertEqual([box.manager.listen(value, 6).answer for value in (2, 0, 1, 1, 0)], [0x21, 0, 0, 0, 0])

    def test_request(self):
        self.assertEqual(self.manager.request(7, 3).answer, 0x03)
        self.assertEqual(self.manager.request(9, 3).answer, 0x21)
        self.assertEqual(self.manager.request(9, 255).answer, 0x21)
        self.assertEqual(self.manager.request(9, 1).answer, 0x25)
        self.assertEqual(self.manager.request(9, 2).answer, 0)
        self.assertEqual(self.manager.request(9, 0).answer, 0)

    def test_controller_answer(self):
        self.assertEqual(self.manager.controller_answer(3, 3, 2).answer, 0x04)
        self.assertEqual(self.manager.controller_answer(1, 3, 0).answer, 0x21)
        self.assertEqual(self.manager.controller_answer(1, 0, 2).answer, 0x21)
        self.assertEqual(self.manager.controller_answer(1, 0, 1).answer, 0x22)

    def test_transceiver_calls(self):
        self.assertEqual(self.manager.transceiver_mode(5, 3).answer, 0x05)
        self.assertEqual(self.manager.transceiver_mode(6, 3).answer, 0x21)
        self.assertEqual(self.manager.transceiver_mode(6, 2).answer, 0x22)
        self.assertEqual(self.manager.clear_done(5).answer, 0x05)
        self.assertEqual(self.manager.clear_done(6).answer, 0x22)
        self.assertEqual(self.manager.check_done(5).answer, 0x05)
        self.assertEqual(self.manager.check_done(6).answer, 0x22)

    def test_poll(self):
        refused = self.manager.poll(7)
        self.assertEqual((refused.answer, refused.mode), (0x03, 0))

    def test_tick_needs_room_for_all_networks(self):
        # Three controllers and two networks: 3 x (3 + 2 x 2) = 21 bytes.
        manager = Manager.new()
        manager.read(PARTIAL_SHEET + BENCH_SHEET)
        manager.start()
        self.assertEqual(manager.tick(20).answer, 0x20)
        self.assertEqual(manager.networks, Box(PARTIAL_SHEET).manager.networks + Box().manager.networks)
        self.assertEqual(manager.tick(21).records, [(4, 6, 0), (1, 3, 0)])

    def test_program_buffer_is_room_for_any_call(self):
        # 32 controllers in 8 networks: 3 x (32 + 16) = 144.
        self.assertEqual(3 * (32 + 2 * 8), model.Limit.PROGRAM_BUFFER_BYTES)


class StepsAndCalls(unittest.TestCase):
    """Which step takes which call, in a network with partial networking."""

    TAKEN = {  # the step, and the answers and reports it takes once asked
        0: [], 1: ["transceiver 0"], 2: ["controller 0"], 3: ["controller 1"], 4: [], 5: [],
        6: ["controller 1"], 7: [], 8: [], 9: ["clear"], 10: ["controller 0"],
        11: ["transceiver 1"], 12: ["controller 2"], 13: ["check"], 14: ["check"],
        15: ["controller 0"], 16: ["controller 1"],
    }

    def asked_box(self, step):
        box = box_in_step(step, PARTIAL_SHEET)
        if step in (6, 9, 15) and not box.network.asked:
            box.tick()
        return box

    def calls(self, step):
        """Each answer and report with its outcome in a manager of its own."""
        found = {}
        for mode in (0, 1, 2):
            manager = self.asked_box(step).manager
            found[f"controller {mode}"] = manager.controller_answer(1, mode, 1).answer
            manager = self.asked_box(step).manager
            found[f"transceiver {mode}"] = manager.transceiver_mode(6, mode).answer
        found["clear"] = self.asked_box(step).manager.clear_done(6).answer
        found["check"] = self.asked_box(step).manager.check_done(6).answer
        return found

    def test_answers_and_reports(self):
        for step, taken in self.TAKEN.items():
            for call, answer in self.calls(step).items():
                with self.subTest(step=step, call=call):
                    self.assertEqual(answer, 0 if call in taken else 0x22)

    def test_bus_off(self):
        for step in range(17):
            outcome = box_in_step(step, PARTIAL_SHEET).bus_off()
            with self.subTest(step=step):
                if step in UP_STEPS:
                    self.assertEqual(outcome.records, [(8, 9, 1), (6, 9, 1), (7, 9, 3)])
                self.assertEqual(outcome.answer, 0 if step in (3, *UP_STEPS) else 0x22)

    def test_stall(self):
        for step in range(17):
            outcome = box_in_step(step, PARTIAL_SHEET).stall()
            with self.subTest(step=step):
                taken = step in (4, 5)
                self.assertEqual(outcome.answer, 0 if taken else 0x22)
                self.assertEqual(outcome.records, [(6, 9, 1)] if taken else [])

    def test_listen(self):
        for step in range(17):
            box = box_in_step(step, PARTIAL_SHEET)
            with self.subTest(step=step):
                for value, argument in ((1, 2), (0, 0)):
                    outcome = box.listen(value)
                    handed_out = [(3, 1, argument), (3, 2, argument)] if step in (4, 5, 15, 16) else []
                    self.assertEqual((outcome.answer, outcome.records, outcome.count), (0, handed_out, len(handed_out)))

    def test_silent(self):
        for step in range(17):
            with self.subTest(step=step):
                answer = box_in_step(step, PARTIAL_SHEET).manager.request(9, 1).answer
                due = 0x08 if step == 0 else 0x24 if step <= 3 else 0x25 if 9 <= step <= 14 else 0
                self.assertEqual(answer, due)

    def test_only_silent_goes_by_the_step(self):
        for step in range(17):
            for mode, due in ((0, 0), (2, 0), (3, 0x21), (255, 0x21)):
                with self.subTest(step=step, mode=mode):
                    self.assertEqual(box_in_step(step, PARTIAL_SHEET).manager.request(9, mode).answer, due)

    def test_silent_that_is_refused_changes_nothing(self):
        for step in (0, 1, 2, 3, 9, 10, 11, 12, 13, 14):
            box = box_in_step(step, PARTIAL_SHEET)
            before = deepcopy(box.manager.networks)
            self.assertNotEqual(box.manager.request(9, 1).answer, 0)
            with self.subTest(step=step):
                self.assertEqual(box.manager.networks, before)

    def test_nothing_is_taken_before_it_is_asked(self):
        self.assertEqual(Box().manager.controller_answer(3, 0, 1).answer, 0x22)
        self.assertEqual(Box(PARTIAL_SHEET).manager.clear_done(6).answer, 0x22)
        box = box_in_step(6, PARTIAL_SHEET)
        self.assertEqual(box.manager.controller_answer(1, 1, 1).answer, 0x22)
        self.assertEqual(box.tick(), [(1, 1, 1), (1, 2, 1)])
        self.assertEqual(box.manager.controller_answer(1, 1, 1).answer, 0)
        box = box_in_step(15, PARTIAL_SHEET)
        self.assertEqual(box.manager.controller_answer(1, 0, 1).answer, 0x22)
        self.assertEqual(box.tick(), [(1, 1, 0), (1, 2, 0)])
        self.assertEqual(box.manager.controller_answer(1, 0, 1).answer, 0)

    def test_wanted_no_goes_down_from_each_step_that_comes_up_or_is_up(self):
        for step in (1, 2, 3, *UP_STEPS):
            box = box_in_step(step, PARTIAL_SHEET)
            box.want(Mode.NO)
            told_silent = [(6, 9, 1)] if step in (4, 5) else []
            with self.subTest(step=step):
                self.assertEqual(box.tick(), [(7, 9, 0)] + told_silent + [(4, 6, 0)])
                self.assertEqual(box.network.step, 9)

    def test_the_down_steps_do_not_look_at_the_wanted_mode(self):
        for step in (9, 10, 11, 12, 13, 14):
            box = box_in_step(step, PARTIAL_SHEET)
            before = box.tick()
            box.want(Mode.FULL)
            with self.subTest(step=step):
                self.assertEqual(box.tick(), before)
                self.assertEqual(box.network.step, step)


class StepRules(unittest.TestCase):
    """Single rules of the tick, the answers and the bus-off."""

    def test_later_answer_takes_the_place_of_an_earlier_one(self):
        box = box_in_step(2)
        self.assertEqual(box.manager.controller_answer(3, 0, 1).answer, 0)
        self.assertEqual(box.manager.controller_answer(3, 0, 0).answer, 0)
        self.assertEqual(box.tick(), [(1, 3, 0)])
        self.assertEqual(box.manager.controller_answer(3, 0, 1).answer, 0)
        self.assertEqual(box.tick(), [(1, 3, 1)])

    def test_sleep_refused_and_then_ok_with_partial_networking(self):
        box = box_in_step(12, PARTIAL_SHEET)
        for ok in (0, 1):
            box.manager.controller_answer(1, 2, ok)
        box.manager.controller_answer(2, 2, 1)
        box.tick()
        self.assertEqual(box.network.step, 13)

    def test_sleep_refused_comes_before_done(self):
        box = box_in_step(12, PARTIAL_SHEET)
        box.manager.controller_answer(1, 2, 1)
        box.manager.controller_answer(2, 2, 0)
        self.assertEqual(box.tick(), [(5, 6, 0)])
        self.assertEqual(box.network.step, 14)

    def test_wanted_no_on_the_tick_of_the_ensure_time(self):
        box = box_in_step(4)
        box.tick()
        box.tick()
        box.want(Mode.NO)
        self.assertEqual(box.tick(), [(7, 7, 0), (6, 7, 1), (1, 3, 0)])

    def test_silent_comes_before_the_ensure_time(self):
        box = box_in_step(4)
        box.tick()
        box.tick()
        box.want(Mode.SILENT)
        self.assertEqual(box.tick(), [(3, 3, 1), (6, 7, 1), (7, 7, 1)])

    def test_waiting_ends_in_silent_if_silent_is_wanted(self):
        box = box_in_step(7)
        box.want(Mode.SILENT)
        self.assertEqual(box.tick(), [])
        self.assertEqual(box.tick(), [(3, 3, 1), (6, 7, 1), (7, 7, 1)])
        self.assertEqual(box.tick(), [])

    def test_a_shutdown_keeps_the_bus_off_count(self):
        box = box_in_step(7)
        box.want(Mode.NO)
        box.tick_until(0)
        self.assertEqual(box.network.bus_off_count, 1)
        box.want(Mode.FULL)
        box.tick_until(4)
        box.bus_off()
        self.assertEqual(replied_ticks_until_full(box), 7)

    def test_the_bus_off_count_stays_at_255(self):
        box = box_in_step(7)
        for _ in range(300):
            box.bus_off()
            box.tick_until(7)
        self.assertEqual(box.network.bus_off_count, 255)

    def test_a_bus_off_in_step_6_is_not_counted(self):
        box = box_in_step(5)
        for tick_before in (False, False, True, True):
            if tick_before:
                box.tick()
            self.assertEqual(box.bus_off().records, [(8, 7, 1), (6, 7, 1), (7, 7, 3)])
            self.assertEqual((box.network.step, box.network.asked, box.network.bus_off_count), (6, False, 1))
            self.assertEqual(box.manager.controller_answer(3, 1, 1).answer, 0x22)
        self.assertEqual(replied_ticks_until_full(box), 4)

    def test_a_bus_off_in_any_other_up_step_is_counted(self):
        for step, counted in ((4, 1), (5, 1), (7, 2), (8, 1), (15, 1), (16, 1)):
            with self.subTest(step=step):
                box = box_in_step(step)
                box.bus_off()
                self.assertEqual(box.network.bus_off_count, counted)

    def test_after_a_shutdown_in_step_6_a_bus_off_is_counted(self):
        box = box_in_step(6)
        box.want(Mode.NO)
        box.tick_until(0)
        box.want(Mode.FULL)
        box.tick_until(4)
        box.bus_off()
        self.assertEqual(box.network.bus_off_count, 2)
        self.assertEqual(replied_ticks_until_full(box), 7)

    def test_a_refused_tick_counts_nowhere(self):
        box = box_in_step(4)
        for length in (9, 8, 9, 8):
            self.assertEqual(box.manager.tick(length).records, [])
        self.assertEqual(box.manager.tick(9).records, [(8, 7, 0)])

    def test_request_hands_out_nothing_and_changes_no_step(self):
        box = box_in_step(5)
        outcome = box.manager.request(7, 0)
        self.assertEqual((outcome.answer, outcome.records), (0, []))
        self.assertEqual((box.network.step, box.manager.poll(7).mode), (5, Mode.FULL))

    def test_bus_off_tells_silent_at_once(self):
        box = box_in_step(5)
        outcome = box.bus_off()
        self.assertEqual((outcome.records, outcome.count), ([(8, 7, 1), (6, 7, 1), (7, 7, 3)], 3))
        self.assertEqual(box.manager.poll(7).mode, Mode.SILENT)

    def test_networks_tick_in_sheet_order_and_alone(self):
        manager = Manager.new()
        manager.read(PARTIAL_SHEET + BENCH_SHEET)
        manager.start()
        self.assertEqual(manager.tick(144).records, [(4, 6, 0), (1, 3, 0)])
        self.assertEqual(manager.controller_answer(3, 0, 1).answer, 0)
        self.assertEqual(manager.tick(144).records, [(4, 6, 0), (1, 3, 2)])
        self.assertEqual(manager.clear_done(6).answer, 0)
        self.assertEqual(manager.tick(144).records, [(1, 1, 0), (1, 2, 0), (1, 3, 2)])

    def test_lent_bytes(self):
        box = Box()
        before = b"\xee" * 9
        refused = box.manager.bus_off(3, 9)
        self.assertEqual(model.lent_bytes_after(before, refused), before)
        accepted = box.manager.tick(9)
        self.assertEqual(model.lent_bytes_after(before, accepted), bytes([1, 3, 0]) + b"\xee" * 6)


class Stalls(unittest.TestCase):
    """X1 to X5: sending that has stuck, on the network of the bench cases; and what T29 and T30 make of it."""

    def test_it_is_taken_in_4_and_5_alone(self):
        for step in (4, 5):
            outcome = box_in_step(step).stall()
            self.assertEqual((outcome.answer, outcome.records, outcome.count), (0, [(6, 7, 1)], 1))
        others = (0, 1, 2, 3, 6, 7, 8, 9, 10, 11, 12, 13, 14, 15, 16)
        for step in others:
            box = box_in_step(step, PARTIAL_SHEET)
            before = repr(box.network)
            with self.subTest(step=step):
                outcome = box.stall()
                self.assertEqual((outcome.answer, outcome.records, outcome.count), (0x22, [], 0))
                self.assertEqual(repr(box.network), before)
        self.assertEqual(sorted((4, 5, *others)), list(range(17)))

    def test_it_goes_to_step_15_which_has_not_asked(self):
        for step in (4, 5):
            box = box_in_step(step, TRANSCEIVER_SHEET)
            box.stall()
            network = box.network
            self.assertEqual((network.step, network.asked, network.reported), (15, False, False))
            self.assertEqual((network.answers, network.tick_count), ([None, None], 0))
            self.assertEqual(box.manager.poll(7).mode, Mode.SILENT)

    def test_the_count_and_the_wanted_mode_stay(self):
        for mode in (Mode.NO, Mode.SILENT, Mode.FULL):
            box = box_in_step(4)
            box.bus_off()
            box.tick_until(4)
            box.want(mode)
            self.assertEqual(box.stall().answer, 0)
            self.assertEqual((box.network.bus_off_count, box.network.wanted), (1, mode))

    def test_answers_from_before_it_do_not_count(self):
        box = box_in_step(4)
        box.stall()
        for mode in (0, 1, 2):
            self.assertEqual(box.manager.controller_answer(3, mode, 1).answer, 0x22)
        self.assertEqual(box.tick(), [(1, 3, 0)])
        self.assertEqual(box.tick(), [(1, 3, 0)])
        self.assertEqual(box.manager.controller_answer(3, 1, 1).answer, 0x22)
        self.assertEqual(box.replied_tick(), [(1, 3, 1)])
        self.assertEqual(box.manager.controller_answer(3, 0, 1).answer, 0x22)
        self.assertEqual(box.tick(), [(1, 3, 1)])

    def test_full_on_the_third_tick(self):
        for step in (4, 5):
            box = box_in_step(step)
            box.stall()
            self.assertEqual(box.replied_tick(), [(1, 3, 0)])
            self.assertEqual(box.replied_tick(), [(1, 3, 1)])
            self.assertEqual(box.replied_tick(), [(3, 3, 0), (6, 7, 2), (7, 7, 2)])
            self.assertEqual((box.network.step, box.network.tick_count), (4, 0))

    def test_all_controllers_are_asked_until_all_have_answered(self):
        box = box_in_step(5, TRANSCEIVER_SHEET)
        box.stall()
        for mode, next_step in ((0, 16), (1, 4)):
            self.assertEqual(box.tick() if mode == 0 else box.records, [(1, 3, mode), (1, 4, mode)])
            self.assertEqual(box.manager.controller_answer(4, mode, 1).answer, 0)
            self.assertEqual(box.tick(), [(1, 3, mode), (1, 4, mode)])
            self.assertEqual(box.manager.controller_answer(3, mode, 0).answer, 0)
            self.assertEqual(box.tick(), [(1, 3, mode), (1, 4, mode)])
            self.assertEqual(box.manager.controller_answer(3, mode, 1).answer, 0)
            box.tick()
            self.assertEqual(box.network.step, next_step)

    def test_passed_comes_again(self):
        box = box_in_step(5)
        box.stall()
        self.assertEqual(replied_ticks_until_full(box), 3)
        self.assertEqual([box.tick(), box.tick(), box.tick()], [[], [], [(8, 7, 0)]])

    def test_the_ensure_time_begins_anew(self):
        box = box_in_step(4)
        self.assertEqual([box.tick(), box.tick()], [[], []])
        box.stall()
        self.assertEqual(replied_ticks_until_full(box), 3)
        self.assertEqual([box.tick(), box.tick(), box.tick()], [[], [], [(8, 7, 0)]])

    def test_a_bus_off_after_it_has_the_delay_of_the_count_before(self):
        box = box_in_step(5)
        box.stall()
        replied_ticks_until_full(box)
        box.bus_off()
        self.assertEqual(replied_ticks_until_full(box), 4)
        box.stall()
        replied_ticks_until_full(box)
        box.bus_off()
        self.assertEqual(replied_ticks_until_full(box), 7)

    def test_a_bus_off_in_15_and_16_is_counted(self):
        for step in (15, 16):
            box = box_in_step(step)
            with self.subTest(step=step):
                self.assertEqual(box.bus_off().records, [(8, 7, 1), (6, 7, 1), (7, 7, 3)])
                self.assertEqual((box.network.step, box.network.asked, box.network.bus_off_count), (6, False, 1))
                self.assertEqual(box.manager.controller_answer(3, 1, 1).answer, 0x22)
                self.assertEqual(replied_ticks_until_full(box), 4)

    def test_silent_may_be_asked_for_in_15_and_16(self):
        for step in (15, 16):
            box = box_in_step(step)
            box.want(Mode.SILENT)
            box.tick_until(16)
            self.assertEqual(box.replied_tick(), [(3, 3, 1), (6, 7, 1), (7, 7, 1)])
            self.assertEqual(box.network.step, 8)
            box.want(Mode.FULL)
            self.assertEqual(box.tick(), [(3, 3, 0), (6, 7, 2), (7, 7, 2)])

    def test_silent_asked_for_in_15_and_full_in_16(self):
        box = box_in_step(15)
        box.want(Mode.SILENT)
        box.tick_until(16)
        box.want(Mode.FULL)
        self.assertEqual(box.replied_tick(), [(3, 3, 0), (6, 7, 2), (7, 7, 2)])

    def test_no_goes_down_from_15_and_16_and_silent_is_not_told_again(self):
        for step in (15, 16):
            box = box_in_step(step)
            box.reply()
            box.want(Mode.NO)
            self.assertEqual(box.tick(), [(7, 7, 0), (1, 3, 0)])
            self.assertEqual(box.network.step, 10)

    def test_a_second_one_is_refused_until_full_is_told_again(self):
        box = box_in_step(5)
        self.assertEqual(box.stall().answer, 0)
        for _ in range(3):
            self.assertEqual(box.manager.stall(7, LARGE_BUFFER).answer, 0x22)
            box.replied_tick()
        self.assertEqual(box.stall().records, [(6, 7, 1)])

    def test_it_moves_no_other_network(self):
        manager = Manager.new()
        manager.read(BENCH_SHEET + TRANSCEIVER_SHEET.replace(BENCH_SHEET[:8], bytes.fromhex("01000108 02000105")))
        manager.start()
        for network in manager.networks:
            network.step, network.told, network.wanted = 5, Mode.FULL, Mode.FULL
        before = repr(manager.networks[0])
        self.assertEqual(manager.stall(8, LARGE_BUFFER).records, [(6, 8, 1)])
        self.assertEqual(repr(manager.networks[0]), before)
        self.assertEqual(manager.networks[1].step, 15)

    def test_lent_bytes(self):
        for length in (2, 3, 9):
            box = box_in_step(4)
            before = b"\xee" * length
            after = model.lent_bytes_after(before, box.manager.stall(7, length))
            self.assertEqual(after, before if length < 3 else bytes([6, 7, 1]) + before[3:])

    def test_the_event(self):
        events = "160000 120003030001 160000 120003030201 160000 1000020702 160000 120003030001 160000 120003030101 160000"
        lines = model.cantrace(BENCH_SHEET + bytes.fromhex(events + "18000107 18000107 18000103 160000 120003030001")).splitlines()
        self.assertEqual(lines[-5:], ["12 0 6:7:1", "13 34", "14 3", "15 0 1:3:0", "16 0"])


class Listening(unittest.TestCase):
    """L1 to L6: the whole box hears and stays quiet, on the network of the bench cases and beside others."""

    FULL = [(6, 7, 2), (7, 7, 2)]
    ONLINE_STEPS = (4, 5, 15, 16)

    def two_networks(self, *steps):
        """A box with the networks 9 and 7, in this order, put into these steps."""
        box = Box(PARTIAL_SHEET + BENCH_SHEET)
        for network, step in zip(box.manager.networks, steps):
            network.step = step
            network.told = Mode.FULL if step in (4, 5) else Mode.SILENT if step in UP_STEPS else Mode.NO
        return box

    def test_a_new_manager_does_not_listen(self):
        self.assertFalse(Manager.new().listening)

    def test_1_sets_it_and_0_clears_it(self):
        box = Box()
        for value in (1, 1, 0, 0, 1, 0):
            self.assertEqual(box.listen(value).answer, 0)
            self.assertEqual(box.manager.listening, value == 1)

    def test_it_names_nobody(self):
        """It is for the whole manager, whatever ids the sheet has."""
        for step in self.ONLINE_STEPS:
            manager = box_in_step(step, bytes([1, 0, 1, 0, 2, 0, 1, 1]) + BENCH_SHEET[8:]).manager
            self.assertEqual(manager.listen(1, 3).records, [(3, 1, 2)])
            self.assertEqual(manager.listen(0, 3).records, [(3, 1, 0)])

    def test_online_goes_out_with_argument_2(self):
        """From step 3, from the wait, from silent and at the end of a reset."""
        for step, ticks in ((3, 1), (7, 2), (8, 1), (16, 1)):
            box = box_in_step(step)
            box.listen()
            box.want(Mode.FULL)
            for _ in range(ticks):
                records = box.replied_tick()
            with self.subTest(step=step):
                self.assertEqual(records, [(3, 3, 2), *self.FULL])

    def test_tx_offline_goes_out_as_it_is(self):
        box = box_in_step(6)
        box.listen()
        box.tick()
        self.assertEqual(box.replied_tick(), [(3, 3, 1)])
        for step in (4, 5, 16):
            box = box_in_step(step)
            box.listen()
            box.want(Mode.SILENT)
            self.assertEqual(box.replied_tick(), [(3, 3, 1), (6, 7, 1), (7, 7, 1)])
        box = box_in_step(7)
        box.want(Mode.SILENT)
        box.listen()
        self.assertEqual([box.tick(), box.tick()], [[], [(3, 3, 1), (6, 7, 1), (7, 7, 1)]])

    def test_every_other_record_goes_out_as_it_is(self):
        """One life, with listening set at the start and without: record by record the same, but for online."""
        lives = []
        for value in (0, 1):
            box = Box(PARTIAL_SHEET)
            box.listen(value)
            records = []
            for mode in (Mode.NO, Mode.FULL):
                box.want(mode)
                for _ in range(6):
                    records += box.replied_tick()
            for call in (box.bus_off, box.stall):
                box.tick_until(5)
                records += call().records
                for _ in range(8):
                    records += box.replied_tick()
            for mode in (Mode.SILENT, Mode.FULL, Mode.NO):
                box.want(mode)
                for _ in range(3):
                    records += box.replied_tick()
            lives.append(records)
        usual, quiet = lives
        self.assertEqual({record[:1] for record in usual}, {(kind,) for kind in range(1, 9)})
        self.assertEqual(quiet, [(3, target, 2) if (kind, argument) == (3, 0) else (kind, target, argument) for kind, target, argument in usual])
        self.assertEqual({argument for kind, _, argument in quiet if kind == 3}, {1, 2})

    def test_a_change_is_handed_out_in_4_5_15_and_16_alone(self):
        for step in range(17):
            box = box_in_step(step, PARTIAL_SHEET)
            online = [(3, 1), (3, 2)] if step in self.ONLINE_STEPS else []
            with self.subTest(step=step):
                for value, argument in ((1, 2), (0, 0), (1, 2)):
                    self.assertEqual(box.listen(value).records, [(*record, argument) for record in online])

    def test_in_step_15_before_it_has_asked_and_after_it(self):
        box = box_in_step(15)
        self.assertFalse(box.network.asked)
        self.assertEqual(box.listen(1).records, [(3, 3, 2)])
        self.assertEqual(box.tick(), [(1, 3, 0)])
        self.assertEqual(box.listen(0).records, [(3, 3, 0)])
        self.assertEqual(box.replied_tick(), [(1, 3, 1)])
        self.assertEqual(box.listen(1).records, [(3, 3, 2)])
        self.assertEqual(box.replied_tick(), [(3, 3, 2), *self.FULL])

    def test_where_nothing_changes_nothing_goes_out(self):
        for step in range(17):
            box = box_in_step(step, PARTIAL_SHEET)
            with self.subTest(step=step):
                for value in (0, 1, 0):
                    box.listen(value)
                    again = box.listen(value)
                    self.assertEqual((again.answer, again.records, again.count), (0, [], 0))

    def test_networks_in_the_order_of_the_sheet(self):
        for first, second in ((4, 5), (5, 16), (15, 4), (16, 15), (4, 6), (3, 5), (8, 15), (0, 16), (7, 8), (10, 9)):
            box = self.two_networks(first, second)
            online = [(3, 1), (3, 2)] * (first in self.ONLINE_STEPS) + [(3, 3)] * (second in self.ONLINE_STEPS)
            with self.subTest(first=first, second=second):
                self.assertEqual(box.listen(1).records, [(*record, 2) for record in online])
                self.assertEqual(box.listen(0).records, [(*record, 0) for record in online])

    def test_controllers_in_the_order_of_the_sheet(self):
        sheet = BENCH_SHEET[:4] + bytes.fromhex("0200011f 02000100 02000111 02000105") + BENCH_SHEET[8:]
        manager = box_in_step(5, sheet).manager
        self.assertEqual(manager.listen(1, 11).answer, 0x20)
        self.assertEqual(manager.listen(1, 12).records, [(3, 31, 2), (3, 0, 2), (3, 17, 2), (3, 5, 2)])

    def test_no_record_of_a_network_changes(self):
        for step in range(17):
            box = box_in_step(step, PARTIAL_SHEET)
            before = repr(box.network)
            with self.subTest(step=step):
                for value in (0, 1, 1, 0, 2):
                    box.listen(value)
                    self.assertEqual(repr(box.network), before)

    def test_answers_are_taken_over_it(self):
        """What was asked for before is answered after it, and counts."""
        box = box_in_step(3)
        box.listen()
        self.assertEqual(box.manager.controller_answer(3, 1, 1).answer, 0)
        box.listen(0)
        self.assertEqual(box.tick(), [(3, 3, 0), *self.FULL])

    def test_what_is_told_and_when_stays(self):
        for value in (0, 1):
            box = box_in_step(4)
            box.listen(value)
            self.assertEqual(box.manager.poll(7).mode, Mode.FULL)
            self.assertEqual([box.tick(), box.tick(), box.tick()], [[], [], [(8, 7, 0)]])
            self.assertEqual(box.bus_off().records, [(8, 7, 1), (6, 7, 1), (7, 7, 3)])
            self.assertEqual(replied_ticks_until_full(box), 4)
            self.assertEqual(box.stall().records, [(6, 7, 1)])
            self.assertEqual(replied_ticks_until_full(box), 3)

    def test_the_start_clears_it(self):
        manager = Manager.new()
        manager.read(BENCH_SHEET)
        manager.listening = True
        self.assertEqual(manager.start().answer, 0)
        self.assertFalse(manager.listening)

    def test_a_refused_start_leaves_it(self):
        manager = Manager.new()
        manager.listening = True
        self.assertEqual(manager.start().answer, 0x01)
        self.assertTrue(manager.listening)
        box = Box()
        box.listen()
        self.assertEqual(box.manager.start().answer, 0x0B)
        self.assertTrue(box.manager.listening)

    def test_every_other_call_leaves_it(self):
        for value in (False, True):
            manager = Manager.new()
            manager.listening = value
            for call in (lambda: manager.read(BENCH_SHEET), lambda: manager.read(b""), lambda: manager.write(25), lambda: manager.write(0)):
                call()
                self.assertEqual(manager.listening, value)
            box = box_in_step(4, PARTIAL_SHEET)
            box.listen(int(value))
            manager = box.manager
            for call in (
                lambda: manager.read(BENCH_SHEET), lambda: manager.write(99), manager.start, lambda: manager.request(9, 1),
                lambda: manager.poll(9), lambda: manager.tick(LARGE_BUFFER), lambda: manager.tick(0), lambda: manager.request(9, 2),
                lambda: manager.tick(LARGE_BUFFER), lambda: manager.stall(9, 3), lambda: manager.stall(9, 2), lambda: manager.bus_off(1, 9),
                lambda: manager.bus_off(1, 8), lambda: manager.controller_answer(1, 1, 1), lambda: manager.transceiver_mode(6, 0),
                lambda: manager.clear_done(6), lambda: manager.check_done(6), lambda: manager.listen(2, LARGE_BUFFER),
                lambda: manager.listen(1 - value, 5),
            ):
                call()
                self.assertEqual(manager.listening, value)

    def test_a_refusal_changes_nothing(self):
        for value in (0, 1):
            box = box_in_step(5)
            box.listen(value)
            before = repr(box.network)
            for refused in (box.manager.listen(1 - value, 2), box.manager.listen(2, 3), box.manager.listen(255, LARGE_BUFFER)):
                self.assertNotEqual(refused.answer, 0)
                self.assertEqual((refused.records, refused.count), ([], 0))
            self.assertEqual((repr(box.network), box.manager.listening), (before, value == 1))
            # the change itself still hands out its record
            self.assertEqual(box.listen(1 - value).records, [(3, 3, 2 * (1 - value))])

    def test_in_step_6_online_may_be_what_was_handed_last(self):
        """A bus-off first, and then listening: nothing goes out before TX offline does."""
        box = box_in_step(5)
        box.bus_off()
        self.assertEqual(box.listen().records, [])
        self.assertEqual(box.tick(), [(1, 3, 1)])
        self.assertEqual(box.replied_tick(), [(3, 3, 1)])
        self.assertEqual([box.tick(), box.tick()], [[], [(3, 3, 2), *self.FULL]])

    def test_lent_bytes(self):
        for length in (2, 3, 9):
            box = box_in_step(4)
            before = b"\xee" * length
            after = model.lent_bytes_after(before, box.manager.listen(1, length))
            self.assertEqual(after, before if length < 3 else bytes([3, 3, 2]) + before[3:])
            self.assertEqual(model.lent_bytes_after(before, box.manager.listen(1, length)), before)

    def test_the_event(self):
        events = "160000 120003030001 160000 120003030201 160000 1000020702 160000 120003030001 160000 120003030101 160000"
        lines = model.cantrace(BENCH_SHEET + bytes.fromhex(events + "19000101 19000101 19000102 190001ff 19000100 19000100")).splitlines()
        self.assertEqual(lines[-7:], ["11 0 3:3:0 6:7:2 7:7:2", "12 0 3:3:2", "13 0", "14 33", "15 33", "16 0 3:3:0", "17 0"])

    def test_the_event_before_the_network_is_up(self):
        events = "19000101 160000 120003030001 160000 120003030201 160000 1000020702 160000 120003030001 160000 120003030101 160000 19000100"
        lines = model.cantrace(BENCH_SHEET + bytes.fromhex(events)).splitlines()
        self.assertEqual((lines[1], lines[-2:]), ("1 0", ["12 0 3:3:2 6:7:2 7:7:2", "13 0 3:3:0"]))


class BothRules(unittest.TestCase):
    """S8, S27 and T13: the long delay above the threshold, or at it too where field 07 is there."""

    SHORT, LONG = 4, 7  # the delays of the bench sheet, 2 and 5, and two ticks

    def box(self, threshold, newer):
        sheet = BENCH_SHEET[:20] + bytes([threshold]) + BENCH_SHEET[21:]
        return box_in_step(5, sheet + (FIELD_07 if newer else b""))

    def recoveries(self, threshold, newer, number):
        """After each of so many bus-offs, with no passed between two, how many ticks until full."""
        box = self.box(threshold, newer)
        found = []
        for _ in range(number):
            box.bus_off()
            found.append(replied_ticks_until_full(box))
        return found

    def test_below_at_and_above_the_threshold(self):
        short, long = self.SHORT, self.LONG
        self.assertEqual(self.recoveries(2, False, 3), [short, short, long])
        self.assertEqual(self.recoveries(2, True, 3), [short, long, long])
        self.assertEqual(self.recoveries(1, False, 2), [short, long])
        self.assertEqual(self.recoveries(1, True, 2), [long, long])
        self.assertEqual(self.recoveries(4, False, 5), [short, short, short, short, long])
        self.assertEqual(self.recoveries(4, True, 5), [short, short, short, long, long])

    def test_threshold_0_brings_the_long_delay_by_both(self):
        self.assertEqual(self.recoveries(0, False, 2), [self.LONG, self.LONG])
        self.assertEqual(self.recoveries(0, True, 2), [self.LONG, self.LONG])

    def test_the_greatest_threshold_and_the_greatest_count(self):
        for newer, long_from in ((False, 255), (True, 254)):
            box = self.box(254, newer)
            for number in range(1, 301):
                box.bus_off()
                box.tick_until(7)
                count = min(number, 255)
                self.assertEqual(box.network.bus_off_count, count)
                self.assertEqual(model.brings_long_delay(box.network.settings, count), count >= long_from)
            self.assertEqual(replied_ticks_until_full(box), 5)

    def test_full_on_just_that_tick_at_the_greatest_threshold(self):
        for newer, count, ticks in (
            (True, 253, self.SHORT), (True, 254, self.LONG), (True, 255, self.LONG), (False, 254, self.SHORT), (False, 255, self.LONG),
        ):
            box = self.box(254, newer)
            box.network.bus_off_count = count - 1
            box.bus_off()
            with self.subTest(newer=newer, count=count):
                self.assertEqual(replied_ticks_until_full(box), ticks)

    def test_every_threshold_and_every_count(self):
        for threshold in range(255):
            older, newer = (model.Settings(7, [3], threshold=threshold, relation=relation) for relation in Relation)
            for count in range(256):
                self.assertEqual(model.brings_long_delay(older, count), count > threshold)
                self.assertEqual(model.brings_long_delay(newer, count), count >= threshold)

    def test_passed_counts_from_0_again(self):
        box = self.box(2, True)
        for expected in (self.SHORT, self.LONG):
            box.bus_off()
            self.assertEqual(replied_ticks_until_full(box), expected)
        box.tick_until(5)
        box.bus_off()
        self.assertEqual(replied_ticks_until_full(box), self.SHORT)

    def test_a_report_in_step_6_is_not_counted_by_the_newer_rule_either(self):
        box = self.box(2, True)
        for _ in range(3):
            box.bus_off()
        self.assertEqual(replied_ticks_until_full(box), self.SHORT)

    def test_each_network_goes_by_its_own_rule(self):
        for sheet, expected in (
            (BENCH_SHEET + SECOND_SHEET + FIELD_07, {7: self.SHORT, 8: self.LONG}),
            (BENCH_SHEET + FIELD_07 + SECOND_SHEET, {7: self.LONG, 8: self.SHORT}),
        ):
            box = Box(sheet)
            for handle in (7, 8):
                box.manager.request(handle, Mode.FULL)
            box.tick_until(5)
            self.assertEqual([box.manager.poll(handle).mode for handle in (7, 8)], [Mode.FULL] * 2)
            box.records = []
            for controller in (3, 4):
                self.assertEqual(box.manager.bus_off(controller, 9).count, 3)
            told = {}
            for number in range(1, 8):
                told.update({target: number for kind, target, mode in box.replied_tick() if (kind, mode) == (Kind.COMMUNICATION_MANAGER, Mode.FULL)})
            self.assertEqual(told, expected)

    def test_stored_calls_have_full_on_just_that_tick(self):
        """The first six runs of them poll before the tick that ends a delay, and after it."""
        for number, case in enumerate(manager_cases.AT_THE_THRESHOLD[:6], start=1):
            manager = Manager.new()
            outcomes = [(call, manager_cases.outcome_of(manager, call)) for call in case if call != ("new",)]
            polled = [outcome.mode for call, outcome in outcomes if call == ("poll", 7)]
            with self.subTest(number=number):
                self.assertEqual({outcome.answer for _, outcome in outcomes}, {0})
                self.assertEqual((set(polled[::2]), set(polled[1::2])), ({Mode.SILENT}, {Mode.FULL}))

    def test_nothing_else_goes_by_the_rule(self):
        """A life without a bus-off at the threshold is the same by both, call by call."""
        for threshold, falls in ((0, 1), (4, 2), (6, 4)):
            lives = []
            for newer in (False, True):
                box = self.box(threshold, newer)
                answers = []
                for _ in range(falls):
                    answers.append(box.bus_off())
                    answers += [box.replied_tick() for _ in range(8 if threshold == 0 else 5)]
                for call in (box.stall, lambda: box.manager.request(7, 1), box.bus_off, lambda: box.manager.request(7, 0)):
                    answers += [call(), box.replied_tick()]
                lives.append(answers)
            self.assertEqual(*lives)


class Decisions(unittest.TestCase):
    """The 1,224 next steps."""

    def test_number_and_order(self):
        situations = list(model.situations())
        self.assertEqual(len(situations), 1224)
        self.assertEqual(len(set(situations)), 1224)
        self.assertEqual(situations[0], (0, 0, True, True, True, 0))
        self.assertEqual(situations[1], (0, 0, True, True, True, 1))
        self.assertEqual(situations[3], (0, 0, True, True, False, 0))
        self.assertEqual(situations[6], (0, 0, True, False, True, 0))
        self.assertEqual(situations[12], (0, 0, False, True, True, 0))
        self.assertEqual(situations[24], (0, 1, True, True, True, 0))
        self.assertEqual(situations[72], (1, 0, True, True, True, 0))
        self.assertEqual(situations[1079], (14, 2, False, False, False, 2))
        self.assertEqual(situations[1080], (15, 0, True, True, True, 0))
        self.assertEqual(situations[1223], (16, 2, False, False, False, 2))
        self.assertEqual(len(list(model.decisions())), 1224)

    def row(self, step, wanted, done=False, refusal=False, reached=False):
        """The next steps of the three outfits."""
        return [model.next_step(step, wanted, done, refusal, reached, outfit) for outfit in range(3)]

    def test_from_no_communication(self):
        self.assertEqual(self.row(0, Mode.FULL), [2, 1, 1])
        self.assertEqual(self.row(0, Mode.SILENT), [0, 0, 0])
        self.assertEqual(self.row(0, Mode.NO, True, True, True), [0, 0, 0])

    def test_wanted_no_comes_first(self):
        for step in (1, 2, 3, *UP_STEPS):
            self.assertEqual(self.row(step, Mode.NO, True, True, True), [10, 10, 9])

    def test_up(self):
        for wanted in (Mode.SILENT, Mode.FULL):
            self.assertEqual(self.row(1, wanted, done=True), [2, 2, 2])
            self.assertEqual(self.row(2, wanted, done=True), [3, 3, 3])
            self.assertEqual(self.row(3, wanted, done=True), [4, 4, 4])
            self.assertEqual(self.row(6, wanted, done=True), [7, 7, 7])
            self.assertEqual(self.row(15, wanted, done=True), [16, 16, 16])
            for step in (1, 2, 3, 6, 15, 16):
                self.assertEqual(self.row(step, wanted, False, True, True), [step] * 3)
        self.assertEqual(self.row(16, Mode.SILENT, done=True), [8, 8, 8])
        self.assertEqual(self.row(16, Mode.FULL, done=True), [4, 4, 4])
        self.assertEqual(self.row(4, Mode.SILENT, reached=True), [8, 8, 8])
        self.assertEqual(self.row(4, Mode.FULL, reached=True), [5, 5, 5])
        self.assertEqual(self.row(4, Mode.FULL, True, True, False), [4, 4, 4])
        self.assertEqual(self.row(5, Mode.SILENT), [8, 8, 8])
        self.assertEqual(self.row(5, Mode.FULL, True, True, True), [5, 5, 5])
        self.assertEqual(self.row(7, Mode.SILENT, reached=True), [8, 8, 8])
        self.assertEqual(self.row(7, Mode.FULL, reached=True), [4, 4, 4])
        self.assertEqual(self.row(7, Mode.FULL, True, True, False), [7, 7, 7])
        self.assertEqual(self.row(8, Mode.FULL), [4, 4, 4])
        self.assertEqual(self.row(8, Mode.SILENT, True, True, True), [8, 8, 8])

    def test_down(self):
        for wanted in (Mode.NO, Mode.SILENT, Mode.FULL):
            self.assertEqual(self.row(9, wanted, done=True), [9, 9, 10])
            self.assertEqual(self.row(10, wanted, done=True), [12, 12, 11])
            self.assertEqual(self.row(11, wanted, done=True), [0, 0, 12])
            self.assertEqual(self.row(12, wanted, done=True), [0, 11, 13])
            self.assertEqual(self.row(12, wanted, done=True, refusal=True), [0, 11, 14])
            self.assertEqual(self.row(12, wanted, refusal=True), [12, 12, 14])
            self.assertEqual(self.row(13, wanted, done=True), [13, 13, 0])
            self.assertEqual(self.row(14, wanted, done=True), [14, 14, 9])
            for step in (9, 10, 11, 12, 13, 14):
                self.assertEqual(self.row(step, wanted, reached=True), [step] * 3)

    def test_a_refusal_matters_in_step_12_with_partial_networking_alone(self):
        for step, wanted, done, refusal, reached, outfit in model.situations():
            if (step, outfit) != (12, Outfit.PARTIAL_NETWORKING):
                with_refusal = model.next_step(step, wanted, done, True, reached, outfit)
                without = model.next_step(step, wanted, done, False, reached, outfit)
                self.assertEqual(with_refusal, without)


class RandomHistories(unittest.TestCase):
    """What holds after every call, tried on many random calls from fixed seeds."""

    HANDLES = (7, 9, 20, 3)
    CONTROLLERS = (1, 2, 3, 10, 4)
    TRANSCEIVERS = (6, 2, 1)
    SHEET = (
        BENCH_SHEET + PARTIAL_SHEET
        + bytes.fromhex("01000114 0200010a 03000102 040006000300010001 05000100 06000100")
    )

    def random_call(self, manager, chance):
        choice = chance.randrange(15)
        if choice < 4:
            return manager.tick(chance.choice((29, 30, 31, 144)))
        if choice < 8:
            return manager.controller_answer(
                chance.choice(self.CONTROLLERS), chance.randrange(3), chance.choice((1, 1, 1, 0)))
        if choice == 8:
            return manager.request(chance.choice(self.HANDLES), chance.choice((0, 1, 2, 2, 2)))
        if choice == 9:
            return manager.transceiver_mode(chance.choice(self.TRANSCEIVERS), chance.randrange(3))
        if choice == 10:
            done = chance.choice((manager.clear_done, manager.check_done))
            return done(chance.choice(self.TRANSCEIVERS))
        if choice == 11:
            return manager.stall(chance.choice(self.HANDLES), chance.choice((2, 3)))
        if choice in (12, 13):
            return manager.listen(chance.choice((0, 1, 1, 2)), chance.choice((11, 12, 144)))
        return manager.bus_off(chance.choice(self.CONTROLLERS), chance.choice((8, 9)))

    def check_network(self, network):
        if network.wanted == Mode.SILENT:
            self.assertIn(network.step, UP_STEPS)
        self.assertEqual(network.told == Mode.FULL, network.step in (4, 5))
        if network.step in (0, 4, 5, 7, 8):
            self.assertFalse(network.asked or network.reported)
            self.assertEqual(network.answers, [None] * len(network.settings.controllers))
        if network.step not in (4, 7):
            self.assertEqual(network.tick_count, 0)

    def check_online(self, manager, last_handed):
        """L6: what each controller was handed last of kind 3, in the steps that speak of it."""
        for network in manager.networks:
            if network.step in (4, 5, 15, 16):
                for controller in network.settings.controllers:
                    self.assertEqual(last_handed[controller], 2 if manager.listening else 0)

    def test_invariants(self):
        steps_seen, changes = set(), set()
        for seed in range(100):
            chance = random.Random(seed)
            manager = Manager.new()
            self.assertEqual(manager.read(self.SHEET).count, 3)
            manager.start()
            last_handed = {}
            for _ in range(400):
                before, listened = repr(manager.networks), manager.listening
                outcome = self.random_call(manager, chance)
                self.assertEqual(outcome.count, len(outcome.records))
                if outcome.answer != 0:
                    self.assertEqual((repr(manager.networks), manager.listening), (before, listened))
                    self.assertEqual((outcome.records, outcome.count), ([], 0))
                for kind, target, argument in outcome.records:
                    if kind == Kind.PDU_MODE:
                        last_handed[target] = argument
                        self.assertNotEqual(argument, 0 if manager.listening else 2)
                self.check_online(manager, last_handed)
                for network in manager.networks:
                    self.check_network(network)
                    steps_seen.add(network.step)
                    if manager.listening != listened:
                        changes.add((network.step, manager.listening))
        self.assertEqual(steps_seen, set(range(17)))
        self.assertEqual(changes, {(step, listening) for step in range(17) for listening in (False, True)})


if __name__ == "__main__":
    unittest.main()
