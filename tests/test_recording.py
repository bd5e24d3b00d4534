#!/usr/bin/env python3
"""Checks `tools/recording`: scripts to bytes, bytes to scripts, and the output of cantrace in words.

The bytes that a form has to give are written here in hexadecimal or made by the model; outputs to be explained are the stored
ones or the model's. The program `cantrace` is not needed.
"""

import os
import re
import subprocess
import sys
import tempfile
import unittest
from collections import Counter
from pathlib import Path
from random import Random

import batches
import examples
import model
import random_traces
import trace_cases
from model import EventTag, Refusal, Relation, Tag
from traces import LARGEST, LARGEST_BY_THE_NEWER_RULE, SHEET, TICK, WHOLE_CASE, Trace, by_the_newer_rule, field, network

sys.path.append(str(examples.ROOT / "tools"))

from recording_explain import explain  # found by the line above
from recording_output import NotItsOutput
from recording_script import ScriptError, recording_of, script_of

COMMAND = examples.ROOT / "tools" / "recording"
CASES = trace_cases.all_cases()
STORED_OUTPUTS = batches.split_outputs((trace_cases.PRODUCT_FOLDER / "stdout").read_text(encoding="ascii"))
SEED = 3
SHEET_LINE = "network 7 controllers 3 delays 2 5 3 threshold 1"
AT_THE_THRESHOLD = "long-delay at the threshold"


def written(script):
    """The bytes of a script that is given as text."""
    return recording_of(script.encode("utf-8"))


def run(*arguments, data=b"", folder=None):
    """Run the command itself."""
    command = [sys.executable, str(COMMAND), *arguments]
    return subprocess.run(command, input=data, capture_output=True, cwd=folder, timeout=60, check=False)


# ---------------------------------------------------------------------------
# Both ways
# ---------------------------------------------------------------------------


def random_fields(random):
    """Fields of all tags, most of them with the right length, some cut."""
    data = b""
    for _ in range(random.randint(0, 12)):
        tag = random.choice((*model.LENGTH_OF_TAG, *model.LENGTH_OF_EVENT, random.randrange(256)))
        right = model.LENGTH_OF_TAG.get(tag, model.LENGTH_OF_EVENT.get(tag, 0))
        length = random.choice((right, right, right, right, right, right, random.randrange(4), 300))
        data += field(tag, *(random.choice((0, 1, 2, 3, 255, random.randrange(256))) for _ in range(length)))
    return data[:random.choice((len(data), len(data), random.randint(0, len(data))))]


class BothWaysTest(unittest.TestCase):
    """Any bytes become a script that stands for just these bytes, and this script is the only one that reading gives."""

    def check(self, data):
        script = script_of(data)
        self.assertEqual(written(script), data)
        self.assertEqual(script_of(written(script)), script)

    def test_stored_cases(self):
        self.assertEqual(len(CASES), len(STORED_OUTPUTS))
        for case in CASES:
            with self.subTest(case.name):
                self.check(case.data)

    def test_short_strings(self):
        self.check(b"")
        for first in range(256):
            self.check(bytes([first]))
            self.check(bytes([first, 0, 0]))
            self.check(bytes([first, 0, 1, 255 - first]))
            self.check(SHEET + bytes([first, 0]))

    def test_every_value_of_every_field(self):
        for tag, length in {**model.LENGTH_OF_TAG, **model.LENGTH_OF_EVENT}.items():
            for place in range(length):
                for number in range(256):
                    self.check(field(tag, *(number if index == place else 1 for index in range(length))))

    def test_field_07_at_every_place(self):
        """Before and after each field of two networks, with every value; twice in a row, cut, and of other lengths."""
        whole = [SHEET[:4], SHEET[4:8], SHEET[8:17], SHEET[17:21], SHEET[21:]]
        for place in range(11):
            before, after = b"".join((whole * 2)[:place]), b"".join((whole * 2)[place:])
            for number in range(256):
                self.check(before + field(Tag.RELATION, number) + after)
            for other in ("07", "0700", "070001", "070000", "0700020101", "07000101 07000101", "07000101 07000100", "07000102 07000101"):
                self.check(before + bytes.fromhex(other))
                self.check(before + bytes.fromhex(other) + after)

    def test_random_strings(self):
        random = Random(SEED)
        for _ in range(600):
            self.check(random.randbytes(random.randrange(80)))
            self.check(random_fields(random))
            self.check(SHEET + random_fields(random))

    def test_random_traces(self):
        random = Random(SEED)
        for _ in range(150):
            self.check(random_traces.Driver(random).run(60))

    def test_longer_than_the_program_takes(self):
        self.check(Random(SEED).randbytes(70000))
        self.check(SHEET + TICK * 30000)
        self.check(SHEET + (field(9) + TICK) * 12000)


class FewRawBytesTest(unittest.TestCase):
    """What has a form is read as its form."""

    def test_good_traces_have_no_raw_bytes(self):
        random = Random(SEED)
        for _ in range(50):
            self.assertNotIn("bytes", script_of(random_traces.Driver(random).run(40)))

    def test_a_good_trace_has_a_line_for_each_network_and_event(self):
        for case, output in zip(CASES, STORED_OUTPUTS):
            lines = output.splitlines()
            if lines[0].startswith("config 0 ") and not lines[-1].startswith("stop"):
                forms = [line for line in script_of(case.data).splitlines() if line]
                networks = [line for line in forms if line.startswith("network ")]
                self.assertEqual(f"config 0 {len(networks)}", lines[0])
                self.assertEqual(len(forms) - len(networks), len(lines) - 1)

    def test_raw_bytes_are_bad_fields_only(self):
        script = script_of(bytes.fromhex("09000100 01000107 16000101 160000 1000020702 1600"))
        expected = "bytes 09 00 01 00  # unknown tag\nhandle 7\n\nbytes 16 00 01 01  # wrong length\ntick\nwant 7 full\nbytes 16 00  # cut field\n"
        self.assertEqual(script, expected)

    def test_long_raw_bytes_are_broken(self):
        lines = script_of(field(9, *range(30))).splitlines()
        self.assertEqual(lines[0], "bytes 09 00 1e 00 01 02 03 04 05 06 07 08 09 0a 0b 0c  # unknown tag")
        self.assertEqual(lines[2], "bytes 1d")

    def test_largest_sheet(self):
        lines = script_of(model.write_sheet(LARGEST)).splitlines()
        self.assertEqual(lines[1], "network 254 controllers 4 5 6 7 transceiver 6 delays 2 3 2 threshold 1 partial")
        self.assertEqual(len(lines), 8)
        newer = script_of(model.write_sheet(LARGEST_BY_THE_NEWER_RULE)).splitlines()
        self.assertEqual(newer, [f"{line} {AT_THE_THRESHOLD}" for line in lines])


# ---------------------------------------------------------------------------
# The forms
# ---------------------------------------------------------------------------

# A line, the bytes that it stands for, and the line that reading gives where it is another one.
FORMS = [
    (SHEET_LINE, "01000107 02000103 040006000200050003 05000101 06000100"),
    ("network 9 controllers 1 2 transceiver 4 delays 2 5 3 threshold 1 partial",
     "01000109 02000101 02000102 03000104 040006000200050003 05000101 06000101"),
    ("network 9 controllers 1 transceiver 4 delays 2 5 3 threshold 1",
     "01000109 02000101 03000104 040006000200050003 05000101 06000100"),
    ("network 9 controllers 1 delays 2 5 3 threshold 1 partial", "01000109 02000101 040006000200050003 05000101 06000101"),
    ("network 0 controllers 0 1 2 3 4 delays 0 65535 258 threshold 255 partial 2",
     "01000100 02000100 02000101 02000102 02000103 02000104 0400060000ffff0102 050001ff 06000102"),
    ("network 255 controllers 255 255 transceiver 255 delays 1 1 1 threshold 0 partial 255",
     "010001ff 020001ff 020001ff 030001ff 040006000100010001 05000100 060001ff"),
    ("network 7 controllers 3 delays 2 5 3 threshold 1 partial 0", "01000107 02000103 040006000200050003 05000101 06000100", SHEET_LINE),
    ("network 7 controllers 3 delays 2 5 3 threshold 1 partial 1", "01000107 02000103 040006000200050003 05000101 06000101",
     SHEET_LINE + " partial"),
    (f"{SHEET_LINE} {AT_THE_THRESHOLD}", "01000107 02000103 040006000200050003 05000101 06000100 07000101"),
    (f"network 9 controllers 1 2 transceiver 4 delays 2 5 3 threshold 1 partial {AT_THE_THRESHOLD}",
     "01000109 02000101 02000102 03000104 040006000200050003 05000101 06000101 07000101"),
    (f"{SHEET_LINE} partial 0 long-delay 1", "01000107 02000103 040006000200050003 05000101 06000100 07000101", f"{SHEET_LINE} {AT_THE_THRESHOLD}"),
    (f"{SHEET_LINE} long-delay 0", "01000107 02000103 040006000200050003 05000101 06000100 07000100"),
    (f"{SHEET_LINE} partial 2 long-delay 255", "01000107 02000103 040006000200050003 05000101 06000102 070001ff"),
    ("long-delay 0", "07000100"),
    (AT_THE_THRESHOLD, "07000101"),
    ("long-delay 1", "07000101", AT_THE_THRESHOLD),
    ("long-delay 001", "07000101", AT_THE_THRESHOLD),
    ("long-delay 2", "07000102"),
    ("long-delay 255", "070001ff"),
    ("bytes 07 00 01 01", "07000101", AT_THE_THRESHOLD),
    ("bytes 07 00 00", "070000", "bytes 07 00 00  # wrong length"),
    ("bytes 07 00 01", "070001", "bytes 07 00 01  # cut field"),
    ("bytes 08 00 01 01", "08000101", "bytes 08 00 01 01  # unknown tag"),
    ("handle 7", "01000107"),
    ("controller 32", "02000120"),
    ("transceiver 8", "03000108"),
    ("delays 1 256 65535", "04000600010100ffff"),
    ("threshold 255", "050001ff"),
    ("partial 0", "06000100"),
    ("partial", "06000101"),
    ("partial 1", "06000101", "partial"),
    ("partial 2", "06000102"),
    ("want 7 no", "1000020700"),
    ("want 7 silent", "1000020701"),
    ("want 7 full", "1000020702"),
    ("want 255 mode 5", "100002ff05"),
    ("want 7 mode 2", "1000020702", "want 7 full"),
    ("bus-off 3", "11000103"),
    ("bus-off 255", "110001ff"),
    ("answer 3 stopped refused", "120003030000"),
    ("answer 3 started ok", "120003030101"),
    ("answer 31 sleep ok", "1200031f0201"),
    ("answer 3 mode 7 value 2", "120003030702"),
    ("answer 3 mode 5 ok 2", "120003030502", "answer 3 mode 5 value 2"),
    ("answer 3 mode 255 ok", "12000303ff01"),
    ("answer 3 sleep value 255", "1200030302ff"),
    ("answer 3 mode 1 value 0", "120003030100", "answer 3 started refused"),
    ("answer 3 started ok 0", "120003030100", "answer 3 started refused"),
    ("transceiver-mode 4 normal", "1300020400"),
    ("transceiver-mode 4 standby", "1300020401"),
    ("transceiver-mode 4 mode 2", "1300020402"),
    ("clear-done 4", "14000104"),
    ("check-done 4", "15000104"),
    ("tick", "160000"),
    ("poll 7", "17000107"),
    ("poll 007", "17000107", "poll 7"),
    ("stall 7", "18000107"),
    ("stall 255", "180001ff"),
    ("stall 000", "18000100", "stall 0"),
    ("listen on", "19000101"),
    ("listen off", "19000100"),
    ("listen 2", "19000102"),
    ("listen 255", "190001ff"),
    ("listen 1", "19000101", "listen on"),
    ("listen 000", "19000100", "listen off"),
    ("bytes 09 00 01 ff", "090001ff", "bytes 09 00 01 ff  # unknown tag"),
    ("bytes 09 00 01 FF", "090001ff", "bytes 09 00 01 ff  # unknown tag"),
    ("bytes 16", "16", "bytes 16  # cut field"),
    ("bytes 16 00 00", "160000", "tick"),
    ("bytes 17 00 00", "170000", "bytes 17 00 00  # wrong length"),
    ("bytes 18 00 01 07", "18000107", "stall 7"),
    ("bytes 18 00 00", "180000", "bytes 18 00 00  # wrong length"),
    ("bytes 18 00 01", "180001", "bytes 18 00 01  # cut field"),
    ("bytes 19 00 01 01", "19000101", "listen on"),
    ("bytes 19 00 01 07", "19000107", "listen 7"),
    ("bytes 19 00 00", "190000", "bytes 19 00 00  # wrong length"),
    ("bytes 19 00 01", "190001", "bytes 19 00 01  # cut field"),
    ("bytes 1a 00 01 07", "1a000107", "bytes 1a 00 01 07  # unknown tag"),
]

# Whole scripts, and their bytes.
LAYOUTS = [
    ("", ""),
    ("\n\n   \n\t\n", ""),
    ("# only a comment", ""),
    ("tick", "160000"),
    ("  tick  # a comment # and more\n\n#tick\ntick#\n", "160000160000"),
    ("\tpoll\t 7\t\n", "17000107"),
    ("tick\r\npoll 7\r\n", "16000017000107"),
    ("tick\r\n\r\n# one\r\ntick", "160000160000"),
    ("\ufefftick\n", "160000"),
    ("tick # \u00e4 \u1234\n", "160000"),
    ("bytes 16\nbytes 00 00\n", "160000"),
    (f"{SHEET_LINE}\n{AT_THE_THRESHOLD}\n", "01000107 02000103 040006000200050003 05000101 06000100 07000101"),
    ("long-delay\tat  the \t threshold # and above it\n", "07000101"),
    ("tick\nhandle 7\nnetwork 1 controllers 2 delays 1 1 1 threshold 0\n", "160000 01000107 01000101 02000102 040006000100010001 05000100 06000100"),
]


class FormsTest(unittest.TestCase):
    """Each form of the language, both ways."""

    def test_each_form(self):
        for line, data, *other in FORMS:
            with self.subTest(line):
                self.assertEqual(written(line + "\n").hex(), data.replace(" ", ""))
                self.assertEqual(script_of(bytes.fromhex(data)), (other[0] if other else line) + "\n")

    def test_layout_of_scripts(self):
        for script, data in LAYOUTS:
            with self.subTest(script):
                self.assertEqual(written(script), bytes.fromhex(data))

    def test_every_field_has_a_form(self):
        first_bytes = {bytes.fromhex(data)[0] for line, data, *_ in FORMS if not line.startswith(("bytes", "network"))}
        self.assertEqual(first_bytes, {*model.LENGTH_OF_TAG, *model.LENGTH_OF_EVENT})

    def test_field_07_belongs_to_the_network_before_it(self):
        newer = field(Tag.RELATION, 1)
        line = f"{SHEET_LINE} {AT_THE_THRESHOLD}"
        self.assertEqual(script_of(SHEET + newer + SHEET + newer + newer), f"{line}\n{line}\n{AT_THE_THRESHOLD}\n")
        self.assertEqual(script_of(newer + SHEET + SHEET + newer + TICK), f"{AT_THE_THRESHOLD}\n{SHEET_LINE}\n{line}\n\ntick\n")
        self.assertEqual(script_of(SHEET[:21] + newer), "handle 7\ncontroller 3\ndelays 2 5 3\nthreshold 1\nlong-delay at the threshold\n")

    def test_sheet_and_events_stand_apart(self):
        self.assertEqual(script_of(SHEET + SHEET + TICK + TICK + SHEET), f"{SHEET_LINE}\n{SHEET_LINE}\n\ntick\ntick\n\n{SHEET_LINE}\n")


def random_mode(random, words):
    """A mode: a word and its number, or a number."""
    if random.random() < 0.7:
        return random.choice(list(words.items()))
    number = random.randrange(256)
    return f"mode {number}", number


def random_network(random):
    """A network line with numbers from the whole ranges, and its bytes by the model."""
    ids = [random.randrange(256) for _ in range(random.randint(1, 6))]
    transceiver = random.choice((None, random.randrange(256)))
    times = [random.choice((0, 1, 255, 256, 65535, random.randrange(65536))) for _ in range(3)]
    handle, threshold, partial = random.randrange(256), random.randrange(256), random.choice((0, 1, 7))
    words = ["network", handle, "controllers", *ids]
    words += [] if transceiver is None else ["transceiver", transceiver]
    words += ["delays", *times, "threshold", threshold] + {0: [], 1: ["partial"], 7: ["partial", 7]}[partial]
    relation = random.choice(tuple(Relation))
    words += {Relation.ABOVE: [], Relation.AT_OR_ABOVE: AT_THE_THRESHOLD.split()}[relation]
    return " ".join(map(str, words)), model.write_network(model.Settings(handle, ids, transceiver, *times, threshold, partial, relation))


TAGS_WITH_ONE_NUMBER = {
    "bus-off": EventTag.BUS_OFF,
    "clear-done": EventTag.CLEAR_DONE,
    "check-done": EventTag.CHECK_DONE,
    "poll": EventTag.POLL,
    "stall": EventTag.STALL,
}


def random_line(random):
    """A line of a script, and its bytes by the model."""
    number = random.randrange(256)
    name = random.choice(("network", "want", "answer", "transceiver-mode", *TAGS_WITH_ONE_NUMBER, "listen", "tick", "bytes"))
    if name == "network":
        return random_network(random)
    if name == "want":
        words, mode = random_mode(random, {"no": 0, "silent": 1, "full": 2})
        return f"want {number} {words}", field(EventTag.REQUEST, number, mode)
    if name == "answer":
        words, mode = random_mode(random, {"stopped": 0, "started": 1, "sleep": 2})
        result, value = random.choice((("ok", 1), ("refused", 0), (f"value {number}", number)))
        return f"answer {number} {words} {result}", field(EventTag.CONTROLLER_ANSWER, number, mode, value)
    if name == "transceiver-mode":
        words, mode = random_mode(random, {"normal": 0, "standby": 1})
        return f"transceiver-mode {number} {words}", field(EventTag.TRANSCEIVER_MODE, number, mode)
    if name == "listen":
        words, value = random.choice((("on", 1), ("off", 0), (f"{number}", number)))
        return f"listen {words}", field(EventTag.LISTEN, value)
    if name == "tick":
        return name, TICK
    if name == "bytes":
        data = random.randbytes(random.randint(1, 20))
        return f"bytes {data.hex(' ')}", data
    return f"{name} {number}", field(TAGS_WITH_ONE_NUMBER[name], number)


class RandomScriptsTest(unittest.TestCase):
    """Random scripts with random blanks and comments, against the model's own fields."""

    def test_random_scripts(self):
        random = Random(SEED)
        for _ in range(400):
            script, expected = "", b""
            for _ in range(random.randrange(15)):
                line, data = random_line(random)
                blank = random.choice((" ", "  ", "\t"))
                script += random.choice(("", blank)) + line.replace(" ", blank) + random.choice(("", blank, "# tick", " # want 7 ever"))
                script += random.choice(("\n", "\r\n", "\n\n", "\n# poll\n"))
                expected += data
            self.assertEqual(written(script), expected)
            self.assertEqual(written(script_of(expected)), expected)


# ---------------------------------------------------------------------------
# Bad scripts
# ---------------------------------------------------------------------------

A_BYTE = "a number from 0 to 255"
TWO_BYTES = "a number from 0 to 65535"

# A bad line, and why it is refused.
BAD_LINES = [
    ("want 7 fulll", "'fulll' is no mode: no, silent or full"),
    ("want 7 2", "'2' is no mode: no, silent or full"),
    ("want 7 Full", "'Full' is no mode: no, silent or full"),
    ("want 7", "the mode is missing: no, silent or full"),
    ("want 7 mode", f"the mode is missing: {A_BYTE}"),
    ("want 7 mode 256", f"'256' is no mode: {A_BYTE}"),
    ("want", f"the handle is missing: {A_BYTE}"),
    ("want seven full", f"'seven' is no handle: {A_BYTE}"),
    ("want 256 full", f"'256' is no handle: {A_BYTE}"),
    ("want -1 full", f"'-1' is no handle: {A_BYTE}"),
    ("want 0x7 full", f"'0x7' is no handle: {A_BYTE}"),
    ("want 1_0 full", f"'1_0' is no handle: {A_BYTE}"),
    ("want \u0663 full", f"'\u0663' is no handle: {A_BYTE}"),
    ("want 7 full now", "'now' is too much: the line is complete before it"),
    ("want " + "9" * 5000 + " full", f"'{'9' * 40}...' is no handle: {A_BYTE}"),
    ("answer 3 running ok", "'running' is no controller mode: stopped, started or sleep"),
    ("answer 3 stopped yes", "'yes' is no result: ok or refused"),
    ("answer 3 stopped 1", "'1' is no result: ok or refused"),
    ("answer 3 stopped", "the result is missing: ok or refused"),
    ("answer 3 stopped value", f"the result is missing: {A_BYTE}"),
    ("answer 3 stopped ok 256", f"'256' is no result: {A_BYTE}"),
    ("answer 3 stopped ok 1 1", "'1' is too much: the line is complete before it"),
    ("answer 3 stopped refused 0", "'0' is too much: the line is complete before it"),
    ("answer 3", "the controller mode is missing: stopped, started or sleep"),
    ("answer x stopped ok", f"'x' is no controller id: {A_BYTE}"),
    ("bus-off", f"the controller id is missing: {A_BYTE}"),
    ("bus-off 3 4", "'4' is too much: the line is complete before it"),
    ("busoff 3", "no line begins with 'busoff': --help shows the forms"),
    ("transceiver-mode 4 sleep", "'sleep' is no transceiver mode: normal or standby"),
    ("clear-done x", f"'x' is no transceiver id: {A_BYTE}"),
    ("check-done 300", f"'300' is no transceiver id: {A_BYTE}"),
    ("poll", f"the handle is missing: {A_BYTE}"),
    ("stall", f"the handle is missing: {A_BYTE}"),
    ("stall 256", f"'256' is no handle: {A_BYTE}"),
    ("stall 7 full", "'full' is too much: the line is complete before it"),
    ("stalled 7", "no line begins with 'stalled': --help shows the forms"),
    ("listen", f"the value to listen is missing: on, off or {A_BYTE}"),
    ("listen yes", f"'yes' is no value to listen: on, off or {A_BYTE}"),
    ("listen On", f"'On' is no value to listen: on, off or {A_BYTE}"),
    ("listen 256", f"'256' is no value to listen: {A_BYTE}"),
    ("listen 1x", f"'1x' is no value to listen: {A_BYTE}"),
    ("listen on 7", "'7' is too much: the line is complete before it"),
    ("listen 7 on", "'on' is too much: the line is complete before it"),
    ("listening on", "no line begins with 'listening': --help shows the forms"),
    ("tick 3", "'3' is too much: the line is complete before it"),
    ("Tick", "no line begins with 'Tick': --help shows the forms"),
    ("tick\u00a0", "no line begins with 'tick\\xa0': --help shows the forms"),
    ("tick\rtick", "no line begins with 'tick\\rtick': --help shows the forms"),
    ("7 full", "no line begins with '7': --help shows the forms"),
    ("network", f"the handle is missing: {A_BYTE}"),
    ("network 7", "'controllers' is missing"),
    ("network 7 controller 3", "'controller' stands where 'controllers' is expected"),
    ("network 7 controllers", f"the controller id is missing: {A_BYTE}"),
    ("network 7 controllers delays 2 5 3 threshold 1", f"'delays' is no controller id: {A_BYTE}"),
    ("network 7 controllers 3 256 delays 2 5 3 threshold 1", f"'256' is no controller id: {A_BYTE}"),
    ("network 7 controllers 3 4x delays 2 5 3 threshold 1", f"'4x' is no controller id: {A_BYTE}"),
    ("network 7 controllers 3", "'delays' is missing"),
    ("network 7 controllers 3 threshold 1", "'threshold' stands where 'delays' is expected"),
    ("network 7 controllers 3 partial delays 2 5 3 threshold 1", "'partial' stands where 'delays' is expected"),
    ("network 7 controllers 3 transceiver delays 2 5 3 threshold 1", f"'delays' is no transceiver id: {A_BYTE}"),
    ("network 7 controllers 3 delays 2 5 threshold 1", f"'threshold' is no ensure time: {TWO_BYTES}"),
    ("network 7 controllers 3 delays 65536 5 3 threshold 1", f"'65536' is no short delay: {TWO_BYTES}"),
    ("network 7 controllers 3 delays 2 5.0 3 threshold 1", f"'5.0' is no long delay: {TWO_BYTES}"),
    ("network 7 controllers 3 delays 2 5 3", "'threshold' is missing"),
    ("network 7 controllers 3 delays 2 5 3 transceiver 4 threshold 1", "'transceiver' stands where 'threshold' is expected"),
    ("network 7 controllers 3 delays 2 5 3 threshold", f"the threshold is missing: {A_BYTE}"),
    ("network 7 controllers 3 delays 2 5 3 threshold 256", f"'256' is no threshold: {A_BYTE}"),
    ("network 7 controllers 3 delays 2 5 3 threshold 1 transceiver 4", "'transceiver' is too much: the line is complete before it"),
    ("network 7 controllers 3 delays 2 5 3 threshold 1 partial yes", f"'yes' is no partial networking: {A_BYTE}"),
    ("network 7 controllers 3 delays 2 5 3 threshold 1 partial 1 1", "'1' is too much: the line is complete before it"),
    (f"{SHEET_LINE} long-delay", f"the rule for the long delay is missing: at the threshold or {A_BYTE}"),
    (f"{SHEET_LINE} long-delay at", "'the' is missing"),
    (f"{SHEET_LINE} long-delay at the", "'threshold' is missing"),
    (f"{SHEET_LINE} long-delay at threshold", "'threshold' stands where 'the' is expected"),
    (f"{SHEET_LINE} long-delay at the limit", "'limit' stands where 'threshold' is expected"),
    (f"{SHEET_LINE} long-delay above the threshold", f"'above' is no rule for the long delay: at the threshold or {A_BYTE}"),
    (f"{SHEET_LINE} long-delay 256", f"'256' is no rule for the long delay: {A_BYTE}"),
    (f"{SHEET_LINE} long-delay 1x", f"'1x' is no rule for the long delay: {A_BYTE}"),
    (f"{SHEET_LINE} {AT_THE_THRESHOLD} partial", "'partial' is too much: the line is complete before it"),
    (f"{SHEET_LINE} {AT_THE_THRESHOLD} {AT_THE_THRESHOLD}", "'long-delay' is too much: the line is complete before it"),
    (f"{SHEET_LINE} at the threshold", "'at' is too much: the line is complete before it"),
    ("network 7 controllers 3 delays 2 5 3 long-delay at the threshold", "'long-delay' stands where 'threshold' is expected"),
    ("long-delay", f"the rule for the long delay is missing: at the threshold or {A_BYTE}"),
    ("long-delay at", "'the' is missing"),
    ("long-delay at the threshold 1", "'1' is too much: the line is complete before it"),
    ("long-delays 1", "no line begins with 'long-delays': --help shows the forms"),
    ("at the threshold", "no line begins with 'at': --help shows the forms"),
    ("controllers 3", "no line begins with 'controllers': --help shows the forms"),
    ("delays 1 2", f"the ensure time is missing: {TWO_BYTES}"),
    ("partial 256", f"'256' is no partial networking: {A_BYTE}"),
    ("partial tick", "'tick' is too much: the line is complete before it"),
    ("bytes", "the bytes are missing: two hexadecimal digits each"),
    ("bytes 9", "'9' is no byte: two hexadecimal digits"),
    ("bytes 0900", "'0900' is no byte: two hexadecimal digits"),
    ("bytes 00 0g", "'0g' is no byte: two hexadecimal digits"),
    ("bytes +1", "'+1' is no byte: two hexadecimal digits"),
]


class BadScriptsTest(unittest.TestCase):
    """A bad script is refused with the line and the reason."""

    def refusal(self, script):
        """Why a script is refused."""
        with self.assertRaises(ScriptError) as caught:
            recording_of(script)
        return str(caught.exception)

    def test_each_bad_line(self):
        for line, reason in BAD_LINES:
            with self.subTest(line):
                self.assertEqual(self.refusal(f"tick\n\n{line}\ntick\n".encode()), f"line 3: {reason}")

    def test_the_first_bad_line_counts(self):
        self.assertEqual(self.refusal(b"tick\r\n# a\r\npoll\r\ntack\r\n"), f"line 3: the handle is missing: {A_BYTE}")

    def test_no_text(self):
        self.assertEqual(self.refusal(b"tick\ntick \xff\n"), "line 2: byte 6 of the line, ff, is no UTF-8 text")
        self.assertEqual(self.refusal(b"# \xe4\n"), "line 1: byte 3 of the line, e4, is no UTF-8 text")
        self.assertEqual(self.refusal(b"\x00"), "line 1: no line begins with '\\x00': --help shows the forms")


# ---------------------------------------------------------------------------
# The output in words
# ---------------------------------------------------------------------------

WHOLE_CASE_IN_WORDS = """\
config 0 1              sheet of 25 bytes                  accepted: 1 network
1 0 1:3:0               tick                               ask controller 3 to stop
2 0                     controller 3 answers: stopped, ok  taken
3 0 1:3:2               tick                               ask controller 3 to sleep
4 0                     controller 3 answers: sleep, ok    taken
5 0 6:7:0               tick                               tell the communication manager: network 7 no communication
6 0                     full is wanted of network 7        accepted: stored, and the next tick looks at it
7 0 1:3:0               tick                               ask controller 3 to stop
8 0                     controller 3 answers: stopped, ok  taken
9 0 1:3:1               tick                               ask controller 3 to start
10 0                    controller 3 answers: started, ok  taken
11 0 3:3:0 6:7:2 7:7:2  tick                               allow controller 3 to send (online)
                                                           tell the communication manager: network 7 full
                                                           tell the mode manager: network 7 full
12 0 8:7:1 6:7:1 7:7:3  bus-off of controller 3            report to the event manager: network 7 bus-off prefailed
                                                           tell the communication manager: network 7 silent
                                                           tell the mode manager: network 7 bus-off
13 0 1:3:1              tick                               ask controller 3 to start
14 0                    controller 3 answers: started, ok  taken
15 0 3:3:1              tick                               forbid controller 3 to send (TX offline)
16 0                    tick                               accepted: nothing is handed out
17 0 3:3:0 6:7:2 7:7:2  tick                               allow controller 3 to send (online)
                                                           tell the communication manager: network 7 full
                                                           tell the mode manager: network 7 full
18 0 2                  poll of network 7                  the mode last told: full
"""

# A sheet with handle 7, controller 3 and transceiver 4.
OUTFITTED = model.write_sheet([network(7, [3], 4, partial=1)])

# Every record kind with every argument.
RECORDS = {
    "1:3:0": "ask controller 3 to stop",
    "1:3:1": "ask controller 3 to start",
    "1:3:2": "ask controller 3 to sleep",
    "2:4:0": "ask transceiver 4 to go to normal",
    "2:4:1": "ask transceiver 4 to go to standby",
    "3:3:0": "allow controller 3 to send (online)",
    "3:3:1": "forbid controller 3 to send (TX offline)",
    "3:3:2": "let controller 3 hear and not send (TX offline, active)",
    "4:4:0": "ask transceiver 4 to clear its wake flag",
    "5:4:0": "ask transceiver 4 to check its wake flag",
    "6:7:0": "tell the communication manager: network 7 no communication",
    "6:7:1": "tell the communication manager: network 7 silent",
    "6:7:2": "tell the communication manager: network 7 full",
    "7:7:0": "tell the mode manager: network 7 no communication",
    "7:7:1": "tell the mode manager: network 7 silent",
    "7:7:2": "tell the mode manager: network 7 full",
    "7:7:3": "tell the mode manager: network 7 bus-off",
    "8:7:0": "report to the event manager: network 7 bus-off passed",
    "8:7:1": "report to the event manager: network 7 bus-off prefailed",
}

CALL_REFUSALS = {
    Refusal.NOT_READY: "refused: 0x01, there is no started manager, or no sheet",
    Refusal.ALREADY_STARTED: "refused: 0x0b, the manager is started already",
    Refusal.BUFFER_TOO_SHORT: "refused: 0x20, the lent buffer is too short",
    Refusal.UNKNOWN_HANDLE: "refused: 0x03, unknown handle",
    Refusal.UNKNOWN_CONTROLLER: "refused: 0x04, unknown controller",
    Refusal.UNKNOWN_TRANSCEIVER: "refused: 0x05, unknown transceiver",
    Refusal.VALUE_OUT_OF_RANGE: "refused: 0x21, a mode, an ok value or a value to listen is out of its range",
    Refusal.ASLEEP: "refused: 0x08, silent is wanted while the network is asleep (step 0)",
    Refusal.COMING_UP: "refused: 0x24, silent is wanted while the network comes up (steps 1 to 3)",
    Refusal.GOING_DOWN: "refused: 0x25, silent is wanted while the network goes down (steps 9 to 14)",
    Refusal.NOT_TAKEN: "refused: 0x22, an answer, bus-off or stall that the step does not take",
}

# The refusals of a sheet, in words.
CUT = "refused: 0x30, a field is cut, or the last network is unfinished"
UNKNOWN_TAG = "refused: 0x31, unknown tag"
WRONG_LENGTH = "refused: 0x32, the length is not that of the tag"
WRONG_ORDER = "refused: 0x33, the tag is not allowed here by the order of fields"
OUT_OF_RANGE = "refused: 0x34, the value is out of its range"
USED_BEFORE = "refused: 0x35, the id is used before"
TOO_MANY = "refused: 0x36, a ninth network or a fifth controller"
NO_TRANSCEIVER = "refused: 0x37, partial networking without a transceiver"
NO_NETWORK = "refused: 0x38, no network at all"
# A second network with a transceiver; its fields begin at 0, 4, 8, 12, 21 and 25.
FITTED = bytes.fromhex("010001c8 02000104 03000105 040006000200050003 05000101 06000100")
THRESHOLD_255 = SHEET[:20] + b"\xff" + SHEET[21:]
NO_LONG_DELAY = SHEET[:13] + bytes(2) + SHEET[15:]

# Sheets for each of its refusals, the model's line, and what is said: the refusal, then what stands at that byte, and the bytes of its field.
SHEET_REFUSALS = [
    (SHEET[:24], "config 48 21", CUT, "field 06 is cut by the end of the sheet", "[06] 00 01"),
    (SHEET[:6], "config 48 4", CUT, "field 02 is cut by the end of the sheet", "[02] 00"),
    (SHEET + b"\x09", "config 48 25", CUT, "field 09 is cut by the end of the sheet", "[09]"),
    (SHEET[:21], "config 48 21", CUT, "the sheet ends there"),
    (SHEET[:4] + field(9, 1), "config 49 4", UNKNOWN_TAG, "there is no field 09", "[09] 00 01 01"),
    (SHEET + field(9, *range(9)), "config 49 25", UNKNOWN_TAG, "there is no field 09", "[09] 00 09 00 01 02 03 04 05 ..."),
    (SHEET + b"\x0f\xff\xff", "config 49 25", UNKNOWN_TAG, "there is no field 0f", "[0f] ff ff"),
    (field(1), "config 50 1", WRONG_LENGTH, "the length of field 01 is 0, must be 1", "01 [00 00]"),
    (SHEET[:8] + field(4, 0, 1, 0, 1, 0), "config 50 9", WRONG_LENGTH, "the length of field 04 is 5, must be 6", "04 [00 05] 00 01 00 01 00"),
    (SHEET[:8] + b"\x04\x01\x06", "config 50 9", WRONG_LENGTH, "the length of field 04 is 262, must be 6", "04 [01 06]"),
    (SHEET + b"\x07\xff\xff\x01", "config 50 26", WRONG_LENGTH, "the length of field 07 is 65,535, must be 1", "07 [ff ff] 01"),
    (SHEET + FITTED[:8] + field(3, *range(8)), "config 50 34", WRONG_LENGTH, "the length of field 03 is 8, must be 1",
     "03 [00 08] 00 01 02 03 04 05 ..."),
    (SHEET[4:], "config 51 0", WRONG_ORDER, "field 02 may not stand first", "[02] 00 01 03"),
    (SHEET[:8] + SHEET[17:], "config 51 8", WRONG_ORDER, "field 05 may not follow field 02", "[05] 00 01 01"),
    (SHEET + field(7, 1) * 2, "config 51 29", WRONG_ORDER, "field 07 may not follow field 07", "[07] 00 01 01"),
    (SHEET[:4] + field(2, 32), "config 52 7", OUT_OF_RANGE, "controller id of network 7 is 32, must be 0 to 31", "02 00 01 [20]"),
    (SHEET + FITTED[:11] + b"\x08", "config 52 36", OUT_OF_RANGE, "transceiver id of network 200 is 8, must be 0 to 7", "03 00 01 [08]"),
    (SHEET[:11] + bytes(2) + SHEET[13:], "config 52 11", OUT_OF_RANGE, "short delay of network 7 is 0, must be 1 to 65,535",
     "04 00 06 [00 00] 00 05 00 03"),
    (NO_LONG_DELAY, "config 52 13", OUT_OF_RANGE, "long delay of network 7 is 0, must be 1 to 65,535", "04 00 06 00 02 [00 00] 00 03"),
    (SHEET[:15] + bytes(2) + SHEET[17:], "config 52 15", OUT_OF_RANGE, "ensure time of network 7 is 0, must be 1 to 65,535",
     "04 00 06 00 02 00 05 [00 00]"),
    (SHEET + FITTED[:17] + bytes(4) + FITTED[21:], "config 52 42", OUT_OF_RANGE, "long delay of network 200 is 0, must be 1 to 65,535",
     "04 00 06 00 02 [00 00] 00 00"),
    (THRESHOLD_255, "config 52 20", OUT_OF_RANGE, "threshold of network 7 is 255, must be 0 to 254", "05 00 01 [ff]"),
    (SHEET[:24] + b"\x02", "config 52 24", OUT_OF_RANGE, "partial networking of network 7 is 2, must be 0 or 1", "06 00 01 [02]"),
    (SHEET + field(7, 0), "config 52 28", OUT_OF_RANGE, "rule for the long delay of network 7 is 0, must be 1, or no field", "07 00 01 [00]"),
    (SHEET[:8] + SHEET[4:], "config 53 8", USED_BEFORE, "controller id 3 is used before", "[02] 00 01 03"),
    (SHEET + SHEET, "config 53 25", USED_BEFORE, "handle 7 is used before", "[01] 00 01 07"),
    (model.write_sheet(LARGEST) + field(1, 1), "config 54 328", TOO_MANY, "handle 1 is one too many", "[01] 00 01 01"),
    (SHEET[:4] + b"".join(field(2, number) for number in range(5)), "config 54 20", TOO_MANY, "controller id 4 is one too many", "[02] 00 01 04"),
    (SHEET[:24] + b"\x01", "config 55 21", NO_TRANSCEIVER, "partial networking of network 7 is 1, and it has no transceiver", "[06] 00 01 01"),
    (b"", "config 56 0", NO_NETWORK, "there is no sheet"),
    (TICK, "config 56 0", NO_NETWORK, "there is no sheet"),
]

# An event that the sheet above is followed by, and what it is called.
EVENTS = [
    ("want 7 no", "no communication is wanted of network 7"),
    ("want 7 silent", "silent is wanted of network 7"),
    ("want 7 full", "full is wanted of network 7"),
    ("want 8 mode 9", "mode 9 is wanted of network 8"),
    ("bus-off 3", "bus-off of controller 3"),
    ("answer 3 stopped ok", "controller 3 answers: stopped, ok"),
    ("answer 3 sleep refused", "controller 3 answers: sleep, refused"),
    ("answer 3 mode 7 value 2", "controller 3 answers: mode 7, value 2"),
    ("transceiver-mode 4 standby", "transceiver 4 reports: standby"),
    ("transceiver-mode 4 mode 2", "transceiver 4 reports: mode 2"),
    ("clear-done 4", "wake flag of transceiver 4 cleared"),
    ("check-done 4", "wake flag of transceiver 4 checked"),
    ("tick", "tick"),
    ("poll 7", "poll of network 7"),
    ("stall 7", "sending of network 7 has stuck"),
    ("listen on", "listening is set"),
    ("listen off", "listening is cleared"),
    ("listen 2", "listening is asked for with 2"),
]

# Bytes after the sheet and a tick, what is shown of them, and why the program stops there.
STOPS = [
    ("16", "bytes 16", "the field is cut"),
    ("0900", "bytes 09 00", "the field is cut"),
    ("1a0000", "bytes 1a 00 00", "the tag is unknown"),
    ("190000", "bytes 19 00 00", "the length is not that of the tag"),
    ("190001", "bytes 19 00 01", "the field is cut"),
    ("180000", "bytes 18 00 00", "the length is not that of the tag"),
    ("180001", "bytes 18 00 01", "the field is cut"),
    ("160001 00", "bytes 16 00 01 00", "the length is not that of the tag"),
    ("01000107", "handle 7", "the tag is below 10, and the sheet is over"),
    ("07000101", "long-delay at the threshold", "the tag is below 10, and the sheet is over"),
    ("0f0000", "bytes 0f 00 00", "the tag is below 10, and the sheet is over"),
    ("010000", "bytes 01 00 00", "the tag is below 10, and the sheet is over"),
]


def cells(text):
    """The cells of each line of an explanation."""
    return [re.split(r" {2,}", line) for line in text.splitlines()]


def explained(data, output):
    """The cells of an explanation whose output is given as text."""
    return cells(explain(data, output.encode("ascii")))


class ExplainTest(unittest.TestCase):
    """Each line, its event and what it says."""

    def test_whole_case(self):
        output = model.cantrace(WHOLE_CASE).encode("ascii")
        self.assertEqual(explain(WHOLE_CASE, output), WHOLE_CASE_IN_WORDS)
        self.assertEqual(explain(WHOLE_CASE, output.replace(b"\n", b"\r\n")), WHOLE_CASE_IN_WORDS)

    def test_each_record(self):
        arguments = {kind: {int(record[-1]) for record in RECORDS if record[0] == kind} for kind in "12345678"}
        self.assertEqual([len(arguments[kind]) for kind in "12345678"], [3, 2, 3, 1, 1, 3, 4, 2])
        self.assertEqual(len(set(RECORDS.values())), len(RECORDS))
        for record, words in RECORDS.items():
            self.assertEqual(explained(OUTFITTED + TICK, f"config 0 1\n1 0 {record}\n")[1], [f"1 0 {record}", "tick", words])

    def test_several_records(self):
        found = explained(OUTFITTED + TICK, "config 0 1\n1 0 " + " ".join(RECORDS) + "\n")
        self.assertEqual(found[1], ["1 0 " + " ".join(RECORDS)])
        self.assertEqual([row[-1] for row in found[2:]], list(RECORDS.values()))
        self.assertEqual(found[2], ["", "tick", RECORDS["1:3:0"]])

    def test_each_refusal_of_a_call(self):
        self.assertEqual(len(set(CALL_REFUSALS.values())), len(CALL_REFUSALS))
        for number, words in CALL_REFUSALS.items():
            self.assertEqual(explained(SHEET + TICK, f"config 0 1\n1 {number}\n")[1], [f"1 {number}", "tick", words])

    def test_each_refusal_of_a_sheet(self):
        for data, line, words, there, *shown in SHEET_REFUSALS:
            with self.subTest(line):
                self.assertEqual(model.cantrace(data), line + "\n")
                place = line.split()[2]
                self.assertEqual([row[-1] for row in explained(data, line + "\n")], [words, f"byte {place} of the sheet: {there}", *shown])

    def test_a_place_far_into_a_sheet(self):
        """Many handles are no good sheet, but their fields are sound, so a refusal can stand at any of them."""
        found = explained(field(1, 7) * 500 + TICK, "config 51 1600\n")
        self.assertEqual([row[-1] for row in found[1:]], ["byte 1,600 of the sheet: field 01 may not follow field 01", "[01] 00 01 07"])

    def test_a_field_without_a_network(self):
        """The output is another program's: cantrace refuses the order."""
        self.assertEqual(explained(field(2, 32), "config 52 3\n")[1][-1], "byte 3 of the sheet: controller id is 32, must be 0 to 31")

    def test_every_refusal_number_is_there(self):
        numbers = {number for name, number in vars(Refusal).items() if name.isupper()}
        self.assertEqual({*CALL_REFUSALS, *(int(line.split()[1]) for _, line, *_ in SHEET_REFUSALS)}, numbers)
        self.assertEqual(len({words for _, _, words, *_ in SHEET_REFUSALS}), 9)
        out_of_range = {shown[0][:2] for _, _, words, _, *shown in SHEET_REFUSALS if words == OUT_OF_RANGE}
        self.assertEqual(out_of_range, {"02", "03", "04", "05", "06", "07"})

    def test_each_event(self):
        for line, words in EVENTS:
            data = OUTFITTED + written(line)
            found = explained(data, model.cantrace(data))
            self.assertEqual(found[1][1], words)

    def test_answers_without_records(self):
        data = OUTFITTED + written("want 7 full\nanswer 3 stopped ok\ntick\nbus-off 3\npoll 7\npoll 7\npoll 7\npoll 7")
        found = explained(data, "config 0 1\n1 0\n2 0\n3 0\n4 0\n5 0 0\n6 0 1\n7 0 2\n8 3 0\n")
        self.assertEqual([row[-1] for row in found[1:]], [
            "accepted: stored, and the next tick looks at it", "taken", "accepted: nothing is handed out", "accepted: nothing is handed out",
            "the mode last told: no communication", "the mode last told: silent", "the mode last told: full", "refused: 0x03, unknown handle",
        ])

    def test_refused_silent(self):
        """After the start, at rest and while it comes up; what is said is told apart, and what to do about it."""
        down = "tick\nanswer 3 stopped ok\ntick\nanswer 3 sleep ok\ntick\n"
        data = SHEET + written("want 7 silent\n" + down + "want 7 silent\nwant 7 full\ntick\nwant 7 silent\nwant 8 silent\nwant 7 mode 3")
        found = [row for row in explained(data, model.cantrace(data)) if not row[-1].startswith(("accepted", "taken", "ask c", "tell"))]
        self.assertEqual(found, [
            ["1 37", "silent is wanted of network 7", CALL_REFUSALS[Refusal.GOING_DOWN]],
            ["", "wait until no is told, then ask for full; when full is told, ask for silent"],
            ["7 8", "silent is wanted of network 7", CALL_REFUSALS[Refusal.ASLEEP]],
            ["", "ask for full first; when full is told, ask for silent"],
            ["10 36", "silent is wanted of network 7", CALL_REFUSALS[Refusal.COMING_UP]],
            ["", "wait; when full is told, ask for silent again"],
            ["11 3", "silent is wanted of network 8", CALL_REFUSALS[Refusal.UNKNOWN_HANDLE]],
            ["12 33", "mode 3 is wanted of network 7", CALL_REFUSALS[Refusal.VALUE_OUT_OF_RANGE]],
        ])

    def test_refused_stalls(self):
        data = SHEET + written("stall 7\nstall 8\nstall 7")
        found = explained(data, "config 0 1\n1 34\n2 3\n3 32\n")
        self.assertEqual([row[-1] for row in found[1:]], [
            "refused: 0x22, an answer, bus-off or stall that the step does not take",
            "it is taken only while full is told: if sending sticks then, make it again",
            "refused: 0x03, unknown handle",
            "compare the caller's handles with the sheet",
            "refused: 0x20, the lent buffer is too short",
            "it has not happened: lend 3 bytes or more, and make it again",
        ])
        self.assertEqual([line.split() for line in model.cantrace(data).splitlines()[1:]], [["1", "34"], ["2", "3"], ["3", "34"]])

    def test_a_reset(self):
        """What a stall brings is said, and which requests are for the reset; what follows the notice that ends it is not."""
        stalled = network(7, [3]), network(9, [4])
        up = Trace(*stalled)
        up.go_to(4, 1)
        up.go_to(4, 0)
        begin = up.number_of_events()
        up.stall()
        up.replied_tick(3)
        up.stall()
        up.tick()
        up.want(model.Mode.NO)
        up.tick()
        up.want(model.Mode.NO, 1)
        up.tick()
        data = up.recorded()
        found = [row[1:] for row in explained(data, model.cantrace(data))]
        start = [index for index, row in enumerate(found) if row[0] == "sending of network 7 has stuck"][0]
        outlook = "the next tick asks all its controllers to stop, a later one to start"
        silent = "tell the communication manager: network 7 silent"
        self.assertEqual(model.cantrace(data).splitlines()[begin + 1], f"{begin + 1} 0 6:7:1")
        self.assertEqual(found[start:], [
            ["sending of network 7 has stuck", silent], [outlook],
            ["tick", "ask controller 3 to stop, for the reset"],
            ["controller 3 answers: stopped, ok", "taken"],
            ["tick", "ask controller 3 to start, for the reset"],
            ["controller 3 answers: started, ok", "taken"],
            ["tick", "allow controller 3 to send (online)"], ["tell the communication manager: network 7 full"],
            ["tell the mode manager: network 7 full"],
            ["sending of network 7 has stuck", silent], [outlook],
            ["tick", "ask controller 3 to stop, for the reset"],
            ["no communication is wanted of network 7", "accepted: stored, and the next tick looks at it"],
            ["tick", "tell the mode manager: network 7 no communication"], ["ask controller 3 to stop"],
            ["no communication is wanted of network 9", "accepted: stored, and the next tick looks at it"],
            ["tick", "ask controller 3 to stop"], ["tell the mode manager: network 9 no communication"],
            ["tell the communication manager: network 9 silent"], ["ask controller 4 to stop"],
        ])

    def test_refused_listening(self):
        data = SHEET + written("listen on\nlisten 2\nlisten off")
        found = explained(data, "config 0 1\n1 32\n2 33\n3 1\n")
        self.assertEqual([row[-1] for row in found[1:]], [
            "refused: 0x20, the lent buffer is too short",
            "it has not happened: lend 3 bytes for each controller of the sheet or more, and make it again",
            "refused: 0x21, a mode, an ok value or a value to listen is out of its range",
            "1 sets listening, and 0 clears it",
            "refused: 0x01, there is no started manager, or no sheet",
        ])

    def test_listening(self):
        """What it hands out and what it brings; where nothing changes, that nothing is handed out, and no more."""
        trace = Trace(network(7, [3, 12]), network(9, [4]))
        trace.listen(0)
        trace.go_to(4)
        begin = trace.number_of_events()
        for value in (1, 1, 2, 0, 0):
            trace.listen(value)
        trace.bus_off()
        trace.listen()
        data = trace.recorded()
        rows = explained(data, model.cantrace(data))
        nothing, full = "accepted: nothing is handed out", "from here on a network that becomes full"
        self.assertEqual(rows[1], ["1 0", "listening is cleared", nothing])
        start = [row[0].split(" ")[0] for row in rows].index(str(begin + 1))
        told = [row[1:] for row in rows[start:] if not row[-1].startswith(("report", "tell"))]
        self.assertEqual(told, [
            ["listening is set", "let controller 3 hear and not send (TX offline, active)"],
            ["let controller 12 hear and not send (TX offline, active)"], [f"{full} hears and does not send"],
            ["listening is set", nothing],
            ["listening is asked for with 2", CALL_REFUSALS[Refusal.VALUE_OUT_OF_RANGE]], ["1 sets listening, and 0 clears it"],
            ["listening is cleared", "allow controller 3 to send (online)"],
            ["allow controller 12 to send (online)"], [f"{full} may send"],
            ["listening is cleared", nothing],
            ["listening is set", nothing], [f"{full} hears and does not send"],
        ])

    def test_listening_as_another_program_answers_it(self):
        """A value that there is not, taken: what it brings is not known."""
        self.assertEqual(explained(SHEET + written("listen 2"), "config 0 1\n1 0\n")[1][-1], "accepted: nothing is handed out")

    def test_one_fault_reported_twice(self):
        """A second report is said to be of the same fault until TX offline, or a shutdown; and only of the network that it concerns."""
        trace = Trace(network(7, [3, 12]), network(9, [4]))
        trace.go_to(4, 1)
        trace.go_to(4, 0)
        same = "taken for the same fault, which is counted already"

        def told_same():
            data = trace.recorded()
            return [row[-1] for row in explained(data, model.cantrace(data))].count(same)

        for controllers, expected in (((0,), 0), ((1,), 1), ((0, 1), 3)):
            for controller in controllers:
                trace.bus_off(controller=controller)
            self.assertEqual(told_same(), expected)
        trace.bus_off(1)
        self.assertEqual(told_same(), 3)
        trace.go_to(7, 0)
        trace.bus_off(controller=1)
        self.assertEqual(told_same(), 3)
        trace.bus_off()
        self.assertEqual(told_same(), 4)
        trace.want(model.Mode.NO)
        trace.tick()
        trace.go_to(4, 0)
        trace.bus_off()
        self.assertEqual(told_same(), 4)

    def test_each_stop(self):
        for after, shown, words in STOPS:
            data = SHEET + TICK + bytes.fromhex(after)
            self.assertEqual(model.cantrace(data).splitlines()[-1], "stop 28")
            self.assertEqual(explained(data, model.cantrace(data))[-1], ["stop 28", shown, f"stop at byte 28: {words}"])

    def test_too_long(self):
        found = explained(bytes(65537), "too long\n")
        self.assertEqual(found, [["too long", "recording of 65537 bytes", "more than 65536 bytes: nothing is run"]])

    def test_number_of_networks(self):
        sheet = model.write_sheet(LARGEST)
        self.assertEqual(explained(sheet, "config 0 8\n"), [["config 0 8", "sheet of 328 bytes", "accepted: 8 networks"]])

    def test_networks_with_the_long_delay_at_the_threshold(self):
        """They are named below the line of the sheet, with their thresholds; the others are not."""
        networks = network(7, [3], threshold=2), by_the_newer_rule(network(9, [4], threshold=0)), by_the_newer_rule(network(1, [5], threshold=254))
        sheet = model.write_sheet(list(networks))
        self.assertEqual(explained(sheet, "config 0 3\n"), [
            ["config 0 3", "sheet of 83 bytes", "accepted: 3 networks"],
            ["", "network 9: the long delay at the threshold of 0 already"],
            ["", "network 1: the long delay at the threshold of 254 already"],
        ])
        self.assertEqual(explained(model.write_sheet([networks[0]]), "config 0 1\n"), [["config 0 1", "sheet of 25 bytes", "accepted: 1 network"]])

    def test_columns_are_aligned(self):
        for example in examples.EXAMPLES.glob("*.script"):
            output = example.with_suffix(".txt").read_bytes()
            text = explain(recording_of(example.read_bytes()), output)
            # a line of the output that is too wide stands alone
            starts = {len(line) - len(row[-1]) for line, row in zip(text.splitlines(), cells(text)) if len(row) > 1}
            self.assertEqual(len(starts), 1, example.name)
            self.assertLessEqual(max(map(len, text.splitlines())), 140)

    def test_stored_cases(self):
        reached = set()
        for case, output in zip(CASES, STORED_OUTPUTS):
            with self.subTest(case.name):
                lines = [row[0] for row in explained(case.data, output) if row[0]]
                self.assertEqual(lines, output.splitlines())
            reached |= {(record[0], record[-1]) for record in re.findall(r" \d:\d+:\d", output) for record in [record.strip()]}
        self.assertEqual(reached, {(record[0], record[-1]) for record in RECORDS})

    def test_random_traces(self):
        random = Random(SEED)
        for _ in range(100):
            data = random_traces.Driver(random).run(60)
            output = model.cantrace(data)
            self.assertEqual([row[0] for row in explained(data, output) if row[0]], output.splitlines())

    def test_random_sheets(self):
        """What is marked stands at the place, in the bytes of the field; and a refusal for a field's own bytes can stand nowhere else."""
        random = Random(SEED)
        marked = Counter()
        for _ in range(1500):
            data = random.choice((random_traces.damaged_sheet(random), random_traces.noise(random), SHEET + random_fields(random)))
            output = model.cantrace(data)
            answer, place = map(int, output.split()[1:3])
            if answer == model.ACCEPTED:
                continue
            first, where, *shown = [row[-1] for row in explained(data, output)]
            self.assertIn(f"0x{answer:02x}", first)
            self.assertTrue(where.startswith(f"byte {place} of the sheet: "))
            if shown:
                words = shown[0].replace(" ...", "").split()
                before = [word.startswith("[") for word in words].index(True)
                self.assertEqual(data[place - before:place - before + len(words)], bytes.fromhex(re.sub(r"[\[\]]", "", " ".join(words))))
                marked[answer] += 1
            if answer in (Refusal.SHEET_CUT, Refusal.SHEET_UNKNOWN_TAG, Refusal.SHEET_WRONG_LENGTH, Refusal.SHEET_OUT_OF_RANGE):
                for other in {*range(max(0, place - 8), place + 8)} - {place}:
                    with self.assertRaises(NotItsOutput):
                        explained(data, f"config {answer} {other}\n")
        self.assertEqual(set(marked), set(range(Refusal.SHEET_CUT, Refusal.SHEET_NO_NETWORK)))


# An output that is not the recording's, and why.
WHOLE_OUTPUT = model.cantrace(WHOLE_CASE)
MISMATCHES = [
    (WHOLE_CASE, "", "it is empty"),
    (WHOLE_CASE, "\n", "line 1: 'config' and two numbers are expected, not ''"),
    (WHOLE_CASE, "too long\n", "line 1: 'config' and two numbers are expected, not 'too long'"),
    (WHOLE_CASE, WHOLE_OUTPUT[:-1], "line 19: the line end is missing, so the output is cut"),
    (WHOLE_CASE, WHOLE_OUTPUT[:-len("18 0 2\n")], "its number of lines is 18, not 19"),
    (WHOLE_CASE, WHOLE_OUTPUT + "19 0\n", "its number of lines is 20, not 19"),
    (WHOLE_CASE, WHOLE_OUTPUT + "stop 116\n", "its number of lines is 20, not 19"),
    (WHOLE_CASE, WHOLE_OUTPUT + "\n", "its number of lines is 20, not 19"),
    (WHOLE_CASE, WHOLE_OUTPUT.replace("\n4 0\n", "\n"), "line 5: event 4 is expected, not '5 0 6:7:0'"),
    (WHOLE_CASE, WHOLE_OUTPUT.replace("config 0 1", "config 0 2"), "line 1: the number of networks is 2, and in the sheet it is 1"),
    (SHEET[:-4], "config 0 1\n", "line 1: the number of networks is 1, and in the sheet it is 0"),
    (SHEET + SHEET[:4], "config 0 1\n", "line 1: the sheet is accepted, and not all of it is whole networks"),
    (SHEET + field(Tag.RELATION, 1) * 2, "config 0 1\n", "line 1: the sheet is accepted, and not all of it is whole networks"),
    (SHEET + field(Tag.RELATION, 1), "config 0 2\n", "line 1: the number of networks is 2, and in the sheet it is 1"),
    (WHOLE_CASE, WHOLE_OUTPUT.replace("1:3:2", "1:4:2"), "line 4: '1:4:2' names an id that the sheet does not have"),
    (WHOLE_CASE, WHOLE_OUTPUT.replace("6:7:0", "6:3:0"), "line 6: '6:3:0' names an id that the sheet does not have"),
    (WHOLE_CASE, WHOLE_OUTPUT.replace("1:3:2", "2:3:0"), "line 4: '2:3:0' names an id that the sheet does not have"),
    (WHOLE_CASE, WHOLE_OUTPUT.replace("1:3:2", "1:3:3"), "line 4: '1:3:3' is no record"),
    (WHOLE_CASE, WHOLE_OUTPUT.replace("1:3:2", "9:3:0"), "line 4: '9:3:0' is no record"),
    (WHOLE_CASE, WHOLE_OUTPUT.replace("1:3:2", "1:3"), "line 4: '1:3' is no record"),
    (WHOLE_CASE, WHOLE_OUTPUT.replace("1:3:2", "1:03:2"), "line 4: '1:03:2' is no record"),
    (WHOLE_CASE, WHOLE_OUTPUT.replace("\n2 0\n", "\n2 0 1:3:2\n"),
     "line 3: only a tick, a bus-off, a stall and a call to listen hand out records, and this is: controller 3 answers: stopped, ok"),
    (WHOLE_CASE, WHOLE_OUTPUT.replace("\n2 0\n", "\n2 99\n"), "line 3: 99 is no refusal that can stand here"),
    (WHOLE_CASE, WHOLE_OUTPUT.replace("\n2 0\n", "\n2 48\n"), "line 3: 48 is no refusal that can stand here"),
    (WHOLE_CASE, WHOLE_OUTPUT.replace("\n3 0 1", "\n3 34 1"), "line 4: a refused event hands out nothing"),
    (WHOLE_CASE, WHOLE_OUTPUT.replace("18 0 2", "18 0 3"), "line 19: the answer of a poll and then a mode, 0 to 2, are expected"),
    (WHOLE_CASE, WHOLE_OUTPUT.replace("18 0 2", "18 0"), "line 19: the answer of a poll and then a mode, 0 to 2, are expected"),
    (WHOLE_CASE, WHOLE_OUTPUT.replace("18 0 2", "18 3 2"), "line 19: a refused event hands out nothing"),
    (WHOLE_CASE, WHOLE_OUTPUT.replace("18 0 2", "018 0 2"), "line 19: event 18 is expected, not '018 0 2'"),
    (WHOLE_CASE, WHOLE_OUTPUT.replace("18 0 2", "stop 112"), "line 19: event 18 is expected, not 'stop 112'"),
    (WHOLE_CASE, WHOLE_OUTPUT.replace("18 0 2", "18  0 2"), "line 19: event 18 is expected, not '18  0 2'"),
    (WHOLE_CASE, "config 0 " + "1" * 5000 + "\n", f"line 1: 'config' and two numbers are expected, not 'config 0 {'1' * 31}...'"),
    (THRESHOLD_255 + TICK, "config 52 20\n1 0\n", "its number of lines is 2, not 1"),
    (WHOLE_CASE, "config 52 18\n", "line 1: a sheet of 25 bytes is not refused by 52, the value is out of its range"),
    (WHOLE_CASE, "config 34 17\n", "line 1: 34 is no refusal that can stand here"),
    (WHOLE_CASE, "config 56 0\n", "line 1: a sheet of 25 bytes is not refused by 56, no network at all"),
    (TICK, "config 48 0\n", "line 1: a sheet of 0 bytes is not refused by 48, a field is cut, or the last network is unfinished"),
    (TICK, "config 56 3\n", "line 1: this sheet can be refused by 56, no network at all, at byte 0, and not at byte 3"),
    # S29: 34 at the tag, as older programs have it; at the low byte; at a later number that is 0.
    (THRESHOLD_255, "config 52 17\n", "line 1: this sheet can be refused by 52, the value is out of its range, at byte 20, and not at byte 17"),
    (NO_LONG_DELAY, "config 52 8\n", "line 1: this sheet can be refused by 52, the value is out of its range, at byte 13, and not at byte 8"),
    (NO_LONG_DELAY, "config 52 14\n", "line 1: this sheet can be refused by 52, the value is out of its range, at byte 13, and not at byte 14"),
    (SHEET[:13] + bytes(4), "config 52 15\n",
     "line 1: this sheet can be refused by 52, the value is out of its range, at byte 13, and not at byte 15"),
    (THRESHOLD_255 + field(2, 32), "config 52 28\n",
     "line 1: this sheet can be refused by 52, the value is out of its range, at byte 20, and not at byte 28"),
    # S28: 32 at the tag and at the low byte of the length.
    (SHEET + field(7), "config 50 25\n",
     "line 1: this sheet can be refused by 50, the length is not that of the tag, at byte 26, and not at byte 25"),
    (SHEET + field(7), "config 50 27\n",
     "line 1: this sheet can be refused by 50, the length is not that of the tag, at byte 26, and not at byte 27"),
    (SHEET, "config 50 1\n", "line 1: a sheet of 25 bytes is not refused by 50, the length is not that of the tag"),
    # Behind a field that is refused in any case nothing is refused.
    (SHEET[:8] + field(4) + field(5, 255), "config 52 14\n", "line 1: a sheet of 15 bytes is not refused by 52, the value is out of its range"),
    # S24, S26: the others at a tag, and 30 at the end.
    (SHEET[:24], "config 48 24\n",
     "line 1: this sheet can be refused by 48, a field is cut, or the last network is unfinished, at byte 21, and not at byte 24"),
    (SHEET[:21], "config 48 17\n",
     "line 1: this sheet can be refused by 48, a field is cut, or the last network is unfinished, at byte 21, and not at byte 17"),
    (SHEET, "config 48 25\n", "line 1: a sheet of 25 bytes is not refused by 48, a field is cut, or the last network is unfinished"),
    (SHEET[:8] + field(4), "config 48 11\n", "line 1: a sheet of 11 bytes is not refused by 48, a field is cut, or the last network is unfinished"),
    (SHEET + field(9, 1), "config 49 26\n", "line 1: this sheet can be refused by 49, unknown tag, at byte 25, and not at byte 26"),
    (SHEET[4:], "config 51 3\n",
     "line 1: this sheet can be refused by 51, the tag is not allowed here by the order of fields, at byte 0 or 4 or 13 or later, and not at byte 3"),
    (SHEET[:8] + SHEET[4:], "config 53 12\n",
     "line 1: this sheet can be refused by 53, the id is used before, at byte 0 or 4 or 8, and not at byte 12"),
    (SHEET, "config 54 8\n", "line 1: this sheet can be refused by 54, a ninth network or a fifth controller, at byte 0 or 4, and not at byte 8"),
    (SHEET[:24] + b"\x01", "config 55 24\n",
     "line 1: this sheet can be refused by 55, partial networking without a transceiver, at byte 21, and not at byte 24"),
    (SHEET + b"\x16", "config 0 1\n", "its number of lines is 1, not 2"),
    (SHEET + b"\x16", "config 0 1\nstop 24\n", "line 2: 'stop 25' is expected, not 'stop 24'"),
    (SHEET + b"\x16", "config 0 1\n1 0\n", "line 2: 'stop 25' is expected, not '1 0'"),
    (bytes(65537), "config 49 0\n", "the recording has more than 65536 bytes, and the output is not the line 'too long'"),
    (bytes(65537), "too long\ntoo long\n", "the recording has more than 65536 bytes, and the output is not the line 'too long'"),
]


class MismatchTest(unittest.TestCase):
    """An output that does not belong to the recording is not explained."""

    def mismatch(self, data, output):
        """Why an output is not taken for the recording's."""
        with self.assertRaises(NotItsOutput) as caught:
            explain(data, output)
        return str(caught.exception)

    def test_each_mismatch(self):
        for data, output, reason in MISMATCHES:
            with self.subTest(reason):
                self.assertEqual(self.mismatch(data, output.encode("ascii")), reason)

    def test_no_text(self):
        self.assertEqual(self.mismatch(SHEET, b"config \xff\n"), "line 1: 'config' and two numbers are expected, not 'config \\\\xff'")

    def test_the_output_of_another_case(self):
        for case in CASES:
            if case.data != WHOLE_CASE:
                with self.subTest(case.name):
                    self.mismatch(case.data, WHOLE_OUTPUT.encode("ascii"))

    def test_a_line_less_and_a_line_more(self):
        for case, output in zip(CASES, STORED_OUTPUTS):
            lines = output.splitlines(keepends=True)
            if len(lines) < 1000:
                self.mismatch(case.data, "".join(lines[:-1]).encode("ascii"))
                self.mismatch(case.data, "".join(lines + lines[-1:]).encode("ascii"))


# ---------------------------------------------------------------------------
# The command
# ---------------------------------------------------------------------------


class CommandTest(unittest.TestCase):
    """The command itself: files and streams, exit codes, messages."""

    def setUp(self):
        folder = tempfile.TemporaryDirectory()
        self.addCleanup(folder.cleanup)
        self.folder = Path(folder.name)

    def put(self, name, content):
        """A file in the test's own folder."""
        (self.folder / name).write_bytes(content)
        return name

    def check_good(self, expected, *arguments, data=b""):
        """All of the output is this, and nothing is said beside it."""
        done = run(*arguments, data=data, folder=self.folder)
        self.assertEqual((done.returncode, done.stdout, done.stderr), (0, expected, b""))

    def check_bad(self, status, message, *arguments, data=b""):
        """Nothing comes out but this one line."""
        done = run(*arguments, data=data, folder=self.folder)
        self.assertEqual((done.returncode, done.stdout, done.stderr.decode()), (status, b"", f"recording: {message}\n"))

    def test_write(self):
        script = b"# up\r\nwant 7 full\r\n"
        self.check_good(bytes.fromhex("1000020702"), "write", data=script)
        self.check_good(bytes.fromhex("1000020702"), "write", self.put("up.script", script))

    def test_read(self):
        self.check_good(f"{SHEET_LINE}\n\ntick\n".encode(), "read", data=SHEET + TICK)
        self.check_good(f"{SHEET_LINE}\n\ntick\n".encode(), "read", self.put("up.bin", SHEET + TICK))
        self.check_good(b"", "read")

    def test_explain(self):
        recording, script = self.put("whole.bin", WHOLE_CASE), self.put("whole.script", script_of(WHOLE_CASE).encode())
        output = WHOLE_OUTPUT.encode()
        for name in (recording, script):
            self.check_good(WHOLE_CASE_IN_WORDS.encode(), "explain", name, data=output)
            self.check_good(WHOLE_CASE_IN_WORDS.encode(), "explain", name, self.put("whole.txt", output))

    def test_bad_script(self):
        bad = b"tick\n\nwant 7 fulll\n"
        self.check_bad(1, "line 3: 'fulll' is no mode: no, silent or full", "write", data=bad)
        self.check_bad(1, "bad.script: line 3: 'fulll' is no mode: no, silent or full", "write", self.put("bad.script", bad))
        self.check_bad(1, "bad.script: line 3: 'fulll' is no mode: no, silent or full", "explain", "bad.script", data=b"config 56 0\n")

    def test_not_its_output(self):
        self.put("up.bin", SHEET + TICK)
        self.put("up.script", b"tick\n")
        self.check_bad(1, "the output does not belong to up.bin, taken as bytes: it is empty", "explain", "up.bin")
        self.check_bad(1, "the output does not belong to up.script, taken as a script: line 1: the number of networks is 1, and in the sheet it is 0",
                       "explain", "up.script", data=b"config 0 1\n")

    def test_files_that_cannot_be_read(self):
        for command in ("write", "read", "explain"):
            self.check_bad(1, "cannot read nowhere.script: No such file or directory", command, "nowhere.script")
        self.check_bad(1, "cannot read nowhere.txt: No such file or directory", "explain", self.put("up.bin", SHEET), "nowhere.txt")
        self.check_bad(1, "cannot read .: Is a directory", "read", ".")

    def test_wrong_usage(self):
        for arguments in ((), ("wrote",), ("--version",), ("",)):
            self.check_bad(2, "write, read or explain is expected: tools/recording --help", *arguments)
        for arguments in (("write", "a", "b"), ("write", "-"), ("write", "")):
            self.check_bad(2, "the usage is: tools/recording write [SCRIPT]", *arguments)
        for arguments in (("explain",), ("explain", "a", "b", "c"), ("explain", "--quiet", "a")):
            self.check_bad(2, "the usage is: tools/recording explain RECORDING [OUTPUT]", *arguments)
        self.check_bad(2, "the usage is: tools/recording read [RECORDING]", "read", "a", "b")

    def test_help(self):
        text = run("--help").stdout.decode()
        self.assertEqual(run("write", "-h").stdout.decode(), text)
        self.assertLessEqual(len(text.splitlines()), 66)
        self.assertLessEqual(max(map(len, text.splitlines())), 130)
        for name in {line.split()[0] for line, *_ in FORMS}:
            self.assertRegex(text, rf"(?m)(^ +|, ){name}\b")
        for word in ("no|silent|full", "stopped|started|sleep", "ok|refused", "normal|standby", "on|off", f"[{AT_THE_THRESHOLD}]"):
            self.assertIn(word, text)

    def test_example_in_the_help(self):
        """It is a script, all of it is accepted, and each comment that says what is told or asked is so."""
        example = re.search(r"(?ms)^    network \d.*?^(?! )", run("--help").stdout.decode())[0]
        data = written(example)
        output = model.cantrace(data)
        self.assertEqual({line.split()[1] for line in output.splitlines()}, {"0"})
        handed_out = [line.split()[2:] for line in output.splitlines()[1:] if line.split()[2:]]
        self.assertEqual(handed_out, [
            ["1:3:0"], ["1:3:2"], ["6:7:0"], ["1:3:0"], ["1:3:1"], ["3:3:0", "6:7:2", "7:7:2"], ["8:7:1", "6:7:1", "7:7:3"],
        ])
        comments = re.findall(r"# (.*)", example)
        self.assertEqual(comments, [
            "controller 3 is asked to stop", "to sleep", "it is down", "to stop", "to start", "full is told", "and silent at once",
        ])

    def test_broken_pipe(self):
        name = self.put("long.bin", SHEET + TICK * 50000)
        command = [sys.executable, str(COMMAND), "read", name]
        with subprocess.Popen(command, cwd=self.folder, stdout=subprocess.PIPE, stderr=subprocess.PIPE) as reading:
            self.assertTrue(reading.stdout.read(10))
            reading.stdout.close()
            self.assertEqual(reading.stderr.read(), b"")

    @unittest.skipUnless(os.path.exists("/dev/full"), "there is no /dev/full")
    def test_full_disk(self):
        with open("/dev/full", "wb") as full:
            done = subprocess.run([sys.executable, str(COMMAND), "--help"], stdout=full, stderr=subprocess.PIPE, timeout=60, check=False)
        self.assertEqual((done.returncode, done.stderr), (1, b"recording: cannot write standard output: No space left on device\n"))

    def test_it_can_be_run_as_it_stands(self):
        self.assertTrue(os.access(COMMAND, os.X_OK))
        done = subprocess.run([str(COMMAND), "write"], input=b"tick", capture_output=True, cwd=self.folder, timeout=60, check=False)
        self.assertEqual((done.returncode, done.stdout), (0, TICK))


class ExamplesTest(unittest.TestCase):
    """The scripts in `examples`."""

    def test_whole_case(self):
        self.assertEqual(recording_of(examples.WHOLE_CASE.read_bytes()), WHOLE_CASE)

    def test_stall(self):
        """X2 to X5, T29, T30 and B2: the lines that its comments speak of, written by hand."""
        lines = (examples.EXAMPLES / "stall.txt").read_text(encoding="ascii").splitlines()
        self.assertEqual(len(lines), 33)
        full = "3:3:0 6:7:2 7:7:2"
        for number, answer in {
            11: f"0 {full}", 13: "0 8:7:0", 14: "0 6:7:1", 15: "34", 16: "0 1:3:0", 18: "0 1:3:1", 20: f"0 {full}", 21: "0 2", 22: "0",
            23: "0 8:7:0", 24: "0 6:7:1", 25: "0 1:3:0", 26: "0 8:7:1 6:7:1 7:7:3", 27: "0 1:3:1", 29: "0 3:3:1", 30: "34", 31: "0",
            32: f"0 {full}",
        }.items():
            self.assertEqual(lines[number], f"{number} {answer}")

    def test_under_repair(self):
        """L2 to L4: the lines that its comments speak of, written by hand. Without listening all of them are the same, but for online."""
        lines = (examples.EXAMPLES / "under-repair.txt").read_text(encoding="ascii").splitlines()
        self.assertEqual(len(lines), 32)
        for number, answer in {
            16: "0 3:3:0 6:7:2 7:7:2 3:4:0 6:9:2 7:9:2", 17: "0 3:3:2 3:4:2", 18: "0", 19: "0 2", 20: "0 8:7:1 6:7:1 7:7:3", 21: "0 1:3:1",
            23: "0 3:3:1", 24: "0 8:9:0", 25: "0 3:3:2 6:7:2 7:7:2", 26: "0 2", 28: "0 3:4:1 6:9:1 7:9:1", 29: "0 3:3:0",
            31: "0 3:4:0 6:9:2 7:9:2",
        }.items():
            self.assertEqual(lines[number], f"{number} {answer}")
        data = recording_of((examples.EXAMPLES / "under-repair.script").read_bytes())
        without = model.cantrace(data.replace(field(EventTag.LISTEN, 1), field(EventTag.LISTEN, 0))).splitlines()
        parted = {number: pair for number, pair in enumerate(zip(lines, without)) if pair[0] != pair[1]}
        self.assertEqual(parted, {
            17: ("17 0 3:3:2 3:4:2", "17 0"), 25: ("25 0 3:3:2 6:7:2 7:7:2", "25 0 3:3:0 6:7:2 7:7:2"), 29: ("29 0 3:3:0", "29 0"),
        })

    def test_the_threshold(self):
        """S8, S27 and T13: two recordings that differ in field 07 alone, and the lines that their comments speak of, written by hand."""
        names = ("at-the-threshold", "above-the-threshold")
        newer, older = (recording_of((examples.EXAMPLES / f"{name}.script").read_bytes()) for name in names)
        self.assertEqual(newer, older[:25] + field(Tag.RELATION, 1) + older[25:])
        at, above = ((examples.EXAMPLES / f"{name}.txt").read_text(encoding="ascii").splitlines() for name in names)
        full, passed, nothing = "0 3:3:0 6:7:2 7:7:2", "0 8:7:0", "0"
        self.assertEqual((len(at), len(above)), (36, 36))
        self.assertEqual((at[18], at[27], at[31], at[35]), (f"18 {full}", "27 0 1", f"31 {full}", f"35 {passed}"))
        parted = {26: (nothing, full), 27: ("0 1", "0 2"), 30: ("0 1", "0 2"), 31: (full, passed), 35: (passed, nothing)}
        found = {number: lines for number, lines in enumerate(zip(at, above)) if lines[0] != lines[1]}
        self.assertEqual(found, {number: tuple(f"{number} {line}" for line in lines) for number, lines in parted.items()})

    def test_refused_sheets(self):
        """S29: the bytes that their comments speak of, written by hand."""
        for name, line in (("refused-sheet", "config 52 20\n"), ("refused-delay", "config 52 13\n")):
            self.assertEqual((examples.EXAMPLES / f"{name}.txt").read_text(encoding="ascii"), line)

    def test_each_example_can_be_read_back(self):
        scripts = sorted(examples.EXAMPLES.glob("*.script"))
        self.assertEqual([path.with_suffix("") for path in scripts], sorted(path.with_suffix("") for path in examples.EXAMPLES.glob("*.txt")))
        for path in scripts:
            without_comments = [line.split("#")[0].strip() for line in path.read_text(encoding="utf-8").splitlines()]
            forms = [line for line in script_of(recording_of(path.read_bytes())).splitlines() if line]
            self.assertEqual([line for line in without_comments if line], forms)


if __name__ == "__main__":
    unittest.main()
