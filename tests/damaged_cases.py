"""Cases for the program `trace_cases` with damaged sheets and damaged events, and the longest inputs.

Beside a damaged input stands the last line that docs/RULES.md gives it, written by hand; refusals print as decimal numbers, so
30 to 38 are 48 to 56. The fields of the 25-byte sheet begin at 0, 4, 8, 17 and 21.
"""

from typing import Iterator

import model
from model import EventTag, Limit, Step, Tag
from traces import LARGEST, LARGEST_BY_THE_NEWER_RULE, SHEET, TICK, WHOLE_CASE, Case, Trace, field, network

HANDLE, CONTROLLER, NO_PARTIAL = SHEET[:4], SHEET[4:8], SHEET[21:]
TRANSCEIVER = bytes.fromhex("03000105")
# A second network, with other ids.
SECOND = bytes.fromhex("01000108 02000104 040006000100020001 05000100 06000100")
LARGEST_SHEET = model.write_sheet(LARGEST)
LARGEST_OF_ALL = model.write_sheet(LARGEST_BY_THE_NEWER_RULE)
NEWER_RULE = field(Tag.RELATION, 1)
SOME_EVENTS = WHOLE_CASE[25:46]  # five events


# ---------------------------------------------------------------------------
# Sheets
# ---------------------------------------------------------------------------


def cut_sheet_cases() -> Iterator[Case]:
    """The 25-byte sheet cut at every length (0, 21 and 24 are E1, E4 and E3), and cut between fields before events."""
    for length in range(1, len(SHEET)):
        place = max(start for start in (0, 4, 8, 17, 21) if start <= length)
        if length not in (21, 24):
            yield Case(f"the sheet's first {length} bytes", SHEET[:length], f"config 48 {place}")
    for length in (4, 8, 17, 21):
        data = SHEET[:length] + TICK + SOME_EVENTS
        yield Case(f"the sheet's first {length} bytes, then events", data, f"config 48 {length}")
    yield Case("a second network without its last field, then a tick", SHEET + SECOND[:21] + TICK, "config 48 46")
    yield Case("a second network cut in its times", SHEET + SECOND[:14], "config 48 33")


# What follows the 25-byte sheet, in hexadecimal.
AFTER_THE_SHEET = [
    ("a lone 09", "09", "config 48 25"),
    ("09 and half a length", "0900", "config 48 25"),
    ("09 and a length that overruns", "090005aabb", "config 49 25"),
    ("a whole field of tag 09, then a tick", "090001aa 160000", "config 49 25"),
    ("a whole field of tag 0f, then a tick", "0f0000 160000", "config 49 25"),
    ("a field of tag 00, then a tick", "000000 160000", "config 49 25"),
    ("a field of tag 07 that swallows all events", "07000c 160000 160000 160000 160000", "config 50 26"),
    ("a lone 01", "01", "config 48 25"),
    ("a handle without its value", "010001", "config 48 25"),
]

# Sheets by refusal. Each is followed by a tick, which must not be run.
DAMAGED_SHEETS = [
    # S16: 31, the tag is none of a sheet's; S27: 33, tag 07 is, and may not stand here
    ("tag 00", bytes(3) + SHEET, "config 49 0"),
    ("tag 07", SHEET[:8] + bytes.fromhex("07000100") + SHEET[8:], "config 51 8"),
    ("tag 0f in a second network", SHEET + SECOND[:21] + bytes.fromhex("0f0000") + SECOND[21:], "config 49 46"),
    # S17: 32, another length than the tag has
    ("handle of length 0", bytes.fromhex("010000") + SHEET[4:], "config 50 1"),
    ("handle of length 257", bytes.fromhex("010101") + bytes(257) + SHEET[4:], "config 50 1"),
    ("controller of length 2", HANDLE + bytes.fromhex("0200020304") + SHEET[8:], "config 50 5"),
    ("transceiver of length 0", SHEET[:8] + bytes.fromhex("030000") + SHEET[8:], "config 50 9"),
    ("times of length 5", SHEET[:8] + bytes.fromhex("0400050001000100") + SHEET[17:], "config 50 9"),
    ("times of length 7", SHEET[:8] + bytes.fromhex("04000700010001000100") + SHEET[17:], "config 50 9"),
    ("threshold of length 65,535, which overruns", SHEET[:17] + bytes.fromhex("05ffff01") + SHEET[21:], "config 50 18"),
    ("a last field that swallows the tick", SHEET[:21] + bytes.fromhex("06000400"), "config 50 22"),
    # S19: 33, out of the order of fields
    ("controller first", SHEET[4:], "config 51 0"),
    ("handle twice", HANDLE + SHEET, "config 51 4"),
    ("transceiver before controllers", HANDLE + TRANSCEIVER + SHEET[4:], "config 51 4"),
    ("times after the handle", HANDLE + SHEET[8:], "config 51 4"),
    ("threshold after the controller", SHEET[:8] + SHEET[17:], "config 51 8"),
    ("transceiver twice", SHEET[:8] + TRANSCEIVER + bytes.fromhex("03000104") + SHEET[8:], "config 51 12"),
    ("transceiver after the times", SHEET[:17] + TRANSCEIVER + SHEET[17:], "config 51 17"),
    ("partial networking after the times", SHEET[:17] + NO_PARTIAL, "config 51 17"),
    ("a second network before the end of the first", SHEET[:21] + SECOND, "config 51 21"),
    ("a controller after the end of a network", SHEET + SECOND[4:], "config 51 25"),
    # S20: 34, out of range
    ("controller 32", HANDLE + bytes.fromhex("02000120") + SHEET[8:], "config 52 7"),
    ("transceiver 8", SHEET[:8] + bytes.fromhex("03000108") + SHEET[8:], "config 52 11"),
    ("E5, long delay zero", SHEET[:13] + bytes(2) + SHEET[15:], "config 52 13"),
    ("ensure time zero", SHEET[:15] + bytes(2) + SHEET[17:], "config 52 15"),
    ("partial networking 2, before 37", SHEET[:24] + b"\x02", "config 52 24"),
    ("controller 255 in a second network", SHEET + SECOND[:7] + b"\xff" + SECOND[8:], "config 52 32"),
    # S21: 35, the id was used before
    ("the handle of the first network", SHEET + HANDLE + SECOND[4:], "config 53 25"),
    ("the controller of the first network", SHEET + SECOND[:4] + CONTROLLER + SECOND[8:], "config 53 29"),
    ("the transceiver of the first network",
     SHEET[:8] + TRANSCEIVER + SHEET[8:] + SECOND[:8] + TRANSCEIVER + SECOND[8:], "config 53 37"),
    ("a fifth controller that is used",
     HANDLE + b"".join(field(Tag.CONTROLLER, number) for number in (0, 1, 2, 3, 3)) + SHEET[8:], "config 53 20"),
    ("a ninth network with a used handle", LARGEST_SHEET + field(Tag.HANDLE, 255), "config 53 328"),
    # S22: 36, a network or a controller too many
    ("a fifth controller",
     HANDLE + b"".join(field(Tag.CONTROLLER, number) for number in range(5)) + SHEET[8:], "config 54 20"),
    ("a ninth network", LARGEST_SHEET + field(Tag.HANDLE, 1), "config 54 328"),
    # S23: 37, partial networking without a transceiver; the first network has one
    ("a second network without transceiver",
     SHEET[:8] + TRANSCEIVER + SHEET[8:24] + b"\x01" + SECOND[:24] + b"\x01", "config 55 50"),
]

# S25: 38, no sheet, since the first tag is 10 or above; in hexadecimal.
WITHOUT_SHEET = [
    ("a tick first", "160000"),
    ("a lone 10 first", "10"),
    ("a tag ff first, cut", "ff00"),
    ("a tick before the sheet", "160000" + SHEET.hex()),
    ("the whole case without its sheet", WHOLE_CASE[25:].hex()),
]


def sheet_cases() -> Iterator[Case]:
    """Each refusal of the sheet at different places, and what the walk to the first event takes for the sheet."""
    yield from cut_sheet_cases()
    for words, after, last_line in AFTER_THE_SHEET:
        yield Case(f"the sheet and {words}", SHEET + bytes.fromhex(after), last_line)
    for words, sheet, last_line in DAMAGED_SHEETS:
        yield Case(f"damaged sheet: {words}", sheet + TICK, last_line)
    for words, data in WITHOUT_SHEET:
        yield Case(f"no sheet: {words}", bytes.fromhex(data), "config 56 0")


# S27: what follows the 25-byte sheet, in hexadecimal, and then a tick.
AFTER_FIELD_06 = [
    ("field 07", "07000101", "1 0 1:3:0"),
    ("field 07 of value 0", "07000100", "config 52 28"),
    ("field 07 of value 2", "07000102", "config 52 28"),
    ("field 07 of value 255", "070001ff", "config 52 28"),
    ("field 07 of length 0", "070000", "config 50 26"),
    ("field 07 of length 2", "0700020101", "config 50 26"),
    ("field 07 that swallows the tick", "070004 01", "config 50 26"),
    ("field 07 that overruns", "07ffff 01", "config 50 26"),
    ("field 07 twice", "07000101 07000101", "config 51 29"),
    ("field 07 twice, the second of value 0", "07000101 07000100", "config 51 29"),
    ("field 07 and partial networking again", "07000101 06000100", "config 51 29"),
    ("field 07 and a controller", "07000101 02000104", "config 51 29"),
    ("field 07 and its own handle again", "07000101 01000107", "config 53 29"),
    ("field 07 and another handle", "07000101 01000108", "config 48 33"),
    ("field 07 and tag 08", "07000101 08000101", "config 49 29"),
    ("a whole field of tag 08", "08000101", "config 49 25"),
    ("a field of tag 08 that swallows the tick", "080003", "config 49 25"),
]
CUT_AFTER_FIELD_06 = [
    ("a lone 07", "07", "config 48 25"),
    ("07 and half a length", "0700", "config 48 25"),
    ("field 07 without its value", "070001", "config 48 25"),
    ("field 07 and a lone 07", "07000101 07", "config 48 29"),
    ("field 07 and a lone 16", "07000101 16", "stop 29"),
]

# S27: sheets in which field 07 stands elsewhere, or beside other faults, and then a tick.
DAMAGED_BY_FIELD_07 = [
    ("tag 08", SHEET[:8] + bytes.fromhex("08000100") + SHEET[8:], "config 49 8"),
    ("field 07 first", NEWER_RULE + SHEET, "config 51 0"),
    ("field 07 after the handle", HANDLE + NEWER_RULE + SHEET[4:], "config 51 4"),
    ("field 07 after the controller", SHEET[:8] + NEWER_RULE + SHEET[8:], "config 51 8"),
    ("field 07 after the transceiver", SHEET[:8] + TRANSCEIVER + NEWER_RULE + SHEET[8:], "config 51 12"),
    ("field 07 after the times", SHEET[:17] + NEWER_RULE + SHEET[17:], "config 51 17"),
    ("field 07 after the threshold", SHEET[:21] + NEWER_RULE + SHEET[21:], "config 51 21"),
    ("field 07 in place of partial networking", SHEET[:21] + NEWER_RULE, "config 51 21"),
    ("field 07 in a second network, before its field 06", SHEET + NEWER_RULE + SECOND[:21] + NEWER_RULE, "config 51 50"),
    ("field 07 of value 2 in a second network", SHEET + NEWER_RULE + SECOND + bytes.fromhex("07000102"), "config 52 57"),
    ("field 07 in a network with partial networking and no transceiver", SHEET[:24] + b"\x01" + NEWER_RULE, "config 55 21"),
    ("the controller of the first network after field 07", SHEET + NEWER_RULE + SECOND[:4] + CONTROLLER, "config 53 33"),
    ("field 07 twice after the largest sheet", LARGEST_OF_ALL + NEWER_RULE, "config 51 360"),
    ("field 07 of value 0 after eight networks", LARGEST_SHEET + field(Tag.RELATION, 0), "config 52 331"),
    ("a ninth network after field 07", LARGEST_OF_ALL + field(Tag.HANDLE, 1), "config 54 360"),
    ("a ninth network with a used handle after field 07", LARGEST_OF_ALL + field(Tag.HANDLE, 255), "config 53 360"),
]


def field_07_cases() -> Iterator[Case]:
    """Each refusal of field 07, and each of the fields that follow it."""
    for words, after, last_line in AFTER_FIELD_06:
        yield Case(f"after field 06: {words}", SHEET + bytes.fromhex(after) + TICK, last_line)
    for words, after, last_line in CUT_AFTER_FIELD_06:
        yield Case(f"after field 06: {words}", SHEET + bytes.fromhex(after), last_line)
    for words, sheet, last_line in DAMAGED_BY_FIELD_07:
        yield Case(f"damaged sheet: {words}", sheet + TICK, last_line)
    yield Case("the sheet and a field of tag 08 that swallows all events", SHEET + bytes.fromhex("08000c") + TICK * 4, "config 49 25")
    yield Case("the sheet with field 07, and a listen of length 0", SHEET + NEWER_RULE + bytes.fromhex("190000"), "stop 29")
    yield Case("field 07 as an event", SHEET + TICK + NEWER_RULE, "stop 28")
    yield Case("a transceiver without its value", SHEET[:8] + TRANSCEIVER[:3], "config 48 8")
    yield Case("the largest sheet of all, and a tick that is cut", LARGEST_OF_ALL + TICK[:2], "stop 360")


# A network with each of the seven fields. They begin at 0, 4, 8, 12, 21, 25 and 29, and the three times at 15, 17 and 19, with a high byte of 0.
EVERY_FIELD = bytes.fromhex("01000108 02000104 03000105 040006000200050003 05000101 06000100 07000101")

# S28, S29: bytes of it that are changed, by their places, and the refusal with the place that it points at.
POINTED_AT = [
    ("controller 32", {7: 32}, 52, 7),
    ("transceiver 8", {11: 8}, 52, 11),
    ("short delay 0", {16: 0}, 52, 15),
    ("long delay 0", {18: 0}, 52, 17),
    ("ensure time 0", {20: 0}, 52, 19),
    ("short and long delay 0", {16: 0, 18: 0}, 52, 15),
    ("short delay and ensure time 0", {16: 0, 20: 0}, 52, 15),
    ("long delay and ensure time 0", {18: 0, 20: 0}, 52, 17),
    ("all three times 0", {16: 0, 18: 0, 20: 0}, 52, 15),
    ("long delay 0 after a short delay of 512", {15: 2, 16: 0, 18: 0}, 52, 17),
    ("threshold 255", {24: 255}, 52, 24),
    ("partial networking 2", {28: 2}, 52, 28),
    ("field 07 of value 0", {32: 0}, 52, 32),
    ("handle of length 0", {2: 0}, 50, 1),
    ("handle of length 257", {1: 1}, 50, 1),
    ("controller of length 0", {6: 0}, 50, 5),
    ("controller of length 257", {5: 1}, 50, 5),
    ("transceiver of length 2", {10: 2}, 50, 9),
    ("transceiver of length 257", {9: 1}, 50, 9),
    ("times of length 5", {14: 5}, 50, 13),
    ("times of length 262", {13: 1}, 50, 13),
    ("threshold of length 0", {23: 0}, 50, 22),
    ("threshold of length 257", {22: 1}, 50, 22),
    ("partial networking of length 3", {27: 3}, 50, 26),
    ("partial networking of length 257", {26: 1}, 50, 26),
    ("field 07 of length 0", {31: 0}, 50, 30),
    ("field 07 of length 257", {30: 1}, 50, 30),
]


def pointed_at_cases() -> Iterator[Case]:
    """A number out of its range and a wrong length in each field: in the first network, in a second one, and as the very last bytes."""
    for words, changes, refusal, place in POINTED_AT:
        spoilt = bytes(changes.get(index, byte) for index, byte in enumerate(EVERY_FIELD))
        yield Case(f"pointed at: {words}", spoilt + TICK, f"config {refusal} {place}")
        yield Case(f"pointed at: {words}, in a second network", SHEET + spoilt + TICK, f"config {refusal} {25 + place}")
        if refusal == 50:
            yield Case(f"pointed at: {words}, at the very end", SHEET + spoilt[:place + 2], f"config 50 {25 + place}")


# ---------------------------------------------------------------------------
# Events
# ---------------------------------------------------------------------------

# Fields that the program stops at wherever they stand, in hexadecimal.
BAD_EVENTS = [
    ("stall of length 0", "180000"),
    ("tag ff", "ff0000"),
    ("request of length 1", "10000107"),
    ("bus-off of length 0", "110000"),
    ("answer of length 2", "1200020300"),
    ("transceiver mode of length 3", "130003050000"),
    ("clear done of length 2", "1400020505"),
    ("check done of length 2", "1500020505"),
    ("tick of length 1", "16000100"),
    ("poll of length 0", "170000"),
    # The length has two bytes, and the high one counts.
    ("tick of length 256", "160100" + "16" * 256),
    ("request of length 65,535, which overruns", "10ffff0702"),
]
BAD_LATER_EVENTS = [
    ("tag 7f", "7f000100"),
    ("request of length 3", "100003070200"),
    ("bus-off of length 2", "1100020300"),
    ("answer of length 4", "12000403000100"),
    ("transceiver mode of length 1", "13000105"),
    ("clear done of length 0", "140000"),
    ("check done of length 0", "150000"),
    ("poll of length 2", "1700020707"),
    ("poll of length 257", "170101" + "07" * 257),
    # After events began a tag below 10 is bad; before, it belongs to the sheet.
    ("tag 0f", "0f0000"),
    ("tag 00", "000000"),
    ("a handle, as in a sheet", "01000107"),
    ("the sheet again", SHEET.hex()),
]

# Fields that the end of the input cuts.
CUT_EVENTS = [
    ("a lone 16", "16"),
    ("a tick with half a length", "1600"),
    ("a lone ff", "ff"),
    ("a request without its mode", "10000207"),
    ("a bus-off without its controller", "110001"),
    ("an answer without its ok", "1200030300"),
]
CUT_LATER_EVENTS = [
    ("a lone 10", "10"),
    ("a poll with half a length", "1700"),
    ("a transceiver mode without its mode", "13000205"),
    ("a clear done without its transceiver", "140001"),
    ("a check done without its transceiver", "150001"),
    ("a poll without its handle", "170001"),
    ("tag 09, cut", "0900"),
    ("a stall of length 2, which overruns", "180002aa"),
]

# Fields about a stall, and one of the tag behind it.
BAD_STALLS = [
    ("stall of length 2", "1800020707"),
    ("stall of length 257", "180101" + "07" * 257),
    ("stall of length 65,535, which overruns", "18ffff07"),
    ("listen of length 0", "190000"),
]
CUT_STALLS = [
    ("a lone 18", "18"),
    ("a stall with half a length", "1800"),
    ("a stall without its handle", "180001"),
    ("a lone 19", "19"),
]

# Fields about listening, and those of the tag behind it.
BAD_LISTENS = [
    ("listen of length 2", "1900020101"),
    ("listen of length 257", "190101" + "01" * 257),
    ("listen of length 65,535, which overruns", "19ffff01"),
    ("tag 1a", "1a0000"),
    ("tag 1a of length 1", "1a000101"),
]
CUT_LISTENS = [
    ("a listen with half a length", "1900"),
    ("a listen without its value", "190001"),
    ("a lone 1a", "1a"),
]


def event_cases() -> Iterator[Case]:
    """Stops at the first event, at offset 25, at the sixth, at offset 46, and farther on; no later event is run."""
    for words, bad in BAD_EVENTS:
        yield Case(f"first event: {words}", SHEET + bytes.fromhex(bad) + TICK, "stop 25")
    for words, bad in CUT_EVENTS:
        yield Case(f"first event: {words}", SHEET + bytes.fromhex(bad), "stop 25")
    for words, bad in BAD_LATER_EVENTS:
        yield Case(f"sixth event: {words}", SHEET + SOME_EVENTS + bytes.fromhex(bad) + TICK, "stop 46")
    for words, bad in CUT_LATER_EVENTS:
        yield Case(f"sixth event: {words}", SHEET + SOME_EVENTS + bytes.fromhex(bad), "stop 46")
    yield Case("stall of length 0 after the largest sheet", LARGEST_SHEET + bytes.fromhex("180000"), "stop 328")
    yield Case("a lone 16 after 300 ticks", SHEET + TICK * 300 + b"\x16", "stop 925")


def stops_at(words: str, bad: str, after: bytes = TICK) -> Iterator[Case]:
    """A field that is no good event, as the first one and as the sixth, and what follows it."""
    yield Case(f"first event: {words}", SHEET + bytes.fromhex(bad) + after, "stop 25")
    yield Case(f"sixth event: {words}", SHEET + SOME_EVENTS + bytes.fromhex(bad) + after, "stop 46")


def bad_stall_cases() -> Iterator[Case]:
    """Stops at fields about a stall, first and after events; a good stall before a bad one is run."""
    for words, bad in BAD_STALLS:
        yield from stops_at(words, bad)
    # C23: tag 19 is an event, so nothing stops here: the value is refused, and the tick is run
    yield Case("first event: a listen of value 7", SHEET + field(EventTag.LISTEN, 7) + TICK, "2 0 1:3:0")
    yield Case("sixth event: a listen of value 7", SHEET + SOME_EVENTS + field(EventTag.LISTEN, 7) + TICK, "7 0")
    yield from stops_at("tag 1f", "1f000107")
    for words, bad in CUT_STALLS:
        yield from stops_at(words, bad, b"")
    yield Case("sixth event: stall of length 0", SHEET + SOME_EVENTS + bytes.fromhex("180000") + TICK, "stop 46")
    yield Case("no sheet: a stall first", bytes.fromhex("18000107"), "config 56 0")
    yield Case("no sheet: a lone 18 first", bytes.fromhex("18"), "config 56 0")
    yield Case("a stall before the first tick", SHEET + bytes.fromhex("18000107"), "1 34")
    yield Case("a stall, then one that is cut", SHEET + bytes.fromhex("18000107 180001"), "stop 29")


def bad_listen_cases() -> Iterator[Case]:
    """Stops at fields about listening, first and after events; a good one before a bad one is run."""
    for words, bad in BAD_LISTENS:
        yield from stops_at(words, bad)
    for words, bad in CUT_LISTENS:
        yield from stops_at(words, bad, b"")
    yield Case("no sheet: a listen first", field(EventTag.LISTEN, 1), "config 56 0")
    yield Case("no sheet: a lone 19 first", bytes.fromhex("19"), "config 56 0")
    yield Case("a listen before the first tick", SHEET + field(EventTag.LISTEN, 1), "1 0")
    yield Case("a listen, then one that is cut", SHEET + bytes.fromhex("19000101 190001"), "stop 29")


# ---------------------------------------------------------------------------
# The longest inputs
# ---------------------------------------------------------------------------

LONGEST = Limit.PROGRAM_INPUT_BYTES


def fill_to(trace: Trace, length: int) -> None:
    """Ticks, and at the end one to three polls, up to exactly this length."""
    left = length - trace.length
    polls = left % len(TICK) or len(TICK)
    trace.tick((left - polls * len(field(EventTag.POLL, 0))) // len(TICK))
    for _ in range(polls):
        trace.poll()
    if trace.length != length:
        raise ValueError(f"{length} bytes were to be filled, and it is {trace.length}")


def ticks_to_the_end(length: int) -> bytes:
    """Up to full, then ticks to the very end; passed comes at the ensure time of 20,000 ticks."""
    trace = Trace(network(7, [3, 12], times=(2, 5, 20000)))
    trace.go_to(Step.CHECKING)
    fill_to(trace, length)
    return trace.recorded()


def lively_to_the_end(last: bytes) -> bytes:
    """Up, silent, bus-off and down, over and over, and these bytes as the very last of the longest input."""
    trace = Trace(network(200, [3], 6, times=(1, 2, 2)))
    while trace.length < LONGEST - 400:
        for step in (Step.FULL, Step.SILENT, Step.WAITING, Step.NO_COMMUNICATION):
            trace.go_to(step)
    fill_to(trace, LONGEST - len(last))
    return trace.recorded() + last


def longest_cases() -> Iterator[Case]:
    """65,536 bytes are taken, 65,537 are too long. The event numbers come to five digits."""
    one_field = b"\x09" + (LONGEST - 3).to_bytes(2, "big") + bytes(LONGEST - 3)
    many_fields = bytes.fromhex("0f0000") * (LONGEST // 3) + b"\x0f"
    fields_and_a_tick = SHEET + bytes(LONGEST - len(SHEET) - len(TICK)) + TICK
    yield Case("the longest input, to the very end", ticks_to_the_end(LONGEST), "21826 0 2")
    yield Case("the longest input, its last field cut", lively_to_the_end(bytes.fromhex("1200030301")), "stop 65531")
    yield Case("the longest input, one field of tag 09", one_field, "config 49 0")
    yield Case("the longest input, as many fields as can be", many_fields, "config 49 0")
    yield Case("the longest input, a sheet, many fields, a tick", fields_and_a_tick, "config 49 25")
    yield Case("one byte too long, zeros", bytes(LONGEST + 1), "too long")
    yield Case("one byte too long, a good trace", ticks_to_the_end(LONGEST + 1), "too long")
