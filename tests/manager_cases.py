#!/usr/bin/env python3
"""Writes the input and the expected output of the program `manager_cases`: calls of the manager, by the model of the rules.

The cases stand below as lists of calls: a name, its arguments, and for a call with a lent buffer the number of bytes lent.
Without arguments it writes `crates/manager_cases/stdin` and `stdout`; with --check it compares, and exits 1 if anything differs.
"""

import collections
import pathlib
import sys

import model

ROOT = pathlib.Path(__file__).resolve().parent.parent
FOLDER = ROOT / "crates" / "manager_cases"
HEADER = "expected output made by: python3 tests/manager_cases.py"
FILL = 0xEE
RECORDS_ROOM = 144
SHEET_ROOM = 368
AFTER = 2
# More bytes than any sheet without field 07 has.
AMPLE = 336
# An unknown call ends the program: the one after it gives no line.
ENDING = bytes([0x0E, 0x00])

CODES = {
    "new": 0x00,
    "read": 0x01,
    "start": 0x02,
    "write": 0x03,
    "request": 0x04,
    "bus-off": 0x05,
    "answer": 0x06,
    "transceiver": 0x07,
    "clear": 0x08,
    "check": 0x09,
    "tick": 0x0A,
    "poll": 0x0B,
    "stall": 0x0C,
    "listen": 0x0D,
}

# ---------------------------------------------------------------------------
# Sheets
# ---------------------------------------------------------------------------


def network(handle, controllers, transceiver=None, times=(2, 5, 3), threshold=1, partial=0, relation=model.Relation.ABOVE):
    """The bytes of one network; the times are short delay, long delay and ensure time."""
    return model.write_network(model.Settings(handle, list(controllers), transceiver, *times, threshold, partial, relation))


# The sheet of the whole case and of the bench cases, which are E1 to E12 of docs/RULES.md.
SHEET = bytes.fromhex("01000107 02000103 040006000200050003 05000101 06000100")
# A network with a transceiver, and one with partial networking too.
WITH_TRANSCEIVER = network(9, [4], 6, times=(1, 2, 1), threshold=0)
PARTIAL = network(20, [30, 1], 5, times=(1, 3, 2), threshold=0, partial=1)
# Two networks of two controllers each.
PAIR = network(1, [10, 11], times=(1, 4, 2), threshold=0) + network(2, [12, 0], 3, times=(3, 1, 2), threshold=254)
# Two controllers on one cable, delays 2 and 5: one fault still brings the short one.
TWO_CHIPS = network(8, [5, 6])
# Two networks, the first with partial networking: both kinds of first down step.
MIXED = PARTIAL + SHEET
# The 8 networks of the largest sheets: 4 controllers each, with a transceiver.
LARGE = [
    network(255 - n, range(4 * n, 4 * n + 4), n, times=(65535, 1, 256), threshold=254, partial=n % 2) for n in range(8)
]
# The largest sheet without field 07.
LARGEST = b"".join(LARGE)
# Field 07, the long delay at the threshold too: alone, behind a network, behind each of the largest ones, and behind one of two that are else alike.
NEWER_RULE = bytes.fromhex("07000101")
BY_NEWER_RULE = SHEET + NEWER_RULE
LARGEST_BY_NEWER_RULE = b"".join(each + NEWER_RULE for each in LARGE)
BOTH_RULES = network(1, [10], threshold=2) + network(2, [11], threshold=2) + NEWER_RULE
# A network with each of the seven fields. They begin at 0, 4, 8, 12, 21, 25 and 29, and the three times at 15, 17 and 19, with a high byte of 0.
EVERY_FIELD = network(8, [4], 6) + NEWER_RULE

# ---------------------------------------------------------------------------
# Runs of calls
# ---------------------------------------------------------------------------

TICK = ("tick", RECORDS_ROOM)


def answers(controllers, mode, ok=1):
    """The same answer of each controller."""
    return [("answer", controller, mode, ok) for controller in controllers]


def ticks(number):
    """So many ticks with room for all records."""
    return [TICK] * number


def begun(sheet):
    """A new manager with this sheet, started."""
    return [("new",), ("read", sheet), ("start",)]


# From the start of the bench cases' sheet to step 0.
DOWN = [TICK, *answers([3], 0), TICK, *answers([3], 2), TICK]
# From step 0 to full, told on the last tick.
UP = [("request", 7, 2), TICK, *answers([3], 0), TICK, *answers([3], 1), TICK]
# From full being checked to all-clear.
CHECKED = ticks(3)
# From a bus-off to waiting with TX offline.
RESTARTED = [TICK, *answers([3], 1), TICK]
BUS_OFF = ("bus-off", 3, RECORDS_ROOM)
# From a stall to full, told on the last tick.
STALL = ("stall", 7, RECORDS_ROOM)
RESET = [TICK, *answers([3], 0), TICK, *answers([3], 1), TICK]

# ---------------------------------------------------------------------------
# Cases
# ---------------------------------------------------------------------------

WHOLE_CASE = [
    # E13: the whole case.
    [*begun(SHEET), *DOWN, *UP, BUS_OFF, *RESTARTED, TICK, TICK, ("poll", 7)],
]

BENCH_CASES = [
    # E9: a bus-off in step 5, and four ticks later the network is full.
    [*begun(SHEET), *DOWN, *UP, *CHECKED, BUS_OFF, *RESTARTED, TICK, TICK, ("poll", 7)],
    # E9: another one in step 7, which makes it seven ticks; passed comes three ticks after that.
    [
        *begun(SHEET), *DOWN, *UP, *CHECKED, BUS_OFF, *RESTARTED, BUS_OFF, *RESTARTED, *ticks(4), ("poll", 7), TICK,
        ("poll", 7), *CHECKED,
    ],
    # E10: an answer "started" after the bus-off and before the next tick. It is no answer to what the tick then asks.
    [*begun(SHEET), *DOWN, *UP, BUS_OFF, *answers([3], 1), TICK, TICK, *answers([3], 1), TICK],
    # E11: silent asked for in step 0, and in steps 2 and 3, which is 24; then in step 4.
    [
        *begun(SHEET), *DOWN, ("request", 7, 1), ("request", 7, 2), TICK, ("request", 7, 1), *answers([3], 0), TICK,
        ("request", 7, 1), *answers([3], 1), TICK, ("request", 7, 1), TICK, ("poll", 7), ("request", 7, 1), TICK,
    ],
    # E12: a tick with 8 bytes and with 9; a refused one is no tick. Passed comes with the third after full was told.
    [
        *begun(SHEET), ("tick", 8), ("tick", 9), *answers([3], 0), ("tick", 9), *answers([3], 2), ("tick", 9), *UP,
        ("tick", 8), ("tick", 9), ("tick", 9), ("tick", 8), ("tick", 9), ("tick", 9),
    ],
]

# Every call but reading, with arguments that no network has and no range allows.
WRONG_CALLS = [
    ("tick", 0), ("bus-off", 99, 0), ("request", 99, 3), ("answer", 99, 3, 2), ("transceiver", 99, 3), ("clear", 99),
    ("check", 99), ("poll", 99),
]

REFUSALS = [
    # Before reading every call but reading is refused with 01, also where other refusals would apply.
    [("new",), ("start",), ("write", 0), ("write", AMPLE), *WRONG_CALLS],
    # Before the start too; start and writing then have their sheet. Writing needs 25 bytes.
    [("new",), ("read", SHEET), *WRONG_CALLS, ("write", 0), ("write", 24), ("write", 25), ("write", AMPLE)],
    # After the start: a second start, reading (of a good sheet and of none), writing.
    [
        *begun(SHEET), ("start",), ("read", SHEET), ("read", b""), ("read", b"\x99"), ("write", 24), ("write", 25),
        ("write", 0xFFFF),
    ],
    # A tick with 8 and 9 bytes, with none and with all.
    [*begun(SHEET), ("tick", 0), ("tick", 8), ("tick", 9), ("tick", 255)],
    # Bus-off: 20 before 04 before 22; in step 3 it needs 9 bytes too, and in step 4.
    [
        *begun(SHEET), ("bus-off", 99, 8), ("bus-off", 3, 8), ("bus-off", 99, 9), ("bus-off", 7, 9), ("bus-off", 3, 9),
        *DOWN, ("bus-off", 3, 9), ("request", 7, 2), TICK, ("bus-off", 3, 9), *answers([3], 0), TICK,
        ("bus-off", 3, 8), ("bus-off", 3, 9), *answers([3], 1), TICK, *answers([3], 1), TICK, ("bus-off", 3, 8),
        ("bus-off", 3, 9), ("bus-off", 3, 255),
    ],
    # Request: 03 before 21 before 25; an unknown handle with a good mode; the highest mode and the lowest.
    [
        *begun(SHEET), ("request", 3, 3), ("request", 3, 1), ("request", 3, 2), ("request", 7, 3), ("request", 7, 255),
        ("request", 7, 1), ("request", 7, 2), ("request", 7, 0),
    ],
    # Controller answer: 04 before 21 before 22; not asked, another mode, and then the asked one.
    [
        *begun(SHEET), ("answer", 7, 3, 2), ("answer", 7, 0, 1), ("answer", 3, 3, 1), ("answer", 3, 0, 2),
        ("answer", 3, 255, 255), ("answer", 3, 0, 1), TICK, ("answer", 3, 1, 1), ("answer", 3, 2, 0), ("answer", 3, 0, 2),
        ("answer", 3, 0, 0), TICK, ("answer", 3, 0, 1), TICK,
    ],
    # Transceiver mode: 05 before 21 before 22; 2 is in range and never asked for.
    [
        *begun(WITH_TRANSCEIVER), ("transceiver", 4, 3), ("transceiver", 4, 1), ("transceiver", 6, 3),
        ("transceiver", 6, 1), TICK, *answers([4], 0), TICK, *answers([4], 2), TICK, ("transceiver", 6, 0),
        ("transceiver", 6, 2), ("transceiver", 6, 3), ("transceiver", 6, 1), TICK, ("poll", 9), ("transceiver", 6, 1),
    ],
    # Clear done and check done: 05 before 22; without partial networking no step asks for them.
    [
        *begun(WITH_TRANSCEIVER), ("clear", 4), ("check", 4), ("clear", 6), ("check", 6), TICK, ("clear", 6),
        ("check", 6),
    ],
    # Without a transceiver no transceiver is known, not even 0.
    [*begun(SHEET), ("transceiver", 0, 0), ("clear", 0), ("check", 0)],
    # Poll: an unknown handle; a controller's id is none.
    [*begun(SHEET), ("poll", 3), ("poll", 255), ("poll", 7)],
    # The sheet's own refusals: no network; cut; wrong length, of field 07 and of a handle; wrong order; used before;
    # out of range; partial networking without transceiver; a ninth network. Then there is no sheet still.
    [
        ("new",), ("read", b""), ("read", SHEET[:24]), ("read", SHEET[:21]), ("read", SHEET[:23]), ("read", b"\x07" + SHEET),
        ("read", b"\x01\x00\x02" + SHEET[3:]), ("read", SHEET[4:]), ("read", SHEET[:8] + SHEET[4:]),
        ("read", SHEET[:11] + b"\x00\x00" + SHEET[13:]), ("read", SHEET[:20] + b"\xff" + SHEET[21:]),
        ("read", SHEET[:24] + b"\x01"), ("read", SHEET + SHEET), ("read", LARGEST + network(0, [0])),
        ("start",), ("write", AMPLE),
    ],
]

PARTIAL_NETWORKING = [
    # A network with transceiver and partial networking: down from the start, through 9 to 13.
    [
        *begun(PARTIAL), ("clear", 5), TICK, ("check", 5), ("poll", 20), TICK, ("clear", 5), TICK, *answers([30, 1], 0),
        TICK, ("transceiver", 5, 0), ("transceiver", 5, 1), TICK, *answers([30], 2), TICK, *answers([1], 2), TICK,
        ("clear", 5), ("check", 5), TICK, ("check", 5), ("poll", 20), TICK,
        # Coming up; a request answered by one controller only is sent again to both.
        ("request", 20, 2), TICK, ("transceiver", 5, 1), TICK, ("transceiver", 5, 0), TICK, *answers([1], 0), TICK,
        *answers([30], 0), TICK, *answers([30, 1], 1), ("bus-off", 1, 9), ("answer", 30, 1, 1), TICK,
        *answers([30, 1], 1), TICK, ("poll", 20), TICK, TICK, TICK,
        # Going down while full; one controller refuses sleep.
        ("request", 20, 0), ("poll", 20), TICK, ("poll", 20), ("bus-off", 30, 9), ("request", 20, 1), ("clear", 5), TICK,
        *answers([30, 1], 0), TICK, ("transceiver", 5, 1), TICK, ("answer", 30, 2, 1), ("answer", 1, 2, 0), TICK,
        ("clear", 5), TICK, ("check", 5), TICK, ("poll", 20), ("check", 5), ("clear", 5), TICK, *answers([30, 1], 0), TICK,
        ("transceiver", 5, 1), TICK,
        # A refusal that a later answer replaces; then both have answered well.
        ("answer", 30, 2, 0), ("answer", 30, 2, 1), ("answer", 1, 2, 1), TICK, ("check", 5), TICK, ("poll", 20), TICK,
    ],
    # A network with a transceiver alone: 10, 12, 11, 0; up by 1; down while coming up; silent and back keep the count.
    [
        *begun(WITH_TRANSCEIVER), TICK, *answers([4], 0), TICK, *answers([4], 2), TICK, ("transceiver", 6, 1), TICK,
        ("request", 9, 2), TICK, ("request", 9, 0), TICK, *answers([4], 0), TICK, *answers([4], 2), TICK,
        ("transceiver", 6, 1), ("request", 9, 2), TICK, TICK, ("transceiver", 6, 0), TICK, *answers([4], 0), TICK,
        *answers([4], 1), TICK, ("bus-off", 4, 9), TICK, *answers([4], 1), TICK, ("request", 9, 1), TICK, TICK,
        ("poll", 9), ("bus-off", 4, 9), ("request", 9, 2), TICK, *answers([4], 1), TICK, TICK, TICK, TICK, ("poll", 9),
    ],
]

TWO_NETWORKS = [
    # Two networks of two controllers each; both come up, then the second has a bus-off while the first stays full.
    [
        *begun(PAIR), ("tick", 23), ("tick", 24), *answers([10, 11, 12, 0], 0), TICK, *answers([10, 11, 12, 0], 2), TICK,
        ("request", 1, 2), ("request", 2, 2), ("transceiver", 3, 1), TICK, *answers([10, 11], 0), TICK,
        *answers([11, 10], 1), ("transceiver", 3, 0), TICK, *answers([12, 0], 0), TICK, *answers([12, 0], 1), TICK,
        ("poll", 1), ("poll", 2), TICK, TICK, ("bus-off", 0, 9), ("poll", 1), ("poll", 2), TICK, *answers([0, 12], 1), TICK,
        TICK, TICK, ("poll", 2), TICK, ("poll", 1), ("poll", 2), TICK, TICK,
        # The first has a bus-off: its count is above its threshold, so it waits the long delay. The second goes down.
        ("bus-off", 11, 9), ("request", 2, 0), TICK, ("poll", 1), ("poll", 2), *answers([10, 11], 1),
        *answers([12, 0], 0), TICK, *answers([12, 0], 2), TICK, ("transceiver", 3, 1), TICK, TICK, TICK, ("poll", 1),
        ("poll", 2), ("write", 328),
    ],
    # A refused reading keeps the old sheet; reading again before the start replaces it.
    [
        ("new",), ("read", PAIR), ("read", PAIR[:-1]), ("write", AMPLE), ("read", MIXED), ("write", AMPLE),
        ("read", b""), ("write", AMPLE), ("start",), ("read", PAIR), ("write", AMPLE), ("tick", 20), ("tick", 21),
        ("poll", 1), ("poll", 7), ("poll", 20), ("clear", 5), ("answer", 3, 0, 1), TICK, ("answer", 10, 0, 1),
    ],
    # The largest sheet: 328 bytes, and a tick that needs the whole buffer.
    [
        ("new",), ("read", LARGEST), ("write", 327), ("write", 328), ("write", AMPLE), ("start",), ("tick", 143), TICK,
        ("clear", 1), ("transceiver", 7, 1), ("answer", 31, 0, 1), ("answer", 0, 0, 1), ("poll", 255), ("poll", 248), TICK,
    ],
    # A new manager has nothing of the one before.
    [("new",), ("poll", 255), ("write", AMPLE)],
]

STALLS = [
    # Before reading and before the start: 01, also where other refusals would apply.
    [("new",), ("stall", 99, 0), ("stall", 7, 3), ("read", SHEET), ("stall", 99, 0), ("stall", 7, 2), ("stall", 7, 3)],
    # 20 before 03 before 22; a controller's id is no handle.
    [
        *begun(SHEET), ("stall", 99, 0), ("stall", 99, 2), ("stall", 7, 2), ("stall", 99, 3), ("stall", 3, 3),
        ("stall", 7, 3), ("stall", 7, 255),
    ],
    # In every step: going down, with partial networking; sleep is refused once, so 14 and 9 come before 13.
    [
        *begun(PARTIAL), ("stall", 20, 2), ("stall", 20, 3), TICK, ("stall", 20, 3), ("clear", 5), TICK, ("stall", 20, 3),
        *answers([30, 1], 0), TICK, ("stall", 20, 3), ("transceiver", 5, 1), TICK, ("stall", 20, 3), *answers([30, 1], 2, 0),
        TICK, ("stall", 20, 3), ("check", 5), TICK, ("stall", 20, 3), ("clear", 5), TICK, *answers([30, 1], 0), TICK,
        ("transceiver", 5, 1), TICK, *answers([30, 1], 2), TICK, ("stall", 20, 3), ("check", 5), TICK, ("stall", 20, 3),
        # Coming up; the first that is taken is in step 4.
        ("request", 20, 2), TICK, ("stall", 20, 3), ("transceiver", 5, 0), TICK, ("stall", 20, 3), *answers([30, 1], 0), TICK,
        ("stall", 20, 3), *answers([30, 1], 1), TICK, ("poll", 20), ("stall", 20, 0), ("stall", 20, 2), ("poll", 20),
        ("stall", 20, 3), ("poll", 20),
        # In 15 before it has asked and after it, and in 16; then full again, passed, and the next one in step 5.
        ("stall", 20, 3), ("transceiver", 5, 0), ("clear", 5), ("check", 5), TICK, ("stall", 20, 2), ("stall", 20, 3),
        ("transceiver", 5, 1), *answers([1], 0), TICK, *answers([30], 0), TICK, ("stall", 20, 3), ("transceiver", 5, 0),
        ("check", 5), *answers([1, 30], 1), TICK, ("poll", 20), *ticks(2), ("stall", 20, RECORDS_ROOM), ("poll", 20), TICK,
        *answers([30, 1], 0), TICK, *answers([30, 1], 1), TICK, ("poll", 20),
        # In 6 before it has asked and after it, in 7 and in 8; back in step 4 it is taken.
        ("bus-off", 1, 9), ("stall", 20, 3), TICK, ("stall", 20, 3), *answers([30, 1], 1), TICK, ("stall", 20, 3), *ticks(2),
        ("request", 20, 1), TICK, ("stall", 20, 3), ("request", 20, 2), TICK, ("stall", 20, 255),
        # No is wanted, and it goes down from 15 though nothing was asked there.
        ("request", 20, 0), TICK, ("stall", 20, 3), ("poll", 20), ("clear", 5), TICK,
    ],
    # Lent buffers: what is too short changes nothing and leaves every byte; of more bytes those behind the record stay.
    [
        *begun(SHEET), *DOWN, *UP, ("stall", 7, 0), ("stall", 7, 1), ("stall", 7, 2), ("poll", 7), ("stall", 7, 3), ("poll", 7),
        *RESET, ("stall", 7, 4), *RESET, ("stall", 7, 5), *RESET, ("stall", 7, 9), *RESET, ("stall", 7, 143), *RESET,
        ("stall", 7, 144), *RESET, ("stall", 7, 255), *RESET, ("poll", 7),
    ],
    # In step 5: full is told on the third tick, and passed comes again three ticks later; a tick with 8 bytes is none.
    [
        *begun(SHEET), *DOWN, *UP, *CHECKED, STALL, ("poll", 7), ("tick", 8), ("tick", 9), *answers([3], 0), ("tick", 8),
        ("tick", 9), *answers([3], 1), ("tick", 8), ("tick", 9), ("poll", 7), ("tick", 9), ("tick", 8), ("tick", 9), ("tick", 9),
    ],
    # Answers from before it are refused, and do not count afterwards; a refusal makes the step ask again.
    [
        *begun(SHEET), *DOWN, *UP, STALL, *answers([3], 0), *answers([3], 1), *answers([3], 2), TICK, TICK, *answers([3], 1),
        *answers([3], 2), *answers([3], 0, 0), TICK, *answers([3], 0), *answers([3], 0, 0), TICK, *answers([3], 0, 2),
        *answers([3], 0), TICK, *answers([3], 0), *answers([3], 1, 0), TICK, *answers([3], 1), ("answer", 7, 1, 1), TICK,
        *answers([3], 1), *CHECKED,
    ],
    # The count stays: after one bus-off and a stall the next bus-off brings the long delay.
    [
        *begun(SHEET), *DOWN, *UP, BUS_OFF, *RESTARTED, *ticks(2), STALL, *RESET, BUS_OFF, *RESTARTED, *ticks(4), ("poll", 7),
        TICK, ("poll", 7),
    ],
    # It is not counted: a bus-off after three of them brings the short delay; passed clears the count as ever.
    [
        *begun(SHEET), *DOWN, *UP, STALL, *RESET, STALL, *RESET, STALL, *RESET, BUS_OFF, *RESTARTED, TICK, ("poll", 7), TICK,
        ("poll", 7), STALL, *RESET, *CHECKED, BUS_OFF, *RESTARTED, *ticks(2), ("poll", 7),
    ],
    # Bus-offs in 15, before it has asked and after it, and in 16: taken and counted. Too few bytes: 20, and nothing happened.
    [
        *begun(SHEET), *DOWN, *UP, STALL, ("bus-off", 3, 8), ("bus-off", 99, 9), ("bus-off", 3, 9), *answers([3], 0), *RESTARTED,
        *ticks(2), STALL, TICK, *answers([3], 0), BUS_OFF, *answers([3], 0), *answers([3], 1), *RESTARTED, *ticks(5), STALL, TICK,
        *answers([3], 0), TICK, *answers([3], 1), ("bus-off", 3, 8), BUS_OFF, ("poll", 7), *answers([3], 1), *RESTARTED,
        *ticks(5), ("poll", 7),
    ],
    # Silent asked for in 15 and in 16: when the controllers run the network is silent, and full when that is wanted again.
    [
        *begun(SHEET), *DOWN, *UP, STALL, ("request", 7, 1), *RESET, ("poll", 7), STALL, ("request", 7, 2), TICK, STALL, TICK,
        *answers([3], 0), TICK, ("request", 7, 3), ("request", 7, 1), *answers([3], 1), TICK, STALL, ("request", 7, 2), TICK,
        # Silent was wanted before the stall, and is wanted no more in 16.
        ("request", 7, 1), STALL, TICK, *answers([3], 0), TICK, ("request", 7, 2), *answers([3], 1), TICK, ("poll", 7),
    ],
    # No wanted before the stall, in 15 and in 16, with all answers there: it goes down, and silent is not told a second time.
    [
        *begun(SHEET), *DOWN, *UP, ("request", 7, 0), STALL, TICK, STALL, *answers([3], 0), TICK, *answers([3], 2), TICK, *UP,
        STALL, TICK, *answers([3], 0), ("request", 7, 0), TICK, *answers([3], 0), TICK, *answers([3], 2), TICK, *UP, STALL, TICK,
        *answers([3], 0), TICK, *answers([3], 1), ("request", 7, 0), ("poll", 7), TICK, ("request", 7, 1), ("poll", 7),
    ],
    # With a transceiver alone: a reset leaves the transceiver as it is.
    [
        *begun(WITH_TRANSCEIVER), TICK, *answers([4], 0), TICK, *answers([4], 2), TICK, ("transceiver", 6, 1), ("request", 9, 2),
        *ticks(2), ("transceiver", 6, 0), TICK, *answers([4], 0), TICK, *answers([4], 1), TICK, ("stall", 6, 3), ("stall", 4, 3),
        ("stall", 9, 3), TICK, ("transceiver", 6, 0), *answers([4], 0), TICK, ("transceiver", 6, 1), *answers([4], 1), TICK, TICK,
    ],
    # Two networks of two controllers each: each is stalled while the other is full, then both at once.
    [
        *begun(PAIR), TICK, *answers([10, 11, 12, 0], 0), TICK, *answers([10, 11, 12, 0], 2), TICK, ("request", 1, 2),
        ("request", 2, 2), ("transceiver", 3, 1), TICK, *answers([10, 11], 0), TICK, *answers([11, 10], 1), ("transceiver", 3, 0),
        TICK, *answers([12, 0], 0), TICK, *answers([12, 0], 1), TICK, ("stall", 2, 3), ("poll", 1), ("poll", 2), TICK,
        ("stall", 12, 3), *answers([12], 0), ("tick", 23), ("tick", 24), *answers([0], 0), TICK, *answers([0, 12], 1), TICK,
        ("poll", 1), ("poll", 2), ("stall", 1, 3), TICK, *answers([10, 11], 0), ("stall", 2, 3), ("stall", 1, 3), TICK,
        *answers([10, 11], 1), *answers([12, 0], 0), TICK, ("poll", 1), ("poll", 2), *answers([12, 0], 1), ("bus-off", 0, 9),
        *answers([12, 0], 1), TICK, *answers([12, 0], 1), ("stall", 1, 3), ("stall", 2, 3), TICK, ("poll", 1), ("poll", 2),
    ],
]

SILENT = ("request", 7, 1)

SILENT_TOLD_APART = [
    # Silent goes by the step and by nothing else: 25 from the start on, asked or not, answered or not, whatever is wanted; 08 at rest, also
    # where full is wanted and no tick has come; 24 from that tick on, after a bus-off in step 3 too. What is refused is not stored.
    [
        *begun(SHEET), SILENT, TICK, SILENT, *answers([3], 0), SILENT, ("request", 7, 2), SILENT, ("request", 7, 0), TICK, SILENT,
        *answers([3], 2), SILENT, TICK, SILENT, TICK, SILENT, ("request", 7, 2), SILENT, ("request", 7, 3), ("request", 3, 1), TICK, SILENT,
        *answers([3], 0), SILENT, TICK, SILENT, *answers([3], 1), SILENT, BUS_OFF, SILENT, TICK, *answers([3], 1), SILENT, TICK, ("poll", 7),
    ],
    # No wanted while it comes up: 24 until the tick that goes down, 25 after it. While up it is taken, the last word counts, and the tick
    # that goes down makes it 25.
    [
        *begun(SHEET), *DOWN, ("request", 7, 2), TICK, ("request", 7, 0), SILENT, TICK, SILENT, *answers([3], 0), TICK, *answers([3], 2),
        TICK, SILENT, *UP, SILENT, ("request", 7, 0), TICK, SILENT, ("poll", 7), *answers([3], 0), TICK, SILENT, *answers([3], 2), SILENT,
        TICK, SILENT, ("poll", 7),
    ],
    # With partial networking: 25 in 9 to 13, and through 14, with sleep refused, back in 9.
    [
        *begun(PARTIAL), ("request", 20, 1), TICK, ("request", 20, 1), ("clear", 5), TICK, ("request", 20, 1), *answers([30, 1], 0), TICK,
        ("request", 20, 1), ("transceiver", 5, 1), TICK, ("request", 20, 1), *answers([30, 1], 2, 0), TICK, ("request", 20, 1),
        ("check", 5), TICK, ("request", 20, 1), ("clear", 5), TICK, *answers([30, 1], 0), TICK, ("transceiver", 5, 1), TICK,
        *answers([30, 1], 2), TICK, ("request", 20, 1), ("check", 5), TICK, ("request", 20, 1), ("request", 20, 2), TICK,
        ("request", 20, 1), ("transceiver", 5, 0), TICK, ("request", 20, 1),
    ],
    # Two networks: one is at rest while the other goes down, comes up while the other rests, and is up while the other comes up.
    [
        *begun(PAIR), TICK, *answers([10, 11], 0), TICK, *answers([10, 11], 2), TICK, ("request", 1, 1), ("request", 2, 1),
        ("request", 1, 2), TICK, ("request", 1, 1), ("request", 2, 1), *answers([10, 11, 12, 0], 0), TICK, *answers([10, 11], 1),
        *answers([12, 0], 2), TICK, ("request", 1, 1), ("request", 2, 1), ("transceiver", 3, 1), TICK, ("request", 1, 1),
        ("request", 2, 1), ("request", 2, 2), TICK, ("request", 1, 0), ("request", 2, 1), TICK, ("request", 1, 1), ("request", 2, 1),
    ],
]

# From the start of the sheet of two chips to full, told on the last tick; from a bus-off to step 7; one fault that both report.
BOTH_UP = [
    *begun(TWO_CHIPS), TICK, *answers([5, 6], 0), TICK, *answers([5, 6], 2), TICK, ("request", 8, 2), TICK, *answers([5, 6], 0), TICK,
    *answers([5, 6], 1), TICK,
]
BOTH_RESTARTED = [TICK, *answers([5, 6], 1), TICK]
FAULT = [("bus-off", 5, 9), ("bus-off", 6, 9)]

ONE_FAULT_OF_TWO_CHIPS = [
    # One fault that both chips report: the short delay. A second one, in step 7: the long delay. After passed the short one again.
    [
        *BOTH_UP, *FAULT, *BOTH_RESTARTED, TICK, ("poll", 8), TICK, ("poll", 8), *FAULT, *BOTH_RESTARTED, *ticks(4), ("poll", 8), TICK,
        ("poll", 8), *CHECKED, *FAULT, *BOTH_RESTARTED, *ticks(2), ("poll", 8),
    ],
    # Reports in step 6 before the request, with too few bytes, after the request, after one answer and after both: each forgets the answers,
    # hands out its three records and is not counted. Then one in step 7, which is.
    [
        *BOTH_UP, *FAULT, ("bus-off", 6, 8), ("bus-off", 5, 9), *answers([5, 6], 1), TICK, ("bus-off", 6, 9), *answers([5], 1), TICK,
        *answers([5], 1), ("bus-off", 6, 9), *answers([6], 1), TICK, *answers([5, 6], 1), ("bus-off", 5, 9), TICK, TICK, *answers([5, 6], 1),
        TICK, TICK, ("bus-off", 6, 9), *BOTH_RESTARTED, *ticks(4), ("poll", 8), TICK, ("poll", 8),
    ],
    # Silent wanted in step 6, and a report there; in step 8 a report is a fault again.
    [
        *BOTH_UP, ("bus-off", 5, 9), ("request", 8, 1), TICK, ("bus-off", 6, 9), *BOTH_RESTARTED, *ticks(2), ("poll", 8), *FAULT,
        ("request", 8, 2), *BOTH_RESTARTED, *ticks(4), ("poll", 8), TICK, ("poll", 8),
    ],
    # A shutdown in step 6: after it a report is a fault again, and the count is the one from before.
    [
        *BOTH_UP, *FAULT, ("request", 8, 0), TICK, ("bus-off", 5, 9), *answers([5, 6], 0), TICK, *answers([5, 6], 2), TICK, ("request", 8, 2),
        TICK, *answers([5, 6], 0), TICK, *answers([5, 6], 1), TICK, *FAULT, *BOTH_RESTARTED, *ticks(4), ("poll", 8), TICK, ("poll", 8),
    ],
    # A stall, and in step 15 and in step 16 a fault that both chips report: counted once each.
    [
        *BOTH_UP, ("stall", 8, 3), *FAULT, *BOTH_RESTARTED, *ticks(2), ("poll", 8), ("stall", 8, 3), TICK, *answers([5, 6], 0), TICK, *FAULT,
        *BOTH_RESTARTED, *ticks(4), ("poll", 8), TICK, ("poll", 8),
    ],
]

FIELD_07 = [
    # Sheets with it: the smallest, which needs 29 bytes; read again without it, refused with it, and read again with it.
    [
        ("new",), ("read", BY_NEWER_RULE), ("write", 28), ("write", 29), ("write", SHEET_ROOM), ("read", SHEET), ("write", 25),
        ("read", BY_NEWER_RULE + NEWER_RULE), ("write", SHEET_ROOM), ("read", BY_NEWER_RULE), ("start",), ("read", SHEET), ("write", 28),
        ("write", 29), ("write", 0xFFFF),
    ],
    # The largest sheet of all: 360 bytes, before the start and after it. The ticks need no more than before.
    [
        ("new",), ("read", LARGEST_BY_NEWER_RULE), ("write", 328), ("write", 359), ("write", 360), ("write", 361), ("write", SHEET_ROOM),
        ("start",), ("write", 359), ("write", 360), ("tick", 143), TICK, ("poll", 255), ("poll", 248),
    ],
    # In one of two networks: each is written as it was read.
    [
        ("new",), ("read", BOTH_RULES), ("write", 53), ("write", 54), ("read", BOTH_RULES[25:] + BOTH_RULES[:25]), ("write", 54),
        ("read", LARGEST + NEWER_RULE), ("write", 331), ("write", 332),
    ],
    # Its refusals: at the start; before field 06; twice; other values; other lengths; cut. The order of the tests: the length first, then the
    # cut, the order, the range.
    [
        ("new",), ("read", NEWER_RULE), ("read", NEWER_RULE + SHEET), ("read", SHEET[:4] + NEWER_RULE), ("read", SHEET[:8] + NEWER_RULE),
        ("read", SHEET[:17] + NEWER_RULE), ("read", SHEET[:21] + NEWER_RULE + SHEET[21:]), ("read", BY_NEWER_RULE + NEWER_RULE),
        ("read", BY_NEWER_RULE + b"\x07\x00\x01\x02"), ("read", SHEET + b"\x07\x00\x01\x00"), ("read", SHEET + b"\x07\x00\x01\x02"),
        ("read", SHEET + b"\x07\x00\x01\xff"), ("read", SHEET + b"\x07\x00\x00"), ("read", SHEET + b"\x07\x00\x02\x01\x01"),
        ("read", SHEET + b"\x07\x00\x02"), ("read", SHEET + b"\x07\x00\x01"), ("read", SHEET + b"\x07\x00"), ("read", SHEET + b"\x07"),
        ("read", BY_NEWER_RULE[:28]), ("read", BY_NEWER_RULE + SHEET[4:]), ("read", BY_NEWER_RULE + SHEET), ("read", BY_NEWER_RULE + b"\x01"),
        ("read", LARGEST_BY_NEWER_RULE + NEWER_RULE), ("read", LARGEST_BY_NEWER_RULE + network(0, [0])), ("start",), ("write", SHEET_ROOM),
    ],
    # The tag above it is unknown.
    [("new",), ("read", b"\x08" + SHEET), ("read", SHEET + b"\x08\x00\x01\x01"), ("read", BY_NEWER_RULE + b"\x08\x00\x01\x01")],
]


def recovered(delay):
    """From a bus-off to full, told on the tick of the delay and two and not before."""
    return [BUS_OFF, *RESTARTED, *ticks(delay - 1), ("poll", 7), TICK, ("poll", 7)]


def fallen(threshold, relation, delays):
    """Up, and one bus-off after the other, each when full is told again, with these delays; then passed, and once more the first delay."""
    sheet = network(7, [3], threshold=threshold, relation=relation)
    recoveries = [call for delay in delays for call in recovered(delay)]
    return [*begun(sheet), *DOWN, *UP, *recoveries, *CHECKED, *recovered(delays[0])]


AT_THE_THRESHOLD = [
    # One bus-off below the threshold, one at it, one above it: by the newer rule the second has the long delay, by the older the third.
    fallen(2, model.Relation.AT_OR_ABOVE, [2, 5, 5]),
    fallen(2, model.Relation.ABOVE, [2, 2, 5]),
    # The threshold 1: by the newer rule the first bus-off has the long delay.
    fallen(1, model.Relation.AT_OR_ABOVE, [5, 5]),
    fallen(1, model.Relation.ABOVE, [2, 5]),
    # The threshold 0: every bus-off has the long delay, by both.
    fallen(0, model.Relation.AT_OR_ABOVE, [5]),
    fallen(0, model.Relation.ABOVE, [5]),
    # Two networks that are alike but for field 07, and all that befalls them is alike: at the threshold of 2 they part.
    [
        *begun(BOTH_RULES), TICK, *answers([10, 11], 0), TICK, *answers([10, 11], 2), TICK, ("request", 1, 2), ("request", 2, 2), TICK,
        *answers([10, 11], 0), TICK, *answers([10, 11], 1), TICK, ("bus-off", 10, 9), ("bus-off", 11, 9), TICK, *answers([10, 11], 1), *ticks(2),
        ("poll", 1), ("poll", 2), TICK, ("poll", 1), ("poll", 2), ("bus-off", 10, 9), ("bus-off", 11, 9), TICK, *answers([10, 11], 1), *ticks(2),
        ("poll", 1), ("poll", 2), TICK, ("poll", 1), ("poll", 2), *ticks(2), ("poll", 2), TICK, ("poll", 1), ("poll", 2),
    ],
    # By the newer rule, two chips: reports of one fault in step 6 are not counted, so one fault does not come up to the threshold of 2.
    [
        *begun(network(8, [5, 6], threshold=2, relation=model.Relation.AT_OR_ABOVE)), *BOTH_UP[3:], *FAULT, ("bus-off", 5, 9), *BOTH_RESTARTED,
        TICK, ("poll", 8), TICK, ("poll", 8), *FAULT, *BOTH_RESTARTED, *ticks(4), ("poll", 8), TICK, ("poll", 8),
    ],
]


def spoilt(places, value):
    """The network with each of the seven fields, with this value at these places."""
    return bytes(value if place in places else byte for place, byte in enumerate(EVERY_FIELD))


# S29: each number of one byte out of its range; of the three times each, two of them, and all, by their low bytes.
OUT_OF_RANGE = [spoilt([7], 32), spoilt([11], 8), spoilt([24], 255), spoilt([28], 2), spoilt([32], 0)]
OUT_OF_RANGE += [spoilt(zeros, 0) for zeros in ([16], [18], [20], [16, 18], [16, 20], [18, 20], [16, 18, 20])]
# S28: each length wrong in its low byte, and in its high byte.
WRONG_LENGTH = [spoilt([place], 2) for place in (2, 6, 10, 14, 23, 27, 31)] + [spoilt([place], 1) for place in (1, 5, 9, 13, 22, 26, 30)]

WHERE_A_READING_IS_REFUSED = [
    # In the first network and in a second one; and a wrong length as the very last bytes.
    [("new",), *(("read", before + sheet) for sheet in OUT_OF_RANGE + WRONG_LENGTH for before in (b"", SHEET))],
    [("new",), *(("read", SHEET + WRONG_LENGTH[index][:end]) for index, end in enumerate((3, 7, 11, 15, 24, 28, 32)))],
    # The former sheet stays in force. After the start the place is 0, whatever the bytes are.
    [
        ("new",), ("read", EVERY_FIELD), ("read", OUT_OF_RANGE[6]), ("write", 33), ("read", WRONG_LENGTH[3]), ("write", 33), ("start",),
        ("read", OUT_OF_RANGE[6]), ("read", WRONG_LENGTH[3]), ("write", 33), ("tick", 8), ("tick", 9), ("poll", 8),
    ],
]

# Eight networks of a controller each: handles 10 to 17, controllers 27 down to 20.
EIGHT = b"".join(network(10 + n, [27 - n]) for n in range(8))
EIGHT_CONTROLLERS = range(20, 28)
ON, OFF = ("listen", 1, RECORDS_ROOM), ("listen", 0, RECORDS_ROOM)


def lived(handle, controllers, to_stopped, ensure, delay):
    """From step 0, with the way to step 2: full, passed, a bus-off and its delay, silent and back, a stall and its reset, and down by one tick."""
    stopped, started = answers(controllers, 0), answers(controllers, 1)
    return [
        ("request", handle, 2), *to_stopped, *stopped, TICK, *started, TICK, *ticks(ensure), ("bus-off", controllers[-1], 9), TICK,
        *started, TICK, *ticks(delay), ("request", handle, 1), TICK, ("request", handle, 2), TICK, ("stall", handle, 3), TICK, *stopped, TICK,
        *started, TICK, ("request", handle, 0), TICK,
    ]


# A life of each outfit from the start on, through all its steps; with partial networking sleep is refused once.
BARE_LIFE = [*begun(SHEET), *DOWN, *lived(7, [3], [TICK], 3, 2)]
FITTED_LIFE = [
    *begun(WITH_TRANSCEIVER), TICK, *answers([4], 0), TICK, *answers([4], 2), TICK, ("transceiver", 6, 1), TICK,
    *lived(9, [4], [TICK, ("transceiver", 6, 0), TICK], 1, 2),
]
PARTIAL_LIFE = [
    *begun(PARTIAL), TICK, ("clear", 5), TICK, *answers([30, 1], 0), TICK, ("transceiver", 5, 1), TICK, *answers([30, 1], 2, 0), TICK,
    ("check", 5), TICK, ("clear", 5), TICK, *answers([30, 1], 0), TICK, ("transceiver", 5, 1), TICK, *answers([30, 1], 2), TICK, ("check", 5),
    TICK,
    *lived(20, [30, 1], [TICK, ("transceiver", 5, 0), TICK], 2, 3),
]


def with_listening(calls, *values):
    """These calls, and after the start and after each that may move a network calls to listen with these values."""
    moving = ("start", "tick", "bus-off", "stall")
    return [each for call in calls for each in (call, *(("listen", value, RECORDS_ROOM) for value in values if call[0] in moving))]


def listening_all_along(calls):
    """These calls, with listening set right after the start and cleared after the last."""
    place = calls.index(("start",)) + 1
    return [*calls[:place], ON, *calls[place:], OFF]


def eight_up(handles):
    """From the start of the eight networks: these come up to full, told on the last tick, and the others rest."""
    own = [37 - handle for handle in handles]
    return [
        *begun(EIGHT), TICK, *answers(EIGHT_CONTROLLERS, 0), TICK, *answers(EIGHT_CONTROLLERS, 2), TICK,
        *(("request", handle, 2) for handle in handles), TICK, *answers(own, 0), TICK, *answers(own, 1), TICK,
    ]


LISTENING = [
    # Before reading and before the start: 01, also where other refusals would apply. Nothing of it is kept: up, and online it is.
    [
        ("new",), ("listen", 2, 0), ("listen", 1, 3), ("read", SHEET), ("listen", 2, 0), ("listen", 2, 3), ("listen", 1, 2), ("listen", 1, 3),
        ("listen", 0, 3), ("start",), *DOWN, *UP, ("listen", 0, 3), ("listen", 1, 3),
    ],
    # 20 before 21, in step 10 and in step 4; what is refused leaves listening as it is, set or not.
    [
        *begun(SHEET), ("listen", 0, 0), ("listen", 1, 2), ("listen", 2, 2), ("listen", 255, 0), ("listen", 2, 3), ("listen", 3, RECORDS_ROOM),
        ("listen", 255, 255), ("listen", 0, 3), ("listen", 1, 3), ("listen", 0, 2), ("listen", 2, 3), *DOWN, *UP, ("listen", 0, 2), ("listen", 2, 2),
        ("listen", 2, 3), ("listen", 255, 255), ("listen", 1, 3), ("listen", 0, 3), ("listen", 1, 2), ("listen", 128, 3), ("listen", 0, 3),
        ("listen", 1, 3),
    ],
    # In every step of each outfit, asked and not asked: set and cleared again.
    with_listening(BARE_LIFE, 1, 0),
    with_listening(FITTED_LIFE, 1, 0),
    # With partial networking set twice and cleared twice: the second time nothing goes out.
    with_listening(PARTIAL_LIFE, 1, 1, 0, 0),
    # All along: online goes out with the argument 2, TX offline as ever, and nothing comes earlier or later.
    listening_all_along(BARE_LIFE),
    listening_all_along(FITTED_LIFE),
    listening_all_along(PARTIAL_LIFE),
    # Lent buffers: what is too short changes nothing and leaves every byte; of more bytes those behind the records stay.
    [
        *BOTH_UP, ("listen", 1, 0), ("listen", 1, 3), ("listen", 1, 5), ("listen", 1, 6), ("listen", 0, 5), ("listen", 0, 6),
        ("listen", 1, 7), ("listen", 0, 8), ("listen", 1, 9), ("listen", 0, 143), ("listen", 1, 144), ("listen", 0, 255), ("poll", 8),
    ],
    # A bus-off first: set in step 6 nothing goes out, then TX offline, and full with 2. Cleared in step 7: full with online, and set again.
    [
        *begun(SHEET), *DOWN, *UP, BUS_OFF, ON, TICK, ON, *answers([3], 1), TICK, *ticks(2), ("poll", 7), BUS_OFF, *RESTARTED, OFF, *ticks(5),
        ("poll", 7), ON, ("bus-off", 3, 8), BUS_OFF, OFF, ON, *RESTARTED, *ticks(5), OFF,
    ],
    # A stall first: set in step 15 before it has asked, cleared after that, set in 16; full with 2. Silent wanted of a reset: TX offline.
    [
        *begun(SHEET), *DOWN, *UP, STALL, ON, TICK, OFF, *answers([3], 0), TICK, ON, *answers([3], 1), TICK, ("poll", 7), STALL,
        ("request", 7, 1), *RESET, OFF, ON, ("request", 7, 2), TICK, ("stall", 7, 2), STALL, OFF, *RESET, ON,
    ],
    # Silent and no wanted while listening: set and cleared before the tick that sees it, and after it. Down and up again, listening all the while.
    [
        *begun(SHEET), *DOWN, *UP, ("request", 7, 1), ON, TICK, OFF, ON, ("request", 7, 2), OFF, TICK, ON, ("request", 7, 0), OFF, ON, TICK, OFF, ON,
        *answers([3], 0), TICK, *answers([3], 2), TICK, *UP, ("tick", 8), OFF, *CHECKED,
    ],
    # What was asked for is answered over it: in steps 10, 2, 3, 6 and 16 the call comes between the request and the answer.
    [
        *begun(SHEET), TICK, ON, *answers([3], 0), TICK, *answers([3], 2), OFF, TICK, ("request", 7, 2), TICK, ON, *answers([3], 0), TICK, OFF,
        *answers([3], 1), ON, TICK, BUS_OFF, TICK, OFF, *answers([3], 1), ON, TICK, *ticks(2), STALL, TICK, *answers([3], 0), TICK, OFF,
        *answers([3], 1), TICK, ("poll", 7),
    ],
    # Reading, writing and a second start leave it; a new manager has nothing of it.
    [
        *begun(SHEET), *DOWN, ON, ("read", PAIR), ("start",), ("write", 25), ("write", 24), *UP, ("read", b""), ("start",), OFF, ON, ("new",),
        ("read", SHEET), ("start",), *DOWN, *UP, OFF, ON,
    ],
    # Two networks of two controllers each, 12 bytes: none is full, the first alone, both, the first is stalled, the second has a bus-off.
    [
        *begun(PAIR), ("listen", 1, 11), ("listen", 1, 12), ("listen", 0, 12), TICK, *answers([10, 11, 12, 0], 0), TICK,
        *answers([10, 11, 12, 0], 2), TICK, ("request", 1, 2), ("request", 2, 2), ("transceiver", 3, 1), TICK, *answers([10, 11], 0), TICK,
        *answers([11, 10], 1), ("transceiver", 3, 0), TICK, ("listen", 1, 11), ("listen", 1, 12), *answers([12, 0], 0), TICK,
        *answers([12, 0], 1), TICK, ("poll", 1), ("poll", 2), ("listen", 0, 11), ("listen", 0, 12), ("listen", 1, 12), ("stall", 1, 3), OFF, ON,
        TICK, ("bus-off", 0, 9), OFF, ON, *answers([10, 11], 0), TICK, *answers([12, 0], 1), OFF, *answers([10, 11], 1), TICK, ON, ("poll", 1),
        ("poll", 2), ("request", 1, 1), *ticks(3), OFF, ("poll", 1), ("poll", 2), ON, ("request", 2, 0), TICK, OFF,
    ],
    # The other way round: the second network is full and the first is not, down, coming up and silent.
    [
        *begun(MIXED), ("tick", 21), *answers([3], 0), TICK, *answers([3], 2), TICK, *UP, ("listen", 1, 8), ("listen", 1, 9), ("listen", 0, 9),
        ("clear", 5), TICK, *answers([30, 1], 0), TICK, ("transceiver", 5, 1), TICK, *answers([30, 1], 2), TICK, ("check", 5), TICK, ON,
        ("request", 20, 2), TICK, ("transceiver", 5, 0), TICK, OFF, *answers([30, 1], 0), TICK, ON, *answers([1, 30], 1), TICK, OFF, ON,
        ("request", 20, 1), TICK, OFF,
    ],
    # Eight networks, 24 bytes: every second one is full; and all of them, in the order of the sheet. Then some are stalled, silent or going down.
    [*eight_up(range(10, 18, 2)), ("listen", 1, 23), ("listen", 1, 24), OFF],
    [
        *eight_up(range(10, 18)), ("listen", 1, 23), ("listen", 1, 24), ("listen", 0, 24), ("stall", 10, 3), ("stall", 17, 3), ("bus-off", 25, 9),
        ("request", 11, 1), ("request", 14, 0), ON, TICK, OFF, *answers([27, 20], 0), TICK, ON, *answers([27, 25, 20], 1), TICK, OFF, ON,
    ],
    # The largest sheet: 96 bytes, also where nothing would go out.
    [
        ("new",), ("read", LARGEST), ("listen", 1, 96), ("start",), ("listen", 1, 95), ("listen", 2, 95), ("listen", 2, 96), ("listen", 1, 96),
        TICK, OFF,
    ],
]

CALLS = [
    call
    for cases in (
        WHOLE_CASE, BENCH_CASES, REFUSALS, PARTIAL_NETWORKING, TWO_NETWORKS, STALLS, SILENT_TOLD_APART, ONE_FAULT_OF_TWO_CHIPS, FIELD_07,
        AT_THE_THRESHOLD, WHERE_A_READING_IS_REFUSED, LISTENING,
    )
    for case in cases
    for call in case
]

# ---------------------------------------------------------------------------
# The two files
# ---------------------------------------------------------------------------


def call_bytes(call):
    """A call as the program reads it."""
    name, *arguments = call
    if name == "read":
        return bytes([CODES[name]]) + len(arguments[0]).to_bytes(2, "big") + arguments[0]
    if name == "write":
        return bytes([CODES[name]]) + arguments[0].to_bytes(2, "big")
    return bytes([CODES[name], *arguments])


def outcome_of(manager, call):
    """What a call gives, by the model."""
    name, *arguments = call
    if room_of(name):
        *arguments, length = arguments
        arguments.append(min(length, room_of(name)))
    calls = {
        "read": manager.read,
        "start": manager.start,
        "write": manager.write,
        "request": manager.request,
        "bus-off": manager.bus_off,
        "answer": manager.controller_answer,
        "transceiver": manager.transceiver_mode,
        "clear": manager.clear_done,
        "check": manager.check_done,
        "tick": manager.tick,
        "poll": manager.poll,
        "stall": manager.stall,
        "listen": manager.listen,
    }
    return calls[name](*arguments)


def room_of(name):
    """The size of the buffer of which a part is lent; 0 for a call that takes none."""
    if name in ("bus-off", "tick", "stall", "listen"):
        return RECORDS_ROOM
    return SHEET_ROOM if name == "write" else 0


def shown_buffer(name, outcome):
    """The front of the buffer after the call: what was written and some bytes that must stay."""
    written = outcome.count if name == "write" else model.Limit.RECORD_BYTES * outcome.count
    after = model.lent_bytes_after(bytes([FILL]) * room_of(name), outcome)
    return after[:written + AFTER].hex()


def call_line(number, call, outcome):
    """The line of a call."""
    name = call[0]
    words = [number, name, outcome.answer, outcome.count, outcome.mode, outcome.place]
    if room_of(name):
        words.append(shown_buffer(name, outcome))
    return " ".join(str(word) for word in words)


def outcomes():
    """What each call gives; `new` gives a new manager and nothing else."""
    manager = model.Manager.new()
    for call in CALLS:
        if call == ("new",):
            manager = model.Manager.new()
            yield model.Outcome(model.ACCEPTED)
        else:
            yield outcome_of(manager, call)


def expected_input():
    """The calls as bytes, and the ending."""
    return b"".join(call_bytes(call) for call in CALLS) + ENDING


def expected_output():
    """The whole output, as bytes."""
    lines = [call_line(number, *pair) for number, pair in enumerate(zip(CALLS, outcomes()), 1)]
    return "".join(line + "\n" for line in [HEADER, *lines]).encode("ascii")


def difference(name, wanted):
    """Says that a stored file differs, and in which of its lines first; nothing where it doesn't."""
    path = FOLDER / name
    if not path.exists():
        return f"manager_cases: {name} is missing"
    stored = path.read_bytes()
    if stored == wanted:
        return ""
    if name == "stdin":
        return f"manager_cases: {name} differs from the cases"
    pairs = enumerate(zip(stored.splitlines(), wanted.splitlines()), 1)
    lines = [number for number, pair in pairs if pair[0] != pair[1]]
    return f"manager_cases: {name} differs from the model in lines {lines or 'after the last'}"


def check():
    """Compares the stored files with the cases and the model."""
    differing = [text for text in (difference("stdin", expected_input()), difference("stdout", expected_output())) if text]
    if differing:
        print("\n".join(differing))
        return 1
    times = collections.Counter(outcome.answer for outcome in outcomes())
    answer_words = ", ".join(f"{answer:02X}: {times[answer]}" for answer in sorted(times))
    print(f"manager_cases: {len(CALLS)} calls agree; answers by number: {answer_words}")
    return 0


def main(arguments):
    if arguments == ["--check"]:
        return check()
    if arguments:
        print(__doc__)
        return 2
    FOLDER.mkdir(parents=True, exist_ok=True)
    (FOLDER / "stdin").write_bytes(expected_input())
    (FOLDER / "stdout").write_bytes(expected_output())
    return 0


if __name__ == "__main__":
    sys.exit(main(sys.argv[1:]))
