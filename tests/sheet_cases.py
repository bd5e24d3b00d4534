#!/usr/bin/env python3
"""Makes the settings-sheet cases for the product from the case list and the model of the rules.

    python3 tests/sheet_cases.py           writes crates/sheet_cases/stdin and .../stdout
    python3 tests/sheet_cases.py --check   compares them instead of writing them

`stdin` holds for each case two bytes length, high byte first, and then the sheet's bytes.
`stdout` holds the lines that the product must print for them; all numbers are decimal.
"""

import sys
from collections import Counter
from itertools import zip_longest
from pathlib import Path
from typing import List, NamedTuple

import model

CASE_FILE = Path(__file__).resolve().parent / "sheet_cases.txt"
PRODUCT_FOLDER = Path(__file__).resolve().parent.parent / "crates" / "sheet_cases"
FIRST_LINE = "expected output made by: python3 tests/sheet_cases.py"
FILL_BYTE = 0xEE
WRITE_BUFFER_BYTES = 368
LARGEST_INPUT_BYTES = 30000
LINES_SHOWN = 20


class Case(NamedTuple):
    """One case: what is tried, what the rules say of it in words, and the sheet."""

    name: str
    expectation: str
    sheet: bytes


# ---------------------------------------------------------------------------
# The case list
# ---------------------------------------------------------------------------


def parse_case(name_line: str, sheet_line: str) -> Case:
    """A line `# name => expectation` and a line of hexadecimal bytes make a case."""
    name, arrow, expectation = name_line[2:].partition(" => ")
    if not name_line.startswith("# ") or not arrow:
        raise ValueError(f"not the name line of a case: {name_line}")
    sheet = b"" if sheet_line == "-" else bytes.fromhex(sheet_line)
    return Case(name, expectation, sheet)


def parse_cases(text: str) -> List[Case]:
    """Lines that begin with `##` and empty lines are no cases; the others stand in pairs."""
    lines = [line.strip() for line in text.splitlines()]
    lines = [line for line in lines if line and not line.startswith("##")]
    if len(lines) % 2 != 0:
        raise ValueError("a case has no sheet")
    return [parse_case(lines[place], lines[place + 1]) for place in range(0, len(lines), 2)]


def outcome_in_words(outcome: model.Outcome) -> str:
    """The outcome of a reading in the words of the case list."""
    if outcome.answer != model.ACCEPTED:
        return f"{outcome.answer:02X} at {outcome.place}"
    return f"accepted, {outcome.count} network{'' if outcome.count == 1 else 's'}"


def require_sound_list(cases: List[Case]) -> None:
    """Each name and each sheet stands once in the list, and the model does what its words say."""
    for what, values in (
        ("name", [case.name for case in cases]),
        ("sheet", [case.sheet for case in cases]),
    ):
        for value, times in Counter(values).items():
            if times > 1:
                raise ValueError(f"the same {what} {times} times: {value}")
    for case in cases:
        words = outcome_in_words(model.Manager.new().read(case.sheet))
        if words != case.expectation:
            raise ValueError(f"{case.name}: the list says {case.expectation}, the model {words}")


# ---------------------------------------------------------------------------
# The two files
# ---------------------------------------------------------------------------


def product_input(cases: List[Case]) -> bytes:
    """For each case two bytes length, high byte first, and the sheet's bytes."""
    data = b"".join(len(case.sheet).to_bytes(2, "big") + case.sheet for case in cases)
    if len(data) > LARGEST_INPUT_BYTES:
        raise ValueError(f"the input has {len(data)} bytes, more than {LARGEST_INPUT_BYTES}")
    return data


def network_line(number: int, network: model.Settings) -> str:
    """Handle, controllers, transceiver or `-`, short, long, ensure time, threshold, PN; by the newer rule for the threshold a 1 more."""
    controllers = ",".join(str(controller) for controller in network.controllers)
    transceiver = "-" if network.transceiver is None else str(network.transceiver)
    relation = " 1" if network.relation == model.Relation.AT_OR_ABOVE else ""
    return (
        f"{number} net {network.handle} {controllers} {transceiver} {network.short_delay} "
        f"{network.long_delay} {network.ensure_time} {network.threshold} {network.partial_networking}{relation}"
    )


def write_line(number: int, manager: model.Manager) -> str:
    """The writer with room enough: the sheet's length, and the buffer up to two bytes after it."""
    before = bytes([FILL_BYTE]) * WRITE_BUFFER_BYTES
    outcome = manager.write(len(before))
    after = model.lent_bytes_after(before, outcome)
    return f"{number} write {outcome.answer} {outcome.count} {after[:outcome.count + 2].hex()}"


def short_line(number: int, manager: model.Manager, sheet_length: int) -> str:
    """The writer with one byte too few: the refusal, length 0, and the buffer's first 4 bytes."""
    before = bytes([FILL_BYTE]) * (sheet_length - 1)
    outcome = manager.write(len(before))
    after = model.lent_bytes_after(before, outcome)
    return f"{number} short {outcome.answer} {outcome.count} {after[:4].hex()}"


def case_lines(number: int, case: Case) -> List[str]:
    """The lines of one case; a refused reading has one line only."""
    manager = model.Manager.new()
    outcome = manager.read(case.sheet)
    lines = [f"{number} {outcome.answer} {outcome.count} {outcome.place}"]
    if outcome.answer == model.ACCEPTED:
        lines += [network_line(number, network) for network in manager.sheet]
        lines.append(write_line(number, manager))
        lines.append(short_line(number, manager, len(case.sheet)))
    return lines


def product_output(cases: List[Case]) -> bytes:
    """The lines of all cases after the first line."""
    lines = [FIRST_LINE]
    for number, case in enumerate(cases, start=1):
        lines += case_lines(number, case)
    return "".join(line + "\n" for line in lines).encode("ascii")


# ---------------------------------------------------------------------------
# Writing and comparing
# ---------------------------------------------------------------------------


def byte_differences(name: str, found: bytes, expected: bytes) -> List[str]:
    """Says where two files of bytes differ first, and their lengths."""
    shorter = min(len(found), len(expected))
    differing = (place for place in range(shorter) if found[place] != expected[place])
    place = next(differing, shorter)
    return [
        f"{name}: first difference at offset {place}; "
        f"{len(found)} bytes found, {len(expected)} expected"
    ]


def line_differences(name: str, found: bytes, expected: bytes) -> List[str]:
    """Shows the first lines in which two texts differ."""
    found_lines = found.decode("ascii", "replace").split("\n")
    expected_lines = expected.decode("ascii").split("\n")
    shown = []
    for number, pair in enumerate(zip_longest(found_lines, expected_lines), start=1):
        if pair[0] != pair[1] and len(shown) < LINES_SHOWN:
            shown.append(f"{name} line {number}: found {pair[0]!r}, expected {pair[1]!r}")
    return shown


def differences(name: str, expected: bytes) -> List[str]:
    """What is wrong with one of the two files, in words; nothing if it is as it should be."""
    path = PRODUCT_FOLDER / name
    if not path.exists():
        return [f"{name}: missing"]
    found = path.read_bytes()
    if found == expected:
        return []
    if name == "stdout":
        return line_differences(name, found, expected)
    return byte_differences(name, found, expected)


def coverage_table(cases: List[Case]) -> List[str]:
    """How many cases there are for each refusal number of the sheet, and at how many places."""
    outcomes = [model.Manager.new().read(case.sheet) for case in cases]
    lines = ["refusal  cases  places"]
    numbers = [model.ACCEPTED] + list(range(model.Refusal.SHEET_CUT, model.Refusal.SHEET_NO_NETWORK + 1))
    for number in numbers:
        places = [outcome.place for outcome in outcomes if outcome.answer == number]
        lines.append(f"{number:7X}  {len(places):5}  {len(set(places)):6}")
    return lines


def main(arguments: List[str]) -> int:
    """Write the two files, or with `--check` compare them; the exit status is 0 if all is well."""
    if arguments not in ([], ["--check"]):
        print(__doc__)
        return 2
    cases = parse_cases(CASE_FILE.read_text(encoding="ascii"))
    require_sound_list(cases)
    files = {"stdin": product_input(cases), "stdout": product_output(cases)}
    if not arguments:
        PRODUCT_FOLDER.mkdir(parents=True, exist_ok=True)
        for name, expected in files.items():
            (PRODUCT_FOLDER / name).write_bytes(expected)
        return 0
    wrong = [line for name, expected in files.items() for line in differences(name, expected)]
    if wrong:
        print("\n".join(wrong))
        return 1
    print(f"{len(cases)} cases, {len(files['stdin'])} bytes of input, as expected")
    print("\n".join(coverage_table(cases)))
    return 0


if __name__ == "__main__":
    sys.exit(main(sys.argv[1:]))
