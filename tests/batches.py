"""Many inputs for one run of the program `trace_cases`, and its output taken apart again.

The program reads for each case four bytes length, high byte first, and then so many bytes of input. It writes a first line
of its own, then for each case a line `case K`, K from 1, and all that `cantrace` writes for the input.
"""

from itertools import zip_longest
from typing import List, Optional, Sequence

FIRST_LINE = "expected output made by: python3 tests/trace_cases.py"
LENGTH_BYTES = 4


def pack(inputs: Sequence[bytes]) -> bytes:
    """The inputs as the program reads them."""
    return b"".join(len(data).to_bytes(LENGTH_BYTES, "big") + data for data in inputs)


def unpack(packed: bytes) -> List[bytes]:
    """The inputs of a packed batch."""
    inputs = []
    place = 0
    while place < len(packed):
        start = place + LENGTH_BYTES
        end = start + int.from_bytes(packed[place:start], "big")
        if start > len(packed) or end > len(packed):
            raise ValueError(f"the batch is cut in the case at {place}")
        inputs.append(packed[start:end])
        place = end
    return inputs


def case_line(number: int) -> str:
    """The line before the output of a case."""
    return f"case {number}\n"


def join_outputs(outputs: Sequence[str]) -> str:
    """The whole output of the program, from those of the cases."""
    cases = (case_line(number) + output for number, output in enumerate(outputs, start=1))
    return FIRST_LINE + "\n" + "".join(cases)


def split_outputs(text: str) -> List[str]:
    """The outputs of the cases, from the whole output; the last may be cut where the program ended early."""
    lines = text.splitlines(keepends=True)
    if not lines or lines[0] != FIRST_LINE + "\n":
        return []
    outputs: List[List[str]] = []
    for line in lines[1:]:
        if line == case_line(len(outputs) + 1):
            outputs.append([])
        elif outputs:
            outputs[-1].append(line)
    return ["".join(output) for output in outputs]


def first_difference(found: Sequence[str], expected: Sequence[str]) -> Optional[int]:
    """The index of the first case whose output is not the expected one, or is missing; None where all are as expected."""
    for index, pair in enumerate(zip_longest(found, expected)):
        if pair[0] != pair[1]:
            return index
    return None


def line_difference(found: str, expected: str) -> str:
    """In which line two outputs differ first, in words."""
    pairs = zip_longest(found.splitlines(), expected.splitlines())
    for number, (found_line, expected_line) in enumerate(pairs, start=1):
        if found_line != expected_line:
            return f"line {number}: found {found_line!r}, expected {expected_line!r}"
    return "no line differs" if found == expected else "the newline at the end differs"
