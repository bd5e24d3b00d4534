#!/usr/bin/env python3
"""Makes the stored input and output of the program `trace_cases`: recorded inputs of `cantrace`, by the model of the rules.

    python3 tests/trace_cases.py              writes crates/trace_cases/stdin and .../stdout
    python3 tests/trace_cases.py --check      compares them instead, and exits 1 if anything differs or is not reached
    python3 tests/trace_cases.py --coverage   prints what the cases reach of all that the program can reach

The cases stand in `played_cases.py` and `damaged_cases.py`; `batches.py` describes the form of the two files.
"""

import sys
from collections import Counter
from pathlib import Path
from typing import Callable, Dict, Iterator, List

import batches
import coverage
import damaged_cases
import played_cases
from traces import Case

PRODUCT_FOLDER = Path(__file__).resolve().parent.parent / "crates" / "trace_cases"

GROUPS: List[Callable[[], Iterator[Case]]] = [
    played_cases.paper_cases,
    played_cases.tick_cases,
    played_cases.call_cases,
    played_cases.bus_off_cases,
    played_cases.answer_cases,
    played_cases.request_cases,
    played_cases.network_cases,
    damaged_cases.sheet_cases,
    damaged_cases.event_cases,
    damaged_cases.longest_cases,
    played_cases.reset_cases,
    played_cases.stall_cases,
    damaged_cases.bad_stall_cases,
    played_cases.silent_cases,
    played_cases.two_chip_cases,
    damaged_cases.field_07_cases,
    played_cases.threshold_cases,
    damaged_cases.pointed_at_cases,
    played_cases.listen_cases,
    damaged_cases.bad_listen_cases,
]


def all_cases() -> List[Case]:
    """The cases of all groups; each name and each input stands once."""
    cases = [case for group in GROUPS for case in group()]
    for what, values in (("name", [case.name for case in cases]), ("input", [case.data for case in cases])):
        for value, times in Counter(values).items():
            if times > 1:
                raise ValueError(f"the same {what} {times} times: {value!r}")
    return cases


def expected_files(cases: List[Case], outputs: List[str]) -> Dict[str, bytes]:
    """What the two files hold."""
    return {
        "stdin": batches.pack([case.data for case in cases]),
        "stdout": batches.join_outputs(outputs).encode("ascii"),
    }


# ---------------------------------------------------------------------------
# What can be wrong
# ---------------------------------------------------------------------------


def case_faults(cases: List[Case], outputs: List[str]) -> List[str]:
    """Where the model's last line is not the one that a case names, a line each."""
    faults = []
    for case, output in zip(cases, outputs):
        found = output.splitlines()[-1]
        if case.last_line not in ("", found):
            faults.append(f"trace_cases: {case.name}: the case says {case.last_line}, the model {found}")
    return faults


def coverage_faults(reached: coverage.Reached) -> List[str]:
    """What the cases should reach and do not, a line each."""
    faults = [f"trace_cases: not reached: {words}" for words in coverage.missing(reached)]
    return faults + [f"trace_cases: reached, though impossible: {words}" for words in coverage.surprises(reached)]


def output_difference(cases: List[Case], found: bytes, outputs: List[str]) -> str:
    """In which case and line the stored output differs from the model's first."""
    stored = batches.split_outputs(found.decode("ascii", "replace"))
    index = batches.first_difference(stored, outputs)
    if index is None:
        return "its first line"
    if index >= len(outputs):
        return f"case {index + 1} is one too many"
    if index >= len(stored):
        return f"case {index + 1} ({cases[index].name}) is missing"
    return f"case {index + 1} ({cases[index].name}), {batches.line_difference(stored[index], outputs[index])}"


def file_faults(cases: List[Case], outputs: List[str]) -> List[str]:
    """What is wrong with the stored files, a line each; nothing if they are as they should be."""
    faults = []
    for name, expected in expected_files(cases, outputs).items():
        path = PRODUCT_FOLDER / name
        found = path.read_bytes() if path.exists() else None
        if found is None:
            faults.append(f"trace_cases: {name} is missing")
        elif found != expected and name == "stdin":
            faults.append("trace_cases: stdin differs from the cases")
        elif found != expected:
            faults.append(f"trace_cases: stdout differs from the model: {output_difference(cases, found, outputs)}")
    return faults


# ---------------------------------------------------------------------------
# The program
# ---------------------------------------------------------------------------


def write_files(files: Dict[str, bytes]) -> None:
    """Store the two files."""
    PRODUCT_FOLDER.mkdir(parents=True, exist_ok=True)
    for name, expected in files.items():
        (PRODUCT_FOLDER / name).write_bytes(expected)


def main(arguments: List[str]) -> int:
    """Write the two files, or compare them, or print the table; the exit status is 0 if all is well."""
    if arguments not in ([], ["--check"], ["--coverage"]):
        print(__doc__)
        return 2
    cases = all_cases()
    reached = coverage.Reached()
    outputs = [coverage.watched_cantrace(case.data, reached) for case in cases]
    files = expected_files(cases, outputs)
    faults = case_faults(cases, outputs) + coverage_faults(reached)
    if arguments == ["--check"]:
        faults += file_faults(cases, outputs)
    elif arguments == ["--coverage"]:
        print("\n".join([*coverage.table(reached), *coverage.unreachable()]))
    else:
        write_files(files)
    if faults:
        print("\n".join(faults))
    print(f"trace_cases: {len(cases)} cases, {len(files['stdin'])} bytes of input, {len(files['stdout'])} bytes of output")
    return 1 if faults else 0


if __name__ == "__main__":
    sys.exit(main(sys.argv[1:]))
