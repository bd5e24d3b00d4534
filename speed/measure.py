#!/usr/bin/env python3
"""Measures the programs that `speed/run` has built, and prints the tables of docs/PERFORMANCE.md.

    speed/measure.py FOLDER         FOLDER has the programs main and stack and, for the emulator, the plugin count.so
    speed/measure.py FOLDER sums    only compares what the two sides hand out

Instructions are counted by `perf`, by valgrind or by the emulator's plugin, whichever is there, in two runs of which the second has more rounds:
the difference leaves out the start of the program. Times are the best of several runs, the two sides in turn; only their ratio is told.
"""

import os
import platform
import re
import resource
import shutil
import subprocess
import sys
import tempfile
import time
from pathlib import Path
from typing import Callable, Dict, List, NoReturn, Optional, Tuple

ROOT = Path(__file__).resolve().parent.parent
SIDES = ("proved", "yardstick")
WORKS = ("resting", "busy", "listening", "answers", "closed")
# work in which every record handed out goes into the sum
SUMMED = ("calm-box", "deaf-box", "quiet-box", "answers", "closed")
FEW, MANY = 1000, 5000
TIMED_ROUNDS = {"resting": 1_000_000, "busy": 500_000, "listening": 500_000, "answers": 1_000_000, "closed": 60_000}
EMULATOR_SHARE = 10
TIMES = 7
STACK_ROUNDS = 3_000_000
SIZES = (8_192, 16_384, 32_768, 65_536)


def fail(message: str) -> NoReturn:
    """Ends with a message."""
    sys.exit(f"speed/measure.py: {message}")


def output_of(command: List[str], data: bytes = b"") -> Tuple[str, str]:
    """What a command writes to its two outputs; a failure ends the measurement."""
    done = subprocess.run(command, input=data, stdout=subprocess.PIPE, stderr=subprocess.PIPE, check=False)
    if done.returncode != 0:
        fail(f"{' '.join(command)} ended with {done.returncode}: {done.stderr.decode(errors='replace').strip()}")
    return done.stdout.decode(errors="replace"), done.stderr.decode(errors="replace")


# ---------------------------------------------------------------------------
# Counters of instructions
# ---------------------------------------------------------------------------

Counter = Callable[[List[str], bytes], int]


def is_native() -> bool:
    """Whether this machine runs programs for x86-64 itself."""
    return platform.machine() in ("x86_64", "amd64")


def emulator() -> Optional[str]:
    """The emulator, if there is one."""
    return shutil.which("qemu-x86_64")


def by_perf(command: List[str], data: bytes) -> int:
    """The instructions of a command, by the processor's own counter."""
    counted = output_of(["perf", "stat", "-x", ",", "-e", "instructions:u", *command], data)[1]
    return int(counted.strip().splitlines()[-1].split(",")[0])


def by_valgrind(command: List[str], data: bytes) -> int:
    """The instructions of a command, by valgrind."""
    counted = output_of(["valgrind", "--tool=callgrind", "--callgrind-out-file=/dev/null", *command], data)[1]
    return int(re.search(r"Collected : (\d+)", counted)[1])


def by_emulator(plugin: Path) -> Counter:
    """A counter by the emulator's plugin."""

    def count(command: List[str], data: bytes) -> int:
        counted = output_of([emulator(), "-plugin", str(plugin), *command], data)[1]
        return int(re.search(r"^instructions (\d+)$", counted, re.MULTILINE)[1])

    return count


def perf_counts() -> bool:
    """Whether perf is there and this machine lets it count."""
    if shutil.which("perf") is None:
        return False
    tried = subprocess.run(["perf", "stat", "-x", ",", "-e", "instructions:u", "true"], capture_output=True, text=True, check=False)
    return tried.returncode == 0 and tried.stderr.strip().split(",")[0].isdigit()


def counter_of(folder: Path) -> Tuple[str, Counter]:
    """The first counter that is there, with its name."""
    if is_native() and perf_counts():
        return "perf", by_perf
    if is_native() and shutil.which("valgrind"):
        return "valgrind", by_valgrind
    if emulator() and (folder / "count.so").exists():
        return "the emulator's plugin", by_emulator(folder / "count.so")
    fail(
        "nothing here counts instructions. One of these is needed: perf (with a processor that lets it count), valgrind, "
        "or qemu-x86_64 with plugins and gcc"
    )


# ---------------------------------------------------------------------------
# The manager
# ---------------------------------------------------------------------------


def work_command(folder: Path, side: str, work: str, networks: int, controllers: int, rounds: int) -> List[str]:
    """The command that does a work."""
    return [str(folder / "main"), side, work, str(networks), str(controllers), str(rounds)]


def runs(prefix: List[str], command: List[str]) -> Tuple[int, float]:
    """The sum of a work and the nanoseconds of a round."""
    total, nanoseconds = output_of(prefix + command)[0].split()
    return int(total), float(nanoseconds)


def compare_sums(folder: Path, prefix: List[str]) -> int:
    """Both sides hand out the same records, on every number of networks and controllers: the number of comparisons."""
    compared = 0
    for networks in range(1, 9):
        for controllers in range(1, 5):
            for work in SUMMED:
                first, second = (runs(prefix, work_command(folder, side, work, networks, controllers, FEW))[0] for side in SIDES)
                if first != second:
                    fail(f"the two sides differ in '{work}' with {networks} networks of {controllers} controllers: {first} and {second}")
                compared += 1
    return compared


def instructions(count: Counter, folder: Path, side: str, work: str, networks: int, controllers: int) -> float:
    """The instructions of a round."""
    few, many = (count(work_command(folder, side, work, networks, controllers, rounds), b"") for rounds in (FEW, MANY))
    return (many - few) / (MANY - FEW)


def time_ratio(folder: Path, prefix: List[str], work: str, rounds: int) -> float:
    """The time of the proved side over that of the yardstick: of each the best of several runs, in turn."""
    best: Dict[str, float] = {}
    for _ in range(TIMES):
        for side in SIDES:
            taken = runs(prefix, work_command(folder, side, work, 8, 4, rounds))[1]
            best[side] = min(taken, best.get(side, taken))
    return best["proved"] / best["yardstick"]


def print_table(heads: List[str], rows: List[List[str]]) -> None:
    """A table as Markdown."""
    print("| " + " | ".join(heads) + " |")
    print("|" + "---|" * len(heads))
    for row in rows:
        print("| " + " | ".join(row) + " |")
    print(flush=True)


def costs(count: Counter, folder: Path, work: str, networks: int, controllers: int) -> List[str]:
    """The instructions of C and of the proved manager, and their ratio."""
    proved, yardstick = (instructions(count, folder, side, work, networks, controllers) for side in SIDES)
    return [f"{yardstick:.0f}", f"{proved:.0f}", f"{proved / yardstick:.1f}"]


def print_costs(count: Counter, folder: Path) -> None:
    """Eight networks with four controllers each: instructions, and times natively and in the emulator."""
    heads = ["work", "C", "proved", "ratio"]
    ways: List[Tuple[List[str], int]] = []
    if is_native():
        heads.append("time, native")
        ways.append(([], 1))
    if emulator():
        heads.append("time, emulator")
        ways.append(([emulator()], EMULATOR_SHARE))
    rows = []
    for work in WORKS:
        times = [f"{time_ratio(folder, prefix, work, TIMED_ROUNDS[work] // share):.1f}" for prefix, share in ways]
        rows.append([work, *costs(count, folder, work, 8, 4), *times])
    print_table(heads, rows)


def print_growth(count: Counter, folder: Path) -> None:
    """How instructions grow with the networks and with the controllers of each."""
    rows = []
    for networks, controllers in [(1, 4), (2, 4), (4, 4), (8, 1), (8, 2), (8, 3), (8, 4)]:
        row = [str(networks), str(controllers)]
        for work in WORKS:
            yardstick, proved, ratio = costs(count, folder, work, networks, controllers)
            row.append(f"{yardstick}, {proved} ({ratio})")
        rows.append(row)
    print_table(["networks", "controllers each", *WORKS], rows)


def print_stack(folder: Path) -> None:
    """The stack below the caller in bytes."""
    prefix = [] if is_native() else [emulator()]
    rounds = STACK_ROUNDS if is_native() else STACK_ROUNDS // EMULATOR_SHARE
    found: Dict[str, Dict[str, List[str]]] = {}
    for side in SIDES:
        for line in output_of([*prefix, str(folder / "stack"), side, str(rounds)])[0].splitlines():
            work, *numbers = line.split()
            if len(numbers) != 3:
                fail(f"the stack of '{work}' was not seen: more than {rounds} rounds are needed")
            found.setdefault(work, {})[side] = numbers
    rows = [[work, *(part for side in ("yardstick", "proved") for part in found[work][side])] for work in found]
    print_table(["work", "C, whole", "C, loop", "C, call", "proved, whole", "proved, loop", "proved, call"], rows)


# ---------------------------------------------------------------------------
# cantrace
# ---------------------------------------------------------------------------


def sheet_script() -> List[str]:
    """Eight networks with four controllers each, half of them with partial networking, as lines of a script."""
    lines = []
    for i in range(8):
        ids = " ".join(str(4 * i + k) for k in range(4))
        partial = " partial" if i % 2 else ""
        lines.append(f"network {4 * i} controllers {ids} transceiver {i} delays {2 + i} {5 + i} {3 + i} threshold {1 + i % 3}{partial}")
    return lines


def written(lines: List[str]) -> bytes:
    """The bytes of a script."""
    done = subprocess.run([str(ROOT / "tools" / "recording"), "write"], input="\n".join(lines).encode(), stdout=subprocess.PIPE, check=True)
    return done.stdout


def recording(event: str, size: int) -> bytes:
    """A recording of just this size: a sheet, one event again and again, and what is left as a cut field."""
    sheet, one = written(sheet_script()), written([event])
    data = sheet + one * ((size - len(sheet)) // len(one))
    return data + b"\x16\x00"[: size - len(data)]


def fields_alone(size: int) -> bytes:
    """As many fields as fit, none of them an event: the deepest split."""
    return (b"\x09\x00\x00" * (size // 3 + 1))[:size]


INPUTS: Dict[str, Callable[[int], bytes]] = {
    "ticks, 20 records a line": lambda size: recording("tick", size),
    "polls, no record": lambda size: recording("poll 4", size),
    "fields of a sheet, one line": fields_alone,
}


def cantrace_command() -> List[str]:
    """How the built program is run on this machine."""
    return [str(ROOT / "crates" / "cantrace" / "out" / "cantrace")] if is_native() else [str(ROOT / "cantrace")]


def seconds_of(data: bytes) -> Tuple[float, float, float]:
    """The best time of cantrace on an input, and of all runs together the seconds in the program and in the system."""
    best = 1e9
    with tempfile.TemporaryFile() as file, open(os.devnull, "wb") as nowhere:
        file.write(data)
        before = resource.getrusage(resource.RUSAGE_CHILDREN)
        for _ in range(5 * TIMES):
            file.seek(0)
            start = time.perf_counter()
            subprocess.run(cantrace_command(), stdin=file, stdout=nowhere, check=True)
            best = min(best, time.perf_counter() - start)
        after = resource.getrusage(resource.RUSAGE_CHILDREN)
    return best, after.ru_utime - before.ru_utime, after.ru_stime - before.ru_stime


def print_cantrace(count: Counter) -> None:
    """Time and instructions of cantrace at four sizes."""
    rows = []
    for name, make in INPUTS.items():
        for size in SIZES:
            data = make(size)
            text = subprocess.run(cantrace_command(), input=data, stdout=subprocess.PIPE, check=True).stdout
            best, user, system = seconds_of(data)
            counted = f"{count(cantrace_command(), data) // 1000:,}" if is_native() else "-"
            share = f"{system / (user + system):.0%}" if user + system > 0 else "-"
            rows.append([name, f"{size:,}", f"{text.count(10):,}", f"{len(text):,}", counted, f"{best * 1000:.1f}", share])
    print_table(["input", "bytes", "lines", "bytes out", "thousand instructions", "milliseconds", "of it in the system"], rows)


def print_tables(folder: Path) -> None:
    """Prints all tables."""
    name, count = counter_of(folder)
    print(f"machine {platform.machine()}; instructions counted by {name}\n")
    print("Eight networks, four controllers each: instructions of a round, and times as ratios to C\n")
    print_costs(count, folder)
    print("Growth: instructions of a round, C and proved, and their ratio\n")
    print_growth(count, folder)
    print("Stack in bytes: the whole below the caller, of it the loop's own, and the call's\n")
    print_stack(folder)
    print("cantrace\n")
    print_cantrace(count)


def main(arguments: List[str]) -> None:
    """Compares the two sides, and measures them where that is asked."""
    if not arguments or not Path(arguments[0]).is_dir() or arguments[1:] not in ([], ["sums"]):
        fail("usage: speed/measure.py FOLDER [sums]; speed/run makes the folder")
    folder = Path(arguments[0])
    compared = compare_sums(folder, [] if is_native() else [emulator()])
    print(f"{compared} sums over what the proved manager and the rules in C hand out: all equal")
    if not arguments[1:]:
        print_tables(folder)


if __name__ == "__main__":
    main(sys.argv[1:])
