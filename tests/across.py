"""What is said of networks that stand beside each other: nothing leaks across. The rules V1 to V7 of docs/RULES.md.

Written over calls, answers and records alone. Of the record that a network is left with nothing is read: two are held against each other.
A run has the latest entry last. The words have the names of the definitions in `crates/demands/specs/Across.antt` (`names`, `asked`,
`given`); `faults` names every part of the rules that is false of two runs.
"""

from typing import Dict, List, NamedTuple, Set

from model import ACCEPTED, NetworkRecord, Record, Settings
from promises import ANSWER, BUS_OFF, CHECKED, CLEARED, LISTEN, REPORT, REQUEST, STALL, TICK, Call, own_records

# Calls that have no name in `promises.py`. The numbers of a reading are the bytes of the sheet.
POLL = "poll"
READ = "read"
WRITE = "write"
START = "start"
# V1: the calls that name a network by its handle, by one of its controllers, and by its transceiver
BY_HANDLE = (REQUEST, POLL, STALL)
BY_CONTROLLER = (BUS_OFF, ANSWER)
BY_TRANSCEIVER = (REPORT, CLEARED, CHECKED)
# V1: and those that name nobody
TO_NOBODY = (READ, WRITE, START, TICK, LISTEN)
# V2: of these the accepted ones reach every network
TO_ALL = (TICK, LISTEN)


class Entry(NamedTuple):
    """A call, the number that answers it, the polled mode, and all records that it hands out."""

    call: Call
    number: int
    mode: int
    records: List[Record]


class Given(NamedTuple):
    """What a network is given for what reached it: the number of the answer, the polled mode, and the records that name its own ids."""

    number: int
    mode: int
    records: List[Record]


class Run(NamedTuple):
    """A run since the start: the sheet, the entries, and the record that one network is left with."""

    networks: List[Settings]
    entries: List[Entry]
    record: NetworkRecord


# ---------------------------------------------------------------------------
# What reaches a network, and what it is given
# ---------------------------------------------------------------------------


def ids_for(network: Settings, name: str) -> List[int]:
    """The ids of the network by which a call of this name can name it."""
    if name in BY_HANDLE:
        return [network.handle]
    if name in BY_CONTROLLER:
        return network.controllers
    if name in BY_TRANSCEIVER and network.transceiver is not None:
        return [network.transceiver]
    return []


def names(network: Settings, call: Call) -> bool:
    """Whether the call names the network."""
    # V1: the id is the first number of the call
    return call.name not in TO_NOBODY and call.values[0] in ids_for(network, call.name)


def asked_by(network: Settings, entry: Entry) -> List[Call]:
    """What reaches the network of an entry, and what of it counts, as a list of none or one."""
    call = entry.call
    # V2, V3: a call that names it, with all its numbers and the length of what it is lent
    if names(network, call):
        return [call]
    # V2, V3: of an accepted tick that it came, and of an accepted call to listen the value
    if call.name in TO_ALL and entry.number == ACCEPTED:
        return [Call(call.name, call.values)]
    return []


def asked(network: Settings, entries: List[Entry]) -> List[Call]:
    """What reaches the network, in its order."""
    return [call for entry in entries for call in asked_by(network, entry)]


def same_to(network: Settings, run: Run, other: Run) -> bool:
    """Whether two runs are the same to the network."""
    # V3: the same reached it, in the same order
    return asked(network, run.entries) == asked(network, other.entries)


def given(network: Settings, entries: List[Entry]) -> List[Given]:
    """What the network is given, for each that reached it."""
    # V4: the answer, the polled mode, and its own records in their order
    return [Given(entry.number, entry.mode, own_records(network, entry.records)) for entry in entries if asked_by(network, entry)]


# ---------------------------------------------------------------------------
# The rules
# ---------------------------------------------------------------------------


def unlike(network: Settings, run: Run, other: Run) -> Set[str]:
    """The parts of V4 that are false of two runs, if these are the same to the network; with two sheets they are those of V6."""
    if not same_to(network, run, other):
        return set()
    # V6: on two sheets the same holds
    rule = "V4" if run.networks == other.networks else "V6"
    found = set() if run.record == other.record else {f"{rule} record"}
    for one, two in zip(given(network, run.entries), given(network, other.entries)):
        found.update(f"{rule} given {part}" for part in Given._fields if getattr(one, part) != getattr(two, part))
    return found


def leaked(network: Settings, run: Run) -> Set[str]:
    """Whether what does not reach the network hands out a record with its ids."""
    # V5: own by kind, whatever the number names beside it
    strange = [record for entry in run.entries if not asked_by(network, entry) for record in own_records(network, entry.records)]
    return {"V5"} if strange else set()


def held_up(entries: List[Entry]) -> Set[str]:
    """Whether some call that names nobody has two answers; the entries are those of one sheet."""
    # V7: its arguments decide, and the sheet
    numbers: Dict[Call, int] = {}
    differ = [entry for entry in entries if entry.call.name in TO_NOBODY and numbers.setdefault(entry.call, entry.number) != entry.number]
    return {"V7"} if differ else set()


def faults(network: Settings, run: Run, other: Run) -> Set[str]:
    """The parts of the rules that are false of two runs, for a network that stands with the same settings in both sheets."""
    found = unlike(network, run, other) | leaked(network, run) | leaked(network, other)
    if run.networks == other.networks:
        return found | held_up(run.entries + other.entries)
    return found | held_up(run.entries) | held_up(other.entries)
