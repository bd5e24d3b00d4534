#!/usr/bin/env python3
"""The figures of F3 to F8: how many ticks a network takes to full, and how many records are handed out until then.

README has them in a table, for those who plan the wiring. Here each is had twice more, read off the text of the definitions and counted on the
model, and all three have to be the same. "From anywhere" is counted from every record that calls can bring a network to.
"""

import re
import unittest
from dataclasses import replace
from functools import lru_cache
from itertools import product
from pathlib import Path
from typing import Dict, Iterator, List, NamedTuple, Tuple

import model
import promises
from model import Kind, Limit, Mode, Outfit, Relation, Settings
from promises import ANSWER, BUS_OFF, CHECKED, CLEARED, NOT_OK, OK, REPORT, REQUEST, STALL, TICK, Call, own_records
from test_promises import FITTED, FULL_ROOM, LONE, PARTIAL, WANTS, answer_to, made, prompt_life, started

ROOT = Path(__file__).resolve().parent.parent
SPECS = ROOT / "crates" / "network_demands" / "specs"
README = ROOT / "README.md"
HEADING = "## How long, how many"
# The first cells of the table.
ROWS = {
    Outfit.NO_TRANSCEIVER: "without a transceiver",
    Outfit.TRANSCEIVER: "with a transceiver",
    Outfit.PARTIAL_NETWORKING: "with partial networking",
}
SIZES = range(1, Limit.CONTROLLERS_OF_A_NETWORK + 1)
# After so many ticks with prompt answers every network rests, or is full.
LONG_ENOUGH = 20


class Figures(NamedTuple):
    """The figures of a network, in the order of the table."""

    ticks_from_rest: int
    records_from_rest: int
    ticks_from_start: int
    records_from_start: int
    most_ticks: int
    most_records: int


def network_of(outfit: int, size: int) -> Settings:
    """A network of this outfit with so many controllers; its delays and its ensure time are as short as can be."""
    settings = {Outfit.NO_TRANSCEIVER: LONE, Outfit.TRANSCEIVER: FITTED, Outfit.PARTIAL_NETWORKING: PARTIAL}[outfit]
    return replace(settings, controllers=list(range(size)), short_delay=1, long_delay=1, ensure_time=1)


# ---------------------------------------------------------------------------
# As they are shown
# ---------------------------------------------------------------------------


def shown_number(cell: str, size: int) -> int:
    """The number of a cell for so many controllers: it has one for all, or one for each."""
    numbers = re.findall(r"\d+", cell)
    if len(numbers) not in (1, len(SIZES)):
        raise ValueError(f"'{cell}' has {len(numbers)} numbers")
    return int(numbers[SIZES.index(size) % len(numbers)])


def shown_figures(text: str, outfit: int, size: int) -> Figures:
    """What the table of a text says."""
    section = text.partition(f"\n{HEADING}\n")[2].partition("\n## ")[0]
    rows = [line.strip("|").split("|") for line in section.splitlines() if line.startswith("|")]
    (cells,) = [cells for title, *cells in rows if title.strip() == ROWS[outfit]]
    return Figures(*(shown_number(cell, size) for cell in cells))


# ---------------------------------------------------------------------------
# As they are defined
# ---------------------------------------------------------------------------


@lru_cache(maxsize=None)
def definitions() -> Dict[str, str]:
    """What is written behind the name of each figure; `most_records` is what bounds the records of a tick."""
    found = dict(re.findall(r"^(\w+) n = (.*)$", (SPECS / "ComesUp.antt").read_text(encoding="utf-8"), re.MULTILINE))
    (bound,) = re.findall(r"^  pub few : .* ≤ (.*)$", (SPECS / "Promises.antt").read_text(encoding="utf-8"), re.MULTILINE)
    return {**found, "most_records": bound}


def exceeds(relation: Relation, threshold: int, number: int) -> bool:
    return threshold <= number if relation == Relation.AT_OR_ABOVE else threshold < number


# The functions that a definition may use, and how many arguments each has.
FUNCTIONS = {
    "by_outfit": (4, lambda network, *figures: figures[model.outfit_of(network)]),
    "max": (2, max),
    "cond": (3, lambda test, yes, no: yes if test else no),
    "exceeds": (3, exceeds),
}


class Reader:
    """Computes what is written behind the name of a figure, for a network n: sums and products of numbers, fields of n, other figures, and the
    functions above. Anything else is an error."""

    def __init__(self, network: Settings, text: str):
        self.network = network
        self.text = text
        self.tokens = re.findall(r"n\.\w+|\w+|\S", text)

    def value(self) -> int:
        found = self.sum()
        return self.failed(self.tokens[0]) if self.tokens else found

    def next_is(self, *tokens: str) -> bool:
        """Whether these tokens come next; then they are taken."""
        comes = self.tokens[:len(tokens)] == list(tokens)
        if comes:
            del self.tokens[:len(tokens)]
        return comes

    def sum(self):
        found = self.product()
        while self.next_is("+"):
            found += self.product()
        return found

    def product(self):
        found = self.application()
        while self.next_is("*"):
            found *= self.application()
        return found

    def application(self):
        """A function with its arguments, a figure of n, or what stands by itself."""
        for name, (count, function) in FUNCTIONS.items():
            if self.next_is(name):
                return function(*(self.single() for _ in range(count)))
        for name, text in definitions().items():
            if self.next_is(name, "n"):
                return Reader(self.network, text).value()
        return self.single()

    def single(self):
        """A number, n, a field of n, or an expression in brackets."""
        if self.next_is("("):
            found = self.sum()
            return found if self.next_is(")") else self.failed("a bracket")
        network, token = self.network, self.tokens.pop(0) if self.tokens else "the end"
        values = {
            "n": network, "n.count": len(network.controllers), "n.short": network.short_delay, "n.long": network.long_delay,
            "n.threshold": network.threshold, "n.relation": network.relation,
        }
        return int(token) if token.isdigit() else values[token] if token in values else self.failed(token)

    def failed(self, token: str):
        raise ValueError(f"{token} is not understood in '{self.text}'")


def defined(name: str, network: Settings) -> int:
    """The figure with this name, by its definition."""
    return Reader(network, definitions()[name]).value()


def defined_figures(network: Settings) -> Figures:
    names = ("ticks_from_rest", "records_from_rest", "ticks_from_start", "records_from_start", "most_ticks", "most_records")
    return Figures(*(defined(name, network) for name in names))


# ---------------------------------------------------------------------------
# As they are counted on the model
# ---------------------------------------------------------------------------


def counted_to_full(network: Settings, begin: int) -> Tuple[int, int]:
    """How many ticks and records it takes to full, where every answer is prompt and full is wanted after the tick of this number."""
    passed = count = 0
    for call, _, records in prompt_life({begin: WANTS[Mode.FULL]}, begin + LONG_ENOUGH, network).entries:
        passed += call.name == TICK
        count += len(own_records(network, records)) if passed > begin else 0
        if (Kind.COMMUNICATION_MANAGER, network.handle, Mode.FULL) in records:
            break
    return passed - begin, count


def calls_of(network: Settings) -> Iterator[Call]:
    """The tick, and every call with an id of the network and numbers in range."""
    yield Call(TICK, (), FULL_ROOM)
    yield Call(STALL, (network.handle,), FULL_ROOM)
    yield from (Call(REQUEST, (network.handle, mode)) for mode in range(Limit.MODE + 1))
    for controller in network.controllers:
        yield Call(BUS_OFF, (controller,), FULL_ROOM)
        yield from (Call(ANSWER, (controller, mode, ok)) for mode, ok in product(range(Limit.MODE + 1), (NOT_OK, OK)))
    if network.transceiver is not None:
        yield from (Call(REPORT, (network.transceiver, mode)) for mode in range(Limit.MODE + 1))
        yield from (Call(name, (network.transceiver,)) for name in (CLEARED, CHECKED))


def manager_at(record: model.NetworkRecord) -> model.Manager:
    """A manager whose one network has this record. Its bus-offs are left out: where both delays are the same, their count decides nothing."""
    manager = model.Manager.new()
    manager.sheet = [record.settings]
    manager.networks = [replace(record, answers=list(record.answers), bus_off_count=0)]
    return manager


def reachable(network: Settings) -> List[model.NetworkRecord]:
    """Every record that calls since the start can bring the network to."""
    found = started([network]).networks
    known = set()
    for record in found:
        for call in calls_of(network):
            manager = manager_at(record)
            made(manager, call)
            (after,) = manager.networks
            key = (after.step, after.tick_count, tuple(after.answers), after.wanted, after.told, after.asked, after.reported)
            if key not in known:
                known.add(key)
                found.append(after)
    return found


def ticks_to_full(record: model.NetworkRecord) -> int:
    """After how many ticks full is told, where it is wanted from this record on and every answer is prompt."""
    manager, handle = manager_at(record), record.settings.handle
    manager.request(handle, Mode.FULL)
    passed = 0
    while manager.poll(handle).mode != Mode.FULL and passed < LONG_ENOUGH:
        passed += 1
        for handed in manager.tick(FULL_ROOM).records:
            for call in answer_to(handed):
                made(manager, call)
    return passed


def counted_figures(network: Settings) -> Figures:
    records = reachable(network)
    return Figures(
        *counted_to_full(network, LONG_ENOUGH),
        *counted_to_full(network, 0),
        most_ticks=max(ticks_to_full(record) for record in records),
        most_records=max(manager_at(record).tick(FULL_ROOM).count for record in records),
    )


class TheFigures(unittest.TestCase):
    def test_shown_defined_and_counted_are_the_same(self):
        text = README.read_text(encoding="utf-8")
        for outfit, size in product(model.ALL_OUTFITS, SIZES):
            network = network_of(outfit, size)
            with self.subTest(ROWS[outfit], size=size):
                self.assertEqual(shown_figures(text, outfit, size), defined_figures(network))
                self.assertEqual(counted_figures(network), defined_figures(network))

    def test_the_statements_are_tried_with_the_defined_figures(self):
        """With every outfit, size, rule for the threshold, and delay that is the longer one."""
        figures = {
            "ticks_from_rest": promises.ticks_from_rest, "records_from_rest": promises.records_from_rest, "ticks_to_rest": promises.ticks_to_rest,
            "ticks_from_start": promises.ticks_from_start, "records_from_start": promises.records_from_start,
            "longest_delay": promises.longest_delay, "most_ticks": promises.most_ticks,
        }
        for outfit, size, relation, threshold, (short, long) in product(
            model.ALL_OUTFITS, SIZES, Relation, range(4), ((1, 2), (2, 1), (3, 20), (20, 3))
        ):
            network = replace(network_of(outfit, size), relation=relation, threshold=threshold, short_delay=short, long_delay=long)
            for name, figure in figures.items():
                self.assertEqual(figure(network), defined(name, network), (name, network))

    def test_a_wrong_figure_is_seen(self):
        text = README.read_text(encoding="utf-8")
        for right, wrong, outfit in (("18, 23 |", "18, 24 |", Outfit.NO_TRANSCEIVER), ("| 11 |", "| 10 |", Outfit.PARTIAL_NETWORKING)):
            self.assertEqual(text.count(right), 1, right)
            size = SIZES[-1]
            self.assertNotEqual(shown_figures(text.replace(right, wrong), outfit, size), shown_figures(text, outfit, size))
        self.assertRaises(ValueError, shown_number, "5, 8, 11", 1)

    def test_another_form_is_refused(self):
        network = network_of(Outfit.TRANSCEIVER, 2)
        self.assertEqual(Reader(network, "3 * n.count + max (by_outfit n 2 3 4) (ticks_to_rest n + 1)").value(), 11)
        for text in ("n.count - 1", "min 2 3", "(3 + 4", "3 4", "ticks_to_rest", "n.ensure", "", "max 2"):
            self.assertRaises(ValueError, Reader(network, text).value)


if __name__ == "__main__":
    unittest.main()
