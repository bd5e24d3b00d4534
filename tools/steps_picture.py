"""The picture of the seventeen steps, `docs/steps.svg`, with its graph in `docs/steps.dot`.

The moves of a tick come from the stored list of all 1,224 decisions, `crates/decisions/stdout`: for each pair of steps the situations in
which a tick goes from the one to the other, and a label that holds in just these. The bus-offs and the stalls, which are no decisions of a
tick, come from the rules, and are compared with the model under `tests`.

A situation is a value for each of the five conditions. A box is a set of values for each condition; it holds the situations with all their
values in these sets. A label is the smallest number of boxes that together hold just the wanted situations.
"""

import functools
import itertools
from pathlib import Path
from typing import Dict, FrozenSet, Iterator, List, NamedTuple, Set, Tuple

from graph import Cluster, Edge, Node, dot_text

ROOT = Path(__file__).resolve().parent.parent
DECISIONS = ROOT / "crates" / "decisions" / "stdout"
GRAPH = ROOT / "docs" / "steps.dot"
PICTURE = ROOT / "docs" / "steps.svg"
HEADER = "made by: tools/draw steps"

Group = Tuple[int, ...]
Situation = Tuple[int, ...]
Box = Tuple[FrozenSet[int], ...]


class Condition(NamedTuple):
    """One of the five conditions of a decision: the number of its values, and the words for each set of values but the whole."""

    name: str
    values: int
    words: Dict[FrozenSet[int], str]


def words(*pairs: Tuple[Tuple[int, ...], str]) -> Dict[FrozenSet[int], str]:
    """The words for sets of values."""
    return {frozenset(values): text for values, text in pairs}


# In the order of the list: the last varies fastest, and of two values "yes" comes first.
CONDITIONS = (
    Condition("wanted", 3, words(
        ((0,), "wanted no"), ((1,), "wanted silent"), ((2,), "wanted full"),
        ((0, 1), "wanted no or silent"), ((0, 2), "wanted no or full"), ((1, 2), "wanted silent or full"))),
    Condition("done", 2, words(((0,), "done"), ((1,), "not done"))),
    Condition("refused", 2, words(((0,), "a refusal"), ((1,), "no refusal"))),
    Condition("reached", 2, words(((0,), "time reached"), ((1,), "time not reached"))),
    Condition("outfit", 3, words(
        ((0,), "no transceiver"), ((1,), "plain transceiver"), ((2,), "partial networking"),
        ((0, 1), "not partial networking"), ((0, 2), "no plain transceiver"), ((1, 2), "a transceiver"))),
)
SITUATIONS = list(itertools.product(*(range(condition.values) for condition in CONDITIONS)))
STEPS = 17

# N1: what each step is for, in a few words.
NAMES = (
    "no communication",
    "transceiver normal", "controllers stopped", "controllers started",
    "full, being checked", "full", "restarting,\\ncontrollers started", "waiting,\\nTX offline", "silent",
    "clear wake flag", "controllers stopped", "transceiver standby", "controllers sleep", "check wake flag", "check wake flag\\nafter a refusal",
    "reset,\\ncontrollers stopped", "reset,\\ncontrollers started",
)
COMING_UP = (1, 2, 3)
UP = (4, 5, 6, 7, 8, 15, 16)
ON = COMING_UP + UP
GOING_DOWN = (9, 10, 11, 12, 13, 14)
FULL_TOLD = (4, 5)
# The groups from which one arrow goes out where each of its steps has it, the largest first.
GROUPS = (ON, UP, FULL_TOLD)
# B4 to B6: while up the network restarts; in 3 the step begins anew; elsewhere it is refused.
RESTARTING = 6
BUS_OFFS = [(3, 3), *((step, RESTARTING) for step in UP)]
# X2, X3, X5: where full is told a reset begins; elsewhere it is refused.
RESETTING = 15
STALLS = [(step, RESETTING) for step in FULL_TOLD]
OR = "\nor\n"

CAPTION = (
    "An arrow is a tick's move. Its label stands to the right of it, and holds in just those of the 1,224 decisions of",
    "crates/decisions/stdout that make it. Where no arrow applies, the network stays in its step; a step that asks, and is not",
    "done, asks again.",
    "The labels are exact even where no network ever is: silent wanted in 1 to 3; steps 9, 13 and 14 without partial",
    "networking; steps 1 and 11 without a transceiver; done beside a refusal.",
    "Dashed: a bus-off, by the rules B4 to B6; in 3 the step begins anew, elsewhere it is refused.",
    "Dotted: a stall, by the rules X2, X3 and X5; elsewhere it is refused.",
    "Double frame: full is told. The start puts a network in 9 with partial networking, else in 10.",
)


# ---------------------------------------------------------------------------
# The list of decisions
# ---------------------------------------------------------------------------


def rows_of(text: str) -> List[List[int]]:
    """The next steps of each step, from the stored list: a header, then a line for each step with its number first."""
    rows = [[int(word) for word in line.split()] for line in text.splitlines()[1:]]
    if [row[0] for row in rows] != list(range(STEPS)) or any(len(row) != len(SITUATIONS) + 1 for row in rows):
        raise ValueError("the list of decisions has not one line of 72 next steps for each of the seventeen steps")
    return [row[1:] for row in rows]


def moves_of(rows: List[List[int]]) -> Dict[Tuple[int, int], Set[Situation]]:
    """The situations of each move from a step to another one."""
    moves: Dict[Tuple[int, int], Set[Situation]] = {}
    for step, row in enumerate(rows):
        for situation, next_step in zip(SITUATIONS, row):
            if next_step != step:
                moves.setdefault((step, next_step), set()).add(situation)
    return moves


# ---------------------------------------------------------------------------
# Labels
# ---------------------------------------------------------------------------


def sets_of_values(count: int) -> List[FrozenSet[int]]:
    """Every set of values that is not empty, the whole first."""
    return [frozenset(chosen) for size in range(count, 0, -1) for chosen in itertools.combinations(range(count), size)]


ALL_BOXES = list(itertools.product(*(sets_of_values(condition.values) for condition in CONDITIONS)))


@functools.lru_cache(maxsize=None)
def held(box: Box) -> FrozenSet[Situation]:
    """The situations of a box."""
    return frozenset(itertools.product(*(sorted(values) for values in box)))


def words_of(box: Box) -> List[str]:
    """What a box says, in words: nothing of a condition that may have any value."""
    return [condition.words[values] for condition, values in zip(CONDITIONS, box) if len(values) < condition.values]


def widened(box: Box) -> Iterator[Box]:
    """The boxes with one value more than this."""
    for place, condition in enumerate(CONDITIONS):
        for value in set(range(condition.values)) - box[place]:
            yield box[:place] + (box[place] | {value},) + box[place + 1:]


def largest_boxes(wanted: Set[Situation]) -> List[Box]:
    """The boxes that hold wanted situations only and lie in no other such box, those that need fewest words first."""
    inside = {box: None for box in ALL_BOXES if held(box) <= wanted}
    largest = [box for box in inside if not any(wider in inside for wider in widened(box))]
    return sorted(largest, key=lambda box: len(words_of(box)))


def cover(wanted: Set[Situation]) -> Tuple[Box, ...]:
    """The fewest boxes that together hold just the wanted situations; of as many, those that need fewest words."""
    boxes = largest_boxes(wanted)
    for count in range(1, len(boxes) + 1):
        covers = [chosen for chosen in itertools.combinations(boxes, count) if set().union(*map(held, chosen)) == wanted]
        if covers:
            return min(covers, key=lambda chosen: sum(len(words_of(box)) for box in chosen))
    raise ValueError("no situation is wanted")


def label_of(wanted: Set[Situation]) -> str:
    """The label that holds in just these situations: a line for each condition, `or` between boxes."""
    return OR.join("\n".join(words_of(box)) or "always" for box in cover(wanted))


# ---------------------------------------------------------------------------
# Arrows
# ---------------------------------------------------------------------------


class Cause:
    """What makes a move."""

    TICK = "tick"
    BUS_OFF = "bus-off"
    STALL = "stall"


class Arrow(NamedTuple):
    """An arrow of the picture: from the name of a node, which stands for one step or for several."""

    start: str
    end: int
    label: str
    cause: str


def runs_of(group: Group) -> List[str]:
    """The steps of a group in words, three or more in a row as one: `4 to 8`, `15`, `16`."""
    runs: List[List[int]] = []
    for step in group:
        if runs and runs[-1][-1] + 1 == step:
            runs[-1].append(step)
        else:
            runs.append([step])
    return [word for run in runs for word in ([f"{run[0]} to {run[-1]}"] if len(run) > 2 else map(str, run))]


def name_of_group(group: Group) -> str:
    """The node that stands for each of several steps."""
    *words_before, last = runs_of(group)
    return f"each of {', '.join(words_before)} and {last}"


def gathered(moves: Dict[Tuple[int, int], str], cause: str) -> List[Arrow]:
    """The arrows for moves with their labels. Where every step of a group goes to the same step by the same label, one arrow goes out from
    the group; the largest group counts first."""
    left = dict(moves)
    arrows = []
    for end, label in sorted({(end, label) for (_, end), label in moves.items()}):
        for group in GROUPS:
            if all(left.get((step, end)) == label for step in group):
                arrows.append(Arrow(name_of_group(group), end, label, cause))
                for step in group:
                    del left[step, end]
    arrows += [Arrow(str(step), end, label, cause) for (step, end), label in sorted(left.items())]
    return arrows


def arrows_of(text: str) -> List[Arrow]:
    """All arrows of the picture, from the text of the list of decisions."""
    ticks = {move: label_of(situations) for move, situations in moves_of(rows_of(text)).items()}
    bus_offs = {move: Cause.BUS_OFF for move in BUS_OFFS}
    stalls = {move: Cause.STALL for move in STALLS}
    return gathered(ticks, Cause.TICK) + gathered(bus_offs, Cause.BUS_OFF) + gathered(stalls, Cause.STALL)


# ---------------------------------------------------------------------------
# The graph
# ---------------------------------------------------------------------------

# How an arrow looks that is no tick's.
LOOKS = {
    Cause.TICK: {},
    Cause.BUS_OFF: {"style": "dashed", "color": "#b3261e", "fontcolor": "#b3261e"},
    Cause.STALL: {"style": "dotted", "color": "#7b3f00", "fontcolor": "#7b3f00", "penwidth": "2"},
}
SPACE = "  "  # between a label and its arrow
SETTINGS = [
    'graph [bgcolor="white", fontname="sans-serif", fontsize="13", rankdir="TB", nodesep="0.55", ranksep="0.55", labelloc="b", labeljust="l"]',
    'node [shape="box", style="rounded,filled", fillcolor="white", fontname="sans-serif", fontsize="13"]',
    'edge [fontname="sans-serif", fontsize="11", color="#404040", fontcolor="#1f4e9c"]',
]


def step_node(step: int) -> Node:
    """A step with its number and its name; doubly framed and green where full is told."""
    attributes = {"label": f"{step}\\n{NAMES[step]}"}
    if step in FULL_TOLD:
        attributes.update(fillcolor="#c8e6c9", peripheries="2")
    return Node(str(step), attributes)


def group_node(group: Group) -> Node:
    """A node that stands for each step of a group."""
    name = name_of_group(group)
    return Node(name, {"label": name, "shape": "plaintext", "style": "filled", "fillcolor": "#eeeeee"})


def frame(name: str, side: str, colour: str, nodes: List[Node]) -> Cluster:
    """A coloured frame with its name on top, on the left (`l`) or on the right (`r`)."""
    attributes = {"label": name, "labelloc": "t", "labeljust": side, "style": "rounded,filled", "color": "#9e9e9e", "fillcolor": colour}
    return Cluster(name, attributes, nodes, [])


def edge_of(arrow: Arrow) -> Edge:
    """The edge of an arrow, which looks by its cause."""
    attributes = {"label": "".join(f"{SPACE}{line}\\l" for line in arrow.label.split("\n"))}
    return Edge(arrow.start, str(arrow.end), {**attributes, **LOOKS[arrow.cause]})


def nodes_of(steps: Group, groups: List[Group], arrows: List[Arrow]) -> List[Node]:
    """The nodes of steps, and those of groups where an arrow goes out from them."""
    starts = {arrow.start for arrow in arrows}
    return [step_node(step) for step in steps] + [group_node(group) for group in groups if name_of_group(group) in starts]


def graph_text(decisions: str) -> str:
    """The graph as text, from the text of the list of decisions."""
    arrows = arrows_of(decisions)
    frames = [
        frame("coming up", "l", "#fff8e1", [step_node(step) for step in COMING_UP]),
        frame("up", "l", "#e8f5e9", nodes_of(UP, [UP, FULL_TOLD], arrows)),
        frame("going down", "r", "#eceff1", [step_node(step) for step in GOING_DOWN]),
    ]
    caption = "".join(line + "\\l" for line in CAPTION)
    whole = Cluster("the seventeen steps", {"label": caption}, nodes_of((0,), [ON], arrows), frames)
    return dot_text(HEADER, SETTINGS, whole, [edge_of(arrow) for arrow in arrows])


def stored_graph_text() -> str:
    """The graph as text, from the stored list."""
    return graph_text(DECISIONS.read_text(encoding="ascii"))
