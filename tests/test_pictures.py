#!/usr/bin/env python3
"""Checks the pictures in `docs` against what they are made from, and what they say against the rules. It needs no graphviz.

The labels of the steps' arrows are read here from the stored graph, by words that are written by hand, and tried in all 1,224 situations.
"""

import os
import random
import re
import subprocess
import sys
import tempfile
import unittest
import xml.etree.ElementTree as ElementTree
from pathlib import Path
from typing import Dict, List, NamedTuple, Set, Tuple

import decisions
import model
from model import EventTag, Mode, Outfit
from traces import BENCH_NETWORK, OF_OUTFIT, SHEET, Trace, by_the_newer_rule

ROOT = Path(__file__).resolve().parent.parent
DOCS = ROOT / "docs"
sys.path.insert(0, str(ROOT / "tools"))

import crates_picture  # noqa: E402: these stand in the folder that has just been added
import recovery_picture  # noqa: E402
import steps_picture  # noqa: E402
from recording_output import NotItsOutput  # noqa: E402
from recording_script import recording_of, script_of  # noqa: E402
from recovery_picture import NoRecovery  # noqa: E402

SVG = "{http://www.w3.org/2000/svg}"


# ---------------------------------------------------------------------------
# Stored graphs and pictures
# ---------------------------------------------------------------------------


class Graph(NamedTuple):
    """The nodes and the edges of a stored graph, each with its attributes; an edge is the pair of its nodes."""

    nodes: Dict[str, Dict[str, str]]
    edges: List[Tuple[Tuple[str, str], Dict[str, str]]]


NODE_LINE = re.compile(r'\s*"([^"]*)"(?: \[(.*)\])?')
EDGE_LINE = re.compile(r'\s*"([^"]*)" -> "([^"]*)"(?: \[(.*)\])?')
ATTRIBUTE = re.compile(r'(\w+)="([^"]*)"')


def read_graph(text: str) -> Graph:
    """The graph of the text of a `.dot` file, in which each node and each edge has a line."""
    nodes, edges = {}, []
    for line in text.splitlines():
        edge, node = EDGE_LINE.fullmatch(line), NODE_LINE.fullmatch(line)
        if edge:
            edges.append(((edge[1], edge[2]), dict(ATTRIBUTE.findall(edge[3] or ""))))
        elif node:
            nodes[node[1]] = dict(ATTRIBUTE.findall(node[2] or ""))
    return Graph(nodes, edges)


def stored_graph(name: str) -> Graph:
    return read_graph((DOCS / f"{name}.dot").read_text(encoding="utf-8"))


def lines_of(label: str) -> List[str]:
    """The lines of a label; `\\l` and `\\n` are ends of lines to `dot`."""
    return [line.strip() for line in re.split(r"\\[ln]", label) if line.strip()]


def texts_in(element: ElementTree.Element) -> List[str]:
    return ["".join(text.itertext()).strip() for text in element.findall(f"{SVG}text")]


def drawn(name: str, kind: str) -> List[Tuple[str, List[str]]]:
    """The title and the texts of each node or edge of a stored picture."""
    elements = ElementTree.parse(DOCS / f"{name}.svg").getroot().iter(f"{SVG}g")
    return sorted((each.find(f"{SVG}title").text, texts_in(each)) for each in elements if each.get("class") == kind)


class StoredGraphTest(unittest.TestCase):
    """The stored graphs and pictures, against what they are made from."""

    def test_graphs_are_those_that_are_made_now(self):
        for maker in (steps_picture, crates_picture):
            stored = maker.GRAPH.read_text(encoding="utf-8")
            self.assertEqual(stored, maker.stored_graph_text(), f"make {maker.GRAPH.name} again with tools/draw")

    def test_pictures_have_the_nodes_of_their_graphs(self):
        for name in ("steps", "crates"):
            nodes = stored_graph(name).nodes
            self.assertGreater(len(nodes), 10)
            self.assertEqual(drawn(name, "node"), sorted((node, lines_of(nodes[node]["label"])) for node in nodes))

    def test_pictures_have_the_edges_of_their_graphs(self):
        for name in ("steps", "crates"):
            edges = stored_graph(name).edges
            self.assertGreater(len(edges), 10)
            expected = sorted((f"{start}->{end}", lines_of(attributes.get("label", ""))) for (start, end), attributes in edges)
            self.assertEqual(drawn(name, "edge"), expected)

    def test_captions_are_in_the_pictures(self):
        for maker in (steps_picture, crates_picture):
            whole = ElementTree.parse(maker.PICTURE).getroot().find(f"{SVG}g")
            self.assertEqual(texts_in(whole), list(maker.CAPTION))

    def test_missing_dot_is_named(self):
        with tempfile.TemporaryDirectory() as empty:
            for name in ("steps", "crates"):
                stored = (DOCS / f"{name}.svg").read_bytes()
                command = [sys.executable, "-B", str(ROOT / "tools" / "draw"), name]
                run = subprocess.run(command, env={**os.environ, "PATH": empty}, stderr=subprocess.PIPE, encoding="utf-8")
                self.assertEqual(run.returncode, 1)
                self.assertIn("graphviz", run.stderr)
                self.assertEqual((DOCS / f"{name}.svg").read_bytes(), stored)


# ---------------------------------------------------------------------------
# The seventeen steps
# ---------------------------------------------------------------------------

# What each line of a label says, of: wanted, done, a refusal present, the time reached, the outfit.
MEANINGS = {
    "always": lambda wanted, done, refusal, reached, outfit: True,
    "wanted no": lambda wanted, done, refusal, reached, outfit: wanted == Mode.NO,
    "wanted silent": lambda wanted, done, refusal, reached, outfit: wanted == Mode.SILENT,
    "wanted full": lambda wanted, done, refusal, reached, outfit: wanted == Mode.FULL,
    "wanted silent or full": lambda wanted, done, refusal, reached, outfit: wanted != Mode.NO,
    "wanted no or silent": lambda wanted, done, refusal, reached, outfit: wanted != Mode.FULL,
    "wanted no or full": lambda wanted, done, refusal, reached, outfit: wanted != Mode.SILENT,
    "done": lambda wanted, done, refusal, reached, outfit: done,
    "not done": lambda wanted, done, refusal, reached, outfit: not done,
    "a refusal": lambda wanted, done, refusal, reached, outfit: refusal,
    "no refusal": lambda wanted, done, refusal, reached, outfit: not refusal,
    "time reached": lambda wanted, done, refusal, reached, outfit: reached,
    "time not reached": lambda wanted, done, refusal, reached, outfit: not reached,
    "no transceiver": lambda wanted, done, refusal, reached, outfit: outfit == Outfit.NO_TRANSCEIVER,
    "a transceiver": lambda wanted, done, refusal, reached, outfit: outfit != Outfit.NO_TRANSCEIVER,
    "plain transceiver": lambda wanted, done, refusal, reached, outfit: outfit == Outfit.TRANSCEIVER,
    "no plain transceiver": lambda wanted, done, refusal, reached, outfit: outfit != Outfit.TRANSCEIVER,
    "partial networking": lambda wanted, done, refusal, reached, outfit: outfit == Outfit.PARTIAL_NETWORKING,
    "not partial networking": lambda wanted, done, refusal, reached, outfit: outfit != Outfit.PARTIAL_NETWORKING,
}


def holds(lines: List[str], situation: Tuple) -> bool:
    """Whether a label holds: every line between two `or` does."""
    parts: List[List[str]] = [[]]
    for line in lines:
        if line == "or":
            parts.append([])
        else:
            parts[-1].append(line)
    return any(all(MEANINGS[line](*situation) for line in part) for part in parts)


def steps_of(node: str) -> List[int]:
    """The steps that a node stands for: `each of 4 to 8, 15 and 16` for seven of them."""
    steps = []
    for part in re.split(r", | and ", node.replace("each of ", "")):
        first, _, last = part.partition(" to ")
        steps += range(int(first), int(last or first) + 1)
    return steps


# How the arrows of each event look that is no tick.
DASHED, DOTTED = "dashed", "dotted"


def arrows(style: str = "") -> List[Tuple[int, int, List[str]]]:
    """From, to and label of the arrows of the stored graph that look so, one for each step that an arrow begins at; without a style a tick's."""
    return [
        (step, int(end), lines_of(attributes["label"]))
        for (start, end), attributes in stored_graph("steps").edges
        for step in steps_of(start)
        if attributes.get("style", "") == style
    ]


def taken_events(tag: int) -> List[Tuple[int, int]]:
    """By the model: each step in which a bus-off or a stall is taken, and the step after it."""
    taken = []
    for step in model.ALL_STEPS:
        trace = Trace(OF_OUTFIT[Outfit.PARTIAL_NETWORKING])
        trace.go_to(step)
        settings = trace.network().settings
        target = settings.handle if tag == EventTag.STALL else settings.controllers[0]
        if trace.event(tag, target).answer == model.ACCEPTED:
            taken.append((step, trace.network().step))
    return taken


class StepsTest(unittest.TestCase):
    """What the picture of the steps says, against the list of decisions, the model and the rules."""

    def test_labels_hold_in_just_the_situations_of_their_moves(self):
        moves = arrows()
        stored = [int(word) for line in decisions.STORED.read_text().splitlines()[1:] for word in line.split()[1:]]
        situations = list(model.situations())
        self.assertEqual((len(situations), len(stored)), (1224, 1224))
        for (step, *situation), next_step in zip(situations, stored):
            taken = [end for start, end, label in moves if start == step and holds(label, situation)]
            self.assertEqual(model.next_step(step, *situation), next_step)
            self.assertEqual(taken, [] if next_step == step else [next_step], (step, situation))

    def test_every_label_holds_somewhere(self):
        for step, end, label in arrows():
            self.assertTrue(any(holds(label, situation) for _, *situation in model.situations()), (step, end))

    def test_bus_offs_and_stalls(self):
        for tag, style, label, number in ((EventTag.BUS_OFF, DASHED, "bus-off", 8), (EventTag.STALL, DOTTED, "stall", 2)):
            expected = taken_events(tag)
            self.assertEqual(len(expected), number)
            self.assertEqual(sorted((step, end) for step, end, _ in arrows(style)), expected)
            self.assertEqual({tuple(lines) for _, _, lines in arrows(style)}, {(label,)})

    def test_every_arrow_is_of_a_tick_a_bus_off_or_a_stall(self):
        edges = [steps_of(start) for (start, _), _ in stored_graph("steps").edges]
        self.assertEqual(sum(map(len, edges)), sum(len(arrows(style)) for style in ("", DASHED, DOTTED)))

    def test_double_frame_means_full_is_told(self):
        nodes = stored_graph("steps").nodes
        for step in model.ALL_STEPS:
            trace = Trace(OF_OUTFIT[Outfit.PARTIAL_NETWORKING])
            trace.go_to(step)
            self.assertEqual(trace.network().step, step)
            self.assertEqual(nodes[str(step)].get("peripheries") == "2", trace.network().told == Mode.FULL, step)

    def test_nodes_are_the_steps_and_three_groups(self):
        expected = [*map(str, model.ALL_STEPS), "each of 1 to 8, 15 and 16", "each of 4 to 8, 15 and 16", "each of 4 and 5"]
        self.assertEqual(sorted(stored_graph("steps").nodes), sorted(expected))

    def test_frames(self):
        """N1: the groups of the steps."""
        text = steps_picture.GRAPH.read_text(encoding="utf-8")
        frames = {
            frame[1]: [int(node) for node in read_graph(frame[2]).nodes if node.isdigit()]
            for frame in re.finditer(r'subgraph "cluster ([^"]*)" {\n(.*?)}', text, re.DOTALL)
        }
        self.assertEqual(frames, {"coming up": [1, 2, 3], "up": [4, 5, 6, 7, 8, 15, 16], "going down": [9, 10, 11, 12, 13, 14]})

    def test_a_changed_list_changes_the_graph(self):
        words = decisions.STORED.read_text().splitlines()
        for step in model.ALL_STEPS:
            row = words[step + 1].split()
            row[1 + step] = str((int(row[1 + step]) + 1) % len(model.ALL_STEPS))
            changed = "\n".join([*words[:step + 1], " ".join(row), *words[step + 2:]])
            self.assertNotEqual(steps_picture.graph_text(changed), steps_picture.stored_graph_text())

    def test_labels_of_made_up_sets(self):
        generator = random.Random(1)
        in_order = list(zip(steps_picture.SITUATIONS, (situation for _, *situation in model.situations())))
        for _ in range(40):
            chosen = generator.sample(steps_picture.ALL_BOXES, 2)
            wanted = steps_picture.held(chosen[0]) | steps_picture.held(chosen[1])
            label = steps_picture.label_of(wanted).split("\n")
            self.assertLessEqual(label.count("or"), 1)
            for situation, in_words in in_order:
                self.assertEqual(holds(label, in_words), situation in wanted, label)

    def test_a_list_of_another_form_is_refused(self):
        text = decisions.STORED.read_text()
        for damaged in ("", text + text, text[:-4], text.replace("\n14 ", "\n13 ")):
            self.assertRaises(ValueError, steps_picture.rows_of, damaged)


# ---------------------------------------------------------------------------
# The crates
# ---------------------------------------------------------------------------


def listed_uses() -> Set[Tuple[str, str]]:
    """Which crate uses which, by `crates.txt`."""
    uses = set()
    for line in (ROOT / "crates.txt").read_text(encoding="utf-8").splitlines():
        if not line.startswith("#"):
            crate, used = line.split(":")
            uses |= {(crate.split()[0], each) for each in used.split()}
    return uses


def with_ways(uses: Set[Tuple[str, str]]) -> Set[Tuple[str, str]]:
    """The uses, and those by way of others."""
    while True:
        more = uses | {(first, last) for first, middle in uses for other, last in uses if middle == other}
        if more == uses:
            return uses
        uses = more


class CratesTest(unittest.TestCase):
    """What the picture of the crates says, against `crates.txt` and the crates."""

    def test_arrows_with_their_ways_are_the_listed_uses(self):
        arrows_drawn = {pair for pair, _ in stored_graph("crates").edges}
        self.assertLessEqual(arrows_drawn, listed_uses())
        self.assertEqual(with_ways(arrows_drawn), with_ways(listed_uses()))

    def test_no_arrow_can_be_left_out(self):
        arrows_drawn = {pair for pair, _ in stored_graph("crates").edges}
        for arrow in arrows_drawn:
            self.assertNotIn(arrow, with_ways(arrows_drawn - {arrow}))

    def test_looks(self):
        nodes = stored_graph("crates").nodes
        folders = {folder.name for folder in (ROOT / "crates").iterdir() if (folder / "src").is_dir()}
        self.assertLessEqual(folders, set(nodes))
        for crate, attributes in nodes.items():
            sources = "".join(path.read_text(encoding="utf-8") for path in (ROOT / "crates" / crate / "src").glob("*.rt"))
            self.assertEqual(attributes.get("style") == "dashed", crate not in folders, crate)
            # a function of its own, or one that it passes on
            has_code = "fn " in sources or "pub use " in sources
            self.assertEqual(attributes.get("shape") == "note", crate in folders and not has_code, crate)
            self.assertEqual(attributes.get("penwidth") == "2", re.search(r"\bfn main\(", sources) is not None, crate)


# ---------------------------------------------------------------------------
# One recovery
# ---------------------------------------------------------------------------


def recording(name: str) -> bytes:
    return recording_of((ROOT / "examples" / f"{name}.script").read_bytes())


def output(name: str) -> bytes:
    return (ROOT / "examples" / f"{name}.txt").read_bytes()


def texts_of(picture: str) -> List[str]:
    """The texts of a picture in their order."""
    return ["".join(text.itertext()) for text in ElementTree.fromstring(picture.encode("utf-8")).iter(f"{SVG}text")]


def bands_of(picture: str) -> List[str]:
    """The colours of the band of told modes from the top; the first box is the white ground."""
    boxes = list(ElementTree.fromstring(picture.encode("utf-8")).iter(f"{SVG}rect"))
    ends = [(int(each.get("y")), int(each.get("y")) + int(each.get("height"))) for each in boxes[1:]]
    assert all(end == start for (_, end), (start, _) in zip(ends, ends[1:])), "the band has a gap"
    return [each.get("fill") for each in boxes[1:]]


NO, SILENT, FULL = (recovery_picture.BAND_COLOURS[mode] for mode in (Mode.NO, Mode.SILENT, Mode.FULL))
MAY = "only from here may a level be used"
MAY_NOT = "no level may be used from here"


class RecoveryTest(unittest.TestCase):
    """The picture of a recovery, against the stored runs. The expected words are written by hand from the rules."""

    def picture(self, name: str) -> str:
        return recovery_picture.picture_of(recording(name), output(name), name)

    def test_picture_is_the_one_that_is_made_now(self):
        stored = recovery_picture.PICTURE.read_text(encoding="utf-8")
        self.assertEqual(stored, recovery_picture.stored_picture(), "make recovery.svg again with tools/draw recovery")

    def test_whole_case(self):
        texts = texts_of(recovery_picture.PICTURE.read_text(encoding="utf-8"))
        for expected in (
            "12: bus-off", "13: tick 1 after the bus-off", "15: tick 2 after the bus-off", "16: tick 3 after the bus-off",
            "17: tick 4 after the bus-off", "told silent (6:7:1)", "controller 3 TX offline (3:3:1)", "the short delay: 2 ticks",
            "start, and answers: 2 ticks", "(in all 4 after the bus-off)", "bus-off of controller 3", "poll of network 7: full",
        ):
            self.assertEqual(texts.count(expected), 1, expected)
        for expected in ("start controller 3 (1:3:1)", "controller 3 answers: started, ok", "controller 3 online (3:3:0)", "told full (6:7:2)", MAY):
            self.assertEqual(texts.count(expected), 2, expected)
        self.assertEqual(texts[texts.index("12: bus-off") + 1], MAY_NOT)
        self.assertEqual(texts[texts.index("17: tick 4 after the bus-off") + 1], MAY)

    def test_band_is_the_told_mode(self):
        self.assertEqual(bands_of(recovery_picture.PICTURE.read_text(encoding="utf-8")), [NO, FULL, SILENT, FULL])

    def test_long_delay(self):
        texts = texts_of(self.picture("long-delay"))
        for expected in (
            "the long delay: 5 ticks", "(in all 7 after the bus-off)", "24: tick 7 after the bus-off", "silent is wanted of network 7",
            "full is wanted of network 7",
        ):
            self.assertEqual(texts.count(expected), 1, expected)
        self.assertEqual(texts[texts.index("24: tick 7 after the bus-off") + 1], MAY)

    def test_both_rules_for_the_threshold(self):
        """One bus-off at the threshold of 1: which delay it brings is read off the run, and the text below says by which rule."""
        below = "Short delay 2, long delay 5, ensure time 3, in ticks. Threshold 1{}. A dotted line is a tick."
        for settings, delay, words in (
            (BENCH_NETWORK, "the short delay: 2 ticks", ""),
            (by_the_newer_rule(BENCH_NETWORK), "the long delay: 5 ticks", ", at which the long delay begins"),
        ):
            trace = Trace(settings)
            trace.go_to(5)
            trace.bus_off()
            trace.replied_tick(8)
            data = trace.recorded()
            texts = texts_of(recovery_picture.picture_of(data, model.cantrace(data).encode("ascii"), "a recording"))
            self.assertEqual((texts.count(delay), texts[-1]), (1, below.format(words)))

    def test_the_rule_is_that_of_the_network_drawn(self):
        first, second = OF_OUTFIT[Outfit.NO_TRANSCEIVER], OF_OUTFIT[Outfit.TRANSCEIVER]
        for networks, drawn_by_newer in (((first, by_the_newer_rule(second)), True), ((by_the_newer_rule(first), second), False)):
            trace = Trace(*networks)
            trace.go_to(5, 1)
            trace.bus_off(1)
            trace.replied_tick(8)
            data = trace.recorded()
            texts = texts_of(recovery_picture.picture_of(data, model.cantrace(data).encode("ascii"), "a recording"))
            self.assertIn(f"network {second.handle}, mode told", texts)
            self.assertEqual("at which the long delay begins" in texts[-1], drawn_by_newer)

    def test_only_the_network_itself_is_drawn(self):
        first, second = OF_OUTFIT[Outfit.NO_TRANSCEIVER], OF_OUTFIT[Outfit.TRANSCEIVER]
        trace = Trace(first, second)
        trace.go_to(5, 1)
        trace.bus_off(1)
        trace.want(Mode.FULL, 0)
        trace.replied_tick(5)
        data = trace.recorded()
        written = model.cantrace(data).encode("ascii")
        texts = texts_of(recovery_picture.picture_of(data, written, "a recording"))
        self.assertIn(f" 1:{first.controllers[0]}:1".encode("ascii"), written)
        self.assertIn(f"network {second.handle}, mode told", texts)
        requests = [text for text in texts if text.startswith("start controller")]
        self.assertEqual(requests, [f"start controller {each} (1:{each}:1)" for each in second.controllers])

    def test_a_stall_before_the_bus_off(self):
        """It comes from above and its record goes back there, on a line of its own; no level may be used from it on."""
        trace = Trace(OF_OUTFIT[Outfit.NO_TRANSCEIVER])
        trace.go_to(5)
        trace.stall()
        trace.tick()
        trace.stall()
        trace.bus_off()
        trace.replied_tick(5)
        data = trace.recorded()
        picture = recovery_picture.picture_of(data, model.cantrace(data).encode("ascii"), "a recording")
        texts = texts_of(picture)
        stalls = [text for text in texts if text.endswith(("stall", "stall, refused"))]
        self.assertEqual([text.partition(": ")[2] for text in stalls], ["stall", "stall, refused"])
        self.assertEqual(texts[texts.index(stalls[0]) + 1], MAY_NOT)
        self.assertEqual(bands_of(picture), [NO, FULL, SILENT, FULL])
        arrows_above = [text.attrib["y"] for text in ElementTree.fromstring(picture.encode("utf-8")).iter(f"{SVG}text")
                        if "".join(text.itertext()) in ("sending of network 7 has stuck", "told silent (6:7:1)")]
        self.assertEqual((len(arrows_above), len(set(arrows_above))), (4, 4))

    def test_listening(self):
        """A call to listen names nobody, so it is an event of every network: it comes from above, and what it hands out goes below."""
        picture = self.picture("under-repair")
        texts = texts_of(picture)
        for expected, times in (
            ("17: listen", 1), ("18: listen", 1), ("listening is set", 2), ("controller 3 hears only (3:3:2)", 2),
            ("controller 3 TX offline (3:3:1)", 1), ("controller 3 online (3:3:0)", 1), ("controller 4 hears only (3:4:2)", 0),
            ("25: tick 4 after the bus-off", 1), ("the short delay: 2 ticks", 1),
        ):
            self.assertEqual(texts.count(expected), times, expected)
        self.assertEqual(bands_of(picture), [NO, FULL, SILENT, FULL])
        self.assertNotIn(texts[texts.index("17: listen") + 1], (MAY, MAY_NOT))
        arrows = [line.attrib for line in ElementTree.fromstring(picture.encode("utf-8")).iter(f"{SVG}line")]
        from_above = [line for line in arrows if (line["x1"], line["x2"]) == (str(recovery_picture.ABOVE), str(recovery_picture.BAND_LEFT))]
        # two calls to listen, two polls and no other event of network 7
        self.assertEqual(len(from_above), 4)

    def test_refused_event(self):
        texts = texts_of(self.picture("two-controllers"))
        self.assertEqual(texts.count("18: answer, refused"), 1)
        self.assertEqual([text for text in texts if text.endswith("refused")], ["18: answer, refused", "controller 2 answers: started, refused"])

    def test_a_recording_is_text_or_bytes_by_its_name(self):
        with tempfile.TemporaryDirectory() as folder:
            as_bytes = Path(folder) / "run.bin"
            as_bytes.write_bytes(recording("whole-case"))
            as_text = Path(folder) / "run.script"
            as_text.write_bytes(script_of(recording("whole-case")).encode("ascii"))
            pictures = [recovery_picture.picture_from_files(path, recovery_picture.OUTPUT) for path in (as_bytes, as_text)]
        self.assertEqual([picture.count(name) for picture, name in zip(pictures, ("run.bin", "run.script"))], [1, 1])
        self.assertEqual(pictures[0].replace("run.bin", "run.script"), pictures[1])

    def test_output_of_another_recording_is_refused(self):
        whole = output("whole-case")
        for other in (b"", b"config 0 1\n", output("long-delay"), whole.replace(b"\n9 ", b"\n8 ")):
            self.assertRaises(NotItsOutput, recovery_picture.picture_of, recording("whole-case"), other, "a recording")

    def test_without_a_recovery_there_is_no_picture(self):
        no_events = model.cantrace(SHEET).encode("ascii")
        for data, written in ((recording("refused-sheet"), output("refused-sheet")), (SHEET, no_events), (bytes(65537), b"too long\n")):
            self.assertRaises(NoRecovery, recovery_picture.picture_of, data, written, "a recording")

    def test_what_is_told_comes_from_the_output(self):
        never_full_again = output("whole-case").replace(b"17 0 3:3:0 6:7:2 7:7:2", b"17 0")
        self.assertRaises(NoRecovery, recovery_picture.picture_of, recording("whole-case"), never_full_again, "a recording")
        too_early = output("whole-case").replace(b"\n16 0\n17 0 3:3:0 6:7:2 7:7:2", b"\n16 0 3:3:0 6:7:2 7:7:2\n17 0")
        texts = texts_of(recovery_picture.picture_of(recording("whole-case"), too_early, "a recording"))
        self.assertIn("the delay: 1 tick", texts)
        self.assertIn("(in all 3 after the bus-off)", texts)


class DrawTest(unittest.TestCase):
    """The command: a problem is one line, and no picture is left."""

    def draw(self, *arguments: str) -> subprocess.CompletedProcess:
        command = [sys.executable, "-B", str(ROOT / "tools" / "draw"), *arguments]
        return subprocess.run(command, capture_output=True, encoding="utf-8", check=False)

    def test_problems(self):
        with tempfile.TemporaryDirectory() as folder:
            picture, bad, good = Path(folder) / "picture.svg", Path(folder) / "bad.script", recovery_picture.RECORDING
            bad.write_text("tock\n", encoding="utf-8")
            other, refused = good.with_name("long-delay.txt"), good.with_name("refused-sheet.script")
            for recorded, written, words in (
                (bad, recovery_picture.OUTPUT, "no line begins with 'tock'"),
                (good, other, "the output does not belong to"),
                (refused, refused.with_suffix(".txt"), "no network of this recording"),
                (Path(folder) / "none.script", recovery_picture.OUTPUT, "none.script"),
            ):
                run = self.draw("recovery", str(recorded), str(written), str(picture))
                self.assertEqual((run.returncode, run.stdout, run.stderr.count("\n")), (1, "", 1), run.stderr)
                self.assertIn(words, run.stderr)
                self.assertFalse(picture.exists())

    def test_usage(self):
        for arguments in ((), ("steps", "more"), ("recovery", "one"), ("nothing",)):
            run = self.draw(*arguments)
            self.assertEqual((run.returncode, run.stdout), (2, ""))
            self.assertIn("tools/draw recovery RECORDING OUTPUT PICTURE", run.stderr)
        run = self.draw("--help")
        self.assertEqual((run.returncode, run.stderr), (0, ""))
        self.assertIn("tools/draw recovery RECORDING OUTPUT PICTURE", run.stdout)


if __name__ == "__main__":
    unittest.main()
