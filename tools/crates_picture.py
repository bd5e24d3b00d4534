"""The picture of the crates, `docs/crates.svg`, with its graph in `docs/crates.dot`.

Which crate uses which comes from `crates.txt`. An arrow goes from a crate to one that it uses; it is left out where the one is also used by
way of another. What kind of crate it is comes from the crate's own files.
"""

from pathlib import Path
from typing import Dict, List, Set

from graph import Cluster, Edge, Node, dot_text

ROOT = Path(__file__).resolve().parent.parent
CRATES = ROOT / "crates"
LIST = ROOT / "crates.txt"
GRAPH = ROOT / "docs" / "crates.dot"
PICTURE = ROOT / "docs" / "crates.svg"
HEADER = "made by: tools/draw crates"

CODE = "code"
NO_CODE = "no code"
PROGRAM = "program"
TOOLCHAIN = "of the toolchain"
LOOKS = {
    CODE: {"fillcolor": "#e3f2fd"},
    NO_CODE: {"shape": "note", "style": "filled", "fillcolor": "#fff8e1"},
    PROGRAM: {"fillcolor": "#c8e6c9", "penwidth": "2"},
    TOOLCHAIN: {"style": "dashed"},
}
CAPTION = (
    "An arrow goes from a crate to one that it uses, from crates.txt; it is left out where that one is also used by way of another.",
    "Blue: code with its contracts and proofs. Yellow, with a folded corner: no code, only definitions and theorems.",
    "Green, with a thick frame: a program. Dashed: a crate of the toolchain.",
)
SETTINGS = [
    'graph [bgcolor="white", fontname="sans-serif", fontsize="13", rankdir="TB", nodesep="0.3", ranksep="0.35", labelloc="b", labeljust="l"]',
    'node [shape="box", style="rounded,filled", fillcolor="white", fontname="sans-serif", fontsize="13"]',
    'edge [color="#404040"]',
]


def uses_of(text: str) -> Dict[str, List[str]]:
    """Each crate of the list and the crates that it uses, in the order of the list; `#` begins a comment, and more words may follow the name."""
    lines = (line.split("#")[0] for line in text.splitlines())
    pairs = (line.split(":") for line in lines if line.strip())
    return {name.split()[0]: used.split() for name, used in pairs}


def reached(uses: Dict[str, List[str]], crate: str) -> Set[str]:
    """All that a crate uses, also by way of others."""
    found: Set[str] = set()
    waiting = list(uses.get(crate, []))
    while waiting:
        used = waiting.pop()
        if used not in found:
            found.add(used)
            waiting += uses.get(used, [])
    return found


def direct_uses(uses: Dict[str, List[str]], crate: str) -> List[str]:
    """What a crate uses, without what it also uses by way of another."""
    by_way_of_others: Set[str] = set()
    for used in uses[crate]:
        by_way_of_others |= reached(uses, used)
    return [used for used in uses[crate] if used not in by_way_of_others]


def kind_of(crate: str) -> str:
    """A program has `src/main.rt`; a crate without code says so in its first line; what has no folder comes with the toolchain."""
    source = CRATES / crate / "src"
    if not source.is_dir():
        return TOOLCHAIN
    if (source / "main.rt").is_file():
        return PROGRAM
    first_line = (source / "lib.rt").read_text(encoding="utf-8").splitlines()[0]
    return NO_CODE if first_line.startswith("// No code") else CODE


def node_of(crate: str) -> Node:
    """A crate, in the look of its kind."""
    return Node(crate, {"label": crate, **LOOKS[kind_of(crate)]})


def graph_text(text: str) -> str:
    """The graph as text, from the text of the list."""
    uses = uses_of(text)
    crates = list(uses) + sorted({used for all_used in uses.values() for used in all_used} - set(uses))
    edges = [Edge(crate, used, {}) for crate in uses for used in direct_uses(uses, crate)]
    caption = "".join(line + "\\l" for line in CAPTION)
    whole = Cluster("the crates", {"label": caption}, [node_of(crate) for crate in crates], [])
    return dot_text(HEADER, SETTINGS, whole, edges)


def stored_graph_text() -> str:
    """The graph as text, from the stored list."""
    return graph_text(LIST.read_text(encoding="utf-8"))
