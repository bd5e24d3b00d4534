"""Graphs as text for the program `dot`, and their pictures.

A node or an edge without a label shows none. Attributes are those of `dot`, in the order given, so that the same graph is the same text.
"""

import shutil
import subprocess
from pathlib import Path
from typing import Dict, List, NamedTuple

INDENT = "    "


class Node(NamedTuple):
    """A node: its name, which is also its title in the picture, and its attributes."""

    name: str
    attributes: Dict[str, str]


class Edge(NamedTuple):
    """An edge from one node to another."""

    start: str
    end: str
    attributes: Dict[str, str]


class Cluster(NamedTuple):
    """A frame around nodes and further frames."""

    name: str
    attributes: Dict[str, str]
    nodes: List[Node]
    clusters: List["Cluster"]


class MissingProgram(Exception):
    """A program that is not on the PATH."""


def quoted(text: str) -> str:
    """A text as `dot` reads it. A backslash stays, for `\\n` and `\\l` are ends of lines to `dot`."""
    return '"' + text.replace('"', '\\"') + '"'


def attribute_list(attributes: Dict[str, str]) -> str:
    """The attributes in brackets, or nothing where there are none."""
    if not attributes:
        return ""
    return " [" + ", ".join(f"{name}={quoted(value)}" for name, value in attributes.items()) + "]"


def node_line(node: Node) -> str:
    return f"{quoted(node.name)}{attribute_list(node.attributes)}"


def edge_line(edge: Edge) -> str:
    return f"{quoted(edge.start)} -> {quoted(edge.end)}{attribute_list(edge.attributes)}"


def cluster_lines(cluster: Cluster) -> List[str]:
    """The frame, what is in it one step further in."""
    inner = [f"{name}={quoted(value)}" for name, value in cluster.attributes.items()]
    inner += [node_line(node) for node in cluster.nodes]
    for each in cluster.clusters:
        inner += cluster_lines(each)
    return [f"subgraph {quoted('cluster ' + cluster.name)} {{", *(INDENT + line for line in inner), "}"]


def dot_text(header: str, settings: List[str], whole: Cluster, edges: List[Edge]) -> str:
    """The whole graph: a comment on its first line, the settings, the nodes in their frames, the edges."""
    inner = settings + [f"{name}={quoted(value)}" for name, value in whole.attributes.items()]
    inner += [node_line(node) for node in whole.nodes]
    for cluster in whole.clusters:
        inner += cluster_lines(cluster)
    inner += [edge_line(edge) for edge in edges]
    lines = [f"// {header}", f"digraph {quoted(whole.name)} {{", *(INDENT + line for line in inner), "}"]
    return "\n".join(lines) + "\n"


def lay_out(text: str) -> str:
    """The picture that `dot` makes of a graph, as SVG in which the spaces before a label are kept."""
    if shutil.which("dot") is None:
        raise MissingProgram("dot is not on the PATH. It is the program that lays out graphs: install the package graphviz.")
    made = subprocess.run(["dot", "-Tsvg"], input=text, stdout=subprocess.PIPE, encoding="utf-8", check=True).stdout
    return made.replace("<svg ", '<svg xml:space="preserve" ', 1)


def store(text: str, graph: Path, picture: Path) -> None:
    """Write the text of a graph and its picture; nothing is written where `dot` is missing."""
    laid_out = lay_out(text)
    graph.write_text(text, encoding="utf-8")
    picture.write_text(laid_out, encoding="utf-8")
