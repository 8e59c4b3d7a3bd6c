"""The de Bruijn graph and the automaton of the words with a preimage for other programs: as DOT, and for networkx."""
from __future__ import annotations

import importlib
from typing import Any

from .graphs import Graph
from .report import Language
from .rule_values import DIGITS, RuleLike


def to_dot(rule: RuleLike) -> str:
    """The graph of a rule in the language of graphviz; the label of an edge is the letter read and the letter written."""
    graph = Graph(rule)
    lines = [f'  "{graph.name(edge.source)}" -> "{graph.name(edge.target)}" [label="{edge.label}"];' for edge in graph.edges()]
    return "\n".join([f'digraph "{graph.rule}" {{', *lines, "}", ""])


def to_networkx(thing: RuleLike | Language) -> Any:
    """A MultiDiGraph of networkx: of a rule the de Bruijn graph, whose edges have `read` and `written`; of a `language` its
    automaton, whose edges have `read`, and whose node 0 is the first, and one node perhaps `dead`."""
    made = importlib.import_module("networkx").MultiDiGraph()
    if isinstance(thing, Language):
        made.add_nodes_from((here, {"dead": here == thing.dead}) for here in range(thing.classes))
        made.add_edges_from((here, there, {"read": DIGITS[letter]}) for here, row in enumerate(thing.after)
                            for letter, there in enumerate(row))
        return made
    graph = Graph(thing)
    made.add_nodes_from(map(graph.name, range(graph.nodes)))
    made.add_edges_from((graph.name(edge.source), graph.name(edge.target),
                         {"read": DIGITS[edge.letter], "written": DIGITS[edge.image]}) for edge in graph.edges())
    return made
