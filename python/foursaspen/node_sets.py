"""The sets of nodes at which walks may be, whatever they have written: drawn as a list, in which each set is followed by listed
ones."""
from __future__ import annotations

from .drawing import DARK, GREY, LIGHT, MARGIN, MOST as LIMITS, PAPER, PHONE, SHADE, Canvas
from .graphs import Graph
from .rule_values import DIGITS

MOST = LIMITS["sets"]                           # that are drawn
Nodes = frozenset[int]


def sets_of(graph: Graph) -> dict[Nodes, list[Nodes]]:
    """Each set with those that follow it on each letter of the image, from the set of all nodes on in the order in which they are
    found. ValueError where there are more than can be drawn."""
    found: dict[Nodes, list[Nodes]] = {}
    waiting = [frozenset(range(graph.nodes))]
    for here in waiting:
        if here in found:
            continue
        found[here] = [frozenset(edge.target for node in here for edge in graph.out(node) if edge.image == letter)
                       for letter in range(graph.states)]
        waiting += found[here]
        if len(found) > MOST:
            raise ValueError(f"the list has more than {MOST} sets: too many for a picture")
    return found


def draw_sets(canvas: Canvas, graph: Graph, found: dict[Nodes, list[Nodes]], said: str, top: float) -> None:
    """A row for each set: its number, a disc for each of its nodes, and the number of the set after each letter."""
    y = canvas.lines_of_text(top, said, room=PHONE) + 30
    numbers = {nodes: place for place, nodes in enumerate(found, 1)}
    column, left = 10.0 + 9 * len(graph.name(0)), MARGIN + 34
    after = left + column * graph.nodes + 26
    for node in range(graph.nodes):
        canvas.text(left + column * (node + 0.5), y, graph.name(node), bold=True)
    for letter in range(graph.states):
        canvas.text(after + 36 * letter, y, f"/{DIGITS[letter]}", bold=True)
    for nodes, there in found.items():
        y += 24
        if numbers[nodes] % 2:
            canvas.box(MARGIN, y - 16, after + 36 * graph.states - 12 - MARGIN, 24, SHADE)
        canvas.text(MARGIN + 20, y, str(numbers[nodes]), anchor="end", color=GREY)
        for node in range(graph.nodes):
            inside = node in nodes
            canvas.disc(left + column * (node + 0.5), y - 4, 6 if inside else 2.5, DARK if inside else PAPER, DARK if inside else LIGHT)
        for letter, next_nodes in enumerate(there):
            canvas.text(after + 36 * letter, y, str(numbers[next_nodes]))
