#!/usr/bin/env python3
"""Draws the crates of crates.txt as the picture docs/crates.svg.

    python3 .ci/crates_picture.py

A crate stands above all on which it stands, in the layer of its longest way down. A line goes up from a crate to one that stands on it;
what follows from other lines isn't drawn. What stands behind the comment `# Tests` is for tests, and a crate with `src/main.rt` is a
program. The same crates.txt gives the same bytes: all places are whole numbers, and nothing depends on the order of a set.
.ci/test_documents compares the picture with what this makes.
"""
from __future__ import annotations

import sys
from dataclasses import dataclass, field
from pathlib import Path
from typing import Iterable, Iterator

TOP = Path(__file__).resolve().parent.parent
PICTURE = "docs/crates.svg"

# In pixels: a letter and what is beside a name, a box and the room above it, the room between two boxes, and the edge of the picture.
LETTER, BESIDE, HEIGHT, ABOVE, BETWEEN, EDGE = 9, 14, 34, 54, 22, 14
# What a line takes that passes a layer, and how much it counts when places are sought: such lines shall be straight.
LINE_WIDTH, LINE_WEIGHT = 4, 6
ORDERINGS, PLACINGS, WIDEST = 40, 40, 100_000
LEGEND = (("library", False, False), ("program", True, False), ("tests", False, True), ("program for tests", True, True))


@dataclass(frozen=True)
class Crate:
    name: str
    stands_on: tuple[str, ...]
    is_program: bool
    is_test: bool


@dataclass
class Node:
    """A crate in its layer, or the place at which a line passes a layer; then it has no crate."""

    width: int
    crate: Crate | None = None
    below: list[Node] = field(default_factory=list)
    above: list[Node] = field(default_factory=list)
    place: int = 0
    x: int = 0


Layers = list[list[Node]]


def crates_in(top: Path) -> dict[str, Crate]:
    """The crates of crates.txt by their names, in its order, which has each behind those on which it stands."""
    crates: dict[str, Crate] = {}
    is_test = False
    lines = (top / "crates.txt").read_text(encoding="utf-8").splitlines()
    names = [line.partition(":")[0] for line in lines if line.strip() and not line.startswith("#")]
    for line in lines:
        is_test = is_test or line.startswith("# Tests")
        name, colon, listed = line.partition(":")
        if line.startswith("#") or not line.strip():
            continue
        ours = tuple(it for it in listed.split() if it in names)
        unknown = [it for it in ours if it not in crates]
        if not colon or unknown or name in crates:
            raise ValueError(f"crates.txt: {line!r} has no colon, stands twice, or before {unknown}")
        crates[name] = Crate(name, ours, (top / "crates" / name / "src/main.rt").exists(), is_test)
    return crates


def all_below(crates: dict[str, Crate]) -> dict[str, set[str]]:
    """Of each crate all on which it stands, itself or through another."""
    below: dict[str, set[str]] = {}
    for crate in crates.values():
        below[crate.name] = set(crate.stands_on).union(*(below[it] for it in crate.stands_on))
    return below


def drawn(crates: dict[str, Crate]) -> dict[str, list[str]]:
    """Of each crate those to which a line goes: on which it stands, and not through another."""
    below = all_below(crates)
    return {
        crate.name: [it for it in crate.stands_on if not any(it in below[other] for other in crate.stands_on)]
        for crate in crates.values()
    }


def levels_of(crates: dict[str, Crate]) -> dict[str, int]:
    levels: dict[str, int] = {}
    for crate in crates.values():
        levels[crate.name] = 1 + max((levels[it] for it in crate.stands_on), default=-1)
    return levels


def join(lower: Node, upper: Node) -> None:
    lower.above.append(upper)
    upper.below.append(lower)


def layers_of(crates: dict[str, Crate]) -> Layers:
    """The layers, the lowest first. A line that passes a layer has a node there."""
    levels, lines = levels_of(crates), drawn(crates)
    layers: Layers = [[] for _ in range(1 + max(levels.values()))]
    nodes = {it.name: Node(LETTER * len(it.name) + 2 * BESIDE, it) for it in crates.values()}
    for name, node in nodes.items():
        layers[levels[name]].append(node)
    for name, targets in lines.items():
        for target in targets:
            lower = nodes[target]
            for level in range(levels[target] + 1, levels[name]):
                passing = Node(LINE_WIDTH)
                layers[level].append(passing)
                join(lower, passing)
                lower = passing
            join(lower, nodes[name])
    return layers


def number(layers: Layers) -> None:
    for layer in layers:
        for place, node in enumerate(layer):
            node.place = place


def crossings(layers: Layers) -> int:
    """How many pairs of lines cross."""
    number(layers)
    count = 0
    for layer in layers:
        lines = [(node.place, upper.place) for node in layer for upper in node.above]
        count += sum(1 for a, b in lines for c, d in lines if a < c and b > d)
    return count


def swap_while_better(layers: Layers) -> None:
    """Swaps neighbours of a layer as long as fewer lines cross by that."""
    best, is_better = crossings(layers), True
    while is_better:
        is_better = False
        for layer in layers:
            for at in range(len(layer) - 1):
                layer[at], layer[at + 1] = layer[at + 1], layer[at]
                now = crossings(layers)
                if now < best:
                    best, is_better = now, True
                else:
                    layer[at], layer[at + 1] = layer[at + 1], layer[at]


def put_in_order(layers: Layers) -> None:
    """Orders each layer by the places of the neighbours, from below and from above by turns, and keeps the best order that it met."""
    best, kept = crossings(layers), [list(layer) for layer in layers]
    for sweep in range(ORDERINGS):
        is_up = sweep % 2 == 0
        for layer in layers if is_up else reversed(layers):
            def middle(node: Node) -> tuple[int, int]:
                near = [it.place for it in (node.below if is_up else node.above)]
                return (1000 * sum(near) // len(near) if near else 1000 * node.place, node.place)

            layer.sort(key=middle)
            number(layers)
        swap_while_better(layers)
        if crossings(layers) < best:
            best, kept = crossings(layers), [list(layer) for layer in layers]
    layers[:] = kept
    number(layers)


def wished(node: Node) -> int:
    """Where a node had best be: in the middle of those to which its lines go. A line that passes, goes straight on if it can."""
    near = [*node.below, *node.above]
    if not near:
        return node.x
    weights = [LINE_WEIGHT if it.crate is None else 1 for it in near]
    return sum(it.x * weight for it, weight in zip(near, weights)) // sum(weights)


def spread(layer: list[Node]) -> None:
    """Puts the nodes of a layer as near as it goes to where they had best be, in their order and without touching."""
    offsets = [0]
    for left, right in zip(layer, layer[1:]):
        offsets.append(offsets[-1] + (left.width + right.width) // 2 + BETWEEN)
    # Groups of nodes that touch, each with the sum of its wishes and its weight.
    groups: list[tuple[int, int, int]] = []
    for node, offset in zip(layer, offsets):
        weight = LINE_WEIGHT if node.crate is None else 1
        group = ((wished(node) - offset) * weight, weight, 1)
        while groups and groups[-1][0] * group[1] >= group[0] * groups[-1][1]:
            last = groups.pop()
            group = (last[0] + group[0], last[1] + group[1], last[2] + group[2])
        groups.append(group)
    starts = [total // weight for total, weight, count in groups for _ in range(count)]
    for node, offset, start in zip(layer, offsets, starts):
        node.x = start + offset


def passing_lines(layers: Layers) -> Iterator[list[Node]]:
    """The lines that pass layers, each with its places from below."""
    for node in (it for layer in layers for it in layer if it.crate is None and it.below[0].crate):
        line = [node]
        while line[-1].above[0].crate is None:
            line.append(line[-1].above[0])
        yield line


def room_beside(layers: Layers, node: Node) -> tuple[int, int]:
    """How far to the left and to the right a node may be, by its neighbours in its layer."""
    layer = next(it for it in layers if any(other is node for other in it))
    lefts = [it.x + (it.width + node.width) // 2 + BETWEEN for it in layer if it.place == node.place - 1]
    rights = [it.x - (it.width + node.width) // 2 - BETWEEN for it in layer if it.place == node.place + 1]
    return max(lefts, default=-WIDEST), min(rights, default=WIDEST)


def straighten(layers: Layers) -> None:
    """Has each line that passes layers go straight through all of them, if there is room. What is straight makes room for others."""
    lines = list(passing_lines(layers))
    for line in [*lines, *lines]:
        rooms = [room_beside(layers, node) for node in line]
        least, most = max(it[0] for it in rooms), min(it[1] for it in rooms)
        if least <= most:
            x = min(max(sum(node.x for node in line) // len(line), least), most)
            for node in line:
                node.x = x


def put_in_place(layers: Layers) -> None:
    for layer in layers:
        for node in layer:
            node.x = 150 * node.place
    for sweep in range(PLACINGS):
        for layer in layers if sweep % 2 == 0 else reversed(layers):
            spread(layer)
    straighten(layers)
    left = min(node.x - node.width // 2 for layer in layers for node in layer)
    for layer in layers:
        for node in layer:
            node.x += EDGE - left


def port(node: Node, other: Node, lines: Iterable[Node]) -> int:
    """Where the line to another node leaves this one: the lines of a side are spread in the order of where they go."""
    if node.crate is None:
        return node.x
    ordered = sorted(lines, key=lambda it: (it.x, it.place))
    step = min(26, (node.width - 2 * BESIDE) // max(1, len(ordered)))
    at = [it is other for it in ordered].index(True)
    return node.x + (2 * at - len(ordered) + 1) * step // 2


def line_between(lower: Node, upper: Node, y: int) -> str:
    """The line from the upper edge of a layer, which is at y, to the lower edge of the next one."""
    start, end, middle = port(lower, upper, lower.above), port(upper, lower, upper.below), y - ABOVE // 2
    return f'<path d="M{start} {y}C{start} {middle} {end} {middle} {end} {y - ABOVE}"/>'


def box(x: int, y: int, width: int, name: str, is_program: bool, is_test: bool) -> Iterator[str]:
    """A box with its name in it. That of a program has a second edge. That of what is for tests has round ends and dashed edges."""
    left, kind = x - width // 2, ' class="test"' if is_test else ""
    for inset in (0, 4) if is_program else (0,):
        size = f'width="{width - 2 * inset}" height="{HEIGHT - 2 * inset}" rx="{HEIGHT // 2 - inset if is_test else 3}"'
        yield f'<rect{kind} x="{left + inset}" y="{y + inset}" {size}/>'
    yield f'<text x="{x}" y="{y + HEIGHT // 2 + 5}">{name}</text>'


def legend(y: int) -> Iterator[str]:
    x = EDGE
    for name, is_program, is_test in LEGEND:
        width = LETTER * len(name) + 2 * BESIDE
        yield from box(x + width // 2, y, width, name, is_program, is_test)
        x += width + BETWEEN


NOTE = "<!-- Made by .ci/crates_picture.py from crates.txt. -->"
TITLE = "<title>The crates of gate, each above those on which it stands</title>"
STYLE = """<style>
path { fill: none; stroke: #768390; stroke-width: 1.6 }
rect { fill: #eef4fb; stroke: #3a6ea5; stroke-width: 1.6 }
rect.test { fill: #fbf3e4; stroke: #9a6700; stroke-dasharray: 5 3 }
text { fill: #1b1f24; font: 15px "DejaVu Sans Mono", Menlo, Consolas, monospace; text-anchor: middle }
</style>"""


def picture(top: Path) -> str:
    """The picture of the crates of a tree, as the text of an SVG file."""
    crates = crates_in(top)
    layers = layers_of(crates)
    put_in_order(layers)
    put_in_place(layers)
    lines: list[str] = []
    boxes: list[str] = []
    for level, layer in enumerate(layers):
        y = EDGE + (len(layers) - 1 - level) * (HEIGHT + ABOVE)
        for node in layer:
            lines += [line_between(node, upper, y) for upper in node.above]
            if node.crate is None:
                lines.append(f'<path d="M{node.x} {y}V{y + HEIGHT}"/>')
            else:
                boxes += box(node.x, y, node.width, node.crate.name, node.crate.is_program, node.crate.is_test)
    width = EDGE + max(node.x + node.width // 2 for layer in layers for node in layer)
    height = EDGE + len(layers) * (HEIGHT + ABOVE)
    boxes += legend(height)
    size = f'width="{width}" height="{height + HEIGHT + EDGE}" viewBox="0 0 {width} {height + HEIGHT + EDGE}"'
    head = f'<svg xmlns="http://www.w3.org/2000/svg" {size} role="img">'
    return "\n".join([NOTE, head, TITLE, STYLE, *lines, *boxes, "</svg>", ""])


def main() -> int:
    (TOP / PICTURE).write_text(picture(TOP), encoding="utf-8")
    return 0


if __name__ == "__main__":
    sys.exit(main())
