"""layers.py [--check] : makes docs/layers.svg, the crates in layers, from crates.txt. With --check nothing is written, and the exit status
is 1 where the picture differs from what would be made.

A crate stands one layer above the highest that it is built on. A line is drawn where crates.txt has an edge that does not follow from
others. Within a layer the order is the one with the fewest crossings that a search from several starts finds.
"""

import itertools
import random
import re
import sys

from sources import PROGRAMS, TOP, below, crates, functions

PICTURE = TOP / "docs" / "layers.svg"
ARCHIVES = re.search(r"^parts=\(([\w ]+)\)", (TOP / "tools" / "common.sh").read_text(), re.M)[1].split()

# What each crate is: one line or two.
WORDS = {
    "bits": ["bit fields, answers,", "and their numbers"],
    "page": ["a page of output"],
    "timestamp": ["PTS and DTS"],
    "control": ["clock references, counters,", "PIDs, control bits"],
    "pes": ["stream ids, the first", "six bytes of a PES packet"],
    "event_log": ["the entries of", "the event log"],
    "adaptation": ["adaptation fields", "and their extensions"],
    "packet": ["transport packets"],
    "contents": ["parsed PES contents:", "every field"],
    "writer": ["a unit as packets"],
    "machine": ["the event machine,", "its steps and runs"],
    "host": ["the readers, on numbers", "and byte slices"],
    "host_c": ["the readers, for C"],
    "pes_header": ["a PES header and", "its payload"],
    "worked": ["the request's", "marked examples"],
    "recorded": ["recorded answers,", "asked again"],
    "lister": ["the event lister"],
    "host_whole": ["all fields of a packet or", "a header at one call"],
    "host_whole_c": ["all fields at one call,", "for C"],
    "gather": ["the bytes of a unit,", "event by event"],
    "host_streams": ["what keeps the state", "of a stream"],
    "host_streams_c": ["what keeps a state,", "for C"],
    "in_place": ["the steps over", "a lent state"],
    "bounds": ["how big", "a log must be"],
    "units": ["the bytes of a unit,", "over any run"],
    "capacity": ["what is written reads back,", "in the fewest packets"],
    "examples": ["worked examples"],
}
# The kinds of crates, and the colours of their boxes: fill and edge on a light screen, fill and edge on a dark one.
KINDS = {
    "code": ("code with its proofs", "#e8eef6", "#7189a8", "#1f2a38", "#6f8bb0"),
    "archive": ("built as an archive, for C and Rust", "#e0f2e4", "#5f9c6d", "#1b3323", "#62a873"),
    "theorems": ("theorems alone", "#f0e8fa", "#9274b8", "#2e2440", "#a58acb"),
    "program": ("a program", "#fdf0d8", "#b8904a", "#3a2e18", "#c29b57"),
}
WIDTH, MARGIN = 900, 20  # of the picture: it is wider where a layer is
BOX, TALL, LANE, GAP = 176, 58, 12, 14  # the boxes, the lines that pass a layer, and what is between them
RISE = 114  # from a layer to the next
PORT = 20  # between the ends of lines at a box, at most
STARTS = 30  # of the search


def kind(crate):
    if crate in PROGRAMS:
        return "program"
    if crate in ARCHIVES:
        return "archive"
    return "code" if functions(crate) else "theorems"


# ---- what stands where


def edges():
    """Each crate with those that it is built on and that none of the others is built on."""
    for crate, built_on in crates().items():
        yield from ((crate, one) for one in built_on if not any(one in below(other) for other in built_on if other != one))


def depths():
    found = {}
    for crate, built_on in crates().items():
        found[crate] = 1 + max((found[one] for one in built_on), default=-1)
    return found


def laid_in_layers(levels):
    """The layers, lowest first, and the paths of the edges, each through every layer between its ends. Where a path only passes a layer
    it has a place of its own there, a pair; a box is a name."""
    layers = [[crate for crate in crates() if levels[crate] == level] for level in range(max(levels.values()) + 1)]
    paths = []
    for upper, lower in edges():
        between = [((upper, lower), level) for level in range(levels[lower] + 1, levels[upper])]
        for place in between:
            layers[place[1]].append(place)
        paths.append([lower, *between, upper])
    return layers, paths


def room(node):
    return BOX if isinstance(node, str) else LANE


def width_of(layers):
    return max(WIDTH, *(2 * MARGIN + sum(map(room, layer)) + GAP * (len(layer) - 1) for layer in layers))


def raised(levels):
    """The levels with one crate higher, which is still below all that is built on it, for each crate and each such level."""
    for crate, level in levels.items():
        above = [levels[one] for one, built_on in crates().items() if crate in built_on]
        for higher in range(level + 1, min(above, default=max(levels.values()) + 1)):
            yield levels | {crate: higher}


def narrow_levels():
    """The layer of each crate: the lowest that can be or, where that makes the picture narrower, a higher one."""

    def width(levels):
        return width_of(laid_in_layers(levels)[0])

    levels = depths()
    while width(better := min(raised(levels), key=width)) < width(levels):
        levels = better
    return levels


# ---- the order within the layers


def disorder(layers, steps):
    """The crossings of the lines between neighbouring layers and, in a small part, how far they go sideways."""
    at = {node: place / max(1, len(layer) - 1) for layer in layers for place, node in enumerate(layer)}
    far = sum(abs(at[low] - at[high]) for lines in steps for low, high in lines)
    crossing = sum((at[a] - at[c]) * (at[b] - at[d]) < 0 for lines in steps for (a, b), (c, d) in itertools.combinations(lines, 2))
    return crossing + far / 100


def settled(layers, steps):
    """Two of a layer change places as long as that makes less disorder."""
    least, better = disorder(layers, steps), True
    while better:
        better = False
        for layer in layers:
            for a, b in itertools.combinations(range(len(layer)), 2):
                layer[a], layer[b] = layer[b], layer[a]
                now = disorder(layers, steps)
                if now < least - 1e-9:
                    least, better = now, True
                else:
                    layer[a], layer[b] = layer[b], layer[a]
    return least, layers


def ordered(layers, paths):
    """The layers in the best order of several searches. The starts are drawn by a fixed seed, so that the picture is always the same."""
    steps = [[] for _ in layers[1:]]
    for path in paths:
        first = next(level for level, layer in enumerate(layers) if path[0] in layer)
        for level, pair in enumerate(zip(path, path[1:]), first):
            steps[level].append(pair)
    draw = random.Random(1)
    found = [settled([draw.sample(layer, len(layer)) for layer in layers], steps) for _ in range(STARTS)]
    return min(found, key=lambda one: one[0])[1]


# ---- places


def spread(layer, wanted, width):
    """Places in the layer's order, as near as can be to those wanted: what would overlap is moved together, by the least squares."""
    offset, groups = 0, []
    for number, node in enumerate(layer):
        if number:
            offset += (room(layer[number - 1]) + room(node)) / 2 + GAP
        groups.append([wanted[node] - offset, 1, [(node, offset)]])
        while len(groups) > 1 and groups[-2][0] > groups[-1][0]:
            mean, count, nodes = groups.pop()
            other = groups[-1]
            groups[-1] = [(other[0] * other[1] + mean * count) / (other[1] + count), other[1] + count, other[2] + nodes]
    low = MARGIN + room(layer[0]) / 2
    high = width - MARGIN - room(layer[-1]) / 2 - offset
    return {node: min(max(mean, low), high) + place for mean, _, nodes in groups for node, place in nodes}


def placed(layers, paths, width):
    """How far from the left the middle of each box and of each passing line is: near to what it is joined with."""
    joined = {node: [] for layer in layers for node in layer}
    for low, high in (pair for path in paths for pair in zip(path, path[1:])):
        joined[low].append(high)
        joined[high].append(low)
    at = {}
    for layer in layers:
        at |= spread(layer, {node: width * (place + 1) / (len(layer) + 1) for place, node in enumerate(layer)}, width)
    for _ in range(60):
        for layer in layers:
            at |= spread(layer, {node: sum(at[one] for one in joined[node]) / len(joined[node]) for node in layer}, width)
    return at


# ---- the picture


def top_of(layers, level):
    return MARGIN + (len(layers) - 1 - level) * RISE


def ends(paths, at):
    """Where each line leaves its lower box and reaches its upper one: side by side, in the order of where they go."""
    found = {}
    for side, toward in ((0, 1), (-1, -2)):
        for box in {path[side] for path in paths}:
            here = sorted((path for path in paths if path[side] == box), key=lambda path: at[path[toward]])
            apart = min(PORT, (BOX - 40) / max(1, len(here)))
            for number, path in enumerate(here):
                found[path[0], path[-1], side] = at[box] + (number - (len(here) - 1) / 2) * apart
    return found


def line(path, level, layers, at, end):
    """A curve from box to box, upright where it passes a layer."""
    x, y = end[path[0], path[-1], 0], top_of(layers, level)
    words = [f"M{x:.0f} {y}"]
    for number, node in enumerate(path[1:], level + 1):
        above = end[path[0], path[-1], -1] if node == path[-1] else at[node]
        reach = top_of(layers, number) + TALL
        words.append(f"C{x:.0f} {(y + reach) // 2} {above:.0f} {(y + reach) // 2} {above:.0f} {reach}")
        x, y = above, top_of(layers, number)
        if node != path[-1]:
            words.append(f"V{y}")
    return f'<path d="{" ".join(words)}"/>'


def box(crate, x, y):
    words = WORDS[crate]
    first = y + 22 if len(words) == 2 else y + 27
    lines = [f'<text class="name" x="{x:.0f}" y="{first}">{crate}</text>']
    lines += [f'<text x="{x:.0f}" y="{first + 16 + 13 * number}">{said}</text>' for number, said in enumerate(words)]
    return "\n".join([f'<rect class="{kind(crate)}" x="{x - BOX / 2:.0f}" y="{y}" width="{BOX}" height="{TALL}" rx="6"/>', *lines])


def legend(y):
    parts, x = [], MARGIN
    for name, (said, *_) in KINDS.items():
        parts.append(f'<rect class="{name}" x="{x}" y="{y}" width="16" height="12" rx="3"/>')
        parts.append(f'<text class="left" x="{x + 22}" y="{y + 10}">{said}</text>')
        x += 46 + 6 * len(said)
    return "\n".join(parts)


def style():
    day = "".join(f".{name} {{ fill: {fill}; stroke: {edge} }}\n" for name, (_, fill, edge, *_) in KINDS.items())
    night = "".join(f".{name} {{ fill: {fill}; stroke: {edge} }}\n" for name, (*_, fill, edge) in KINDS.items())
    return (
        "text { font: 11.5px system-ui, 'Segoe UI', 'DejaVu Sans', sans-serif; text-anchor: middle; fill: #1f2328 }\n"
        "text.name { font: bold 13.5px ui-monospace, 'DejaVu Sans Mono', monospace }\n"
        "text.left { text-anchor: start }\n"
        "path { fill: none; stroke: #6e7781; stroke-width: 1.3 }\n"
        ".ground { fill: #ffffff; stroke: #d0d7de }\n"
        f"{day}@media (prefers-color-scheme: dark) {{\ntext {{ fill: #e6edf3 }}\npath {{ stroke: #8b949e }}\n"
        f".ground {{ fill: #0d1117; stroke: #30363d }}\n{night}}}\n"
    )


def picture():
    level = narrow_levels()
    layers, paths = laid_in_layers(level)
    layers = ordered(layers, paths)
    width = width_of(layers)
    at = placed(layers, paths, width)
    end = ends(paths, at)
    height = top_of(layers, 0) + TALL + MARGIN + 24
    parts = [
        f'<svg xmlns="http://www.w3.org/2000/svg" width="{width}" height="{height}" viewBox="0 0 {width} {height}" role="img">',
        "<title>The crates in layers</title>",
        "<!-- Made by tools/layers from crates.txt: not to be edited. -->",
        f"<style>\n{style()}</style>",
        f'<rect class="ground" x="0.5" y="0.5" width="{width - 1}" height="{height - 1}" rx="8"/>',
        *(line(path, level[path[0]], layers, at, end) for path in paths),
        *(box(crate, at[crate], top_of(layers, level[crate])) for crate in crates()),
        legend(height - 26),
        "</svg>",
    ]
    return "\n".join(parts) + "\n"


def main(words):
    if words not in ([], ["--check"]):
        sys.exit("usage: layers.py [--check]")
    if set(WORDS) != set(crates()):
        sys.exit(f"layers.py: crates.txt and the words of layers.py differ: {', '.join(set(WORDS) ^ set(crates()))}")
    made = picture()
    if not words:
        PICTURE.write_text(made)
    elif not PICTURE.exists() or PICTURE.read_text() != made:
        sys.exit("layers.py: docs/layers.svg differs from what crates.txt says: run tools/layers")


if __name__ == "__main__":
    main(sys.argv[1:])
