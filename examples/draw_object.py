"""Draws the octree of an object and its history as an SVG, from the two tables and the log.

usage: draw_object.py BITS NX,NY,NZ SUPERVOXELS EDGES LOG SUPERVOXEL [AT] > object.svg

LOG is what pcg printed. The octree is that of the root that SUPERVOXEL has at the time AT, or after the
last entry. The history is that root and its ancestors: an entry links a root that it retired to a root
that it made if they share a supervoxel.

The nodes are found here once more, by the rules of docs/DEFINITIONS.md and without the program: each
layer's nodes are the components of active edges inside each chunk, and new ones get the next numbers of
their chunk by their least supervoxel. If the log's roots are others, nothing is drawn.
"""

import csv
import json
import sys

from pcg_ids import pack, unpack

STEP, ROW, LEFT, TOP = 60, 70, 90, 60


class Segmentation:
    """The nodes of a base, and what each entry of a log makes of them."""

    def __init__(self, bits, grid, supervoxels, edges):
        self.bits, self.supervoxels, self.active = bits, sorted(supervoxels), dict(edges)
        self.top = next(layer for layer in range(2, 19) if max(grid) <= 1 << layer - 2)
        self.used, self.node = {}, {}  # numbers by chunk; node by (layer, supervoxel)

    def chunk(self, layer, v):
        _, x, y, z, _ = unpack(self.bits, v)
        return pack(self.bits, layer, *(n >> layer - 2 for n in (x, y, z)), 0)

    def components(self, layer):
        """Returns the components of a layer, those with lesser least supervoxels first."""
        near = {v: [] for v in self.supervoxels}
        for (u, v), active in self.active.items():
            if active and self.chunk(layer, u) == self.chunk(layer, v):
                near[u].append(v)
                near[v].append(u)
        seen, found = set(), []
        for v in self.supervoxels:
            if v in seen:
                continue
            part, todo = {v}, [v]
            while todo:
                new = set(near[todo.pop()]) - part
                part |= new
                todo += new
            seen |= part
            found.append(sorted(part))
        return found

    def roots(self, supervoxels):
        return {self.node[self.top, v] for v in supervoxels}

    def take(self, entry):
        """Applies an entry of the log, and checks the roots that it names."""
        ends = set()
        for a, b, state in entry["changed"]:
            ends |= {int(a), int(b)}
            self.active[int(a), int(b)] = state
        first = entry["op"] == 0
        retired = self.roots(ends)
        for layer in range(2, self.top + 1):
            for part in self.components(layer):
                if first or ends & set(part):
                    chunk = self.chunk(layer, part[0])
                    self.used[chunk] = self.used.get(chunk, 0) + 1
                    self.node.update({(layer, v): chunk + self.used[chunk] for v in part})
        made = self.roots(self.supervoxels if first else ends)
        told = [sorted(map(int, entry[what])) for what in ("retired", "made")]
        if told != [sorted(retired), sorted(made)]:
            sys.exit(f"entry {entry['op']} of the log names other roots")
        return {root: {v for v in self.supervoxels if self.node[self.top, v] == root} for root in made}


def history_of(entries, segmentation):
    """Returns the roots that each entry made, with their leaves, and the links between roots."""
    leaves, columns, links = {}, [], []
    for entry in entries:
        made = segmentation.take(entry)
        links += [(int(r), s) for r in entry["retired"] for s in made if leaves[int(r)] & made[s]]
        leaves.update(made)
        columns.append((entry, sorted(made)))
    return leaves, columns, links


def ancestors_of(root, links):
    found, todo = {root}, [root]
    while todo:
        here = todo.pop()
        new = {r for r, s in links if s == here} - found
        found |= new
        todo += sorted(new)
    return found


class Page:
    """An SVG page: texts, lines and dots."""

    def __init__(self):
        self.shapes, self.width, self.height = [], 0, 0

    def text(self, x, y, words, anchor="middle"):
        self.width, self.height = max(self.width, x + 100), max(self.height, y + 30)
        self.shapes.append(f'<text x="{x}" y="{y}" text-anchor="{anchor}">{words}</text>')

    def line(self, x1, y1, x2, y2):
        self.shapes.append(f'<line x1="{x1}" y1="{y1}" x2="{x2}" y2="{y2}"/>')

    def dot(self, x, y, title, name):
        self.shapes.append(f'<circle cx="{x}" cy="{y}" r="6"><title>{title}</title></circle>')
        self.text(x, y - 12, name)

    def svg(self):
        style = "text{font:11px sans-serif}line{stroke:#888}circle{fill:#246}"
        head = f'<svg xmlns="http://www.w3.org/2000/svg" width="{self.width}" height="{self.height}">'
        return "\n".join([head, f"<style>{style}</style>", *self.shapes, "</svg>"])


def draw_octree(page, seg, leaves):
    """Draws the nodes above these supervoxels, the root at the top, and returns where the drawing ends."""
    path = {v: [seg.node[layer, v] for layer in range(seg.top, 1, -1)] for v in leaves}
    ordered = sorted(leaves, key=lambda v: (path[v], v))  # the leaves of a node side by side
    column = {v: LEFT + STEP * k for k, v in enumerate(ordered)}
    spot = {}  # of each supervoxel, where its node of the layer below stands
    for layer in range(1, seg.top + 1):
        y = TOP + ROW * (seg.top - layer)
        page.text(10, y + 4, f"layer {layer}", "start")
        nodes = {}
        for v in column:
            nodes.setdefault(v if layer == 1 else seg.node[layer, v], []).append(v)
        for node, held in sorted(nodes.items()):
            x = sum(column[v] for v in held) // len(held)
            for below in sorted({spot[v] for v in held if v in spot}):
                page.line(x, y, *below)
            *_, segment = unpack(seg.bits, node)
            page.dot(x, y, node, segment)
            spot.update({v: (x, y) for v in held})
    return TOP + ROW * seg.top


def draw_history(page, top, columns, links, kept):
    """Draws the roots that led to one root, a column for each entry that made or retired one of them."""
    at, column = {}, 0
    for entry, made in columns:
        mine = [root for root in made if root in kept]
        if not mine:
            continue
        x = LEFT + 2 * STEP * column
        page.text(x, top, f"{entry['op']} {entry['request']['do']}, at {entry['at']}")
        for row, root in enumerate(mine):
            at[root] = (x, top + 40 + 45 * row)
        column += 1
    for r, s in links:
        if r in at and s in at:
            page.line(*at[r], *at[s])
    for root, (x, y) in at.items():
        page.dot(x, y, root, f"..{root % 1000:03}")


def entries_of(log, at):
    """Returns the entries of a log up to a time, or all if it is None; the summary is no entry."""
    with open(log, encoding="utf-8") as file:
        entries = [entry for entry in map(json.loads, file) if "op" in entry]
    return [entry for entry in entries if at is None or entry["at"] <= at]


def main(bits, grid, supervoxels, edges, log, supervoxel, at=None):
    with open(supervoxels, newline="") as file:
        ids = [int(row["supervoxel"]) for row in csv.DictReader(file)]
    with open(edges, newline="") as file:
        rows = list(csv.DictReader(file))
    states = {tuple(sorted((int(r["a"]), int(r["b"])))): r["active"] == "1" for r in rows}
    seg = Segmentation(bits, grid, ids, states)
    leaves, columns, links = history_of(entries_of(log, at), seg)
    root = seg.node.get((seg.top, supervoxel))
    if root is None:
        sys.exit(f"{supervoxel} has no root at that time")
    page = Page()
    page.text(10, 20, f"root {root}, {len(leaves[root])} supervoxels; numbers are segments", "start")
    bottom = draw_octree(page, seg, leaves[root])
    page.text(10, bottom, "history", "start")
    draw_history(page, bottom + 25, columns, links, ancestors_of(root, links))
    print(page.svg())


if __name__ == "__main__":
    if len(sys.argv) not in (7, 8):
        sys.exit(__doc__)
    words = sys.argv[1:]
    main(int(words[0]), [int(n) for n in words[1].split(",")], *words[2:5], *map(int, words[5:]))
