"""Makes the two tables of pcg from a small labelled volume and its image.

usage: make_tables.py FOLDER

The volume is a list of slices, a slice a list of rows, a row a list of labels; 0 is no object. The
image has the same form, and is bright inside of a cell and dark at its membrane. A volume of your own
takes the place of both, as labels[z][y][x] and affinity(z, y, x, axis).

A supervoxel lies in one chunk. So a label that reaches over several chunks becomes one supervoxel in
each of them, and the parts are joined by glue, which no split ever cuts.
"""

import csv
import os
import sys

from pcg_ids import pack

BITS = 8
CHUNK = (4, 4, 2)  # voxels along x, y and z

LABELS = [
    [list(row) for row in rows]
    for rows in (
        ("aaaaaaaabbbbbbbb", "aaaaccaabbbbddbb", "eeeeccccccccddff", "eeeeee.ggggg.fff"),
        ("aaaaaaaabbbbbbbb", "eeeaccaabbbdddbb", "eeeecccchhhhddff", "eeeeee.ghhhg.fff"),
    )
]
IMAGE = [
    [[int(digit) for digit in row] for row in rows]
    for rows in (
        ("9988778824788899", "9983355726792299", "6622778882377266", "7766770999990777"),
        ("9988778824788899", "3349355726723299", "6622778843377266", "7766770944490777"),
    )
]


def affinity(z, y, x, axis):
    """Returns how likely a voxel and the next one along an axis (0 is x) are one cell, from 0 to 1."""
    dx, dy, dz = (int(axis == k) for k in range(3))
    return min(IMAGE[z][y][x], IMAGE[z + dz][y + dy][x + dx]) / 9


def supervoxels_of(labels):
    """Returns the supervoxel of each voxel that has a label, by (z, y, x)."""
    ids, found, last = {}, {}, {}
    for z, rows in enumerate(labels):
        for y, row in enumerate(rows):
            for x, label in enumerate(row):
                if label == ".":
                    continue
                chunk = (x // CHUNK[0], y // CHUNK[1], z // CHUNK[2])
                if (chunk, label) not in ids:
                    last[chunk] = last.get(chunk, 0) + 1
                    ids[chunk, label] = pack(BITS, 1, *chunk, last[chunk])
                found[z, y, x] = ids[chunk, label]
    return found


def edges_of(labels, supervoxel):
    """Returns, for each pair of supervoxels that touch, the affinities of their faces, or 'glue'."""
    faces = {}
    for (z, y, x), u in supervoxel.items():
        for axis, other in enumerate(((z, y, x + 1), (z, y + 1, x), (z + 1, y, x))):
            v = supervoxel.get(other)
            if v is None or u == v:
                continue
            pair = (min(u, v), max(u, v))
            if labels[z][y][x] == labels[other[0]][other[1]][other[2]]:
                faces[pair] = "glue"
            elif faces.get(pair) != "glue":
                faces.setdefault(pair, []).append(affinity(z, y, x, axis))
    return faces


def edge_row(pair, faces):
    """Returns a row of the edge table: whole numbers, and 0 or 1 for the state."""
    if faces == "glue":
        return [*pair, "glue", 1]
    mean = sum(faces) / len(faces)
    return [*pair, max(1, round(1000 * mean)), int(mean >= 0.5)]


def write_table(path, header, rows):
    with open(path, "w", newline="") as file:
        writer = csv.writer(file, lineterminator="\n")
        writer.writerow(header)
        writer.writerows(rows)


def main(folder):
    supervoxel = supervoxels_of(LABELS)
    ids = sorted(set(supervoxel.values()))
    edges = [edge_row(*item) for item in sorted(edges_of(LABELS, supervoxel).items())]
    write_table(os.path.join(folder, "supervoxels.csv"), ["supervoxel"], [[v] for v in ids])
    write_table(os.path.join(folder, "edges.csv"), ["a", "b", "affinity", "active"], edges)
    size = (len(LABELS[0][0]), len(LABELS[0]), len(LABELS))
    grid = ",".join(str(-(-n // c)) for n, c in zip(size, CHUNK))
    glue = sum(edge[2] == "glue" for edge in edges)
    active = sum(edge[3] for edge in edges)
    print(f"{len(ids)} supervoxels, {len(edges)} edges: {glue} glue, {active} active")
    print(f"--bits {BITS} --grid {grid}")


if __name__ == "__main__":
    if len(sys.argv) != 2:
        sys.exit(__doc__)
    main(sys.argv[1])
