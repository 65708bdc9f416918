"""Makes the requests of two clients over the volume of make_tables.py, and the schedule of their steps.

usage: make_requests.py FOLDER

A supervoxel is named here by its label and its chunk along x: c1 is the part of c in chunk 1. At ingest
a, c, d, e, g and h are one object, and b and f are another. The first client splits d from c, while the
second splits a from c. Then the second merges a with b, and the first undoes that.

Roots and operations get their numbers in order, so a request can name one that an earlier edit makes.
A number of the schedule is one step of that client. Behind it each client goes on until it has ended.
"""

import json
import os
import sys

from make_tables import BITS, CHUNK, LABELS, supervoxels_of
from pcg_ids import pack

TOP = 4  # the layer of the roots, for four chunks along x
SCHEDULE = (
    [2],  # looks at its split
    [1] * 10,  # splits the same object, and is answered
    [2] * 3,  # takes its lock, sees that the root is retired, and gives the lock back
    [2] * 10,  # splits the root that is there now
    [2] * 12,  # merges: two roots, two locks
)


def named_supervoxels(labels):
    """Returns each supervoxel, as a string of digits, by its name."""
    found = supervoxels_of(labels).items()
    return {f"{labels[z][y][x]}{x // CHUNK[0]}": str(v) for (z, y, x), v in found}


def root(segment):
    return str(pack(BITS, TOP, 0, 0, 0, segment))


def requests_of_first(named):
    edits = [
        {"do": "split", "sources": [named["c1"]], "sinks": [named["d3"]]},
        {"do": "undo", "op": 3},
    ]
    return edits + [{"do": "root", "sv": v} for v in sorted(named.values())]


def requests_of_second(named):
    return [
        {"do": "split", "sources": [named["a1"]], "sinks": [named["c1"], named["e1"]]},
        {"do": "merge", "a": named["a1"], "b": named["b2"]},
        {"do": "undo", "op": 3},  # the first client has done so by now
        {"do": "root", "sv": named["a1"], "at": 1000},
        {"do": "leaves", "root": root(1), "at": 1000},
        {"do": "leaves", "root": root(7)},  # the merged object, which the undo retired
        {"do": "path", "sv": named["a1"]},
        {"do": "changes", "root": root(8)},
    ]


def main(folder):
    named = named_supervoxels(LABELS)
    for stem, requests in ("first", requests_of_first(named)), ("second", requests_of_second(named)):
        with open(os.path.join(folder, stem + ".req"), "w") as file:
            file.writelines(json.dumps(request, separators=(",", ":")) + "\n" for request in requests)
    with open(os.path.join(folder, "schedule.txt"), "w") as file:
        file.writelines(" ".join(map(str, steps)) + "\n" for steps in SCHEDULE)


if __name__ == "__main__":
    if len(sys.argv) != 2:
        sys.exit(__doc__)
    main(sys.argv[1])
