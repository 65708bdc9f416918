"""Meets limits that are too large for a test, one a run, and checks what the program says.

usage: try_each.py PCG

PCG is the program. A stream of requests, a schedule and each table may have 1,073,741,824 bytes, and the
component of a split 500,000 active pairs. The long texts here have zero bytes behind their first lines, and
take no room on a disk that keeps holes. What is wanted was worked out from docs/FORMATS.md and
docs/DEFINITIONS.md.

It isn't part of the gate. It prints how long each case took, and ends with 1 where one ended wrongly.
"""

import os
import pathlib
import subprocess
import sys
import tempfile
import time

MOST = 2**30
P, Q, R, S = (str(v) for v in (72057594037927937, 72057594037927938, 72339069014638593, 72339069014638594))
SUPERVOXELS = "supervoxel\n" + "".join(v + "\n" for v in (P, Q, R, S))
EDGES = "a,b,affinity,active\n" + "".join(f"{a},{b},{affinity},{active}\n" for a, b, affinity, active in (
    (P, Q, 10, 1), (Q, R, 7, 1), (R, S, 5, 0)))
ROOT = '{"do":"root","sv":"%s"}\n' % P
FOUND = '{"ok":true,"root":"216172782113783809","seen":1}\n'
LOG = ('{"at":1000,"changed":[],"client":0,"line":0,"made":["216172782113783809","216172782113783810"],"op":0,'
       '"request":{"do":"ingest"},"retired":[]}\n')


def summary(lines, faults, refused, status, records=24, roots=2):
    return (f'{{"accepted":0,"clients":1,"entries":1,"faults":{faults},"lines":{lines},"records":{records},'
            f'"refused":{refused},"roots":{roots},"status":{status}}}\n')


def too_long(name):
    return '{"client":0,"fault":"TooLong","file":"%s"}\n' % name


def fill(file, size):
    """Puts zero bytes behind a file, up to a size."""
    os.truncate(file, size)


def start(folder):
    (folder / "supervoxels.csv").write_text(SUPERVOXELS)
    (folder / "edges.csv").write_text(EDGES)
    (folder / "schedule.txt").write_text("1\n")
    (folder / "one.req").write_text(ROOT)
    (folder / "one.ans").unlink(missing_ok=True)


def run(pcg, folder, grid):
    """Runs a session, and returns its status, what it printed and its answers."""
    words = [pcg, "rehearse", "--bits", "8", "--grid", grid, "--supervoxels", "supervoxels.csv", "--edges", "edges.csv",
             "--merge-affinity", "1", "--clock", "1000,10", "--schedule", "schedule.txt", "one"]
    done = subprocess.run(words, cwd=folder, stdout=subprocess.PIPE, stderr=subprocess.DEVNULL)
    answers = folder / "one.ans"
    return done.returncode, done.stdout.decode(), answers.read_text() if answers.exists() else None


def longest_stream(folder):
    """The last line has all bytes behind the first, and is too long for a request."""
    fill(folder / "one.req", MOST)
    refused = '{"bytes":%d,"ok":false,"refusal":"LineTooLong"}\n' % (MOST - len(ROOT))
    return 0, LOG + summary(2, "[]", 1, 0), FOUND + refused


def stream_too_long(folder):
    """The line that the limit breaks off is not answered, and the one before it is."""
    fill(folder / "one.req", MOST + 1)
    return 7, LOG + summary(1, '[[1,"TooLong"]]', 0, 7), FOUND


def schedule_too_long(folder):
    fill(folder / "schedule.txt", MOST + 1)
    return 7, too_long("schedule"), None


def supervoxels_too_long(folder):
    fill(folder / "supervoxels.csv", MOST + 1)
    return 7, too_long("supervoxels"), None


def edges_too_long(folder):
    fill(folder / "edges.csv", MOST + 1)
    return 7, too_long("edges"), None


def component_too_large(folder):
    """1,001 supervoxels of which each two are joined have 500,500 active pairs. Their base takes a record for
    each of them and of their pairs, for the header, the ingest, the root and its chunk, and 1,001 links."""
    ids = [int(P) + k for k in range(1001)]
    (folder / "supervoxels.csv").write_text("supervoxel\n" + "".join(f"{v}\n" for v in ids))
    pairs = (f"{a},{b},1,1\n" for k, b in enumerate(ids) for a in ids[:k])
    (folder / "edges.csv").write_text("a,b,affinity,active\n" + "".join(pairs))
    (folder / "one.req").write_text('{"do":"split","sources":["%d"],"sinks":["%d"]}\n' % (ids[0], ids[-1]))
    log = ('{"at":1000,"changed":[],"client":0,"line":0,"made":["144115188075855873"],"op":0,"request":{"do":"ingest"},'
           '"retired":[]}\n')
    records = 1001 + 500500 + 4 + 1001
    return 0, log + summary(1, "[]", 1, 0, records, 1), '{"edges":500500,"ok":false,"refusal":"TooLarge","seen":1}\n'


CASES = (longest_stream, stream_too_long, schedule_too_long, supervoxels_too_long, edges_too_long, component_too_large)


def main(pcg):
    pcg = str(pathlib.Path(pcg).resolve())
    wrong = 0
    for case in CASES:
        with tempfile.TemporaryDirectory() as name:
            folder = pathlib.Path(name)
            start(folder)
            status, printed, answers = case(folder)
            began = time.monotonic()
            found = run(pcg, folder, "1,1,1" if case is component_too_large else "2,1,1")
            took = time.monotonic() - began
        right = found == (status, printed, answers)
        wrong += not right
        print(f"{case.__name__}: status {found[0]}, {took:.1f} s" + ("" if right else f", wrongly {found[1:]}"))
    sys.exit(1 if wrong else 0)


if __name__ == "__main__":
    if len(sys.argv) != 2:
        sys.exit(__doc__)
    main(sys.argv[1])
