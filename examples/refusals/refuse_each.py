"""Refuses each growth of memory of a session in turn, one a run, and checks what is left.

usage: refuse_each.py PCG

PCG is the program. A session of one client that reads, merges, splits, undoes and redoes is run once with
all growths granted, and then once for each of them with that one refused. Each such run must end with
status 0 or 5. If it stopped before its sessions, it printed the one fault line and wrote no answer. Else
each line that wasn't answered NoMemory has the reply, and the log has the entries, of a run in which every
line that was answered NoMemory is no request at all. So what memory ran out over changed nothing.

It needs cc and a system that knows LD_PRELOAD. It isn't part of the gate. It prints how many runs there
were and how they ended, and ends with 1 where one ended wrongly.
"""

import collections
import json
import os
import pathlib
import subprocess
import sys
import tempfile

HERE = pathlib.Path(__file__).resolve().parent
P, Q, R, S = (str(v) for v in (72057594037927937, 72057594037927938, 72339069014638593, 72339069014638594))
T = "72339069014638595"
SUPERVOXELS = "supervoxel\n" + "".join(v + "\n" for v in (P, Q, R, S, T))
EDGES = "a,b,affinity,active\n" + "".join(f"{a},{b},{affinity},{active}\n" for a, b, affinity, active in (
    (P, Q, 10, 1), (Q, R, 7, 1), (R, S, 5, 0), (P, R, 3, 1), (S, T, 9, 1)))
FIRST = 216172782113783809
REQUESTS = [
    {"do": "root", "sv": P},
    {"do": "merge", "a": R, "b": S},
    {"do": "leaves", "root": str(FIRST + 2)},
    {"do": "split", "sources": [P], "sinks": [S, T]},
    {"do": "path", "sv": T},
    {"do": "merge", "pairs": [[P, S], [Q, T]]},
    {"do": "undo", "op": 2},
    {"do": "redo", "op": 2},
    {"do": "changes", "root": str(FIRST)},
    {"do": "undo", "op": 1},
    {"do": "merge", "a": P, "b": T},
    {"do": "root", "sv": T, "at": 1010},
]


def run(pcg, folder, lines, extra):
    """Runs a session of these lines, and returns its status, what it printed and its answers."""
    (folder / "supervoxels.csv").write_text(SUPERVOXELS)
    (folder / "edges.csv").write_text(EDGES)
    (folder / "one.req").write_text("".join(line + "\n" for line in lines))
    (folder / "one.ans").unlink(missing_ok=True)
    words = [pcg, "rehearse", "--bits", "8", "--grid", "2,1,1", "--supervoxels", "supervoxels.csv", "--edges", "edges.csv",
             "--merge-affinity", "6", "--clock", "1000,10", "one"]
    done = subprocess.run(words, cwd=folder, env={**os.environ, **extra}, stdout=subprocess.PIPE, stderr=subprocess.DEVNULL)
    answers = folder / "one.ans"
    return done.returncode, done.stdout.decode(), answers.read_text().splitlines() if answers.exists() else None


def is_right(pcg, folder, lines, ended):
    """Whether a run with a refused growth ended rightly, and how."""
    status, printed, answers = ended
    if status not in (0, 5):
        return False, f"status {status}"
    if status == 5 and '{"fault":"NoMemory"}\n' == printed:
        return not answers, "stopped before its session"
    replies = [json.loads(answer) for answer in answers]
    lost = [k for k, reply in enumerate(replies) if reply.get("refusal") == "NoMemory"]
    others = ["" if k in lost else line for k, line in enumerate(lines)]
    wanted = run(pcg, folder, others, {})
    same = wanted[0] == 0 and len(answers) == len(lines)
    same = same and all(k in lost or answer == wanted[2][k] for k, answer in enumerate(answers))
    if status == 5:
        return same and wanted[1].startswith(printed[: printed.rfind("\n") + 1]), "stopped while it printed"
    return same and printed == wanted[1], f"{len(lost)} lines without memory"


def main(pcg):
    pcg = str(pathlib.Path(pcg).resolve())
    lines = [json.dumps(request, separators=(",", ":")) for request in REQUESTS]
    ways, wrong = collections.Counter(), 0
    with tempfile.TemporaryDirectory() as name:
        folder = pathlib.Path(name)
        library, count = str(folder / "refuse.so"), folder / "count"
        subprocess.run(["cc", "-O2", "-shared", "-fPIC", str(HERE / "refuse.c"), "-o", library, "-ldl"], check=True)
        status, printed, answers = run(pcg, folder, lines, {"LD_PRELOAD": library, "REFUSE_COUNT": str(count)})
        if status != 0:
            sys.exit(f"with all growths granted the status is {status}")
        for number in range(1, int(count.read_text()) + 1):
            ended = run(pcg, folder, lines, {"LD_PRELOAD": library, "REFUSE": str(number)})
            right, way = is_right(pcg, folder, lines, ended)
            ways[way] += 1
            if not right:
                wrong += 1
                print(f"growth {number}: {way}, wrongly", ended)
    accepted = sum('"op"' in answer for answer in answers)
    print(f"{len(lines)} lines, {accepted} of them accepted edits; {sum(ways.values())} growths refused in turn")
    for way, times in sorted(ways.items()):
        print(f"  {times} {way}")
    sys.exit(1 if wrong else 0)


if __name__ == "__main__":
    if len(sys.argv) != 2:
        sys.exit(__doc__)
    main(sys.argv[1])
