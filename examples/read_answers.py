"""Reads the log and the answers of the clients, and prints what they say.

usage: read_answers.py BITS LOG STEM...

LOG is what pcg printed. The stems are those of the command, in its order: STEM.req has the requests and
STEM.ans the replies, one a line. Ids come as strings, since they are greater than 2^53: `int` reads them
exactly.

An accepted edit stands in a reply and in the log. If the two differ, or if the flow of a split isn't as
strong as its cut is heavy, the script says so and ends with 1.
"""

import collections
import json
import sys

from pcg_ids import spelled


def lines_of(path):
    with open(path, encoding="utf-8", newline="\n") as file:
        return [line.rstrip("\n") for line in file]


def tell_log(bits, entries, summary):
    """Prints each entry of the log, and the summary."""
    for entry in entries:
        print(f"entry {entry['op']} at {entry['at']}: {entry['request']['do']}", end="")
        print(f" by line {entry['line']} of client {entry['client']}" if entry["client"] else "")
        for a, b, state in entry["changed"]:
            print(f"  {'on' if state else 'off'} {a} {b}")
        for what in "retired", "made":
            for root in entry[what]:
                print(f"  {what} {spelled(bits, int(root))}")
    print(f"{summary['lines']} replies, {summary['refused']} of them refusals")
    for client, fault in summary["faults"]:
        print(f"client {client} ended in {fault}")
    print(f"{summary['roots']} roots, {summary['records']} records, status {summary['status']}")


def strength_of(request, flow):
    """Returns what a flow takes out of the sources, or None if a supervoxel without a mark loses any."""
    left = collections.Counter()
    for a, b, amount in flow:
        left[a] += amount
        left[b] -= amount
    sources, sinks = (set(map(str, request[side])) for side in ("sources", "sinks"))
    if any(amount for v, amount in left.items() if v not in sources | sinks):
        return None
    return sum(left[v] for v in sources)


def told_edit(request, reply, entry):
    """Returns an accepted edit in words, once the log and the flow agree with the reply."""
    if entry is None or any(entry[what] != reply[what] for what in ("op", "at", "made", "retired")):
        sys.exit(f"the log has another entry than the reply of operation {reply['op']}")
    words = f"entry {reply['op']} at {reply['at']}"
    if "cut" not in reply:
        return words
    if strength_of(request, reply["flow"]) != reply["total"]:
        sys.exit(f"the flow of operation {reply['op']} isn't as strong as its cut")
    return f"{words}, edges cut: {len(reply['cut'])}, of {reply['total']} in all, and the flow is as strong"


def told_read(request, reply):
    """Returns the answer to a read of anything but a root, in words."""
    if "leaves" in reply:
        return f"root {request['root']} has {len(reply['leaves'])} supervoxels"
    if "path" in reply:
        return f"above {request['sv']} stand " + ", ".join(reply["path"])
    changes = ", ".join(f"{change['op']} {change['do']}" for change in reply["changes"])
    return f"what led to root {request['root']}: {changes}"


def tell_roots(bits, of_root):
    """Prints the supervoxels that a client asked about, root by root."""
    for (_, when, root), supervoxels in sorted(of_root.items()):
        print(f"  root {root} {when} is the root of")
        for v in sorted(supervoxels):
            print(f"    {spelled(bits, v)}")


def tell_answers(bits, requests, replies, entry_of):
    """Prints what each line of a client was answered, and then the roots that it was told."""
    of_root = {}
    for line, (text, reply) in enumerate(zip(requests, map(json.loads, replies)), 1):
        if not reply["ok"]:
            print(f"  line {line}: {text} is refused: {reply['refusal']}")
            continue
        request = json.loads(text)
        when = f"at {request['at']}" if "at" in request else f"after entry {reply['seen'] - 1}"
        if "op" in reply:
            print(f"  line {line}, {request['do']}: {told_edit(request, reply, entry_of.pop(line, None))}")
        elif "root" in reply:
            key = (reply["seen"], when, int(reply["root"]))
            of_root.setdefault(key, set()).add(int(request["sv"]))
        else:
            print(f"  line {line}, {request['do']} {when}: {told_read(request, reply)}")
    tell_roots(bits, of_root)


def main(bits, log, stems):
    *entries, summary = map(json.loads, lines_of(log))
    if "fault" in summary:
        sys.exit(f"the call stopped: {summary['fault']}")
    tell_log(bits, entries, summary)
    for client, stem in enumerate(stems, 1):
        print(f"client {client}, {stem}")
        requests, replies = lines_of(stem + ".req"), lines_of(stem + ".ans")
        entry_of = {entry["line"]: entry for entry in entries if entry["client"] == client}
        tell_answers(bits, requests, replies, entry_of)
        if len(requests) != len(replies):
            print(f"  {len(requests)} requests, {len(replies)} replies: the session broke off")
        elif entry_of:
            sys.exit(f"the log has an edit of client {client} that no reply tells")


if __name__ == "__main__":
    if len(sys.argv) < 4:
        sys.exit(__doc__)
    main(int(sys.argv[1]), sys.argv[2], sys.argv[3:])
