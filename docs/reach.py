"""Tells which definitions a clause of `run` is made of, and checks the table of CLAIMS.md by that.

usage: reach.py [--write]

A definition is reached if the contract of pcg_serve::run names it, or another reached one does. The table
"What a reader must read to believe `run`" has each file under crates/*/specs with a reached definition,
with their number and their lines, without imports, comments and blank lines. Each other file says in its
first line that no clause of `run` is made of it. It prints where the table or a first line says something
else and ends with 1; with --write it puts the right numbers there. A file that has come or gone it names
alone: its place and its sentence, or its first line, are for a person to write.
"""

import pathlib
import re
import sys

ROOT = pathlib.Path(__file__).resolve().parent.parent
CLAIMS = ROOT / "docs" / "CLAIMS.md"
CALL = ROOT / "crates" / "pcg_serve" / "src" / "calls.rt"
IMPORT = re.compile(r"use Rattle\.(\w+)\.specs\.([\w.]+?)(?:\.\{(.*)\})?(?: as (\w+))?;?$")
HEADS = (
    re.compile(r"(?:pub )?(?:record|data) (\S+)"),
    re.compile(r"(?:abbrev|unfoldable) (?:pub )?(\S+) *:"),
)
WORD = re.compile(r"[^\s(){}\[\],;λ]+")
ROW = re.compile(r"\| \d+ \| `(\w+)/specs/([\w/]+)\.antt` \| (.*) \| (\d+) \| (\d+) \|$")
FIRST_LINES = (
    "-- Inner: no clause of `run` is made of it.",
    "-- Examples: no clause of `run` is made of them.",
)
TOTAL = re.compile(r"(\d+) spec files have a definition that a clause of `run` is made of: (\d+) definitions of ([\d,]+) lines")


class Module:
    """The names that a file brings into scope, and its definitions with their lines."""

    def __init__(self, text):
        self.names, self.modules, self.definitions = {}, {}, {}
        current, indent, before = None, 0, []
        for line in text.split("\n"):
            bare = line.strip()
            found = IMPORT.match(bare.removeprefix("ghost "))
            if found:
                self.bring(*found.groups())
            depth = len(line) - len(line.lstrip())
            if not bare or (current and depth <= indent and bare.startswith("--")):
                current = None
                continue
            if bare.startswith(("--", "use ", "ghost use ", "module ", "pub mod ")):
                continue
            if current is None or depth <= indent:
                head = next((m for m in (pattern.match(bare) for pattern in HEADS) if m), None)
                if head:
                    current, indent = head.group(1), depth
                    self.definitions[current] = before
                    before = []
                elif bare.startswith("infix"):
                    before = [bare]
                    continue
            if current:
                self.definitions[current].append(bare)

    def bring(self, crate, path, names, other):
        if names is None:
            if other:
                self.modules[other] = (crate, path)
            return
        for name in re.split(r", *", names):
            first, _, last = name.strip().partition(" as ")
            self.names[last or first] = ((crate, path), first)

    def named(self, own, text):
        """The definitions that a text of this file names."""
        out = set()
        for word in WORD.findall(text):
            first, _, rest = word.partition(".")
            for name in (word, first):
                if name in self.definitions:
                    out.add((own, name))
                if name in self.names:
                    out.add(self.names[name])
            if first in self.modules and rest:
                out.add((self.modules[first], rest.split(".")[0]))
        for name in [*self.names, *self.definitions]:
            sign = name.strip("◌")
            if "◌" in name and sign and f" {sign} " in text:
                out.add(self.names.get(name, (own, name)))
        return out


def texts():
    """The text of each file under a specs folder, by its crate and module; a list of modules isn't one."""
    out = {}
    for path in sorted(ROOT.glob("crates/*/specs/**/*.antt")):
        crate = path.relative_to(ROOT / "crates").parts[0]
        inner = path.relative_to(ROOT / "crates" / crate / "specs").with_suffix("")
        if path.name != "Lib.antt":
            out[crate, ".".join(inner.parts)] = path.read_text(encoding="utf-8")
    return out


def first_lines(files, found):
    """Whether each file's first line tells that no clause is made of it, just where that is so."""
    right = True
    for own, text in files.items():
        if text.startswith(FIRST_LINES) == (own in found):
            right = False
            told = "is made of it" if own in found else f"isn't made of it: its first line is to be {FIRST_LINES[0]}"
            print(f"{'/specs/'.join(own)}: run {told}")
    return right


def reached(files):
    """The reached definitions, by file: for each how many, and of how many lines together."""
    modules = {own: Module(text) for own, text in files.items()}
    call = CALL.read_text(encoding="utf-8")
    begin = call.index("pub fn run<")
    clauses = re.sub(r"//.*", "", call[begin : call.index("\n{", begin)])
    todo, seen = list(Module(call).named(None, clauses)), set()
    while todo:
        own, name = todo.pop()
        if (own, name) in seen or own not in modules:
            continue
        module = modules[own]
        if name not in module.definitions:
            # a constructor stands for its type
            todo += [(own, d) for d, lines in module.definitions.items() if any(re.match(re.escape(name) + r" *:", at) for at in lines)]
            continue
        seen.add((own, name))
        todo += module.named(own, "\n".join(module.definitions[name]))
    out = {}
    for own, name in seen:
        lines, count = out.get(own, (0, 0))
        out[own] = (lines + len(modules[own].definitions[name]), count + 1)
    return out


def main(write):
    files = texts()
    found, number = reached(files), 0
    right = first_lines(files, found)
    left, lines = set(found), CLAIMS.read_text(encoding="utf-8").split("\n")
    for at, line in enumerate(lines):
        row = ROW.match(line)
        if not row:
            continue
        own = (row.group(1), row.group(2).replace("/", "."))
        left.discard(own)
        number += 1
        told = found.get(own)
        if told is None:
            right = False
            print(f"CLAIMS.md: no clause of run reaches {'/specs/'.join(own)}")
            continue
        want = f"| {number} | `{own[0]}/specs/{row.group(2)}.antt` | {row.group(3)} | {told[0]} | {told[1]} |"
        if want != line:
            right = right and write
            print(f"CLAIMS.md: {line}\n       not {want}" if not write else f"CLAIMS.md: {want}")
            lines[at] = want
    for own in sorted(left):
        right = False
        print(f"CLAIMS.md: {'/specs/'.join(own)} isn't in the table: {found[own][0]} lines, {found[own][1]} definitions")
    total = (len(found), sum(count for _, count in found.values()), f"{sum(size for size, _ in found.values()):,}")
    for at, line in enumerate(lines):
        sentence = TOTAL.search(line)
        if sentence and sentence.groups() != tuple(map(str, total)):
            right = right and write
            print(f"CLAIMS.md: {total[0]} files, {total[1]} definitions, {total[2]} lines")
            lines[at] = TOTAL.sub(f"{total[0]} spec files have a definition that a clause of `run` is made of: {total[1]} definitions of {total[2]} lines", line)
    if write:
        CLAIMS.write_text("\n".join(lines), encoding="utf-8")
    sys.exit(0 if right else 1)


if __name__ == "__main__":
    if sys.argv[1:] not in ([], ["--write"]):
        sys.exit(__doc__)
    main(bool(sys.argv[1:]))
