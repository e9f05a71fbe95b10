#!/usr/bin/env python3
"""Holds the documents to the repository, and the sources to their measures.

    python3 tools/check_documents.py

- Every path of a crate's file or module that a document names is there (`terms/src/sort.rt`, `runs/specs/Run`).
- The modules of READING.md's order have the lines that it says, and so have its sittings; its table of memory modules has every one;
  a definition that a table gives with its module is there.
- docs/ARCHITECTURE.md names every crate of crates.txt in its table of layers.
- A crate's line in crates.txt names the crates of this repository that its files name, and no other.
- Source files have at most 400 lines; lines of src and specs at most 120 characters.

Says what is wrong, a line each, and ends with status 1 if something is. Needs Python alone, and writes nothing.
"""
import os
import re
import sys

sys.dont_write_bytecode = True
from generated import ROOT

MOST_LINES = 400  # of a source file
MOST_CHARACTERS = 120  # of a line of src and specs
PATH = re.compile(r"\b([a-z_]+)/((?:src|specs|proofs|must-fail)(?:/[\w+.-]+)+)")
ROW = re.compile(r"^\| (\d?) ?\| ([\w/]+) \| (\d+) \|")
SITTINGS = re.compile(r"Three sittings, of ([\d,]+), ([\d,]+) and ([\d,]+) lines")


def text(path):
    with open(os.path.join(ROOT, path), encoding="utf8") as f:
        return f.read()


def documents():
    found = ["README.md", "CONTRIBUTING.md"]
    return found + sorted("docs/" + name for name in os.listdir(os.path.join(ROOT, "docs")) if name.endswith(".md"))


def crates():
    return re.findall(r"^(\w+)(?: staticlib)?:", text("crates.txt"), re.M)


def is_there(crate, rest):
    """A file, a folder, or a module without its ending; a sentence's full stop may follow."""
    whole = os.path.join(ROOT, "crates", crate, rest)
    return any(os.path.exists(p) for p in (whole, whole + ".antt", whole.rstrip("."), whole.rstrip(".") + ".antt"))


def paths():
    known = set(crates())
    for name in documents():
        for at, line in enumerate(text(name).splitlines(), 1):
            for crate, rest in PATH.findall(line):
                if crate not in known:
                    if os.path.isdir(os.path.join(ROOT, crate)) or crate in ("crates", "docs"):
                        continue
                    yield "%s:%d: there is no crate %s" % (name, at, crate)
                elif not is_there(crate, rest):
                    yield "%s:%d: there is no %s/%s" % (name, at, crate, rest)


def reading():
    document = text("docs/READING.md")
    sums, sitting = [], None
    for line in document.splitlines():
        row = ROW.match(line)
        if not row:
            continue
        number, module, said = row.groups()
        if number:
            sums.append(0)
        crate, rest = module.split("/", 1)
        if not is_there(crate, rest):
            continue
        lines = text("crates/%s/%s.antt" % (crate, rest)).count("\n")
        sums[-1] += lines
        if lines != int(said):
            yield "docs/READING.md: %s has %d lines, and not %s" % (module, lines, said)
    found = SITTINGS.search(document)
    if not found or [int(n.replace(",", "")) for n in found.groups()] != sums:
        yield "docs/READING.md: the sittings have %s lines" % ", ".join("{:,}".format(n) for n in sums)


def memory():
    """READING.md's table of the modules in specs/Memory."""
    said = {}
    for crate, modules in re.findall(r"^\| (\w+) \| ([\w, ]+) \|$", text("docs/READING.md"), re.M):
        said[crate] = sorted(modules.split(", "))
    for crate in crates():
        folder = os.path.join(ROOT, "crates", crate, "specs", "Memory")
        there = sorted(name[:-5] for name in os.listdir(folder)) if os.path.isdir(folder) else []
        if there and said.get(crate) != there:
            yield "docs/READING.md: the memory modules of %s are %s" % (crate, ", ".join(there))


def definitions():
    """READING.md's table from the demands: each definition stands in one of the modules beside it."""
    for sentence, names, modules in re.findall(r"^\| (.+?) \| (.*`.*) \| (\w+/specs/.+) \|$", text("docs/READING.md"), re.M):
        folder, whole = "", ""
        for module in modules.split(", "):
            folder = module.rsplit("/", 1)[0] if "/" in module else folder
            path = "crates/%s/%s.antt" % (folder, module.rsplit("/", 1)[-1])
            whole += text(path) if os.path.exists(os.path.join(ROOT, path)) else ""
        for name in re.findall(r"`([^` ]+)`", names):
            if not re.search(r"^ *(?:(?:abbrev|unfoldable|pub|record|data) )*%s\b" % re.escape(name), whole, re.M):
                yield "docs/READING.md: %s is not in %s" % (name, modules)


def layers():
    section = text("docs/ARCHITECTURE.md").split("## Layers")[1].split("## ")[0]
    named = set(re.findall(r"`(\w+)`", section))
    for crate in crates():
        if crate not in named:
            yield "docs/ARCHITECTURE.md: its table of layers does not name %s" % crate


def sources(crate):
    for part in ("src", "specs", "proofs"):
        for folder, _, names in os.walk(os.path.join(ROOT, "crates", crate, part)):
            for name in names:
                yield text(os.path.relpath(os.path.join(folder, name), ROOT))


def dependencies():
    """A name too many in crates.txt is a level more, on which a crate waits."""
    known = crates()
    for line in text("crates.txt").splitlines():
        found = re.match(r"(\w+)(?: staticlib)?:(.*)", line)
        if not found:
            continue
        crate, said = found.group(1), {name for name in found.group(2).split() if name in known}
        whole = "\n".join(sources(crate))
        named = set(re.findall(r"Rattle\.(\w+)\.", whole)) | set(re.findall(r"^(?:pub )?use (\w+)::", whole, re.M))
        named = (named & set(known)) - {crate}
        for name in sorted(said ^ named):
            yield "crates.txt: %s %s %s" % (crate, "need not name" if name in said else "does not name", name)


def measures():
    for crate in crates():
        for part in ("src", "specs"):
            for folder, _, names in os.walk(os.path.join(ROOT, "crates", crate, part)):
                for name in sorted(names):
                    path = os.path.relpath(os.path.join(folder, name), ROOT)
                    lines = text(path).splitlines()
                    if part == "src" and len(lines) > MOST_LINES:
                        yield "%s has %d lines" % (path, len(lines))
                    for at, line in enumerate(lines, 1):
                        if len(line) > MOST_CHARACTERS:
                            yield "%s:%d has %d characters" % (path, at, len(line))


def main():
    wrong = [fault for part in (paths, reading, memory, definitions, layers, dependencies, measures) for fault in part()]
    for fault in wrong:
        print(fault)
    print("check_documents.py: %d faults" % len(wrong))
    sys.exit(1 if wrong else 0)


if __name__ == "__main__":
    main()
