#!/usr/bin/env python3
"""Brings the repository's own names in specs/ and proofs/ to Rattle's spelling.

usage: python3 tools/spell_names.py [--check]

Words are in snake case, types in upper camel case; a dash stays only between two names that are declared or imported. It goes over
all crates, renames what they declare (definitions, lemmas, fields, constructors) wherever it stands as a whole word in .antt files, in the
clauses and comments of .rt files and in must-fail edits, and the folder specs/memory. Functions of src/, strings, and names that Rattle
makes for a function's proof keep their spelling. --check writes nothing. It prints what it renames in /tmp/spell_names.tsv, and 'together:'
for a new name that a file already has.
"""

import collections
import os
import re
import subprocess
import sys

WORD = re.compile(r"[^\s(){}.;,@\"«»`\[\]]+")
KEYWORDS = {"pub", "abbrev", "unfoldable", "opaque", "record", "data", "private"}
NOT_NAMES = {"use", "module", "mod", "infix", "infixl", "infixr", "unfolding", "ruleset", "syntax", "mutual"}
# Lemmas that would have their function's name once that is in snake case.
LEMMAS = set(
    "all_codes all_right all_tested back_above by_tests end_by end_later first_code is_real joined_by lent_back numbers_of same_bytes same_sign twice_x whole_numbers".split()
)
# Names that would hide another word.
BY_HAND = {
    "is-vector": "is_vector_lem",
    "node-of": "node_of_lem",
    "number-at": "number_at_lem",
    "getD-arguments": "get_or-arguments",
    "or-else": "or_else_lem",
    "pieces-by": "pieces_by_lem",
    "sum-of": "sum_of_lem",
    "is-zero": "of_zero",
    "is-nonneg": "of_nonneg",
    "is_positive": "of_positive",
    "leftBy": "left_from",
    "realOf": "rational_of",
    "noSum": "not_sum",
    "noDifference": "not_difference",
    "noProduct": "not_product",
    "noVector": "not_vector",
    "noReal": "not_real",
    "noMinus": "not_minus",
    "noQuotient": "not_quotient",
}
BY_HAND.update({it: it + "_lem" for it in LEMMAS})
# An operator of the repository's own that is spelled as one of the library's, and its words.
OWN_OPERATOR = {"if◌then◌else◌": "when◌then◌else◌", "if": "when"}
# Names that `declared` does not see, as those of an import under another name.
MORE = {
    "elaboratedNumbers": "elaborated_numbers",
    "markedNumbers": "marked_numbers",
    "markedOf": "marked_of",
    "outRun'": "out_run'",
    "runRead": "run_read",
}
# Names that have two meanings, and the files of the one that is turned.
ONLY_IN = {"coded": "crates/book/", "same": "crates/book/proofs/SortRules.antt"}
# What a parameter or Rattle itself already calls so keeps its spelling.
KEEP = set()
# Words that join others in a name, and are no names there.
JOINING = set("a all and at by first from in is it no none of on one or second the to with".split())


def files(root, endings):
    for top in ("crates",):
        for folder, dirs, names in os.walk(os.path.join(root, top)):
            dirs[:] = sorted(d for d in dirs if d != "out")
            for name in sorted(names):
                if name.endswith(endings):
                    yield os.path.join(folder, name)


def read(path):
    with open(path, encoding="utf-8") as it:
        return it.read()


def is_of_a_function(path):
    """Whether it is a file of one function's proof, whose declared names are Rattle's goals."""
    return os.path.basename(path) in ("Proof.antt", "Answers.antt", "Invariants.antt")


def declared(text):
    """Yields each name that an .antt file declares, with whether it is a type."""
    inside, pending = None, []
    lines = text.split("\n")
    for k, line in enumerate(lines):
        if not line.strip() or line.lstrip().startswith("--"):
            continue
        if not line[0].isspace():
            inside = None
            words = line.split()
            kinds = []
            while words and words[0] in KEYWORDS:
                kinds.append(words.pop(0))
            if not words or words[0] in NOT_NAMES or (kinds == ["pub"] and words[0] in NOT_NAMES):
                continue
            name = WORD.match(words[0])
            if not name:
                continue
            name = name[0]
            if "record" in kinds or "data" in kinds:
                inside = "record" if "record" in kinds else "data"
                yield name, True
                continue
            rest = line.split(None, len(kinds) + 1)
            after = " ".join(line.split()[len(kinds) + 1 :])
            if after.startswith(":"):
                signature, n = after, k + 1
                while n < len(lines) and lines[n][:1].isspace():
                    signature += " " + lines[n].strip()
                    n += 1
                yield name, bool(re.search(r"(?:^:|→)\s*Type \d+\s*$", signature))
            continue
        entry = re.match(r"\s+((?:(?:pub|abbrev|unfoldable|opaque) )*)([^\s:(){}]+(?: [^\s:(){}]+)*) :(?:\s|$)", line)
        if entry and not {"let", "λ", "in", "elim", "record"} & set(entry[2].split()):
            for word in entry[2].split():
                yield word, not inside and bool(re.search(r"(?::|→)\s*Type \d+\s*$", line))


def snake(part):
    if not re.fullmatch(r"[A-Za-z0-9_]+['′₀-₉]*", part) or part[0].isupper():
        return part
    part = re.sub(r"(?<=[a-z0-9])([A-Z]+)(?=[A-Z][a-z])", r"_\1", part)
    return re.sub(r"(?<=[a-z0-9])([A-Z])", r"_\1", part).lower()


def camel(name):
    return "".join(w[:1].upper() + w[1:] for w in re.split(r"[-_]", name))


def respelled(name, is_type, known):
    if name in BY_HAND:
        return BY_HAND[name]
    if name in KEEP or "◌" in name or name.startswith(("+", "μ", "--")):
        return name
    if is_type or (name[0].isupper() and "-" in name):
        return camel(name) if name[0].islower() or "-" in name else name
    parts = [snake(it) for it in name.split("-")]
    new = parts[0]
    for left, right in zip(parts, parts[1:]):
        joins = left in known and right in known
        new += ("-" if joins else "_") + right
    return new


def table(root):
    names, imported = {}, set()
    for path in files(root, (".antt",)):
        text = read(path)
        for use in re.finditer(r"^\s*(?:pub )?use ([^\s{]+)\.\{([^}]*)\}", text, re.M):
            if not use[1].startswith("Rattle.") or use[1].startswith("Rattle.std."):
                for word in use[2].split(","):
                    imported.update(word.split())
        if is_of_a_function(path):
            continue
        for name, is_type in declared(text):
            names[name] = names.get(name, False) or is_type
    plain = {snake(n) for n in names if "-" not in n} | {n for n in imported if "-" not in n}
    plain -= JOINING
    rows = {}
    for name, is_type in names.items():
        if name in imported:
            continue
        new = respelled(name, is_type, plain)
        if new != name:
            rows[name] = new
    rows.update(MORE)
    taken = {b for a, b in rows.items() if "-" not in a}
    for a, b in rows.items():
        if "-" in a and b in taken:
            rows[a] = b + "_lem"
    return rows


def of_file(path, rows, root):
    """The rows that hold in this file."""
    path = os.path.relpath(path, root)
    gone = {a for a, top in ONLY_IN.items() if not path.startswith(top)}
    if not path.endswith(".antt"):
        gone |= {a for a in rows if a == snake(a) and "-" not in a}
    else:
        rows = rows | OWN_OPERATOR
    return {a: b for a, b in rows.items() if a not in gone}


def functions(root):
    """The names of src/'s functions, which are steps in the proofs of those that call them."""
    return {n for path in files(root, (".rt",)) for n in re.findall(r"\bfn (\w+)", read(path))}


def turned(text, rows, skip_strings, steps=()):
    """The text with each whole word of the table respelled; plain words with a dash stay in comments, where they may be English."""
    out, at = [], 0
    comment = r"//[^\n]*" if skip_strings else r"(?<![^\s(){}.;,])--[^\n]*"
    for it in re.finditer(rf"(?P<c>{comment})|(?P<s>\"(?:\\.|[^\"\\\n])*\")|(?P<w>{WORD.pattern})", text):
        out.append(text[at : it.start()])
        at = it.end()
        word = it[0]
        if it.lastgroup == "w":
            in_path = word in BY_HAND and "-" not in word and (text[it.start() - 1 : it.start()] == "." or text[at : at + 1] == ".")
            is_step = text[it.start() - 1 : it.start()] == "." and word.replace("-", "_") in steps
            if is_step:
                word = word.replace("-", "_")
            elif not (in_path and snake(word) == word):
                word = rows.get(word, word)
        elif it.lastgroup == "c":
            word = re.sub(WORD.pattern, lambda w: rows.get(w[0], w[0]) if re.search("[a-z][A-Z]", w[0]) else w[0], word)
            word = re.sub(r"`[^`\n]*`", lambda s: WORD.sub(lambda w: rows.get(w[0], w[0]), s[0][1:-1]).join("``"), word)
        out.append(word)
    out.append(text[at:])
    text = "".join(out)
    text = re.sub(r"(?<=\.specs\.)memory(?=\.)|(?<=^file: specs/)memory(?=/)", "Memory", text, flags=re.M)
    return re.sub(r"^pub mod memory$", "pub mod Memory", text, flags=re.M)


def main(words):
    check = "--check" in words
    root = os.path.dirname(os.path.dirname(os.path.abspath(__file__)))
    rows = table(root)
    with open("/tmp/spell_names.tsv", "w", encoding="utf-8") as it:
        it.writelines(f"{a}\t{b}\n" for a, b in sorted(rows.items()))
    back = collections.defaultdict(set)
    for a, b in rows.items():
        back[b].add(a)
    for b, many in sorted(back.items()):
        if len(many) > 1:
            print(f"together: {sorted(many)} -> {b}")
    changed, steps = 0, functions(root)
    for path in files(root, (".antt", ".rt", ".edit")):
        text = read(path)
        plain = re.sub(r"(?<![^\s(){}.;,])--[^\n]*", " ", text)
        plain = re.sub(r'"[^"\n]*"', " ", plain)
        plain = re.sub(r"[\w+'-]+\.(?=[\w+'{-])|\.[\w+'-]+", " ", plain)
        present, taken = set(WORD.findall(text)), set(WORD.findall(plain))
        here = of_file(path, rows, root)
        for a in sorted(present & set(here)):
            if here[a] in taken and here[a] not in here and not path.endswith((".rt", ".edit")):
                print(f"together: {os.path.relpath(path, root)}: {a} -> {here[a]}")
        new = turned(text, here, path.endswith((".rt", ".edit")), steps if is_of_a_function(path) else ())
        if new != text:
            changed += 1
            if not check:
                with open(path, "w", encoding="utf-8") as it:
                    it.write(new)
    if not check:
        for crate in sorted(os.listdir(os.path.join(root, "crates"))):
            for old, new in (("memory", "Memory"), ("memory.antt", "Memory.antt")):
                above = os.path.join("crates", crate, "specs")
                if os.path.exists(os.path.join(root, above, old)):
                    subprocess.run(["git", "mv", os.path.join(above, old), os.path.join(above, new)], cwd=root, check=True)
    print(f"{len(rows)} names, {changed} files")
    return 0


if __name__ == "__main__":
    raise SystemExit(main(sys.argv[1:]))
