"""Has the prover compute the definitions on cases, and says which answers differ from what is expected.

    python3 tools/try_definitions.py FILE [--chunk N]

A case is a line: BOOK RUN LIMIT WORK OUTRUN OUTTAIL VERDICT STEPS VISITS WRITTENRUN WRITTENTAIL, then ` # ` and a name if there is
one. The book, the run and what is written are in hexadecimal, - where they are empty; the lengths of the work area and the out
areas are in bytes. tools/marked.py --cases and tools/random_cases.py write such files.

The cases become closed examples of a scratch crate in a copy of the repository, N of them in a declaration (25 where nothing is said). Those of a
declaration that is refused are tried again, one in a declaration, and of those that differ the definitions' answers are shown.
The crate marked and those that it knows must be proved: `rt check` there is run first. Exit status: 0 if no case differs, 1 if one does.
"""
import os
import re
import shutil
import struct
import subprocess
import sys
import tempfile
import time

from books import argument, listed, record_of, record_text, run_text

ROOT = os.path.join(os.path.dirname(os.path.abspath(__file__)), "..")
# Outside the checkout: `rt ci` refuses sources that stand in no crate of crates.txt.
COPY = os.path.join(tempfile.gettempdir(), "yirtabun-tried")
CRATE = os.path.join(COPY, "crates", "tried")
HEAD = """use Rattle.std.specs.Prelude.{◌≡◌, refl, Bool, true, List, [], ◌∷◌, ℕ, pos, negsuc}
use Rattle.terms.specs.Operator.{Not, And, Or, Equals, LessThan, LessEq, GreaterThan, GreaterEq}
use Rattle.terms.specs.Operator.{Add, Sub, Mult, IntDiv, RealDiv, ToReal, BvAdd, BvSub, BvNeg, BvMul}
use Rattle.numbers.specs.Bytes.{Bytes}
use Rattle.terms.specs.BookExamples.{integer_record, real_record, vector_record, atom_record, operation_record, joined}
use Rattle.elaborate.specs.Elaborate.{Answer, elaborate}
use Rattle.marked.specs.Cases.{Case, marked, answers, run_record, step_records, all_marked, marks}

"""


def known(crate):
    """The crate, behind those that crates.txt says it knows."""
    for line in open(os.path.join(ROOT, "crates.txt"), encoding="utf8"):
        name, _, others = line.partition(":")
        if name == crate:
            return others.split() + [crate]
    sys.exit("crates.txt has no crate " + crate)


# ---- bytes as antt: by the record builders where a record is one, else as they are


def plain(data):
    return "(%s)" % listed(map(str, data)) if data else "[]"


def book_text(data):
    cut = len(data) // 32 * 32
    records = [data[i : i + 32] for i in range(0, cut, 32)] + [data[cut:]] * (cut < len(data))
    texts = []
    for record in records:
        parts = record_of(record) if len(record) == 32 else None
        texts.append(record_text(parts) if parts else plain(record))
    return listed(texts)


def run_parts(data):
    """Steps where the records are in order, else single records."""
    cut = len(data) // 4 * 4
    records = [struct.unpack_from("<BBH", data, i) for i in range(0, cut, 4)]
    texts, i = [], 0
    while i < len(records):
        mark, byte, number = records[i]
        if mark != ord("S") or number:
            texts.append("run_record %d %d %d" % records[i])
            i += 1
            continue
        i, groups = i + 1, []
        for wanted in b"PCA":
            group = []
            while i < len(records) and records[i][:2] == (wanted, 0):
                group.append(records[i][2])
                i += 1
            groups.append(group)
        texts.append(run_text(("step", byte, *groups)))
    return listed(texts + [plain(data[cut:])] * (cut < len(data)))


class Case:
    def __init__(self, number, line):
        words, _, name = line.strip().partition(" # ")
        book, run, *numbers, out_run, out_tail = words.split()
        self.number, self.name = number, name or "case %d" % number
        self.book, self.run, self.out_run, self.out_tail = (
            bytes.fromhex("" if part == "-" else part) for part in (book, run, out_run, out_tail)
        )
        self.limit, self.work, self.room_run, self.room_tail, *self.answer = map(int, numbers)

    def text(self):
        lent = "(%d, %d, %d, %d)" % (self.limit, self.work, self.room_run, self.room_tail)
        out = " ".join(map(argument, (run_parts(self.out_run), book_text(self.out_tail))))
        parts = " ".join(map(argument, (book_text(self.book), run_parts(self.run))))
        return "marked %s %s (answers %d %d %d %s)" % (parts, lent, *self.answer, out)


# ---- the scratch crate


def declaration(name, cases):
    body = "\n    ∷ ".join([case.text() for case in cases] + ["[]"])
    return "%s : List Case\nunfolding marks\n%s =\n    %s\n\n" % (name, name, body) + (
        "%s-agree : all_marked %s ≡ true\nunfolding marks %s\n%s-agree = refl\n\n" % (name, name, name, name)
    )


def probe(name, case):
    """A refused equation, whose message has the definitions' verdict, steps, visits and bytes."""
    call = "elaborate (joined %s) (joined %s) %d %d %d %d" % (
        argument(book_text(case.book)),
        argument(run_parts(case.run)),
        case.limit,
        case.work,
        case.room_run,
        case.room_tail,
    )
    told = "%s : List Bytes\nunfolding marks\n%s =\n    let a : Answer = %s in\n" % (name, name, call)
    told += "    (a.verdict ∷ a.steps ∷ a.visits ∷ []) ∷ a.run ∷ a.tail ∷ []\n\n"
    return told + "%s-shown : %s ≡ []\nunfolding marks %s\n%s-shown = refl\n\n" % ((name,) * 4)


def prove(modules):
    """What the prover says of the scratch crate with these modules, by name, in a copy of the repository."""
    shutil.rmtree(COPY, ignore_errors=True)
    shutil.copytree(os.path.join(ROOT, "crates"), os.path.join(COPY, "crates"))
    with open(os.path.join(ROOT, "crates.txt"), encoding="utf8") as f, open(os.path.join(COPY, "crates.txt"), "w", encoding="utf8") as g:
        g.write(f.read() + "tried: %s\n" % " ".join(known("marked")))
    for folder in ("src", "specs", "proofs"):
        os.makedirs(os.path.join(CRATE, folder))
    with open(os.path.join(CRATE, "src", "lib.rt"), "w") as f:
        f.write("#![tactic(auto)]\n")
    open(os.path.join(CRATE, "proofs", "Lib.antt"), "w").close()
    with open(os.path.join(CRATE, "specs", "Lib.antt"), "w") as f:
        f.writelines("pub mod %s\n" % name for name in modules)
    for name, text in modules.items():
        with open(os.path.join(CRATE, "specs", name + ".antt"), "w") as f:
            f.write(HEAD + text)
    done = subprocess.run(["rt", "check"], cwd=CRATE, stdout=subprocess.PIPE, stderr=subprocess.STDOUT)
    return done.returncode, done.stdout.decode()


def refused(names, said):
    """The declarations that a message names."""
    return [name for name in names if re.search(r"`%s-agree`" % name, said)]


def answer_of(name, said):
    """What a probe's message shows: verdict, steps and visits, then the bytes, of which the prover cuts long ones."""
    found = re.search(r"`%s-shown`:.*?the other has\s+`(.*?)`" % name, said, re.S)
    return " ".join(found.group(1).split()) if found else "not shown"


def main():
    size = int(sys.argv[sys.argv.index("--chunk") + 1]) if "--chunk" in sys.argv else 25
    cases = [Case(i, line) for i, line in enumerate(open(sys.argv[1])) if line.strip()]
    done = subprocess.run(["rt", "check"], cwd=os.path.join(ROOT, "crates", "marked"), stdout=subprocess.PIPE, stderr=subprocess.STDOUT)
    if done.returncode:
        sys.exit(done.stdout.decode()[-3000:] + "the crates are not proved")
    start = time.time()
    chunks = {"chunk%d" % (i // size): cases[i : i + size] for i in range(0, len(cases), size)}
    status, said = prove({name.capitalize(): declaration(name, part) for name, part in chunks.items()})
    suspects = [case for name in refused(chunks, said) for case in chunks[name]]
    if status and not suspects:
        sys.exit(said[-3000:] + "the prover gives no verdict")
    if suspects:
        singles = {"case%d" % case.number: case for case in suspects}
        status, said = prove({name.capitalize(): declaration(name, [case]) for name, case in singles.items()})
        wrong = {name: singles[name] for name in refused(singles, said)}
        _, told = prove({name.capitalize(): probe(name, case) for name, case in wrong.items()})
        for name, case in wrong.items():
            print("line %d differs: %s\n  expected %s %s %s\n  definitions: %s" % (
                case.number + 1, case.name, case.answer, case.out_run.hex(), case.out_tail.hex(), answer_of(name, told)))
    else:
        wrong = {}
    print("%d cases, %d differ, %.0f s" % (len(cases), len(wrong), time.time() - start))
    sys.exit(1 if wrong else 0)


if __name__ == "__main__":
    main()
