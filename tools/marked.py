"""Writes crates/marked/specs/Marked.antt, the table of marked cases, and MarkedPremises.antt beside it, from tools/marked.txt.

    python3 tools/marked.py                     writes both files
    python3 tools/marked.py --check             says whether both files and the examples are those that this script makes
    python3 tools/marked.py --oracle PROGRAM    compares the expected answers with the Rust's, and writes nothing
    python3 tools/marked.py --cases FILE        writes the cases for tools/try_definitions.py
    python3 tools/marked.py --examples          writes K1 to K12 and a run that stops to examples/: book, run and text, and all answers
    python3 tools/marked.py --marks PROGRAM     runs `mark` on those files, and says which answers differ from the table's

The Rust has no refusals 1 to 12: of such a case only the accepted steps are compared, and of one with refusal 1 to 7 nothing.
"""
import os
import subprocess
import sys
import tempfile
import textwrap

import generated
from books import Book, argument, atom, batch, expressions, listed, record_text, run_bytes, run_text, shown, to_bytes
from text_writer import Writer

HERE = os.path.dirname(os.path.abspath(__file__))
TEXT = os.path.join(HERE, "marked.txt")
TABLE = os.path.join("crates", "marked", "specs", "Marked.antt")
PREMISES = os.path.join("crates", "marked", "specs", "MarkedPremises.antt")
EXAMPLES = os.path.join(HERE, "..", "examples")

USUAL = (1000, 65536, 1000, 1000)


class Case:
    def __init__(self, name, sorts):
        self.name = name
        self.book = Book(sorts)
        self.run = []  # ("step", rule, premises, literals, arguments), ("record", ..) or ("bytes", n)
        self.text = []  # what stands in marked.txt, in words
        self.limit, self.work, *self.out = USUAL
        self.answer = None
        self.inferred = {}
        self.premises = {}

    # ---- reading a line

    def read(self, word, rest):
        if word == "book":
            self.read_book(rest)
        elif word == "step":
            self.read_step(rest)
        elif word == "run":
            self.text.append("run " + rest)
            mark, *numbers = rest.split()
            self.run.append(("bytes", int(numbers[0])) if mark == "bytes" else ("record", mark, *map(int, numbers)))
        elif word in ("limit", "work"):
            self.text.append(word + " " + rest)
            setattr(self, word, int(rest))
        elif word == "out":
            self.text.append("out areas " + rest)
            self.out = tuple(map(int, rest.split()))
        elif word == "answer":
            self.answer = tuple(map(int, rest.split()))
        elif word == "infers":
            step, *numbers = rest.split()
            self.inferred[int(step)] = [tuple(map(int, n.split("/"))) for n in numbers]
        elif word == "premises":
            step, *tests = rest.split()
            self.premises[int(step)] = ["-+".index(t) == 1 for t in tests]
        else:
            raise ValueError(word)

    def read_book(self, rest):
        self.text.append("book " + rest)
        kind, *parts = rest.split()
        if kind in ("integer", "real", "vector", "atom", "operation", "kind", "bytes"):
            self.book.append((kind, *map(int, parts)))
        else:
            for e in expressions(rest):
                self.book.term(e)

    def read_step(self, rest):
        rule, literals, arguments, premises = (rest + "|||").split("|")[:4]
        literals, arguments = expressions(literals), expressions(arguments)
        words = ["rule " + rule.strip()]
        words += [" ".join(map(shown, literals))] if literals else []
        words += ["arguments " + " ".join(map(shown, arguments))] if arguments else []
        words += ["premises " + premises.strip()] if premises.strip() else []
        self.text.append(", ".join(words))
        numbers = [int(p) for p in premises.split()]
        self.run.append(
            ("step", int(rule), numbers, [self.book.term(e) for e in literals], [self.book.term(e) for e in arguments])
        )

    # ---- what is expected to be written: document 01's 'Elaboration'

    def written(self):
        """The steps and the tail's constants."""
        if self.answer[0] <= 8 and self.answer[0] != 0:
            return [], []
        constants = {record[1:]: i for i, record in enumerate(self.book.records) if record[0] == "real"}
        count, tail, steps = len(self.book.records), [], []
        for i, step in enumerate(self.run[: self.answer[1]]):
            _, rule, premises, literals, arguments = step
            for number in self.inferred.get(i, []):
                if number not in constants:
                    constants[number] = count + len(tail)
                    tail.append(number)
            more = [constants[number] for number in self.inferred.get(i, [])]
            steps.append(("step", 5 if rule == 6 else rule, premises, literals, arguments + more))
        return steps, tail

    # ---- as bytes

    def bytes(self):
        steps, tail = self.written()
        return (
            self.book.bytes(),
            b"".join(map(run_bytes, self.run)),
            b"".join(map(run_bytes, steps)),
            b"".join(to_bytes(("real", *q)) for q in tail),
        )

    # ---- as antt

    def antt(self):
        """Each part on lines of its own."""
        steps, tail = self.written()
        lent = (self.limit, self.work, *self.out)
        answer = "answers %d %d %d %s %s" % (
            *self.answer, argument(listed(map(run_text, steps))), argument(listed(record_text(("real", *q)) for q in tail))
        )
        return [
            listed(map(record_text, self.book.records)),
            listed(map(run_text, self.run)),
            "usual" if lent == USUAL else "%d, %d, %d, %d" % lent,
            answer,
        ]


    def tested(self):
        """Which premises each accepted step meets."""
        if sorted(self.premises) != list(range(self.answer[1])):
            raise ValueError("premises of some accepted steps of the case " + self.name)
        return [
            listed(map(record_text, self.book.records)),
            listed(map(run_text, self.run)),
            listed("(" + ", ".join(str(t).lower() for t in self.premises[i]) + ")" for i in range(self.answer[1])),
        ]


def read_cases():
    """Sections, each with a title and its cases."""
    sorts, sections = {}, []
    with open(TEXT) as f:
        lines = f.readlines()
    for line in map(str.strip, lines):
        word, _, rest = line.partition(" ")
        if not line or word == "#" or word.startswith("#"):
            continue
        if word == "==":
            sections.append((rest, []))
        elif word == "atoms":
            for group in rest.split(","):
                *names, sort = group.split()
                for name in names:
                    sorts[name] = (len(sorts), int(sort) if sort.isdigit() else sort)
        elif word == "case":
            sections[-1][1].append(Case(rest, sorts))
        else:
            sections[-1][1][-1].read(word, rest)
    return sections


# ---- the three uses

HEAD = """-- Written by tools/marked.py from tools/marked.txt: do not edit.
-- Document 01's examples K1 to K12, the inputs of its table of verdicts, and the places where document 01 and
-- the Rust are easy to misread, as one table that the checker computes. Expected answers come from document 01
-- and from the Rust's own answers.
use Rattle.std.specs.Prelude.{◌≡◌, refl, true, List, [], ◌∷◌, pos, negsuc, replicate}
use Rattle.terms.specs.Operator.{Not, And, Or, Equals, LessThan, LessEq, GreaterThan, GreaterEq}
use Rattle.terms.specs.Operator.{Add, Sub, Mult, IntDiv, RealDiv, ToReal, BvAdd, BvSub, BvNeg, BvMul}
use Rattle.terms.specs.BookExamples.{blank, integer_record, real_record, vector_record, atom_record, operation_record}
use Rattle.marked.specs.Cases.{Case, marked, usual, answers, run_record, step_records, all_marked, marks}
"""

PREMISES_HEAD = """-- Written by tools/marked.py from tools/marked.txt: do not edit.
-- Which of demand 3's premises each accepted step of K1 to K12 meets, one accepted step of each rule, and others that
-- tell a stronger or a weaker premise from the right one: even divs, whole numbers, no surplus arguments. Worked out by
-- hand.
use Rattle.std.specs.Prelude.{◌≡◌, refl, true, false, List, [], ◌∷◌, pos}
use Rattle.terms.specs.Operator.{Not, And, Or, Equals, LessThan, LessEq, GreaterThan, GreaterEq}
use Rattle.terms.specs.Operator.{Add, Sub, Mult, IntDiv, RealDiv, BvAdd, BvMul}
use Rattle.terms.specs.BookExamples.{integer_record, real_record, vector_record, atom_record, operation_record}
use Rattle.marked.specs.Cases.{step_records, marks}
use Rattle.elaborate.specs.PremiseTests.{Tested, tested, all_tested, tests}
"""


LINE = 110


def pieces(text, inside=1):
    """The text, parted before each cons that stands in so many parentheses."""
    parts, depth, word = [], 0, ""
    for i, ch in enumerate(text):
        if depth == inside and text.startswith(" ∷ ", i):
            parts.append(word)
            word = ""
        else:
            word += ch
        depth += (ch == "(") - (ch == ")")
    return parts + [word]


def filled(words):
    """Lines of at most so many characters, where no word is longer."""
    lines, line = [], ""
    for word in words:
        if line and len("    " + line + " " + word) > LINE:
            lines.append("    " + line)
            line = word
        else:
            line = line + " " + word if line else word
    return lines + ["    " + line]


def laid_out(word, parts):
    """A case on one line, or its book and what follows on lines of their own."""
    book, *others = map(argument, parts)
    whole = filled([word, book, *others])
    if len(whole) == 1:
        return whole
    words = []
    for part in others:
        # An answer has its lists one deeper.
        long = len("    " + part) > LINE
        words += pieces(part, 2 if part.startswith("(answers") else 1) if long else [part]
    return ["    " + word] + filled(pieces(book)) + filled(words)


def list_file(head, sections, word, parts, tail):
    """The bytes of a file with a list of cases, each with its words as a comment."""
    lines, cons = head[:], ""
    for title, cases in sections:
        lines.append("    -- ---- " + title)
        for case in cases:
            said = ": ".join([case.name] + ["; ".join(case.text)] * bool(case.text))
            lines += textwrap.wrap(said, LINE, initial_indent="    -- ", subsequent_indent="    -- ", break_on_hyphens=False)
            lines += laid_out(cons + word, parts(case))
            cons = "∷ "
    return "\n".join(lines + ["    ∷ []", ""] + tail + [""]).encode()


def table_files(sections):
    table = list_file(
        [HEAD, "cases : List Case", "unfolding marks", "cases ="], sections, "marked", Case.antt,
        ["all_marked_lem : all_marked cases ≡ true", "unfolding marks cases", "all_marked_lem = refl"],
    )
    told = [(title, [c for c in cases if c.premises]) for title, cases in sections]
    premises = list_file(
        [PREMISES_HEAD, "cases : List Tested", "unfolding marks", "cases ="], [t for t in told if t[1]], "tested",
        Case.tested, ["all_tested_lem : all_tested cases ≡ true", "unfolding marks tests cases", "all_tested_lem = refl"],
    )
    return {TABLE: table, PREMISES: premises}


def compare(sections, oracle):
    cases = [c for _, cs in sections for c in cs if c.answer[0] == 0 or c.answer[0] >= 8]
    told = []
    for c in cases:
        book, run, _, _ = c.bytes()
        if 8 <= c.answer[0] <= 12:
            run = b"".join(map(run_bytes, c.run[: c.answer[1]]))
        told.append((book, run))
    out = subprocess.run([oracle, "batch", "-", "--elaborate"], input=batch(told), stdout=subprocess.PIPE, check=True)
    wrong = 0
    for c, line in zip(cases, out.stdout.decode().splitlines()):
        verdict, accepted, visits, _, run, tail = line.split()
        limits = 8 <= c.answer[0] <= 12
        want = ["0" if limits else str(c.answer[0]), str(c.answer[1]), str(c.answer[2])]
        got = [verdict, accepted, visits]
        if c.answer[0] != 8:
            want += [part.hex() or "-" for part in c.bytes()[2:]]
            got += [run, tail]
        if want != got:
            wrong += 1
            print("%s: expected %s, the Rust says %s" % (c.name, " ".join(want), line))
    print("%d cases compared, %d differ" % (len(cases), wrong))
    return wrong


def write_cases(sections, path):
    with open(path, "w") as f:
        for c in (c for _, cs in sections for c in cs):
            parts = [part.hex() or "-" for part in c.bytes()]
            f.write("%s %s %d %d %d %d %d %d %d %s %s # %s\n" % (*parts[:2], c.limit, c.work, *c.out, *c.answer, *parts[2:], c.name))


# ---- the program `mark`


STOPS = "30 behind an accepted step, which is written"


def examples(sections):
    """Document 01's examples, and a run that stops behind an elaborated step, each with the name of its files."""
    for case in sections[0][1]:
        yield case.name.replace(",", "").replace(" ", "_"), case
    yield "stops", next(c for _, cases in sections for c in cases if c.name == STOPS)


def example_text(name, case):
    """The text that tools/make_run.py makes the example's files of."""
    head = "; %s: %s.book and %s.run are made of this text by tools/make_run.py.\n" % (case.name, name, name)
    head += "; The answer: verdict %d, accepted steps %d, visits %d.\n" % case.answer
    names = {atom(*where): symbol for symbol, where in case.book.sorts.items()}
    return (head + Writer(case.book.records, names).write([part[1:] for part in case.run])).encode()


def example_files(sections):
    answers = "# example, verdict, accepted steps, visits: written by tools/marked.py --examples from the table of tools/marked.txt\n"
    files = {}
    for name, case in examples(sections):
        for end, part in zip((".book", ".run", ".txt"), (*case.bytes()[:2], example_text(name, case))):
            files[os.path.join("examples", name + end)] = part
        answers += "%s %d %d %d\n" % (name, *case.answer)
    files[os.path.join("examples", "answers")] = answers.encode()
    return files


def marks_of(program, name, case, folder):
    """What the program says of an example, with the limit of its case and elaborating, that differs from the table."""
    files = [os.path.join(EXAMPLES, name + end) for end in (".book", ".run")]
    written = [os.path.join(folder, end) for end in ("run", "tail")]
    want = "verdict %d\naccepted steps %d\nvisits %d\n" % case.answer
    for words in ([*files, str(case.limit)], ["--elaborate", *files, str(case.limit), *written]):
        got = subprocess.run([program, *words], stdout=subprocess.PIPE, check=True).stdout.decode()
        if not got.startswith(want):
            yield "expected %r, mark says %r" % (want, got)
    for path, part in zip(written, case.bytes()[2:]):
        if generated.there(path) != part:
            yield "another elaboration is written"


def marks(program, sections):
    """Runs the program on the examples, and says how many answers differ."""
    wrong = []
    for name, case in examples(sections):
        with tempfile.TemporaryDirectory() as folder:
            wrong += ["%s: %s" % (name, what) for what in marks_of(program, name, case, folder)]
    for what in wrong:
        print(what)
    print("%d examples, %d answers differ" % (len(list(examples(sections))), len(wrong)))
    return len(wrong)


def main():
    sections = read_cases()
    if sys.argv[1:2] == ["--check"]:
        generated.check({**table_files(sections), **example_files(sections)})
    if sys.argv[1:2] == ["--examples"]:
        generated.write(example_files(sections))
        return
    if sys.argv[1:2] == ["--marks"]:
        sys.exit(1 if marks(sys.argv[2], sections) else 0)
    if sys.argv[1:2] == ["--oracle"]:
        sys.exit(1 if compare(sections, sys.argv[2]) else 0)
    if sys.argv[1:2] == ["--cases"]:
        write_cases(sections, sys.argv[2])
    else:
        generated.write(table_files(sections))
    print("%d cases" % sum(len(cs) for _, cs in sections))


if __name__ == "__main__":
    main()
