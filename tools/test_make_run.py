"""Tries tools/make_run.py: python3 tools/test_make_run.py. Writes nothing but to a temporary folder.

The examples' texts give the bytes that are there; a book and a run become a text that gives the same bytes (the examples, the books of
tools/book_cases.py, the runs of crates/run_cases, random and deep books); what is not well formed is refused as those files say, and
what a text cannot say is refused at its line and column.
"""
import glob
import os
import random
import struct
import subprocess
import sys
import tempfile
import unittest

import book_cases
from books import OPERATORS, step_bytes, to_bytes
from generated import ROOT, there
from refusals import Refusal, SortFault, counts, layout_fault, read_book, read_run, sort_of
from run_cases import stored
from text_reader import Fault, Reader
from text_writer import Writer

PROGRAM = os.path.join(ROOT, "tools", "make_run.py")

# A text, line:column of its fault, and words of the message. All follow from document 01 and from make_run.py --help.
DECLARED = "(declare-const x Int) (declare-const p Bool)\n(declare-const v (_ BitVec 8)) (declare-const u Real)\n"  # two lines
FAULTS = [
    # the notation
    ("(step", "1:1", "not closed"),
    ("\n  (term 1", "2:3", "not closed"),
    ("(term 1))", "1:9", "closes none"),
    ("(term |a b)", "1:7", "| that is not closed"),
    ('(term "a")', "1:7", "not used here"),
    ("x", "1:1", "expected (declare-const"),
    ("()", "1:1", "expected (declare-const"),
    ("; (\n(check)", "2:1", "expected (declare-const"),
    # atoms
    ("(declare-const x)", "1:1", "expected (declare-const NAME SORT)"),
    ("(declare-const 3 Int)", "1:16", "expected a name"),
    ("(declare-const + Int)", "1:16", "no name"),
    ("(declare-const x String)", "1:18", "expected a sort"),
    ("(declare-const x (_ BitVec 31))", "1:28", "not from 1 to 30"),
    ("(declare-const x (_ BitVec 0))", "1:28", "not from 1 to 30"),
    ("(declare-const x Int)\n(declare-const x Real)", "2:16", "declared before"),
    ("(declare-const x Int)\n(declare-const y Int :name 0)", "2:1", "is declared as x"),
    ("(declare-const x Int :name 18446744073709551616)", "1:28", "2^64 - 1"),
    ("(declare-const x Int :name -1)", "1:28", "the atom's name"),
    ("(declare-const x Int :width 1)", "1:22", "expected :name"),
    ("(declare-fun f (Int) Int)", "1:16", "no functions"),
    # terms
    ("(term y)", "1:7", "y is not declared"),
    ("(term +)", "1:7", "is an operator"),
    ("(term (mod 1 2))", "1:8", "mod is no operator"),
    ("(term ((+ 1 2) 3))", "1:8", "expected an operator"),
    ("(term ())", "1:7", "expected an operator"),
    ("(term 2147483648)", "1:7", "out of range"),
    ("(term -2147483648)", "1:7", "out of range"),
    ("(term 1/2147483648)", "1:7", "out of range"),
    ("(term 0.00000000000000000001)", "1:7", "out of range"),
    ("(term 2/4)", "1:7", "lowest terms, which are 1/2"),
    ("(term 1/0)", "1:7", "not at least 1"),
    ("(term 1/-2)", "1:7", "not at least 1"),
    ("(term 3x)", "1:7", "no number"),
    ("(term %s)" % ("1" * 5000), "1:7", "out of range"),
    ("(term #xfffffffff)", "1:7", "a width of 36"),
    ("(term (_ bv4 2))", "1:7", "does not fit into 2 bits"),
    ("(term (_ bv4 31))", "1:7", "a width of 31"),
    (DECLARED + "(term (not p p))", "3:7", "not takes 1 argument, and has 2"),
    (DECLARED + "(term (div x))", "3:7", "div takes 2 arguments, and has 1"),
    (DECLARED + "(term (+ x))", "3:7", "+ takes 2 to 14 arguments, and has 1"),
    (DECLARED + "(term (-))", "3:7", "- takes 1 to 14 arguments, and has 0"),
    (DECLARED + "(term (+ %s))" % " ".join(["x"] * 15), "3:7", "+ takes 2 to 14 arguments, and has 15"),
    (DECLARED + "(term (+ p 1))", "3:10", "argument 1 of +: + takes numbers, and this has sort Bool"),
    (DECLARED + "(term (and p (< x 1)\n  x))", "4:3", "argument 3 of and: and takes terms of sort Bool, and this has sort Int"),
    (DECLARED + "(term (= x u p))", "3:14", "argument 3 of =: = takes terms of one sort"),
    (DECLARED + "(term (= v #b0))", "3:12", "this has sort (_ BitVec 1)"),
    (DECLARED + "(term (div x u))", "3:14", "takes terms of sort Int, and this has sort Real"),
    (DECLARED + "(term (bvadd v #x000))", "3:16", "the first has 8 bits, and this has 12"),
    (DECLARED + "(term (bvneg x))", "3:14", "bvneg takes bit-vectors, and this has sort Int"),
    (DECLARED + "(term (< 1 (to_real v)))", "3:21", "to_real takes numbers"),
    (DECLARED + "(term x x x)", "3:1", "expected (term TERM)"),
    (DECLARED + "(term x 1)", "3:7", "declared before"),
    # steps
    (DECLARED + "(assume h x)", "3:11", "a literal has sort Bool, and this has sort Int"),
    (DECLARED + "(step t (cl p (+ x 1)) :rule la_generic)", "3:15", "a literal has sort Bool"),
    (DECLARED + "(step t p :rule la_generic)", "3:9", "expected the step's clause"),
    (DECLARED + "(step t)", "3:1", "expected the step's clause"),
    (DECLARED + "(step t (cl p))", "3:1", "no :rule"),
    (DECLARED + "(step t (cl p) :rule resolution)", "3:22", "expected a rule: assume la_rw_eq"),
    (DECLARED + "(step t (cl p) :rule la_generic :args 1)", "3:39", "expected a list"),
    (DECLARED + "(step t (cl p) :rule la_generic :args (y))", "3:40", "y is not declared"),
    (DECLARED + "(step t (cl p) :rule la_generic :rule la_generic)", "3:33", "twice"),
    (DECLARED + "(step t (cl p) :rule la_generic :discharge ())", "3:33", "expected :rule or :premises or :args"),
    (DECLARED + "(step t (cl p) :rule)", "3:16", "nothing stands behind :rule"),
    (DECLARED + "(step t (cl p) :rule poly_simp_rel :premises (t))", "3:47", "no earlier step has the label t"),
    (DECLARED + "(assume h p)\n(step t (cl p) :rule poly_simp_rel :premises (h 1))", "4:49", "1 is the number of no earlier step"),
    (DECLARED + "(assume h p)\n(assume h p)", "4:9", "step 0 has the label h"),
    (DECLARED + "(step t (cl p p) :rule assume)", "3:1", "an assume has one literal"),
    (DECLARED + "(step t (cl p) :rule assume :args (1))", "3:1", "an assume has one literal"),
    # sizes: 2,048 terms and 4,096 records of a run
    ("".join("(term %d)\n" % n for n in range(2049)), "2049:7", "term 2049 of the book"),
    (DECLARED + "(step (cl) :rule la_generic)\n" * 4097, "4099:1", "4097 records"),
    (DECLARED + "(term %sp%s)" % ("(not " * 2048, ")" * 2048), "3:7", "term 2049 of the book"),
]


def bytes_of(text):
    reader = Reader().read(text)
    return reader.book.bytes(), reader.run()


def text_of(book, run):
    records, sorts = read_book(book)
    return Writer(records).write(read_run(run, sorts))


def refusal(book, run):
    """The number of the refusal, 0 if there is none, and the record."""
    try:
        records, sorts = read_book(book)
        read_run(run, sorts)
        return 0, len(records)
    except Refusal as r:
        return r.number, r.record or 0


def deep(records, operation):
    """A book of so many records over an atom and a number, each operation over the one before."""
    book = [("atom", 2, 0, 0), ("integer", 1)]
    while len(book) < records:
        book.append(operation(len(book) - 1 if len(book) > 2 else 0))
    return b"".join(map(to_bytes, book))


class Random:
    """Random books and runs, in which the records stand in any order that a book may have."""

    def __init__(self, seed):
        self.rng, self.records, self.sorts = random.Random(seed), [], []

    def record(self):
        rng, kind = self.rng, self.rng.choice("integer real vector atom operation operation operation operation".split())
        if kind == "integer":
            return (kind, rng.choice([rng.randint(-5, 5), 2**31 - 1, 1 - 2**31]))
        if kind == "real":
            return (kind, rng.randint(-9, 9), rng.randint(1, 9))
        if kind == "vector":
            width = rng.choice([1, 3, 4, 8, 30])
            return (kind, rng.randrange(2**width), width)
        if kind == "atom":
            sort = rng.randint(1, 4)
            return (kind, sort, rng.choice([0, 1, 2, 2**64 - 1]), rng.choice([1, 8]) if sort == 4 else 0)
        symbol = rng.choice(list(OPERATORS))
        fewest, most = counts(symbol)
        count = rng.choice([fewest, min(most, 3), most])
        return (kind, OPERATORS[symbol], *(rng.randrange(len(self.records)) for _ in range(count))) if self.records else ("integer", 0)

    def add(self):
        """Appends a record if it is well formed."""
        record = self.record()
        try:
            if record not in self.records and not layout_fault(record, len(self.records)):
                self.sorts.append(sort_of(record, self.sorts))
                self.records.append(record)
        except SortFault:
            pass

    def book_and_run(self, tries, steps):
        for _ in range(tries):
            self.add()
        some, bools = range(len(self.records)), [i for i, s in enumerate(self.sorts) if s == "Bool"]
        run = b""
        for k in range(steps):
            rule = self.rng.randint(0, 8) if bools else 5
            pick = lambda choices, most: [self.rng.choice(choices) for _ in range(self.rng.randint(0, most))] if choices else []
            if rule == 0:
                run += step_bytes(0, [], [self.rng.choice(bools)], [])
            else:
                run += step_bytes(rule, pick(range(k), 2), pick(bools, 3), pick(some, 3))
        return b"".join(map(to_bytes, self.records)), run


class MakeRun(unittest.TestCase):
    def round_trip(self, book, run):
        text = text_of(book, run)
        self.assertEqual(bytes_of(text), (book, run), text[:2000])
        return text

    def test_examples(self):
        paths = glob.glob(os.path.join(ROOT, "examples", "*.run"))
        self.assertGreater(len(paths), 16)
        for path in paths:
            text, book, run = (there(path[: -len("run")] + end) for end in ("txt", "book", "run"))
            self.assertEqual(bytes_of(text.decode()), (book, run), path)
            self.round_trip(book, run)

    def test_help(self):
        """The text that --help shows is one."""
        said = __import__("make_run").__doc__
        text = said[said.index("    ; ") : said.index("(declare-const NAME SORT)")]
        book, run = bytes_of(text)
        self.assertEqual(self.round_trip(book, run).count("(step"), 3)

    def test_book_cases(self):
        book_cases.all_cases()
        self.assertGreater(len(book_cases.cases), 700)
        for shows, front, more, number, record in book_cases.cases:
            book = b"".join(to_bytes(("atom", 2, k, 0)) for k in range(front)) + more
            self.assertEqual(refusal(book, b""), (number, record), shows)
            if not number:
                self.round_trip(book, b"")

    def test_run_cases(self):
        for i, case in enumerate(stored()):
            h = struct.unpack_from("<12I", case)
            book, run, verdict = case[48 : 48 + h[0]], case[48 + h[0] : 48 + h[0] + h[1]], h[6]
            if verdict != 1:
                self.assertEqual(refusal(book, run)[0], verdict if verdict <= 7 else 0, "run %d" % i)
            if not 1 <= verdict <= 7:
                self.round_trip(book, run)

    def test_random(self):
        for seed in range(300):
            self.round_trip(*Random(seed).book_and_run(seed % 60 * 4, seed % 7))

    def test_deep(self):
        whole = step_bytes(5, [], [], [2047])
        for operation in (lambda k: ("operation", 10, k), lambda k: ("operation", 9, k, k), lambda k: ("operation", 9, *[k] * 14)):
            book = deep(2048, operation)
            for run in (b"", whole, whole * 2, step_bytes(5, [], [], [1000, 2047, 30])):
                self.assertLess(len(self.round_trip(book, run)), 500000)

    def test_names(self):
        book, run = bytes_of("(declare-const |f x| Int) (declare-fun |3| () Int) (declare-const a.b Real :name 7)\n(term (+ |f x| |3| 3 |a.b|))")
        wanted = [("atom", 2, 0, 0), ("atom", 2, 1, 0), ("integer", 3), ("atom", 3, 7, 0), ("operation", 9, 0, 1, 2, 3)]
        self.assertEqual((book, run), (b"".join(map(to_bytes, wanted)), b""))
        names = {wanted[0]: "f x", wanted[1]: "3", wanted[3]: "r4"}
        self.assertEqual(bytes_of(Writer(wanted, names).write([])), (book, run))

    def test_numbers(self):
        book, _ = bytes_of("(term 0.50) (term 1/2) (term 3.0) (term 3) (term -3) (term #xfF) (term #b101) (term (_ bv255 8)) (term (_ bv5 3))")
        wanted = [("real", 1, 2), ("real", 3, 1), ("integer", 3), ("integer", -3), ("vector", 255, 8), ("vector", 5, 3)]
        self.assertEqual(book, b"".join(map(to_bytes, wanted)))

    def test_spoilt(self):
        """A text with characters taken out, doubled and put in is refused at a place, or makes what is not refused 2 to 7."""
        rng, made = random.Random(1), 0
        texts = [there(os.path.relpath(p, ROOT)).decode() for p in sorted(glob.glob(os.path.join(ROOT, "examples", "*.txt")))]
        for _ in range(4000):
            text = rng.choice(texts)
            for _ in range(rng.randint(1, 3)):
                at = rng.randrange(len(text))
                text = text[:at] + rng.choice(["", text[at] * 2, rng.choice("()|:#-/.;_ 019xyb\n\0\u00e9")]) + text[at + rng.randint(0, 3) :]
            try:
                self.assertEqual(refusal(*bytes_of(text))[0], 0, text)
                made += 1
            except Fault as f:
                self.assertTrue(1 <= f.line <= text.count("\n") + 1 and f.column >= 1, text)
        self.assertTrue(400 < made < 3600, made)

    def test_labels(self):
        text = DECLARED + "(assume a p) (assume p) (step (cl p) :args (x 1) :premises (a 1 a) :rule poly_simp_rel) (step |4| (cl) :rule la_generic)"
        wanted = step_bytes(0, [], [0], []) * 2 + step_bytes(8, [0, 1, 0], [0], [1, 2]) + step_bytes(5, [], [], [])
        self.assertEqual(bytes_of(text)[1], wanted)

    def test_faults(self):
        for text, place, words in FAULTS:
            with self.assertRaises(Fault, msg=text[:200]) as caught:
                bytes_of(text)
            fault = caught.exception
            self.assertEqual(("%d:%d" % (fault.line, fault.column), words in fault.why), (place, True), "%s: %s" % (text[-200:], fault.why))


class CommandLine(unittest.TestCase):
    def setUp(self):
        self.folder = tempfile.TemporaryDirectory()
        self.addCleanup(self.folder.cleanup)

    def call(self, *words):
        done = subprocess.run([sys.executable, PROGRAM, *words], cwd=self.folder.name, stdout=subprocess.PIPE, stderr=subprocess.PIPE)
        return done.returncode, done.stdout.decode(), done.stderr.decode()

    def put(self, name, data):
        with open(os.path.join(self.folder.name, name), "wb") as f:
            f.write(data)

    def left(self):
        """The files of the folder."""
        return {name: there(os.path.join(self.folder.name, name)) for name in os.listdir(self.folder.name)}

    def test_make_and_text(self):
        self.put("t", there("examples/K1.txt"))
        self.assertEqual(self.call("t", "b", "r"), (0, "", ""))
        made = self.left()
        for name, end in (("b", "book"), ("r", "run")):
            self.assertEqual(made[name], there("examples/K1." + end))
        status, said, _ = self.call("--text", "b", "r")
        self.assertEqual((status, bytes_of(said)), (0, (made["b"], made["r"])))
        # a name that is taken, whichever it is
        for words in (("t", "b", "new"), ("t", "new", "r"), ("t", "b", "r"), ("t", "new", ".")):
            status, said, complaint = self.call(*words)
            self.assertEqual((status, said, self.left()), (2, "", made))
            self.assertIn("nothing is written", complaint)
        self.put("b", b"other")
        self.assertEqual(self.call("--overwrite", "t", "b", "r"), (0, "", ""))
        self.assertEqual(self.left(), made)

    def test_refused(self):
        self.put("t", b"(declare-const p Bool)\n(term (+ p 1))\n")
        before = self.left()
        wanted = "make_run: t:2:10: argument 1 of +: + takes numbers, and this has sort Bool\n"
        self.assertEqual(self.call("t", "b", "r"), (1, "", wanted))
        self.put("bad", b"\xff")
        before = self.left()
        self.assertEqual(self.call("bad", "b", "r"), (1, "", "make_run: bad: byte 0 is not UTF-8\n"))
        self.assertEqual(self.left(), before)
        self.put("book", bytes(33))
        self.put("kind", b"\6" + bytes(31))
        self.put("run", b"C\0\0\0")
        self.put("none", b"")
        for words, wanted in (
            (("book", "run"), "make_run: book: refused 2: 33 bytes"),
            (("kind", "run"), "make_run: kind: record 0: refused 3: "),
            (("none", "book"), "make_run: book: refused 6: 33 bytes"),
            (("none", "run"), "make_run: run: run record 0: refused 7: out of order"),
        ):
            status, said, complaint = self.call("--text", *words)
            self.assertEqual((status, said, complaint.startswith(wanted)), (1, "", True), complaint)

    def test_usage(self):
        self.put("t", b"")
        for words in ((), ("t",), ("t", "b"), ("t", "b", "r", "s"), ("--text", "b"), ("--wrong", "b", "r"), ("t", "b", "b"), ("missing", "b", "r"),
                      (".", "b", "r"), ("--text", "missing", "missing"), ("t", "no/such/folder", "r"), ("t", "b", "no/such/folder")):
            status, said, complaint = self.call(*words)
            self.assertEqual((status, said, complaint[:10]), (2, "", "make_run: "), words)
            self.assertEqual(self.left(), {"t": b""}, words)
        for word in ("--help", "-h"):
            status, said, complaint = self.call(word)
            self.assertEqual((status, complaint), (0, ""))
            self.assertIn("(declare-const x Int)", said)


if __name__ == "__main__":
    unittest.main()
