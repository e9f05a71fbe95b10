#!/usr/bin/env python3
"""Makes a book and a run of a text, or a text of a book and a run.

    python3 tools/make_run.py TEXT BOOK RUN               makes the files BOOK and RUN; a name that is taken is an error
    python3 tools/make_run.py --overwrite TEXT BOOK RUN   writes over files that are there
    python3 tools/make_run.py --text BOOK RUN             prints a text that makes the same bytes
    python3 tools/make_run.py --help                      prints this

A text declares atoms and then gives the steps, in the notation of SMT-LIB and Alethe:

    ; no whole number is below 3 and above 2
    (declare-const x Int)
    (declare-const u Real)
    (assume h1 (<= x 3))
    (step t1 (cl (not (< x 3)) (not (> x 2))) :rule la_generic :args (1 1))
    (step t2 (cl (= (* 2 (- x u)) (* 1 (- (* 2 x) (* 2 u))))) :rule poly_simp)
    (step t3 (cl (= (< x u) (< (* 2 x) (* 2 u)))) :rule poly_simp_rel :premises (t2))

(declare-const NAME SORT), or (declare-fun NAME () SORT)
    An atom of sort Bool, Int, Real or (_ BitVec WIDTH), WIDTH from 1 to 30. A book names atoms by numbers: this one has the number of
    its declaration, from 0, or N where :name N stands behind the sort. Any other term can stand as an atom, as |f x|. An atom that no
    term uses does not come into the book.

(assume LABEL TERM), (step LABEL (cl TERM ..) :rule RULE :premises (LABEL ..) :args (TERM ..))
    A step. The label may be left out, and so may :premises and :args. A premise is named by the label of an earlier step or by its
    number, from 0. The rules are assume, la_rw_eq, la_disequality, la_totality, la_tautology, la_generic, bounded_farkas, poly_simp
    and poly_simp_rel.

(term TERM), (term NAME TERM)
    Puts a term into the book here, and names it: NAME stands for it from here on. A text needs none of these: without them the records of
    the book stand in the order of first use, arguments before the operation. Equal terms are one record.

A term is a name, a number or (OPERATOR TERM ..).
    Integers are 3 and -3, reals are 1/2, -7/3, 3/1, 0.5 and 3.0, bit-vectors are #x80, #b101 and (_ bv5 8). (- 3) is an operation over the
    integer 3, and (/ 1 2) one over two integers. The operators are not and or = < <= > >= + - * div / to_real bvadd bvsub bvneg bvmul.
    They take at most 14 arguments. Sizes of numerators and denominators are at most 2147483647.
    Behind a ; the rest of a line is a comment.

What a book or a run cannot hold is refused, with the line and the column where it stands, and then no file is made. What is made is
never refused 2 to 7. Whether a step is accepted is for `mark` to say.

Exit status: 0, or 1 where the text, the book or the run is refused, or 2 for a bad command line or a file that cannot be read or made.
"""
import os
import sys

from refusals import Refusal, read_book, read_run
from text_reader import Fault, Reader
from text_writer import Writer


def stop(status, why):
    print("make_run: " + why, file=sys.stderr)
    sys.exit(status)


def load(path):
    try:
        with open(path, "rb") as f:
            return f.read()
    except OSError as e:
        stop(2, "%s: %s" % (path, e.strerror))


def made(path):
    """The bytes of the book and of the run of a text."""
    try:
        text = load(path).decode("utf-8-sig")
    except UnicodeDecodeError as e:
        stop(1, "%s: byte %d is not UTF-8" % (path, e.start))
    try:
        reader = Reader().read(text)
    except Fault as f:
        stop(1, "%s:%d:%d: %s" % (path, f.line, f.column, f.why))
    return reader.book.bytes(), reader.run()


def write_new(files):
    """Makes files of names that are not taken, all or none."""
    done = []
    for path, data in files:
        try:
            with open(path, "xb") as f:
                done.append(path)
                f.write(data)
        except OSError as e:
            for name in done:
                os.remove(name)
            stop(2, "%s: %s; nothing is written" % (path, e.strerror))


def write_over(files):
    for path, data in files:
        try:
            with open(path, "wb") as f:
                f.write(data)
        except OSError as e:
            stop(2, "%s: %s" % (path, e.strerror))


def text_of(book, run):
    """The text of the files at two paths."""
    path, what = book, "record"
    try:
        records, sorts = read_book(load(book))
        path, what = run, "run record"
        steps = read_run(load(run), sorts)
    except Refusal as r:
        place = "" if r.record is None else "%s %d: " % (what, r.record)
        stop(1, "%s: %srefused %d: %s" % (path, place, r.number, r.why))
    return Writer(records).write(steps)


def main():
    words = sys.argv[1:]
    if "--help" in words or "-h" in words:
        print(__doc__, end="")
    elif words[:1] == ["--text"] and len(words) == 3:
        sys.stdout.write(text_of(*words[1:]))
    else:
        write = write_over if words[:1] == ["--overwrite"] else write_new
        paths = words[write is write_over :]
        if len(paths) != 3 or paths[0].startswith("--"):
            stop(2, "expected TEXT BOOK RUN, or --text BOOK RUN; --help says more")
        text, book, run = paths
        if book == run or (os.path.exists(book) and os.path.exists(run) and os.path.samefile(book, run)):
            stop(2, "BOOK and RUN are one file")
        write(list(zip((book, run), made(text))))


if __name__ == "__main__":
    main()
