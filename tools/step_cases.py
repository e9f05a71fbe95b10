"""Random steps of rules 1 to 8 with the Rust's answers: the file that the program `step_cases` replays.

    python3 tools/step_cases.py ORACLE [--count N] [--seed N] [--each N] [--records N]

--each says how many steps of one rule and verdict are kept, --records how large a book may grow before another is begun. The file that is
there was made with --count 60000 --each 75 --records 120; the program's `stdout` has its number of steps.

Each step is a run by itself, behind the step that it names as its premise if it has one, so that the Rust judges every one of them. A step
is dropped where a number might leave the range of 2^31 or a polynomial its sizes (`step_fits` of random_cases.py judges that from above),
since the Rust has no such limits.

The file crates/step_cases/data/cases: books, each
    2 bytes   how many records
    for each record a byte that says how many of its 32 bytes follow (the others are 0), and those bytes
    2 bytes   how many steps
and for each step
    1 byte    the rule
    1 byte    the verdict, 0 where the step is accepted
    2 bytes   the visits of an accepted step
    3 bytes   how many C records, how many other records, how many numbers are inferred
    the C records, 4 bytes each
    the other records: the A records, or of rule 8 the P records and then the C records of the step that the first of them names
    the inferred numbers, 4 bytes of numerator and 4 of denominator
All numbers are little-endian.
"""
import os
import random
import struct
import sys
from collections import Counter

from books import Book, step_bytes
from random_cases import SORTS, Maker, ask, inferred_of, step_fits

RULES = (1, 2, 3, 4, 4, 5, 5, 5, 6, 6, 6, 7, 7, 7, 8, 8, 8, 8)  # how often each is tried
TWO_LITERALS = (5, [["not", ["<", "x", "3"]], ["not", [">", "x", "2"]]], ["1", "1"])  # accepted, and no premise for rule 8
CASES = os.path.join(os.path.dirname(__file__), "..", "crates", "step_cases", "data", "cases")


def steps_of(maker, count):
    """Steps, some of them damaged: rule, literals, arguments, how many premises, and the step that is the premise."""
    for i in range(count):
        steps = maker.step(RULES[i % len(RULES)], [])
        premise, step = steps[0] if len(steps) > 1 else None, steps[-1]
        if maker.chance(maker.harm):
            step = maker.harmed(step)
        rule, premises, literals, arguments = step
        if premise and maker.chance(maker.harm / 2):
            premise = maker.harmed(premise)
        if premise:
            premise = TWO_LITERALS if maker.chance(0.05) else (premise[0], premise[2], premise[3])
        if rule:
            yield rule, literals, arguments, len(premises) if premise else 0, premise


def packed_record(record):
    used = record.rstrip(b"\0")
    return bytes([len(used)]) + used


def packed(book, steps):
    records = [book[i : i + 32] for i in range(0, len(book), 32)]
    parts = [struct.pack("<H", len(records))] + [packed_record(r) for r in records] + [struct.pack("<H", len(steps))]
    for rule, verdict, visits, records, counts, inferred in steps:
        parts.append(struct.pack("<BBHBBB", rule, verdict, visits, *counts, len(inferred)))
        parts.append(records)
        parts += [struct.pack("<iI", q.numerator, q.denominator) for q in inferred]
    return b"".join(parts)


def in_books(steps, most):
    """Steps with their books, each book shared by as many steps as give it no more than so many records: the run, and of the step
    itself the records that a rule reads."""
    book = Book(SORTS)
    for rule, literals, arguments, premises, premise in steps:
        if len(book.records) > most:
            book = Book(SORTS)
        before, named = b"", []
        if premise:
            named = [book.term(e) for e in premise[1]]
            before = step_bytes(premise[0], [], named, [book.term(e) for e in premise[2]])
        clause, args = [book.term(e) for e in literals], [book.term(e) for e in arguments]
        run = before + step_bytes(rule, [0] * premises, clause, args)
        others = step_bytes(0, [], [], args)[4:]
        if rule == 8:
            others = step_bytes(0, [0] * premises, named if premises else [], [])[4:]
        yield book, run, step_bytes(0, [], clause, [])[4:] + others, (len(clause), len(others) // 4)


def answered(oracle, steps, most):
    """Steps with their books and the Rust's answers: verdict, visits and what is inferred."""
    placed = list(in_books(steps, most))
    for step, (book, run, records, counts), answer in zip(steps, placed, ask(oracle, [(b.bytes(), run) for b, run, _, _ in placed])):
        before = 1 if step[4] else 0
        if not answer[0].isdigit() or "big" in answer or int(answer[1]) < before:
            continue
        verdict, visits, inferred = int(answer[0]), int(answer[2]), inferred_of(answer[3]).get(before)
        if step_fits(*step[:3], inferred) and not (before and step[4][0]):
            yield step, book, records, counts, (verdict, visits, inferred or [])
        elif before and step[4] == TWO_LITERALS and verdict:
            yield step, book, records, counts, (verdict, 0, [])


def main():
    oracle = sys.argv[1]
    option = lambda name, usual: int(sys.argv[sys.argv.index(name) + 1]) if name in sys.argv else usual
    maker = Maker(random.Random(option("--seed", 1)), 0.35)
    kept, chosen, books = Counter(), [], {}
    for step, _, _, _, (verdict, _, _) in answered(oracle, list(steps_of(maker, option("--count", 20000))), 0):
        kept[step[0], verdict] += 1
        if kept[step[0], verdict] <= option("--each", 100):
            chosen.append(step)
    written = Counter()
    for step, book, records, counts, (verdict, visits, inferred) in answered(oracle, chosen, option("--records", 1000)):
        written[step[0], verdict] += 1
        books.setdefault(book, []).append((step[0], verdict, visits, records, counts, inferred))
    os.makedirs(os.path.dirname(CASES), exist_ok=True)
    with open(CASES, "wb") as f:
        for book, steps in books.items():
            f.write(packed(book.bytes(), steps))
    print("%d steps in %d books, %d bytes" % (sum(written.values()), len(books), os.path.getsize(CASES)))
    for rule in range(1, 9):
        print("rule %d: %s" % (rule, {v: n for (r, v), n in sorted(written.items()) if r == rule}))


if __name__ == "__main__":
    main()
