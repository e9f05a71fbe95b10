"""Document 01's refusals 2 to 7: which books and runs are well formed, and what is wrong with those that are not.

A sort is "Bool", "Int", "Real" or, of a bit-vector, its width. tools/test_make_run.py holds these readers to the answers of
tools/book_cases.py and to the cases of crates/run_cases.
"""
import math
import struct

from books import RULES, SYMBOLS, record_of

LARGEST = 2**31 - 1
MOST_RECORDS = 2048
MOST_RUN_RECORDS = 4096
MOST_ARGUMENTS = 14
MOST_WIDTH = 30
COUNTS = {"not": (1, 1), "to_real": (1, 1), "bvneg": (1, 1), "div": (2, 2), "/": (2, 2), "bvsub": (2, 2), "-": (1, MOST_ARGUMENTS)}
NUMBERS = ("Int", "Real")
ATOM_SORTS = {1: "Bool", 2: "Int", 3: "Real"}


class Refusal(Exception):
    """A refusal by its number; record says which record of the book or of the run."""

    def __init__(self, number, record, why):
        super().__init__(why)
        self.number, self.record, self.why = number, record, why


class SortFault(Exception):
    """The argument of an operation that has the wrong sort, and why it is wrong."""

    def __init__(self, argument, why):
        super().__init__(why)
        self.argument, self.why = argument, why


def counts(symbol):
    """The fewest and the most arguments."""
    return COUNTS.get(symbol, (2, MOST_ARGUMENTS))


def counts_in_words(symbol):
    fewest, most = counts(symbol)
    return "%s takes %s" % (symbol, "1 argument" if most == 1 else "%d arguments" % most if fewest == most else "%d to %d arguments" % (fewest, most))


def sort_in_words(sort):
    return "(_ BitVec %d)" % sort if isinstance(sort, int) else sort


# ---- a record


def width_fault(width):
    return None if 1 <= width <= MOST_WIDTH else "a width of %d, which is not from 1 to %d" % (width, MOST_WIDTH)


def integer_fault(value):
    return None if abs(value) <= LARGEST else "%d is out of range: a number has a size of at most %d" % (value, LARGEST)


def real_fault(above, below):
    if below < 1:
        return "the denominator %d is not at least 1" % below
    if abs(above) > LARGEST or below > LARGEST:
        return "%d/%d is out of range: a numerator and a denominator have a size of at most %d" % (above, below, LARGEST)
    part = math.gcd(above, below)
    return None if part == 1 else "%d/%d is not in lowest terms, which are %d/%d" % (above, below, above // part, below // part)


def vector_fault(value, width):
    return width_fault(width) or (None if 0 <= value < 2**width else "%d does not fit into %d bits" % (value, width))


def atom_fault(sort, name, width):
    if not 0 <= name < 2**64:
        return "the name %d is not from 0 to 2^64 - 1" % name
    if sort == 4:
        return width_fault(width)
    return None if sort in ATOM_SORTS and width == 0 else "sort %d with the width %d" % (sort, width)


def layout_fault(record, number):
    """What is wrong with the layout of a record, by its parts; None where nothing is."""
    kind, parts = record[0], record[1:]
    if kind != "operation":
        return {"integer": integer_fault, "real": real_fault, "vector": vector_fault, "atom": atom_fault}[kind](*parts)
    symbol, arguments = SYMBOLS.get(parts[0]), parts[1:]
    if symbol is None:
        return "an unknown operator, %d" % parts[0]
    fewest, most = counts(symbol)
    if not fewest <= len(arguments) <= most:
        return "%s, and has %d" % (counts_in_words(symbol), len(arguments))
    late = [a for a in arguments if a >= number]
    return "the argument %d, which is no earlier record" % late[0] if late else None


# ---- sorts


def all_of(symbol, sorts, wanted, words):
    for i, sort in enumerate(sorts):
        if sort not in wanted:
            raise SortFault(i, "%s takes %s, and this has sort %s" % (symbol, words, sort_in_words(sort)))


def one_width(symbol, sorts):
    for i, sort in enumerate(sorts):
        if not isinstance(sort, int):
            raise SortFault(i, "%s takes bit-vectors, and this has sort %s" % (symbol, sort_in_words(sort)))
        if sort != sorts[0]:
            raise SortFault(i, "%s takes bit-vectors of one width; the first has %d bits, and this has %d" % (symbol, sorts[0], sort))
    return sorts[0]


def equal_sorts(sorts):
    for i, sort in enumerate(sorts):
        if sort != sorts[0] and not (sort in NUMBERS and sorts[0] in NUMBERS):
            told = tuple(map(sort_in_words, (sorts[0], sort)))
            raise SortFault(i, "= takes terms of one sort, or Int and Real mixed; the first has sort %s, and this has sort %s" % told)


def operation_sort(symbol, sorts):
    """The sort of an operation over arguments of these sorts."""
    if symbol in ("not", "and", "or"):
        all_of(symbol, sorts, ("Bool",), "terms of sort Bool")
        return "Bool"
    if symbol == "=":
        equal_sorts(sorts)
        return "Bool"
    if symbol.startswith("bv"):
        return one_width(symbol, sorts)
    if symbol == "div":
        all_of(symbol, sorts, ("Int",), "terms of sort Int")
        return "Int"
    all_of(symbol, sorts, NUMBERS, "numbers")
    if symbol in ("<", "<=", ">", ">="):
        return "Bool"
    return "Real" if symbol in ("/", "to_real") or "Real" in sorts else "Int"


def sort_of(record, sorts):
    """The sort of a record that is laid out well, over the sorts of those before it."""
    kind, parts = record[0], record[1:]
    if kind == "operation":
        return operation_sort(SYMBOLS[parts[0]], [sorts[a] for a in parts[1:]])
    if kind == "atom":
        return ATOM_SORTS.get(parts[0], parts[2])
    return {"integer": "Int", "real": "Real"}.get(kind) or parts[1]


# ---- books and runs


def read_book(data):
    """The records of a book and their sorts; `Refusal` where it is refused 2 to 5."""
    if len(data) % 32 or len(data) > 32 * MOST_RECORDS:
        raise Refusal(2, None, "%d bytes are not whole records of 32 bytes, at most %d of them" % (len(data), MOST_RECORDS))
    records, sorts, known = [], [], {}
    for number in range(len(data) // 32):
        record = record_of(data[32 * number : 32 * number + 32])
        if record is None:
            raise Refusal(3, number, "the bytes are laid out as no record")
        fault = layout_fault(record, number)
        if fault:
            raise Refusal(3, number, fault)
        try:
            sorts.append(sort_of(record, sorts))
        except SortFault as f:
            raise Refusal(4, number, "argument %d: %s" % (f.argument, f.why))
        if record in known:
            raise Refusal(5, number, "it equals record %d" % known[record])
        known[record] = number
        records.append(record)
    return records, sorts


def goes_on(mark, last):
    """Whether a record with this mark stands in the step that is open: behind no record that it should stand before."""
    return last is not None and mark in "PCA" and not any(last["PCA".index(mark) + 2 :])


def head_fault(mark, byte, number):
    """What is wrong with a record that should open a step."""
    if mark in "PCA":
        return "out of order: a step is an S, and then P, C and A in this order"
    if mark != "S":
        return "an unknown mark"
    return None if byte < len(RULES) and number == 0 else "an unknown rule, or an unused field that is not 0"


def part_fault(mark, byte, number, earlier, sorts):
    """What is wrong with a P, C or A of a step behind so many earlier ones."""
    if byte:
        return "an unused byte that is not 0"
    if mark == "P":
        return None if number < earlier else "the premise %d is no earlier step" % number
    if number >= len(sorts):
        return "the book has no record %d" % number
    return "record %d is a C and not Bool" % number if mark == "C" and sorts[number] != "Bool" else None


def assume_fault(step):
    rule, premises, literals, arguments = step
    if rule == 0 and (premises or len(literals) != 1 or arguments):
        return "an assume has one literal, no premises and no arguments"
    return None


def see_to_assume(step, head):
    """Refuses a step, whose S is record `head`, if it is an assume of another shape."""
    fault = assume_fault(step) if step else None
    if fault:
        raise Refusal(7, head, fault)


def read_run(data, sorts):
    """The steps of a run over a book with these sorts, each (rule, premises, literals, arguments) in numbers; `Refusal` 6 or 7."""
    if len(data) % 4 or len(data) > 4 * MOST_RUN_RECORDS:
        raise Refusal(6, None, "%d bytes are not whole records of 4 bytes, at most %d of them" % (len(data), MOST_RUN_RECORDS))
    steps, last, head = [], None, 0
    for k, (code, byte, number) in enumerate(struct.iter_unpack("<BBH", data)):
        mark = chr(code)
        if goes_on(mark, last):
            fault = part_fault(mark, byte, number, len(steps) - 1, sorts)
        else:
            see_to_assume(last, head)
            fault = head_fault(mark, byte, number)
            last, head = (byte, [], [], []), k
            steps.append(last)
        if fault:
            raise Refusal(7, k, fault)
        if mark != "S":
            last[1 + "PCA".index(mark)].append(number)
    see_to_assume(last, head)
    return steps
