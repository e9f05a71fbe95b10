"""Books and runs of document 01, built from s-expressions: the one place of tools/ that lays out their bytes.

A number without a stroke is an integer record, one with a stroke a real record (3/1 is the real 3), #x80 and #b101 are
bit-vector records, a list is an operation, any other word an atom. (- 3) is the operation over the integer 3.
"""
import struct

OPERATORS = dict(zip("not and or = < <= > >= + - * div / to_real bvadd bvsub bvneg bvmul".split(), range(1, 19)))
SYMBOLS = {number: symbol for symbol, number in OPERATORS.items()}
RULES = "assume la_rw_eq la_disequality la_totality la_tautology la_generic bounded_farkas poly_simp poly_simp_rel".split()
NAMES = (
    "Not And Or Equals LessThan LessEq GreaterThan GreaterEq Add Sub Mult IntDiv RealDiv ToReal BvAdd BvSub BvNeg BvMul"
).split()
SORTS = {"Bool": 1, "Int": 2, "Real": 3}


def expressions(text):
    """The s-expressions of a line, as words and lists."""
    words = text.replace("(", " ( ").replace(")", " ) ").split()
    stack = [[]]
    for word in words:
        if word == "(":
            stack.append([])
        elif word == ")":
            done = stack.pop()
            stack[-1].append(done)
        else:
            stack[-1].append(word)
    if len(stack) != 1:
        raise ValueError("parentheses do not match: " + text)
    return stack[0]


def shown(e):
    return e if isinstance(e, str) else "(" + " ".join(map(shown, e)) + ")"


def to_bytes(record):
    """The 32 bytes of a record (or the bytes of no record), from its parts."""
    kind, parts = record[0], record[1:]
    if kind == "integer":
        return struct.pack("<4Bq20x", 1, 0, 0, 0, *parts)
    if kind == "real":
        return struct.pack("<4Bqq12x", 2, 0, 0, 0, *parts)
    if kind == "vector":
        return struct.pack("<4BQQ12x", 3, 0, 0, 0, *parts)
    if kind == "atom":
        return struct.pack("<4BQQ12x", 4, 0, 0, *parts)
    if kind == "operation":
        operator, arguments = parts[0], parts[1:]
        return struct.pack("<4B14H", 5, operator, len(arguments), 0, *arguments, *[0] * (14 - len(arguments)))
    if kind == "kind":
        return bytes([parts[0]] + [0] * 31)
    if kind == "bytes":
        return bytes(parts[0])
    raise ValueError(kind)


def record_of(data):
    """The parts of a record of 32 bytes, or None where its bytes are none that `to_bytes` makes."""
    kind, operator, count, sort, first, second = struct.unpack_from("<4BQQ", data)
    whole, half = struct.unpack_from("<qq", data, 4)
    record = {
        1: ("integer", whole),
        2: ("real", whole, half),
        3: ("vector", first, second),
        4: ("atom", sort, first, second),
        5: ("operation", operator) + struct.unpack_from("<14H", data, 4)[:count],
    }.get(kind)
    return record if record and count <= 14 and to_bytes(record) == data else None


def constant(word):
    """The record of a number."""
    if word.startswith("#x"):
        return ("vector", int(word[2:], 16), 4 * (len(word) - 2))
    if word.startswith("#b"):
        return ("vector", int(word[2:], 2), len(word) - 2)
    if "/" in word:
        return ("real",) + tuple(map(int, word.split("/")))
    return ("integer", int(word))


def atom(number, sort):
    """The record of an atom; a sort that is an int is a width."""
    return ("atom", 4, number, sort) if isinstance(sort, int) else ("atom", SORTS[sort], number, 0)


class Book:
    """Records in the order of first use, arguments before the operation."""

    def __init__(self, sorts):
        self.sorts = sorts  # name -> (number, sort, a width where it is an int)
        self.records = []
        self.known = {}

    def enter(self, record):
        if record not in self.known:
            self.known[record] = len(self.records)
            self.records.append(record)
        return self.known[record]

    def append(self, record):
        """As it stands, even where an equal one is there."""
        self.known.setdefault(record, len(self.records))
        self.records.append(record)

    def term(self, e):
        if isinstance(e, list):
            return self.enter(("operation", OPERATORS[e[0]]) + tuple(self.term(a) for a in e[1:]))
        return self.enter(atom(*self.sorts[e]) if e in self.sorts else constant(e))

    def bytes(self):
        return b"".join(map(to_bytes, self.records))


def run_record(mark, byte, number):
    return struct.pack("<BBH", ord(mark), byte, number)


def step_bytes(rule, premises, literals, arguments):
    """A step, from record numbers."""
    parts = [run_record("S", rule, 0)]
    for mark, numbers in (("P", premises), ("C", literals), ("A", arguments)):
        parts += [run_record(mark, 0, n) for n in numbers]
    return b"".join(parts)


def batch(cases):
    """Books and runs as the oracle reads them."""
    return b"".join(struct.pack("<II", len(b), len(r)) + b + r for b, r in cases)


def run_bytes(part):
    if part[0] == "step":
        return step_bytes(*part[1:])
    return bytes(part[1]) if part[0] == "bytes" else run_record(*part[1:])


# ---- as antt


def listed(parts):
    parts = list(parts)
    return "[]" if not parts else " ∷ ".join(parts + ["[]"])


def argument(text):
    return "(%s)" % text if " " in text else text


def signed(n):
    return "(pos %d)" % n if n >= 0 else "(negsuc %d)" % (-1 - n)


def numbers(ns):
    return argument(listed(map(str, ns)))


def record_text(record):
    kind, parts = record[0], record[1:]
    if kind == "integer":
        return "integer_record " + signed(*parts)
    if kind == "real":
        return "real_record %s %s" % tuple(map(signed, parts))
    if kind == "vector":
        return "vector_record %d %d" % parts
    if kind == "atom":
        return "atom_record %d %d %d" % parts
    if kind == "operation":
        name = NAMES[parts[0] - 1] if parts[0] <= len(NAMES) else str(parts[0])
        return "operation_record %s %s" % (name, numbers(parts[1:]))
    return "blank %d" % parts if kind == "kind" else "replicate %d 0" % parts


def run_text(part):
    if part[0] == "step":
        return "step_records %d %s %s %s" % (part[1], *map(numbers, part[2:]))
    return "replicate %d 0" % part[1] if part[0] == "bytes" else "run_record %d %d %d" % (ord(part[1]), *part[2:])
