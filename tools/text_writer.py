"""The text of a book and a run, from which tools/text_reader.py makes the same bytes: see tools/make_run.py --help."""
import re

from books import RULES, SYMBOLS
from refusals import sort_in_words, sort_of

LINE = 110  # characters
STEP = 400  # the words and parentheses of a step's terms, above which they are written before it, one by one
PART = 40  # the same for an argument of such a term
SIMPLE = re.compile(r"[A-Za-z~!@$%^&*_+=<>.?/-][A-Za-z0-9~!@$%^&*_+=<>.?/-]*", re.ASCII)


def symbol_text(symbol):
    simple = SIMPLE.fullmatch(symbol) and not re.match(r"-\d", symbol, re.ASCII)
    return symbol if simple else "|%s|" % symbol


def constant_text(record):
    kind, parts = record[0], record[1:]
    if kind == "integer":
        return str(*parts)
    if kind == "real":
        return "%d/%d" % parts
    value, width = parts
    return "#x%0*x" % (width // 4, value) if width % 4 == 0 else "#b" + format(value, "0%db" % width)


def atom_names(records):
    """A name for each atom: a and its number, and the sort where two atoms have one number."""
    atoms = [r for r in records if r[0] == "atom"]
    numbers = [r[2] for r in atoms]
    sort = lambda r: str(r[3]) if r[1] == 4 else sort_of(r, [])
    return {r: "a%d" % r[2] if numbers.count(r[2]) == 1 else "a%d_%s" % (r[2], sort(r)) for r in atoms}


class Writer:
    def __init__(self, records, names=None):
        self.records = records
        self.atoms = names or atom_names(records)
        self.entered = 0  # so many records stand in the book when the lines are read
        self.named = {}  # number of a record -> its name
        self.lines = []
        self.prefix = "r"
        while any(re.fullmatch(self.prefix + r"\d+", name) for name in self.atoms.values()):
            self.prefix += "_"

    # ---- terms

    def arguments(self, number):
        record = self.records[number]
        return record[2:] if record[0] == "operation" and number not in self.named else ()

    def size(self, numbers, most):
        """How many words the terms have, or more than `most`."""
        count, todo = 0, list(numbers)
        while todo and count <= most:
            arguments = self.arguments(todo.pop())
            count += 1
            todo += arguments
        return count

    def text(self, number):
        words, todo = [], [number]
        while todo:
            here = todo.pop()
            if isinstance(here, str):
                words[-1] += here
            elif here in self.named:
                words.append(self.named[here])
            elif self.records[here][0] == "operation":
                words.append("(" + SYMBOLS[self.records[here][1]])
                todo += [")"] + list(reversed(self.records[here][2:]))
            elif self.records[here][0] == "atom":
                words.append(symbol_text(self.atoms[self.records[here]]))
            else:
                words.append(constant_text(self.records[here]))
        return " ".join(words)

    def in_order(self, numbers):
        """How many records stand in the book behind these terms; None where they come in another order than the book's."""
        entered, todo = self.entered, [(n, False) for n in reversed(numbers)]
        while todo:
            here, ready = todo.pop()
            if here < entered:
                continue
            arguments = self.arguments(here)
            if ready or not arguments:
                if here != entered:
                    return None
                entered += 1
            else:
                todo += [(here, True)] + [(a, False) for a in reversed(arguments)]
        return entered

    def name(self, number):
        self.lines.append("(term %s%d %s)" % (self.prefix, number, self.text(number)))
        self.named[number] = "%s%d" % (self.prefix, number)

    def list_up_to(self, end):
        """A line for each record up to a number, in the book's order."""
        for number in range(self.entered, end):
            if self.records[number][0] != "operation":
                self.lines.append("(term %s)" % self.text(number))
                continue
            for a in self.arguments(number):
                if a not in self.named and self.size([a], PART) > PART:
                    self.name(a)
            self.name(number)
        self.entered = max(self.entered, end)

    # ---- the lines

    def declare(self):
        for number, record in enumerate(r for r in self.records if r[0] == "atom"):
            told = "" if record[2] == number else " :name %d" % record[2]
            self.lines.append("(declare-const %s %s%s)" % (symbol_text(self.atoms[record]), sort_in_words(sort_of(record, [])), told))

    def place(self, terms):
        """Sees to it that the terms, as they are written next, come in the book's order."""
        entered = self.in_order(terms) if self.size(terms, STEP) <= STEP else None
        if entered is None:
            self.list_up_to(max(terms) + 1)
            for t in terms:
                if t not in self.named and self.size([t], PART) > PART:
                    self.name(t)
        else:
            self.entered = entered

    def step(self, number, rule, premises, literals, arguments):
        if literals or arguments:
            self.place(literals + arguments)
        literals, arguments = ([self.text(t) for t in ts] for ts in (literals, arguments))
        if rule == 0:
            self.lines.append("(assume t%d %s)" % (number, literals[0]))
            return
        parts = ["(cl%s)" % "".join(" " + t for t in literals), ":rule " + RULES[rule]]
        parts += [":premises (%s)" % " ".join("t%d" % p for p in premises)] if premises else []
        parts += [":args (%s)" % " ".join(arguments)] if arguments else []
        line = "(step t%d %s)" % (number, " ".join(parts))
        if len(line) > LINE:
            parts[0] = "(cl " + "\n      ".join(literals) + ")" if literals else "(cl)"
            line = "(step t%d\n  %s)" % (number, "\n  ".join(parts))
        self.lines.append(line)

    def write(self, steps):
        self.declare()
        for number, step in enumerate(steps):
            self.step(number, *step)
        self.list_up_to(len(self.records))
        return "".join(line + "\n" for line in self.lines)
