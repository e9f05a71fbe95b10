"""A book and a run from a text in the notation of SMT-LIB and Alethe: see tools/make_run.py --help.

Whatever the text says, the book and the run that come out are never refused 2 to 7: what they cannot hold is a `Fault`, with the line
and the column where it stands, both counted from 1.
"""
import re
from fractions import Fraction

import refusals
from books import OPERATORS, RULES, Book, atom, constant, step_bytes
from refusals import MOST_RECORDS, MOST_RUN_RECORDS, SortFault, counts, counts_in_words, layout_fault, sort_in_words, sort_of

TOKEN = re.compile(r"""(?P<space>\s+|;[^\n]*)|(?P<open>\()|(?P<close>\))|\|(?P<quoted>[^|\\]*)\||(?P<word>[^\s()|;"]+)""")
NUMBER = re.compile(r"-?\d+(/-?\d+|\.\d+)?|#x[0-9a-fA-F]+|#b[01]+", re.ASCII)
LONGEST = 100  # characters of a number; those that a record holds are far shorter
RESERVED = set(OPERATORS) | {"cl", "_", "!", "let"}


class Fault(Exception):
    def __init__(self, place, why):
        super().__init__(why)
        self.line, self.column, self.why = place.line, place.column, why


class Node:
    """A word, or a list of nodes, with its place."""

    def __init__(self, line, column, word=None, quoted=False, items=None):
        self.line, self.column, self.word, self.quoted, self.items = line, column, word, quoted, items

    def is_word(self, word=None):
        return self.items is None and (word is None or self.word == word)

    def is_number(self):
        """Whether it is to be read as a number: no symbol of SMT-LIB begins so."""
        return self.is_word() and not self.quoted and bool(re.match(r"-?\d|#", self.word, re.ASCII))

    def is_symbol(self):
        return self.is_word() and not self.is_number() and (self.quoted or not self.word.startswith(":"))

    def is_keyword(self):
        return self.is_word() and not self.quoted and self.word.startswith(":")

    def head(self):
        """The word that a list begins with."""
        return self.items[0].word if self.items and self.items[0].is_word() else None


def nodes(text):
    """The nodes of a text."""
    stack, at, line, start = [Node(1, 1, items=[])], 0, 1, 0
    while at < len(text):
        found, place = TOKEN.match(text, at), (line, at - start + 1)
        if not found:
            raise Fault(Node(*place), "a | that is not closed" if text[at] == "|" else "the character %s is not used here" % text[at])
        kind, what = found.lastgroup, found.group(found.lastgroup)
        if kind == "open":
            stack.append(Node(*place, items=[]))
        elif kind == "close":
            if len(stack) == 1:
                raise Fault(Node(*place), "this parenthesis closes none")
            done = stack.pop()
            stack[-1].items.append(done)
        elif kind != "space":
            stack[-1].items.append(Node(*place, word=what, quoted=kind == "quoted"))
        breaks = text.count("\n", at, found.end())
        if breaks:
            line, start = line + breaks, text.rindex("\n", at, found.end()) + 1
        at = found.end()
    if len(stack) > 1:
        raise Fault(stack[-1], "this parenthesis is not closed")
    return stack[0].items


def attributes(items, known):
    """The node behind each keyword."""
    found = {}
    while items:
        key, *items = items
        if not key.is_keyword() or key.word not in known:
            raise Fault(key, "expected %s" % " or ".join(known))
        if key.word in found:
            raise Fault(key, "%s stands here twice" % key.word)
        if not items:
            raise Fault(key, "nothing stands behind %s" % key.word)
        found[key.word], *items = items
    return found


def number_record(node):
    """The record of a number."""
    if not NUMBER.fullmatch(node.word):
        raise Fault(node, "%s is no number: numbers are 3, -3, 1/2, 0.5, #x80, #b101 and (_ bv5 8)" % node.word)
    if len(node.word) > LONGEST:
        raise Fault(node, "a number of %d characters is out of range" % len(node.word))
    if "." in node.word:
        value = Fraction(node.word)
        return ("real", value.numerator, value.denominator)
    return constant(node.word)


def indexed(node, word):
    """The other items of a list (_ word ..), or None."""
    if node.items and node.items[0].is_word("_") and len(node.items) == 3 and re.fullmatch(word, node.items[1].word or "", re.ASCII):
        return node.items[1:]
    return None


def decimal(node, what):
    """A word of digits as a number."""
    if not node.is_word() or not re.fullmatch(r"\d+", node.word, re.ASCII) or len(node.word) > LONGEST:
        raise Fault(node, "expected %s" % what)
    return int(node.word)


class Reader:
    """What a text has said so far: `book` and `run()` are the bytes."""

    def __init__(self):
        self.book = Book({})
        self.sorts = []  # of the records
        self.names = {}  # symbol -> the record of an atom, or the number of a record that has a name
        self.atoms = {}  # record of an atom -> symbol
        self.labels = {}  # label -> number of the step
        self.steps = []
        self.run_records = 0

    def run(self):
        return b"".join(step_bytes(*step) for step in self.steps)

    def read(self, text):
        commands = {
            "declare-const": self.declare_const, "declare-fun": self.declare_fun, "term": self.name_term, "assume": self.assume, "step": self.step
        }
        for node in nodes(text):
            command = commands.get(node.head()) if node.items else None
            if not command:
                raise Fault(node, "expected (%s ..)" % " ..), (".join(commands))
            command(node, node.items[1:])
        return self

    # ---- atoms

    def sort(self, node):
        if node.is_word() and node.word in ("Bool", "Int", "Real"):
            return node.word
        parts = indexed(node, "BitVec")
        if not parts:
            raise Fault(node, "expected a sort: Bool, Int, Real or (_ BitVec WIDTH)")
        width = decimal(parts[1], "a width")
        fault = refusals.width_fault(width)
        if fault:
            raise Fault(parts[1], fault)
        return width

    def unused(self, node):
        if not node.is_symbol():
            raise Fault(node, "expected a name")
        if node.word in RESERVED:
            raise Fault(node, "%s is no name for an atom or a term" % node.word)
        if node.word in self.names:
            raise Fault(node, "%s has been declared before" % node.word)
        return node.word

    def declare_const(self, node, items):
        if len(items) < 2:
            raise Fault(node, "expected (declare-const NAME SORT) or (declare-const NAME SORT :name NUMBER)")
        symbol, sort, given = self.unused(items[0]), self.sort(items[1]), attributes(items[2:], (":name",))
        number = len(self.atoms)
        if ":name" in given:
            number = decimal(given[":name"], "the number that is the atom's name in the book")
        record = atom(number, sort)
        fault = layout_fault(record, 0)
        if fault:
            raise Fault(given.get(":name", node), fault)
        if record in self.atoms:
            raise Fault(node, "the atom %d of sort %s is declared as %s" % (number, sort_in_words(sort), self.atoms[record]))
        self.names[symbol], self.atoms[record] = record, symbol

    def declare_fun(self, node, items):
        if len(items) < 3 or items[1].items is None:
            raise Fault(node, "expected (declare-fun NAME () SORT)")
        if items[1].items:
            raise Fault(items[1], "a book has no functions: declare a term such as |f x| as an atom")
        self.declare_const(node, [items[0]] + items[2:])

    # ---- terms

    def enter(self, node, record):
        """The number of a record, which is appended where the book lacks it."""
        fault = layout_fault(record, len(self.book.records))
        if fault:
            raise Fault(node, fault)
        try:
            sort = sort_of(record, self.sorts)
        except SortFault as f:
            raise Fault(node.items[1 + f.argument], "argument %d of %s: %s" % (f.argument + 1, node.head(), f.why))
        number = self.book.enter(record)
        if number == len(self.sorts):
            self.sorts.append(sort)
        if number >= MOST_RECORDS:
            raise Fault(node, "this is term %d of the book, which holds %d" % (number + 1, MOST_RECORDS))
        return number

    def leaf(self, node):
        parts = indexed(node, r"bv\d+")
        if parts:
            if len(parts[0].word) > LONGEST:
                raise Fault(parts[0], "a number of %d characters is out of range" % len(parts[0].word))
            return self.enter(node, ("vector", int(parts[0].word[2:]), decimal(parts[1], "a width")))
        if node.is_number():
            return self.enter(node, number_record(node))
        if node.is_keyword():
            raise Fault(node, "expected a term")
        known = self.names.get(node.word)
        if known is None:
            said = "is an operator, and stands behind a parenthesis" if node.word in OPERATORS else "is not declared"
            raise Fault(node, "%s %s" % (node.word, said))
        return known if isinstance(known, int) else self.enter(node, known)

    def head(self, node):
        """Sees to it that a list is an operation with as many arguments as it takes."""
        symbol = node.head()
        if symbol not in OPERATORS:
            said = "%s is no operator" % symbol if symbol else "expected an operator"
            raise Fault(node.items[0] if node.items else node, said + "; they are " + " ".join(OPERATORS))
        fewest, most = counts(symbol)
        if not fewest <= len(node.items) - 1 <= most:
            raise Fault(node, "%s, and has %d here" % (counts_in_words(symbol), len(node.items) - 1))

    def term(self, node):
        """The number of a term's record; its arguments come before it, in their order."""
        done, todo = {}, [(node, False)]
        while todo:
            here, ready = todo.pop()
            if here.items is None or indexed(here, r"bv\d+"):
                done[id(here)] = self.leaf(here)
            elif ready:
                arguments = tuple(done[id(a)] for a in here.items[1:])
                done[id(here)] = self.enter(here, ("operation", OPERATORS[here.head()]) + arguments)
            else:
                self.head(here)
                todo += [(here, True)] + [(a, False) for a in reversed(here.items[1:])]
        return done[id(node)]

    def name_term(self, node, items):
        if len(items) not in (1, 2):
            raise Fault(node, "expected (term TERM) or (term NAME TERM)")
        symbol = self.unused(items[0]) if len(items) == 2 else None
        number = self.term(items[-1])
        if symbol:
            self.names[symbol] = number

    # ---- steps

    def literal(self, node):
        number = self.term(node)
        if self.sorts[number] != "Bool":
            raise Fault(node, "a literal has sort Bool, and this has sort %s" % sort_in_words(self.sorts[number]))
        return number

    def premise(self, node):
        if node.is_symbol():
            if node.word in self.labels:
                return self.labels[node.word]
            raise Fault(node, "no earlier step has the label %s" % node.word)
        number = decimal(node, "the label or the number of an earlier step")
        if number >= len(self.steps):
            raise Fault(node, "%d is the number of no earlier step; they are numbered from 0" % number)
        return number

    def append(self, node, label, step):
        self.run_records += 1 + sum(map(len, step[1:]))
        if self.run_records > MOST_RUN_RECORDS:
            raise Fault(node, "the run has %d records with this step, and holds %d" % (self.run_records, MOST_RUN_RECORDS))
        if label:
            self.labels[label.word] = len(self.steps)
        self.steps.append(step)

    def label(self, node):
        if not node.is_symbol():
            raise Fault(node, "expected a label")
        if node.word in self.labels:
            raise Fault(node, "step %d has the label %s" % (self.labels[node.word], node.word))
        return node

    def assume(self, node, items):
        if len(items) not in (1, 2):
            raise Fault(node, "expected (assume LABEL TERM) or (assume TERM)")
        label = self.label(items[0]) if len(items) == 2 else None
        self.append(node, label, (0, [], [self.literal(items[-1])], []))

    def step(self, node, items):
        label = self.label(items.pop(0)) if items and items[0].items is None else None
        if not items or items[0].head() != "cl":
            raise Fault(items[0] if items else node, "expected the step's clause, (cl LITERAL ..)")
        given = attributes(items[1:], (":rule", ":premises", ":args"))
        if ":rule" not in given:
            raise Fault(node, "the step has no :rule")
        if given[":rule"].word not in RULES:
            raise Fault(given[":rule"], "expected a rule: " + " ".join(RULES))
        for key in (":premises", ":args"):
            if key in given and given[key].items is None:
                raise Fault(given[key], "expected a list in parentheses behind %s" % key)
        part = lambda key, read: [read(n) for n in given[key].items] if key in given else []
        literals = [self.literal(n) for n in items[0].items[1:]]
        step = (RULES.index(given[":rule"].word), part(":premises", self.premise), literals, part(":args", self.term))
        fault = refusals.assume_fault(step)
        if fault:
            raise Fault(node, fault)
        self.append(node, label, step)
