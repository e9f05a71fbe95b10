"""Random books and runs of every rule, most steps of which are accepted, with the Rust's own answers.

    python3 tools/random_cases.py ORACLE FILE [--count N] [--seed N] [--harm PERCENT] [--wide PERCENT] [--each N] [--records N]

--harm says how many steps are damaged, --wide how many contradictions have many atoms (none where nothing is said), --each how many cases of
one verdict and rule are kept, --records how large a book may be.

The cases are written for tools/try_definitions.py. The Rust has no limits: a case is dropped where a number might leave the range of
2^31 or a polynomial might leave its sizes (`Bounds` judges that from above). Visit limits and out areas are chosen here, and what
they do to the answer is worked out from the Rust's answers for the run's first steps.
"""
import math
import random
import subprocess
import sys
from collections import Counter
from fractions import Fraction

from books import Book, batch, step_bytes

SORTS = {}
for names, sort in (("x y z", "Int"), ("t u", "Real"), ("p q", "Bool"), ("v w", 8), ("m n", 4)):
    for name in names.split():
        SORTS[name] = (len(SORTS), sort)
MANY = ["x%d" % k for k in range(60)]
for name in MANY:
    SORTS[name] = (len(SORTS), "Int")
RANGE = 2**31
RELATIONS = ("<", "<=", ">", ">=")
RULES = (5, 6, 7, 8, 4, 5, 6, 7, 8, 0, 4, 1, 5, 6, 7, 8, 2, 3)  # how often each is tried
OPPOSITE = {"<": ">=", "<=": ">", ">": "<=", ">=": "<"}


# ---- reading terms: `as_fraction`, and sorts


def number(e):
    """A constant, or None."""
    if isinstance(e, list) or e.startswith("#") or e in SORTS:
        return None
    return Fraction(e)


def signed_by(read, e):
    """What is read, or one minus over it."""
    if isinstance(e, list) and e[0] == "-" and len(e) == 2:
        inner = read(e[1])
        return None if inner is None else -inner
    return read(e)


def signed(e):
    return signed_by(number, e)


def quotient(e):
    if isinstance(e, list) and e[0] in ("div", "/"):
        above, below = signed(e[1]), signed(e[2])
        return above / below if above is not None and below else None
    return number(e)


def fraction(e):
    return signed_by(quotient, e)


def is_numeric(e):
    if isinstance(e, list):
        return e[0] in ("+", "-", "*", "div", "/", "to_real")
    return SORTS[e][1] in ("Int", "Real") if e in SORTS else not e.startswith("#")


# ---- judging from above whether limits are met


class Bounds:
    """Of a term's combination: the sum of its coefficients' sizes, a common denominator, monomials, degree, depth of products."""

    def __init__(self, size, below, monomials=0, degree=0, depth=0):
        self.size, self.below, self.monomials, self.degree, self.depth = size, below, monomials, degree, depth

    def fits(self):
        return self.size * self.below < RANGE and self.monomials <= 64 and self.degree <= 8 and self.depth <= 8

    @staticmethod
    def sum(parts):
        below = math.lcm(*(p.below for p in parts)) if parts else 1
        monomials, degree = sum(p.monomials for p in parts), max((p.degree for p in parts), default=0)
        return Bounds(sum(p.size for p in parts), below, monomials, degree, max((p.depth for p in parts), default=0))

    def times(self, other):
        monomials = (self.monomials + 1) * (other.monomials + 1) - 1
        depth = max(self.depth, other.depth)
        return Bounds(self.size * other.size, self.below * other.below, monomials, self.degree + other.degree, depth)


def of_number(q):
    return Bounds(max(1, math.ceil(abs(q))), q.denominator)


def linear_bounds(e):
    if isinstance(e, list) and e[0] in ("+", "-"):
        return Bounds.sum([linear_bounds(a) for a in e[1:]])
    if isinstance(e, list) and e[0] == "*" and len(e) == 3 and (fraction(e[1]) is not None or fraction(e[2]) is not None):
        return linear_bounds(e[1]).times(linear_bounds(e[2]))
    q = fraction(e)
    return of_number(q) if q is not None else Bounds(1, 1)


def polynomial_bounds(e):
    if isinstance(e, list) and e[0] in ("+", "-", "to_real", "bvadd", "bvsub", "bvneg"):
        return Bounds.sum([polynomial_bounds(a) for a in e[1:]])
    if isinstance(e, list) and e[0] in ("*", "bvmul"):
        product = Bounds(1, 1)
        for a in e[1:]:
            product = product.times(polynomial_bounds(a))
        product.depth += 1
        return product
    if isinstance(e, list) and e[0] == "/" and fraction(e[2]):
        return polynomial_bounds(e[1]).times(of_number(1 / fraction(e[2])))
    if isinstance(e, str) and e.startswith("#"):
        return Bounds(256, 1)
    q = fraction(e)
    return of_number(q) if q is not None else Bounds(1, 1, 1, 1)


def sides(literal):
    inner = literal[1] if isinstance(literal, list) and literal[0] == "not" else literal
    return inner[1:] if isinstance(inner, list) and inner[0] in RELATIONS + ("=",) and len(inner) == 3 else None


def step_fits(rule, literals, arguments, inferred):
    """Whether no limit can be met; inferred is None where the numbers that are inferred are not known."""
    parts = [sides(e) for e in literals]
    if rule == 7:
        return all(p is None or Bounds.sum([polynomial_bounds(a) for a in p]).fits() for p in parts)
    if rule not in (4, 5, 6):
        return True
    total, scales = Bounds(0, 1), [fraction(a) for a in arguments] + (inferred or [])
    for i, p in enumerate(parts):
        if p is None:
            break
        one = Bounds.sum([linear_bounds(a) for a in p])
        one.size = 2 * one.size * one.below + 2  # strengthened
        if i < len(scales) and scales[i] is not None:
            one = one.times(of_number(scales[i]))
        elif i >= len(scales) and rule == 6:
            one = one.times(Bounds(total.size * total.below * one.size * one.below, total.below * one.size * one.below))
        total = Bounds.sum([total, one])
        if not total.fits():
            return False
    return True


# ---- random terms


class Maker:
    def __init__(self, rng, harm, wide=0):
        self.rng = rng
        self.harm = harm  # how likely a step is damaged
        self.wide = wide  # how likely a contradiction has many atoms
        self.before = [0, 0, 1, 2] if harm < 0.4 else [0, 0, 0, 1]  # steps before the last

    def chance(self, p):
        return self.rng.random() < p

    def pick(self, choices):
        return self.rng.choice(list(choices))

    def written(self, q):
        """A number as a term that `as_fraction` reads, in one of its forms."""
        forms = []
        if q.denominator == 1:
            forms += [str(q)] * 4 + ([["-", str(-q)]] * 3 if q <= 0 else [])
            forms += [["div", str(2 * q), "2"], "%d/1" % q]
        forms += ["%d/%d" % (q.numerator, q.denominator), ["/", str(q.numerator), str(q.denominator)]]
        forms += [["div", str(q.numerator), str(q.denominator)], ["-", ["/", str(-q.numerator), str(q.denominator)]]]
        forms += [["/", "%d/2" % q.numerator, "1/2"]] if q.denominator == 1 and q.numerator % 2 else []
        return self.pick(forms)

    def small(self):
        return Fraction(self.rng.randint(-6, 6), self.pick([1, 1, 1, 1, 2, 3]))

    def nonzero(self):
        return self.small() or Fraction(1)

    def atom(self):
        odd = [["*", "x", "y", "z"], ["*", "x", "y"], ["to_real", "x"], ["div", "x", "2"], ["/", "t", "u"], ["*", "2", "x", "y"]]
        odd += [["/", "t", "0"], ["div", "5", "0"], ["*", ["-", ["-", "3"]], "x"]]
        return self.pick(["x", "y", "z"] * 4 + ["t", "u"] * 2 + odd)

    def entry(self, atom, q):
        """An atom with a coefficient."""
        if q == 1 and self.chance(0.8):
            return atom
        if q == -1 and self.chance(0.6):
            return ["-", atom]
        c = self.written(q)
        return ["*", c, atom] if self.chance(0.7) else ["*", atom, c]

    def nested(self, parts):
        """A sum of the parts, nested and turned at random."""
        parts = parts or ["0"]
        self.rng.shuffle(parts)
        while len(parts) > 1:
            k = self.rng.randint(2, min(4, len(parts)))
            some, parts = parts[:k], parts[k:]
            parts.append(["+"] + some)
        whole = parts[0]
        if self.chance(0.1):
            whole = ["-", ["-", whole]]
        if self.chance(0.1):
            whole = ["+", whole, ["*", "0", self.atom()]]
        if self.chance(0.1):
            whole = ["-", whole, "0", "0"]
        return whole

    def sum_of(self, entries, constant):
        parts = [self.entry(a, q) for a, q in entries]
        if constant or not parts:
            parts.append(self.written(constant))
        return self.nested(parts)

    def expression(self, atoms):
        some = self.rng.sample(atoms, self.rng.randint(0, len(atoms)))
        return self.sum_of([(a, self.nonzero()) for a in some], self.small())

    # ---- clauses

    def literal(self, relation, left, right):
        """A literal whose negation is the relation."""
        if relation == "=" or self.chance(0.6):
            return ["not", [relation, left, right]]
        return [OPPOSITE[relation], left, right]

    def fact(self, relation, entries, constant, rest):
        """The sum of entries and constant stands in the relation to 0; both sides get what is added at random."""
        both = self.expression(rest) if self.chance(0.4) else None
        left = [(a, q) for a, q in entries if self.chance(0.7)]
        right = [(a, -q) for a, q in entries if (a, q) not in left]
        moved = constant if self.chance(0.5) else Fraction(0)
        one, two = self.sum_of(left, moved), self.sum_of(right, moved - constant)
        if both is not None:
            one, two = ["+", one, both], ["+", both, two]
        if relation in RELATIONS and self.chance(0.3):
            return self.literal({"<": ">", "<=": ">=", ">": "<", ">=": "<="}[relation], two, one)
        return self.literal(relation, one, two)

    def contradiction(self, unit):
        """Literals and arguments whose scaled sum has no atoms; with unit, all but the first have one atom."""
        atoms = []
        if self.wide and self.chance(self.wide):
            atoms = self.rng.sample(MANY, self.rng.randint(8, 40))
        while len(atoms) < self.rng.randint(1, 3):
            a = self.atom()
            if a not in atoms:
                atoms.append(a)
        facts, total = [], Counter()
        count = 1 if unit else self.rng.randint(0, 3)
        for _ in range(count):
            relation, q = self.pick((">", ">=", "=")), abs(self.nonzero())
            if relation == "=" and self.chance(0.4):
                q = -q
            if self.chance(0.07) and not unit:
                q = Fraction(0)
            entries = [(a, self.nonzero()) for a in (atoms if unit else self.rng.sample(atoms, self.rng.randint(1, len(atoms))))]
            facts.append((relation, entries, self.small(), q))
        for _, entries, constant, q in facts:
            for a, c in entries:
                total[repr(a)] += c * q
            total[None] += constant * q
        left = [(a, -total[repr(a)]) for a in atoms if total[repr(a)]]
        last = [[e] for e in left] if unit else [left]
        for i, entries in enumerate(last):
            relation, q = self.pick((">", ">=", "=")), abs(self.nonzero())
            constant = self.small() / q if i + 1 < len(last) else (-total[None] - self.pick([2, 1, 1, 0, 0, -1, Fraction(1, 2)])) / q
            if i + 1 < len(last):
                total[None] += constant * q
            facts.append((relation, [(a, c / q) for a, c in entries], constant, q))
        if not unit:
            self.rng.shuffle(facts)
        literals = [self.fact(r, e, c, atoms) for r, e, c, _ in facts]
        arguments = [self.written(q if r == "=" or self.chance(0.8) else -q) for r, _, _, q in facts]
        if self.chance(0.15):
            one, two = self.pick([("p", "q"), ("v", "w"), ("v", "#x07"), (["not", "p"], "q")])
            literals += [["not", ["=", one, two]], ["not", ["=", two, one]]]
            arguments += ["2", "2"]
        return literals, arguments

    # ---- polynomials

    def polynomial(self, depth, bits):
        if depth == 0 or self.chance(0.2):
            if bits:
                return self.pick(["v", "w"] * 3 + ["#x03", "#x80", "#xff", "#x00"] if bits == 8 else ["m", "n"] * 3 + ["#x7", "#x8"])
            return self.pick(["x", "y", "z", "t", "u", ["div", "x", "2"]] * 2 + [self.written(self.small())])
        add, sub, mul = ("bvadd", "bvsub", "bvmul") if bits else ("+", "-", "*")
        kind = self.pick("add add mul mul sub neg real over".split())
        under = lambda: self.polynomial(depth - 1, bits)
        if kind == "add":
            return [add] + [under() for _ in range(self.rng.randint(2, 3))]
        if kind == "mul":
            return [mul] + [under() for _ in range(self.pick([2, 2, 2, 3]))]
        if kind == "sub":
            return [sub, under(), under()]
        if kind == "neg":
            return ["bvneg", under()] if bits else ["-", under()]
        if bits:
            return under()
        return ["to_real", under()] if kind == "real" else ["/", under(), self.written(self.nonzero())]

    def reshaped(self, e, bits):
        """An equal polynomial."""
        if isinstance(e, str):
            one = {8: "#x01", 4: "#x1"}.get(bits, "1")
            return ["bvmul" if bits else "*", one, e] if self.chance(0.05) else e
        if fraction(e) is not None or e[0] == "div" or (e[0] == "/" and not fraction(e[2])):
            return e
        if e[0] == "/":
            return ["*", self.written(1 / fraction(e[2])), self.reshaped(e[1], bits)] if self.chance(0.5) else ["/", self.reshaped(e[1], bits), e[2]]
        head, args = e[0], [self.reshaped(a, bits) for a in e[1:]]
        if head in ("+", "*", "bvadd", "bvmul"):
            self.rng.shuffle(args)
            if len(args) > 2 and self.chance(0.5):
                args = [args[0], [head] + args[1:]]
            inner = args[1]
            if head in ("*", "bvmul") and len(args) == 2 and isinstance(inner, list) and inner[0] in ("+", "bvadd") and self.chance(0.6):
                return [inner[0]] + [[head, args[0], a] for a in inner[1:]]
        elif head in ("-", "bvsub") and len(args) == 2 and self.chance(0.5):
            return ["bvadd", args[0], ["bvneg", args[1]]] if bits else ["+", args[0], ["-", args[1]]]
        elif head in ("-", "bvneg") and len(args) == 1 and self.chance(0.4):
            minus = {8: "#xff", 4: "#xf"}.get(bits, "-1")
            return ["bvmul" if bits else "*", minus, args[0]]
        return [head] + args

    # ---- steps: each rule gives what it appends to the run

    def step(self, rule, run):
        two = [self.atom(), self.expression(["x", "u"])]
        self.rng.shuffle(two)
        a, b = two
        if rule == 0:
            return [(0, [], [["<", a, b]], [])]
        if rule == 1:
            return [(1, [], [["=", ["=", a, b], ["and", ["<=", a, b], ["<=", b, a]]]], [])]
        if rule == 2:
            return [(2, [], [["or", ["=", a, b], ["not", ["<=", a, b]], ["not", ["<=", b, a]]]], [])]
        if rule == 3:
            return [(3, [], [["or", ["<=", a, b], ["<=", b, a]]], [])]
        if rule == 4 and self.chance(0.5):
            less, more = sorted((self.rng.randint(-4, 4), self.rng.randint(-4, 4)), reverse=self.chance(self.harm / 2))
            less, more = (str(n) if n >= 0 or self.chance(0.5) else ["-", str(-n)] for n in (less, more))
            forms = [(["not", ["<=", a, less]], ["<=", a, more]), (["<=", a, less], ["not", ["<=", a, less]])]
            forms += [(["not", [">=", a, more]], [">=", a, less]), ([">=", a, less], ["not", [">=", a, less]])]
            forms += [(["not", ["<=", a, less]], ["not", [">=", a, more]])]
            return [(4, [], [["or", *self.pick(forms)]], [])]
        if rule == 4:
            relation, constant = self.pick([(">", -1), (">", 0), (">=", -1), (">=", Fraction(-1, 2)), ("=", -2), ("=", 1)])
            return [(4, [], [self.fact(relation, [], Fraction(constant), ["x", "y", "u"])], [])]
        if rule in (5, 6):
            unit = rule == 6 and self.chance(0.7)
            literals, arguments = self.contradiction(unit)
            if unit:
                arguments = arguments[: self.rng.randint(1, len(arguments))]
            elif rule == 6 and self.chance(0.3):
                arguments.append("1")
            return [(rule, [], literals, arguments)]
        if rule == 7:
            bits = self.pick([0, 0, 8, 4])
            p = self.polynomial(self.rng.randint(1, 3), bits)
            q = self.reshaped(p, bits)
            return [(7, [], [["=", q, p] if self.chance(0.5) else ["=", p, q]], [])]
        return self.related(len(run))

    def related(self, before):
        if self.chance(0.3):
            c1, c2 = self.pick(("#x01", "#x03", "#xff")), self.pick(("#x05", "#x81", "#x03"))
            xs, ys = ("v", "w"), (self.pick(("v", ["bvadd", "v", "w"])), "w")
            premise = ["=", ["bvmul", c1, ["bvsub", *xs]], ["bvmul", c2, ["bvsub", *ys]]]
            relation = "="
        else:
            xs = (self.atom(), self.expression(["x", "u"]))
            ys = (self.atom(), self.expression(["y"]))
            c1, c2 = self.nonzero(), self.nonzero()
            if self.chance(0.8) and (c1 > 0) != (c2 > 0):
                c2 = -c2
            left, right = (["to_real", ["-", *s]] if self.chance(0.2) else ["-", *s] for s in (xs, ys))
            premise = ["=", ["*", self.written(c1), left], ["*", self.written(c2), right]]
            relation = self.pick(RELATIONS + ("=",))
        conclusion = ["=", [relation, *xs], [relation, *ys]]
        return [(0, [], [premise], []), (8, [before], [conclusion], [])]

    # ---- damage

    def damaged(self, e):
        """The term with something changed that leaves its sort as it is."""
        if isinstance(e, str):
            alike = ("x y z 3", "t u 1/3", "p q", "v w #x02 #x00 #x07", "m n #x2 #x0")
            for names in map(str.split, alike):
                if e in names or e.startswith("#") and names[-1].startswith("#") and len(e) == len(names[-1]):
                    return self.pick(names)
            if e in SORTS:
                return self.pick(MANY)
            n = Fraction(e)
            return self.pick([str(n + 1), "0", str(-n), "x"]) if "/" not in e else self.pick(("1/2", "3/1", "0/1", "u"))
        i = self.rng.randrange(len(e))
        if i == 0:
            if e[0] in RELATIONS and self.chance(0.1):
                return "p"
            if e[0] in RELATIONS or e[0] == "=" and all(map(is_numeric, e[1:])):
                return [self.pick(RELATIONS + ("=",))] + e[1:]
            for same in (("+", "-", "*"), ("bvadd", "bvmul"), ("and", "or")):
                if e[0] in same and len(e) > 2:
                    return [self.pick(same)] + e[1:]
            return e[1] if e[0] == "not" else e
        if len(e) > 3 and self.chance(0.2):
            return e[:i] + e[i + 1 :]
        if e[0] in RELATIONS + ("+", "or") and self.chance(0.15):
            return e + [e[1]]
        if e[0] != "div" and self.chance(0.1):
            return e[:1] + e[:0:-1]
        return e[:i] + [self.damaged(e[i])] + e[i + 1 :]

    def harmed(self, step):
        rule, premises, literals, arguments = step
        if rule == 0:
            return rule, premises, [self.damaged(literals[0])], arguments
        kind = self.pick("literal literal literal argument fewer more premise clause rule negate".split())
        literals, arguments = list(literals), list(arguments)
        if kind == "literal" and literals:
            i = self.rng.randrange(len(literals))
            literals[i] = self.damaged(literals[i])
        elif kind == "argument" and arguments:
            i = self.rng.randrange(len(arguments))
            arguments[i] = self.pick(["x", "0", ["-", ["-", "3"]], ["/", "1", "0"], "-2", ["-", "1/2"], "#x01", ["+", "1", "1"]])
        elif kind == "fewer":
            arguments = arguments[: self.rng.randrange(len(arguments) + 1)]
        elif kind == "more":
            arguments.append(self.pick(["1", "x"]))
        elif kind == "premise" and rule == 8:
            premises = self.pick([[], premises * 2, [0]])
        elif kind == "clause" and rule:
            literals = literals[:-1] if self.chance(0.5) else literals + literals[:1]
        elif kind == "rule" and rule:
            rule = self.rng.randint(1, 8)
        elif kind == "negate" and literals:
            literals[0] = ["not", literals[0]]
        return rule, premises, literals, arguments

    def run(self, rule):
        """A run with a step of the rule, and others before it."""
        run = []
        for r in [self.pick(RULES) for _ in range(self.pick(self.before))] + [rule]:
            for step in self.step(r, run):
                run.append(self.harmed(step) if self.chance(self.harm) else step)
        return run


# ---- the Rust's answers, and what limits and areas make of them


def ask(oracle, cases):
    done = subprocess.run([oracle, "batch", "-", "--elaborate"], input=batch(cases), stdout=subprocess.PIPE, check=True)
    return [line.split() for line in done.stdout.decode().splitlines()]


def inferred_of(text):
    """Numbers by step."""
    found = {}
    for part in text.split(";") if text != "-" else []:
        step, _, numbers = part.partition("=")
        found[int(step)] = [Fraction(n) for n in numbers.split(",") if n]
    return found


def main():
    oracle, path = sys.argv[1:3]
    option = lambda name, usual: int(sys.argv[sys.argv.index(name) + 1]) if name in sys.argv else usual
    maker = Maker(random.Random(option("--seed", 1)), option("--harm", 20) / 100, option("--wide", 0) / 100)
    count = option("--count", 360)
    runs = [maker.run(RULES[i % len(RULES)]) for i in range(count)]
    asked, owners = [], []
    for i, run in enumerate(runs):
        book = Book(SORTS)
        steps = [step_bytes(r, p, [book.term(e) for e in c], [book.term(e) for e in a]) for r, p, c, a in run]
        for k in range(len(steps) + 1):
            asked.append((book.bytes(), b"".join(steps[:k])))
            owners.append((i, k))
    answers = dict(zip(owners, ask(oracle, asked)))
    bytes_of = dict(zip(owners, asked))
    verdicts, rules, dropped, kept, lines = Counter(), Counter(), Counter(), Counter(), []
    for i, run in enumerate(runs):
        answer = answers[i, len(run)]
        verdict, accepted = answer[0], int(answer[1])
        if not verdict.isdigit() or "big" in answer:
            dropped[verdict] += 1
            print("the Rust says %s of %s" % (verdict, run))
            continue
        inferred = inferred_of(answer[3])
        reached = run[: accepted + (verdict != "0")]
        if not all(step_fits(r, c, a, inferred.get(k)) for k, (r, p, c, a) in enumerate(reached)):
            dropped["numbers or sizes"] += 1
            continue
        book, whole = bytes_of[i, len(run)]
        # a limit below the accepted steps' visits gives 10 at the step that passes it
        verdict, limit, visits = int(verdict), 100000, [int(answers[i, k][2]) for k in range(accepted + 1)]
        top = visits[accepted]
        if maker.chance(0.2) and top > 1:
            limit = maker.rng.randint(1, top if verdict == 0 else top - 1)
            if limit < top:
                accepted = next(k for k in range(accepted, -1, -1) if visits[k] <= limit)
                verdict = 10
        out_run, out_tail = answers[i, accepted][4:6]
        lengths = [len(part.replace("-", "")) // 2 for part in (out_run, out_tail)]
        rooms = [max(0, n - maker.pick([0, 0, 1, 4])) if maker.chance(0.15) else 5000 for n in lengths]
        if any(n > room for n, room in zip(lengths, rooms)):
            verdict, out_run, out_tail = 8, "-", "-"
        rule = run[min(accepted, len(run) - 1)][0]
        if kept[verdict, rule] >= option("--each", count) or len(book) > 32 * option("--records", 2048):
            dropped["enough of them, or too large"] += 1
            continue
        kept[verdict, rule] += 1
        verdicts[verdict] += 1
        for r, _, _, _ in run[:accepted]:
            rules["rule %d accepted" % r] += 1
        if verdict >= 20:
            rules["rule %d refused" % rule] += 1
        words = [book.hex() or "-", whole.hex() or "-", limit, 65536, *rooms, verdict, accepted, visits[accepted], out_run, out_tail]
        lines.append(" ".join(map(str, words)) + " # %d: %s" % (i, run))
    with open(path, "w") as f:
        f.write("\n".join(lines) + "\n")
    print("%d cases written; verdicts %s" % (len(lines), dict(sorted(verdicts.items()))))
    print("steps: %s" % dict(sorted(rules.items())))
    print("dropped: %s" % dict(dropped))


if __name__ == "__main__":
    main()
