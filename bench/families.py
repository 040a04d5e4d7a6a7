"""Logics, formulas and queries that grow, in families."""

import itertools
from collections import namedtuple

from measure import KIB, MIB

DEPTHS = (9, 33, 66, 99)

Logic = namedtuple("Logic", "values designated tables")
Entail = namedtuple("Entail", "premises conclusion")
Equation = namedtuple("Equation", "left right")
Quasi = namedtuple("Quasi", "premises conclusion")
Case = namedtuple("Case", "size queries")


# ---- logics, formulas and queries. A formula is the name of an atom, or a tuple of an operator's name and its arguments.


def lukasiewicz(count):
    """The logic of Lukasiewicz with this many values, the greatest of which is designated. With two it is the classical one."""
    top = count - 1
    operations = {
        "neg": (1, lambda a: top - a),
        "and": (2, min),
        "or": (2, max),
        "imp": (2, lambda a, b: min(top, top - a + b)),
        "iff": (2, lambda a, b: top - abs(a - b)),
    }
    rows = {name: list(itertools.product(range(count), repeat=arity)) for name, (arity, _) in operations.items()}
    tables = {name: {row: of(*row) for row in rows[name]} for name, (_, of) in operations.items()}
    return Logic(["v%d" % v for v in range(count)], [top], tables)


def specification(logic):
    """The logic as a file."""
    lines = ["truth_values {%s}.\n" % ",".join(logic.values)]
    lines.append("designated_truth_values {%s}.\n" % ",".join(logic.values[v] for v in logic.designated))
    for name, table in logic.tables.items():
        arity = len(next(iter(table)))
        rows = ("(%s):%s" % (",".join(logic.values[v] for v in row), logic.values[value]) for row, value in table.items())
        lines.append("operator(%s/%d, mapping {%s}).\n" % (name, arity, ", ".join(rows)))
    return "".join(lines)


def written(formula):
    if isinstance(formula, str):
        return formula
    return "%s(%s)" % (formula[0], ",".join(map(written, formula[1:])))


def equation_written(pair):
    return "%s = %s" % tuple(map(written, pair))


def query_written(query):
    if isinstance(query, Equation):
        return "equation %s.\n" % equation_written(query)
    word, side = ("entail", written) if isinstance(query, Entail) else ("quasi", equation_written)
    premises = ", ".join(map(side, query.premises))
    return "%s |- %s.\n" % (" ".join(filter(None, [word, premises])), side(query.conclusion))


def joined(operator, formulas):
    """The formulas under an operator of two arguments, as flat as can be."""
    if len(formulas) == 1:
        return formulas[0]
    half = len(formulas) // 2
    return (operator, joined(operator, formulas[:half]), joined(operator, formulas[half:]))


def nested(operator, formulas):
    """The formulas under an operator of two arguments, each but the last before the rest."""
    result = formulas[-1]
    for formula in reversed(formulas[:-1]):
        result = (operator, formula, result)
    return result


def atoms(name, count):
    return ["%s%d" % (name, i) for i in range(1, count + 1)]


# ---- families


class Drawn:
    """Formulas that are drawn by a fixed generator, which begins at a number."""

    def __init__(self, state):
        self.state = state

    def below(self, bound):
        self.state = (self.state * 1103515245 + 12345) % 2**31
        return self.state // 65536 % bound

    def atom(self):
        return "pqrs"[self.below(4)]

    def formula(self, depth):
        if depth == 0:
            return self.atom()
        operator = [None, "neg", "and", "or", "imp"][self.below(5)]
        if operator is None:
            return self.atom()
        return (operator,) + tuple(self.formula(depth - 1) for _ in range(1 if operator == "neg" else 2))

    def entailment(self, depth):
        premise = self.formula(depth)
        return Entail([premise], self.formula(depth))


def drawn_entailments(depth):
    for count in (1, 10, 100, 1_000, 10_000):
        draws = Drawn(count)
        yield Case(count, [draws.entailment(depth) for _ in range(count)])


def chains():
    for n in (2, 4, 8, 16, 32, 64, 128, 256, 333):
        p = atoms("p", n)
        yield Case(n, [Entail([("imp", a, b) for a, b in zip(p, p[1:])], ("imp", p[0], p[-1]))])


def equivalences():
    for n in range(2, 51, 2):
        p = atoms("p", n)
        yield Case(n, [Entail([], nested("iff", p + p[::-1]))])


def de_morgan():
    for n in (2, 4, 8, 16, 32, 64, 128, 199):
        p = atoms("p", n)
        yield Case(n, [Equation(("neg", joined("and", p)), joined("or", [("neg", a) for a in p]))])


def distributivity():
    for n in (2, 4, 8, 16, 32, 64, 128, 166):
        p = atoms("p", n)
        yield Case(n, [Equation(("or", "q", joined("and", p)), joined("and", [("or", "q", a) for a in p]))])


def pigeons():
    """One pigeon more than holes: where each sits in a hole, two sit in the same one."""
    for holes in range(1, 8):
        sits = [["p%d_%d" % (pigeon, hole) for hole in range(holes)] for pigeon in range(holes + 1)]
        both = [("and", a[hole], b[hole]) for a, b in itertools.combinations(sits, 2) for hole in range(holes)]
        yield Case(holes, [Entail([joined("or", places) for places in sits], joined("or", both))])


def quasi_equations(most):
    """That equality is passed on along a chain of so many equations."""
    for k in range(1, most + 1):
        yield Case(k, [passed_on(k)])


def passed_on(k):
    p = atoms("p", k + 1)
    return Quasi([Equation(("neg", a), ("neg", b)) for a, b in zip(p, p[1:])], Equation(p[0], p[-1]))


def most_goals():
    yield Case(3, [passed_on(3)])


def negations():
    for depth in DEPTHS:
        formula = "p"
        for _ in range(depth - 1):
            formula = ("neg", formula)
        yield Case(depth, [Equation(formula, formula[1][1])])


def implications_right():
    for depth in DEPTHS:
        yield Case(depth, [Entail([], nested("imp", atoms("p", depth - 1) + ["p1"]))])


def implications_left():
    for depth in DEPTHS:
        formula = "p"
        for i in range(1, depth):
            formula = ("imp", formula, "p" if i % 2 else "q")
        yield Case(depth, [Entail([], formula)])


def last_conjunct():
    """A conjunction of which the last part alone can fail."""
    for n in (2, 4, 8, 16, 32, 64, 96):
        parts = [("imp", ("and", p, q), ("or", q, p)) for p, q in zip(atoms("p", n), atoms("q", n))]
        yield Case(n, [Entail([], nested("and", parts + ["r"]))])


def last_alternatives():
    """Premises of two parts each, of which the second parts alone don't give the conclusion."""
    for n in (2, 4, 8, 16, 32, 64, 128, 200):
        p = atoms("p", n)
        yield Case(n, [Entail([("or", a, b) for a, b in zip(p, atoms("q", n))], joined("or", p))])


def small_queries():
    """As many small queries as fit into a file of this many KiB."""
    query = Entail(["p", "q"], ("and", "p", "q"))
    for size in (256, 512, 1024):
        yield Case(size, [query] * (size * KIB // len(query_written(query))))


def families():
    """Each family: its title, its logic, its cases, and whether solvers get them too."""
    two, three, eight = lukasiewicz(2), lukasiewicz(3), lukasiewicz(8)
    for depth in (3, 4, 5):
        yield "drawn entailments of depth %d over 3 values" % depth, three, drawn_entailments(depth), True
    yield "drawn entailments of depth 4 over 8 values", eight, drawn_entailments(4), True
    yield "chains of n implications over 3 values", three, chains(), True
    yield "nested equivalences of n atoms over 2 values", two, equivalences(), True
    yield "nested equivalences of n atoms over 3 values", three, equivalences(), True
    yield "De Morgan with n conjuncts over 3 values", three, de_morgan(), True
    yield "distributivity with n conjuncts over 3 values", three, distributivity(), True
    yield "pigeons into n holes over 2 values", two, pigeons(), True
    yield "pigeons into n holes over 3 values", three, pigeons(), True
    yield "quasi-equations with n premises over 3 values", three, quasi_equations(6), True
    yield "a quasi-equation with n premises over 8 values: 4,096 goals", eight, most_goals(), True
    yield "negations of depth n over 3 values", three, negations(), True
    yield "implications of depth n to the right over 3 values", three, implications_right(), True
    yield "implications of depth n to the left over 3 values", three, implications_left(), True
    yield "n conjuncts and a last one that fails, over 3 values", three, last_conjunct(), True
    yield "n alternatives of which the last fail, over 3 values", three, last_alternatives(), True
    yield "n KiB of small queries over 3 values", three, small_queries(), False


# ---- files


def text_of(case):
    return "".join(map(query_written, case.queries))


def fits(case):
    """Whether the queries fit into a file."""
    return len(text_of(case)) <= MIB


def write(path, text):
    with open(path, "w", encoding="ascii") as file:
        file.write(text)
