"""Reports as the tools show them: what is read of one, its logic's tables, and formulas as a logician writes them."""

import os
import re
import subprocess
from typing import NamedTuple

import texts

TOP = os.path.dirname(os.path.dirname(os.path.abspath(__file__)))
PROGRAM = os.path.join(TOP, "multlog")


class Report(NamedTuple):
    """A report with the logic that it is read with, the rules that `calculus` prints for it, and what `check` says."""

    rules: list
    lines: list
    claims: list
    logic: texts.Logic
    calculus: list
    verdict: str


def run(*words):
    """What the program prints, and its status. Nothing where it isn't there."""
    ended = subprocess.run([PROGRAM, *words], stdout=subprocess.PIPE, text=True, check=False)
    return ended.returncode, ended.stdout


def guessed(data):
    """The names of the rules' heads, where no specification says which names are those of the logic."""
    words = [it.says for it in texts.tokens(data)]
    heads = [(words[i], words[i + 1]) for i in range(len(words) - 1) if i > 2 and words[i - 1] == ":"]
    operators = {name: None for kind, name in heads if kind == "operator"}
    return texts.Logic([], [], operators, [name for kind, name in heads if kind == "quantifier"], [])


def read(path, spec):
    """The report in a file. With a specification its logic is known, and what `check` says."""
    with open(path, "rb") as file:
        data = file.read()
    logic, calculus, verdict = guessed(data), [], ""
    if spec:
        with open(spec, "rb") as file:
            logic = texts.read_logic(file.read())
        calculus = texts.InputReader(run("calculus", spec)[1].encode(), logic).rules()
        verdict = run("check", spec, path)[1].strip()
    return Report(*texts.InputReader(data, logic).report(), logic, calculus, verdict)


def line_at(report, position):
    """The line at a position that is written as a number, or None."""
    at = int(position)
    return report.lines[at - 1] if 0 < at <= len(report.lines) else None


def cited_by(report, at):
    """The positions that the line at a place cites, and of each whether it stands before it."""
    return [(int(number), 0 < int(number) <= at) for number, _ in report.lines[at].cited]


# Values.


def value(report, formula, valuation):
    """The value of a formula without quantifiers under a valuation, by the rules of the calculus, or None."""
    if formula.kind == "atom":
        return valuation.get(plain(formula))
    arguments = [value(report, it, valuation) for it in formula.arguments]
    for rule in report.calculus:
        if rule.kind == "operator" and rule.name == formula.name and all(holds(it, arguments) for it in rule.clauses):
            return rule.sign[0]
    return None


def holds(clause, arguments):
    return any(arguments[int(place) - 1] in values for place, values in clause)


def subformulas(formulas):
    """The subformulas of some formulas, each once and behind its own ones, atoms first."""
    found = {}

    def walk(formula):
        for it in formula.arguments if formula.kind != "atom" else []:
            walk(it)
        found.setdefault(plain(formula), formula)

    for formula in formulas:
        walk(formula)
    return sorted(found.values(), key=lambda it: it.kind != "atom")


def formulas_of(query):
    """The formulas of a query, from the left."""
    if query.word in ("entail", "mixed"):
        return query.premises + query.conclusions
    return [side for pair in query.premises + query.conclusions for side in pair]


# Text.


def plain(formula):
    """A formula or a term as it is written in files."""
    if isinstance(formula, texts.Term) or formula.variable is None:
        arguments = ",".join(plain(it) for it in formula.arguments or [])
        return formula.name + ("(%s)" % arguments if arguments else "")
    return "%s(%s,%s)" % (formula.name, formula.variable, plain(formula.arguments[0]))


class Style:
    """How formulas, sequents and queries are written. Each kind of document has its own marks and brackets."""

    unary, binary, quantifiers = {}, {}, {}
    entails, equals, comma, thin, every, without = "|=", "=", ", ", " ", "V", "\\"

    def __init__(self, values):
        """With the truth values of the logic, where they are known. Of many values large signs are written short."""
        self.values = values
        self.is_short = len(values) > 4

    def name(self, text):
        return text

    def variable(self, text):
        return text

    def set(self, values):
        return "{%s}" % ",".join(values)

    def sign(self, values):
        """A set of truth values, where there are many as all of them without the others."""
        others = [it for it in self.values if it not in values]
        if not self.is_short or 2 * len(others) >= len(self.values):
            return self.set(values)
        return self.every + self.without + self.set(others) if others else self.every

    def signed(self, formula, values):
        raise NotImplementedError

    def term(self, term):
        if term.arguments is None:
            return self.variable(term.name)
        arguments = self.comma.join(self.term(it) for it in term.arguments)
        return self.name(term.name) + ("(%s)" % arguments if arguments else "")

    def formula(self, formula, inner=False):
        """A formula, in brackets where it stands inside of another one and needs them."""
        if formula.kind == "quantifier":
            return self.quantified(formula)
        if formula.kind == "atom":
            return self.term(texts.Term(formula.name, formula.arguments))
        arguments = formula.arguments
        if len(arguments) == 1 and formula.name in self.unary:
            return self.unary[formula.name] + self.formula(arguments[0], True)
        if len(arguments) == 2 and (formula.name in self.binary or re.fullmatch(r"\W+", formula.name)):
            mark = self.binary.get(formula.name) or self.name(formula.name)
            text = "%s %s %s" % (self.formula(arguments[0], True), mark, self.formula(arguments[1], True))
            return "(%s)" % text if inner else text
        inside = self.comma.join(self.formula(it) for it in arguments)
        return self.name(formula.name) + ("(%s)" % inside if inside else "")

    def quantified(self, formula):
        head = self.quantifiers.get(formula.name, self.name(formula.name) + self.thin)
        return head + self.variable(formula.variable) + self.thin + self.formula(formula.arguments[0], True)

    def sequent(self, items):
        return self.comma.join(self.signed(self.formula(formula, True), values) for formula, values in items)

    def query(self, query, designated):
        if query.word in ("entail", "mixed"):
            left = self.comma.join(self.formula(it) for it in query.premises)
            right = self.comma.join(self.formula(it) for it in query.conclusions)
        else:
            left = self.comma.join(self.equation(it) for it in query.premises)
            right = self.comma.join(self.equation(it) for it in query.conclusions)
        if query.word == "equation":
            return right
        said = "%s %s %s" % (left, self.entails, right) if left else "%s %s" % (self.entails, right)
        if query.word == "mixed" and query.sets != [designated, designated]:
            said += self.from_to(*query.sets)
        return said

    def equation(self, pair):
        return "%s %s %s" % (self.formula(pair[0]), self.equals, self.formula(pair[1]))

    def from_to(self, premises, conclusions):
        return self.note("premises in %s, conclusions in %s" % (self.set(premises), self.set(conclusions)))

    def note(self, text):
        return " (%s)" % text

    # Rules as figures.

    def premises(self, rule):
        """The premises of a rule, each a context with signed places."""
        primes = (self.prime * i for i in range(len(rule.clauses)))
        return [self.comma.join([self.context, *self.places(rule, it, primes)]) for it in rule.clauses]

    def places(self, rule, clause, primes):
        """What a premise has besides the context: eigenvariables, and for each `some` set a term of its own."""
        if rule.kind == "operator":
            return [self.signed(self.letters[int(place) - 1], values) for place, values in clause]
        variables = iter(self.eigenvariables)
        terms = [next(variables) if word == "all" else self.instance + next(primes) for word, _ in clause]
        return [self.signed("%s(%s)" % (self.letters[0], it), values) for it, (_, values) in zip(terms, clause)]

    def conclusion(self, rule):
        arguments = [texts.Formula("atom", letter, [], None) for letter in "ABCD"[: int(rule.arity or 1)]]
        if rule.kind == "operator":
            head = texts.Formula("operator", rule.name, arguments, None)
        else:
            body = texts.Formula("atom", "A", [texts.Term("X", None)], None)
            head = texts.Formula("quantifier", rule.name, [body], "X")
        return self.comma.join([self.context, self.signed(self.formula(head, True), rule.sign)])

    context, letters, eigenvariables, instance, prime = "G", "ABCD", "abcdefghijklmnop", "t", "'"

    def reason(self, line, rules):
        """The reason of a line in words."""
        if line.word != "rule":
            return {"axiom": "axiom", "pending": "pending"}.get(line.word) or "resolve on " + self.formula(line.on)
        at = int(line.by)
        if not 0 < at <= len(rules):
            return "rule %s" % line.by
        terms = "; ".join(self.comma.join(self.term(it) for it in found) for _, found in line.cited if found)
        said = "rule %s, %s at %s" % (line.by, self.name(rules[at - 1].name), self.sign(rules[at - 1].sign))
        return said + (" with " + terms if terms else "")


class View:
    """A kind of document of a report. Each has a style of its own for formulas."""

    style = Style

    def __init__(self, report, name, spec):
        self.report, self.name, self.spec = report, name, spec
        self.write = self.style(report.logic.values)

    def said_of(self, claim):
        """The query or the sequent of a claim."""
        if claim.query is None:
            return self.write.sequent(claim.sequent)
        return self.write.query(claim.query, self.report.logic.designated)

    def values_of(self, claim):
        """The subformulas of a refuted query, each with its value, as far as it is known."""
        values = {plain(atom): value for atom, value in claim.evidence}
        found = [(it, value(self.report, it, values)) for it in subformulas(formulas_of(claim.query))]
        return [(it, taken) for it, taken in found if taken is not None]

    def judge(self):
        """The words of the command that judges the report."""
        return "./multlog check %s %s" % (self.spec or "SPEC", self.name)
