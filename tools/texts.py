"""The texts of multlog, read as far as the tools want it: tokens, specifications, rules, formulas, queries, reports.

Nothing here judges a text; what the program says of it counts. A reader stops at the first token with which a text
doesn't go on, and tells where it was: `Stop` has the context, as `operator body`, and what is wanted there.
"""

import re
from typing import NamedTuple

TOKEN = re.compile(
    rb"""(?P<blank>[ \t\r\n]+|%[^\n]*|/\*.*?\*/)|'(?P<Quoted>[ -&(-~]+)'|"(?P<Text>[^"]*)"|(?P<Lower>[a-z]\w*)"""
    rb"""|(?P<Upper>[A-Z_]\w*)|(?P<Digits>[0-9]\w*)|(?P<Symbol>[*+\-#&@~^?!$<=>|\\]+)|(?P<Punct>[(){}\[\],.:;/])""",
    re.S | re.A,
)
PAIRS = {"(": ")", "{": "}", "[": "]"}
STATEMENTS = ["logic", "truth_values", "designated_truth_values", "ordering", "operator", "quantifier"]
QUERIES = ["entail", "mixed", "equation", "quasi"]
NAME, VALUE = ("Lower", "Quoted", "Symbol"), ("Lower", "Upper", "Digits", "Quoted", "Symbol")


class Token(NamedTuple):
    """A token: its kind, what it says, and the bytes where it stands. That at the end has the kind `end`."""

    kind: str
    says: str
    start: int
    end: int


class Stop(Exception):
    """The first token with which a text doesn't go on, as its place among the tokens."""

    def __init__(self, at, context, wanted):
        super().__init__(context)
        self.at, self.context, self.wanted = at, context, wanted


def tokens(data, first=0, last=None):
    """The tokens of the bytes between two offsets, as far as they divide into tokens, and one for the end."""
    found, at, last = [], first, len(data) if last is None else last
    while at < last:
        match = TOKEN.match(data, at, last)
        if not match or (data[at : at + 2] == b"/*" and match.lastgroup == "Punct"):
            break
        if match.lastgroup != "blank":
            says = match[match.lastgroup].decode("latin-1")
            found.append(Token(match.lastgroup, says, match.start(), match.end()))
        at = match.end()
    return found + [Token("end", "", last, last)]


class Reader:
    """Reads tokens from the left."""

    def __init__(self, data, first=0, last=None):
        self.tokens, self.at, self.open = tokens(data, first, last), 0, []

    @property
    def next(self):
        return self.tokens[self.at]

    def stop(self, context, wanted):
        raise Stop(self.at, context, wanted)

    def is_mark(self, *marks):
        return self.next.kind in ("Punct", "Symbol") and self.next.says in marks

    def is_word(self, *words):
        return self.next.kind == "Lower" and self.next.says in words

    def take(self):
        token = self.next
        self.at += 1
        if token.kind == "Punct" and token.says in PAIRS:
            self.open.append(PAIRS[token.says])
        elif self.open and token.kind == "Punct" and token.says == self.open[-1]:
            self.open.pop()
        return token

    def mark(self, context, *marks):
        if not self.is_mark(*marks):
            self.stop(context, " or ".join("`%s`" % mark for mark in marks))
        return self.take()

    def word(self, context, *words):
        if not self.is_word(*words):
            self.stop(context, " or ".join("`%s`" % word for word in words))
        return self.take()

    def kind(self, context, wanted, *kinds):
        if self.next.kind not in kinds:
            self.stop(context, wanted)
        return self.take()

    def listed(self, context, item, close, empty=False):
        """Items with commas between them, as far as the closing bracket, which is taken."""
        found = []
        if not (empty and self.is_mark(close)):
            found.append(item())
            while self.is_mark(","):
                self.take()
                found.append(item())
        return found, self.mark(context, ",", close) if not self.is_mark(close) else self.take()


class Statement(NamedTuple):
    """A statement: its word, the name that it gives, and its parts by their names."""

    word: Token
    name: Token
    parts: dict


class SpecReader(Reader):
    """Reads a specification; `statements` are those that were read, the last one maybe in part."""

    def __init__(self, data):
        super().__init__(data)
        self.statements = []

    def read(self):
        while self.next.kind != "end":
            word = self.word_of_statement()
            self.statements.append(Statement(word, None, {}))
            getattr(self, "read_" + word.says)(self.statements[-1].parts)
            self.mark("full stop", ".")

    def word_of_statement(self):
        if not self.is_word(*STATEMENTS):
            self.stop("statement", "the word of a statement")
        return self.take()

    def name(self, context):
        token = self.kind(context, "a name", *NAME)
        self.statements[-1] = self.statements[-1]._replace(name=token)
        return token

    def value(self, context="value"):
        return self.kind(context, "a truth value", *VALUE)

    def values(self, empty=True):
        """A set of values in brackets of one of both kinds."""
        opened = self.mark("opening", "{", "[")
        return self.listed("set", self.value, PAIRS[opened.says], empty)[0]

    def read_logic(self, parts):
        parts["says"] = self.kind("logic name", "a name or a text", "Text", "Lower", "Upper", "Quoted")

    def read_truth_values(self, parts):
        parts["values"] = self.values()

    read_designated_truth_values = read_truth_values

    def read_ordering(self, parts):
        self.mark("bracket", "(")
        self.name("ordering name")
        self.mark("ordering comma", ",")
        parts["text"] = self.kind("order quotes", "a text in double quotes", "Text")
        self.mark("bracket", ")")

    def read_operator(self, parts):
        self.mark("bracket", "(")
        self.name("operator name")
        self.mark("arity", "/")
        parts["arity"] = self.kind("arity", "the number of arguments", "Digits")
        self.mark("operator comma", ",")
        body = parts["body"] = self.word("operator body", "mapping", "table", "inf", "sup")
        if body.says == "mapping":
            self.read_rows(parts, self.row)
        elif body.says == "table":
            self.read_cells(parts)
        else:
            self.read_bound(parts)
        self.mark("bracket", ")")

    def read_quantifier(self, parts):
        self.mark("bracket", "(")
        self.name("quantifier name")
        self.mark("quantifier comma", ",")
        body = parts["body"] = self.word("quantifier body", "mapping", "induced_by", "inf", "sup")
        if body.says == "mapping":
            self.read_rows(parts, self.set_row)
        elif body.says == "induced_by":
            has_bracket = self.is_mark("(") and self.take()
            parts["of"] = self.kind("operator name", "an operator's name", *NAME)
            self.mark("arity", "/")
            self.kind("arity", "the number of arguments", "Digits")
            if has_bracket:
                self.mark("bracket", ")")
        else:
            self.read_bound(parts)
        self.mark("bracket", ")")

    def read_bound(self, parts):
        self.mark("bracket", "(")
        parts["of"] = self.kind("ordering name", "an ordering's name", *NAME)
        self.mark("bracket", ")")

    def read_rows(self, parts, row):
        opened = self.mark("opening", "{", "[")
        parts["rows"] = []
        _, parts["close"] = self.listed("row", lambda: parts["rows"].append(row()), PAIRS[opened.says], empty=True)

    def row(self):
        """A row of an operator: its first token, its arguments and its value."""
        first = self.next
        if self.is_mark("("):
            self.take()
            arguments, _ = self.listed("set", self.value, ")", empty=True)
        else:
            arguments = [self.value("row")]
        self.mark("colon", ":")
        return first, arguments, self.value()

    def set_row(self):
        """A row of a quantifier: its first token, its set and its value."""
        first = self.next
        values = self.values()
        self.mark("colon", ":")
        return first, values, self.value()

    def read_cells(self, parts):
        opened = self.mark("opening", "[", "{")
        close = PAIRS[opened.says]
        parts["cells"] = cells = []
        while not self.is_mark(close):
            if cells and self.is_mark(","):
                self.take()
            cells.append(self.value("cell"))
        self.take()


class Logic(NamedTuple):
    """What is said of names: the truth values, the operators with their arities, the quantifiers, the orderings."""

    values: list
    designated: list
    operators: dict
    quantifiers: list
    orderings: list


def logic_of(statements):
    """The logic that statements speak of, without the tables. Of what stands twice the last counts."""
    values, designated, operators, quantifiers, orderings = [], [], {}, [], []
    for word, name, parts in statements:
        if word.says == "truth_values":
            values = [token.says for token in parts.get("values", [])]
        elif word.says == "designated_truth_values":
            designated = [token.says for token in parts.get("values", [])]
        elif word.says == "operator" and "arity" in parts:
            operators[name.says] = int(parts["arity"].says) if parts["arity"].says.isdigit() else 0
        elif word.says == "quantifier" and name:
            quantifiers.append(name.says)
        elif word.says == "ordering" and name:
            orderings.append(name.says)
    return Logic(values, designated, operators, quantifiers, orderings)


def read_logic(data):
    """The logic of a specification's bytes, as far as they can be read."""
    reader = SpecReader(data)
    try:
        reader.read()
    except Stop:
        pass
    return logic_of(reader.statements)


class Term(NamedTuple):
    """A variable, where there are no arguments but None, or a function or constant with arguments."""

    name: str
    arguments: list


class Formula(NamedTuple):
    """An atom, an operator or a quantifier: its kind, its name, its arguments, and the variable of a quantifier."""

    kind: str
    name: str
    arguments: list
    variable: str


class Rule(NamedTuple):
    """A rule: its number, the kind and the name of its head, its sign, and its clauses as lists of places and sets."""

    number: str
    kind: str
    name: str
    arity: str
    sign: list
    clauses: list


class Query(NamedTuple):
    """A query: its word, the sets of a mixed entailment, and its formulas or equations on both sides."""

    word: str
    sets: list
    premises: list
    conclusions: list


class Line(NamedTuple):
    """A line: its number, its sequent, and its reason: a word, what it is by or on, and the cited lines with terms."""

    number: str
    sequent: list
    word: str
    by: str
    on: Formula
    cited: list


class Claim(NamedTuple):
    """A claim: its number, its query or its sequent, its word, and the cited lines or the valuation."""

    number: str
    query: Query
    sequent: list
    word: str
    evidence: list


class InputReader(Reader):
    """Reads formulas, queries, rules and reports, with the names of a logic."""

    def __init__(self, data, logic):
        super().__init__(data)
        self.logic = logic
        self.inside = None

    # Formulas and terms.

    def formula(self, context="formula"):
        token = self.kind(context, "a formula", "Lower", "Quoted")
        if token.says in self.logic.quantifiers:
            self.mark("quantifier", "(")
            variable = self.kind("variable", "a variable", "Upper").says
            self.mark("quantifier", ",")
            body = self.formula()
            self.mark("arguments", ")")
            return Formula("quantifier", token.says, [body], variable)
        if token.says in self.logic.operators:
            return Formula("operator", token.says, self.arguments(self.formula), None)
        return Formula("atom", token.says, self.arguments(self.term), None)

    def arguments(self, item):
        if not self.is_mark("("):
            return []
        self.take()
        return self.listed("arguments", item, ")")[0]

    def term(self):
        token = self.kind("term", "a term", "Upper", "Lower")
        return Term(token.says, None if token.kind == "Upper" else self.arguments(self.term))

    def formulas(self, *ends):
        found = []
        if not self.is_mark(*ends):
            found.append(self.formula("formulas"))
            while self.is_mark(","):
                self.take()
                found.append(self.formula())
        return found

    # Queries.

    def queries(self):
        found = []
        while self.next.kind != "end":
            found.append(self.query())
            self.mark("full stop", ".")
        return found

    def query(self):
        if not self.is_word(*QUERIES):
            self.stop("query", "the word of a query")
        word = self.inside = self.take().says
        if word == "entail":
            premises = self.formulas("|-")
            self.mark("turnstile", "|-")
            return Query(word, [], premises, [self.formula()])
        if word == "mixed":
            sets = [self.values(empty=True)]
            self.mark("sets", ",")
            sets.append(self.values(empty=True))
            self.mark("sets", ":")
            premises = self.formulas("|-")
            self.mark("turnstile", "|-")
            return Query(word, sets, premises, self.conclusions())
        if word == "equation":
            return Query(word, [], [], [self.equation()])
        premises = []
        if not self.is_mark("|-"):
            premises.append(self.equation())
            while self.is_mark(","):
                self.take()
                premises.append(self.equation())
        self.mark("turnstile", "|-")
        return Query(word, [], premises, [self.equation()])

    def conclusions(self):
        found = [self.formula()]
        while self.is_mark(","):
            self.take()
            found.append(self.formula())
        return found

    def equation(self):
        left = self.formula()
        self.mark("equals", "=")
        return left, self.formula()

    def values(self, empty=False):
        self.mark("set", "{")
        value = lambda: self.kind("value", "a truth value", *VALUE).says
        return self.listed("set", value, "}", empty)[0]

    # Rules.

    def number(self, context="number"):
        token = self.kind(context, "a number", "Digits")
        if not token.says.isdigit() or (token.says[0] == "0" and token.says != "0"):
            self.at -= 1
            self.stop(context, "a number")
        return token.says

    def rules(self):
        found = []
        while self.next.kind != "end":
            found.append(self.rule())
        return found

    def rule(self):
        self.word("rule", "rule")
        self.inside = "rule"
        number = self.number()
        self.mark("rule", ":")
        kind = self.word("head", "operator", "quantifier").says
        name = self.kind("head name", "a name", "Lower", "Quoted").says
        arity = None
        if kind == "operator":
            self.mark("arity", "/")
            arity = self.number()
        self.word("rule", "at")
        sign = self.values()
        self.mark("rule", ":")
        self.mark("rule", "[")
        clauses = []
        if not self.is_mark("]"):
            clauses.append(self.clause(kind))
            while self.is_mark(";"):
                self.take()
                clauses.append(self.clause(kind))
        self.mark("clause", ";", ",", "]") if not self.is_mark("]") else self.take()
        self.mark("full stop", ".")
        return Rule(number, kind, name, arity, sign, clauses)

    def clause(self, kind):
        if self.next.kind == "Digits" and self.next.says == "0":
            self.take()
            return []
        found = [self.literal(kind)]
        while self.is_mark(","):
            self.take()
            found.append(self.literal(kind))
        return found

    def literal(self, kind):
        if kind == "quantifier":
            return self.word("literal", "all", "some").says, self.values()
        place = self.number("literal")
        self.mark("literal", "^")
        return place, self.values()

    # Reports.

    def report(self):
        self.word("report", "report")
        if self.next.says != "1":
            self.stop("report", "`1`")
        self.take()
        self.mark("report", ".")
        rules, lines, claims = [], [], []
        while self.is_word("rule"):
            rules.append(self.rule())
        while self.is_word("line"):
            lines.append(self.line())
        while self.is_word("claim"):
            claims.append(self.claim())
        self.inside = None
        self.word("end", "end")
        self.mark("full stop", ".")
        if self.next.kind != "end":
            self.stop("behind", "the end of the file")
        return rules, lines, claims

    def sequent(self):
        found = [self.item()]
        while self.is_mark(","):
            self.take()
            found.append(self.item())
        return found

    def item(self):
        formula = self.formula()
        self.mark("sign", "^")
        return formula, self.values()

    def line(self):
        self.take()
        self.inside = "line"
        number = self.number()
        self.mark("line", ":")
        sequent = self.sequent()
        self.word("reason", "by")
        word = self.word("reason", "axiom", "pending", "rule", "resolve").says
        by, on, cited = None, None, []
        if word == "rule":
            by = self.number()
        if word in ("rule", "resolve"):
            self.word("reason", "on")
            on = self.formula()
            if word == "resolve" or self.is_word("from"):
                self.word("reason", "from")
                cited.append(self.cited())
                while self.is_mark(","):
                    self.take()
                    cited.append(self.cited())
        self.mark("full stop", ".")
        return Line(number, sequent, word, by, on, cited)

    def cited(self):
        number = self.number()
        if not self.is_mark("["):
            return number, []
        self.take()
        return number, self.listed("cited", self.term, "]")[0]

    def claim(self):
        self.take()
        self.inside = "claim"
        number = self.number()
        self.mark("claim", ":")
        behind = self.tokens[min(self.at + 1, len(self.tokens) - 1)]
        is_query = self.is_word(*QUERIES) and behind.says not in ("^", "(")
        query, sequent = (self.query(), None) if is_query else (None, self.sequent())
        word = self.word("claim", *(["proved", "unfinished", "refuted"] if is_query else ["holds"])).says
        if word == "refuted":
            self.word("claim", "at")
            self.mark("claim", "{")
            evidence, _ = self.listed("valuation", self.entry, "}", empty=True)
        else:
            self.word("claim", "by")
            evidence = [self.number()]
            while self.is_mark(","):
                self.take()
                evidence.append(self.number())
        self.mark("full stop", ".")
        return Claim(number, query, sequent, word, evidence)

    def entry(self):
        atom = self.formula()
        self.mark("valuation", ":")
        return atom, self.kind("value", "a truth value", *VALUE).says
