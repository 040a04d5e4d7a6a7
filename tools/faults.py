"""What is told of a fault: which of its sentences fits, what is filled in, and where the marks stand.

A `SpecCase` is a fault of a specification and an `InputCase` one of a file of queries, of rules or of a report. For
each number of a fault there is a method `fault_N` that looks at the file around the place, where there is more to tell
than the token that stands there.
"""

import difflib
import re

import texts

MARKS = {"⊢": "`|-`", "⊨": "`|-`", "→": "the operator, as in `imp(p,q)`", "∧": "the operator, as in `and(p,q)`"}


def show(token):
    """How a token stands in a sentence."""
    return "the end" if token.kind == "end" else {"Quoted": "'%s'", "Text": '"%s"'}.get(token.kind, "%s") % token.says


def near(word, words):
    """A question that names the word that is nearest, or nothing."""
    same = [it for it in words if it != word and it.lower() == word.lower()]
    found = same or difflib.get_close_matches(word, words, 1, 0.6)
    return " Did you mean %s?" % found[0] if found else ""


def listed(names):
    return ", ".join(names) if names else "none"


class Case:
    """What is told of a fault: which of its sentences, what is filled in, and where the marks stand."""

    def __init__(self, data, number, offset, kept, spec):
        self.data, self.number, self.kept, self.spec = data, number, kept, spec
        self.which, self.said = "", {"kept": kept or "", "near": "", "known": ""}
        self.first, self.last = offset, offset + 1

    def be(self, which="", /, **said):
        """Settles the case of the sentence, and what is filled in."""
        self.which = which
        self.said.update(said)

    def tokens_around(self):
        """The tokens of the file, or of the text of an ordering that has the place in it, and the place among them."""
        found = texts.tokens(self.data)
        for token in found:
            if token.kind == "Text" and token.start < self.first < token.end:
                found = texts.tokens(self.data, token.start + 1, token.end - 1)
        at = next((i for i, it in enumerate(found) if it.start >= self.first), len(found) - 1)
        return found, at

    def line_of(self, token):
        return str(self.data.count(b"\n", 0, token.start) + 1)

    def mark(self, token):
        """Puts the marks below a token."""
        self.first, self.last = token.start, max(token.end, token.start + 1)

    def find(self):
        """Settles all: what the token at the place gives, and then what the method of the number finds."""
        found, at = self.tokens_around()
        token = found[at]
        if token.start == self.first:
            self.mark(token)
        self.be(found=show(token), name=token.says)
        getattr(self, "fault_%s" % self.number, lambda *_: None)(found, at, token)

    def of_tokens(self, in_name):
        """Of a byte that begins no token."""
        text = self.data[self.first :].decode("utf-8", "replace")
        byte = self.data[self.first : self.first + 1]
        if byte == b"'":
            return self.be("empty name")
        if text[:1] in "`‘’“”„´«»":
            self.last = self.first + len(text[:1].encode())
            return self.be("quote", found=text[0])
        if in_name and byte in (b"\n", b"\r"):
            self.first = self.data.rfind(b"'", 0, self.first)
            self.last = self.first + 1
            return self.be("open name")
        if byte >= b"\x80":
            self.last = self.first + len(text[:1].encode()) if text[0] != "\ufffd" else self.first + 1
            return self.be("in a name" if in_name else "character", found=text[0])
        return self.be("", byte="%d" % byte[0] if byte else "")

    def bad_byte(self):
        before = texts.tokens(self.data, 0, self.first)[-2:-1]
        opened = self.data.rfind(b"'", before[0].end if before else 0, self.first)
        self.of_tokens(in_name=opened >= 0)

    def open_quote(self):
        self.be("comment" if self.data[self.first : self.first + 2] == b"/*" else "")

    def several(self, found, at, marks):
        """The text of the tokens beside each other around a place, where it is none of a single token."""
        fits = lambda it: it.kind in ("Lower", "Upper", "Digits", "Symbol") or (it.kind == "Punct" and it.says in marks)
        left, right = at, at
        while left and fits(found[left - 1]) and found[left - 1].end == found[left].start:
            left -= 1
        while right + 1 < len(found) and fits(found[right + 1]) and found[right + 1].start == found[right].end:
            right += 1
        while right > left and found[right].says == ".":
            right -= 1
        if left == right or not fits(found[at]) or at > right:
            return ""
        self.first, self.last = found[left].start, found[right].end
        return self.data[self.first : self.last].decode("latin-1")


class SpecCase(Case):
    """A fault of a specification."""

    def __init__(self, *given):
        super().__init__(*given)
        reader = texts.SpecReader(self.data)
        self.stopped = None
        try:
            reader.read()
        except texts.Stop as stop:
            self.stopped = stop
        self.open, self.tokens = reader.open, reader.tokens
        self.statements = reader.statements
        self.logic = texts.logic_of(self.statements)
        self.said["count"] = str(len(self.logic.values))
        self.said["values"] = listed(self.logic.values)

    def statement(self):
        """The statement that has the place of the fault in it."""
        return [it for it in self.statements if it.word.start <= self.first][-1]

    def fault_1(self, *_):
        self.bad_byte()

    def fault_2(self, *_):
        self.open_quote()

    def fault_3(self, found, at, token):
        stop = self.stopped
        before = found[at - 1] if at else token
        if not stop or self.tokens[stop.at].start != self.first:
            return self.in_order(found, at, token)
        statement = self.statements[-1] if self.statements else None
        context, is_value = stop.context, stop.context in ("value", "set", "row", "colon", "cell")
        self.be(expected=stop.wanted, near="")
        if token.kind == "end":
            return self.be("end", expected=self.missing(stop))
        if context == "statement":
            return self.be("statement", near=near(token.says, texts.STATEMENTS))
        if token.kind == "Lower" and token.says in texts.STATEMENTS and before.says in ")]}":
            return self.be("full stop")
        if context == "colon" and set(token.says) <= set("=->|:,;"):
            return self.be("colon")
        marks = "/." if is_value else ""
        joined = self.several(found, at, marks) if is_value or context in ("arity", "ordering comma") else ""
        if joined and not (context == "arity" and "/" in marks):
            return self.be("several tokens", name=joined)
        self.mark(token)
        if token.kind == "Upper" and context.endswith(" name"):
            return self.be("capital")
        if token.kind == "Text" and (is_value or context.endswith(" name")):
            return self.be("text")
        if context == "arity" and token.says == ",":
            return self.be("no arity", name=statement.name.says)
        if context == "quantifier comma" and token.says == "/":
            return self.be("quantifier arity")
        if context == "order quotes":
            return self.be("order quotes")
        if context in ("operator body", "quantifier body"):
            words = ["mapping", "table", "inf", "sup"] if context[0] == "o" else ["mapping", "induced_by", "inf", "sup"]
            return self.be(context, near=near(token.says, words))
        if context in ("row", "colon", "set") and statement.parts.get("arity", token).says == "0":
            return self.be("nullary")
        return self.in_list(context, before, token)

    def in_list(self, context, before, token):
        close = self.open[-1] if self.open else ""
        if before.says == "," and token.says in (")", "]", "}"):
            return self.be("last comma")
        if context in ("set", "row") and (token.kind in texts.VALUE or token.says in ("(", "{")):
            return self.be("comma")
        if token.kind == "Punct" and token.says in (")", "]", "}", ".") and close and token.says != close:
            return self.be("bracket", close=close)
        return None

    def missing(self, stop):
        closing = "".join(reversed(self.open))
        return "`%s.`" % closing if closing and stop.context in ("set", "row", "cell", "bracket") else stop.wanted

    def in_order(self, found, at, token):
        """A token of an ordering's text that can't stand there."""
        joined = self.several(found, at, "/.") if token.kind != "end" and "<" not in token.says else ""
        if joined:
            return self.be("several tokens", name=joined)
        if token.kind == "end":
            return self.be("order text", found="the end of the text")
        self.mark(token)
        return self.be("order text")

    def fault_4(self, *_):
        pass

    def fault_5(self, *_):
        there = [it.word.says for it in self.statements]
        lacking = [it for it in ("truth_values", "designated_truth_values") if it not in there]
        self.be(name=lacking[0] if lacking else "truth_values")

    def fault_9(self, _, __, token):
        self.said["near"] = near(token.says, self.logic.values)

    def fault_10(self, _, __, token):
        earlier = [it.name for it in self.statements if it.name and it.name.says == token.says]
        self.said["first"] = self.line_of(earlier[0]) if earlier else ""

    def fault_11(self, *_):
        statement = self.statement()
        self.said.update(name=statement.name.says, arity=statement.parts["arity"].says)
        if int(self.said["arity"]) <= 4:
            self.be("rows")

    def row_at(self, token):
        statement = self.statement()
        rows = statement.parts.get("rows", [])
        at = next((i for i, row in enumerate(rows) if row[0].start == token.start), None)
        return statement, rows, at

    def fault_13(self, _, __, token):
        statement, rows, at = self.row_at(token)
        self.mark_row(rows, at)
        arity = statement.parts["arity"].says
        self.be(have=str(len(rows[at][1])) if at is not None else "other", arity=arity, near="")
        self.said["name"] = statement.name.says
        if arity == "0":
            self.be("nullary")

    def mark_row(self, rows, at):
        if at is not None:
            self.first, self.last = rows[at][0].start, rows[at][2].end

    def twice(self, token, brackets):
        """Of a row that an earlier one has."""
        _, rows, at = self.row_at(token)
        said = [it.says for it in rows[at][1]] if at is not None else []
        key = (lambda row: {it.says for it in row[1]}) if brackets == "{}" else (lambda row: [it.says for it in row[1]])
        first = next((row for row in rows if at is not None and key(row) == key(rows[at])), None)
        self.mark_row(rows, at)
        self.said.update(row=brackets[0] + ",".join(said) + brackets[1], first=self.line_of(first[0]) if first else "")

    def fault_14(self, _, __, token):
        self.twice(token, "()")

    def fault_24(self, _, __, token):
        self.twice(token, "{}")

    def fault_15(self, *_):
        statement = self.statement()
        self.said["name"] = statement.name.says
        self.last = self.first + 1

    fault_25 = fault_15

    def fault_16(self, *_):
        statement = self.statement()
        count, arity = len(self.logic.values), statement.parts["arity"].says
        self.said.update(name=statement.name.says, arity=arity)
        cells = statement.parts.get("cells")
        if cells is None or int(arity) != 2:
            return
        have, want = len(cells), count * count + 2 * count
        others = {want - count: "header" if self.starts_lines(cells, count) else "headings", count * count: "results"}
        self.be(others.get(have, "cells"), have=str(have), want=str(want))

    @staticmethod
    def starts_lines(cells, count):
        """Whether the cells are lines of a heading and results: their first ones are all the truth values."""
        return len({it.says for it in cells[:: count + 1]}) == count

    def fault_18(self, _, __, token):
        orderings = self.logic.orderings
        none = 'The file has none: write one, as `ordering(%s, "f < t").`' % token.says
        self.said["known"] = "There are: %s." % listed(orderings) if orderings else none
        self.said["near"] = near(token.says, orderings)

    def fault_20(self, _, __, token):
        self.said["bound"] = "greatest lower bound" if token.says == "inf" else "least upper bound"

    def fault_21(self, _, __, token):
        self.said["near"] = near(token.says, [it for it, arity in self.logic.operators.items() if arity == 2])

    def fault_22(self, *_):
        law, _, values = (self.kept or "").partition(" ")
        self.be(law, kept=values, first=values.strip("()"))


class InputCase(Case):
    """A fault of a file of queries, of rules or of a report."""

    def __init__(self, *given):
        super().__init__(*given)
        self.is_told = self.spec is not None
        self.logic = texts.read_logic(self.spec or b"")
        self.said["values"] = listed(self.logic.values)
        self.reader = texts.InputReader(self.data, self.logic)
        first = self.reader.next
        self.kind = {"report": "report", "rule": "rules"}.get(first.says, "queries")
        self.stopped = None
        try:
            getattr(self.reader, self.kind)()
        except texts.Stop as stop:
            self.stopped = stop

    def fault_2(self, *_):
        self.bad_byte()
        mark = MARKS.get(self.said.get("found", ""))
        if mark:
            self.said["found"] += ", for which %s is written," % mark

    def fault_3(self, *_):
        self.open_quote()

    def example(self, name):
        """A formula with the operator of this name, or with one of two arguments where there is none."""
        operators = self.logic.operators
        if not operators.get(name):
            two = [it for it, arity in operators.items() if arity == 2] or ["imp"]
            name = "imp" if "imp" in two else two[-1]
        arguments = ",".join("pqrs"[: operators.get(name, 2)])
        return "%s(%s)" % (name if re.fullmatch(r"[a-z]\w*", name) else "'%s'" % name, arguments)

    def fault_4(self, found, at, token):
        stop, reader = self.stopped, self.reader
        is_known = stop and reader.tokens[stop.at].start == self.first
        context, inside = (stop.context, reader.inside) if is_known else ("", None)
        before = found[at - 1] if at else token
        self.be(expected=stop.wanted if is_known else "something else")
        if token.kind == "end":
            if self.kind == "report" and context == "end":
                return self.be("no end")
            return self.be("turnstile" if context == "turnstile" else "end")
        if self.logic.operators.get(before.says) and token.says != "(" and context != "arity":
            return self.be("arguments", name=before.says, example=self.example(before.says))
        if context == "report" or (at == 0 and token.says in ("rule", "line", "claim", "end")):
            return self.be("no report")
        if context == "query" and token.says not in ("(",):
            return self.be("no query", near=near(token.says, texts.QUERIES))
        if context == "full stop" and inside == "entail" and token.says == ",":
            return self.be("one conclusion")
        if token.kind == "Symbol" and self.is_infix(context, token.says):
            return self.be("infix", example=self.example(token.says))
        if context == "turnstile":
            return self.be("turnstile")
        if token.kind == "Upper" and context in ("formula", "formulas"):
            return self.be("capital")
        if token.says == "(" and context in ("formula", "formulas"):
            return self.be("bracket first", example=self.example(""))
        if before.says == "," and token.says in (")", "]", "}", ".", "|-"):
            return self.be("last comma")
        if context == "full stop" and token.says in texts.QUERIES + ["rule", "line", "claim", "end"]:
            return self.be("full stop")
        if re.fullmatch(r"0\d+", token.says) and context in ("number", "literal"):
            return self.be("zero", name=token.says.lstrip("0") or "0")
        if self.kind == "report" and context == "end":
            return self.be("", expected="a rule, a line or a claim, in this order, or `end.`")
        return None

    @staticmethod
    def is_infix(context, says):
        """Whether a mark is written where a formula begins or may go on, and is no turnstile and no `^`."""
        if context in ("formula", "formulas", "arguments", "full stop", "equals", "sign", "reason"):
            return says not in ("|-", "^")
        return context == "turnstile" and "|" not in says

    def fault_5(self, found, at, token):
        names = list(self.logic.operators) + self.logic.quantifiers
        before = found[at - 1].says if at else ""
        if before in ("operator", "quantifier"):
            names = list(self.logic.operators) if before == "operator" else self.logic.quantifiers
            self.be("head", kind=before)
            self.said["known"] = "There are: %s." % listed(names) if self.is_told else ""
        self.said["near"] = near(token.says, names)

    def fault_6(self, found, at, token):
        before, operators = found[at - 1], self.logic.operators
        if before.says == "/" and token.kind == "Digits":
            name = found[at - 2].says
            return self.be("head", name=name, arity=str(operators.get(name, "other")))
        is_alone = operators.get(before.says, 0) > 0 or token.says == "("
        name = before.says if is_alone else self.around(found, at)
        if name in operators:
            self.be("arity", name=name, arity=str(operators[name]))
        return None

    @staticmethod
    def around(found, at):
        """The name before the bracket that is open at a place."""
        depth = 0
        for i in range(at - 1, 0, -1):
            if found[i].kind == "Punct":
                depth += {")": 1, "(": -1}.get(found[i].says, 0)
            if depth < 0:
                return found[i - 1].says
        return ""

    def fault_10(self, _, __, token):
        if not self.is_told:
            self.said["values"] = "those of the specification"
        self.said["near"] = near(token.says, self.logic.values)

    def fault_11(self, found, at, token):
        heads = [it.says for i, it in enumerate(found[:at]) if i and found[i - 1].says == "operator"]
        arity = self.logic.operators.get(heads[-1], 0) if heads else 0
        self.said["arity"] = str(arity) if arity else "the operator's arity"
        if token.says != "0" and arity and int(token.says) <= arity:
            self.be("rising", name=token.says)

    def fault_12(self, found, at, _):
        heads = [it for i, it in enumerate(found[:at]) if it.says == "rule" and found[i + 1].kind == "Digits"]
        self.said["wanted"] = str(len(heads))
