"""Reports as one page of HTML, without scripts and without files from elsewhere."""

import html

import reports

STYLE = """
body { font: 16px/1.5 serif; max-width: 76em; margin: 2em auto; padding: 0 1em; color: #222; background: #fff }
h1 { font-size: 1.5em } h2 { font-size: 1.2em; margin-top: 2em; border-bottom: 1px solid #ccc }
h3 { font-size: 1.05em; margin: 1.5em 0 .4em }
p.unproved { border-left: 4px solid #b60; background: #fff6e8; padding: .5em 1em }
code { font-size: .9em }
sup { font-size: .68em; color: #345; margin-left: .1em }
.claims td { padding: .15em 1em .15em 0 }
.proved, .holds { color: #070 } .refuted { color: #a00 } .unfinished, .pending { color: #b60 }
details { margin-left: 1.4em } details.goal { margin-left: 0 }
summary { cursor: pointer; margin-left: -1.1em }
.leaf { margin-left: 1.4em }
.no { color: #666; font-size: .85em; display: inline-block; min-width: 1.8em }
.why { color: #666; font-size: .85em; margin-left: 1em; white-space: nowrap }
table.values { border-collapse: collapse; margin: .5em 0 }
table.values th, table.values td { border: 1px solid #ccc; padding: .15em .8em; text-align: left; font-weight: normal }
table.values tr.asked { background: #f3f3f3 } table.values thead { background: #e8e8e8 }
.figures { display: flex; flex-wrap: wrap; gap: 1.2em 2.5em }
.figure { display: inline-block; text-align: center }
.figure .over { border-bottom: 1px solid #222; padding: 0 .5em .15em; min-height: 1.3em }
.figure .over span { margin: 0 .8em; white-space: nowrap } .figure .under { padding-top: .15em }
.lines td { padding: .05em 1em .05em 0; vertical-align: top }
"""


class Html(reports.Style):
    """Formulas with the usual marks, and signs above the line."""

    unary = {"neg": "¬", "box": "□", "diamond": "◇"}
    binary = {"and": "∧", "or": "∨", "imp": "→", "iff": "↔"}
    quantifiers = {"forall": "∀", "exists": "∃"}
    entails, context, without = "⊨", "Γ", "∖"
    letters, eigenvariables, instance, prime = "ABCD", "αβγδεζηθικλμ", "τ", "′"

    def name(self, text):
        return html.escape(text)

    def variable(self, text):
        return "<i>%s</i>" % html.escape(text)

    def set(self, values):
        return html.escape("{%s}" % ",".join(values))

    def signed(self, formula, values):
        return "%s<sup>%s</sup>" % (formula, self.sign(values))


# How deep a tree goes before a part of it stands by itself, and how far it is open at first.
DEEPEST, OPEN = 40, 3


class Page(reports.View):
    """A page of HTML."""

    style = Html

    def document(self):
        """The lines of the page."""
        title = "Report %s" % html.escape(self.name)
        yield "<!DOCTYPE html>"
        yield '<html lang="en"><head><meta charset="utf-8"><title>%s</title>' % title
        yield "<style>%s</style></head><body>" % STYLE
        yield "<h1>%s</h1>" % title
        yield from self.notice()
        yield "<h2>Claims</h2>"
        yield from self.claims()
        for at, claim in enumerate(self.report.claims, 1):
            yield from self.of_claim(at, claim)
        if self.report.rules:
            yield "<h2>Rules</h2>"
            yield from self.rules()
        if self.report.lines:
            yield "<h2>Lines</h2>"
            yield from self.lines()
        yield "</body></html>"

    def notice(self):
        said = " When the page was made it said: <code>%s</code>." % html.escape(self.report.verdict)
        yield '<p class="unproved">This page is a view, and isn\'t proved. Whether the report is right is judged by '
        yield "<code>%s</code>.%s</p>" % (html.escape(self.judge()), said if self.report.verdict else "")
        if self.write.is_short:
            yield "<p>V stands for all truth values, %s.</p>" % self.write.set(self.write.values)

    def claims(self):
        yield '<table class="claims">'
        for at, claim in enumerate(self.report.claims, 1):
            yield '<tr><td><a href="#claim-%d">%d</a></td><td>%s</td><td class="%s">%s</td></tr>' % (
                *(at, at, self.said_of(claim)),
                *(claim.word, claim.word),
            )
        yield "</table>"

    def of_claim(self, at, claim):
        yield '<h3 id="claim-%d">Claim %d: %s <span class="%s">%s</span></h3>' % (
            *(at, at, self.said_of(claim)),
            *(claim.word, claim.word),
        )
        if claim.word == "refuted":
            yield from self.valuation(claim)
            return
        seen = set()
        for number, position in enumerate(claim.evidence, 1):
            line = reports.line_at(self.report, position)
            if len(claim.evidence) > 1:
                yield "<p>Goal %d of %d:</p>" % (number, len(claim.evidence))
            if line is None:
                yield "<p>There is no line %s.</p>" % html.escape(position)
            else:
                yield from self.tree(at, int(position) - 1, seen)

    def valuation(self, claim):
        """The values of the query's subformulas under the valuation that refutes it."""
        asked = {reports.plain(it) for it in reports.formulas_of(claim.query)}
        yield '<table class="values"><thead><tr><th>formula</th><th>value</th></tr></thead>'
        for formula, value in self.values_of(claim):
            marked = ' class="asked"' if reports.plain(formula) in asked else ""
            yield "<tr%s><td>%s</td><td>%s</td></tr>" % (marked, self.write.formula(formula), html.escape(value))
        yield "</table>"
        if not self.report.calculus:
            yield "<p>With the specification, <code>tools/show REPORT SPEC</code>, compounds have their values.</p>"
        elif claim.query.word == "entail":
            yield "<p>Designated: %s.</p>" % self.write.set(self.report.logic.designated)

    def head(self, line, position):
        pending = ' class="pending"' if line.word == "pending" else ""
        return '<span class="no">%d</span><span%s>%s</span> <span class="why">%s</span>' % (
            (position, pending, self.write.sequent(line.sequent), self.write.reason(line, self.report.rules))
        )

    def tree(self, claim, root, seen):
        """A derivation as details within details. What was shown before in the claim is told by its number, and what
        stands too deep has a tree of its own below."""
        roots = [root]
        for each in roots:
            todo = [("line", each, 0)]
            while todo:
                what, at, depth = todo.pop()
                if what == "close":
                    yield "</details>"
                    continue
                if what == "absent":
                    yield '<div class="leaf">%d: no line before this one</div>' % at
                    continue
                line, cited = self.report.lines[at], reports.cited_by(self.report, at)
                if not cited:
                    yield '<div class="leaf">%s</div>' % self.head(line, at + 1)
                elif at in seen or depth >= DEEPEST:
                    if at not in seen and at not in roots:
                        roots.append(at)
                    yield self.again(claim, line, at, "above" if at in seen else "below")
                else:
                    seen.add(at)
                    yield '<details id="claim-%d-line-%d"%s><summary>%s</summary>' % (
                        (claim, at + 1, " open" if depth < OPEN else "", self.head(line, at + 1))
                    )
                    todo.append(("close", 0, 0))
                    todo += [("line" if ok else "absent", to - ok, depth + 1) for to, ok in reversed(cited)]

    def again(self, claim, line, at, where):
        link = '<a href="#claim-%d-line-%d">%d</a>' % (claim, at + 1, at + 1)
        return '<div class="leaf"><span class="no">%s</span>%s <span class="why">%s</span></div>' % (
            (link, self.write.sequent(line.sequent), where)
        )

    def rules(self):
        yield '<div class="figures">'
        for at, rule in enumerate(self.report.rules, 1):
            over = "".join("<span>%s</span>" % it for it in self.write.premises(rule))
            yield '<div><div class="figure"><div class="over">%s</div><div class="under">%s</div></div>' % (
                (over, self.write.conclusion(rule))
            )
            yield '<span class="why">rule %d</span></div>' % at
        yield "</div>"

    def lines(self):
        yield '<details><summary>all %d lines</summary><table class="lines">' % len(self.report.lines)
        for at, line in enumerate(self.report.lines, 1):
            cited = ", ".join(number + self.terms(of) for number, of in line.cited)
            reason = self.write.reason(line, self.report.rules) + (" from " + cited if cited else "")
            yield "<tr><td>%d</td><td>%s</td><td>%s</td></tr>" % (at, self.write.sequent(line.sequent), reason)
        yield "</table></details>"

    def terms(self, found):
        return "[%s]" % ", ".join(self.write.term(it) for it in found) if found else ""
