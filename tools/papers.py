"""Reports as a LaTeX document, with derivations as proof trees."""

import reports

HEAD = r"""\documentclass[a4paper,10pt]{article}
\usepackage[T1]{fontenc}
\usepackage{amsmath,amssymb,graphicx}
\usepackage[margin=2cm]{geometry}
\setlength{\parindent}{0pt}\setlength{\parskip}{1ex}
\newsavebox{\derivation}
% A formula as it is, or made smaller where it is wider than the page.
\newcommand{\inference}[1]{\sbox{\derivation}{$\displaystyle #1$}%
  \ifdim\wd\derivation>\linewidth\resizebox{\linewidth}{!}{\usebox{\derivation}}\else\usebox{\derivation}\fi}
\newcommand{\fitted}[1]{\inference{#1}\par}
\newcommand{\step}[3]{\dfrac{#1}{#2}\,{\scriptstyle #3}}
\newcommand{\word}[1]{\mathrm{#1}}
\begin{document}
"""
ESCAPES = {"\\": r"\backslash ", "_": r"\_", "&": r"\&", "%": r"\%", "$": r"\$", "#": r"\#", "{": r"\{", "}": r"\}"}
ESCAPES.update({"~": r"{\sim}", "^": r"{\wedge}", "-": "{-}", "'": "{'}"})
WIDE, DEEP = 110, 25


class Latex(reports.Style):
    """Formulas in math mode."""

    unary = {"neg": r"\neg ", "box": r"\Box ", "diamond": r"\Diamond "}
    binary = {"and": r"\wedge", "or": r"\vee", "imp": r"\rightarrow", "iff": r"\leftrightarrow"}
    quantifiers = {"forall": r"\forall ", "exists": r"\exists "}
    entails, comma, thin, context, without = r"\models", r",\, ", r"\,", r"\Gamma", r"\setminus"
    letters, instance = [r"\word{%s}" % it for it in "ABCD"], r"\tau"
    eigenvariables = [r"\alpha", r"\beta", r"\gamma", r"\delta"] + [r"\alpha_{%d}" % i for i in range(5, 13)]

    def name(self, text):
        return r"\word{%s}" % "".join(ESCAPES.get(it, it) for it in text)

    def variable(self, text):
        return r"\mathit{%s}" % "".join(ESCAPES.get(it, it) for it in text)

    def set(self, values):
        return r"\{%s\}" % ",".join(self.name(it) for it in values)

    def signed(self, formula, values):
        return "{%s}^{%s}" % (formula, self.sign(values))

    def note(self, text):
        return r"\quad\text{(%s)}" % text.replace(r"\{", r"$\{").replace(r"\}", r"\}$")


def width(sequent):
    """About how wide a sequent is, in letters."""
    return sum(len(reports.plain(formula)) + 4 + sum(map(len, values)) // 2 for formula, values in sequent)


def text(words):
    """Words outside of math."""
    marks = {**ESCAPES, "\\": r"\textbackslash{}", "~": r"\textasciitilde{}", "^": r"\textasciicircum{}"}
    marks.update({"/": r"/\allowbreak{}", "-": "-", "'": "'"})
    return "".join(marks.get(it, it) for it in words)


class Paper(reports.View):
    """A LaTeX document."""

    style = Latex

    def document(self):
        """The lines of the document."""
        yield HEAD
        yield r"\section*{\raggedright Report \texttt{%s}}" % text(self.name)
        said = r" When this was made it said: \texttt{%s}." % text(self.report.verdict)
        yield r"\sloppy This document is a view, and isn't proved. Whether the report is right is judged by"
        yield r"\texttt{%s}.%s" % (text(self.judge()), said if self.report.verdict else "")
        if self.write.is_short:
            yield r"V stands for all truth values, $%s$." % self.write.set(self.write.values)
        yield r"\subsection*{Claims}"
        shared = self.shared_lines()
        for at, claim in enumerate(self.report.claims, 1):
            yield from self.of_claim(at, claim)
        if self.report.rules:
            yield r"\subsection*{Rules}"
            yield r"\begin{flushleft}"
            for at, rule in enumerate(self.report.rules, 1):
                premises = r"\quad ".join(self.write.premises(rule))
                conclusion = self.write.conclusion(rule)
                yield r"\inference{\step{%s}{%s}{%d}}\hspace{2em plus 1em}" % (premises, conclusion, at)
            yield r"\end{flushleft}"
        if self.report.lines:
            yield r"\subsection*{Derivations}"
            yield from self.derivations(shared)
        yield r"\end{document}"

    def of_claim(self, at, claim):
        yield r"\fitted{\text{%d.}\quad %s}" % (at, self.said_of(claim))
        if claim.word != "refuted":
            yield r"\hspace*{2em}%s by %s\par" % (claim.word, ", ".join(claim.evidence))
            return
        cells = [(self.write.formula(it), self.write.name(value)) for it, value in self.values_of(claim)]
        yield r"\hspace*{2em}refuted at\par"
        yield r"\fitted{\qquad\begin{array}{l|l}%s\end{array}}" % r"\\".join(r"%s & %s" % it for it in cells)

    def shared_lines(self):
        """The lines that have a tree of their own: those of claims, and those that are cited twice and cite lines."""
        times = [0] * len(self.report.lines)
        for at in range(len(self.report.lines)):
            for position in {to for to, ok in reports.cited_by(self.report, at) if ok}:
                times[position - 1] += 1
        shared = {at for at, count in enumerate(times) if count > 1 and self.report.lines[at].cited}
        for claim in self.report.claims:
            if claim.word != "refuted":
                shared |= {int(it) - 1 for it in claim.evidence if reports.line_at(self.report, it)}
        return shared

    def derivations(self, shared):
        """The trees of all lines that have one. Where a tree is wide or deep, parts of it get one of their own."""
        done = {}
        for at in range(len(self.report.lines)):
            done[at] = self.of_line(at, done, shared)
        for at in sorted(shared):
            yield r"\fitted{\text{%d:}\quad %s}" % (at + 1, done[at][0])
            yield r"\medskip"

    def of_line(self, at, done, shared):
        """The tree of a line, how wide it is about, and how deep."""
        line = self.report.lines[at]
        said, own = self.write.sequent(line.sequent), width(line.sequent)
        if not line.cited:
            above = r"\text{%s}" % line.word if line.word in ("axiom", "pending") else ""
            return r"\step{%s}{%s}{%s}" % (above, said, line.by or ""), own, 1
        parts = []
        for to, ok in reports.cited_by(self.report, at):
            if not ok:
                parts.append([None, r"\text{no line %d}" % to, 8, 0])
            else:
                is_apart = to - 1 in shared and self.report.lines[to - 1].cited
                parts.append([to - 1, *(self.reference(to - 1) if is_apart else done[to - 1])])
        while sum(it[2] for it in parts) > WIDE or max(it[3] for it in parts) > DEEP:
            cut = max((it for it in parts if it[3] > 1), key=lambda it: (it[3] > DEEP, it[2]), default=None)
            if cut is None:
                break
            shared.add(cut[0])
            cut[1:] = self.reference(cut[0])
        depth = 1 + max(it[3] for it in parts)
        label = line.by if line.word == "rule" else r"\text{cut}"
        tree = r"\step{%s}{%s}{%s}" % (r"\quad ".join(it[1] for it in parts), said, label)
        return tree, max(own, sum(it[2] for it in parts)), depth

    def reference(self, at):
        line = self.report.lines[at]
        return r"\step{\text{%d}}{%s}{}" % (at + 1, self.write.sequent(line.sequent)), width(line.sequent), 1
