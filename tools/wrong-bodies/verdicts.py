"""What a check says of a function: proved, or the goals that stay open and the written answers that don't fit."""

import re
from collections import namedtuple

VERDICT = re.compile(r"^fn (\S+): (.*)")
NOTE = re.compile(r"^note: src/\S+: .*not proved.*\(`([^`]+)`\)(.*)")
FAULT = re.compile(r"^(?:\./)?(proofs/\S+\.antt):(\d+):\d+: error: (.*)")
OPEN = re.compile(r"`search` did not prove ((?:`[^`]+`(?:, | and )?)+)")
# The function has no proof only for something that it rests on.
BELOW = re.compile(r"(?:no proof:|not proved;) it (?:calls|passes|uses) ")
# A proof names what is no longer there.
NAMES = re.compile(r"has no field|not in scope|has no `|was not admitted|is not a field|no such|does not have|is unknown")
PROVED = re.compile(r"^(?:logic=proved |only=(\d+) proved=\1$)", re.M)
DECLARED = re.compile(r"(?:abbrev )?(?:pub )?(\S+) : ")

Goal = namedtuple("Goal", "name is_false")
Fault = namedtuple("Fault", "file line text")


class Report:
    """What one check printed."""

    def __init__(self, out):
        self.out, self.verdicts, self.goals, self.faults = out, {}, {}, []
        waiting, inside = [], False
        for line in out.split("\n"):
            if inside and line.startswith("  "):
                self.faults[-1] = self.faults[-1]._replace(text=self.faults[-1].text + " " + line.strip())
                continue
            inside = False
            if m := FAULT.match(line):
                self.faults.append(Fault(m[1], int(m[2]), m[3]))
                inside = True
            elif m := NOTE.match(line):
                waiting.append(Goal(m[1], "is false" in m[2]))
            elif m := VERDICT.match(line):
                self.verdicts[m[1]] = m[2]
                self.goals[m[1]] = waiting + unnamed(m[2], waiting)
                waiting = []

    @property
    def is_proved(self):
        """Whether all that the check was asked for is proved."""
        return bool(PROVED.search(self.out))

    def names_of(self, name):
        """The verdicts on a function: its own, and those on the closures that it holds."""
        crate, _, path = name.partition("::")
        around = [part for part in self.verdicts if "::fn::" in part and part.startswith(crate + "::")]
        inside = [part for part in around if f"{part.replace('::fn::', '::')}::".startswith(f"{crate}::{path}::")]
        return [name, *inside]

    def goals_of(self, name):
        return [goal for part in self.names_of(name) for goal in self.goals.get(part, ())]

    def faults_of(self, name):
        folder = "proofs/" + name.partition("::")[2].replace("::", "/") + "/"
        return [fault for fault in self.faults if fault.file.replace("/+", "/").startswith(folder)]

    def names_gone(self, name):
        """Whether a proof of a function names what is no longer there."""
        return any(NAMES.search(fault.text) for fault in self.faults_of(name))

    def first_error(self):
        """The first line that names an error."""
        lines = [line for line in self.out.split("\n") if "error" in line and not line.startswith(("fn ", "impl ", "enum ", "struct "))]
        return (lines or self.out.strip().split("\n"))[0][:300]


def unnamed(verdict, goals):
    """The goals that a verdict lists and no note before it."""
    m = OPEN.search(verdict)
    named = {goal.name for goal in goals}
    return [Goal(name, False) for name in re.findall("`([^`]+)`", m[1]) if name not in named] if m else []


def clause_of(goal):
    """What a goal is on: the name of its clause, or else the first word."""
    return goal.rpartition("-clause-")[2] if "-clause-" in goal else goal.partition("-")[0]


def judge(body, report):
    """What a check says of a body: a word for it, and why.

    `refused`; `passed`; `masked` by a callee; `answers` that don't fit; `names`, refused only since a proof names what is gone;
    `unread`; `unclear`.
    """
    name, verdict = body.verdict, report.verdicts.get(body.verdict)
    if verdict is None:
        return "unread", report.first_error()
    goals, faults = report.goals_of(name), report.faults_of(name)
    lost = body.lost or report.names_gone(name)
    cuts = {declared for _, declared in body.cuts}
    false = [goal for goal in goals if goal.is_false]
    # A body that takes a name away may give its goals other names too, so then only the goals of other clauses count.
    told = {clause_of(declared) for declared in cuts}
    fresh = [goal for goal in goals if goal.name not in cuts and not (lost and (faults or clause_of(goal.name) in told))]
    if false or fresh:
        return "refused", f"`{(false or fresh)[0].name}`" + (" can be false" if false else "")
    if faults:
        return "answers", faults[0].text
    if goals:
        why = f"`{goals[0].name}`, whose written answer doesn't fit"
        return ("names", f"{why}, since it names what is gone") if lost else ("refused", f"{why}, and search finds no other")
    if verdict.startswith("proved"):
        return "passed", "it is proved" + (", by another answer" if body.cuts else "")
    return ("masked", verdict) if BELOW.match(verdict) else ("unclear", verdict)


def declarations(text):
    """The declarations of a proof file: their names, and the lines that each begins and ends at."""
    lines = text.split("\n")
    heads = [(at, m[1]) for at, line in enumerate(lines) if (m := DECLARED.match(line))]
    ends = [at for at, _ in heads[1:]] + [len(lines)]
    return [(name, begin, end) for (begin, name), end in zip(heads, ends)]


def without(text, name):
    """A proof file without a declaration."""
    lines = text.split("\n")
    for declared, begin, end in declarations(text):
        if declared == name:
            return "\n".join(lines[:begin] + lines[end:])
    return text
