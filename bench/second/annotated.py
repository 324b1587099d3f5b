"""Reads files whose goals may have answers, and the first fault in an answer."""

from second.answers import (
    Certified,
    No,
    Proved,
    Stopped,
    Zero,
    has_table,
    numbering,
)
from second.certificates import Certificate, Line, Step
from second.faults import FORM, LINE, refuse_first
from second.files import (
    File,
    Goal,
    Vars,
    names_in,
    names_in_path,
    refuse_broken,
    refuse_deep,
)
from second.monomials import degree_of, made_of
from second.polynomials import MAX_DEGREE
from second.search import GaveUp, NoneUpTo
from second.written import AFTER_GOAL, AT_START, LINES, STEPS, Written, WrittenReader

MAX_COUNT = 2**32 - 1

BY_RING = {"proved", "no", "range", "degree", "atoms"}
BY_NSATZ = {"proved power", "none up to power", "gave up after", "range", "degree", "atoms"}
FORMS = {"ring": BY_RING, "field": BY_RING | {"zero denominator"}, "nsatz": BY_NSATZ}
IN_CERTIFICATE = ("line", "step")


def atom_of(factor):
    *path, var = (token.value for token in factor.names)
    return tuple(path), var


def monomial_of(written):
    exponents = {}
    for factor in written.factors:
        atom = atom_of(factor)
        exponents[atom] = exponents.get(atom, 0) + factor.exponent
    return made_of(exponents)


class AnnotatedFile(File):
    """A file with an answer, or None, for each goal."""

    def __init__(self):
        super().__init__()
        self.answers = []
        self.place = AT_START
        self.version = 1

    def add_read(self, read):
        if isinstance(read, Written):
            self.refuse_written(read)
            self.add_written(read)
            return
        self.add(read)
        self.place = AT_START
        if isinstance(self.statements[-1], Goal):
            self.answers.append(None)
            self.place = AFTER_GOAL
            self.numbers = numbering(self.statements[-1])

    def refuse_written(self, read):
        refuse_deep(*read.terms)
        names = names_in(*read.terms)
        for monomial in read.monomials:
            for factor in monomial.factors:
                names += names_in_path(factor.names, Vars)
        refuse_first(self.faults_of_names(names))
        refuse_first(self.faults_of_written(read, self.statements[-1]))

    def faults_of_written(self, read, goal):
        faults = []
        if read.form not in FORMS[goal.method] and read.form not in IN_CERTIFICATE:
            faults.append((read.at, FORM))
        for nodes in read.terms:
            own = self.sorts.own_sort(nodes, faults)
            sort = goal.sort.name if own is None else own
            self.sorts.find_quotients(nodes, sort, goal.method == "field", faults)
        if read.version and read.version.value not in (1, 2):
            faults.append((read.version.at, LINE))
        faults += [(count.at, LINE) for count in read.counts if count.value > MAX_COUNT]
        for monomial in read.monomials:
            faults += self.faults_of_monomial(monomial)
        return faults

    def faults_of_monomial(self, monomial):
        table = self.numbers if has_table(self.numbers) else {}
        faults = [(f.names[0].at, LINE) for f in monomial.factors if atom_of(f) not in table]
        if degree_of(monomial_of(monomial)) > MAX_DEGREE:
            faults.append((monomial.at, LINE))
        return faults

    def add_written(self, read):
        if read.form in IN_CERTIFICATE:
            self.add_to_certificate(read)
            return
        self.answers[-1] = answer_of(read)
        self.place = AT_START
        if read.form == "proved power":
            self.place = LINES
            self.version = read.version.value if read.version else 1

    def add_to_certificate(self, read):
        certificate = self.answers[-1].certificate
        monomials = map(monomial_of, read.monomials)
        first, second, d = read.numbers
        if read.form == "line":
            m, n = monomials
            i, j = (count.value for count in read.counts)
            certificate.lines.append(Line(first, m, i, second, n, j, d))
        else:
            certificate.steps.append(Step(first, second, *monomials, read.counts[0].value, d))
            self.place = STEPS


def answer_of(read):
    if read.form == "proved":
        return Proved(read.terms)
    if read.form == "proved power":
        return Certified(read.numbers, Certificate(read.counts[0].value, [], []))
    if read.form == "no":
        return No(monomial_of(read.monomials[0]), *read.numbers)
    if read.form == "zero denominator":
        return Zero(read.terms[0])
    if read.form == "none up to power":
        return NoneUpTo(read.counts[0].value)
    if read.form == "gave up after":
        return GaveUp(read.counts[0].value)
    return Stopped(read.form)


def read_annotated(data):
    """The goals of a file with their answers, or a refusal at the first fault."""
    refuse_broken(data)
    reader = WrittenReader(data)
    file = AnnotatedFile()
    while (read := reader.read_at(file.place, file.version)) is not None:
        file.add_read(read)
    goals = [statement for statement in file.statements if isinstance(statement, Goal)]
    return list(zip(goals, file.answers, strict=True))
