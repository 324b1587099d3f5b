"""What a file declares: its names, and the first fault in a statement that is read whole."""

from typing import NamedTuple

from second.faults import (
    AGAIN,
    DEPTH,
    NO_SORT,
    NOT_DOMAIN,
    NOT_FIELD,
    OPTION,
    SORTS_DIFFER,
    UNKNOWN,
    UTF8,
    WRONG_USE,
    Refused,
    refuse_first,
)
from second.sorts import Sorts, differ
from second.statements import (
    GoalStatement,
    HomStatement,
    HypStatement,
    SortStatement,
    StatementReader,
)
from second.terms import fold

MAX_DEPTH = 1_000
MAX_POWER = 16
MAX_MOVES = 1_000_000
DEFAULT_MOVES = 10_000


class Sort(NamedTuple):
    kind: str
    name: str
    char0: bool


class Hom(NamedTuple):
    name: str
    source: str
    target: str


class Vars(NamedTuple):
    names: list
    sort: str


class Hyp(NamedTuple):
    name: str
    left: list
    right: list
    nonzero: bool
    sort: str


class Use(NamedTuple):
    """A hypothesis under a path of morphisms, the outermost first."""

    path: tuple
    hyp: Hyp


class Goal(NamedTuple):
    left: list
    right: list
    method: str
    sort: Sort
    uses: list = []
    power: int = 1
    limit: int = DEFAULT_MOVES


class File:
    """What was declared so far, by name, and all statements in their order."""

    def __init__(self):
        self.declared = {}
        self.statements = []
        self.sorts = Sorts(self.declared)

    def is_a(self, name, what):
        return isinstance(self.declared.get(name), what)

    def add(self, statement):
        if isinstance(statement, GoalStatement):
            self.statements.append(self.goal(statement))
            return
        if isinstance(statement, HypStatement):
            made, names = self.hyp(statement), [statement.name]
        else:
            made, names = self.declaration(statement)
        self.statements.append(made)
        self.declared.update((name.value, made) for name in names)

    def declaration(self, statement):
        """What is declared, with the tokens of its names."""
        if isinstance(statement, SortStatement):
            new, wanted = [statement.name], []
            made = Sort(statement.kind, statement.name.value, statement.char0)
        elif isinstance(statement, HomStatement):
            new, wanted = [statement.name], [statement.source, statement.target]
            made = Hom(*(name.value for name in statement))
        else:
            new, wanted = statement.names, [statement.sort]
            made = Vars([name.value for name in new], statement.sort.value)
        refuse_first(self.faults_again(new) + self.faults_of_names((n, Sort) for n in wanted))
        return made, new

    def faults_again(self, names):
        seen = set()
        faults = []
        for name in names:
            if name.value in self.declared or name.value in seen:
                faults.append((name.at, AGAIN))
            seen.add(name.value)
        return faults

    def faults_of_names(self, names):
        """Names that are unknown, or declared as another thing than is wanted beside them."""
        faults = []
        for name, what in names:
            if name.value not in self.declared:
                faults.append((name.at, UNKNOWN))
            elif not self.is_a(name.value, what):
                faults.append((name.at, WRONG_USE))
        return faults

    def hyp(self, statement):
        refuse_deep(statement.left, statement.right)
        names = names_in(statement.left, statement.right)
        refuse_first(self.faults_again([statement.name]) + self.faults_of_names(names))
        faults = []
        sort = self.sort_of_equation(statement, False, faults)
        refuse_first(faults)
        name = statement.name.value
        return Hyp(name, statement.left, statement.right, statement.nonzero, sort)

    def goal(self, statement):
        refuse_deep(statement.left, statement.right)
        method = statement.method
        names = names_in(statement.left, statement.right)
        for use in method.uses:
            names += names_in_path(use, Hyp)
        refuse_first(self.faults_of_names(names))
        faults = []
        name = self.sort_of_equation(statement, method.kind == "field", faults)
        faults += self.faults_of_method(method, name)
        refuse_first(faults)
        sides = statement.left, statement.right
        return Goal(*sides, method.kind, self.declared[name], *self.options(method))

    def options(self, method):
        """The uses, the power and the limit."""
        uses = [self.use(names) for names in method.uses]
        power = method.power.value if method.power else 1
        return uses, power, method.limit.value if method.limit else DEFAULT_MOVES

    def use(self, names):
        *path, hyp = (token.value for token in names)
        return Use(tuple(path), self.declared[hyp])

    def sort_of_equation(self, statement, may_divide, faults):
        """The name of the sort of an equation, or None; its faults of sorts go to `faults`."""
        left = self.sorts.own_sort(statement.left, faults)
        right = self.sorts.own_sort(statement.right, faults)
        if left is None and right is None:
            faults.append((statement.relation, NO_SORT))
        elif differ(left, right):
            faults.append((statement.relation, SORTS_DIFFER))
        sort = left if left is not None else right
        for side in (statement.left, statement.right):
            self.sorts.find_quotients(side, sort, may_divide, faults)
        return sort

    def faults_of_method(self, method, sort):
        faults = []
        kind = self.declared[sort].kind if sort is not None else None
        if method.kind == "field" and kind in ("ring", "domain"):
            faults.append((method.at, NOT_FIELD))
        if method.kind == "nsatz" and kind == "ring":
            faults.append((method.at, NOT_DOMAIN))
        for names in method.uses:
            faults += self.faults_of_use(names, sort)
        if method.power and not 1 <= method.power.value <= MAX_POWER:
            faults.append((method.power.at, OPTION))
        if method.limit and method.limit.value > MAX_MOVES:
            faults.append((method.limit.at, OPTION))
        return faults

    def faults_of_use(self, names, sort):
        faults = []
        hyp = self.declared[names[-1].value]
        own = hyp.sort
        for name in reversed(names[:-1]):
            hom = self.declared[name.value]
            if own != hom.source:
                faults.append((name.at, SORTS_DIFFER))
            own = hom.target
        if differ(own, sort):
            faults.append((names[0].at, SORTS_DIFFER))
        if hyp.nonzero and len(names) > 1 and self.sorts.is_no_field(hyp.sort):
            faults.append((names[0].at, NOT_FIELD))
        return faults


WANTED = {"var": Vars, "hom": Hom}


def names_in(*terms):
    """The names in some terms, each with what it must be declared as."""
    return [(node, WANTED[node.op]) for nodes in terms for node in nodes if node.op in WANTED]


def names_in_path(names, innermost):
    """Names of morphisms, and one within that is declared as another thing."""
    return [(name, Hom) for name in names[:-1]] + [(names[-1], innermost)]


def refuse_deep(*terms):
    for nodes in terms:
        fold(nodes, depth_step)


def depth_step(node, *parts):
    """The depth of a node; the first in postorder that is too deep is refused at its head."""
    depth = 1 + max(parts, default=0)
    if depth > MAX_DEPTH:
        raise Refused(DEPTH, node.at)
    return depth


def refuse_broken(data):
    """Refuses bytes that are not UTF-8."""
    try:
        data.decode()
    except UnicodeDecodeError as fault:
        raise Refused(UTF8, fault.start) from None


def read_file(data):
    """The file that the bytes are, or a refusal at their first fault."""
    refuse_broken(data)
    reader = StatementReader(data)
    file = File()
    while (statement := reader.read()) is not None:
        file.add(statement)
    return file
