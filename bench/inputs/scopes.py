"""Names, and the declarations of a generated file."""

WORDS = (
    "additive after and at atoms by char degree denominator domain field gave goal hom hyp if "
    "limit line minus no none nsatz over power proved range ring semiring step to up using var "
    "version zero"
).split()
SIGNS = ". : , = <> -> ( ) + - * / ^".split()

# Names: those that differ little, and letters, marks and digits of other scripts.
PLAIN_NAMES = (
    "x y z a b c x1 x2 x' x'' _ _x X x_y R S T K f g h rings Ring ring' goal_ by' n0"
).split()
OTHER_NAMES = (
    "α β ж é ñ ß ℝ 𝔽 אב مي 漢字 かな 각 ǆ Ⅷ ª 𐐀x "
    "x\u0301 a\u0660\u0661 \u2118 \u212e x\u00b7y \u0939\u0940"
).split()


class Scope:
    """What a generated file declares so far. Terms have quotients where `divides` is set."""

    def __init__(self, rng):
        self.rng = rng
        self.sorts = []
        self.fields = []
        self.domains = []
        self.divides = False
        self.homs = []
        self.variables = []
        self.hyps = []
        self.names = set(WORDS)

    def new_name(self):
        while True:
            pool = PLAIN_NAMES if self.rng.random() < 0.8 else OTHER_NAMES
            name = self.rng.choice(pool)
            if name in self.names:
                name += self.rng.choice(["", "'", "_", "1", "0", "a", "é", "x" * 30])
            if name not in self.names:
                self.names.add(name)
                return name

    def sort(self):
        name = self.new_name()
        kind = self.rng.choice(["ring", "domain", "field"])
        self.sorts.append(name)
        if kind == "field":
            self.fields.append(name)
        if kind != "ring":
            self.domains.append(name)
        has_char = kind != "ring" and self.rng.random() < 0.4
        char = ["char", self.rng.choice(["0", "00"])] if has_char else []
        return [kind, name, *char, "."]

    def hom(self):
        name = self.new_name()
        source, target = self.rng.choice(self.sorts), self.rng.choice(self.sorts)
        self.homs.append((name, source, target))
        return ["hom", name, ":", source, "->", target, "."]

    def var(self):
        sort = self.rng.choice(self.sorts)
        names = [self.new_name() for _ in range(self.rng.choice([1, 1, 2, 2, 3, 5]))]
        self.variables += [(name, sort) for name in names]
        return ["var", *names, ":", sort, "."]

    def declarations(self):
        statements = [self.sort()]
        for _ in range(self.rng.randint(1, 6)):
            make = self.rng.choice([self.sort, self.hom, self.hom, self.var, self.var])
            statements.append(make())
        statements.append(self.var())
        return statements

    def leaf(self, sort):
        """A variable of the sort, or a literal."""
        fitting = [name for name, s in self.variables if s == sort]
        if fitting and self.rng.random() < 0.75:
            return ("var", self.rng.choice(fitting))
        return ("int", str(self.rng.choice([0, 1, 1, 2, 3, 7, 10, 255])))
