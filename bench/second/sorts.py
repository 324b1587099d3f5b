"""The sorts of the nodes of terms, and the faults in them."""

from second.faults import DIVISION, EXPONENT, SORTS_DIFFER
from second.terms import PARTS, fold

MAX_EXPONENT = 1_000


def differ(left, right):
    return left is not None and right is not None and left != right


class Sorts:
    """The sorts of terms over what is declared by name."""

    def __init__(self, declared):
        self.declared = declared

    def is_no_field(self, sort):
        return sort is not None and self.declared[sort].kind != "field"

    def own_sort(self, nodes, faults):
        """The own sort of a term, or None; what is wrong in it goes to `faults`."""
        return fold(nodes, lambda node, *parts: self.of_node(node, parts, faults))

    def of_node(self, node, parts, faults):
        if node.op == "int":
            return None
        if node.op == "var":
            return self.declared[node.value].sort
        if node.op == "hom":
            hom = self.declared[node.value]
            if differ(parts[0], hom.source):
                faults.append((node.at, SORTS_DIFFER))
            return hom.target
        if node.op == "^" and node.value.value > MAX_EXPONENT:
            faults.append((node.value.at, EXPONENT))
        if len(parts) == 2 and differ(*parts):
            faults.append((node.at, SORTS_DIFFER))
        return next((sort for sort in parts if sort is not None), None)

    def find_quotients(self, nodes, sort, may_divide, faults):
        """Finds quotients elsewhere than in fields, from the head down."""
        places = [(sort, True)]
        for node in reversed(nodes):
            final, in_fields = places.pop()
            if node.op == "/" and (not may_divide or self.is_no_field(final) or not in_fields):
                faults.append((node.at, DIVISION))
            if node.op == "hom":
                hom = self.declared[node.value]
                places.append((hom.source, in_fields and not self.is_no_field(hom.target)))
            else:
                places.extend([(final, in_fields)] * PARTS[node.op])
