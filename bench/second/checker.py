"""Reports on the answers of an annotated file."""

from second.annotated import read_annotated
from second.answers import (
    Certified,
    Proved,
    Zero,
    answer,
    has_table,
    numbering,
    prepared,
)
from second.certificates import Bad, accept, constants
from second.faults import Refused
from second.fractions import tree
from second.polynomials import Arithmetic, Overrun

MAX_BYTES = 16_777_216


def value_of(found):
    """What two equal answers have in common, without the places of their nodes."""
    if isinstance(found, Proved):
        return Proved([tree(nodes) for nodes in found.conditions])
    if isinstance(found, Zero):
        return Zero(tree(found.denominator))
    return found


def report(goal, given):
    if given is None:
        return "unchecked"
    if goal.method != "nsatz":
        found = answer(goal)
        if type(found) is not type(given) or value_of(found) != value_of(given):
            return "bad"
        return "ok proved" if isinstance(found, Proved) else "ok"
    if not isinstance(given, Certified):
        return "unchecked"
    try:
        return report_on_certified(goal, given)
    except Overrun as overrun:
        return str(overrun)
    except Bad as bad:
        return f"bad at {bad.args[0]}" if bad.args[0] else "bad"


def report_on_certified(goal, given):
    certificate = given.certificate
    if not 1 <= certificate.power <= goal.power:
        return "bad"
    if not has_table(numbering(goal)):
        return "atoms"
    arithmetic = Arithmetic()
    hypotheses, product = prepared(arithmetic, goal)
    accept(arithmetic, certificate, hypotheses, product)
    if given.constants != constants(certificate, goal.sort.char0):
        return "bad"
    return "ok proved"


def check(data):
    """What `alg check` writes on these bytes, and its exit status."""
    if len(data) > MAX_BYTES:
        return b"refused large\n", 2
    try:
        goals = read_annotated(data)
    except Refused as fault:
        return f"refused {fault.code} at {fault.at}\n".encode(), 2
    reports = [report(goal, given) for goal, given in goals]
    texts = [f"goal {number}: {text}\n" for number, text in enumerate(reports, 1)]
    return "".join(texts).encode(), int(any(not text.startswith("ok") for text in reports))
