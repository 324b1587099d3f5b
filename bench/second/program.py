"""The whole program: its words, and what it writes on its input."""

from second.checker import check
from second.load import is_count, load
from second.prover import prove


def run(words, data):
    """What `alg` writes for these words and these bytes, and its exit status."""
    if words == ["prove"]:
        return prove(data)
    if words == ["check"]:
        return check(data)
    if len(words) == 2 and words[0] == "load" and is_count(words[1]):
        return load(int(words[1]))
    return b"usage\n", 3
