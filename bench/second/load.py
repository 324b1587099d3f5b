"""The summary of generated goals."""

import re

from second.answers import answer, is_proved
from second.files import Goal, read_file

MAX_GOALS = 10_000


def goal_text(i):
    if i % 3 == 0:
        return f"goal (x + {i}*y)^2 = x^2 + {2 * i}*x*y + {i * i}*y^2 by ring."
    if i % 3 == 1:
        return f"goal (x + {i}*y)^2 = x^2 + {i * i}*y^2 by ring."
    return f"goal x/(x + {i}) + {i}/(x + {i}) = 1 by field."


def is_count(word):
    return bool(re.fullmatch("0|[1-9][0-9]{0,4}", word)) and int(word) <= MAX_GOALS


def load(n):
    """What `alg load` writes for this number of goals, and its exit status."""
    text = "field F.\nvar x y : F.\n" + "\n".join(map(goal_text, range(n)))
    goals = [s for s in read_file(text.encode()).statements if isinstance(s, Goal)]
    proved = sum(is_proved(answer(goal)) for goal in goals)
    return f"load {n}: {proved} proved, {n - proved} not\n".encode(), int(proved < n)
