"""Answers the goals of a file, and writes the file with its answers."""

from second.answers import answer, is_proved
from second.faults import Refused
from second.files import Goal, read_file
from second.texts import AnswerTexts, statement_text

MAX_BYTES = 1_048_576


def prove(data, version=2):
    """What `alg prove` writes on these bytes, and its exit status."""
    if len(data) > MAX_BYTES:
        return b"refused large\n", 2
    try:
        file = read_file(data)
    except Refused as fault:
        return f"refused {fault.code} at {fault.at}\n".encode(), 2
    texts = []
    status = 0
    for statement in file.statements:
        texts.append(statement_text(statement))
        if isinstance(statement, Goal):
            found = answer(statement)
            texts.append(AnswerTexts(statement, version).of(found))
            status = status if is_proved(found) else 1
    return "".join(texts).encode(), status
