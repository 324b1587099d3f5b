"""The faults of an input, by their codes."""

UTF8, CHARACTER, NUMBER, SYNTAX, END = 1, 2, 3, 4, 5
AGAIN, UNKNOWN, WRONG_USE, SORTS_DIFFER, NO_SORT = 6, 7, 8, 9, 10
DEPTH, EXPONENT, DIVISION, NOT_DOMAIN, NOT_FIELD = 11, 12, 13, 14, 15
OPTION, FORM, LINE, NESTING = 16, 17, 18, 19


class Refused(Exception):
    """The first fault of an input: its code and its byte."""

    def __init__(self, code, at):
        super().__init__(code, at)
        self.code = code
        self.at = at


def refuse_first(faults):
    """Refuses at the least byte, and there with the least code."""
    if faults:
        at, code = min(faults)
        raise Refused(code, at)
