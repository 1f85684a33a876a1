"""What a call answers: its values, or a refusal by its number; and the line that the driver writes for either."""

INPUT, FORM, HEAD, ROOT, RULE, FULL, CLASH, ROOM, TWICE, EPOCH, TABLE = range(1, 12)


class Refused(Exception):
    def __init__(self, number):
        self.number = number


def need(truth, number):
    if not truth:
        raise Refused(number)


def word(x):
    return (x.hex() or "-") if isinstance(x, bytes) else str(x)


def line(call, *given):
    """A call's answer as the driver writes it."""
    try:
        return " ".join(word(x) for x in call(*given))
    except Refused as x:
        return f"refused {x.number}"
