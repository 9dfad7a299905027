"""What the terms of spec_values.py come to, beside numbers, truth values and lists: cases of data, records and functions."""


class Case:
    """A case of data, with its arguments so far."""

    def __init__(self, name, parts=()):
        self.name, self.parts = name, tuple(parts)

    def __eq__(self, other):
        return isinstance(other, Case) and (self.name, self.parts) == (other.name, other.parts)

    def __repr__(self):
        return " ".join([self.name, *map(repr, self.parts)])


class Record:
    def __init__(self, fields):
        self.fields = fields

    def __eq__(self, other):
        return isinstance(other, Record) and self.fields == other.fields

    def __repr__(self):
        return repr(self.fields)


class Function:
    """Of so many arguments, of which some may be there."""

    def __init__(self, count, call, given=()):
        self.count, self.call, self.given = count, call, tuple(given)


def applied(what, values):
    values = list(values)
    while values:
        if isinstance(what, Case):
            return Case(what.name, what.parts + tuple(values))
        missing = what.count - len(what.given)
        given, values = what.given + tuple(values[:missing]), values[missing:]
        what = what.call(*given) if len(given) == what.count else Function(what.count, what.call, given)
    return what


NONE = Case("None")


def some(value):
    return Case("Some", (value,))
