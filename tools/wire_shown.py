"""Values as the programs print them: names of structs and of fields, numbers in decimal digits, bytes as lists."""


class Word(str):
    """A text that is printed as it stands."""


class Shown:
    """A struct or a case of an enum, with named fields or with values in parentheses."""

    def __init__(self, name, /, *values, **fields):
        self.name, self.values, self.fields = name, values, fields

    def __str__(self):
        if self.fields:
            return self.name + " { " + ", ".join(f"{name}: {shown(value)}" for name, value in self.fields.items()) + " }"
        if self.values:
            return f"{self.name}({', '.join(map(shown, self.values))})"
        return self.name


def shown(value):
    if isinstance(value, bool):
        return "true" if value else "false"
    if isinstance(value, (Shown, Word, int)):
        return str(value)
    if value is None:
        return "None"
    if isinstance(value, str):
        return '"' + value.replace("\\", "\\\\").replace('"', '\\"') + '"'
    return "[" + ", ".join(shown(item) for item in value) + "]"


def some(value):
    return Shown("Some", value)


def owned(data):
    return Shown("Bytes", items=data)


def text(value):
    return Shown("Text", text=value)
