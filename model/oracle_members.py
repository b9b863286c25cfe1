"""The members and the rows of a configuration, read plainly, and what is said of one that is wrong: part of oracle.py."""
import json

KINDS = {dict: "an object", list: "a list", str: "a string", int: "an integer", bool: "true or false"}
FOUND = {**KINDS, bool: "a boolean", float: "a number that is not a 64-bit integer", type(None): "nothing"}
MOST_SHOWN = 80


class Refused(Exception):
    """What is refused, with the word that says why. Of a configuration also where: the rows from the outermost inwards, the member, what it has to be and is."""

    def __init__(self, reason, member="", expected="", found=""):
        super().__init__(reason)
        self.places, self.names, self.expected, self.found = [member] if member else [], [], expected, found

    def within(self, place, name=None):
        """The same refusal, found in a row at that place, which may have a name."""
        self.places.insert(0, place)
        if name:
            self.names.insert(0, name)
        return self


def need(holds, reason, member="", expected="", found=""):
    if not holds:
        raise Refused(reason, member, expected, found)


def at(place, read, *given):
    """What is read there."""
    try:
        return read(*given)
    except Refused as why:
        raise why.within(place)


def member(row, name, kind, required=True):
    """The member of a row, of that kind; null counts as absent."""
    need(type(row) is dict, "shape", "", "an object", FOUND[type(row)])
    value = row.get(name)
    if value is None and not required:
        return None
    need(type(value) is kind, "shape", name, KINDS[kind], FOUND[type(value)])
    return value


def rows(config, name):
    return member(config, name, list, required=False) or []


def each(config, name, key, read):
    """Reads the rows of a list, one after another. A refusal says which row it is of, by its place and by the member that names it."""
    for n, row in enumerate(rows(config, name)):
        try:
            read(row)
        except Refused as why:
            named = row.get(key) if type(row) is dict else None
            raise why.within(f"{name}[{n}]", (name, named) if type(named) is str else None)


def number(row, name, low, high, default):
    """An integer within limits; the default where it is absent, or none where it has to be there."""
    value = member(row, name, int, required=default is None)
    value = default if value is None else value
    need(low <= value <= high, "limit", name, f"an integer from {low:,} to {high:,}", value)
    return value


def quoted(text):
    """A text as it is shown where it is wrong, on one line."""
    shown = json.dumps(text)
    return shown if len(shown) <= MOST_SHOWN else shown[:MOST_SHOWN] + '.."'


def name_of(row):
    return member(row, "name", str)


def listed(row, name, read):
    """What is read of each row of a list, in order."""
    return [at(f"{name}[{n}]", read, it) for n, it in enumerate(member(row, name, list))]


def read_texts(row, name):
    texts = member(row, name, list, required=False) or []
    for n, it in enumerate(texts):
        need(type(it) is str, "shape", f"{name}[{n}]", KINDS[str], FOUND[type(it)])
    return texts
