"""Errors in a C file: the place, and a message that says what to write instead."""
from dataclasses import dataclass


@dataclass(frozen=True)
class Place:
    """A place in a C file."""
    file: str
    line: int
    column: int


@dataclass
class Refused(Exception):
    """The error for which the compiler rejects a file."""
    file: str
    line: int
    column: int
    what: str

    def __str__(self):
        return f'{self.file}:{self.line}:{self.column}: {self.what}'


def refuse(node, what):
    """Rejects the code at a node of the syntax tree, or at the first known place within it."""
    place = place_of(node)
    if place is None:
        raise Refused('?', 1, 1, what)
    raise Refused(place.file, place.line, place.column, what)


def place_of(node):
    """Returns the place of a node. A list of initial values has none: the first place within it is returned."""
    if node.coord is not None:
        return node.coord
    places = (place_of(child) for _, child in node.children())
    return next((place for place in places if place is not None), None)
