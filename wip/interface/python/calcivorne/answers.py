"""The numbers that calls answer with, and the answers as values with names."""
from enum import IntEnum
from typing import NamedTuple


class Number(IntEnum):
    """What became of a call: OK, FINISHED, or why it stopped.

    >>> print(Number.BAD_BYTE, Number.BAD_BYTE.name, Number.BAD_BYTE.words)
    2 BAD_BYTE a byte that cannot stand there
    """

    OK = 0
    SCENE_ENDS = 1
    BAD_BYTE = 2
    TOO_LONG = 3
    END_UNLIKE_START = 4
    BAD_PREFIX = 5
    ATTRIBUTE_TWICE = 6
    SCENE_TOO_LONG = 7
    FINISHED = 9
    TABLE_LENGTH = 10
    TABLE_FIELD = 11
    TABLE_CLASH = 12
    BAD_SESSION = 20
    TOO_DEEP = 21
    TOO_MANY_BINDINGS = 22
    TOO_MANY_STRANDS = 23
    TOO_MANY_UNITS = 24
    OUTPUT_FULL = 25
    NOT_OFFERED = 30
    SLICE_TOO_SHORT = 255

    # The digits in every version of Python: print and format differ there otherwise.
    __str__ = int.__repr__

    @property
    def words(self) -> str:
        """What the number says, for people."""
        return _WORDS[self]

    @property
    def in_scene(self) -> bool:
        """Whether the place that comes with it is one in the scene."""
        return 1 <= self <= 6 or self == 9 or 21 <= self <= 25


_WORDS = {
    Number.OK: "all went well",
    Number.SCENE_ENDS: "the scene ends here, and nothing else is wrong so far",
    Number.BAD_BYTE: "a byte that cannot stand there",
    Number.TOO_LONG: "the 65th byte of a name's part, or the first of a 17th attribute",
    Number.END_UNLIKE_START: "an end tag's name is not that of the open element",
    Number.BAD_PREFIX: "a prefix that is not bound, or a declaration that is not allowed",
    Number.ATTRIBUTE_TWICE: "an attribute stands twice",
    Number.SCENE_TOO_LONG: "the scene is over 16,777,215 bytes",
    Number.FINISHED: "finished: the root has closed",
    Number.TABLE_LENGTH: "the table is under 4 bytes, or not of the length that it needs",
    Number.TABLE_FIELD: "a field of the table is out of range",
    Number.TABLE_CLASH: "the table repeats a URI or a rule, lists xml's URI, or two of its rules contradict",
    Number.BAD_SESSION: "the bytes hold no session, or one that does not fit this table and scene",
    Number.TOO_DEEP: "a 65th open element",
    Number.TOO_MANY_BINDINGS: "a 65th open declaration",
    Number.TOO_MANY_STRANDS: "a 17th strand",
    Number.TOO_MANY_UNITS: "a unit past 65,535",
    Number.OUTPUT_FULL: "the event's records exceed the output",
    Number.NOT_OFFERED: "the session, or the scene's length, is not the offer's",
    Number.SLICE_TOO_SHORT: "the bytes of the session, or of the offer, are too few",
}


class Answer(NamedTuple):
    """What a call answers: its number, the place in the scene, and how many events were read and records written."""

    number: Number
    place: int
    events: int
    records: int


class Figures(NamedTuple):
    """What a run will need, and how it will end: see `forecast`."""

    number: Number
    place: int
    records: int
    units: int
    strands: int
    depth: int


class Source(IntEnum):
    """Where a namespace URI stands."""

    TABLE = 0
    SCENE = 1

    __str__ = int.__repr__


class Uri(NamedTuple):
    """Where a namespace URI stands: in the table or in the scene, its offset there and its length."""

    source: Source
    offset: int
    length: int
