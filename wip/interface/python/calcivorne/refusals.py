"""The exception of a call that could not do what it was asked."""
import codecs
from typing import Optional, Tuple

from .answers import Answer, Number
from .lending import Bytes, part
from .records import Records


class Refused(Exception):
    """A table, a scene or a session was refused. Nothing is lost: the records up to there are in `records`.

    number          why, a `Number`
    place           where, in bytes from the scene's start
    line, column    the same for people, both from 1; None where the place is none in the scene. Lines end with LF, CR LF or CR. The column counts the
                    line's characters in front of the place, read as UTF-8; a byte inside a character has that character's column. Where the line is not
                    UTF-8 the column counts bytes.
    events          how many events were read before
    records         their records
    answer          number, place, and the counts of events and records

    >>> raise refusal(Answer(Number.BAD_BYTE, 17, 0, 0), Records(b"", Answer(Number.BAD_BYTE, 17, 0, 0)), b'<rig>caf\xc3\xa9<arm/></&rig>')
    Traceback (most recent call last):
    calcivorne.refusals.Refused: 2 at 17 (line 1, column 17): a byte that cannot stand there
    """

    def __init__(self, answer: Answer, records: Records, line: Optional[int] = None, column: Optional[int] = None) -> None:
        super().__init__(answer, records, line, column)
        self.answer = answer
        self.number = answer.number
        self.place = answer.place
        self.events = answer.events
        self.records = records
        self.line = line
        self.column = column

    def __str__(self) -> str:
        if self.line is None:
            return f"{self.number}: {self.number.words}"
        return f"{self.number} at {self.place} (line {self.line}, column {self.column}): {self.number.words}"


def position(scene: Bytes, place: int) -> Tuple[int, int]:
    """Line and column of a place, as `Refused` has them.

    >>> position("<a>\\nж<b".encode(), 6), position(b"<a>\\r\\n\\xff<b", 6)
    ((2, 2), (2, 2))
    """
    before = part(scene, 0, place)
    breaks = before.count(b"\n") + before.count(b"\r") - before.count(b"\r\n")
    line = before[max(before.rfind(b"\n"), before.rfind(b"\r")) + 1:]
    try:
        characters = len(codecs.getincrementaldecoder("utf-8")().decode(line))
    except UnicodeDecodeError:
        characters = len(line)
    return breaks + 1, characters + 1


def refusal(answer: Answer, records: Records, scene: Bytes) -> Refused:
    """The exception for an answer about this scene."""
    if not Number(answer.number).in_scene:
        return Refused(answer, records)
    line, column = position(scene, answer.place)
    return Refused(answer, records, line, column)
