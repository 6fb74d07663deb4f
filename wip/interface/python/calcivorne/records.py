"""Records: what the dispatcher writes for the checkers."""
import struct
from collections.abc import Iterator, Sequence
from enum import IntEnum
from typing import List, NamedTuple, Tuple, Union, overload

from .answers import Answer
from .lending import Bytes, part

SIZE = 16
_FIELDS = struct.Struct(">HBBBHBHBHBH")


class Kind(IntEnum):
    """The kinds of records."""

    OPEN = 0
    START = 1
    ATTRIBUTE = 2
    VALUE = 3
    TEXT = 4
    END = 5
    CLOSE = 6

    __str__ = int.__repr__


class Record(NamedTuple):
    """One record. Offsets and lengths count bytes of the scene.

    unit        the unit that it belongs to, counted from 0 as opened
    kind        open, start, attribute, attribute value, text, end or close
    class_      0 no namespace, 1 to 30 the table's, 254 that of the prefix xml, 255 any other, 253 the virtual element of an attribute unit;
                of an open, the schema: one of the table's, or 255, reject
    offset      of the part behind the colon of a name, of a value, of a text; of an open, of the tag's <
    length      of an open, 1 for an attribute unit
    uri_offset  offset of the namespace's URI, for class 255
    uri_length  its length
    """

    unit: int
    kind: Kind
    class_: int
    offset: int
    length: int
    uri_offset: int
    uri_length: int

    def part(self, scene: Bytes) -> bytes:
        """The bytes that the record tells of: a name's part behind the colon, a value, a text. Of an open and a close: none.

        >>> Record(0, Kind.TEXT, 0, 3, 2, 0, 0).part(b"<r>ab</r>")
        b'ab'
        """
        return b"" if self.kind == Kind.OPEN else part(scene, self.offset, self.length)


def _record(fields: Tuple[int, ...]) -> Record:
    unit, kind, class_, a, b, c, d, e, f, g, h = fields
    return Record(unit, Kind(kind), class_, a << 16 | b, c << 16 | d, e << 16 | f, g << 16 | h)


class Records(Sequence[Record]):
    """The records that a call wrote, and its answer. The records stay in their bytes, and are made as they are looked at.

    >>> records = Records(bytes.fromhex("00000000000000000000000000000000" "00000101000001000001000000000000"), Answer(9, 22, 5, 2))
    >>> len(records), records[-1].kind.name, [record.class_ for record in records]
    (2, 'START', [0, 1])
    >>> records.answer.place
    22
    >>> len(bytes(records))
    32
    """

    answer: Answer

    def __init__(self, data: bytes, answer: Answer) -> None:
        if len(data) % SIZE != 0:
            raise ValueError(f"{len(data)} bytes are not those of records: each has {SIZE}")
        self._data = data
        self.answer = answer

    def __len__(self) -> int:
        return len(self._data) // SIZE

    @overload
    def __getitem__(self, index: int) -> Record: ...

    @overload
    def __getitem__(self, index: slice) -> List[Record]: ...

    def __getitem__(self, index: Union[int, slice]) -> Union[Record, List[Record]]:
        chosen = range(len(self))[index]
        if isinstance(chosen, range):
            return [self[i] for i in chosen]
        return _record(_FIELDS.unpack_from(self._data, SIZE * chosen))

    def __iter__(self) -> Iterator[Record]:
        return map(_record, _FIELDS.iter_unpack(self._data))

    def __bytes__(self) -> bytes:
        return self._data

    def __repr__(self) -> str:
        return f"<{len(self)} records of {self.answer.events} events, {self.answer.number} at {self.answer.place}>"
