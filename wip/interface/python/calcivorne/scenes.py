"""Tables judged, and whole scenes read, without a session."""
from typing import Optional

from . import calls
from .answers import Figures, Number, Source, Uri
from .lending import Bytes, lend, natural, part
from .records import SIZE, Kind, Record, Records
from .refusals import Refused, refusal


def judge(table: Bytes) -> None:
    """Judges a rule table: raises `Refused`, with 10, 11 or 12, where it is not accepted.

    >>> judge(bytes.fromhex("01020101000600080175"))
    >>> judge(b"\\x01")
    Traceback (most recent call last):
    calcivorne.refusals.Refused: 10: the table is under 4 bytes, or not of the length that it needs
    """
    answer = calls.judge(table)
    if answer.number != Number.OK:
        raise Refused(answer, Records(b"", answer))


def forecast(table: Bytes, scene: Bytes) -> Figures:
    """How much a run will need, and how it will end. Raises no `Refused`: the number tells.

    >>> forecast(bytes.fromhex("01020101000600080175"), b'<r xmlns="u">a<x/></r>')._asdict()
    {'number': <Number.FINISHED: 9>, 'place': 22, 'records': 7, 'units': 1, 'strands': 1, 'depth': 2}
    """
    return calls.forecast(lend(table), lend(scene))


def run(table: Bytes, scene: Bytes, room: Optional[int] = None) -> Records:
    """The records of a whole scene. Raises `Refused`, with the records so far, where the scene cannot be read to its end.

    The output is set aside by the forecast; with room it has so many bytes, and 25 is possible.

    >>> table, scene = bytes.fromhex("01020101000600080175"), b'<r xmlns="u">a<x/></r>'
    >>> records = run(table, scene)
    >>> [(record.kind.name, record.part(scene)) for record in records][:3]
    [('OPEN', b''), ('START', b'r'), ('TEXT', b'a')]
    >>> run(table, scene[:15])
    Traceback (most recent call last):
    calcivorne.refusals.Refused: 1 at 15 (line 1, column 16): the scene ends here, and nothing else is wrong so far
    """
    records = _run(table, scene, room)
    if records.answer.number != Number.FINISHED:
        raise refusal(records.answer, records, scene)
    return records


def _run(table: Bytes, scene: Bytes, room: Optional[int]) -> Records:
    """What is lent here is given back before `run` raises, so that a host may change its scene where it handles the exception."""
    lent_table, lent_scene = lend(table), lend(scene)
    if room is None:
        room = SIZE * calls.forecast(lent_table, lent_scene).records
    out = bytearray(natural("room", room))
    answer = calls.run(lent_table, lent_scene, out)
    return Records(part(out, 0, SIZE * answer.records), answer)


def locate(table: Bytes, scene: Bytes, class_: int, uri_offset: int, uri_length: int) -> Uri:
    """Where the namespace URI of a record stands, by the record's class, URI offset and URI length: the empty part at the scene's start where there is none.

    >>> locate(bytes.fromhex("01020101000600080175"), b"", 1, 0, 0)
    Uri(source=<Source.TABLE: 0>, offset=9, length=1)
    """
    natural("class_", class_, 255)
    return calls.uri(table, scene, class_, natural("uri_offset", uri_offset), natural("uri_length", uri_length))


def uri(table: Bytes, scene: Bytes, record: Record) -> bytes:
    """The namespace URI of a start, an end or an attribute. Empty for no namespace, for the prefix xml, and for the other records.

    >>> table, scene = bytes.fromhex("01020101000600080175"), b'<r xmlns="u">a<x xmlns="urn:q"/></r>'
    >>> [uri(table, scene, record) for record in run(table, scene) if record.kind == Kind.START]
    [b'u', b'urn:q']
    """
    if record.kind == Kind.OPEN:
        return b""
    found = locate(table, scene, record.class_, record.uri_offset, record.uri_length)
    return part(table if found.source == Source.TABLE else scene, found.offset, found.length)
