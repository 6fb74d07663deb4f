"""The library's calls over Python's bytes, with their answers as values. Sessions, offers and outputs are bytearrays that the call writes."""
from typing import Any

from .answers import Answer, Figures, Number, Source, Uri
from .lending import Bytes, Lent, lend
from .library import NUMBER, load

LIBRARY = load()
NO_BOUND = 2**64 - 1
_Answer = NUMBER * 4
_Figures = NUMBER * 6
_Span = NUMBER * 3


def _answered(call: Any, *arguments: object) -> Answer:
    found = _Answer()
    call(*arguments, found)
    number, place, events, records = found
    return Answer(Number(number), place, events, records)


def version() -> int:
    """The version of the library that is loaded: of 2.0.0 it is 20000."""
    return int(LIBRARY.calcivorne_version())


def session_size() -> int:
    """How many bytes a session takes."""
    return int(LIBRARY.calcivorne_session_size())


def offer_size() -> int:
    """How many bytes an offer takes."""
    return int(LIBRARY.calcivorne_offer_size())


def judge(table: Bytes) -> Answer:
    """Whether the table is accepted."""
    return _answered(LIBRARY.calcivorne_judge, *lend(table))


def run(table: Lent, scene: Lent, out: bytearray) -> Answer:
    """A whole scene's records, written to out."""
    return _answered(LIBRARY.calcivorne_run, *table, *scene, *lend(out))


def forecast(table: Lent, scene: Lent) -> Figures:
    """What a run of the scene needs."""
    found = _Figures()
    LIBRARY.calcivorne_forecast(*table, *scene, found)
    number, place, records, units, strands, depth = found
    return Figures(Number(number), place, records, units, strands, depth)


def fresh() -> bytearray:
    """A session at the start of a scene."""
    session = bytearray(session_size())
    LIBRARY.calcivorne_fresh(*lend(session))
    return session


def step(table: Bytes, scene: Bytes, session: bytearray, out: bytearray) -> Answer:
    """One event."""
    return _answered(LIBRARY.calcivorne_step, *lend(table), *lend(scene), *lend(session), *lend(out))


def advance(table: Bytes, scene: Bytes, session: bytearray, most: int, out: bytearray) -> Answer:
    """At most so many events."""
    return _answered(LIBRARY.calcivorne_advance, *lend(table), *lend(scene), *lend(session), most, *lend(out))


def ask(table: Bytes, scene: Bytes, session: bytearray, offer: bytearray) -> Answer:
    """What one event would give."""
    return _answered(LIBRARY.calcivorne_ask, *lend(table), *lend(scene), *lend(session), *lend(offer))


def commit(offer: bytes, session: bytearray, table: Bytes, scene: Bytes, out: bytearray) -> Answer:
    """One event, where the session and the scene's length are the offer's."""
    return _answered(LIBRARY.calcivorne_commit, *lend(offer), *lend(session), *lend(table), *lend(scene), *lend(out))


def uri(table: Bytes, scene: Bytes, class_: int, uri_offset: int, uri_length: int) -> Uri:
    """Where a class's URI stands."""
    found = _Span()
    LIBRARY.calcivorne_uri(*lend(table), *lend(scene), class_, uri_offset, uri_length, found)
    source, offset, length = found
    return Uri(Source(source), offset, length)
