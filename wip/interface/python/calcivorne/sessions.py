"""Sessions: scenes that come in piece by piece, or are read event by event."""
from typing import List, NamedTuple, Optional, Tuple

from . import calls
from .answers import Answer, Number
from .lending import Bytes, natural, owned, part
from .records import SIZE, Record, Records
from .refusals import refusal
from .scenes import uri

ROOM = 65536


class Offer:
    """What `Session.ask` hands out: a session and a scene's length. It may be kept, stored by `bytes`, and made again of any bytes: commit judges them."""

    def __init__(self, data: Bytes) -> None:
        self._data = owned(data)

    def __bytes__(self) -> bytes:
        return self._data


class Asked(NamedTuple):
    """What one event would give: where it ends, how many records it would write, and the offer to commit. With 255 the offer has no bytes."""

    answer: Answer
    offer: Offer


class Session:
    """Where a run over a scene is, and the scene as far as it has come.

    >>> session = Session(bytes.fromhex("01020101000600080175"))
    >>> for piece in (b'<r xmlns="u">a<', b'x/></r', b'>'):
    ...     print([record.kind.name for record in session.feed(piece)])
    ['OPEN', 'START', 'TEXT']
    ['START', 'END']
    ['END', 'CLOSE']
    >>> session.finish().answer.number
    <Number.FINISHED: 9>

    The table is copied. The scene given here is copied too, and is not read until a call asks for events. room is the length of the output in bytes; feed
    and finish make it longer where a single event needs it.

    A session belongs to one thread at a time; sessions of different threads go on side by side. Other threads run during a call: none may then write
    the bytes that were handed to it.
    """

    def __init__(self, table: Bytes, scene: Bytes = b"", *, room: int = ROOM) -> None:
        self._table = owned(table)
        self._scene = bytearray(owned(scene))
        self._session = calls.fresh()
        self._out = bytearray(natural("room", room))

    @classmethod
    def stored(cls, data: Bytes, table: Bytes, scene: Bytes = b"", *, room: int = ROOM) -> "Session":
        """A session of stored bytes, over its table and its scene. The bytes may be any: calls judge them, with 20, or with 255 where they are too few.

        >>> table = bytes.fromhex("01020101000600080175")
        >>> before = Session(table, b'<r xmlns="u">a<x/></r>')
        >>> before.step().answer.place
        13
        >>> after = Session.stored(bytes(before), table, before.scene)
        >>> after.step().answer.place
        14
        """
        session = cls(table, scene, room=room)
        session._session = bytearray(owned(data))
        return session

    def __bytes__(self) -> bytes:
        return bytes(self._session)

    @property
    def scene(self) -> memoryview:
        """The scene so far, to be read. Where it is still held when the scene grows, the scene is copied then, and this one stays as it was."""
        return memoryview(self._scene).toreadonly()

    def append(self, data: Bytes) -> None:
        """The scene grows by these bytes; no event is read."""
        try:
            self._scene += owned(data)
        except BufferError:
            self._scene = self._scene + owned(data)

    def feed(self, data: Bytes) -> Records:
        """The scene grows by these bytes: the records of the events that are whole now.

        Raises `Refused`, with the records so far, where the scene cannot go on so. The session is then where it was refused, and the scene keeps the bytes.
        """
        self.append(data)
        return self._rest((Number.SCENE_ENDS, Number.FINISHED))

    def finish(self) -> Records:
        """The scene is whole: the records that are left, of which there are none where all was fed.

        Raises `Refused`, with 1 where the scene ends too early. More may be fed then.

        >>> session = Session(bytes.fromhex("01020101000600080175"))
        >>> session.feed(b"<rig>\\n <ar")
        <2 records of 2 events, 1 at 10>
        >>> session.finish()
        Traceback (most recent call last):
        calcivorne.refusals.Refused: 1 at 10 (line 2, column 5): the scene ends here, and nothing else is wrong so far
        """
        return self._rest((Number.FINISHED,))

    def _rest(self, allowed: Tuple[Number, ...]) -> Records:
        parts: List[bytes] = []
        events = 0
        while True:
            taken = self.advance()
            parts.append(bytes(taken))
            events += taken.answer.events
            if taken.answer.number != Number.OUTPUT_FULL:
                break
            if taken.answer.events == 0:
                self._out = bytearray(SIZE * self.ask().answer.records)
        data = b"".join(parts)
        answer = taken.answer._replace(events=events, records=len(data) // SIZE)
        records = Records(data, answer)
        if answer.number not in allowed:
            raise refusal(answer, records, self._scene)
        return records

    def step(self, room: Optional[int] = None) -> Records:
        """One event: its records, and the answer with them. Raises no `Refused`.

        The output has so many bytes, or the session's: 25 says that the event needs more. With another number than 0 nothing has changed.

        >>> session = Session(bytes.fromhex("01020101000600080175"), b'<r xmlns="u">a<x/></r>')
        >>> session.step(room=16).answer.number, session.step(room=32)
        (<Number.OUTPUT_FULL: 25>, <2 records of 1 events, 0 at 13>)
        """
        out = self._output(room)
        return _written(out, calls.step(self._table, self._scene, self._session, out))

    def advance(self, most: Optional[int] = None, room: Optional[int] = None) -> Records:
        """At most so many events, or all: their records, and the answer with them. Raises no `Refused`.

        25 says that the next event's records exceed what is left of the output: the session goes on behind the events that were read.
        """
        out = self._output(room)
        bound = calls.NO_BOUND if most is None else natural("most", most)
        return _written(out, calls.advance(self._table, self._scene, self._session, bound, out))

    def ask(self) -> Asked:
        """What one event would give. Nothing changes.

        >>> session = Session(bytes.fromhex("01020101000600080175"), b'<r xmlns="u">a<x/></r>')
        >>> answer, offer = session.ask()
        >>> answer.place, answer.records
        (13, 2)
        >>> session.commit(offer).answer.number, session.commit(offer).answer.number
        (<Number.OK: 0>, <Number.NOT_OFFERED: 30>)
        """
        offer = bytearray(calls.offer_size())
        answer = calls.ask(self._table, self._scene, self._session, offer)
        return Asked(answer, Offer(b"" if answer.number == Number.SLICE_TOO_SHORT else offer))

    def commit(self, offer: Offer, room: Optional[int] = None) -> Records:
        """The event of an offer, as `step` takes it; 30 where the session, or the scene's length, is not the offer's. Raises no `Refused`."""
        out = self._output(room)
        return _written(out, calls.commit(bytes(offer), self._session, self._table, self._scene, out))

    def uri(self, record: Record) -> bytes:
        """The namespace URI of a record of this session."""
        return uri(self._table, self._scene, record)

    def _output(self, room: Optional[int]) -> bytearray:
        return self._out if room is None else bytearray(natural("room", room))


def _written(out: bytearray, answer: Answer) -> Records:
    return Records(part(out, 0, SIZE * answer.records), answer)
