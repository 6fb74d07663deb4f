"""Calcivorne for hosts in Python: an XML scene divided into sections by namespace, and the records of each handed to the checkers that a rule table names.

    judge(table)             whether a rule table is accepted
    run(table, scene)        the records of a whole scene
    forecast(table, scene)   how much a run will need
    Session(table)           a scene that comes in piece by piece, or is read event by event
    uri(table, scene, record)  the namespace URI of a record

A table and a scene are bytes, or any object that lends its bytes: bytearray, memoryview, mmap. bytes, and what may be written, are read where they stand;
of a read-only view or mapping a copy is made for the call. Other threads run during a call, and none may then write what was handed to it.

>>> table = bytes.fromhex("01020101000600080175")
>>> scene = b'<r xmlns="u">a<x/></r>'
>>> for record in run(table, scene):
...     print(record.unit, record.kind.name, record.part(scene).decode())
0 OPEN 
0 START r
0 TEXT a
0 START x
0 END x
0 END r
0 CLOSE 
>>> try:
...     run(table, b'<r xmlns="u">\\n  <x></y></r>')
... except Refused as refused:
...     print(refused, len(refused.records))
4 at 19 (line 2, column 6): an end tag's name is not that of the open element 4
"""
from .answers import Answer, Figures, Number, Source, Uri
from .calls import offer_size, session_size, version
from .lending import Bytes
from .records import Kind, Record, Records
from .refusals import Refused
from .scenes import forecast, judge, locate, run, uri
from .sessions import Asked, Offer, Session

__all__ = [
    "Answer", "Asked", "Bytes", "Figures", "Kind", "Number", "Offer", "Record", "Records", "Refused", "Session", "Source", "Uri",
    "forecast", "judge", "locate", "offer_size", "run", "session_size", "uri", "version",
]
__version__ = "2.0.0"
