"""A host in Python: sample A by one run, in an output of the size that the forecast gives, then event by event, then as it comes in, five bytes at a time.

    python3 host.py SHARED_LIBRARY
"""
import ctypes
import sys

TABLE = bytes.fromhex("01020101000600080175")
SCENE = b'<r xmlns="u">a<x/></r>'
CHUNK = 5
ROOM = 32
NO_BOUND = 2**64 - 1

Bytes, Size, Number = ctypes.c_char_p, ctypes.c_size_t, ctypes.c_uint64
Answer = Number * 4
Figures = Number * 6


def load(path):
    lib = ctypes.CDLL(path)
    read, write = [Bytes, Size], [ctypes.POINTER(ctypes.c_char), Size]
    lib.calcivorne_run.argtypes = read + read + write + [ctypes.POINTER(Number)]
    lib.calcivorne_run.restype = ctypes.c_uint8
    lib.calcivorne_forecast.argtypes = read + read + [ctypes.POINTER(Number)]
    lib.calcivorne_forecast.restype = ctypes.c_uint8
    lib.calcivorne_session_size.argtypes = []
    lib.calcivorne_session_size.restype = Number
    lib.calcivorne_fresh.argtypes = write
    lib.calcivorne_fresh.restype = ctypes.c_uint8
    lib.calcivorne_step.argtypes = read + read + write + write + [ctypes.POINTER(Number)]
    lib.calcivorne_step.restype = ctypes.c_uint8
    lib.calcivorne_advance.argtypes = read + read + write + [Number] + write + [ctypes.POINTER(Number)]
    lib.calcivorne_advance.restype = ctypes.c_uint8
    return lib


def fields(record):
    """The seven fields of a record, the most significant byte of each first."""
    ends = [0, 2, 3, 4, 7, 10, 13, 16]
    return [int.from_bytes(record[a:e], "big") for a, e in zip(ends, ends[1:])]


def whole(lib):
    """The output is set aside by the forecast."""
    figures, answer = Figures(), Answer()
    lib.calcivorne_forecast(TABLE, len(TABLE), SCENE, len(SCENE), figures)
    number, _, records, units, strands, depth = figures
    print(f"forecast: {number}, {records} records, {units} units, {strands} strands, depth {depth}")
    out = ctypes.create_string_buffer(16 * records)
    lib.calcivorne_run(TABLE, len(TABLE), SCENE, len(SCENE), out, len(out), answer)
    for i in range(answer[3]):
        print(*fields(out[16 * i:16 * i + 16]))
    print(*answer)


def fresh(lib):
    session = ctypes.create_string_buffer(lib.calcivorne_session_size())
    lib.calcivorne_fresh(session, len(session))
    return session


def event_by_event(lib, out):
    """For a host that does something at each event: where it ends, and its records alone."""
    session, answer = fresh(lib), Answer()
    while lib.calcivorne_step(TABLE, len(TABLE), SCENE, len(SCENE), session, len(session), out, len(out), answer) == 0:
        print(f"event up to {answer[1]}: {answer[3]} records")
    print(f"event by event: {answer[0]}")


def in_chunks(lib, out):
    """The scene grows: on 1, or on 9 while bytes are still to come, the next ones are appended and the same session goes on.

    The output is kept short here: on 25 the records so far are taken, and the session goes on with all of the output.
    """
    session, answer = fresh(lib), Answer()
    come = events = records = 0
    while True:
        scene = SCENE[:come]
        number = lib.calcivorne_advance(TABLE, len(TABLE), scene, len(scene), session, len(session), NO_BOUND, out, ROOM, answer)
        events += answer[2]
        records += answer[3]
        if number in (1, 9) and come < len(SCENE):
            come += CHUNK
        elif number != 25 or answer[2] == 0:
            break
    print(f"in chunks: {number}, {events} events, {records} records")


if __name__ == "__main__":
    library = load(sys.argv[1])
    whole(library)
    output = ctypes.create_string_buffer(65536)
    event_by_event(library, output)
    in_chunks(library, output)
