"""The shared library: where it is looked for, its version, its calls."""
import ctypes
import os
from typing import List

SONAME = "libcalcivorne.so.2"
VERSION = (2, 0, 0)

SLICE = [ctypes.c_void_p, ctypes.c_size_t]
NUMBER = ctypes.c_uint64
NUMBERS = [ctypes.POINTER(NUMBER)]
CALLS = {
    "judge": SLICE + NUMBERS,
    "run": SLICE * 3 + NUMBERS,
    "forecast": SLICE * 2 + NUMBERS,
    "fresh": SLICE,
    "step": SLICE * 4 + NUMBERS,
    "advance": SLICE * 3 + [NUMBER] + SLICE + NUMBERS,
    "ask": SLICE * 4 + NUMBERS,
    "commit": SLICE * 5 + NUMBERS,
    "uri": SLICE * 2 + [ctypes.c_uint8, NUMBER, NUMBER] + NUMBERS,
}
SIZES = ["session_size", "offer_size"]


def places() -> List[str]:
    """Where the library is looked for, in this order; the last is a bare name, which the system's loader looks for.

    The file that the environment's CALCIVORNE_LIBRARY names is the only one, where it names one.
    """
    named = os.environ.get("CALCIVORNE_LIBRARY", "")
    if named:
        return [named]
    package = os.path.dirname(os.path.abspath(__file__))
    above = os.path.dirname(os.path.dirname(package))
    return [os.path.join(folder, SONAME) for folder in (package, above, os.path.join(above, "target", "lib"))] + [SONAME]


def load() -> ctypes.CDLL:
    """The library of the first of the places that has one. An ImportError says what was looked for, or what is wrong with what was found."""
    looked = places()
    for place in looked:
        if os.path.isfile(place):
            return _checked(place)
    try:
        return _checked(looked[-1])
    except OSError as error:
        listed = "".join(f"\n  {place}" for place in looked)
        raise ImportError(f"calcivorne: the shared library is missing or cannot be loaded ({error}). Looked for:{listed}\n"
                          f"./build makes it in target/lib; CALCIVORNE_LIBRARY may name the file.") from None


def _checked(place: str) -> ctypes.CDLL:
    library = ctypes.CDLL(os.path.abspath(place) if os.path.isfile(place) else place)
    try:
        library.calcivorne_version.restype = NUMBER
        library.calcivorne_version.argtypes = []
    except AttributeError:
        raise ImportError(f"calcivorne: {place} has no calcivorne_version: it is not the library, or one from before 2.0.0") from None
    found = int(library.calcivorne_version())
    major, minor, patch = found // 10000, found // 100 % 100, found % 100
    if major != VERSION[0] or minor < VERSION[1]:
        raise ImportError(f"calcivorne: {place} is version {major}.{minor}.{patch}; this package needs {VERSION[0]}.{VERSION[1]} or a later {VERSION[0]}")
    _declare(library)
    return library


def _declare(library: ctypes.CDLL) -> None:
    returned = [(name, parameters, ctypes.c_uint8) for name, parameters in CALLS.items()]
    sizes = [(name, [], NUMBER) for name in SIZES]
    for name, parameters, result in [*returned, *sizes]:
        call = getattr(library, "calcivorne_" + name)
        call.argtypes, call.restype = parameters, result
