"""The library for C as Python sees it: the structs of chanv.h, and where the library is."""

import operator
import os
from array import array
from collections.abc import Iterable, Iterator, Sequence
from contextlib import contextmanager
from ctypes import CDLL, POINTER, Structure, byref, c_char_p, c_int, c_size_t, c_ssize_t, c_uint8
from ctypes import c_uint16, c_uint32, c_void_p, cast, py_object, pythonapi, string_at
from itertools import chain
from pathlib import Path
from typing import Any

VERSION = "1.0.0"
SONAME = "libchanv.so.1"

# the codes that this package tells apart
YES, NO, NO_ROOM = 0, 1, 11

# what a program may be allowed
HANGING, INTERRUPTING, ENDING_CHAINS = 1, 2, 4

# the index of no row of a table
NOBODY = c_size_t(-1).value

# the bit of chanv_version that says that nothing of the library is proved
NOT_PROVED = 0x80000000

PACKAGES_OF_PIP = ("site-packages", "dist-packages")


class Error(Exception):
    """What this package raises of its own."""


class WrongLibrary(Error, ImportError):
    """There is no library, or what is there isn't one of this version; the first call raises it."""


class Extent(Structure):
    _fields_ = [("first", c_uint16), ("last", c_uint16)]


class Area(Structure):
    _fields_ = [("start", c_uint32), ("len", c_uint32)]


class Bytes(Structure):
    _fields_ = [("at", c_void_p), ("len", c_size_t)]


class Extents(Structure):
    _fields_ = [("at", POINTER(Extent)), ("len", c_size_t)]


class Areas(Structure):
    _fields_ = [("at", POINTER(Area)), ("len", c_size_t)]


class Source(Structure):
    _fields_ = [
        ("storage", Bytes),
        ("start", c_uint32),
        ("limit", c_uint32),
        ("device", c_uint16),
    ]


class Job(Structure):
    _fields_ = [
        ("storage", Bytes),
        ("extents", Extents),
        ("fetch", Areas),
        ("store", Areas),
        ("start", c_uint32),
        ("limit", c_uint32),
        ("device", c_uint16),
        ("mask", c_uint8),
    ]


class Verdict(Structure):
    _fields_ = [("extent", c_size_t), ("address", c_uint32), ("reason", c_uint32)]


class Place(Structure):
    _fields_ = [
        ("address", c_uint32),
        ("entered", c_uint8),
        ("after_transfer", c_uint8),
        ("unused", c_uint16),
    ]


class Evidence(Structure):
    _fields_ = [
        ("reason", c_uint32),
        ("range", Area),
        ("gap", Area),
        ("address", c_uint32),
        ("taker", c_uint32),
        ("storage_len", c_uint32),
        ("code", c_uint32),
        ("bits", c_uint32),
        ("given", c_uint32),
        ("outside", c_uint32),
        ("value", c_uint32),
        ("below", c_uint32),
        ("sets_mask", c_uint32),
        ("addresses", c_uint32 * 6),
        ("bytes", c_uint8 * 6),
        ("mask", c_uint8),
        ("unused", c_uint8),
    ]


class Explanation(Structure):
    _fields_ = [
        ("verdict", Verdict),
        ("path_count", c_size_t),
        ("second_path_count", c_size_t),
        ("evidence", Evidence),
        ("unused", c_uint32),
    ]


class Rows(Structure):
    _fields_ = [
        ("extents", Extents),
        ("fetch", Areas),
        ("store", Areas),
        ("keep", Areas),
        ("storage_len", c_uint32),
        ("mask", c_uint8),
    ]


class Program(Structure):
    _fields_ = [
        ("rows", Rows),
        ("kept", Bytes),
        ("start", c_uint32),
        ("device", c_uint16),
    ]


class Row(Structure):
    _fields_ = [("program", Program), ("stores", Area), ("keeps", Area)]


class Refusal(Structure):
    _fields_ = [
        ("extent", c_size_t),
        ("row", c_size_t),
        ("code", c_uint32),
        ("value", c_uint32),
    ]


class Intake(Structure):
    _fields_ = [
        ("verdict", Verdict),
        ("refusal", Refusal),
        ("hangs_at", c_uint32),
        ("interrupts_at", c_uint32),
        ("ends_chaining_at", c_uint32),
        ("may_hang", c_uint8),
        ("interrupts", c_uint8),
        ("ends_chaining", c_uint8),
        ("hangs_entered", c_uint8),
    ]


class _Buffer(Structure):
    """Py_buffer: how Python hands out the memory of an object."""

    _fields_ = [
        ("at", c_void_p),
        ("object", py_object),
        ("len", c_ssize_t),
        ("item_len", c_ssize_t),
        ("read_only", c_int),
        ("dimensions", c_int),
        ("format", c_char_p),
        ("shape", c_void_p),
        ("strides", c_void_p),
        ("suboffsets", c_void_p),
        ("internal", c_void_p),
    ]


# by index, so that these aren't the functions that other packages set types of
_get_buffer = pythonapi["PyObject_GetBuffer"]
_get_buffer.argtypes = [py_object, POINTER(_Buffer), c_int]
_release_buffer = pythonapi["PyBuffer_Release"]
_release_buffer.argtypes = [POINTER(_Buffer)]
_release_buffer.restype = None


def quiet(storage: Any) -> bytes:
    """Bytes, which nothing changes: a copy of storage, unless it is `bytes`. An object without
    bytes in a row, such as a number or every other byte of a buffer, is a TypeError."""
    return storage if isinstance(storage, bytes) else bytes(memoryview(storage).cast("B"))


def never_changes(storage: Any) -> bool:
    """Whether an object with bytes is `bytes` or a view of them, so only a copy of main storage."""
    return isinstance(memoryview(storage).obj, bytes)


@contextmanager
def bytes_of(storage: Any) -> Iterator[Bytes]:
    """The memory of an object with bytes in a row, as long as the block lasts; without a copy."""
    buffer = _Buffer()
    _get_buffer(memoryview(storage).cast("B"), byref(buffer), 0)
    try:
        yield Bytes(buffer.at, buffer.len)
    finally:
        _release_buffer(byref(buffer))


def number(value: Any, bits: int) -> int:
    """A number, or an OverflowError if C would cut it to fewer bits."""
    whole: int = operator.index(value)
    if not 0 <= whole < 1 << bits:
        raise OverflowError(f"{whole} isn't a number of {bits} bits without a sign")
    return whole


def pairs(rows: Iterable[Sequence[int]], bits: int) -> tuple[tuple[int, int], ...]:
    """Pairs of numbers that nothing can change; rows from an iterator are taken from it here."""
    return tuple((number(first, bits), number(second, bits)) for first, second in rows)


# Lists for C, of pairs that were checked, and bytes. Each holds its array, which lasts as long.


def extents(made: Sequence[tuple[int, int]]) -> Extents:
    words = array("H", chain.from_iterable(made))
    return Extents((Extent * len(made)).from_buffer(words), len(made))


def areas(made: Sequence[tuple[int, int]]) -> Areas:
    words = array("I", chain.from_iterable(made))
    return Areas((Area * len(made)).from_buffer(words), len(made))


def bytes_at(held: Any) -> Bytes:
    at = c_char_p(held) if isinstance(held, bytes) else held
    return Bytes(cast(at, c_void_p), len(held))


def rows_of(made: Extents | Areas) -> list[tuple[int, int]]:
    """The pairs of a list that the library wrote."""
    rows = made.at[: made.len]
    if isinstance(made, Extents):
        return [(it.first, it.last) for it in rows]
    return [(it.start, it.len) for it in rows]


def held_bytes(made: Bytes) -> bytes:
    return string_at(made.at, made.len)


def _rooms() -> Iterator[Path]:
    """Where a library of this package may be: in the package, if it came as a wheel with a library;
    `lib` of the prefix in which `make install` or pip put the package; or `out` of the checkout that
    it is a part of."""
    here = Path(__file__).resolve()
    yield here.parent
    is_installed = here.parts[-5:-1] == ("share", "chanv", "python", "chanv")
    is_of_pip = here.parts[-5:-4] == ("lib",) and here.parts[-3] in PACKAGES_OF_PIP
    is_here = here.parts[-3:-1] == ("python", "chanv")
    if is_installed or is_of_pip:
        yield here.parents[4] / "lib"
    elif is_here and (here.parents[1] / "pyproject.toml").is_file():
        yield here.parents[2] / "out"


def _found() -> str:
    """CHANV_LIBRARY, or else the library of this package, or else its name, for the system."""
    if "CHANV_LIBRARY" in os.environ:
        return os.environ["CHANV_LIBRARY"]
    names = SONAME, f"libchanv.so.{VERSION}"
    files = (room / name for room in _rooms() for name in names)
    return next((str(file) for file in files if file.is_file()), SONAME)


def version_of(library: CDLL) -> str:
    """What chanv_version says, with `+not.proved` if nothing of the library is proved."""
    library.chanv_version.restype = c_uint32
    packed: int = library.chanv_version()
    proof = "+not.proved" if packed & NOT_PROVED else ""
    return f"{packed >> 16 & 0x7FFF}.{packed >> 8 & 255}.{packed & 255}{proof}"


def _load() -> CDLL:
    path = _found()
    try:
        library = CDLL(path)
    except OSError as error:
        if os.sep in path and os.path.exists(path):
            raise WrongLibrary(f"{path} isn't chanv's library: {error}") from error
        told = "; CHANV_LIBRARY can name it" if path == SONAME else ""
        raise WrongLibrary(f"there is no library {path}{told}: {error}") from error
    try:
        version = version_of(library)
    except AttributeError as error:
        raise WrongLibrary(f"{path} isn't chanv's library: {error}") from error
    first, second = version.split(".")[:2]
    wanted, least = VERSION.split(".")[:2]
    if first != wanted or int(second) < int(least):
        raise WrongLibrary(f"{path} is version {version}, and this package needs {VERSION}")
    return library


library: CDLL


def __getattr__(name: str) -> Any:
    """The library is loaded when it is first asked for, so that help works without it."""
    if name != "library":
        raise AttributeError(f"module {__name__!r} has no attribute {name!r}")
    return globals().setdefault(name, _load())
