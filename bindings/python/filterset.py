"""Filtersets of cargo-nextest, over the library for C (libfilterset.so).

    import filterset

    workspace = filterset.Workspace.from_cargo_metadata(metadata)
    parsed = workspace.parse("deps(parser) and not test(~slow)")
    binary = filterset.Binary("path+file:///w/parser#0.1.0", "parser", "parser", "lib")
    if parsed.matches_binary(binary) is not False:
        answers = parsed.matches_tests(binary, [filterset.Test("tests::deep")])

The library is found in the folder that the environment variable FILTERSET_LIB names, beside this file, or by the system.
No two objects share anything. Use each on one thread at a time, since calls give up the interpreter's lock: parse a
filterset once for each thread. `MemoryError` says that there was not enough memory, and nothing about the arguments.
"""

import ctypes
import ctypes.util
import os
from dataclasses import dataclass
from enum import IntEnum
from typing import Iterable, List, Optional, Sequence

__all__ = [
    "Binary", "DEPTH_LIMIT", "Fault", "Filterset", "FiltersetError", "GLOBAL_TEST_GROUP", "Kind", "Platform", "Rejected",
    "Test", "Workspace", "version",
]

GLOBAL_TEST_GROUP = "@global"

# How many levels of parentheses and negations a text may have, if `Workspace.set_depth` says nothing else. That fits a
# thread with a stack of 1 MiB; one with 256 KiB bears 64 levels.
DEPTH_LIMIT = 256


class Kind(IntEnum):
    """What a filterset is for. Only TEST may have `group(..)`, and DEFAULT_FILTER has no `default()`."""

    TEST = 0
    TEST_ARCHIVE = 1
    OVERRIDE_FILTER = 2
    DEFAULT_FILTER = 3


class Platform(IntEnum):
    """The platform that a test binary is built for."""

    TARGET = 0
    HOST = 1


@dataclass(frozen=True)
class Binary:
    """A test binary, as `cargo nextest list` describes it."""

    package_id: str
    binary_id: str
    name: str
    kind: str
    platform: Platform = Platform.TARGET


@dataclass(frozen=True)
class Test:
    """A test of a binary, and the group that it is in."""

    name: str
    group: str = GLOBAL_TEST_GROUP


@dataclass(frozen=True)
class Fault:
    """A fault of a text: its code, where it is (in bytes of UTF-8), what to write there, and what to write instead."""

    code: str
    offset: int
    length: int
    label: str
    help: str


class FiltersetError(Exception):
    """A call failed: bytes that describe no workspace, or an argument without a meaning."""


class Rejected(FiltersetError):
    """A text has faults."""

    def __init__(self, text: str, faults: List[Fault]) -> None:
        super().__init__("; ".join(f"{it.label} at {it.offset}" for it in faults) or "rejected")
        self.text = text
        self.faults = faults


class _Text(ctypes.Structure):
    _fields_ = [("bytes", ctypes.c_char_p), ("length", ctypes.c_size_t)]


class _Binary(ctypes.Structure):
    _fields_ = [("package_id", _Text), ("binary_id", _Text), ("name", _Text), ("kind", _Text), ("platform", ctypes.c_uint8)]


class _Test(ctypes.Structure):
    _fields_ = [("name", _Text), ("group", _Text)]


class _Span(ctypes.Structure):
    _fields_ = [("offset", ctypes.c_size_t), ("length", ctypes.c_size_t)]


class _Handle(ctypes.Structure):
    _fields_ = [("held", ctypes.c_void_p)]


_VERSION = 1000
_OUT_OF_MEMORY, _REJECTED = 1, 4
_MEANINGS = {
    2: "the handle is empty or of another kind",
    3: "not UTF-8",
    4: "not a workspace",
    5: "invalid argument",
}


def _load() -> ctypes.CDLL:
    folders = [os.environ.get("FILTERSET_LIB"), os.path.dirname(os.path.abspath(__file__))]
    files = [os.path.join(it, "libfilterset.so") for it in folders if it]
    path = next((it for it in files if os.path.exists(it)), None) or ctypes.util.find_library("filterset")
    if not path:
        raise ImportError("libfilterset.so was not found: set FILTERSET_LIB to its folder")
    library = ctypes.CDLL(path)
    handle, text, count = ctypes.POINTER(_Handle), ctypes.c_char_p, ctypes.c_size_t
    number, size = ctypes.POINTER(ctypes.c_uint8), ctypes.POINTER(ctypes.c_size_t)
    binary, tests = ctypes.POINTER(_Binary), ctypes.POINTER(_Test)
    status = ctypes.c_uint8
    for name, result, arguments in (
        ("filterset_version", ctypes.c_uint32, []),
        ("filterset_workspace_from_cargo_metadata", status, [text, count, handle]),
        ("filterset_workspace_from_record", status, [text, count, handle]),
        ("filterset_workspace_set_groups", status, [handle, ctypes.POINTER(_Text), count]),
        ("filterset_workspace_set_depth", status, [handle, count]),
        ("filterset_workspace_set_default_filter", status, [handle, text, count, handle]),
        ("filterset_workspace_free", None, [handle]),
        ("filterset_parse", status, [handle, text, count, ctypes.c_uint8, handle]),
        ("filterset_matches_binary", status, [handle, binary, number]),
        ("filterset_matches_test", status, [handle, binary, tests, number]),
        ("filterset_matches_tests", status, [handle, binary, tests, count, number, count]),
        ("filterset_needs_groups", status, [handle, number]),
        ("filterset_print", status, [handle, number, count, size]),
        ("filterset_free", None, [handle]),
        ("filterset_fault_count", count, [handle]),
        ("filterset_fault_span", status, [handle, count, ctypes.POINTER(_Span)]),
        ("filterset_fault_text", status, [handle, count, ctypes.c_uint8, number, count, size]),
    ):
        function = getattr(library, name)
        function.restype, function.argtypes = result, arguments
    if library.filterset_version() // 1000 != _VERSION // 1000:
        raise ImportError(f"{path} is another version of the library")
    return library


_library = _load()


def version() -> str:
    """Returns the version of the library."""
    number = _library.filterset_version()
    return f"{number // 1000000}.{number // 1000 % 1000}.{number % 1000}"


def _check(status: int) -> None:
    if status == _OUT_OF_MEMORY:
        raise MemoryError("libfilterset")
    if status:
        raise FiltersetError(_MEANINGS.get(status, f"status {status}"))


def _text(text: str) -> _Text:
    encoded = text.encode()
    return _Text(encoded, len(encoded))


def _binary(binary: Binary) -> _Binary:
    parts = (_text(it) for it in (binary.package_id, binary.binary_id, binary.name, binary.kind))
    return _Binary(*parts, int(binary.platform))


def _written(call) -> str:
    """Returns the text that a call writes into the room that it is given."""
    size = 256
    while True:
        room, length = (ctypes.c_uint8 * size)(), ctypes.c_size_t()
        _check(call(room, size, ctypes.byref(length)))
        if length.value <= size:
            return bytes(room[: length.value]).decode()
        size = length.value


def _faults(handle: _Handle) -> List[Fault]:
    faults, span = [], _Span()
    for i in range(_library.filterset_fault_count(handle)):
        _check(_library.filterset_fault_span(handle, i, span))
        code, label, help = (
            _written(lambda room, size, length: _library.filterset_fault_text(handle, i, part, room, size, length))
            for part in range(3)
        )
        faults.append(Fault(code, span.offset, span.length, label, help))
    return faults


class Filterset:
    """A filterset that was parsed. `Workspace.parse` makes it."""

    def __init__(self, handle: _Handle) -> None:
        self._handle = handle

    def __del__(self) -> None:
        if getattr(self, "_handle", None) and _library:
            _library.filterset_free(self._handle)

    def __str__(self) -> str:
        """Returns a text that parses to the same filterset."""
        return _written(lambda room, size, length: _library.filterset_print(self._handle, room, size, length))

    def matches_binary(self, binary: Binary) -> Optional[bool]:
        """Returns whether the filterset matches all tests of a binary (True) or none (False), or None if that depends on
        the tests."""
        answer = ctypes.c_uint8()
        _check(_library.filterset_matches_binary(self._handle, _binary(binary), answer))
        return (False, True, None)[answer.value]

    def matches_test(self, binary: Binary, test: Test) -> bool:
        """Returns whether the filterset matches a test."""
        answer, asked = ctypes.c_uint8(), _Test(_text(test.name), _text(test.group))
        _check(_library.filterset_matches_test(self._handle, _binary(binary), asked, answer))
        return bool(answer.value)

    def matches_tests(self, binary: Binary, tests: Sequence[Test]) -> List[bool]:
        """Returns whether the filterset matches each test of a binary. Much faster than a call for each test."""
        count = len(tests)
        # (an array of no elements has no address that may be passed)
        asked = (_Test * max(count, 1))(*(_Test(_text(it.name), _text(it.group)) for it in tests))
        answers = (ctypes.c_uint8 * max(count, 1))()
        _check(_library.filterset_matches_tests(self._handle, _binary(binary), asked, count, answers, count))
        return [bool(it) for it in answers[:count]]

    def needs_groups(self) -> bool:
        """Returns whether the filterset has a `group(..)`. If it has none, the groups of tests do not matter."""
        answer = ctypes.c_uint8()
        _check(_library.filterset_needs_groups(self._handle, answer))
        return bool(answer.value)


class Workspace:
    """What filtersets are parsed against: packages, test binaries, groups, and the default filter."""

    def __init__(self, handle: _Handle) -> None:
        self._handle = handle

    def __del__(self) -> None:
        if getattr(self, "_handle", None) and _library:
            _library.filterset_workspace_free(self._handle)

    @staticmethod
    def from_cargo_metadata(metadata: bytes) -> "Workspace":
        """Makes a workspace of what `cargo metadata --format-version 1` writes. It has no custom groups, and the default
        filter `all()`."""
        handle = _Handle()
        _check(_library.filterset_workspace_from_cargo_metadata(metadata, len(metadata), handle))
        return Workspace(handle)

    @staticmethod
    def from_record(record: bytes) -> "Workspace":
        """Makes a workspace of the packages and the groups of a record. Its default filter is `all()`."""
        handle = _Handle()
        _check(_library.filterset_workspace_from_record(record, len(record), handle))
        return Workspace(handle)

    def set_groups(self, names: Iterable[str]) -> None:
        """Sets the names of the custom groups."""
        texts = [_text(it) for it in names]
        _check(_library.filterset_workspace_set_groups(self._handle, (_Text * max(len(texts), 1))(*texts), len(texts)))

    def set_depth(self, levels: int) -> None:
        """Sets how many levels of parentheses and negations a text may have that is parsed from then on; 0 if there is no
        limit. The rejected text has one fault, `NestedTooDeeply`, at the level past the limit."""
        _check(_library.filterset_workspace_set_depth(self._handle, levels))

    def set_default_filter(self, text: str) -> None:
        """Sets the default filter of filtersets that are parsed from then on. Raises `Rejected` if the text has faults."""
        encoded, faults = text.encode(), _Handle()
        status = _library.filterset_workspace_set_default_filter(self._handle, encoded, len(encoded), faults)
        self._reject(status, text, faults)

    def parse(self, text: str, kind: Kind = Kind.TEST) -> Filterset:
        """Parses a filterset. Raises `Rejected` if it has faults, or nests more deeply than the limit."""
        encoded, handle = text.encode(), _Handle()
        status = _library.filterset_parse(self._handle, encoded, len(encoded), int(kind), handle)
        self._reject(status, text, handle)
        return Filterset(handle)

    @staticmethod
    def _reject(status: int, text: str, handle: _Handle) -> None:
        if status == _REJECTED:
            try:
                raise Rejected(text, _faults(handle))
            finally:
                _library.filterset_free(handle)
        _check(status)
