"""The shared library: its calls as include/serde_qs.h declares them."""

from __future__ import annotations

import ctypes
import enum
import pathlib
from typing import Any

# The version that the module is written for, as QS_VERSION has it: a later one of the same major version and notation is right too.
WANTED = (1, 1, 3, 1)


class Status(enum.IntEnum):
    """The statuses of the header."""

    OK = 0
    TOO_SMALL = 1
    OUT_OF_MEMORY = 2
    BAD_SETTINGS = 3
    PARSE_ERROR = 4
    MISMATCH = 5
    NOT_UTF8 = 6
    BAD_SHAPE = 7
    BAD_JSON = 8
    TOO_DEEP = 9
    TOO_LARGE = 10
    TOO_LONG = 11
    ABSENT = 12
    BAD_PATH = 13


class Settings(ctypes.Structure):
    _fields_ = [
        ("max_depth", ctypes.c_size_t),
        ("form", ctypes.c_bool),
        ("array_format", ctypes.c_uint8),
        ("reject_duplicates", ctypes.c_bool),
        ("max_length", ctypes.c_size_t),
        ("max_pairs", ctypes.c_size_t),
        ("max_output", ctypes.c_size_t),
        ("reserved", ctypes.c_size_t),
    ]


class Answer(ctypes.Structure):
    _fields_ = [("len", ctypes.c_size_t), ("position", ctypes.c_size_t)]


_SETTINGS = [ctypes.POINTER(Settings)]
_TEXT = [ctypes.c_char_p, ctypes.c_size_t]
_OUT = [*_TEXT, ctypes.POINTER(Answer)]

# The arguments of each call before its buffer and its answer.
_CALLS: dict[str, list[Any]] = {
    "qs_get": [*_SETTINGS, *_TEXT, *_TEXT],
    "qs_parse": [*_SETTINGS, *_TEXT],
    "qs_read": [*_SETTINGS, *_TEXT, *_TEXT],
    "qs_explain": [*_SETTINGS, *_TEXT, *_TEXT],
    "qs_explain_fields": [*_SETTINGS, *_TEXT, *_TEXT],
    "qs_write": [*_SETTINGS, *_TEXT],
    "qs_encode": [ctypes.c_bool, *_TEXT],
    "qs_decode": [*_TEXT],
}


def _version_of(library: ctypes.CDLL) -> tuple[int, ...]:
    """The library's version. It is an ImportError if the module isn't written for it."""
    library.qs_version.restype = ctypes.c_uint32
    version = tuple(library.qs_version().to_bytes(4, "big"))
    if version[0] != WANTED[0] or version < WANTED or version[3] < WANTED[3]:
        named = [f"{it[0]}.{it[1]}.{it[2]}, notation {it[3]}" for it in (WANTED, version)]
        raise ImportError(f"this module needs the library serde_qs {named[0]} or later, and found {named[1]}")
    return version


def _load() -> ctypes.CDLL:
    beside = pathlib.Path(__file__).with_name("libserde_qs.so")
    library = ctypes.CDLL(str(beside) if beside.exists() else "libserde_qs.so.1")
    for name, taken in _CALLS.items():
        call = getattr(library, name)
        call.argtypes = [*taken, *_OUT]
        call.restype = ctypes.c_uint32
    return library


library = _load()
version = ".".join(map(str, _version_of(library)[:3]))
