"""The calls of the library over Python's values."""

from __future__ import annotations

import collections
import ctypes
import dataclasses
import datetime
import decimal
import enum
import functools
import json
import types
import uuid
from typing import TYPE_CHECKING, Any, TypedDict, Union, cast

from ._library import Answer, Status, library
from ._library import Settings as _Settings

if TYPE_CHECKING:
    from typing_extensions import Unpack

Text = Union[str, bytes, bytearray, memoryview]

INDEXED, EMPTY_INDEXED, UNINDEXED = range(3)


class Settings(TypedDict, total=False):
    """How a querystring is read and written. The module's docstring describes each setting and its default."""

    max_depth: int
    form: bool
    array_format: int
    reject_duplicates: bool
    max_length: int
    max_pairs: int
    max_output: int


# For the forms and queries of strangers, as `qs_web` of the header.
WEB = cast(Settings, types.MappingProxyType({"form": True, "max_length": 1 << 20, "max_pairs": 4096}))

_STATUSES = {int(status): status for status in Status}


class QuerystringError(ValueError):
    """An error of the library: its `Status`, and its position in the querystring, the shape or the JSON.

    If a shape doesn't read the querystring, `path` is the path to the wrong part, such as `user[age]`. It is empty if there is no such
    part.
    """

    def __init__(self, status: int, position: int, message: str) -> None:
        super().__init__(status, position, message)
        self.path = ""
        self.status = _STATUSES.get(status, status)
        self.position = position
        self.message = message or "out of memory"

    def __str__(self) -> str:
        return self.message


def _sized(text: Text) -> tuple[bytes, int]:
    if isinstance(text, str):
        try:
            text = text.encode()
        except UnicodeEncodeError as error:
            raise QuerystringError(Status.NOT_UTF8, error.start, "a lone surrogate can't be encoded as UTF-8") from None
    elif not isinstance(text, (bytes, bytearray, memoryview)):
        raise TypeError(f"str or bytes are wanted, and not {type(text).__name__}")
    text = bytes(text)
    return text, len(text)


def _answered(call: Any, *arguments: Any) -> tuple[bytes, int]:
    """What a call returns, and its position. The last of the arguments is the length of the call's input. If the buffer is too small, the
    call is made again with a larger one.
    """
    answer = Answer()
    size = 256 + 2 * arguments[-1]
    while True:
        out = ctypes.create_string_buffer(size)
        status = call(*arguments, out, size, answer)
        if answer.len <= size:
            break
        size = answer.len
    text = out[: answer.len]
    if status:
        raise QuerystringError(status, answer.position, text.decode(errors="replace"))
    return text, answer.position


def _result(call: Any, *arguments: Any) -> bytes:
    """What a call returns."""
    return _answered(call, *arguments)[0]


def _number(number: int) -> int:
    """The number, or one that the library rejects if ctypes would truncate it to fit its field."""
    return number if 0 <= number < 255 else 255


def _limit(number: int) -> int:
    if not 0 <= number < 1 << 64:
        raise QuerystringError(Status.BAD_SETTINGS, 0, f"a limit can't be {number}")
    return number


@functools.lru_cache(maxsize=32, typed=True)
def _settings(
    max_depth: int = 5,
    form: bool = False,
    array_format: int = INDEXED,
    reject_duplicates: bool = False,
    max_length: int = 0,
    max_pairs: int = 0,
    max_output: int = 0,
) -> _Settings:
    limits = map(_limit, (max_length, max_pairs, max_output))
    return _Settings(_number(max_depth), form, _number(array_format), reject_duplicates, *limits)


def _dict(pairs: list[tuple[str, Any]]) -> dict[str, Any]:
    made = dict(pairs)
    if len(made) < len(pairs):
        (twice, _), *_ = collections.Counter(name for name, _ in pairs).most_common(1)
        raise QuerystringError(Status.MISMATCH, 0, f"two keys of a map have the text `{twice}`")
    return made


_dicts = json.JSONDecoder(object_pairs_hook=_dict)
_pairs = json.JSONDecoder(object_pairs_hook=list)


def _decoded(text: bytes, pairs: bool = False) -> Any:
    return (_pairs if pairs else _dicts).decode(text.decode())


def get(path: Text, query: Text, default: Any = None, **settings: Unpack[Settings]) -> Any:
    """Gets the decoded value at a path of the querystring, such as `user[name]`, or `ids[0]` for the first item of a list. Returns
    `default` if the path leads nowhere.

    The path is a key, escaped as in the querystring. A key without a value, as in `a`, gives an empty result. Several values, as in
    `a=1&a=2`, give the last, unless the settings reject them. It is an error if the path leads to a map.
    """
    try:
        value = _result(library.qs_get, _settings(**settings), *_sized(path), *_sized(query))
    except QuerystringError as error:
        if error.status == Status.ABSENT:
            return default
        raise
    return _text(value, "the value isn't UTF-8")


def parse(query: Text, **settings: Unpack[Settings]) -> Any:
    """Reads the querystring, whatever it holds: a dict of strings, None, lists and dicts, or a list.

    A map whose keys are exactly 0 to n-1 is a list, and any other map a dict. A key alone, as `a`, is None, and a value without a key is
    under the empty name. An empty querystring is `{}`. It is an error if two keys of one map have the same text, as in `1=a&%31=b`.

    `loads(dumps(x)) == x` for each dict or list `x` of strings, None, lists and dicts, if it isn't nested too deep, no list, dict or name
    in it is empty, and no name consists of digits.
    """
    return _decoded(_result(library.qs_parse, _settings(**settings), *_sized(query)))


def read(shape: Text, query: Text, *, pairs: bool = False, **settings: Unpack[Settings]) -> Any:
    """Reads the querystring by a shape, such as `{user: {name: text}}`.

    A shape is text in the library's notation, or what `shape_of` returns for a class. Two keys of one map may have the same text, as in
    `1=a&%31=b`. That is an error, unless `pairs` is true: then each dict is a list of pairs instead.
    """
    try:
        text = _result(library.qs_read, _settings(**settings), *_sized(shape), *_sized(query))
    except QuerystringError as error:
        if error.status in (Status.MISMATCH, Status.NOT_UTF8):
            error.path, _ = explain(shape, query, **settings) or ("", "")
        raise
    return _decoded(text, pairs)


def explain(shape: Text, query: Text, **settings: Unpack[Settings]) -> tuple[str, str] | None:
    """Explains in one line why a shape doesn't read the querystring. Returns the path to the wrong part, and the line, which begins with
    the path. The path is empty if the querystring can't be parsed or is wrong as a whole. Returns None if the shape reads the querystring.
    """
    line, path_len = _answered(library.qs_explain, _settings(**settings), *_sized(shape), *_sized(query))
    return (line[:path_len].decode(), line.decode()) if line else None


def explain_fields_by_shape(shape: Text, query: Text, **settings: Unpack[Settings]) -> list[tuple[str, str]]:
    """Explains each field of a struct that a shape doesn't read: the path to the wrong part, and the reason."""
    lines = _result(library.qs_explain_fields, _settings(**settings), *_sized(shape), *_sized(query)).decode()
    return [_path_and_reason(line) for line in lines.split("\n")[:-1]]


def _path_and_reason(line: str) -> tuple[str, str]:
    # a path has no blank, and the first word of a reason no colon at its end
    word, _, reason = line.partition(" ")
    return (word[:-1], reason) if word.endswith(":") else ("", line)


def _text(value: bytes | bytearray, message: str) -> str:
    try:
        return value.decode()
    except UnicodeDecodeError as error:
        raise QuerystringError(Status.NOT_UTF8, error.start, message) from None


_ATOMS = frozenset((str, int, float, bool, type(None)))


def _named(value: Any) -> Any:
    """The value, with each NamedTuple that is in its lists and dicts as a dict, where the module json would write a list."""
    if type(value) in _ATOMS:
        return value
    if isinstance(value, dict):
        return value if _ATOMS.issuperset(map(type, value.values())) else {key: _named(part) for key, part in value.items()}
    if isinstance(value, tuple) and hasattr(value, "_asdict"):
        return _named(value._asdict())
    if isinstance(value, (list, tuple)):
        return value if _ATOMS.issuperset(map(type, value)) else [_named(part) for part in value]
    return value


@functools.lru_cache(maxsize=256)
def _names(cls: type) -> list[tuple[str, str]] | None:
    """The names of a dataclass's fields, in the querystring and in the class."""
    if not dataclasses.is_dataclass(cls):
        return None
    return [(field.metadata.get("name", field.name), field.name) for field in dataclasses.fields(cls)]


def _plain(value: Any) -> Any:
    """What is written for a value that the module json doesn't know."""
    names = _names(type(value))
    if names is not None:
        return {key: _named(getattr(value, name)) for key, name in names}
    if isinstance(value, enum.Enum):
        return _named(value.value)
    if isinstance(value, (bytes, bytearray)):
        return _text(value, "bytes can only be written where they are UTF-8")
    if isinstance(value, (datetime.date, datetime.time)):
        return value.isoformat()
    if isinstance(value, uuid.UUID) or (isinstance(value, decimal.Decimal) and value.is_finite()):
        return str(value)
    if isinstance(value, (set, frozenset)):
        return _named(sorted(value, key=str))
    raise TypeError(f"a {type(value).__name__} can't be written")


_json = json.JSONEncoder(default=_plain, ensure_ascii=False, allow_nan=False).encode


def write(value: Any, **settings: Unpack[Settings]) -> str:
    """Writes the value as a querystring: anything that the module json writes, and the types of `shape_of`, with keys as in json. Bytes
    have to be UTF-8. Sets are written in the order of their texts.
    """
    return _result(library.qs_write, _settings(**settings), *_sized(_json(_named(value)))).decode()


loads = parse
dumps = write


def encode(text: Text, form: bool = False) -> str:
    """Encodes the text or bytes for form mode or query mode."""
    return _result(library.qs_encode, form, *_sized(text)).decode()


def decode(text: Text) -> bytes:
    """Decodes the text or bytes to bytes: `+` is a space, and `%` with two hexadecimal digits is one byte."""
    return _result(library.qs_decode, *_sized(text))
