"""What reads a type: the readers of texts (numbers with a point, dates, enums and the like), and those of what holds others."""

from __future__ import annotations

import datetime
import decimal
import enum
import json
import math
import re
import typing
import uuid
from typing import Any, Callable, NamedTuple, Optional

from ._calls import encode


class Unread(Exception):
    """A value that a hint doesn't read, and what is expected. `path` has the keys to it, the last first."""

    def __init__(self, why: str, expected: str = "") -> None:
        super().__init__(why)
        self.expected = expected
        self.path: list[Any] = []


def _unread(expected: str, text: str) -> Unread:
    return Unread(f"expected {expected}, found the text {json.dumps(text, ensure_ascii=False)}", expected)


class Reader(NamedTuple):
    """What reads a type: its shape, and a function that makes an instance of what the shape reads, or raises `Unread`. If the type can be
    read from a text, `of_text` does it. A class has its fields and their readers in `parts`.
    """

    shape: str
    make: Callable[[Any], Any]
    of_text: Optional[Callable[[str], Any]] = None
    parts: tuple[tuple[Field, Reader], ...] = ()


class Field(NamedTuple):
    """A field of a class: its name there and in the querystring, its hint, and whether it may be left out."""

    name: str
    key: str
    hint: Any
    is_optional: bool


def itself(value: Any) -> Any:
    return value


def _parser(expected: str, pattern: str, parse: Callable[[str], Any]) -> Callable[[str], Any]:
    """A function of a text that fits the pattern and that `parse` takes without a ValueError."""
    fits = re.compile(pattern, re.ASCII).fullmatch

    def parsed(text: str) -> Any:
        try:
            if fits(text):
                return parse(text)
        except ValueError:
            pass
        raise _unread(expected, text)

    return parsed


def _float(text: str) -> float:
    number = float(text)
    if math.isinf(number):
        raise ValueError
    return number


def _integer(text: str) -> int:
    number = int(text)
    if not -(1 << 63) <= number < 1 << 63:
        raise ValueError
    return number


def _iso(text: str) -> str:
    """A time as each version of Python takes it: a fraction of a second has six digits, and no `Z` stands for an offset."""
    return re.sub(r"\.(\d+)", lambda found: "." + found[1].ljust(6, "0"), text.replace("Z", "+00:00"))


_NUMBER = r"-?(0|[1-9]\d*)(\.\d+)?([eE][+-]?\d+)?"
_DATE = r"\d{4}-\d\d-\d\d"
_TIME = r"\d\d:\d\d(:\d\d(\.\d{1,6})?)?"

# These are read from a text, a number as JSON writes it.
_PARSERS = {
    float: _parser("a number", _NUMBER, _float),
    decimal.Decimal: _parser("a number", _NUMBER, decimal.Decimal),
    datetime.date: _parser("a date", _DATE, datetime.date.fromisoformat),
    datetime.time: _parser("a time", _TIME, lambda text: datetime.time.fromisoformat(_iso(text))),
    datetime.datetime: _parser(
        "a date with a time", rf"{_DATE}[T ]{_TIME}(Z|[+-]\d\d:\d\d)?", lambda text: datetime.datetime.fromisoformat(_iso(text))
    ),
    uuid.UUID: _parser("a UUID", r"[0-9a-fA-F]{8}(-[0-9a-fA-F]{4}){3}-[0-9a-fA-F]{12}", uuid.UUID),
}

TEXTS: dict[Any, Reader] = {
    str: Reader("text", itself, itself),
    bool: Reader("bool", itself, _parser("true or false", "true|false", "true".__eq__)),
    int: Reader("i64", itself, _parser("an integer", r"[+-]?\d+", _integer)),
    **{kind: Reader("text", parse, parse) for kind, parse in _PARSERS.items()},
}


def quoted(name: str) -> str:
    """The name in the notation. Between quotes it is encoded."""
    return name if re.fullmatch(r"[\w-]+", name) else f'"{encode(name, form=True)}"'


def _text_of(value: Any) -> str:
    """The text of a value of an enum or a Literal."""
    if isinstance(value, enum.Enum):
        value = value.value
    if isinstance(value, bool):
        return "true" if value else "false"
    if isinstance(value, (str, int)):
        return str(value)
    raise TypeError(f"a value has to be a string, an integer or a bool, and not {value!r}")


def variants(hint: Any) -> Reader | None:
    """The reader of an enum or a Literal."""
    if isinstance(hint, type) and issubclass(hint, enum.Enum) and not issubclass(hint, enum.Flag):
        values: list[Any] = list(hint)
    elif typing.get_origin(hint) is typing.Literal:
        values = [value for value in typing.get_args(hint) if value is not None]
    else:
        return None
    of = {_text_of(value): value for value in values}
    if not of or len(of) < len(values):
        raise TypeError("two values have one text" if of else "there is no value")
    expected = " or ".join(json.dumps(text, ensure_ascii=False) for text in of)

    def made(text: str) -> Any:
        if text not in of:
            raise _unread(expected, text)
        return of[text]

    return Reader(f"enum({', '.join(map(quoted, of))})", made, made)


def first_of(readers: list[Reader]) -> Reader | None:
    """The reader of a union: a text that each type tries in turn, a string last."""
    parsers = [reader.of_text for reader in readers if reader.of_text not in (None, itself)]
    has_text = any(reader.of_text is itself for reader in readers)
    if len(parsers) + has_text < len(readers):
        return None

    def made(text: str) -> Any:
        expected = []
        for parse in parsers:
            try:
                return parse(text)
            except Unread as error:
                expected.append(error.expected or str(error))
        if has_text:
            return text
        raise _unread(" or ".join(expected), text)

    return Reader("text", made, made)


def list_of(item: Reader, kind: type) -> Reader:
    make = item.make
    if make is itself:
        return Reader(f"[{item.shape}]", itself if kind is list else kind)

    def made(values: list[Any]) -> Any:
        items: list[Any] = []
        try:
            for value in values:
                items.append(make(value))
        except Unread as error:
            error.path.append(len(items))
            raise
        return items if kind is list else kind(items)

    return Reader(f"[{item.shape}]", made)


def tuple_of(items: list[Reader]) -> Reader:
    def made(values: list[Any]) -> Any:
        parts: list[Any] = []
        try:
            for item, value in zip(items, values):
                parts.append(item.make(value))
        except Unread as error:
            error.path.append(len(parts))
            raise
        return tuple(parts)

    return Reader(f"({', '.join(item.shape for item in items)})", made)


def dict_of(key: Reader, value: Reader) -> Reader:
    """The reader of a map. JSON has each key as a text."""
    shape, of_text, make = f"map({key.shape}, {value.shape})", key.of_text, value.make
    if of_text is itself and make is itself:
        return Reader(shape, itself)

    def made(pairs: dict[str, Any]) -> Any:
        found, name = {}, ""
        try:
            for name, part in pairs.items():
                found[of_text(name)] = make(part)
        except Unread as error:
            error.path.append(name)
            raise
        if len(found) < len(pairs):
            raise Unread("two keys of a map are equal")
        return found

    return Reader(shape, made)


def optional(some: Reader) -> Reader:
    make = some.make
    return Reader(f"{some.shape}?", make if make is itself else lambda value: None if value is None else make(value))


def struct_of(fields: list[Field], readers: list[Reader], make: Callable[..., Any]) -> Reader:
    """The reader of a class with these fields, each with its reader."""
    shapes = (f"{quoted(field.key)}{'?' if field.is_optional else ''}: {reader.shape}" for field, reader in zip(fields, readers))
    changed = [(field.key, reader.make) for field, reader in zip(fields, readers) if reader.make is not itself]
    names = {field.key: field.name for field in fields}
    is_renamed = any(key != name for key, name in names.items())
    shape = f"{{{', '.join(shapes)}}}"
    parts = tuple(zip(fields, readers))
    if make is dict and not changed:
        return Reader(shape, itself, parts=parts)

    def made(value: dict[str, Any]) -> Any:
        key = ""
        try:
            for key, change in changed:
                if key in value:
                    value[key] = change(value[key])
        except Unread as error:
            error.path.append(key)
            raise
        return make(**({names[key]: part for key, part in value.items()} if is_renamed else value))

    return Reader(shape, made, parts=parts)
