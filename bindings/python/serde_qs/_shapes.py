"""Shapes made from Python's type hints, and instances made from what the shapes read."""

from __future__ import annotations

import collections.abc
import dataclasses
import functools
import sys
import types
import typing
from typing import TYPE_CHECKING, Any, Callable, NamedTuple, Optional, TypeVar

from ._calls import QuerystringError, encode, explain, explain_fields_by_shape, read
from ._library import Status
from ._readers import TEXTS, Field, Reader, Unread, dict_of, first_of, itself, list_of, optional, struct_of, tuple_of, variants

if TYPE_CHECKING:
    from typing_extensions import Unpack

    from ._calls import Settings, Text

T = TypeVar("T")

# The shape of a class that holds itself is written out as deep as a querystring can nest, and no deeper than a shape may.
_MOST_LEVELS = 32
_MOST_KEYS = 14
_MOST_CLASSES = 10_000


@dataclasses.dataclass(frozen=True)
class Shape:
    """In `Annotated[T, Shape("u8")]`: the shape that T is read by, in the library's notation. `make`, if it is given, makes a T of what the
    shape reads, and a ValueError of it is an error of reading.
    """

    text: str
    make: Optional[Callable[[Any], Any]] = None


class _Place(NamedTuple):
    """Where a hint stands: its field, the classes around it, how many keys lead to it, what type variables stand for; how many keys lead
    to anything, and how many classes were read so far.
    """

    name: str
    above: tuple[Any, ...]
    keys: int
    types: dict[Any, Any]
    most: int
    count: list[int]

    def below(self) -> _Place:
        return self._replace(keys=self.keys + 1)

    def error(self, why: str) -> TypeError:
        return TypeError(f"{self.name}: {why}" if self.name else why)


_PLAIN = {
    **TEXTS,
    bytes: Reader("bytes", bytes),
    type(None): Reader("unit", itself),
    object: Reader("any", itself),
}
_LISTS = {
    list: list,
    set: set,
    frozenset: frozenset,
    collections.abc.Set: frozenset,
    collections.abc.MutableSet: set,
    **dict.fromkeys((collections.abc.Iterable, collections.abc.Collection, collections.abc.Sequence, collections.abc.MutableSequence), list),
}
_DICTS = {dict, collections.abc.Mapping, collections.abc.MutableMapping}
_UNIONS = {typing.Union, getattr(types, "UnionType", typing.Union)}


def _marks(*names: str) -> set[Any]:
    """The marks of these names, of typing and of typing_extensions."""
    modules = (typing, sys.modules.get("typing_extensions"))
    return {getattr(module, name, None) for module in modules for name in names} - {None}


def _hints(cls: Any, place: _Place) -> dict[str, Any]:
    try:
        try:
            return typing.get_type_hints(cls, include_extras=True)
        except NameError:  # a class within a function may name itself
            return typing.get_type_hints(cls, localns={cls.__name__: cls}, include_extras=True)
    except Exception as error:
        named = place._replace(name=".".join(filter(None, (place.name or cls.__name__, _unevaluated(cls)))))
        raise named.error(f"the hint can't be evaluated: {error}") from error


def _unevaluated(cls: type) -> str:
    """The first field of the class whose hint can't be evaluated."""
    for base in cls.__mro__:
        for name, hint in vars(base).get("__annotations__", {}).items():
            try:
                typing.get_type_hints(types.SimpleNamespace(__annotations__={name: hint}), vars(sys.modules[base.__module__]), {cls.__name__: cls})
            except Exception:
                return name
    return ""


def _dataclass_fields(cls: Any, place: _Place) -> list[Field]:
    found, missing = [], dataclasses.MISSING
    hints = _hints(cls, place)
    for field in cls.__dataclass_fields__.values():
        hint = hints[field.name]
        if field.init and typing.get_origin(hint) is not typing.ClassVar and hint is not typing.ClassVar:
            is_optional = field.default is not missing or field.default_factory is not missing
            found.append(Field(field.name, field.metadata.get("name", field.name), hint, is_optional))
    return found


def _typed_dict_fields(cls: Any, place: _Place) -> list[Field]:
    """The fields of a TypedDict. Under `from __future__ import annotations` it doesn't know its marks."""
    found = []
    for name, hint in _hints(cls, place).items():
        is_optional, inner = name not in cls.__required_keys__, hint
        while typing.get_origin(inner) in {typing.Annotated, *_marks("Required", "NotRequired", "ReadOnly")}:
            is_optional = typing.get_origin(inner) in _marks("NotRequired") or (is_optional and typing.get_origin(inner) not in _marks("Required"))
            inner = typing.get_args(inner)[0]
        found.append(Field(name, name, hint, is_optional))
    return found


def _named_tuple_fields(cls: Any, place: _Place) -> list[Field]:
    hints = _hints(cls, place)
    return [Field(name, name, hints.get(name, Any), name in cls._field_defaults) for name in cls._fields]


def _fields(cls: Any, place: _Place) -> tuple[list[Field], Callable[..., Any]] | None:
    """The fields of a class, and what makes an instance of them."""
    if not isinstance(cls, type):
        return None
    if dataclasses.is_dataclass(cls):
        return _dataclass_fields(cls, place), cls
    if hasattr(cls, "__required_keys__"):
        return _typed_dict_fields(cls, place), dict
    if issubclass(cls, tuple) and hasattr(cls, "_fields"):
        return _named_tuple_fields(cls, place), cls
    return None


def _filled(hint: Any, variables: dict[Any, Any]) -> Any:
    """The hint with what its type variables stand for."""
    if isinstance(hint, TypeVar):
        return variables.get(hint, hint)
    names = getattr(hint, "__parameters__", ()) if typing.get_origin(hint) else ()
    return hint[tuple(variables.get(name, Any) for name in names)] if names else hint


def _variables(cls: Any, args: tuple[Any, ...]) -> dict[Any, Any]:
    """What the type variables of a generic class and of those that it is made from stand for."""
    found = dict(zip(getattr(cls, "__parameters__", ()), args))
    for base in vars(cls).get("__orig_bases__", cls.__bases__):
        origin = typing.get_origin(base) or base
        if isinstance(origin, type):
            filled = tuple(_filled(arg, found) for arg in typing.get_args(base))
            found = {**_variables(origin, filled), **found}
    return found


def _class(hint: Any, place: _Place) -> Reader | None:
    """The reader of a dataclass, a TypedDict or a NamedTuple, generic or not."""
    cls = typing.get_origin(hint) or hint
    fields_and_make = _fields(cls, place)
    if fields_and_make is None:
        return None
    if hint in place.above and place.keys > place.most:
        return Reader("unit", itself)
    place.count[0] += 1
    if place.count[0] > _MOST_CLASSES:
        raise place.error(f"the shape of {cls.__name__}, which holds itself, is too large")
    fields, make = fields_and_make
    if len({field.key for field in fields if isinstance(field.key, str)}) < len(fields):
        raise place.error(f"two fields of {cls.__name__} have one name, or a name is no string")
    below = place._replace(above=(*place.above, hint), keys=place.keys + 1, types=_variables(cls, typing.get_args(hint)))
    readers = [_reader_of(field.hint, below._replace(name=f"{place.name or cls.__name__}.{field.name}")) for field in fields]
    return struct_of(fields, readers, make)


def _variants(hint: Any, place: _Place) -> Reader | None:
    try:
        return variants(hint)
    except TypeError as error:
        raise place.error(f"no shape reads {hint!r}: {error}") from None


def _union(hint: Any, place: _Place) -> Reader | None:
    """The reader of a union, or of a Literal with None."""
    args = typing.get_args(hint)
    if typing.get_origin(hint) in _UNIONS:
        readers = [_reader_of(arg, place) for arg in args if arg is not type(None)]
        some = readers[0] if len(readers) == 1 else first_of(readers)
    elif typing.get_origin(hint) is typing.Literal and None in args:
        some = _variants(hint, place)
    else:
        return None
    return optional(some) if some and (None in args or type(None) in args) else some


def _container(hint: Any, place: _Place) -> Reader | None:
    """The reader of a list, a set, a tuple or a dict, with or without what it holds."""
    origin, below = typing.get_origin(hint) or hint, place.below()
    args = typing.get_args(hint)
    try:
        kind = _LISTS.get(origin)
    except TypeError:
        return None
    if kind:
        return list_of(_reader_of(args[0] if args else Any, below), kind)
    if origin is tuple and (args[1:] == (...,) or hint in (tuple, typing.Tuple)):
        return list_of(_reader_of(args[0] if args else Any, below), tuple)
    if origin is tuple and args and args != ((),):
        return tuple_of([_reader_of(arg, below) for arg in args])
    if origin in _DICTS:
        key, value = (_reader_of(arg, below) for arg in args or (str, Any))
        return dict_of(key, value) if key.of_text else None
    return None


def _annotated(hint: Any, place: _Place) -> Reader:
    marker = next((word for word in hint.__metadata__ if isinstance(word, Shape)), None)
    if marker is None:
        return _reader_of(hint.__origin__, place)
    try:
        explain(marker.text, "")
    except QuerystringError as error:
        raise place.error(f"the shape {marker.text!r} is rejected: {error}") from None
    if marker.make is None:
        return _reader_of(hint.__origin__, place)._replace(shape=marker.text)

    def made(value: Any) -> Any:
        try:
            return marker.make(value)
        except ValueError as error:
            raise Unread(str(error)) from error

    return Reader(marker.text, made, made if marker.text == "text" else None)


def _reader_of(hint: Any, place: _Place) -> Reader:
    origin = typing.get_origin(hint)
    if origin is typing.Annotated:
        return _annotated(hint, place)
    if origin in _marks("Required", "NotRequired", "ReadOnly", "Final"):
        return _reader_of(typing.get_args(hint)[0], place)
    if isinstance(hint, dataclasses.InitVar):
        return _reader_of(hint.type, place)
    if isinstance(hint, TypeVar):
        return _reader_of(place.types.get(hint) or hint.__bound__ or Any, place)
    if hasattr(hint, "__supertype__"):  # a NewType
        return _reader_of(hint.__supertype__, place)
    if hint is Any or hint is None:
        return _PLAIN[object if hint is Any else type(None)]
    if place.keys > _MOST_LEVELS:
        raise place.error(f"{hint!r} nests deeper than a shape may")
    hint = _filled(hint, place.types)
    plain = _PLAIN.get(hint) if isinstance(hint, type) else None
    reader = plain or _union(hint, place) or _variants(hint, place) or _container(hint, place) or _class(hint, place)
    if reader is None:
        raise place.error(f"no shape reads {hint!r}")
    return reader


@functools.lru_cache(maxsize=1024)
def _whole_reader(cls: Any, max_depth: int = 5) -> Reader:
    return _reader_of(cls, _Place("", (), 0, {}, min(max_depth + 1, _MOST_KEYS), [0]))


def shape_of(cls: Any) -> str:
    """Returns the shape of a dataclass, a TypedDict, a NamedTuple, or another type, in the notation of the library.

    | type | shape |
    |---|---|
    | `str`, `bytes`, `bool`, `int`, `None`, `Any` | `text`, `bytes`, `bool`, `i64`, `unit`, `any` |
    | `float`, `Decimal` | `text`, which has to be a number as in JSON |
    | `date`, `time`, `datetime`, `UUID` | `text`, as in ISO 8601, and as `str(uuid)` |
    | `list[T]`, `Sequence[T]`, `set[T]`, `frozenset[T]`, `tuple[T, ...]` | a list |
    | `tuple[T, U]` | a tuple |
    | `dict[K, V]`, `Mapping[K, V]` | a map; a key is anything that is read from a text |
    | an `Enum` or a `Literal` of strings, integers and bools | one of these, as a text |
    | `Optional[T]` | a value that may be absent |
    | `int \\| str`, and other unions of what is read from a text | `text`, which the types try in turn, `str` last |
    | `Annotated[T, Shape("u8")]` | that shape |
    | a dataclass, a `TypedDict`, a `NamedTuple` | a struct; a field with a default, or that isn't required, may be left out |

    A list or dict without more holds `Any`. A NewType is what it stands for. A field of a dataclass with `metadata={"name": "x"}` is named
    `x` in the querystring. The shape of a class that holds itself goes as deep as `max_depth`, and 13 at most.

    Any other type is a TypeError, which names the field.

        >>> shape_of(dict[str, list[int]])
        'map(text, [i64])'
    """
    return _whole_reader(cls).shape


def read_as(cls: type[T], query: Text, **settings: Unpack[Settings]) -> T:
    """Reads the querystring by `shape_of(cls)`, and returns an instance of `cls`.

        >>> @dataclasses.dataclass
        ... class User:
        ...     name: str
        ...     ids: list[int]
        >>> read_as(User, "name=John&ids[0]=1")
        User(name='John', ids=[1])
    """
    reader = _whole_reader(cls, settings.get("max_depth", 5))
    value = read(reader.shape, query, **settings)
    try:
        return reader.make(value)
    except Unread as unread:
        error = QuerystringError(Status.MISMATCH, 0, str(unread))
        error.path = _path(unread)
        raise error from None


def _path(unread: Unread) -> str:
    first, *others = [encode(str(key)) for key in reversed(unread.path)] or [""]
    return first + "".join(f"[{key}]" for key in others)


def explain_fields(shape: Text | type, query: Text, **settings: Unpack[Settings]) -> list[tuple[str, str]]:
    """Explains each field that isn't read, for a page that shows an error beside each of its fields. Returns the path to the wrong part of
    each, and the reason.

    `shape` is a class, as `read_as` takes it, or a shape. Of one without fields only the first wrong part is explained. The path of the
    first is empty if the querystring can't be parsed or is wrong as a whole. The list is empty if the querystring is read.

        >>> explain_fields("{name: text, age: u8}", "age=300")
        [('name', 'expected a text, found nothing'), ('age', 'expected u8, found the text "300"')]
    """
    if isinstance(shape, (str, bytes, bytearray, memoryview)):
        return explain_fields_by_shape(shape, query, **settings)
    reader = _whole_reader(shape, settings.get("max_depth", 5))
    wrong = explain_fields_by_shape(reader.shape, query, **settings)
    if not reader.parts:
        return wrong or _unread(shape, query, settings)
    if wrong and not wrong[0][0]:
        return wrong
    named = {path.partition("[")[0]: (path, reason) for path, reason in wrong}
    each = (named.get(encode(field.key)) or _unmade(field, part, query, settings) for field, part in reader.parts)
    return [it for it in each if it]


def _unread(cls: Any, query: Text, settings: Settings) -> list[tuple[str, str]]:
    """The path to the part of a type without fields that isn't read, and the reason; nothing if it is read."""
    try:
        read_as(cls, query, **settings)
    except QuerystringError as error:
        return [(error.path, str(error))]
    return []


def _unmade(field: Field, reader: Reader, query: Text, settings: Settings) -> tuple[str, str] | None:
    """The path to the part of a field of which no instance is made, and the reason, if its shape reads the field."""
    if reader.make is itself:
        return None
    alone = struct_of([field], [reader], dict)
    try:
        alone.make(read(alone.shape, query, **settings))
    except Unread as unread:
        return _path(unread), str(unread)
    except QuerystringError:  # the whole is at fault
        pass
    return None
