"""Nested querystrings, read and written by a verified library.

    >>> import serde_qs
    >>> serde_qs.loads("user[name]=John&user[ids][0]=1")
    {'user': {'ids': ['1'], 'name': 'John'}}
    >>> serde_qs.read("{user: {name: text, ids: [u8]}}", "user[name]=John&user[ids][0]=1")
    {'user': {'name': 'John', 'ids': [1]}}
    >>> serde_qs.get("user[name]", "user[name]=John&user[ids][0]=1")
    'John'
    >>> serde_qs.dumps({"user": {"name": "John", "ids": [1]}})
    'user[name]=John&user[ids][0]=1'

`read_as` reads by the type hints of a class, such as a dataclass or a TypedDict, and returns an instance.

`get`, `parse`, `loads`, `read`, `read_as`, `explain`, `explain_fields`, `write` and `dumps` take settings by keyword:

- `max_depth=5`: how many levels of brackets may follow the first key, 100 at most.
- `form=False`: `True` for form mode, where brackets may be encoded, as browsers send forms; `False` for query mode.
- `array_format=INDEXED`: how the index of a list's element is written: `a[0]=x`, or `a[]=x` with `EMPTY_INDEXED`, or `a=x` with
  `UNINDEXED`.
- `reject_duplicates=False`: whether several values are an error if one is wanted; otherwise the last is taken.
- `max_length=0`: the most bytes of a querystring that is read; 0 for no limit.
- `max_pairs=0`: the most pairs (the pieces between `&`s) of a querystring that is read; 0 for no limit.
- `max_output=0`: the most bytes of the JSON that a querystring is read into; 0 for no limit.

`WEB` has the settings for forms and queries of strangers: `read_as(User, body, **serde_qs.WEB)` takes form mode, at most 1 MiB and 4,096
pairs.

`python -m serde_qs` prints the querystring of the standard input as JSON.

Each function raises a `QuerystringError`, which is a `ValueError`, or a `TypeError` for an argument that is neither `str` nor bytes.
"""

from ._calls import (
    EMPTY_INDEXED,
    INDEXED,
    UNINDEXED,
    WEB,
    QuerystringError,
    Settings,
    decode,
    dumps,
    encode,
    explain,
    get,
    loads,
    parse,
    read,
    write,
)
from ._library import Status
from ._library import version as __version__
from ._shapes import Shape, explain_fields, read_as, shape_of

__all__ = [
    "EMPTY_INDEXED",
    "INDEXED",
    "UNINDEXED",
    "WEB",
    "QuerystringError",
    "Settings",
    "Shape",
    "Status",
    "__version__",
    "decode",
    "dumps",
    "encode",
    "explain",
    "explain_fields",
    "get",
    "loads",
    "parse",
    "read",
    "read_as",
    "shape_of",
    "write",
]
