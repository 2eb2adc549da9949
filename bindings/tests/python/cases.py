"""Makes the call of each line of the standard input, and prints its status, its position and its text.

A line is a call, its settings, a shape or a path, and a text, with tabs between them. The settings are `query`, `form` or `web`, and
words after a blank: `depth=N`, `empty` or `unindexed`, `reject`, `length=N`, `pairs=N` and `output=N`.
"""

import json
import sys

import serde_qs
from serde_qs import _calls

WORDS = {
    "query": {},
    "form": {"form": True},
    "web": dict(serde_qs.WEB),
    "empty": {"array_format": serde_qs.EMPTY_INDEXED},
    "unindexed": {"array_format": serde_qs.UNINDEXED},
    "reject": {"reject_duplicates": True},
}


def settings_of(words):
    settings = {}
    for word in words.split(" "):
        name, _, number = word.partition("=")
        settings.update({f"max_{name}": int(number)} if number else WORDS[name])
    return settings


def compact(value):
    return json.dumps(value, separators=(",", ":"), ensure_ascii=False)


for line in sys.stdin:
    call, words, shape, text = line.rstrip("\n").split("\t")
    settings = settings_of(words)
    position = 0
    try:
        if call == "get":
            result = serde_qs.get(shape, text, **settings)
            if result is None:
                raise serde_qs.QuerystringError(12, 0, "nothing is at the path")
        elif call == "parse":
            result = compact(serde_qs.parse(text, **settings))
        elif call == "read":
            result = compact(serde_qs.read(shape, text, **settings))
        elif call == "explain":
            path, result = serde_qs.explain(shape, text, **settings) or ("", "")
            position = len(path)
        elif call == "fields":
            fields = serde_qs.explain_fields(shape, text, **settings)
            result = "".join((f"{path}: " if path else "") + f"{reason}|" for path, reason in fields)
        elif call == "write":
            # the module json would take what isn't JSON no further
            result = _calls._result(_calls.library.qs_write, _calls._settings(**settings), *_calls._sized(text)).decode()
        elif call == "encode":
            result = serde_qs.encode(text, **settings)
        else:
            result = serde_qs.decode(text).decode()
        print(f"0\t{position}\t{result}")
    except serde_qs.QuerystringError as error:
        print(f"{error.status:d}\t{error.position}\t{error}")
