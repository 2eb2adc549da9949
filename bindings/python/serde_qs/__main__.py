"""Prints the querystring of the standard input as JSON, as `python -m json.tool` prints JSON, or writes JSON as a querystring."""

import argparse
import json
import sys

import serde_qs


def main() -> None:
    parser = argparse.ArgumentParser(prog="python -m serde_qs", description=__doc__)
    parser.add_argument("shape", nargs="?", help="the shape to read by, such as '{user: {name: text}}'; whatever is there if it is left out")
    parser.add_argument("--form", action="store_true", help="form mode, where brackets may be encoded, as browsers send forms")
    parser.add_argument("--write", action="store_true", help="take JSON, and print it as a querystring")
    parser.add_argument("--compact", action="store_true", help="print JSON in one line")
    given = parser.parse_args()
    if given.shape and given.write:
        parser.error("--write takes no shape")
    text = sys.stdin.buffer.read()
    text = text[:-1] if text.endswith(b"\n") else text
    try:
        if given.write:
            print(serde_qs.write(json.loads(text), form=given.form))
            return
        value = serde_qs.read(given.shape, text, form=given.form) if given.shape else serde_qs.parse(text, form=given.form)
    except serde_qs.QuerystringError as error:
        sys.exit(f"{error.path}: {error}" if error.path else str(error))
    except ValueError as error:
        sys.exit(str(error))
    print(json.dumps(value) if given.compact else json.dumps(value, indent=4))


main()
