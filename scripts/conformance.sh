#!/usr/bin/env bash
# The conformance suite: its file is what conformance/make prints and is valid by its schema, this library agrees with every case, and
# what clients write is read as the table says. The built program qs_answers gives the trees, and the library for other languages the
# rest, by its Python module.
crate=qs_answers
source "$(dirname "${BASH_SOURCE[0]}")/support/counting.sh"
library=$("$root/bindings/build" 2>"$room/said") || { tail -n 20 "$room/said"; fail 'the library could not be built'; report; exit; }
LD_LIBRARY_PATH=$library PYTHONDONTWRITEBYTECODE=1 python3 "$root/scripts/support/conformance.py" "$program"
