#!/usr/bin/env bash
# What the documents show is what happens: the program prints what they say of a querystring, their Rust blocks compile, and what they name is there.
source "$(dirname "${BASH_SOURCE[0]}")/support/counting.sh"
python3 "$root/scripts/support/documents.py" "$program" "$room"
