#!/usr/bin/env bash
# Tests scripts/mutants.py on a small crate: it has to find which mutants are rejected, survive or are bad, and must never try two of one
# function together.
exec python3 "$(dirname "${BASH_SOURCE[0]}")/support/mutants/selftest.py"
