#!/usr/bin/env bash
# Looks up in the sources each call, clause and definition that docs/GUARANTEES.md and the CALLING files name, and compares the contracts that these quote.
exec python3 "$(dirname "${BASH_SOURCE[0]}")/support/guarantees.py"
