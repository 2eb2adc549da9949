#!/usr/bin/env bash
# The library for other languages, called from C, Rust and Python.
exec "$(dirname "${BASH_SOURCE[0]}")/../bindings/try"
