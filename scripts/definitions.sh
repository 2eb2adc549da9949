#!/usr/bin/env bash
# Compares the definitions of qs_spec with the golden cases: each is an equation that the prover accepts by computing both
# sides. One case of each table is also stated wrongly, and has to be rejected.
set -u
root=$(cd "$(dirname "${BASH_SOURCE[0]}")/.." && pwd) || exit 1
room=$(mktemp -d) || exit 1
trap 'rm -rf "$room"' EXIT
passed=0
failed=0

# library NAME: makes a crate of only a root file, to which more files are added.
library() {
    mkdir -p "$room/crates/$1"/{src,specs,proofs} &&
        printf '//! Definitions.\n#![tactic(auto)]\n\n/// There.\npub fn there() {}\n' >"$room/crates/$1/src/lib.rt"
}

# The laws are left out, since nothing here uses them: without their proofs the definitions are checked at once.
library qs_spec && library golden && cp "$root/HANDLES" "$room/" || exit 1
cp -r "$root/crates/qs_spec/specs" "$room/crates/qs_spec/" && cp "$root"/crates/qs_spec/proofs/*.antt "$room/crates/qs_spec/proofs/" || exit 1
printf 'qs_spec:\ngolden: qs_spec\n' >"$room/crates.txt"
printf 'pub mod Cases\n' >"$room/crates/golden/proofs/Lib.antt"
: >"$room/crates/golden/specs/Lib.antt"

# proves KIND [wrong]: whether the equations of that table are accepted
proves() {
    python3 "$root/scripts/support/definitions.py" "$1" "$root/scripts/golden/$1.tsv" "${@:2}" \
        >"$room/crates/golden/proofs/Cases.antt" || return 2
    (cd "$room/crates/golden" && rt check) >"$room/said" 2>&1 </dev/null
}

for kind in trees program strict reads writes; do
    if proves "$kind"; then
        passed=$((passed + $(grep -c '= refl' "$room/crates/golden/proofs/Cases.antt")))
    else
        failed=$((failed + 1))
        printf '  FAILED: the definitions disagree with %s.tsv\n' "$kind"
        grep -m 5 'error' "$room/said" | cut -c1-300
    fi
    if proves "$kind" wrong || ! grep -q 'case_0' "$room/said"; then
        failed=$((failed + 1))
        printf '  FAILED: a wrong case of %s.tsv was not rejected\n' "$kind"
    else
        passed=$((passed + 1))
    fi
done

echo "definitions: $passed passed, $failed failed"
[ "$failed" -eq 0 ]
