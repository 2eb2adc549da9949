# Counts what passes and what fails on a built program, qs_tool if the script sets no other `crate`. A script sources this first
# and ends with `report`.
set -u
root=$(cd "$(dirname "${BASH_SOURCE[0]}")/../.." && pwd) || exit 1
crate=${crate:-qs_tool}
program=${1:-$root/crates/$crate/out/$crate}
subject=$(basename "$0" .sh)
passed=0
failed=0

if [ ! -x "$program" ]; then
    echo "  there is no program $program: run 'rt run' in crates/$crate once"
    echo "$subject: 0 passed, 1 failed"
    exit 1
fi

room=$(mktemp -d) || exit 1
trap 'rm -rf "$room"' EXIT

pass() {
    passed=$((passed + 1))
}

fail() {
    failed=$((failed + 1))
    printf '  FAILED: %s\n' "$1"
}

# expect WHAT STATUS LINE: the last run ended with STATUS, and wrote LINE to $room/output.
expect() {
    local what=$1 wanted=$2 line=$3 ended=$status
    printf '%s' "$line" >"$room/wanted"
    if [ "$ended" -ne "$wanted" ]; then
        fail "$what: status $ended, and not $wanted"
    elif ! cmp -s "$room/output" "$room/wanted"; then
        fail "$what: wrote '$(head -c 200 "$room/output")', and not '${line:0:200}'"
    else
        pass
    fi
}

# make_preloaded NAME: makes $room/NAME.so of scripts/support/NAME.c, to be loaded before the C library. The script ends where no compiler can.
make_preloaded() {
    local kit compiler
    kit=$(dirname "$(dirname "$(readlink -f "$(command -v rt)")")")
    for compiler in "$kit/toolchain/bin/clang" clang gcc cc; do
        command -v "$compiler" >/dev/null || continue
        "$compiler" -shared -fPIC -O1 -nostdlib -fno-builtin -o "$room/$1.so" "$root/scripts/support/$1.c" >>"$room/compiled" 2>&1 && return
    done
    cat "$room/compiled"
    fail "no compiler makes a library of $1.c"
    report
    exit 1
}

report() {
    echo "$subject: $passed passed, $failed failed"
    [ "$failed" -eq 0 ]
}
