#!/usr/bin/env bash
# The golden cases of scripts/golden/program.tsv and strict.tsv, on the built program.
source "$(dirname "${BASH_SOURCE[0]}")/support/counting.sh"

# bytes HEX: the bytes that the hexadecimal digits write, none for `-`.
bytes() {
    local digits=${1#-} escapes='' at
    for ((at = 0; at < ${#digits}; at += 2)); do
        escapes+="\\x${digits:at:2}"
    done
    printf "$escapes"
}

# is_written: the line is the expected one. If that has std's message for bytes that aren't UTF-8, any error is accepted.
is_written() {
    if grep -q 'utf-8 sequence' "$room/wanted"; then
        [ "$(head -c 7 "$room/output")" = 'error: ' ]
    else
        cmp -s "$room/output" "$room/wanted"
    fi
}

# cases TABLE: each row of the table.
cases() {
    local number=0 status arguments input wanted output
    while IFS=$'\t' read -r arguments input wanted output _; do
        number=$((number + 1))
        read -ra words <<<"$arguments"
        bytes "$input" >"$room/input"
        bytes "$output" >"$room/wanted"
        "$program" "${words[@]}" <"$room/input" >"$room/output" 2>/dev/null
        status=$?
        if [ "$status" -ne "$wanted" ]; then
            fail "$1.tsv, line $number, qs_tool $arguments: status $status, and not $wanted"
        elif ! is_written; then
            fail "$1.tsv, line $number, qs_tool $arguments: wrote '$(head -c 200 "$room/output")', and not '$(head -c 200 "$room/wanted")'"
        else
            pass
        fi
    done < <(# an empty field would be lost between tabs
        sed 's/\t\t/\t-\t/' "$root/scripts/golden/$1.tsv")
}

cases program
cases strict
report
