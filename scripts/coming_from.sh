#!/usr/bin/env bash
# The rows of docs/DIFFERENCES.md that show a querystring and what the program prints for it.
source "$(dirname "${BASH_SOURCE[0]}")/support/counting.sh"

# | `INPUT` | `LINE` | .. or | `INPUT` with `OPTIONS` | `LINE` | ..
row='^\| `([^`]+)`( with `([^`]+)`)? \| `([^`]+)` \|'
rows=0
while IFS= read -r line; do
    [[ $line =~ $row ]] || continue
    input=${BASH_REMATCH[1]} options=${BASH_REMATCH[3]} wanted=${BASH_REMATCH[4]}
    rows=$((rows + 1))
    printf '%s' "$input" | "$program" any ${options:+$options} >"$room/output" 2>"$room/said"
    status=${PIPESTATUS[1]}
    [[ $wanted == error:* ]] && code=1 || code=0
    expect "qs_tool any $options on '$input'" $code "$wanted"$'\n'
done <"$root/docs/DIFFERENCES.md"

[ $rows -ge 25 ] || fail "only $rows rows were found"

report
