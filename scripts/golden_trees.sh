#!/usr/bin/env bash
# The golden cases of scripts/golden/trees.tsv on the built program qs_answers: trees, with which texts are owned, and errors with position
# and text. The steps of a case have to be what `parse_with` is proved to take on an input that it accepts: its length plus one.
crate=qs_answers
source "$(dirname "${BASH_SOURCE[0]}")/support/counting.sh"
table=${2:-$root/scripts/golden/trees.tsv}

# An empty field would be lost between tabs.
sed 's/\t\t/\t-\t/' "$table" >"$room/cases"
cut -f 1-3 "$table" | "$program" >"$room/answers" 2>"$room/said"
status=${PIPESTATUS[1]}
if [ "$status" -ne 0 ]; then
    fail "qs_answers: status $status: $(head -c 200 "$room/said")"
fi

number=0
while IFS=$'\t' read -r form depth input outcome first second && IFS= read -r answer <&3; do
    number=$((number + 1))
    case=$(printf 'line %s, form mode %s, depth %s, input %s' "$number" "$form" "$depth" "$input")
    input=${input#-}
    length=$((${#input} / 2))
    wanted=$outcome$'\t'$first
    [ "$outcome" = ok ] || wanted+=$'\t'$second
    if [ "$answer" != "$wanted" ]; then
        fail "$case: returned '${answer:0:200}', and not '${wanted:0:200}'"
    elif [ "$outcome" = ok ] && [ "$second" -ne $((length + 1)) ]; then
        fail "$case: $second steps, where $((length + 1)) are proved"
    else
        pass
    fi
done <"$room/cases" 3<"$room/answers"

lines=$(wc -l <"$table")
if [ "$number" -ne "$lines" ] || [ "$(wc -l <"$room/answers")" -ne "$lines" ]; then
    fail "$(wc -l <"$room/answers") answers to $lines cases"
fi

report
