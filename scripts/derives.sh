#!/usr/bin/env bash
# Types with serde's derives, on the built program qs_derived: the golden cases of scripts/golden/derives.tsv, with the results of the
# Rust crate, the errors of scripts/golden/paths.tsv, and random querystrings, which the types with `Compound` have to read and write in
# the same way.
crate=qs_derived
source "$(dirname "${BASH_SOURCE[0]}")/support/counting.sh"
golden=$root/scripts/golden

# The first cells of the rows of docs/DIFFERENCES.md: each may excuse a case that differs.
sed -n '/^## Types with serde/,/^## Kept/s/^| \(.*\) | .* | .* | .* |$/\1/p' "$root/docs/DIFFERENCES.md" >"$room/subjects"

# answers TABLE: what the program prints for the first five fields of each row of the table.
answers() {
    cut -f 1-5 "$golden/$1" | "$program" >"$room/answers" 2>"$room/said" || fail "$1: $(head -c 200 "$room/said")"
    if [ "$(wc -l <"$room/answers")" -ne "$(wc -l <"$golden/$1")" ]; then
        fail "$1: $(wc -l <"$room/answers") answers to $(wc -l <"$golden/$1") cases"
    fi
}

# A row has the result of the Rust crate, for an error only its kind. If the result here differs, the row also has that result and a row
# of docs/DIFFERENCES.md.
answers derives.tsv
while IFS=$'\t' read -r mode depth repeated name input answer here row && IFS= read -r found <&3; do
    case=$name' under '$mode' '$depth' '$repeated', input '$input
    [[ $found == '?'* ]] || found=${found%% *}
    if [ -n "$here" ] && ! grep -qxF -- "$row" "$room/subjects"; then
        fail "$case: docs/DIFFERENCES.md has no row '$row'"
    elif [ "$here" = "$answer" ]; then
        fail "$case: the row lists a difference where there is none"
    elif [ "$found" != "${here:-$answer}" ]; then
        fail "$case: returned '${found:0:200}', and not '${here:-$answer}'"
    else
        pass
    fi
done <"$golden/derives.tsv" 3<"$room/answers"

# A row has the whole line of an error, with its path.
answers paths.tsv
while IFS=$'\t' read -r mode depth repeated name input wanted && IFS= read -r found <&3; do
    if [ "$found" = "$wanted" ]; then
        pass
    else
        fail "$name, input $input: returned '${found:0:200}', and not '$wanted'"
    fi
done <"$golden/paths.tsv" 3<"$room/answers"

# Read by both or rejected by both, and the same texts.
python3 "$root/scripts/support/derives.py" 1 3000 profile order payment account trip labels >"$room/cases"
for types in derives compound; do
    "$program" "$types" <"$room/cases" 2>"$room/said" | sed 's/^[^?].*/rejected/' >"$room/$types"
done
different=$(paste "$room/cases" "$room/derives" "$room/compound" | awk -F '\t' '$6 != $7' | tee "$room/different" | wc -l)
if [ "$different" -ne 0 ] || [ "$(wc -l <"$room/derives")" -ne "$(wc -l <"$room/cases")" ]; then
    fail "$different of $(wc -l <"$room/cases") querystrings are read or written otherwise by Compound, the first: $(head -n 1 "$room/different" | head -c 400)"
elif [ "$(grep -c '^?' "$room/derives")" -lt 20000 ]; then
    fail "only $(grep -c '^?' "$room/derives") querystrings are read"
else
    pass
fi
report
