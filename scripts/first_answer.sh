#!/usr/bin/env bash
# ./qs_tool in a fresh copy of the repository: an unproved build answers as the proved program does, says that it is unproved, and is never taken
# for the proved one.
source "$(dirname "${BASH_SOURCE[0]}")/support/counting.sh"
source "$root/scripts/support/building.sh"

person='name=a&age=1&occupation=b'
line=$person$'&note\n'
copy=$room/copy
unproved=$copy/crates/qs_tool/out/unproved/qs_tool
mkdir "$copy" && (cd "$root" && cp -r --parents -t "$copy" crates.txt HANDLES qs_tool prove scripts/support &&
    find crates -mindepth 2 -maxdepth 2 \( -name src -o -name specs -o -name proofs \) -exec cp -r --parents -t "$copy" {} +)

# says WHAT COUNT: standard error of the last run has so many lines, and the first says that the build is unproved and what proves it.
says() {
    if [ "$(wc -l <"$room/said")" -eq "$2" ] && head -n 1 "$room/said" | grep -q '^qs_tool: this build is unproved.*; \./prove proves '; then
        pass
    else
        fail "$1: standard error says '$(head -c 300 "$room/said")'"
    fi
}

# run ARGUMENTS..: runs ./qs_tool of the copy on standard input.
run() {
    "$copy/qs_tool" "$@" >"$room/output" 2>"$room/said"
    status=$?
}

# Two first calls at once: both take one build.
printf '%s' "$person" | "$copy/qs_tool" any >"$room/other" 2>/dev/null &
other=$!
run flat < <(printf '%s' "$person")
expect 'a first call' 0 "$line"
says 'a first call' 1
wait "$other"
status=$?
mv "$room/other" "$room/output"
expect 'a first call beside it' 0 "{'age':'1','name':'a','occupation':'b'}"$'\n'

run flat < <(printf '%s' "${person:0:9}"; sleep 0.2; printf '%s' "${person:9}")
expect 'a pipe that waits' 0 "$line"
says 'a pipe that waits' 1
run flat '--no such' </dev/null
[ "$status" -eq 2 ] && grep -qx "qs_tool: unknown option '--no such'" "$room/said" && pass || fail 'an argument with a space'
run flat <&-
expect 'closed standard input' 3 ''
printf '%s' "$person" | "$copy/qs_tool" flat >"$room/output" 2>&-
status=$?
expect 'closed standard error' 0 "$line"
if bash "$root/scripts/rows.sh" "$unproved" >"$room/rows"; then
    pass
else
    fail "the unproved build does otherwise than the proved program: $(head -c 300 "$room/rows")"
fi

# Nothing takes it for the proved program, and a change is never answered by an older build.
if (root=$copy && is_made qs_tool "$copy/crates/qs_tool/out/qs_tool"); then
    fail 'the unproved build counts as proved'
fi
source=$copy/crates/qs_tool/src/main.rt
cp "$source" "$room/source"

# change_fails WHAT: with a change that doesn't compile, the status is 125.
change_fails() {
    echo '}' >>"$source"
    run flat </dev/null
    expect "$1" 125 ''
    cp "$room/source" "$source"
}

change_fails 'a change'
run flat < <(printf '%s' "$person")
expect 'a change that is taken back' 0 "$line"

# The proved program runs as soon as it is there, until a change.
if is_made qs_tool "$program"; then
    cp "$program" "$program.made" "$(dirname "$(dirname "$unproved")")/"
    run flat < <(printf '%s' "$person")
    expect 'the proved program' 0 "$line"
    [ ! -s "$room/said" ] || fail "the proved program: standard error says '$(head -c 300 "$room/said")'"
    change_fails 'a change of the proved program'
    cmp -s "$program" "$copy/crates/qs_tool/out/qs_tool" && pass || fail 'the proved program is replaced'
else
    fail 'the proved program is out of date'
fi
report
