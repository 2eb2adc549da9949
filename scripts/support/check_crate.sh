# What ./check does for one crate. It sources this, and has set `root`, where it is.

# stands_on NAME CRATE: the crate NAME is CRATE, or uses it.
stands_on() {
    lines_of "$1" | cut -d ' ' -f 1 | grep -qx "$2"
}

# scripts_of CRATE: the scripts that test the crate without a built program, or by a program that stands on it, and documents, which compiles calls of most crates;
# each with its program. Those that bound time or memory, or that take a proved build, are left to the gate.
scripts_of() {
    local script name program
    echo 'guarantees -'
    if [ "$1" = qs_spec ]; then echo 'definitions -'; fi
    for script in scripts/*.sh; do
        name=$(basename "$script" .sh)
        grep -q '/support/counting.sh' "$script" || continue
        [[ $name =~ ^(conformance|failing_allocations|first_answer|vendor)$ ]] && continue
        program=$(sed -n 's/^crate=//p' "$script")
        program=${program:-qs_tool}
        if [ "$name" = documents ] || stands_on "$program" "$1"; then echo "$name $program"; fi
    done
}

# count NAME COMMAND..: runs a part, shows what it says, and adds the counts of its last line.
count() {
    local name=$1 counts
    printf '== %s\n' "$name"
    "${@:2}" 2>&1 </dev/null | tee "$said"
    counts=$(sed -n -E '$s/^([^ ]+: )?([0-9]+) passed, ([0-9]+) failed.*$/\2 \3/p' "$said")
    [ -n "$counts" ] || echo "$name: ended without a count"
    counts=${counts:-0 1}
    passed=$((passed + ${counts% *}))
    failed=$((failed + ${counts#* }))
}

# check_crate CRATE: its status is 0 only if nothing failed. The programs are unproved builds, which take a minute each.
check_crate() {
    local name program
    passed=0 failed=0
    said=$(mktemp) || return 1
    trap 'rm -f "$said"' EXIT
    count "proofs of $1 and those below" rt ci "$1"
    count "mutants of $1" python3 scripts/mutants.py --gate "$1"
    while read -r name program; do
        if [ "$program" = - ]; then
            count "$name" bash "scripts/$name.sh"
        elif build_unproved "$program"; then
            count "$name" bash "scripts/$name.sh" "$root/crates/$program/out/unproved/$program"
        else
            echo "$name: the program $program could not be built, as crates/$program/out/unproved/building.log says" && failed=$((failed + 1))
        fi
    done < <(scripts_of "$1")
    echo "this was a check of $1, and is not the gate"
    printf '%d passed, %d failed\n' "$passed" "$failed"
    [ "$failed" -eq 0 ]
}
