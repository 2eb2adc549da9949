# What a trial counts. A script that is tried sources this.

passed=0
failed=0

pass() {
    passed=$((passed + 1))
}

fail() {
    failed=$((failed + 1))
    printf '  FAILED: %s\n' "${1:0:400}"
}

# same WHAT FOUND WANTED: these are the same.
same() {
    if [ "$2" = "$3" ]; then
        pass
    else
        fail "$1: '${2:0:200}', and not '${3:0:200}'"
    fi
}

# runs WHAT COMMAND..: the command ends well.
runs() {
    local what=$1
    shift
    if "$@" >"$room/said" 2>&1; then
        pass
    else
        fail "$what: $(tail -n 3 "$room/said" | tr '\n' ' ')"
        return 1
    fi
}

report() {
    echo "bindings: $passed passed, $failed failed"
    [ "$failed" -eq 0 ]
    exit
}
