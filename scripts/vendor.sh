#!/usr/bin/env bash
# ./vendor copies crates into an empty repository, where README's first program runs at once. It replaces its own copies, and no edited one.
source "$(dirname "${BASH_SOURCE[0]}")/support/counting.sh"

shop=$room/shop
first=$shop/crates/first

# vendored WHAT STATUS: ./vendor into that repository ends with this status.
vendored() {
    "$root/vendor" "$shop" >"$room/output" 2>"$room/said"
    status=$?
    if [ "$status" -eq "$2" ]; then
        pass
    else
        fail "$1: status $status, and not $2: $(head -c 300 "$room/said")"
    fi
}

mkdir "$shop"
vendored 'into an empty folder' 0
if head -n 1 "$shop/crates/qs_tree/ORIGIN" | grep -qxE 'qs_tree [0-9.]+ of the verified port of serde_qs 1\.1\.3, commit .*'; then
    pass
else
    fail "ORIGIN doesn't say of which version it is: $(head -n 1 "$shop/crates/qs_tree/ORIGIN")"
fi
mkdir -p "$first/src"
awk '/^    #!\[tactic\(auto\)\]/ { shown = 1 } shown && /^[^ ]/ { exit } shown { print substr($0, 5) }' "$root/README.md" >"$first/src/main.rt"
echo 'first: qs_serde serde' >>"$shop/crates.txt"
# runs QUERY LINE: README's first program, on that query, prints the line.
runs() {
    sed -i -E "s/\"age=[^\"]*\"/\"$1\"/" "$first/src/main.rt"
    (cd "$first" && rt try) >"$room/output" 2>&1 </dev/null
    if grep -qxF "$2" "$room/output" && grep -qF "\`$2\`" "$root/README.md"; then
        pass
    else
        fail "README's first program on $1: $(tail -c 300 "$room/output")"
    fi
}

runs 'age=24\&name=Alice+Doe' 'Person { name: "Alice Doe", age: 24 }'
runs 'age=x\&name=Alice' 'error: age: invalid type: string, expected u8'

vendored 'over its own copy' 0
if [ "$(grep -c . "$shop/crates.txt")" -eq 5 ]; then
    pass
else
    fail "crates.txt has other lines: $(cat "$shop/crates.txt")"
fi

echo '// edited' >>"$shop/crates/qs_tree/src/lib.rt"
before=$(find "$shop/crates" -type f -path '*/src/*' -exec sha256sum {} + | sort | sha256sum)
vendored 'over an edited copy' 1
if [ "$(find "$shop/crates" -type f -path '*/src/*' -exec sha256sum {} + | sort | sha256sum)" = "$before" ]; then
    pass
else
    fail 'over an edited copy: it was changed'
fi
report
