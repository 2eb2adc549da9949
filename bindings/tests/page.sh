# The programs of docs/LIBRARY.md: what the page says is done in an empty folder, from its own text. bindings/try sources this.

page_file() {
    mkdir -p "$(dirname "$1")" && printf '%s' "$2" >"$1"
}

# Where the page shows what the command prints, it prints that.
page_command() {
    local program=${1%%[ =]*}
    command -v "$program" >/dev/null || [[ $program == \"* ]] || { echo "  there is no $program: '$1' of docs/LIBRARY.md is not tried"; return; }
    if ! eval "$1" >"$room/printed" 2>&1; then
        fail "docs/LIBRARY.md, '$1': $(tail -n 3 "$room/printed" | tr '\n' ' ')"
    elif [ -n "$2" ]; then
        same "docs/LIBRARY.md, '$1'" "$(cat "$room/printed")" "${2%$'\n'}"
    else
        pass
    fi
}

try_page() {
    local prefix=$room/page/prefix packages=$room/page/packages repository=$root
    unset PKG_CONFIG_PATH LD_LIBRARY_PATH RUSTFLAGS
    mkdir -p page/empty && make_environment page/environment && PATH=$room/page/environment/bin:$PATH
    python3 "$tests/page.py" "$root/docs/LIBRARY.md" '## The calls' >steps || fail 'docs/LIBRARY.md has no steps'
    cd page/empty && source "$room/steps"
    cd "$room" || exit 1
}

try_page
