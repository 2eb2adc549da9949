# Python: the module as pip installs it, in an environment of its own, and a page that is asked as browsers do. bindings/try sources this.

export PYTHONDONTWRITEBYTECODE=1 PIP_NO_INDEX=1 PIP_DISABLE_PIP_VERSION_CHECK=1 PIP_ROOT_USER_ACTION=ignore

make_environment() {
    python3 -m venv "$1" >"$room/said" 2>&1
}

# Where Python has no pip, the wheel is unpacked without it.
install_module() {
    if make_environment environment; then
        python=(env -u LD_LIBRARY_PATH "$room/environment/bin/python3")
        runs 'pip install' "${python[@]}" -m pip install -q "$packages"/*.whl
    else
        echo '  there is no pip: the wheel is unpacked by hand'
        python=(env -u LD_LIBRARY_PATH PYTHONPATH="$room/site" python3)
        runs 'the wheel' python3 -m zipfile -e "$packages"/*.whl site
    fi
}

# ask WHAT STATUS TEXT COMMAND..: the page answers the command's request so. The command prints the text and then the status.
ask() {
    local what=$1 status=$2 text=$3
    shift 3
    same "the page, $what" "$("$@" 2>&1)" "$text"$'\n'"$status"
}

by_curl() {
    curl -s --noproxy '*' -w '%{http_code}\n' "$@" "http://127.0.0.1:$port/"
}

by_urllib() {
    python3 "$tests/python/ask.py" "http://127.0.0.1:$port/" "$@"
}

# try_form NAME COMMAND..: a program that serves a page with a form, and prints its port first.
try_form() {
    local name=$1 port server way ways=(by_urllib)
    shift
    command -v curl >/dev/null && ways+=(by_curl) || echo '  there is no curl: the page is asked by urllib alone'
    rm -f port
    "$@" >port 2>said &
    server=$!
    for _ in {1..100}; do
        [ -s port ] || sleep 0.1
    done
    port=$(cat port)
    for way in "${ways[@]}"; do
        ask "$name, $way" 200 'Anne & Co., 31, of Oslo: a@x.org, b@x.org' \
            $way --data-urlencode 'user[name]=Anne & Co.' -d 'user%5Bage%5D=31' -d 'user[address][city]=Oslo' -d 'user[emails][]=a@x.org' -d 'user[emails][]=b@x.org'
        ask "$name, $way, an age of 300" 400 'user[age]: invalid type: string, expected u8' $way -d 'user[name]=A' -d 'user%5Bage%5D=300'
        ask "$name, $way, no name" 400 'user[name]: missing field `name`' $way -d 'user%5Bage%5D=30'
    done
    kill "$server"
    wait "$server" 2>/dev/null
}

try_python() {
    install_module || return
    same "the module's version" "$("${python[@]}" -c 'from importlib.metadata import version; import serde_qs; print(version("serde_qs"), serde_qs.__version__)')" \
        "$version $version"
    cp "$tests"/python/*.py .
    try_language Python "${python[@]}" cases.py
    runs 'Python, the module' "${python[@]}" -m unittest -q module
    try_form wsgiref "${python[@]}" form.py
    if python3 -c 'import flask' 2>said; then
        try_form Flask env -u LD_LIBRARY_PATH PYTHONPATH="$(dirname "$("${python[@]}" -c 'import serde_qs; print(serde_qs.__path__[0])')")" python3 form.py flask
    else
        echo '  there is no Flask: the page is tried by wsgiref alone'
    fi
}

if command -v python3 >/dev/null; then
    try_python
else
    fail 'there is no python3'
fi
