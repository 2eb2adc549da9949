# What is built, whether it is up to date, and progress while it is built. A script that has set `root` sources this.

# is_newer FILE PATH..: the file exists, and was made after the last edit at the paths.
is_newer() {
    local file=$1
    shift
    [ -e "$file" ] && [ -z "$(find "$@" -newer "$file" -print -quit 2>/dev/null)" ]
}

# lines_of NAME: the crate's line of crates.txt, without its colon, and those of the crates below it.
lines_of() {
    awk -v top="$1" '
        function show(name, words, count, at) {
            if (name in line && !shown[name]++) {
                print line[name]
                count = split(line[name], words)
                for (at = 2; at <= count; at++) show(words[at])
            }
        }
        { sub(/#.*/, ""); gsub(":", " "); $1 = $1; if ($1 != "") line[$1] = $0 }
        END { show(top) }' "$root/crates.txt"
}

# parts_of NAME: the folders below crates/ that the crate and those below it are made from.
parts_of() {
    local name
    for name in $(lines_of "$1" | cut -d ' ' -f 1); do
        echo "$name"/{src,specs,proofs}
    done
}

# made_from NAME: a checksum of what the crate is made from: those lines, and the files in those folders.
made_from() {
    {
        lines_of "$1"
        (cd "$root/crates" && find $(parts_of "$1") -type f -print0 2>/dev/null | LC_ALL=C sort -z | xargs -0 sha256sum)
    } | sha256sum
}

# sum_of FILE: of a built library, the file that has the sums of its others.
sum_of() {
    local file=$1
    [ -d "$file" ] && file+=/format
    sha256sum <"$file"
}

# note_made NOTE FILE SUM: notes that what was built is this file, made from what has that sum.
note_made() {
    printf '%s\n' "$3" "$(sum_of "$2")" >"$1"
}

# is_noted NOTE FILE SUM: the note says this, and the file is as it was then.
is_noted() {
    [ -e "$1" ] && [ -e "$2" ] && [ "$(cat "$1")" = "$3"$'\n'"$(sum_of "$2")" ]
}

# is_made NAME FILE: what was built of the crate is this file, and nothing that it was made from has changed. If rt ci built it, which
# leaves no note, the file's time tells this, and the note is made here.
is_made() {
    local note=$root/crates/$1/out/$1.made sum
    [ -e "$2" ] || return 1
    sum=$(made_from "$1")
    if [ -e "$note" ]; then
        is_noted "$note" "$2" "$sum"
    else
        (cd "$root/crates" && is_newer "$2" ../crates.txt $(parts_of "$1")) && note_made "$note" "$2" "$sum"
    fi
}

# tell NAME [LOG]: from now on a process reports progress on standard error, in lines that begin with that name, until `telling` is killed.
tell() {
    python3 "$root/scripts/support/progress.py" "$@" </dev/null >&2 &
    telling=$!
    # The shell then doesn't report its end.
    disown "$telling" 2>/dev/null
}

# build_program NAME: proves and builds the program of that crate if it is missing or out of date, and runs it once without input.
# The output of the build goes to standard error. A second build of it waits for the first.
build_program() {
    local name=$1 folder=$root/crates/$1/out
    mkdir -p "$folder" || return 1
    (
        flock 9 || exit 1
        is_made "$name" "$folder/$name" && exit
        # A crate that is edited meanwhile has another checksum than this one.
        sum=$(made_from "$name")
        rm -f "$folder/$name"
        (cd "$root/crates/$name" && rt run)
        [ -x "$folder/$name" ] && note_made "$folder/$name.made" "$folder/$name" "$sum"
    ) 9>"$folder/building.lock" </dev/null >&2
}

# is_made_unproved NAME: the unproved build of the program of that crate is there, and nothing that it was made from has changed. It has a folder
# of its own, so nothing takes it for the proved one.
is_made_unproved() {
    local folder=$root/crates/$1/out/unproved
    is_noted "$folder/made" "$folder/$1" "$(made_from "$1")"
}

# build_unproved NAME: builds the program of that crate without a proof, in out/unproved, if it is missing there or out of date. The output of the
# build goes to building.log there. A second build of it waits for the first.
build_unproved() {
    local name=$1 folder=$root/crates/$1/out/unproved
    mkdir -p "$folder" || return 1
    (
        flock 9 || exit 1
        is_made_unproved "$name" && exit
        sum=$(made_from "$name")
        command -v rt >/dev/null || { echo 'rt is not on the path' >"$folder/building.log" && exit 1; }
        kit=$(dirname "$(dirname "$(readlink -f "$(command -v rt)")")")
        rm -f "$folder/new"
        python3 "$root/scripts/support/build_unproved.py" "$root" "$name" "$kit" "$folder/new" >"$folder/building.log" 2>&1
        [ -x "$folder/new" ] && mv -f "$folder/new" "$folder/$name" && note_made "$folder/made" "$folder/$name" "$sum"
    ) 9>"$folder/lock" </dev/null
}

# is_left NAME: rt ci has proved the library and left it, and nothing that it was made from has changed since.
is_left() {
    local built=$root/crates/$1/out/rlib
    [ ! -e "$built/stamp" ] && [ -e "$built/$1.rlib/format" ] && is_made "$1" "$built/$1.rlib"
}

# build_static NAME[:CPU] LIBRARY..: proves and builds the static library of that crate over the libraries, for that processor if the kit knows others
# than its own, if it is missing or out of date. The libraries are proved once more only if rt ci has not just left them. The output of the build goes
# to standard error.
build_static() {
    local name=${1%%:*} cpu=${1#"${1%%:*}"} static library kit sum flags=() note
    static=$root/crates/$name/out/lib$name.a
    note=$root/crates/$name/out/$name.made
    kit=$(dirname "$(dirname "$(readlink -f "$(command -v rt)")")")
    sum=$(made_from "$name")
    if [ -z "$cpu" ]; then
        is_made "$name" "$static" && return 0
    else
        # What rt ci builds is for the kit's own processor, and has no note.
        sum+=" ${cpu#:}"
        is_noted "$note" "$static" "$sum" && return 0
        "$kit/bin/rattle" build --help | grep -q -e '--cpu <' && flags=("--cpu=${cpu#:}")
    fi
    shift
    for library; do
        is_left "$library" || break
        shift
    done
    {
        [ $# -eq 0 ] && python3 "$root/scripts/support/build_static.py" "$root" "$name" "$kit" "${flags[@]}" ||
            (cd "$root/crates/$name" && rt lib "${flags[@]}")
    } </dev/null >&2 && touch "$static" && note_made "$note" "$static" "$sum"
}
