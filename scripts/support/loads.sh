# Inputs made to be expensive, on the built program. Each has to print the right line, and may take at most some multiple of
# the processor time and the peak memory of another input, its measure:
# - letters: one value of letters, as long as the input, which makes few nodes;
# - pairs=N: N pairs in order, each with a key of its own, if the input makes a tree of as many nodes;
# - maps=N: N pairs in order, each of them a map of its own, as each bracket of a deep key makes one.
# These trees are larger than their bytes. They may take a bounded amount more than the letters.
# A script sources this first and ends with `report_loads`.
source "$(dirname "${BASH_SOURCE[0]}")/counting.sh"
support=$(dirname "${BASH_SOURCE[0]}")

declare -A most_time=([letters]=4 [pairs]=8 [maps]=8)
most_memory=2
# The trees in order: the multiple of the letters' time, and the additional bytes for each pair or map.
most_tree_time=60
declare -A most_bytes=([pairs]=320 [maps]=1200)
# A shorter run counts as one of this many seconds: the program's start is most of it.
least_seconds=0.01
# If a run took longer, there are this many runs in all, each except the first with a new run of its measure, and the median of their
# quotients counts: another process may have been in the way, or the processor's clock may have changed between the two.
most_runs=7
# The command that runs the measures.
measure=any
declare -A measures=()
declare -A below=([pairs]= [maps]='[b]')
declare -A slowest=([letters]=0 [pairs]=0 [maps]=0) widest=([letters]=0 [pairs]=0 [maps]=0)
declare -A slowest_name=() widest_name=()

# measured INPUT ARGUMENT..: runs the program: its status, seconds and KiB.
measured() {
    local input=$1
    shift
    python3 "$support/measure.py" "$input" "$room/output" "$program" "$@"
}

# quotient NUMBER OTHER: with two digits after the point.
quotient() {
    awk -v number="$1" -v other="$2" 'BEGIN { printf "%.2f", number / other }'
}

# median NUMBER..: the median of an odd count of numbers.
median() {
    printf '%s\n' "$@" | sort -n | sed -n "$((($# + 1) / 2))p"
}

# is_over LEFT RIGHT: the number LEFT is greater than RIGHT.
is_over() {
    awk -v left="$1" -v right="$2" 'BEGIN { exit !(left > right) }'
}

# taken_by MEASURE: what the input $room/MEASURE took, in seconds and KiB: $least_time and $least_memory. Runs it if no run is kept.
taken_by() {
    local status
    [ -n "${measures[$1]:-}" ] || measures[$1]=$(measured "$room/$1" "$measure")
    read -r status least_time least_memory <<<"${measures[$1]}"
    is_over "$least_time" "$least_seconds" || least_time=$least_seconds
}

# by_letters INPUT: the measure $held_by is one value of letters that is as long.
by_letters() {
    local bytes
    bytes=$(wc -c <"$1")
    held_by=letters=$bytes
    [ -f "$room/$held_by" ] || { printf 'a='; times "$bytes" v; } | head -c "$bytes" >"$room/$held_by"
}

# by_tree MEASURE: the measure $held_by is this tree in order, `pairs=N` or `maps=N`. The first time it is held against its letters.
by_tree() {
    local kind=${1%=*} count=${1#*=}
    if [ ! -f "$room/$1" ]; then
        numbers "$count" 'in order' | sed "s/.*/k&${below[$kind]}=v/" | joined '&' >"$room/$1"
        hold_tree "$kind" "$count"
    fi
    held_by=$1
}

# hold_tree KIND COUNT: tests that a tree in order takes no more than it may, compared with the letters.
hold_tree() {
    local kind=$1 count=$2 time memory bytes
    taken_by "$kind=$count"
    time=$least_time memory=$least_memory
    by_letters "$room/$kind=$count"
    taken_by "$held_by"
    time=$(quotient "$time" "$least_time")
    bytes=$(((memory - least_memory) * 1024 / count))
    if is_over "$time" $most_tree_time; then
        fail "$count $kind in order: $time times the time of the letters, and not $most_tree_time"
    elif [ "$bytes" -gt "${most_bytes[$kind]}" ]; then
        fail "$count $kind in order: $bytes bytes for each, and not ${most_bytes[$kind]}"
    else
        pass
    fi
    [ -z "${SHOW_LOADS:-}" ] || echo "$count $kind in order: $time times the time of the letters, and $bytes bytes more for each"
}

# load NAME STATUS MEASURE COMMAND OPTION..: what the command prints for $room/input has to be the line $room/wanted.
load() {
    local name=$1 wanted=$2 kind=${3%=*} quotients=() status seconds memory time wide
    if [ "$kind" = letters ]; then
        by_letters "$room/input"
    else
        by_tree "$3"
    fi
    shift 3
    while :; do
        taken_by "$held_by"
        read -r status seconds memory <<<"$(measured "$room/input" "$@")"
        quotients+=("$(quotient "$seconds" "$least_time")")
        if [ "${#quotients[@]}" -eq "$most_runs" ] || ! is_over "${quotients[0]}" "${most_time[$kind]}"; then
            break
        fi
        unset "measures[$held_by]"
    done
    time=$(median "${quotients[@]}")
    wide=$(quotient "$memory" "$least_memory")
    if [ "$status" -ne "$wanted" ]; then
        fail "$name: status $status, and not $wanted"
    elif ! cmp -s "$room/output" "$room/wanted"; then
        fail "$name: wrote '$(head -c 100 "$room/output")', and not '$(head -c 100 "$room/wanted")'"
    elif is_over "$time" "${most_time[$kind]}"; then
        fail "$name: $time times the time of its measure, and not ${most_time[$kind]}"
    elif is_over "$wide" "$most_memory"; then
        fail "$name: $wide times the memory of its measure, and not $most_memory"
    else
        pass
    fi
    if is_over "$time" "${slowest[$kind]}"; then
        slowest[$kind]=$time
        slowest_name[$kind]=$name
    fi
    if is_over "$wide" "${widest[$kind]}"; then
        widest[$kind]=$wide
        widest_name[$kind]=$name
    fi
    [ -z "${SHOW_LOADS:-}" ] || echo "| $name | $kind | $(awk -v s="$seconds" 'BEGIN { printf "%.0f", s * 1000 }') | $time | $wide |"
}

# tree NAME OPTION..: the input has the tree $room/wanted, which consists mostly of long texts.
tree() {
    local name=$1
    shift
    load "$name" 0 letters any "$@"
}

# rejected NAME POSITION MESSAGE OPTION..: the input is rejected there. The measure is letters, or $against.
rejected() {
    local name=$1 position=$2 message=$3
    shift 3
    echo "error: parsing failed with error: '$message' at position: $position" >"$room/wanted"
    load "$name" 1 "${against:-letters}" any "$@"
}

# numbers COUNT ORDER: the numbers below COUNT, with at least six digits, in an order, one a line.
numbers() {
    case $2 in
    'in order') seq -f '%06.0f' 0 $(($1 - 1)) ;;
    reversed) seq -f '%06.0f' $(($1 - 1)) -1 0 ;;
    # The same order at each run.
    shuffled) seq -f '%06.0f' 0 $(($1 - 1)) | shuf --random-source=<(yes) ;;
    esac
}

# joined SEPARATOR: the lines of standard input as one, without its newline.
joined() {
    paste -s -d "$1" | tr -d '\n'
}

# times COUNT TEXT: the text COUNT times.
times() {
    yes "$2" | head -n "$1" | tr -d '\n'
}

# between FRONT END: standard input between two texts, followed by a newline.
between() {
    printf '%s' "$1"
    cat
    printf '%s\n' "$2"
}

report_loads() {
    local kind
    for kind in letters pairs maps; do
        if [ -n "${slowest_name[$kind]:-}" ]; then
            echo "measured by $kind, the longest took ${slowest[$kind]} times the time: ${slowest_name[$kind]}"
            echo "measured by $kind, the widest took ${widest[$kind]} times the memory: ${widest_name[$kind]}"
        fi
    done
    report
}
