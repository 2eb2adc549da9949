#!/usr/bin/env bash
# Streams that fail, at their beginning or in the middle: the status is 3, and only a prefix of the line is written.
source "$(dirname "${BASH_SOURCE[0]}")/support/counting.sh"

person='name=a&age=1&occupation=b'
line=$person$'&note\n'
order='id=1&name=a&phone=2&address[city]=c&address[street]=s&address[postcode]=p&user_ids[0]=7'

# ended WHAT STATUS: the last run ended with STATUS.
ended() {
    if [ "$status" -eq "$2" ]; then
        pass
    else
        fail "$1: status $status, and not $2"
    fi
}

# run_on INPUT COMMAND: runs the command on the input, with the standard output that it is given.
run_on() {
    printf '%s' "$1" | "$program" "$2"
    status=${PIPESTATUS[1]}
}

run_on "$person" flat >&-
ended 'flat, closed standard output' 3
run_on "$order" params >&-
ended 'params, closed standard output' 3
run_on "$order" any >&-
ended 'any, closed standard output' 3

"$program" round >&- </dev/null
status=$?
ended 'closed standard output and wrong arguments' 3

if [ -w /dev/full ]; then
    run_on "$person" flat >/dev/full
    ended 'flat, a full device' 3
    run_on "$order" params >/dev/full
    ended 'params, a full device' 3
    run_on "$order" any >/dev/full
    ended 'any, a full device' 3

    "$program" </dev/null >/dev/full
    status=$?
    ended 'a full device and wrong arguments' 3
fi

: >"$room/output"
"$program" flat <&- >"$room/output"
status=$?
expect 'closed standard input' 3 ''

: >"$room/output"
"$program" flat <"$room" >"$room/output"
status=$?
expect 'a folder as standard input' 3 ''

# what isn't read can't fail
"$program" <&- >"$room/output"
status=$?
ended 'closed standard input and no command' 2

# in_pieces INPUT: hands over a byte at a time
in_pieces() {
    local i
    for ((i = 0; i < ${#1}; i++)); do
        printf '%s' "${1:i:1}"
        sleep 0.002
    done
}

in_pieces "$person" | "$program" flat >"$room/output"
status=${PIPESTATUS[1]}
expect 'flat, an input that comes in pieces' 0 "$line"

in_pieces "$order" | "$program" params >"$room/output"
status=${PIPESTATUS[1]}
expect 'params, an input that comes in pieces' 0 "$order"$'\n'

# A byte for each read and a few for each write, up to a call that fails, is interrupted or moves nothing. After it the streams go on, so a
# call that is repeated shows.
make_preloaded failing_stream
failing=$room/failing_stream.so
alice='age=24&occupation=Student&name=Alice+B.'
answer=$'name=Alice+B.&age=24&occupation=Student&note\n'
fails=5 interrupted=4 nothing=0

# run_failing SETTING..: flat on $room/input, with these settings of failing_stream.c.
run_failing() {
    env LD_PRELOAD="$failing" "$@" "$program" flat <"$room/input" >"$room/output"
    status=$?
}

printf '%s' "$alice" >"$room/input"
for error in $fails $interrupted; do
    for ((at = 0; at <= ${#alice}; at++)); do
        run_failing INPUT_ENDS_AT=$at INPUT_ERROR=$error
        expect "a read after $at bytes ends with error $error" 3 ''
    done
done
for error in $fails $interrupted $nothing; do
    for ((at = 0; at < ${#answer}; at++)); do
        run_failing OUTPUT_STEP=5 OUTPUT_ENDS_AT=$at OUTPUT_ERROR=$error
        expect "a write after $at bytes ends with error $error" 3 "${answer:0:at}"
    done
done
run_failing
expect 'a byte at a time' 0 "$answer"

# a million reads at most: the last of them reaches the end, or doesn't
{ printf '%s' "$alice"; printf '%*s' $((999999 - ${#alice})) '' | tr ' ' '&'; } >"$room/input"
run_failing
expect 'a million reads' 0 "$answer"
printf '&' >>"$room/input"
run_failing
expect 'more than a million reads' 3 ''

# more than one read, at the length of one read and next to it
for length in 8191 8192 8193 100000 9000000; do
    long=$(printf '%*s' "$length" '' | tr ' ' x)
    printf 'name=%s&age=1&occupation=b' "$long" | "$program" flat >"$room/output"
    status=${PIPESTATUS[1]}
    expect "a name of $length bytes" 0 "name=$long&age=1&occupation=b&note"$'\n'
done

report
