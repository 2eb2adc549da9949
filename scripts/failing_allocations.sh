#!/usr/bin/env bash
# Each allocation of a run fails in turn: the right line is printed, or the status is 3, with the line that says so. In this case the
# program for tests may also write nothing; the program itself only if an allocation for its arguments failed.
# And a long vector doesn't grow at each entry: a run with many keys makes few allocations.
source "$(dirname "${BASH_SOURCE[0]}")/support/counting.sh"

failing=$room/fail_allocation.so
make_preloaded fail_allocation

# count_silent ARGUMENTS..: $silent is the number of the last allocation for the arguments, which may fail without a line. A run with as
# many arguments, of which the first isn't a command, allocates them and writes the usage line.
count_silent() {
    local at
    silent=0
    for ((at = 1; at <= 100; at++)); do
        FAILING_ALLOCATION=$at LD_PRELOAD=$failing "$program" none "${@:2}" </dev/null >"$room/output" 2>/dev/null 9>"$room/failed"
        if [ -s "$room/output" ] || [ ! -s "$room/failed" ]; then
            return
        fi
        silent=$at
    done
    fail "$(basename "$program") $*: more than 100 allocations for its words"
}

# fail_each INPUT STATUS LINE ARGUMENTS..
fail_each() {
    local input=$1 wanted=$2 line=$3 at silent=1000
    shift 3
    [ "$is_tool" = no ] || count_silent "$@"
    printf '%s\n' "$line" >"$room/right"
    printf 'error: out of memory\n' >"$room/memory"
    for ((at = 1; at <= 1000; at++)); do
        printf '%s' "$input" >"$room/input"
        FAILING_ALLOCATION=$at LD_PRELOAD=$failing "$program" "$@" \
            <"$room/input" >"$room/output" 2>/dev/null 9>"$room/failed"
        status=$?
        if [ "$status" -eq "$wanted" ] && cmp -s "$room/output" "$room/right"; then
            pass
        elif [ "$status" -eq 3 ] && [ -s "$room/failed" ] && { { [ ! -s "$room/output" ] && [ "$at" -le "$silent" ]; } || cmp -s "$room/output" "$room/memory"; }; then
            pass
        else
            fail "$(basename "$program") $* with allocation $at failing: status $status, wrote '$(head -c 200 "$room/output")'"
        fi
        if [ ! -s "$room/failed" ]; then
            if [ "$at" -lt 3 ]; then
                fail "$(basename "$program") $*: no allocation failed"
            fi
            return
        fi
    done
    fail "$(basename "$program") $*: no end of its allocations"
}

# allocates_few MOST LINE ARGUMENTS..: the run on $room/input prints LINE, and makes at most MOST allocations.
allocates_few() {
    local most=$1 line=$2
    shift 2
    FAILING_ALLOCATION=$((most + 1)) LD_PRELOAD=$failing "$program" "$@" <"$room/input" >"$room/output" 2>/dev/null 9>"$room/failed"
    status=$?
    [ ! -s "$room/failed" ] || fail "$(basename "$program") $*: more than $most allocations"
    expect "$(basename "$program") $* with many keys" 0 "$line"$'\n'
}

# 20,000 keys that no field has: a vector of them that grew by one each time would allocate as often.
{ printf 'name=a&age=1&occupation=b'; seq -f '&k%05.0f=v' 1 20000 | tr -d '\n'; } >"$room/input"
allocates_few 200 'name=a&age=1&occupation=b&note' flat

is_tool=yes
long=$(printf '%*s' 20000 '' | tr ' ' x)
fail_each 'age=24&occupation=Student&name=Alice+B.' 0 'name=Alice+B.&age=24&occupation=Student&note' flat
fail_each 'age=24&occupation=%53tudent&name=Alice+B.&note=n&active&x=1&x=2' 0 \
    'name=Alice%20B.&age=24&occupation=Student&active=true&note=n' flat --form --duplicates last --format indexed
fail_each "name=$long&age=1&occupation=b" 0 "name=$long&age=1&occupation=b&note" flat
fail_each 'name=a' 1 'error: missing field `age`' flat
fail_each '=1&name=a' 1 "error: parsing failed with error: 'invalid input: the same key is used for both a value and a nested map' at position: 10" flat
address='address[city]=Carrot+City&address[street]=Special-Street*+No.+11&address[postcode]=12345'
fail_each "user_ids=7&user_ids=8&phone=12345&name=A%63me&$address&id=42" 0 \
    "id=42&name=Acme&phone=12345&$address&user_ids[]=7&user_ids[]=8" params --format empty
fail_each 'id=1&name=a&phone=2&address=c&address=s&address=p&user_ids=7' 1 'error: Maximum serialization depth `0` exceeded' params --depth 0
fail_each 'a[b]=1&a[c][]=2&d&a[c][]=%20&%5B=%5B' 0 "{'%5B':'%5B','a':{'b':'1','c':['2','%20']},'d':()}" any
fail_each 'a[0]=x&a[2]=y' 1 'error: missing index, expected: 1 got 2' any
fail_each 'age=1&age=2&name=a&occupation=b&note=' 0 'name=a&age=2&occupation=b&note=' flat
fail_each 'age=1&age=2&name=a&occupation=b&note=' 1 'error: multiple values provided for non-sequence field' flat --duplicates error

# fails INPUT POSITION MESSAGE OPTION..: the input has no tree.
fails() {
    local input=$1 position=$2 message=$3
    shift 3
    fail_each "$input" 1 "error: parsing failed with error: '$message' at position: $position" any "$@"
}

value_and_map='invalid input: the same key is used for both a value and a nested map'
value_and_sequence='invalid input: the same key is used for both a value and a sequence'
unclosed='unexpected end of input while parsing nested key'
fail_each 'a[b][c][d][e][f][g][h]=i' 0 "{'a':{'b':{'c':{'d':{'e':{'f':{'%5Bg%5D%5Bh%5D':'i'}}}}}}}" any
fail_each 'a[b][=1' 0 "{'a':{'b':{'%5B%3D1':()}}}" any --depth 1
fail_each 'a[b&c]=1' 0 "{'a':{'b%26c':'1'}}" any
fail_each 'a[b]=1&a=2' 0 "{'a':{'':'2','b':'1'}}" any
fails 'a=2&a[b]=1' 7 "$value_and_map"
fail_each 'a=1&a=2&a[]=3' 0 "{'a':['1','2','3']}" any
fails 'a=1&a[]=2' 7 "$value_and_sequence"
fails 'abc&abc[]=1' 9 "$value_and_sequence"
fails 'vec[[]=1&vec[]=2' 14 'invalid input: the key `vec` appears in the input as both a sequence and a map (with keys "[")'
fail_each '1=a&%31=b' 0 "{'1':'a','1':'b'}" any
fail_each '' 0 '()' any
fail_each '&&&' 1 'error: internal error: attempted to deserialize unitialised value' any
fails 'a[' 3 'query string ended before expected'
fails 'a[b' 4 "$unclosed"
fail_each 'abc%5Bdef%5D=ghi' 0 "{'abc':{'def':'ghi'}}" any --form
fail_each 'abc%5bdef%5d=ghi' 0 "{'abc%5Bdef%5D':'ghi'}" any --form
fail_each '=foo' 0 "'foo'" any
fail_each '0=a' 0 "['a']" any
fail_each 'a' 0 "{'a':()}" any
fail_each 'a=' 0 "{'a':''}" any
fail_each '01=x' 1 'error: missing index, expected: 0 got 1' any
fails '=1&a=2' 7 "$value_and_map"
fail_each 'a[4294967296]=p&a[4294967295]=q' 0 "{'a':{'4294967295':'q','4294967296':'p'}}" any
fail_each '' 2 'usage: qs_tool flat|params|any [--form] [--strict] [--depth N] [--format indexed|empty|unindexed] [--duplicates last|error]' round

# Typed calls, over structs, maps, lists and enums of users, and lists in one text.
is_tool=no
program=${2:-$root/crates/qs_answers/out/qs_answers}
[ -x "$program" ] || fail "there is no program $program: run 'rt run' in crates/qs_answers once"
fail_each 'name=Alice&age=24&occupation=Student' 0 'name=Alice&age=24&occupation=Student' query
fail_each 'age=24&name=Alice' 1 'error: missing field `occupation`' query
fail_each '1=a&%31=b' 0 '1=b' map
fail_each 'items=7&items=8&name=A%63me&address[city]=Carrot+City&address[street]=S' 0 \
    'name=Acme&address[street]=S&address[city]=Carrot+City&items[0]=7&items[1]=8' order
fail_each 'text=a%20b&page=2&ranges[0][]=1&ranges[0][]=-2&labels[b]=%20&labels[a]=x' 0 \
    'text=a+b&page=2&ranges[0][0]=1&ranges[0][1]=-2&labels[a]=x&labels[b]=+' search
fail_each 'b[1][from]=3&b[1][to]=4&b[0][to]=2&b[0][from]=1&a[k][from]=5&a[k][to]=6' 0 \
    'a[k][from]=5&a[k][to]=6&b[0][from]=1&b[0][to]=2&b[1][from]=3&b[1][to]=4' ranges
fail_each 'x=Relevance&y[By]=p&z[Between][from]=1&z[Between][to]=2' 0 \
    'x=Relevance&y[By]=p&z[Between][from]=1&z[Between][to]=2' sorts
fail_each 'a=10,20&b[a]=1|2&b[b]=-3+4' 0 'a=10,20&b[a]=1|2&b[b]=-3+4' lists
fail_each 'a=10,x&b[a]=&b[b]=' 1 'error: invalid item `x`' lists
fail_each 'a=1,2,3&b=' 0 'a=1,2,3&b=' values
fail_each 'a=1,,3' 1 'error: invalid item ``' values
fail_each 'name=a' 1 'error: missing field `address`' order
fail_each 'a=1&a[b' 1 "error: parsing failed with error: '$value_and_map' at position: 7" map

# Each typed call, and writers that take a byte at a time and have limited capacity: after a failed allocation they hold whole entries of a
# serializer, and nothing of a typed call.
order='items=7&items=8&name=A%63me&address[city]=Carrot+City&address[street]=S'
text='name=Acme&address[street]=S&address[city]=Carrot+City&items[0]=7&items[1]=8'
fail_each "$order" 0 "$text" order each_call
fail_each 'b[1][from]=3&b[1][to]=4&b[0][to]=2&b[0][from]=1&a[k][from]=5&a[k][to]=6' 0 \
    'a[k][from]=5&a[k][to]=6&b[0][from]=1&b[0][to]=2&b[1][from]=3&b[1][to]=4' ranges each_call
fail_each 'a=10,20&b[a]=1|2&b[b]=-3+4' 0 'a=10,20&b[a]=1|2&b[b]=-3+4' lists each_call
fail_each 'a=1&a[b' 1 "error: parsing failed with error: '$value_and_map' at position: 7" map each_call
for call in to_writer serialize_to_writer; do
    fail_each "$order" 0 "$text" order "$call" 100
done
fail_each "$order" 0 "$text&$text" order serialize_twice 200
fail_each "$order" 0 'name=Acme&address[street and then: write zero' order to_writer 24
fail_each "$order" 0 ' and then: write zero' order to_writer 0
fail_each "$order" 0 'name=Acme&address[street]=S and then: operation interrupted' order serialize_to_writer 27
fail_each "$order" 0 "$text&name=Ac and then: broken pipe" order serialize_twice 83
fail_each "v=$long&w=1" 0 "v=${long:0:2998} and then: write zero" map to_writer 3000
fail_each "v=$long&w=1" 0 "v=$long&w=1" map serialize_to_writer 30000

# Calls without a user's type: maps and structs whose keys and names are put into a set to compare them, data of every kind, errors made
# by callers, lists in one text, wrappers.
fail_each "$(seq -s, 20)" 0 'true true' plain
fail_each "$(seq -s, 20),7" 0 'false false' plain
fail_each '' 0 'c=%C3%A4&b=%FF+%26 and then: unsupported type for serialization' data
fail_each 'bytes=hello,+world!' 0 'bytes=hello,+world! bytes=hello%2C%20world%21' bytes
fail_each 'no such page' 1 'error: no such page' custom
fail_each 'no digit' 1 "error: parsing failed with error: 'no digit' at position: 7" parse_err
fail_each '' 1 'error: cannot deserialize bool at the top level.Try deserializing into a struct.' top_level
fail_each $'ab\xff' 1 'error: invalid utf-8 sequence of 1 bytes from index 2' custom
fail_each $'ab\xff' 1 'error: invalid utf-8 sequence of 1 bytes from index 2' from_utf8
fail_each '7x' 1 'error: invalid digit found in string' parse_int
fail_each 'foo,,b r' 0 'foo,,b,r' helpers
fail_each 'a b' 0 'a b a b' web

# Why the typed calls read nothing.
fail_each 'name=a&address[street]=%20&items[0]=7' 0 'address[city]: expected a text, found nothing' order explained
fail_each 'name=a&address[street]=s&address[city]=c&items[0]=7&items[1]=%78' 0 'items[1]: expected u32, found the text "x"' order explained
fail_each 'x=Relevance&y[Between][from]=1&y[Between][to]=-' 0 'y[Between][to]: expected u32, found the text "-"' sorts explained
fail_each 'x[Under]=1' 0 'x: unexpected key "Under", expected one of "Relevance", "By", "Between"' sorts explained
fail_each 'x=Under' 0 'x: expected one of "Relevance", "By", "Between", found the text "Under"' sorts explained
fail_each '&' 0 'the query has no pairs' sorts explained
fail_each 'a=1&a[b' 0 "parsing failed with error: '$value_and_map' at position: 7" map explained
fail_each 'a=1' 0 'it is read' map explained

# Types with serde's derives: each line that the program prints is the right one, or says that memory ran out, unless the program ended
# before it. After the last allocation it is the right one.
program=${3:-$root/crates/qs_derived/out/qs_derived}
[ -x "$program" ] || fail "there is no program $program: run 'rt run' in crates/qs_derived once"

# derived_each TYPE: of the cases of scripts/golden/derives.tsv that the type reads, the longest.
derived_each() {
    local at case input right
    case=$(grep -P "^query\t5\tlast\t$1\t\?[^\t]*\t.*\?" "$root/scripts/golden/derives.tsv" | awk '{ print length, $0 }' | sort -n | tail -n 1 | cut -d ' ' -f 2-)
    input=$(cut -f 1-5 <<<"$case")
    right=$(awk -F '\t' '{ print $7 == "" ? $6 : $7 }' <<<"$case")
    for ((at = 1; at <= 1000; at++)); do
        FAILING_ALLOCATION=$at LD_PRELOAD=$failing "$program" <<<"$input" >"$room/output" 2>/dev/null 9>"$room/failed"
        status=$?
        found=$(<"$room/output")
        if [ "$status" -eq 0 ] && [ "$found" = "$right" ]; then
            pass
        elif [ -s "$room/failed" ] && { [[ $found == *OutOfMemory* ]] || { [ "$status" -ne 0 ] && [ -z "$found" ]; }; }; then
            pass
        else
            fail "$input with allocation $at failing: status $status, printed '${found:0:200}'"
        fi
        if [ ! -s "$room/failed" ]; then
            [ "$at" -gt 3 ] || fail "$input: no allocation failed"
            return
        fi
    done
    fail "$input: no end of its allocations"
}

for type in $(cut -f 4 "$root/scripts/golden/derives.tsv" | sort -u); do
    derived_each "$type"
done

report
