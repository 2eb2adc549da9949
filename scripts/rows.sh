#!/usr/bin/env bash
# Rows worked out by hand, on the built program: the arguments, the input, the status and the line.
source "$(dirname "${BASH_SOURCE[0]}")/support/counting.sh"

usage='usage: qs_tool flat|params|any [--form] [--strict] [--depth N] [--format indexed|empty|unindexed] [--duplicates last|error]'
alice='age=24&occupation=Student&name=Alice+B.'
person='name=a&age=1&occupation=b'

# row INPUT STATUS LINE ARGUMENTS..
row() {
    local input=$1 wanted=$2 line=$3
    shift 3
    printf '%s' "$input" | "$program" "$@" >"$room/output" 2>"$room/said"
    status=${PIPESTATUS[1]}
    expect "qs_tool $* on '$input'" "$wanted" "$line"$'\n'
    if [ -s "$room/said" ]; then
        fail "qs_tool $* on '$input': it wrote to standard error"
    fi
}

row "$alice" 0 'name=Alice+B.&age=24&occupation=Student&note' flat
row "$alice"$'\n' 0 'name=Alice+B.&age=24&occupation=Student&note' flat
row "$alice" 0 'name=Alice%20B.&age=24&occupation=Student&note' flat --form
row "active&$person" 0 "$person&active=true&note" flat
row '' 1 'error: missing field `name`' flat
row '=1&name=a' 1 "error: parsing failed with error: 'invalid input: the same key is used for both a value and a nested map' at position: 10" flat
row "$person&age=2" 0 'name=a&age=2&occupation=b&note' flat
row "$person&age=2" 1 'error: multiple values provided for non-sequence field' flat --duplicates error
# two final newlines: one of them is the input's
row "$person&note="$'\n\n' 0 "$person&note=%0A" flat

# nested data, in any order
address='address[city]=Carrot+City&address[street]=Special-Street*+No.+11&address[postcode]=12345'
row "user_ids[3]=4&user_ids[2]=3&user_ids[1]=2&user_ids[0]=1&address[postcode]=12345&address[street]=Special-Street*+No.+11&address[city]=Carrot+City&phone=12345&name=Acme&id=42" \
    0 "id=42&name=Acme&phone=12345&$address&user_ids[0]=1&user_ids[1]=2&user_ids[2]=3&user_ids[3]=4" params
row "id=1&name=a&phone=2&$address&user_ids=7&user_ids=8" 0 "id=1&name=a&phone=2&$address&user_ids[]=7&user_ids[]=8" params --format empty
row 'id=1&name=a&phone=2&address=c&address=s&address=p&user_ids=7' 1 'error: Maximum serialization depth `0` exceeded' params --depth 0

# unknown keys
row "$person&x=2" 1 'error: unknown field `x`' flat --strict
row "$person&x=2" 0 "$person&note" flat
row "$person&c%5Bd%5D=2" 1 $'error: unknown field `c[d]`\nInvalid field contains an encoded bracket -- consider using form encoding mode\n  https://docs.rs/serde_qs/latest/serde_qs/#query-string-vs-form-encoding' flat --strict
row "id=1&name=a&phone=2&$address&user_ids[0]=7&address[zip]=1" 1 'error: unknown field `zip`' params --strict
row "id=1&name=a&phone=2&$address&user_ids[0]=7" 0 "id=1&name=a&phone=2&$address&user_ids[0]=7" params --strict
row 'a=1' 0 "{'a':'1'}" any --strict

# whatever is there
row '' 0 '()' any
row '=foo' 0 "'foo'" any
row 'a[b]=1&a=2' 0 "{'a':{'':'2','b':'1'}}" any
row 'a[]&a=1' 0 "{'a':[(),'1']}" any
row 'abc%5Bdef%5D=ghi' 0 "{'abc':{'def':'ghi'}}" any --form
row 'a[b][=1' 0 "{'a':{'b':{'%5B%3D1':()}}}" any --depth 1
row 'a=1&a=2' 0 "{'a':['1','2']}" any --duplicates error --format empty
row 'a[0]=x&a[2]=y' 1 'error: missing index, expected: 1 got 2' any
row "a[$(printf '%01000d' 1)]=x" 1 'error: missing index, expected: 0 got 1' any
row 'x[%FF]=1' 1 'error: invalid utf-8 sequence of 1 bytes from index 0' any
row 'abc&abc[]=1' 1 "error: parsing failed with error: 'invalid input: the same key is used for both a value and a sequence' at position: 9" any

# options in any order
row "$person" 0 "$person&note" flat --duplicates last --format empty --form
row "$person" 0 "$person&note" flat --form --format unindexed --duplicates error
row 'a[b]=1' 0 "{'a%5Bb%5D':'1'}" any --duplicates last --depth +0
row 'a[b]=1' 0 "{'a':{'b':'1'}}" any --depth 007
row 'a[b]=1' 0 "{'a':{'b':'1'}}" any --depth 18446744073709551615

# misuse SAID ARGUMENTS..: the usage line with status 2, whatever the input is, and this on standard error
misuse() {
    local said=$1
    shift
    printf '%s' "$person" | "$program" "$@" >"$room/output" 2>"$room/said"
    status=${PIPESTATUS[1]}
    expect "qs_tool $*" 2 "$usage"$'\n'
    printf 'qs_tool: %s\n' "$said" >"$room/wanted"
    if cmp -s "$room/said" "$room/wanted"; then
        pass
    else
        fail "qs_tool $*: said '$(head -c 200 "$room/said")', and not '$said'"
    fi
}

number="'--depth' takes a number from 0 to 18446744073709551615"
format="'--format' takes 'indexed', 'empty' or 'unindexed'"
misuse 'no command is given'
misuse "unknown command ''" ''
misuse "unknown command 'round'" round
misuse "unknown command 'FLAT'" FLAT
misuse "unknown command '--form'" --form flat
misuse "unknown command '-h'" -h
misuse "unknown command '--help'" --help flat
misuse "unknown command '--version'" --version --version
misuse "unknown command '--help'" --help --version
misuse "unknown option '--help'" any --help
misuse "unknown option 'flat'" flat flat
misuse "unknown option '--dept'" any --dept 1
misuse "'--strict' is given twice" flat --strict --form --strict
misuse "unknown option ''" flat --form ''
misuse "unknown option '--form=true'" flat --form=true
misuse "'flat' takes no '--depth'" flat --depth 1
misuse "'flat' takes no '--depth'" flat --form --depth 0 --format empty
misuse "'--form' is given twice" flat --form --form
misuse "'--format' is given twice" flat --format indexed --format indexed
misuse "'--depth' is given twice" params --depth 1 --depth 1
misuse "'--duplicates' is given twice" any --duplicates last --form --duplicates error
misuse "$format" flat --format
misuse "$format" flat --format Indexed
misuse "'--duplicates' takes 'last' or 'error'" flat --duplicates
misuse "'--duplicates' takes 'last' or 'error'" flat --duplicates none
misuse "$number" any --depth
misuse "$number" any --depth ''
misuse "$number" any --depth -0
misuse "$number" any --depth 18446744073709551616
misuse "$number" params --depth --form
# the first of several
misuse "unknown option '--no'" flat --depth 1 --no --form --form
misuse "'--form' is given twice" flat --form --form --no

# alone, without standard input
"$program" --version >"$room/output" 2>"$room/said" <&-
status=$?
expect 'qs_tool --version' 0 $'qs_tool 1.1.3\n'
"$program" --help >"$room/help" 2>>"$room/said" <&-
status=$?
head -n 1 "$room/help" >"$room/output"
expect 'qs_tool --help' 0 "$usage"$'\n'
[ ! -s "$room/said" ] || fail '--help or --version wrote to standard error'

# each example of the help: the line below it is what the program prints
example='^ *\$ echo '\''(.*)'\'' \| qs_tool (.*)$'
examples=0
while IFS= read -r line; do
    [[ $line =~ $example ]] || continue
    input=${BASH_REMATCH[1]} arguments=${BASH_REMATCH[2]}
    IFS=' ' read -r wanted
    examples=$((examples + 1))
    [[ $wanted == error:* ]] && code=1 || code=0
    row "$input"$'\n' $code "$wanted" $arguments
done <"$room/help"
[ $examples -ge 7 ] || fail "the help has only $examples examples"

report
