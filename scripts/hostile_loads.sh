#!/usr/bin/env bash
# Inputs made to be expensive, parsed and shown as trees: many keys in each order, long lists, long runs of one byte, deep
# brackets, long keys, keys that run over separators, and conflicts.
source "$(dirname "${BASH_SOURCE[0]}")/support/loads.sh"

# This many brackets would overflow a stack of 8 MiB many times over if each took a call.
deepest=100000

for count in 100000 300000; do
    numbers $count 'in order' | sed "s/.*/'k&':'v'/" | joined , | between { } >"$room/wanted"
    for order in 'in order' reversed shuffled; do
        numbers $count "$order" | sed 's/.*/k&=v/' | joined '&' >"$room/input"
        load "$count keys, $order" 0 pairs=$count any
    done
done

numbers 100000 'in order' | sed "s/.*/'k&':'v'/" | joined , | between "{'m':{" '}}' >"$room/wanted"
for order in 'in order' reversed shuffled; do
    numbers 100000 "$order" | sed 's/.*/m[k&]=v/' | joined '&' >"$room/input"
    load "a map of 100000 keys, $order" 0 pairs=100000 any
done

numbers 100000 'in order' | sed "s/.*/'v&'/" | joined , | between "{'a':[" ']}' >"$room/wanted"
for order in 'in order' reversed shuffled; do
    numbers 100000 "$order" | awk '{ printf "a[%d]=v%s\n", $1, $1 }' | joined '&' >"$room/input"
    load "a list of 100000, $order" 0 pairs=100000 any
done

times 100000 "'v'," | sed 's/,$//' | between "{'a':[" ']}' >"$room/wanted"
times 100000 'a[]=v&' >"$room/input"
load '100000 pushes' 0 pairs=100000 any
times 100000 'a=v&' >"$room/input"
load '100000 values of one key' 0 pairs=100000 any

conflict='invalid input: the same key is used for both a value and a nested map'
times 100000 'a=1&a[b]=2&' >"$room/input"
rejected '100000 conflicts' 7 "$conflict"
{ printf 'a=1&a[b]=2&'; times 1000000 'key=value&'; } >"$room/input"
rejected 'a conflict at the front of 10 MB' 7 "$conflict"

million=1000000
# A shorter input takes no more memory than starting the program, so its peak says nothing.
long=$((4 * million))
times $((9 * million)) v | between "{'a':'" "'}" >"$room/wanted"
{ printf 'a='; times $((9 * million)) v; } >"$room/input"
tree 'a value of 9 MB'
unclosed='unexpected end of input while parsing nested key'
times $long '[' >"$room/input"
rejected 'opening brackets' $((long + 1)) "$unclosed"
times $long '%5B' >"$room/input"
rejected 'escaped opening brackets, form mode' $((3 * long + 1)) "$unclosed" --form

# A key that is never closed runs over the separators that follow, up to the end.
for text in letters + %41; do
    for bytes in $million $((4 * million)) $((16 * million)); do
        { printf 'x=1'; times $((bytes / (3 + ${#text}))) "&a[$text"; } >"$room/input"
        end=$(($(wc -c <"$room/input") + 1))
        rejected "$bytes bytes of unclosed keys with $text" $end "$unclosed"
        rejected "$bytes bytes of unclosed keys with $text, form mode" $end "$unclosed" --form
    done
done

# shown NAME BYTE ESCAPE BEFORE END: a long run of the byte is shown as that many escapes between two texts.
shown() {
    times $long "$2" >"$room/input"
    times $long "$3" | between "$4" "$5" >"$room/wanted"
    tree "$1"
}

shown 'closing brackets' ']' %5D "{'" "':()}"
shown 'percent signs' % %25 "{'" "':()}"
shown 'plus signs' + %20 "{'" "':()}"
shown 'escaped opening brackets' %5B %5B "{'" "':()}"

times $long '=' >"$room/input"
times $((long - 1)) %3D | between "'" "'" >"$room/wanted"
tree 'equals signs'

times $long '&' >"$room/input"
echo 'error: internal error: attempted to deserialize unitialised value' >"$room/wanted"
load 'ampersands' 1 letters any

# nested_text COUNT VALUE: a pair whose key has COUNT brackets.
nested_text() {
    printf a
    times "$1" '[b]'
    printf '=%s' "$2"
}

nested_text $deepest 1 >"$room/input"
{ printf "{'a':"; times $deepest "{'b':"; printf "'1'"; times $((deepest + 1)) '}'; echo; } >"$room/wanted"
load "$deepest brackets" 0 maps=$deepest any --depth $deepest

{ nested_text $deepest 1; printf '&a[c]=%%FF'; } >"$room/input"
echo 'error: invalid utf-8 sequence of 1 bytes from index 0' >"$room/wanted"
load "$deepest brackets beside a value that isn't UTF-8" 1 maps=$deepest any --depth $deepest

{ nested_text $deepest 1; printf '&'; nested_text $deepest 2; } >"$room/input"
{ printf "{'a':"; times $deepest "{'b':"; printf "['1','2']"; times $((deepest + 1)) '}'; echo; } >"$room/wanted"
load "$deepest brackets, twice" 0 maps=$deepest any --depth $deepest

{ nested_text $deepest 1; printf '&a[]=2'; } >"$room/input"
against=maps=$deepest rejected "$deepest brackets and a conflict" $((3 * deepest + 7)) \
    'invalid input: the key `a` appears in the input as both a sequence and a map (with keys "b")' --depth $deepest

nested_text $million 1 >"$room/input"
{ printf "{'a':{'b':{'b':{'b':{'b':{'b':{'"; times $((million - 5)) %5Bb%5D; printf "':'1'}}}}}}}\n"; } >"$room/wanted"
tree "$million brackets, the default depth"

times $long k | between "{'" "':['1','2']}" >"$room/wanted"
{ times $long k; printf '=1&'; times $long k; printf '=2'; } >"$room/input"
tree 'a key of four million bytes, twice'
times $long k | between "{'a':{'" "':['1','2']}}" >"$room/wanted"
{ printf 'a['; times $long k; printf ']=1&a['; times $long k; printf ']=2'; } >"$room/input"
tree 'a key of four million bytes in brackets, twice'

report_loads
