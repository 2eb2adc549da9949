#!/usr/bin/env bash
# Inputs of 300,000 pairs, read by users' types and written again: a map, lists and structs in each order, keys that no field has, and a
# list in one text. Equally long inputs that aren't read, because of their last pair or of a missing pair, and the reason. Maps and structs
# with as many keys and names, for which it is tested whether they can be read back.
crate=qs_answers
source "$(dirname "${BASH_SOURCE[0]}")/support/loads.sh"
measure=map
# A map of its own strings exists along with the tree.
most_bytes[pairs]=400

count=300000
others='name=a&address[street]=s&address[city]=c'

numbers $count 'in order' | sed 's/.*/k&=v/' | joined '&' | between '' '' >"$room/wanted"
for order in 'in order' reversed shuffled; do
    numbers $count "$order" | sed 's/.*/k&=v/' | joined '&' >"$room/input"
    load "a map of $count, $order" 0 pairs=$count map
done
numbers $count shuffled | sed 's/.*/%6b&=v/' | joined '&' >"$room/input"
load "a map of $count, each key with an escape" 0 pairs=$count map

numbers $count 'in order' | sed 's/.*/labels[k&]=v/' | joined '&' | between 'text=a&page&ranges=&' '' >"$room/wanted"
numbers $count shuffled | sed 's/.*/labels[k&]=v/; 1s/^/text=a\&/; $s/$/\&ranges=/' | joined '&' >"$room/input"
load "a map of $count in a struct, shuffled" 0 pairs=$count search

# items ORDER: `items[0]=1` and so on.
items() {
    numbers $count "$1" | awk '{ printf "items[%d]=%d\n", $1, $1 % 200 }' | joined '&'
}

items 'in order' | between "$others&" '' >"$room/wanted"
for order in 'in order' reversed shuffled; do
    { printf '%s&' "$others"; items "$order"; } >"$room/input"
    load "a list of $count, $order" 0 pairs=$count order
done
for key in 'items[]' items; do
    { printf '%s&' "$others"; numbers $count 'in order' | awk -v key="$key" '{ print key "=" $1 % 200 }' | joined '&'; } >"$room/input"
    load "a list of $count, each by $key" 0 pairs=$count order
done

# ranges KEY ORDER: half as many structs of two fields.
ranges() {
    numbers $((count / 2)) "$2" | awk -v key="$1" '{ printf key "[from]=%d&" key "[to]=%d\n", $1, $1 % 200, $1, $1 }' | joined '&'
}

ranges 'a[k%06d]' 'in order' | between '' '&b=' >"$room/wanted"
for order in 'in order' shuffled; do
    { ranges 'a[k%06d]' "$order"; printf '&b='; } >"$room/input"
    load "a map of $((count / 2)) structs, $order" 0 pairs=$count ranges
done
ranges 'b[%d]' 'in order' | between 'a=&' '' >"$room/wanted"
for order in 'in order' shuffled; do
    { printf 'a=&'; ranges 'b[%d]' "$order"; } >"$room/input"
    load "a list of $((count / 2)) structs, $order" 0 pairs=$count ranges
done

printf '%s&items[0]=7\n' "$others" >"$room/wanted"

# unknown NAME KEY: shuffled keys that no field has. In KEY `&` is the place of each key's number.
unknown() {
    { printf '%s&' "$others"; numbers $count shuffled | sed "s/.*/$2=v/; \$a items=7" | joined '&'; } >"$room/input"
    load "$count $1" 0 pairs=$count order
}

unknown 'unknown keys' 'key&'
unknown 'unknown keys in a struct' 'address[key&]'
unknown 'unknown keys with one front' "$(times 40 n)&"
unknown 'unknown keys, each with an escape' '%6bey&'

numbers $count 'in order' | sed 's/^0*\(.\)/\1/' | joined , | between 'a=' '&b[a]=1&b[b]=2' >"$room/wanted"
tr -d '\n' <"$room/wanted" >"$room/input"
load "$count numbers in one text" 0 letters lists

# explained NAME MEASURE TYPE LINE: why the type doesn't read the input.
explained() {
    printf '%s\n' "$4" >"$room/wanted"
    load "$1, explained" 0 "$2" "$3" explained
}

{ printf '%s&' "$others"; items 'in order' | sed 's/[0-9]*$/x/'; } >"$room/input"
explained "a list of $count whose last item is wrong" pairs=$count order "items[$((count - 1))]: expected u32, found the text \"x\""
{ printf '%s&items[0]=7&' "$others"; items 'in order' | sed 's/^items\[0\]=0&//; s/items\[1\]=[0-9]*&//'; } >"$room/input"
explained "a list of $count without its second item" pairs=$count order 'items[1]: expected u32, found nothing'
numbers $count shuffled | sed 's/.*/key&=v/' | joined '&' >"$room/input"
explained "$count unknown keys and no field" pairs=$count order 'name: expected a text, found nothing'
{ ranges 'a[k%06d]' shuffled; printf '&b=&a[k999999][from]=1&a[k999999][to]=x'; } >"$room/input"
explained "a map of $((count / 2)) structs whose last field is wrong" pairs=$count ranges 'a[k999999][to]: expected u32, found the text "x"'
{ printf 'a=&'; ranges 'b[%d]' 'in order' | sed 's/[0-9]*$/x/'; } >"$room/input"
explained "a list of $((count / 2)) structs whose last field is wrong" pairs=$count ranges "b[$((count / 2 - 1))][to]: expected u32, found the text \"x\""
{ printf 'x=1'; times 1000000 '&a[+'; } >"$room/input"
explained '4 MB of unclosed keys' letters map "parsing failed with error: 'unexpected end of input while parsing nested key' at position: $(($(wc -c <"$room/input") + 1))"

# plain NAME LINE: whether a map and a struct with these items as keys and names are plain.
plain() {
    printf '%s\n' "$2" >"$room/wanted"
    load "$1" 0 pairs=$count plain
}

for order in 'in order' reversed shuffled; do
    numbers $count "$order" | sed 's/^/k/' | joined , >"$room/input"
    plain "a map and a struct of $count that differ, $order" 'true true'
done
printf ',k000000' >>"$room/input"
plain "a map and a struct of $count, and one of them again" 'false false'

report_loads
