#!/usr/bin/env bash
# Inputs of 300,000 pairs, read into a struct and written again: items of a list in each notation, keys that no field has, and one
# field many times.
source "$(dirname "${BASH_SOURCE[0]}")/support/loads.sh"

count=300000
others='id=1&name=a&phone=2&address[city]=c&address[street]=s&address[postcode]=p'

# The entries on standard input, after those of the other fields, are the input.
entries() {
    { printf '%s&' "$others"; joined '&'; } >"$room/input"
}

# reads NAME: they are read as the line $room/wanted.
reads() {
    load "$1" 0 pairs=$count params
}

numbers $count 'in order' | awk '{ printf "user_ids[%d]=%d\n", $1, $1 % 200 }' | joined '&' | between "$others&" '' >"$room/wanted"
for order in 'in order' reversed shuffled; do
    numbers $count "$order" | awk '{ printf "user_ids[%d]=%d\n", $1, $1 % 200 }' | entries
    reads "$count items, $order"
done
numbers $count 'in order' | awk '{ print "user_ids[]=" $1 % 200 }' | entries
reads "$count pushed items"
numbers $count 'in order' | awk '{ print "user_ids=" $1 % 200 }' | entries
reads "$count values of one key"

printf '%s&user_ids[0]=7\n' "$others" >"$room/wanted"
for order in 'in order' shuffled; do
    numbers $count "$order" | sed 's/.*/key&=v/; $a user_ids=7' | entries
    reads "$count unknown keys, $order"
    numbers $count "$order" | sed 's/.*/address[key&]=v/; $a user_ids=7' | entries
    reads "$count unknown keys in a struct, $order"
done
# They share their first forty bytes.
numbers $count shuffled | sed "s/.*/$(times 40 n)&=v/; \$a user_ids=7" | entries
reads "$count unknown keys with one front"
numbers $count shuffled | sed 's/.*/%6bey&=v/; $a user_ids=7' | entries
reads "$count unknown keys, each with an escape"
numbers $count shuffled | sed 's/./%3&/g; s/.*/%6b%65%79&=v/; $a user_ids=7' | entries
reads "$count unknown keys, each of escapes alone"
numbers $count shuffled | sed '1s/^/%6b/; s/.*/key&=v/; $a user_ids=7' | entries
reads "$count unknown keys, one with an escape"

sed -i "s/name=a/name=b$count/" "$room/wanted"
seq 1 $count | sed 's/.*/name=b&/; $a user_ids=7' | entries
reads "$count values of a text"

report_loads
