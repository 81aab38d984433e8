#!/usr/bin/env bash
# The time of scripts of 1,000 to 64,000 `ask` lines over a tenth as many keys, or to what is told, by line, and its ratio to that
# of the fewest; and, where GNU time is there, the greatest memory that a line takes besides, from a quarter of the lines to all.
# usage: bench/ask.sh [MOST]
most=${1:-64000}
. "$(dirname "${BASH_SOURCE[0]}")/timing.sh"

script_of() {
    local n=$1 i
    for ((i = 1; i <= n; i++)); do
        echo "ask notes ann PUT /n/k$((i % (n / 10))) value $i"
    done
}

first=
for ((n = 1000; n <= most; n *= 2)); do
    script_of "$n" >"$folder/asks"
    took=$(seconds_of @notes "$folder/asks")
    each=$(echo "$took $n" | awk '{ printf "%.5f", 1000 * $1 / $2 }')
    first=${first:-$each}
    echo "$n requests: $each ms each, ratio to the first $(ratio "$each" "$first")"
done

[ -n "$timer" ] || exit 0
script_of $((most / 4)) >"$folder/quarter"
script_of "$most" >"$folder/asks"
bytes=$((($(peak_of "$folder/asks") - $(peak_of "$folder/quarter")) * 1024 / (most * 3 / 4)))
echo "memory by request: $bytes bytes, with $(wc -c <"$folder/asks" | awk -v n="$most" '{ printf "%d", $1 / n }') of the script's"
