#!/usr/bin/env bash
# The time that a purchase in @shops takes, each a call of the shop to the bank, where N are asked, and that of a request
# that calls nobody. N doubles from 1,000 to 8,000, or to what is told.
# usage: bench/calls.sh [MOST]
most=${1:-8000}
. "$(dirname "${BASH_SOURCE[0]}")/timing.sh"

# N requests to the shop, on a path that the handler of purchases takes, or that which sets a rate.
asks() {
    local n=$1 line=$2 i
    for ((i = 1; i <= n; i++)); do
        echo "ask shop ann ${line/I/$i} $i"
    done
}

# Milliseconds by a line, where all of them were answered so.
by_line() {
    local n=$1 line=$2 answered=$3 seconds
    asks "$n" "$line" >"$folder/asks"
    seconds=$(seconds_of @shops "$folder/asks")
    [ "$(grep -c "^shop/[0-9]* = $answered" "$folder/told")" = "$n" ] || exit 1
    echo "$seconds $n" | awk '{ printf "%.3f", 1000 * $1 / $2 }'
}

first=
for ((n = 1000; n <= most; n *= 2)); do
    calls=$(by_line "$n" "POST /buy/kI" "200 ok")
    plain=$(by_line "$n" "PUT /cfg" "200")
    first=${first:-$calls}
    echo "$n lines: $calls ms each with a call, $plain ms without, ratio $(ratio "$calls" "$plain")"
done
echo "a line with a call among the most to one among 1,000: $(ratio "$calls" "$first")"
