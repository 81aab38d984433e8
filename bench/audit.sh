#!/usr/bin/env bash
# What it costs to judge a dump: in @posts posts and looks at them by turns make an eighth of ENTRIES entries, and doubling up to
# all, the dump of them is judged with 1, 2 and 4 workers, and the order of its roots is found.
# usage: bench/audit.sh [ENTRIES]
entries=${1:-20000}
. "$(dirname "${BASH_SOURCE[0]}")/timing.sh"

# A script that makes about so many entries, and then writes all services down: a post and a look at it are four entries.
script() {
    local n=$1 i
    echo "ask oauth ann PUT /token/ann k1"
    for ((i = 1; i <= n / 4; i++)); do
        echo "ask askbot ann POST /post/ann/k1/q$i b$i"
        echo "ask askbot ann GET /show/q$i"
    done
    echo dump
}

# The processor's seconds of the program with these words, and those by the clock, the least of five each. Its first line begins
# with the first word.
least_of() {
    local TIMEFORMAT='%U %S %R' first=$1
    shift
    for _ in 1 2 3 4 5; do
        { time "$program" "$@" >"$folder/told"; } 2>"$folder/took"
        [[ $(head -n 1 "$folder/told") = "$first"* ]] || exit 1
        awk '{ printf "%.3f %.3f\n", $1 + $2, $3 }' "$folder/took"
    done | awk 'NR == 1 || $1 < cpu { cpu = $1 } NR == 1 || $2 < clock { clock = $2 } END { print cpu, clock }'
}

last= last_order=
for ((n = entries / 8; n <= entries; n *= 2)); do
    script "$n" >"$folder/script"
    "$program" run @posts "$folder/script" | sed -n '/^service /,$p' >"$folder/dump"
    echo "$(grep -c '^entry ' "$folder/dump") entries, $(wc -c <"$folder/dump") bytes"
    for workers in 1 2 4; do
        read -r seconds clock < <(least_of legal audit "$folder/dump" "$workers")
        echo "    with $workers: $seconds s of the processor, $clock s by the clock"
        [ "$workers" = 1 ] && [ -n "$last" ] && echo "    to half as many: $(ratio "$seconds" "$last")"
        [ "$workers" = 1 ] && last=$seconds
    done
    read -r seconds clock < <(least_of order order "$folder/dump")
    echo "    its order: $seconds s of the processor, $clock s by the clock"
    [ -n "$last_order" ] && echo "    to half as many: $(ratio "$seconds" "$last_order")"
    last_order=$seconds
done
