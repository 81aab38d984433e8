#!/usr/bin/env bash
# What it costs that services come to rest: in @posts, of N requests one in twenty is cancelled, and `settle` makes it good at
# all services; then each of these is restored, whose calls are new ones, and it settles again. N doubles from 500 to 8,000,
# or to what is told.
# usage: bench/settle.sh [MOST]
most=${1:-8000}
. "$(dirname "${BASH_SOURCE[0]}")/timing.sh"

# N requests, after that which gives a token: posts and looks at them by turns. Each post calls two services.
asks() {
    local n=$1 i
    echo "ask oauth ann PUT /token/ann k1"
    for ((i = 1; i < n; i += 2)); do
        echo "ask askbot ann POST /post/ann/k1/q$i b$i"
        echo "ask askbot ann GET /show/q$i"
    done
}

# This order on one request in twenty.
orders() {
    local n=$1 order=$2 i
    for ((i = 1; i <= n; i += 20)); do
        echo "$order askbot/$i $order$i root"
    done
}

# The parts of such a run up to that of a name.
script() {
    local n=$1 last=$2
    asks "$n"
    [ "$last" = asks ] && return
    orders "$n" cancel
    [ "$last" = cancelled ] && return
    echo "settle 64"
    [ "$last" = settled ] && return
    orders "$n" restore
    [ "$last" = restored ] && return
    echo "settle 64"
    echo "audit"
}

# The seconds of a run up to there.
until_part() {
    script "$1" "$2" >"$folder/script"
    least_seconds_of @posts "$folder/script"
}

# Milliseconds by each run or post of the last settling of a name.
declare -A last

# What a settling cost, beside all requests anew: the last line of it that was told has its runs and posts. Anew, each request
# runs once, and so do both calls of a post.
settling() {
    local n=$1 name=$2 before=$3 after=$4 asked=$5 rounds runs posts took each
    read -r _ rounds runs posts < <(grep "^settled " "$folder/told" | tail -n 1)
    took=$(less "$after" "$before")
    each=$(echo "$took $runs $posts" | awk '{ printf "%.4f", 1000 * $1 / ($2 + $3) }')
    echo "$n requests, $name: $rounds rounds, $runs runs and $posts posts in $took s, $each ms each"
    echo "    to all anew: runs $(ratio "$runs" $((2 * n + 1))), time $(ratio "$took" "$asked")"
    [ -z "${last[$name]:-}" ] || echo "    each to that of half as many: $(ratio "$each" "${last[$name]}")"
    last[$name]=$each
}

for ((n = 500; n <= most; n *= 2)); do
    asked=$(until_part "$n" asks)
    cancelled=$(until_part "$n" cancelled)
    settled=$(until_part "$n" settled)
    settling "$n" cancelled "$cancelled" "$settled" "$asked"
    restored=$(until_part "$n" restored)
    again=$(until_part "$n" all)
    [ "$(tail -n 1 "$folder/told")" = legal ] || exit 1
    settling "$n" restored "$restored" "$again" "$asked"
done
