#!/usr/bin/env bash
# The time of scripts in @notes whose repairs look at the same rows again and again, whole, with half as many requests and with
# all: one key that 90,000 requests write, a third of which are cancelled; one key that 90,000 read, whose put is cancelled; 500
# rows that 5,000 requests count, one of which is cancelled; and 20,000 requests that are created, each before the first. What
# grows with the logarithm of the number besides stays near 2.
# usage: bench/shapes.sh [PART]   PART of each number, such as 0.1
part=${1:-1}
. "$(dirname "${BASH_SOURCE[0]}")/timing.sh"

steps() {
    local i
    for ((i = 0; i < $1; i++)); do
        echo "step notes"
    done
}

written() {
    local n=$1 i
    for ((i = 1; i <= n; i++)); do
        echo "ask notes ann PUT /n/hot value $i"
    done
    for ((i = 1; i <= n; i += 3)); do
        echo "cancel notes/$i t$i root"
    done
    steps $((n / 3 + 2))
    echo "audit"
}

read_by() {
    local n=$1 i
    echo "ask notes eve PUT /n/hot evil"
    for ((i = 1; i <= n; i++)); do
        echo "ask notes ann GET /n/hot"
    done
    echo "cancel notes/1 t1 root"
    steps $((n + 2))
    echo "audit"
}

counted() {
    local n=$1 i
    for ((i = 1; i <= 500; i++)); do
        echo "ask notes eve PUT /n/k$i $i"
    done
    for ((i = 1; i <= n; i++)); do
        echo "ask notes ann GET /count/k"
    done
    echo "cancel notes/1 t1 root"
    steps $((n + 2))
    echo "audit"
}

created() {
    local n=$1 i
    echo "ask notes ann PUT /n/hot value 1"
    for ((i = 1; i <= n; i++)); do
        echo "create notes t$i root $i - ann PUT /n/k$i value"
    done
    steps $((n + 1))
    echo "audit"
}

# The time with half as many requests, with all, each the least of five runs, and the ratio.
tell() {
    local name=$1 shape=$2 n half whole
    n=$(echo "$3 $part" | awk '{ printf "%d", $1 * $2 }')
    "$shape" $((n / 2)) >"$folder/half"
    "$shape" "$n" >"$folder/whole"
    half=$(least_seconds_of @notes "$folder/half")
    whole=$(least_seconds_of @notes "$folder/whole")
    [ "$(tail -n 2 "$folder/told" | tr '\n' ' ')" = "notes idle legal " ] || exit 1
    echo "$n $name: $whole s, ratio to half as many $(ratio "$whole" "$half")"
}

tell "writers of one key, a third cancelled" written 90000
tell "readers of one key, whose put is cancelled" read_by 90000
tell "counts of 500 rows, one of which is cancelled" counted 5000
tell "requests created, each before the first" created 20000
