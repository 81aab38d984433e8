#!/usr/bin/env bash
# All that was wanted of the costs of requests, row after row. First what valgrind counts, so that other work on the machine
# changes nothing: the instructions by request over a tenth as many keys, by purchase with its call, of a repair of one request with
# its one reader, and by entry of a chain of copies that runs again, where the number of lines doubles from 1,000 to 4,000, or to
# what is told, and that of purchases and of the chain is a quarter of it; and the allocations by request. Then seconds and memory:
# by request, of scripts of 100,000 requests, and those of shapes.sh.
# usage: bench/counts.sh [MOST] [PART]   PART of each number of the second half, such as 0.1
most=${1:-4000}
part=${2:-1}
. "$(dirname "${BASH_SOURCE[0]}")/timing.sh"
needs_valgrind

asks() {
    local n=$1 i
    for ((i = 0; i < n; i++)); do
        echo "ask notes ann PUT /n/k$((i % (n / 10))) value $i"
    done
}

purchases() {
    local n=$1 i
    for ((i = 0; i < n; i++)); do
        echo "ask shop ann POST /buy/k$i $i"
    done
}

# A note, and copies each of the one before.
chain() {
    local n=$1 i
    echo "ask notes eve PUT /n/c0 evil"
    for ((i = 1; i < n; i++)); do
        echo "ask notes ann POST /copy/c$((i - 1))/c$i"
    done
}

# The first request is cancelled, and so many steps are made.
repair() {
    local n=$1 i
    echo "cancel notes/1 t1 root"
    for ((i = 0; i <= n; i++)); do
        echo "step notes"
    done
}

# A note and its one reader, before so many requests for others.
early() {
    echo "ask notes eve PUT /n/early evil"
    echo "ask notes ann GET /n/early"
    asks "$1"
}

# Requests over so many keys.
over() {
    local n=$1 keys=$2 i
    for ((i = 0; i < n; i++)); do
        echo "ask notes ann PUT /n/k$((i % keys)) value $i"
    done
}

# The blocks of memory that a run of this script in @notes asks for.
blocks() {
    valgrind --tool=memcheck --undef-value-errors=no --leak-check=no "$program" run @notes "$1" 2>&1 >"$folder/told" |
        sed -n 's/.*total heap usage: *\([0-9,]*\) allocs.*/\1/p' | tr -d ,
}

# The instructions of a script in @notes beyond those of another.
beyond() { echo $(($(count @notes "$1") - $(count @notes "$2"))); }

: >"$folder/none"
none=$(count @notes "$folder/none")
shops=$(count @shops "$folder/none")
for ((n = 1000; n <= most; n *= 2)); do
    asks "$n" >"$folder/asks"
    purchases $((n / 4)) >"$folder/purchases"
    chain $((n / 4)) >"$folder/chain"
    (chain $((n / 4)); repair $((n / 4))) >"$folder/chained"
    early "$n" >"$folder/early"
    (early "$n"; repair 2) >"$folder/undone"
    echo "$n requests: $((($(count @notes "$folder/asks") - none) / n)) each"
    echo "$n requests, one repaired with its reader: $(beyond "$folder/undone" "$folder/early") in all"
    echo "$((n / 4)) purchases: $((($(count @shops "$folder/purchases") - shops) / (n / 4))) each"
    echo "a chain of $((n / 4)): $(($(beyond "$folder/chained" "$folder/chain") / (n / 4))) by entry"
done
over 500 100 >"$folder/few"
over 2500 100 >"$folder/many"
echo "allocations by request: $((($(blocks "$folder/many") - $(blocks "$folder/few") + 1000) / 2000))"
n=$(echo "$part" | awk '{ printf "%d", 100000 * $1 }')
if [ -n "$timer" ]; then
    over $((n / 5)) $((n / 20)) >"$folder/few"
    over $((n * 4 / 5)) $((n / 20)) >"$folder/many"
    kept=$((($(peak_of "$folder/many") - $(peak_of "$folder/few")) * 1024 / (n * 3 / 5)))
    echo "memory by request: $kept bytes, with the script's"
fi
for keys in $((n / 20)) "$n"; do
    over "$n" "$keys" >"$folder/whole"
    echo "$n requests over $keys keys: $(seconds_of @notes "$folder/whole") s${timer:+, $(($(peak_of "$folder/whole") / 1024)) MB}"
done
"$top/bench/shapes.sh" "$part"
