#!/usr/bin/env bash
# The time in which a chain of 500, 1,000 and 2,000 copies of a note runs again from end to end once the note is cancelled,
# and the ratio of each to the one before.
. "$(dirname "${BASH_SOURCE[0]}")/timing.sh"

# A note, and copies each of the one before.
asks() {
    local n=$1 i
    echo "ask notes eve PUT /n/c0 evil"
    for ((i = 1; i < n; i++)); do
        echo "ask notes ann POST /copy/c$((i - 1))/c$i"
    done
}

repair() {
    local n=$1 i
    echo "cancel notes/1 t1 root"
    for ((i = 0; i <= n; i++)); do
        echo "step notes"
    done
    echo "audit"
}

before=""
for n in 500 1000 2000; do
    asks "$n" >"$folder/asks"
    (asks "$n"; repair "$n") >"$folder/repaired"
    alone=$(seconds_of @notes "$folder/asks")
    both=$(seconds_of @notes "$folder/repaired")
    [ "$(tail -n 2 "$folder/told" | tr '\n' ' ')" = "notes idle legal " ]
    took=$(less "$both" "$alone")
    echo "a chain of $n: $took s${before:+, ratio $(ratio "$took" "$before")}"
    before=$took
done
