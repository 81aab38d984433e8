#!/usr/bin/env bash
# The time to repair one cancelled request on which ten others depend, among N requests to @notes, beside the time in
# which all N requests run anew from empty rows.
. "$(dirname "${BASH_SOURCE[0]}")/timing.sh"

# N requests: one that puts a note, ten that copy it, and others that touch other notes.
asks() {
    local n=$1 i
    echo "ask notes eve PUT /n/bad evil"
    for ((i = 2; i <= n - 10; i++)); do
        echo "ask notes ann PUT /n/k$i value $i"
    done
    for ((i = 1; i <= 10; i++)); do
        echo "ask notes ann POST /copy/bad/c$i"
    done
}

# Twenty repairs: the note is cancelled and restored by turns, and each time eleven requests run again.
repairs() {
    local i j order
    for ((i = 1; i <= 20; i++)); do
        order=cancel
        if ((i % 2 == 0)); then order=restore; fi
        echo "$order notes/1 t$i root"
        for ((j = 1; j <= 12; j++)); do
            echo "step notes"
        done
    done
    echo "audit"
}

for n in 500 1000 2000; do
    asks "$n" >"$folder/asks"
    (asks "$n"; repairs) >"$folder/repaired"
    replay=$(seconds_of @notes "$folder/asks")
    both=$(seconds_of @notes "$folder/repaired")
    [ "$(tail -n 2 "$folder/told" | tr '\n' ' ')" = "notes idle legal " ]
    repair=$(echo "$(less "$both" "$replay")" | awk '{ printf "%.4f", $1 / 20 }')
    echo "$n requests: a repair $repair s, all anew $replay s, ratio $(ratio "$repair" "$replay")"
done
