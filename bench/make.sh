#!/usr/bin/env bash
# The line and the time of `make 7 N`, beside the time of a run of the same script, which is written here once more, from its form in
# docs/FORMATS.md; and whether that settles and ends as the line says. N is 500 and 5,000, or what is told.
# usage: bench/make.sh [N..]
. "$(dirname "${BASH_SOURCE[0]}")/timing.sh"

script_of() {
    awk -v x="$(($1 % 65537))" -v n="$2" 'BEGIN {
        print "ask oauth ann PUT /token/ann k1"
        for (i = 1; i <= n; i++) {
            x = (75 * x + 74) % 65537
            drawn[i] = x
            if (x % 2)
                printf "ask askbot ann POST /post/ann/k1/q%d b%d\n", int(x / 2) % 50, i
            else
                printf "ask askbot ann GET /show/q%d\n", int(x / 2) % 50
        }
        for (i = 1; i <= n; i++)
            if (drawn[i] % 9 == 0)
                printf "cancel askbot/%d t%d root\n", i, i
        print "settle 64"
        print "audit"
    }'
}

[ $# = 0 ] && set -- 500 5000
for n in "$@"; do
    TIMEFORMAT='%U %S'
    { time "$program" make 7 "$n" >"$folder/line"; } 2>"$folder/took"
    took=$(awk '{ printf "%.3f", $1 + $2 }' "$folder/took")
    script_of 7 "$n" >"$folder/script"
    run=$(seconds_of @posts "$folder/script")
    cat "$folder/line"
    if [ "$(awk '{ print $7, $8, $9, $10; print $11 }' "$folder/line")" = "$(tail -n 2 "$folder/told")" ]; then
        echo "made and run in $took s; the same script is run in $run s, ratio $(ratio "$took" "$run")"
    else
        echo "the same script ends otherwise:"
        tail -n 2 "$folder/told"
    fi
done
