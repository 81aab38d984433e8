#!/usr/bin/env bash
# The time of `changed` among N requests to @notes, half of which read a note that is cancelled and restored ten times, so that each of these has
# 21 answers, beside the time of `log`; for N of 20,000 and 40,000, where twice as many should take twice as long.
. "$(dirname "${BASH_SOURCE[0]}")/timing.sh"

# N requests, and the repairs; the last cancellation leaves half of the requests answered otherwise than they were.
asks() {
    awk -v n="$1" 'BEGIN {
        print "ask notes eve PUT /n/bad evil"
        for (i = 2; i <= n; i += 2) {
            print "ask notes ann GET /n/bad"
            printf "ask notes ann PUT /n/k%d value\n", i
        }
        for (i = 1; i <= 21; i++) {
            printf "%s notes/1 t%d root\nsettle 1000\n", (i % 2 ? "cancel" : "restore"), i
        }
    }'
}

# The time of ten such reports of the service, behind these requests.
of() { # WORD N
    asks "$2" >"$folder/asks"
    (cat "$folder/asks"; for _ in 1 2 3 4 5 6 7 8 9 10; do echo "$1 notes"; done) >"$folder/reported"
    less "$(least_seconds_of @notes "$folder/reported")" "$(least_seconds_of @notes "$folder/asks")"
}

for n in 20000 40000; do
    changed=$(of changed "$n")
    log=$(of log "$n")
    echo "$n requests: ten times changed $changed s, log $log s, ratio $(ratio "$changed" "$log")"
    [ -z "${before-}" ] || echo "ratio of changed to half as many: $(ratio "$changed" "$before")"
    before=$changed
done
