#!/usr/bin/env bash
# What a fold costs, and what it frees: of 80,000 requests to @notes the first 75,000 are folded. Then a million requests in one script, of which
# all but the last thousand are folded as it goes. Where a service folds by itself is measured by a served world (`keep`), as requests come in.
. "$(dirname "${BASH_SOURCE[0]}")/timing.sh"

# Requests FROM to TO of one user, each of which puts a note over 5,000 keys or reads one.
asks() { # FROM TO
    awk -v from="$1" -v to="$2" 'BEGIN {
        for (i = from; i <= to; i++) {
            if (i % 2) printf "ask notes ann PUT /n/k%d value %d\n", i % 5000, i
            else printf "ask notes ann GET /n/k%d\n", (i - 1) % 5000
        }
    }'
}

# Twenty thousand repairs of the first request behind the line: it is cancelled and restored by turns, and settled.
repairs() { # ID
    local i order
    for ((i = 1; i <= 20000; i++)); do
        order=cancel
        if ((i % 2 == 0)); then order=restore; fi
        echo "$order notes/$1 t$i root"
        echo "settle 1"
    done
    echo "audit"
}

# The seconds of a script less those of another that it begins with.
more_than() { # SCRIPT FRONT [WORLD]
    less "$(least_seconds_of "${3-@notes}" "$1")" "$(least_seconds_of "${3-@notes}" "$2")"
}

asks 1 80000 >"$folder/asks"
(cat "$folder/asks"; echo "fold notes/75000 f1 root") >"$folder/folded"
echo "a fold of 75,000 of 80,000 requests: $(more_than "$folder/folded" "$folder/asks") s"

# The same where all requests read one row.
same_row() { # TO
    awk -v to="$1" 'BEGIN {
        print "ask notes ann PUT /n/k0 value"
        for (i = 2; i <= to; i++) print "ask notes ann GET /n/k0"
    }'
}
same_row 80000 >"$folder/same"
(cat "$folder/same"; echo "fold notes/75000 f1 root") >"$folder/same_folded"
echo "a fold of 75,000 of 80,000 requests that read one row: $(more_than "$folder/same_folded" "$folder/same") s"

# A service can take as many again behind the fold: without it the 100,001st would be refused.
if [ -n "$timer" ]; then
    (cat "$folder/folded"; asks 80001 155000) >"$folder/again"
    echo "the most memory: $(peak_of "$folder/asks") KiB with 80,000, $(peak_of "$folder/again") KiB with 75,000 more behind the fold"
fi

# A request and an undo among 5,000, and among 5,000 behind 75,000 that are folded.
asks 1 5000 >"$folder/few"
(cat "$folder/few"; asks 5001 45000) >"$folder/few_more"
(cat "$folder/folded"; asks 80001 120000) >"$folder/folded_more"
few=$(more_than "$folder/few_more" "$folder/few")
behind=$(more_than "$folder/folded_more" "$folder/folded")
echo "40,000 requests among 5,000: $few s, behind the fold $behind s, ratio $(ratio "$behind" "$few")"
(cat "$folder/few"; repairs 1) >"$folder/few_repaired"
(cat "$folder/folded"; repairs 75001) >"$folder/folded_repaired"
few=$(more_than "$folder/few_repaired" "$folder/few")
behind=$(more_than "$folder/folded_repaired" "$folder/folded")
"$program" run @notes "$folder/folded_repaired" | tail -n 1 | grep -qx legal
echo "20,000 repairs among 5,000: $few s, behind the fold $behind s, ratio $(ratio "$behind" "$few")"

# A call of another service among 5,000 purchases, and among 5,000 behind 35,000 that both services folded.
buys() { # FROM TO
    awk -v from="$1" -v to="$2" 'BEGIN { for (i = from; i <= to; i++) printf "ask shop ann POST /buy/k%d %d\n", i % 1000, i }'
}
buys 1 5000 >"$folder/few"
(cat "$folder/few"; buys 5001 13000) >"$folder/few_more"
(buys 1 40000; echo "fold shop/35000 f1 root"; echo "fold bank/35000 f1 root") >"$folder/folded"
(cat "$folder/folded"; buys 40001 48000) >"$folder/folded_more"
few=$(more_than "$folder/few_more" "$folder/few" @shops)
behind=$(more_than "$folder/folded_more" "$folder/folded" @shops)
echo "8,000 purchases among 5,000: $few s, behind the fold $behind s, ratio $(ratio "$behind" "$few")"

# Twenty folds of 500 requests each, among so many rows: keys come four with each request, whose entries are folded as they come but for the last
# thousand. Then come requests that read nothing, with and without these folds.
keys_world >"$folder/keys.json"
idle() { # FROM FOLD
    awk -v from="$1" -v fold="$2" 'BEGIN {
        for (i = from + 1; i <= from + 10000; i++) {
            print "ask n a GET /z"
            if (fold && i % fold == 0) printf "fold n/%d g%d r\n", i - 1000, i / fold
        }
    }'
}
folds_among() { # KEYS
    local requests=$(($1 / 4))
    (puts 0 "$1" 10000; idle "$requests" 0) >"$folder/front"
    (puts 0 "$1" 10000; idle "$requests" 500) >"$folder/folds"
    more_than "$folder/folds" "$folder/front" "$folder/keys.json"
}
few=$(folds_among 40000)
many=$(folds_among 360000)
echo "twenty folds of 500 requests: $few s among 40,000 rows, $many s among 360,000, ratio $(ratio "$many" "$few")"

# A script has at most 16 MB, so a million lines have to be short: a service and a user of one letter each.
cat >"$folder/short.json" <<'END'
{"services":[{"name":"n","program":"route GET \"/\" { reply 200 \"\"; }","rules":"allow any any any /","secret":"s","console":"c","door":"d","workers":1}]}
END
million() { # LINES, a fold after each 10,000 but for the last thousand
    awk -v lines="$1" 'BEGIN {
        for (i = 1; i <= lines; i++) {
            print "ask n a GET /"
            if (i % 10000 == 0) printf "fold n/%d f%d r\n", i - 1000, i / 10000
        }
    }'
}
peak_and_seconds_of() { # SCRIPT
    local TIMEFORMAT='%U %S'
    { time "$timer" -f %M -o "$folder/peak" "$program" run "$folder/short.json" "$1" >"$folder/told"; } 2>"$folder/took"
    echo "$(cat "$folder/peak") KiB, $(awk '{ printf "%.2f", $1 + $2 }' "$folder/took") s"
}
if [ -n "$timer" ]; then
    for lines in 250000 500000 1000000; do
        million "$lines" >"$folder/script"
        echo "$lines requests, folded as they come: $(peak_and_seconds_of "$folder/script")"
        grep -q refused "$folder/told" && { echo "some were refused" >&2; exit 1; }
    done
fi
