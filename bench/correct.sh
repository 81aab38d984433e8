#!/usr/bin/env bash
# What a correction costs: among 50,000 requests to one service of which 500 are concerned, how long the order itself takes, beside an order that
# changes nothing, and its repair, beside that of 500 cancellations of the same requests. Then what a second, a third and more programs cost
# where nobody is concerned; and instructions by valgrind, where it is there, so that other work on the machine changes nothing.
# usage: bench/correct.sh [REQUESTS] [CONCERNED]
requests=${1:-50000}
concerned=${2:-500}
. "$(dirname "${BASH_SOURCE[0]}")/timing.sh"

# Two handlers: `plain` is what most requests come to, `rare` what a correction changes.
program_text() { # REPLY
    printf '%s' 'route PUT "/plain/*" { put plain path(2) = body; reply 200 ""; } '
    printf 'route PUT "/rare/*" { put rare path(2) = body; reply 200 "%s"; }' "$1"
}
first=$(program_text one) second=$(program_text two)
python3 - "$first" >"$folder/world.json" <<'END'
import json, sys
service = {"name": "n", "program": sys.argv[1], "rules": "allow any any any /", "secret": "s", "console": "c", "door": "d", "workers": 1}
print(json.dumps({"services": [service]}))
END
world=$folder/world.json

# The requests, of which every so many is concerned.
asks() {
    awk -v n="$requests" -v rare="$concerned" 'BEGIN {
        each = int(n / rare)
        for (i = 1; i <= n; i++) printf "ask n ann PUT /%s/k%d value\n", (i % each == 0 ? "rare" : "plain"), i % 5000
    }'
}
correction() { echo "correct n ${1-1} c${1-1} root $2"; }
cancellations() {
    awk -v n="$requests" -v rare="$concerned" 'BEGIN {
        each = int(n / rare)
        for (i = each; i <= n; i += each) printf "cancel n/%d t%d root\n", i, i
    }'
}
# Programs that concern nobody, each in the place of the one before.
alike() { # COUNT
    local i
    for ((i = 1; i <= $1; i++)); do correction "$i" "$first # $i"; done
}

asks >"$folder/asks"
(cat "$folder/asks"; correction 1 "$second") >"$folder/corrected"
(cat "$folder/corrected"; echo "settle 9"; echo "audit") >"$folder/repaired"
(cat "$folder/asks"; cancellations) >"$folder/cancelled"
(cat "$folder/cancelled"; echo "settle 9"; echo "audit") >"$folder/undone"
(cat "$folder/asks"; alike 100) >"$folder/alike"
(cat "$folder/asks"; echo "deploy n d root $second") >"$folder/deployed"

# The seconds, or the instructions, of a script less those of another that it begins with.
more() { less "$(least_seconds_of "$world" "$1")" "$(least_seconds_of "$world" "$2")"; }
beyond() { echo $(($(count "$world" "$1") - $(count "$world" "$2"))); }

correct=$(more "$folder/corrected" "$folder/asks")
echo "a correction among $requests requests, $concerned of them concerned: the order $correct s, of which 0.050 s may be had"
repair=$(more "$folder/repaired" "$folder/corrected")
"$program" run "$world" "$folder/repaired" | tail -n 2 | tr '\n' ' ' | grep -qx "settled 1 $concerned 0 legal " || { echo "it isn't $concerned runs" >&2; exit 1; }
undo=$(more "$folder/undone" "$folder/cancelled")
echo "its repair $repair s, that of $concerned cancellations $undo s, ratio $(ratio "$repair" "$undo")"
alike=$(more "$folder/alike" "$folder/asks")
echo "a hundred corrections that concern nobody: $alike s"
echo "a deploy: $(more "$folder/deployed" "$folder/asks") s"
if command -v valgrind >/dev/null; then
    echo "the order: $(beyond "$folder/corrected" "$folder/asks") instructions, a deploy $(beyond "$folder/deployed" "$folder/asks")"
    repair=$(beyond "$folder/repaired" "$folder/corrected")
    undo=$(beyond "$folder/undone" "$folder/cancelled")
    echo "its repair: $repair instructions, that of the cancellations $undo, ratio $(ratio "$repair" "$undo")"
fi
if [ -n "$timer" ]; then
    echo "the most memory: $(peak_in "$world" "$folder/asks") KiB with one program, $(peak_in "$world" "$folder/alike") KiB with 100 more, of which one is in use"
fi
