# What the benchmarks share: the program built, a folder for scripts, and the processor's seconds of a run.
set -eu
top=$(cd "$(dirname "${BASH_SOURCE[0]}")/.." && pwd)
program=$top/crates/aire/out/aire
[ -x "$program" ] || {
    echo "the program isn't built yet; ./aire build does it" >&2
    exit 1
}
folder=$(mktemp -d)
trap 'rm -rf "$folder"' EXIT

# The seconds that the processor takes for a run of this script in this world.
seconds_of() {
    local TIMEFORMAT='%U %S'
    { time "$program" run "$1" "$2" >"$folder/told"; } 2>"$folder/took"
    awk '{ printf "%.3f", $1 + $2 }' "$folder/took"
}

# The same, the least of five runs, since other work on the machine adds to them.
least_seconds_of() {
    for _ in 1 2 3 4 5; do
        seconds_of "$1" "$2"
        echo
    done | sort -n | head -n 1
}

# The first number less the second, at least a millisecond.
less() {
    echo "$1 $2" | awk '{ d = $1 - $2; printf "%.3f", (d > 0.001 ? d : 0.001) }'
}

ratio() {
    echo "$1 $2" | awk '{ printf "%.3f", $1 / $2 }'
}

# The most memory in KiB that a run of this script in this world has at once, by GNU time.
timer=$(type -P time) || timer=
peak_in() {
    "$timer" -f %M -o "$folder/peak" "$program" run "$1" "$2" >"$folder/told"
    cat "$folder/peak"
}
peak_of() { peak_in @notes "$1"; }

# The instructions of a run of this script in this world, for which valgrind has to be there.
needs_valgrind() {
    command -v valgrind >/dev/null || {
        echo "valgrind isn't here" >&2
        exit 1
    }
}
count() {
    valgrind --tool=callgrind --callgrind-out-file=/dev/null "$program" run "$1" "$2" 2>&1 >"$folder/told" |
        sed -n 's/.*Collected : *//p'
}

# A world of a service that writes four keys with each PUT, and counts those under a prefix with each GET. A script has at most 16 MB, so that lines of
# a million keys have to be short: the service and its user have one letter each.
keys_world() {
    cat <<'END'
{"services":[{"name":"n","program":"route PUT \"/*\" { put t (\"a\" ++ path(1)) = \"x\"; put t (\"b\" ++ path(1)) = \"x\"; put t (\"c\" ++ path(1)) = \"x\"; put t (\"d\" ++ path(1)) = \"x\"; reply 200 \"\"; } route GET \"/*\" { let n = 0; each k, v in t path(1) { let n = (n + 1); } reply 200 text(n); }","rules":"allow any any any /","secret":"s","console":"c","door":"d","workers":1}]}
END
}

# So many new keys in that world in random order, after so many others; where FOLD isn't 0, all entries but the last thousand are folded after each FOLD
# requests.
puts() { # FROM TO FOLD
    awk -v from="$1" -v to="$2" -v fold="$3" 'BEGIN {
        for (i = from / 4 + 1; i <= to / 4; i++) {
            printf "ask n a PUT /%x\n", (i * 618031) % 1000003
            if (fold && i % fold == 0) printf "fold n/%d f%d r\n", i - 1000, i / fold
        }
    }'
}
