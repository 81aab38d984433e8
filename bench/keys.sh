#!/usr/bin/env bash
# What a new key costs among few and among many others, and a scan of 100 keys: instructions, counted by valgrind, and bytes of memory. Keys come
# in random order, four with each request. Among a million the entries are folded as they come, since a log has at most 100,000.
# usage: bench/keys.sh [MOST]   MOST keys with folds, in place of a million
most=${1:-1000000}
. "$(dirname "${BASH_SOURCE[0]}")/timing.sh"
needs_valgrind

keys_world >"$folder/keys.json"

# A hundred keys of one prefix in each of four letters, and a hundred scans of each of these.
scanned() { for i in {1..100}; do echo "ask n a PUT /zz$i"; done; }
scans() { for _ in {1..100}; do for letter in a b c d; do echo "ask n a GET /${letter}zz"; done; done; }

beyond() { echo $(($(count "$folder/keys.json" "$1") - $(count "$folder/keys.json" "$2"))); }

# The instructions and the bytes of a new key while so many become twice as many, and the instructions of a scan among these.
measure() { # KEYS FOLD
    local keys=$1 half=$(($1 / 2)) key scan bytes
    (scanned; puts 0 "$half" "$2") >"$folder/half"
    (scanned; puts 0 "$keys" "$2") >"$folder/whole"
    (cat "$folder/whole"; scans) >"$folder/scanned"
    key=$(($(beyond "$folder/whole" "$folder/half") / half))
    grep -q refused "$folder/told" && { echo "some were refused" >&2; exit 1; }
    scan=$(($(beyond "$folder/scanned" "$folder/whole") / 400))
    bytes=$((($(peak_in "$folder/keys.json" "$folder/whole") - $(peak_in "$folder/keys.json" "$folder/half")) * 1024 / half))
    [ -n "${few:-}" ] || few=$key few_bytes=$bytes few_scan=$scan
    echo "among $keys keys: $key instructions and $bytes bytes for a new key, $scan instructions for a scan of 100," \
        "$(ratio "$key" "$few"), $(ratio "$bytes" "$few_bytes") and $(ratio "$scan" "$few_scan") of those among 4,000"
}

for keys in 4000 1000 8000 16000 40000 80000; do measure "$keys" 0; done
measure "$most" 10000
