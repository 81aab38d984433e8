#!/usr/bin/env bash
# The time of a handler of 9,999 steps with texts, and of scans over 1,000 rows of 5,000 and of 20,000 rows.
. "$(dirname "${BASH_SOURCE[0]}")/timing.sh"

# Ten rows under the prefix that each row of another prefix gives.
grow=""
for i in 0 1 2 3 4 5 6 7 8 9; do
    grow+="put n (path(3) ++ (k ++ \\\"$i\\\")) = \\\"text $i\\\"; "
done
# Nine statements for each row, with texts.
turn=""
for i in 1 2 3 4 5 6 7 8 9; do
    turn+="let a$i = (k ++ (t ++ text($i))); "
done
routes='route POST \"/seed\" { put n \"a0\" = \"\"; put n \"a1\" = \"\"; put n \"a2\" = \"\"; put n \"a3\" = \"\"; put n \"a4\" = \"\"; '
routes+='put n \"a5\" = \"\"; put n \"a6\" = \"\"; put n \"a7\" = \"\"; put n \"a8\" = \"\"; put n \"a9\" = \"\"; } '
routes+="route POST \\\"/grow/*/*\\\" { each k, t in n path(2) { $grow} } "
routes+='route DELETE \"/n/*\" { drop n path(2); } '
routes+="route GET \\\"/long/*\\\" { now b; now b; now b; now b; now b; now b; now b; each k, t in n path(2) { $turn} reply 200 a9; } "
routes+='route GET \"/count/*\" { let c = 0; each k, t in n path(2) { let c = (c + 1); } reply 200 text(c); } '
printf '{"services":[{"name":"n","program":"%s","rules":"allow any any any /","secret":"s","console":"c","door":"d","workers":1}]}' "$routes" >"$folder/world.json"

# 110 rows, and then so many times 1,000 rows, each time under another prefix.
rows() {
    local thousands=$1 i
    echo "ask n ann POST /seed"
    echo "ask n ann POST /grow/a/b"
    for ((i = 10; i < 10 + thousands; i++)); do
        echo "ask n ann POST /grow/b/c$i"
    done
}

# Ten times this request.
ten() {
    local i
    for i in 1 2 3 4 5 6 7 8 9 10; do
        echo "ask n ann GET $1"
    done
}

rows 1 >"$folder/1"
(rows 1; echo "ask n ann DELETE /n/c10ba000"; ten "/absent") >"$folder/1.absent"
(rows 1; echo "ask n ann DELETE /n/c10ba000"; ten "/long/c10") >"$folder/1.long"
before=$(seconds_of "$folder/world.json" "$folder/1.absent")
long=$(less "$(seconds_of "$folder/world.json" "$folder/1.long")" "$before")
grep -q "^n/14 = 200 c10ba999" "$folder/told"
echo "ten handlers of 9,999 steps: $long s"

scans() {
    rows "$1" >"$folder/rows"
    (rows "$1"; ten "/count/c10") >"$folder/scans"
    less "$(seconds_of "$folder/world.json" "$folder/scans")" "$(seconds_of "$folder/world.json" "$folder/rows")"
}

few=$(scans 5)
grep -q "= 200 1000$" "$folder/told" || true
many=$(scans 20)
echo "ten scans over 1,000 of 5,000 rows: $few s"
echo "ten scans over 1,000 of 20,000 rows: $many s"
echo "ratio: $(ratio "$many" "$few")"
