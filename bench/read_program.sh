#!/usr/bin/env bash
# The time to read programs of about 30,000 and 60,000 bytes, and their ratio.
. "$(dirname "${BASH_SOURCE[0]}")/timing.sh"

# A world whose program has about so many bytes.
world_of() {
    local bytes=$1 text="" i=0
    local line='put t (\"k\" ++ path(2)) = part(body, \",\", (1 + 2)); '
    while ((${#text} < bytes)); do
        text+="route PUT \\\"/r$i/*\\\" { "
        local j
        for j in 1 2 3 4 5 6 7 8; do text+=$line; done
        text+='} '
        i=$((i + 1))
    done
    printf '{"services":[{"name":"n","program":"%s","rules":"allow any any any /","secret":"s","console":"c","door":"d","workers":1}]}' "$text"
}

: >"$folder/none"
world_of 0 >"$folder/0.json"
world_of 30000 >"$folder/30000.json"
world_of 60000 >"$folder/60000.json"
start=$(seconds_of "$folder/0.json" "$folder/none")
small=$(less "$(seconds_of "$folder/30000.json" "$folder/none")" "$start")
large=$(less "$(seconds_of "$folder/60000.json" "$folder/none")" "$start")
echo "30,000 bytes: $small s"
echo "60,000 bytes: $large s"
echo "ratio: $(ratio "$large" "$small")"
