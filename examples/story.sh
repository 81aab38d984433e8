# What the stories over HTTP have in common (recover.sh, correct.sh): @posts is served by the program that is the first word, else by
# ./aire; users speak by curl, an operator by ./aire-console, and what they say and are told is printed. Sourced, at the top of a story.
set -u
top=$(cd "$(dirname "${BASH_SOURCE[0]}")/.." && pwd) || exit 1
program=${1-$top/aire}
folder=$(mktemp -d) || exit 1
serving=
trap '[ -z "$serving" ] || kill "$serving" 2>/dev/null; rm -rf "$folder"' EXIT

fail() {
    echo "$0: $*" >&2
    exit 1
}

indented() { sed 's/^/    /' "$@"; }

# What a user sends to the service at this port, and what it is replied: status and body.
send() { # PORT WHO METHOD PATH [BODY]
    local reply status body
    reply=$(curl -s --noproxy '*' --max-time 30 -w '\n%{http_code}' -X "$3" -H "Aire-Who: $2" --data-binary "${5-}" "http://127.0.0.1:$1$4") ||
        fail "nothing replies at port $1"
    status=${reply##*$'\n'} body=${reply%$'\n'*}
    echo "    $2 $3 $4${5:+ $5} = $status${body:+ $body}"
}

# What an operator asks by the tool.
ask() { # SERVICE WORD [FIELD=VALUE..]
    "$top/aire-console" --who root @posts "$@" 2>"$folder/refused" || fail "$* isn't done: $(cat "$folder/refused")"
}

# The lines of a service's log that fit.
find_in_log() { # SERVICE PATTERN
    echo "    $1's log:"
    ask "$1" log | grep -- "$2" | indented | indented
}

# The rows of the two services that keep what users write.
rows() {
    local service
    for service in askbot dpaste; do
        echo "    $service's rows:"
        ask "$service" rows | indented | indented
    done
}

listens() { [ "$(grep -c ' listens at ' "$folder/said")" = 3 ]; }

# Serves, and waits until all three listen, at most half a minute.
start() {
    "$program" serve @posts >"$folder/out" 2>"$folder/said" &
    serving=$!
    for _ in $(seq 300); do
        listens && return
        kill -0 "$serving" 2>/dev/null || fail "it doesn't serve: $(cat "$folder/out" "$folder/said")"
        sleep 0.1
    done
    fail "not all three listen: $(cat "$folder/said")"
}

# Asks for an audit until it says legal, at most half a minute.
await_legal() {
    local verdict=
    for _ in $(seq 300); do
        verdict=$(ask oauth audit)
        [ "$verdict" = legal ] && echo "    legal" && return
        sleep 0.1
    done
    fail "it doesn't settle: $verdict"
}

# Stops all services, prints what they print in the end, and ends with their status.
end() {
    local status
    ask oauth stop | indented
    wait "$serving"
    status=$?
    serving=
    indented "$folder/out"
    exit "$status"
}
