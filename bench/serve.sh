#!/usr/bin/env bash
# What a served world costs while nobody asks, how long a request takes beside a thousand clients who say nothing, and how long a stop
# takes beside them. Then requests by second and their 99th percentile for GET and PUT as `@notes` has them, with 1, 4 and 8 workers,
# beside nginx that answers a fixed text and beside a small Flask service under gunicorn with 1 and 4 processes, each request on a
# connection of its own, in one run, as ratios; and requests that call another service, with one worker and with two. It wants ab, nginx, flask
# and gunicorn, and installs nothing itself:
#     apt-get install apache2-utils nginx-light gunicorn python3-flask
# Where one of them isn't here it says so, and measures the rest. usage: bench/serve.sh [REQUESTS [CLIENTS]]
. "$(dirname "${BASH_SOURCE[0]}")/timing.sh"
requests=${1:-20000} clients=${2:-16} pids=()

end_all() {
    local pid
    for pid in ${pids[@]+"${pids[@]}"}; do kill "$pid" 2>/dev/null || true; done
    rm -rf "$folder"
}
trap end_all EXIT

have() { command -v "$1" >/dev/null || { echo "not measured: $1 isn't here" >&2; return 1; }; }

# The Python that runs gunicorn need not be the first one here.
has_flask() {
    $(sed -n '1s/^#! *//p' "$(command -v gunicorn)") -c 'import flask' 2>/dev/null || { echo "not measured: gunicorn's Python has no flask" >&2; return 1; }
}

# Waits until something listens at a port, at most ten seconds.
listens() {
    local i
    for i in $(seq 100); do
        (exec 3<>"/dev/tcp/127.0.0.1/$1") 2>/dev/null && return
        sleep 0.1
    done
    echo "nothing listens at $1" >&2
    return 1
}

# Prints a name, the requests by second and the 99th percentile in milliseconds.
measure() { # NAME URL [what ab is told besides]
    local name=$1 url=$2
    shift 2
    have ab || return 0
    ab -q -n "$requests" -c "$clients" "$@" "$url" >"$folder/ab" 2>&1 || {
        echo "not measured: $name" >&2
        tail -n 3 "$folder/ab" >&2
        return 0
    }
    awk -v name="$name" '
        /^Requests per second/ { rate = $4 }
        /^Failed requests/ { failed = $3 }
        /^ *99%/ { late = $2 }
        END { printf "%-13s %9.0f requests a second, 99 of 100 within %s ms, %d failed\n", name, rate, late, failed }' "$folder/ab" | tee -a "$folder/all"
}

# A world whose first service listens at port 8181, and the second at 8182.
world() { # WORKERS
    python3 - "$1" <<'END'
import json, sys
NOTES = '''route PUT "/n/*" { put notes path(2) = body; reply 200 ""; }
route GET "/n/*" { get v = notes path(2); if (v = nothing) { reply 404 ""; } reply 200 v; }
route POST "/ping/*" { call s, b = "other" POST "/ping" body; reply s b; }
'''
OTHER = 'route POST "/ping" { reply 200 "pong"; }\n'
def service(name, program, door):
    return {"name": name, "program": program, "rules": "allow any any any /", "secret": "s", "console": "c", "door": f"127.0.0.1:{door}",
            "workers": int(sys.argv[1]), "weight": 1000000000}
print(json.dumps({"services": [service("notes", NOTES, 8181), service("other", OTHER, 8182)]}))
END
}

# Serves such a world.
serve() { # WORKERS
    world "$1" >"$folder/world.json"
    "$program" serve "$folder/world.json" >"$folder/served" 2>/dev/null &
    served=$!
    listens 8181
}

# Stops it, as an operator does.
stop() {
    local seal
    seal=$(printf 'POST /aire/console/stop\nAire-Dest: notes\nAire-Who: root\n\n{}' | openssl dgst -sha256 -hmac c | awk '{ print $NF }')
    curl -s -o /dev/null -H 'Aire-Dest: notes' -H 'Aire-Who: root' -H "Aire-Seal: $seal" -d '{}' http://127.0.0.1:8181/aire/console/stop
    wait "$served"
}

# The hundredths of a second that a program took so far.
ticks() { awk '{ print $14 + $15 }' "/proc/$served/stat"; }

# Prints how long a request takes, beside a thousand clients who say nothing, and then how long it takes to stop beside them.
silent() {
    python3 - "$served" <<'END'
import hashlib, hmac, http.client, os, resource, socket, sys, time
resource.setrlimit(resource.RLIMIT_NOFILE, (min(4096, resource.getrlimit(resource.RLIMIT_NOFILE)[1]),) * 2)
silent = [socket.create_connection(("127.0.0.1", 8181)) for _ in range(1000)]
def ask(method, path, body="", **fields):
    asking = http.client.HTTPConnection("127.0.0.1", 8181, timeout=60)
    asking.request(method, path, body, {name.replace("_", "-"): it for name, it in fields.items()})
    return asking.getresponse().read()
took = []
for _ in range(20):
    began = time.monotonic()
    ask("GET", "/n/a")
    took.append(time.monotonic() - began)
print(f"a request beside 1,000 silent clients: {sorted(took)[10] * 1000:.1f} ms, the slowest of 20 {max(took) * 1000:.0f} ms")
seal = hmac.new(b"c", b"POST /aire/console/stop\nAire-Dest: notes\nAire-Who: root\n\n{}", hashlib.sha256).hexdigest()
began = time.monotonic()
ask("POST", "/aire/console/stop", "{}", Aire_Dest="notes", Aire_Who="root", Aire_Seal=seal)
while os.path.exists(f"/proc/{sys.argv[1]}") and open(f"/proc/{sys.argv[1]}/stat").read().rsplit(")", 1)[1].split()[0] != "Z":
    time.sleep(0.01)
print(f"a stop beside them: {(time.monotonic() - began) * 1000:.0f} ms")
END
    wait "$served"
}

printf hello >"$folder/body"
: >"$folder/all"
serve 4
sleep 1
before=$(ticks)
sleep 10
echo "idle for ten seconds: $(($(ticks) - before)) hundredths of a processor's second"
silent
for workers in 1 4 8; do
    serve "$workers"
    measure "put-$workers" http://127.0.0.1:8181/n/a -u "$folder/body" -T text/plain
    measure "get-$workers" http://127.0.0.1:8181/n/a
    stop
done
for workers in 1 2; do
    serve "$workers"
    measure "call-$workers" http://127.0.0.1:8181/ping/a -p "$folder/body" -T text/plain
    stop
done

if have nginx; then
    cat >"$folder/nginx.conf" <<END
daemon off; pid $folder/nginx.pid; error_log $folder/nginx.log; worker_processes auto;
events { worker_connections 1024; }
http {
    access_log off; keepalive_timeout 0;
    client_body_temp_path $folder; proxy_temp_path $folder; fastcgi_temp_path $folder; uwsgi_temp_path $folder; scgi_temp_path $folder;
    server { listen 127.0.0.1:8183; location / { return 200 hello; } }
}
END
    nginx -c "$folder/nginx.conf" 2>/dev/null &
    pids+=($!)
    listens 8183 && measure nginx-get http://127.0.0.1:8183/n/a
fi

if have gunicorn && has_flask; then
    cat >"$folder/notes.py" <<'END'
from flask import Flask, request
app = Flask(__name__)
notes = {}
@app.put("/n/<key>")
def put(key):
    notes[key] = request.get_data(as_text=True)
    return ""
@app.get("/n/<key>")
def get(key):
    return notes.get(key, ("hello", 200))
END
    # Of several processes each has notes of its own: only one process keeps what is put.
    for workers in 1 4; do
        port=$((8183 + workers))
        (cd "$folder" && exec gunicorn -w "$workers" -b "127.0.0.1:$port" notes:app >/dev/null 2>&1) &
        flask=$!
        pids+=("$flask")
        if listens "$port"; then
            measure "flask-put-$workers" "http://127.0.0.1:$port/n/a" -u "$folder/body" -T text/plain
            measure "flask-get-$workers" "http://127.0.0.1:$port/n/a"
        fi
        kill "$flask"
        wait "$flask" || true
    done
fi

awk '{ rate[$1] = $2 }
    function beside(what, one, other) { if (rate[one] && rate[other]) printf "%s: %.2f\n", what, rate[one] / rate[other] }
    END {
        beside("get with 1 worker, beside flask with 1", "get-1", "flask-get-1")
        beside("put with 1 worker, beside flask with 1", "put-1", "flask-put-1")
        beside("get with 4 workers, beside flask with 1", "get-4", "flask-get-1")
        beside("put with 4 workers, beside flask with 1", "put-4", "flask-put-1")
        beside("get with 4 workers, beside flask with 4", "get-4", "flask-get-4")
        beside("put with 4 workers, beside flask with 4", "put-4", "flask-put-4")
        beside("get with 1 worker, beside nginx", "get-1", "nginx-get")
        beside("get with 4 workers, beside nginx", "get-4", "nginx-get")
        beside("calls with 2 workers, beside 1", "call-2", "call-1")
    }' "$folder/all"
