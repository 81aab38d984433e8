#!/usr/bin/env bash
# Reading and writing one call with a body of 1 KB and of 64 KB, with its seal: requests by second on one processor, and
# the time of each beside that of the hash alone over the same bytes. And the instructions, counted by valgrind's callgrind, of
# reading 16,384 line feeds, which are no head, beside those of 16,384 letters, which are none either: at most twice as many.
#
# No program of the repository reads messages yet, so one is made here, outside of it: the crates that it stands on are
# copied, with what `rt check` kept of them in this checkout, and it is proved and run.
set -eu
top=$(cd "$(dirname "${BASH_SOURCE[0]}")/.." && pwd)
folder=$(mktemp -d)
trap 'rm -rf "$folder"' EXIT

mkdir -p "$folder/crates/wire_run/src"
for name in $("$top/bench/below" io_edge aire_wire); do
    grep -E "^$name( |:)" "$top/crates.txt" >>"$folder/crates.txt"
    tar -C "$top/crates" --exclude=must-fail -cf - "$name" | tar -C "$folder/crates" -xf -
done
echo "wire_run: lang_base io_edge http_front lang_core repair_messages wire_fields aire_wire sha2" >>"$folder/crates.txt"
cp "$top/HANDLES" "$folder/HANDLES"

cat >"$folder/crates/wire_run/src/main.rt" <<'END'
//! Reads and writes one call over and over, and hashes its bytes as often.
#![tactic(auto)]

use aire_wire::{read_incoming, write_call};
use http_front::{WireRequest, read_request, request_bytes};
use io_edge::{MemorySource, Reading, read_all};
use lang_core::{Method, Name, Names, NoMemory, Request, Text};
use repair_messages::SetMessage;
use sha2::{Digest, Sha256};
use std::alloc::Global;
use std::process::ExitCode;
use std::rt::Clock;
use std::time::Instant;
use wire_fields::Secrets;

fn name(alloc: Global, text: &str) -> Result<Name, NoMemory> {
    match Name::new(Text::of(alloc, text)?) {
        Ok(name) => Ok(name),
        Err(_) => Err(NoMemory),
    }
}

fn body(alloc: Global, size: u64) -> Result<Text, NoMemory> {
    let mut text = String::new(alloc);
    for _ in 0..size {
        text.push('x')?;
    }
    Text::shared(text)
}

fn chain(alloc: Global) -> Result<Names, NoMemory> {
    let mut names = Names::new(alloc);
    names.push(name(alloc, "shop")?)?;
    Ok(names)
}

fn asked(alloc: Global, body: Text) -> Result<Request, NoMemory> {
    let path = Text::of(alloc, "/pay/1")?;
    let who = Text::of(alloc, "ann")?;
    let chain = chain(alloc)?;
    Ok(Request {
        method: Method::Post,
        path,
        body,
        who,
        chain,
    })
}

// A call of this request: its caller's third.
fn call_of(alloc: Global, desired: Request, who: Text) -> Result<SetMessage, NoMemory> {
    let caller = name(alloc, "shop")?;
    let dest = name(alloc, "bank")?;
    Ok(SetMessage {
        caller,
        dest,
        number: 3,
        version: 1,
        desired: Some(desired),
        before: None,
        after: None,
        who,
    })
}

fn call(alloc: Global, size: u64) -> Result<SetMessage, NoMemory> {
    let body = body(alloc, size)?;
    let request = asked(alloc, body)?;
    let who = Text::of(alloc, "ann")?;
    call_of(alloc, request, who)
}

/// What both sides know.
#[derive(Drop)]
struct Sides {
    me: Name,
    peers: Secrets,
    secret: Text,
    notifier: Text,
}

fn peers(alloc: Global) -> Result<Secrets, NoMemory> {
    let shop = name(alloc, "shop")?;
    let secret = Text::of(alloc, "secret")?;
    let mut peers = Secrets::new(alloc);
    match peers.add(shop, secret) {
        Ok(_) => Ok(peers),
        Err(_) => Err(NoMemory),
    }
}

#[derive(Drop)]
struct Texts {
    secret: Text,
    notifier: Text,
}

fn both_texts(alloc: Global) -> Result<Texts, NoMemory> {
    let secret = Text::of(alloc, "secret")?;
    let notifier = Text::of(alloc, "http://127.0.0.1:8101/aire/notify")?;
    Ok(Texts { secret, notifier })
}

fn both_sides(alloc: Global) -> Result<Sides, NoMemory> {
    let me = name(alloc, "bank")?;
    let peers = peers(alloc)?;
    let texts = both_texts(alloc)?;
    Ok(Sides {
        me,
        peers,
        secret: texts.secret,
        notifier: texts.notifier,
    })
}

fn request_of(alloc: Global, bytes: &[u8]) -> Option<WireRequest> {
    let mut source = MemorySource::new(bytes.to_vec(alloc).ok()?, Vec::new(alloc));
    read_request(alloc, &mut source).ok()
}

fn is_call(alloc: Global, sides: &Sides, request: &WireRequest) -> bool {
    let read = read_incoming(alloc, &sides.me, &sides.peers, &sides.secret, request);
    read.is_ok()
}

// One call, read: whether it is one, sealed by the peer.
fn reads(alloc: Global, sides: &Sides, bytes: &[u8]) -> bool {
    match request_of(alloc, bytes) {
        Some(request) => is_call(alloc, sides, &request),
        None => false,
    }
}

// The call, written: its bytes.
fn written(alloc: Global, sides: &Sides, call: &SetMessage) -> Result<Vec<u8>, NoMemory> {
    let request = write_call(alloc, call, &sides.notifier, &sides.secret)?;
    let bytes = request_bytes(alloc, &request)?;
    match bytes.as_slice().to_vec(alloc) {
        Ok(copy) => Ok(copy),
        Err(_) => Err(NoMemory),
    }
}

fn read_often(alloc: Global, sides: &Sides, bytes: &[u8], times: u64) -> u64 {
    let mut done = 0u64;
    for _ in 0..times {
        if reads(alloc, sides, bytes) {
            done = done.saturating_add(1);
        }
    }
    done
}

fn write_often(alloc: Global, sides: &Sides, call: &SetMessage, times: u64) -> u64 {
    let mut done = 0u64;
    for _ in 0..times {
        if written(alloc, sides, call).is_ok() {
            done = done.saturating_add(1);
        }
    }
    done
}

fn hash_often(bytes: &[u8], times: u64) -> u64 {
    let mut sum = 0u64;
    for _ in 0..times {
        let digest = Sha256::digest(bytes);
        sum = sum.wrapping_add(u64::from(digest[0]));
    }
    sum
}

/// How often it was done, and how long that took.
#[derive(Clone, Copy)]
struct Timed {
    done: u64,
    nanoseconds: u128,
}

fn until_now(rt: &impl Clock, start: Instant, done: u64) -> Option<Timed> {
    match start.elapsed(rt) {
        Ok(time) => Some(Timed {
            done,
            nanoseconds: time.as_nanos(),
        }),
        Err(_) => None,
    }
}

fn reading(rt: &impl Clock, alloc: Global, sides: &Sides, bytes: &[u8], times: u64) -> Option<Timed> {
    match Instant::now(rt) {
        Ok(start) => until_now(rt, start, read_often(alloc, sides, bytes, times)),
        Err(_) => None,
    }
}

fn writing(rt: &impl Clock, alloc: Global, sides: &Sides, call: &SetMessage, times: u64) -> Option<Timed> {
    match Instant::now(rt) {
        Ok(start) => until_now(rt, start, write_often(alloc, sides, call, times)),
        Err(_) => None,
    }
}

fn hashing(rt: &impl Clock, bytes: &[u8], times: u64) -> Option<Timed> {
    match Instant::now(rt) {
        Ok(start) => until_now(rt, start, hash_often(bytes, times)),
        Err(_) => None,
    }
}

fn told(rt: &impl Print, what: &str, size: u64, times: u64, timed: Option<Timed>) {
    if let Some(timed) = timed {
        let done = timed.done;
        let nanoseconds = timed.nanoseconds;
        let _ = println!(rt; "{what} {size} {times} {done} {nanoseconds}");
    }
}

fn measured(rt: &(impl Clock + Print), alloc: Global, size: u64, times: u64) {
    if let (Ok(sides), Ok(call)) = (both_sides(alloc), call(alloc, size)) {
        if let Ok(bytes) = written(alloc, &sides, &call) {
            told(rt, "read", size, times, reading(rt, alloc, &sides, &bytes, times));
            told(rt, "written", size, times, writing(rt, alloc, &sides, &call, times));
            told(rt, "hashed", size, times, hashing(rt, &bytes, times));
        }
    }
}

// The input as a request: whether it is one.
fn is_request(alloc: Global, bytes: Vec<u8>) -> bool {
    let mut source = MemorySource::new(bytes, Vec::new(alloc));
    read_request(alloc, &mut source).is_ok()
}

/// Measures calls where the input is empty, and else reads it as a request.
fn main(rt: HostRuntime) -> ExitCode {
    let alloc = rt.alloc();
    match read_all(alloc, &mut Reading::new(rt.reader()), 100000) {
        Ok(input) if !input.is_empty() => {
            if is_request(alloc, input) {
                ExitCode::from(0)
            } else {
                ExitCode::from(2)
            }
        }
        _ => {
            measured(&rt, alloc, 1024, 20000);
            measured(&rt, alloc, 65536, 1000);
            ExitCode::from(0)
        }
    }
}
END

cd "$folder/crates/wire_run"
rt run </dev/null >"$folder/told" 2>"$folder/log" || { tail -n 40 "$folder/log" "$folder/told" >&2; exit 1; }
awk '
    $1 != "hashed" && $4 != $3 { print "not each call was " $1; bad = 1; exit 1 }
    { nanoseconds[$1, $2] = $5; times[$2] = $3 }
    function often(what, size) { return times[size] * 1e9 / nanoseconds[what, size] }
    function beside(what, size) { return nanoseconds[what, size] / nanoseconds["hashed", size] }
    END {
        if (bad) exit 1
        split("1024 65536", sizes, " ")
        for (i = 1; i <= 2; i++) {
            size = sizes[i]
            printf "%d bytes: %d calls read a second, %d written, %d hashed; ", size, often("read", size), often("written", size), often("hashed", size)
            printf "a call read takes %.2f of its hash, one written %.2f\n", beside("read", size), beside("written", size)
        }
    }' "$folder/told"

command -v valgrind >/dev/null || {
    echo "wire.sh: valgrind isn't here, so no instructions are counted" >&2
    exit 0
}

# So many times this byte.
bytes() { head -c "$1" /dev/zero | tr '\0' "$2"; }

# The instructions of reading what stands on the input as a request.
count() {
    { valgrind --tool=callgrind --callgrind-out-file=/dev/null out/wire_run 2>&1 || true; } |
        sed -n 's/.*Collected : *//p'
}

none=$(bytes 1 x | count)
letters=$(bytes 16384 x | count)
feeds=$(bytes 16384 '\n' | count)
echo "$none $letters $feeds" | awk '{
    ratio = ($3 - $1) / ($2 - $1)
    printf "16384 line feeds take %.2f of the instructions of 16384 letters, %d of %d\n", ratio, $3 - $1, $2 - $1
    exit ratio > 2
}'
