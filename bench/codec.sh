#!/usr/bin/env bash
# Shows that a command is read from its bytes, and written as bytes again, in time linear in them: a
# program that calls `decode` and `encode` is timed over commands of two sizes (250,000 and
# 4,000,000 bytes unless told otherwise, ascending), and the time per byte is compared. The program
# is made here, in a folder of its own, over copies of the crates that it stands on.
set -eu
top=$(cd "$(dirname "$0")/.." && pwd)
[ $# -gt 0 ] || set -- 250000 4000000
scratch=$(mktemp -d)
trap 'rm -rf "$scratch"' EXIT
"$top/bench/libraries" "$scratch" command_codec
echo 'codec_again: command_codec' >>"$scratch/crates.txt"
mkdir -p "$scratch/crates/codec_again/src"
cat >"$scratch/crates/codec_again/src/main.rt" <<'RATTLE'
//! Reads standard input as a command as often as its first byte says, and writes it again.
#![tactic(auto)]

use command_codec::{decode, encode};
use std::alloc::Global;
use std::io::Read;
use std::process::ExitCode;

// Whether these bytes are read as a command and written as they are.
fn comes_back(alloc: Global, bytes: &[u8]) -> bool {
    let Ok(command) = decode(alloc, bytes) else {
        return false;
    };
    let Ok(again) = encode(alloc, &command) else {
        return false;
    };
    again.as_slice() == bytes
}

fn main(rt: HostRuntime) -> ExitCode {
    let mut text = Vec::new(rt.alloc());
    if rt.reader().read_to_end(&mut text).is_err() {
        return ExitCode::from(2);
    }
    let [turns, bytes @ ..] = text.as_slice() else {
        return ExitCode::from(0);
    };
    for _ in 0..*turns {
        if !comes_back(rt.alloc(), bytes) {
            return ExitCode::from(4);
        }
    }
    ExitCode::from(0)
}
RATTLE
: >"$scratch/crates/codec_again/stdin"
: >"$scratch/crates/codec_again/stdout"
(cd "$scratch/crates/codec_again" && rt run) >"$scratch/log" 2>&1 || {
    tail -n 20 "$scratch/log"
    exit 1
}
python3 - "$scratch/crates/codec_again/out/codec_again" "$@" <<'PYTHON'
import struct, subprocess, sys, time

program, sizes = sys.argv[1], [int(word) for word in sys.argv[2:]]


def name(text):
    return bytes([len(text)]) + text


def insert(i):
    cells = [name(b"a") + b"\0" + struct.pack(">q", i),
        name(b"text_of_it") + b"\1" + struct.pack(">H", 40) + b"x" * 40]
    return b"\0" + name(b"table") + struct.pack(">I", len(cells)) + b"".join(cells)


def update(i):
    column = b"\0" + name(b"a")
    below = b"\2\2" + column + b"\1\0" + struct.pack(">q", i)
    sets = [name(b"a") + b"\4" + below + column + b"\1\0" + struct.pack(">q", -i)]
    return (b"\2" + name(b"table") + struct.pack(">I", 1) + b"".join(sets) + b"\3\0\2" + below
        + b"\5" + below)


def command(size):
    changes, total = [], 0
    while total < size:
        change = update(len(changes)) if len(changes) % 2 else insert(len(changes))
        changes.append(change)
        total += len(change)
    return struct.pack(">QBI", 7, 0, len(changes)) + b"".join(changes)


def seconds_of(turns, data):
    best = None
    for _ in range(7):
        begun = time.perf_counter()
        run = subprocess.run([program], input=bytes([turns]) + data, stdout=subprocess.PIPE)
        seconds = time.perf_counter() - begun
        assert run.returncode == 0, run.returncode
        best = seconds if best is None else min(best, seconds)
    return best


print(f"{'bytes':>10} {'seconds':>9} {'ns a byte':>10}")
costs = []
for size in sizes:
    data = command(size)
    # What a run takes that reads the bytes from standard input alone is left out.
    seconds = (seconds_of(11, data) - seconds_of(1, data)) / 10
    costs.append(seconds / len(data))
    print(f"{len(data):>10} {seconds:>9.4f} {costs[-1] * 1e9:>10.1f}")
print(f"the last size takes {costs[-1] / costs[0]:.2f} times the first one's time a byte")
PYTHON
