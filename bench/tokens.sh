#!/usr/bin/env bash
# Shows that the tokens of one long statement, and the conditions in it, are read in time linear in
# its bytes: a program that calls `tokens` and `parse_cond` is timed over two sizes (250,000 and
# 1,000,000 bytes unless told otherwise, ascending), and the time per byte is compared. The program
# is made here, in a folder of its own, over copies of the crates that it stands on, so that reading
# alone is timed, without the limits of a statement.
set -eu
top=$(cd "$(dirname "$0")/.." && pwd)
[ $# -gt 0 ] || set -- 250000 1000000
scratch=$(mktemp -d)
trap 'rm -rf "$scratch"' EXIT
"$top/bench/libraries" "$scratch" lexer
echo 'count_tokens: lexer' >>"$scratch/crates.txt"
mkdir -p "$scratch/crates/count_tokens/src"
cat >"$scratch/crates/count_tokens/src/main.rt" <<'RATTLE'
//! Counts the tokens of standard input, and the conditions in it, between which stands one token
//! each.
#![tactic(auto)]

use lexer::{Token, parse_cond, tokens};
use std::alloc::Global;
use std::io::Read;
use std::process::ExitCode;

// How many conditions stand in the list; none where one cannot be read.
fn conditions(alloc: Global, list: &[Token<'_>]) -> Option<u64> {
    let mut from = 0;
    let mut count: u64 = 0;
    for _turn in 0..list.len() {
        if from >= list.len() {
            return Some(count);
        }
        match parse_cond(alloc, list, from, false) {
            Ok((_cond, place)) => from = place.saturating_add(1),
            Err(_) => return None,
        }
        count = count.saturating_add(1);
    }
    Some(count)
}

fn main(rt: HostRuntime) -> ExitCode {
    let mut text = Vec::new(rt.alloc());
    if rt.reader().read_to_end(&mut text).is_err() || text.len() > 1_048_576 {
        return ExitCode::from(2);
    }
    let Ok(list) = tokens(rt.alloc(), &text) else {
        return ExitCode::from(3);
    };
    let Some(count) = conditions(rt.alloc(), &list) else {
        return ExitCode::from(4);
    };
    let length = list.len();
    match println!(rt; "tokens {length} conditions {count}") {
        Ok(()) => ExitCode::from(0),
        Err(_) => ExitCode::from(5),
    }
}
RATTLE
(cd "$scratch/crates/count_tokens" && printf 'TRUE' >stdin &&
    echo 'tokens 1 conditions 1' >stdout && rt run) >"$scratch/log" 2>&1 || {
    tail -n 20 "$scratch/log"
    exit 1
}
python3 - "$scratch/crates/count_tokens/out/count_tokens" "$@" <<'PYTHON'
import subprocess, sys, time

program, sizes = sys.argv[1], [int(word) for word in sys.argv[2:]]
# One condition of 64 comparisons, with each kind of token, a comment and blanks.
condition = "\nAND ".join(f"name_{i} <> 'it''s {i}' -- a note" if i % 2
    else f"( length_{i}>=-{i * 77} )" for i in range(64))
condition_tokens = sum(3 if i % 2 else 5 for i in range(64)) + 63


def text_of(size):
    count = max(1, size // (len(condition) + 3))
    text = "\n, ".join([condition] * count)
    return text.encode(), count * (condition_tokens + 1) - 1, count


def seconds_of(text, wanted):
    best = None
    for _ in range(15):
        begun = time.perf_counter()
        run = subprocess.run([program], input=text, stdout=subprocess.PIPE)
        seconds = time.perf_counter() - begun
        assert run.returncode == 0 and run.stdout == wanted, (run.returncode, run.stdout, wanted)
        best = seconds if best is None else min(best, seconds)
    return best


# What a run takes that reads next to nothing.
start = seconds_of(b"TRUE", b"tokens 1 conditions 1\n")
print(f"a run over one token: {start:.4f} seconds")
print(f"{'bytes':>10} {'tokens':>8} {'conditions':>11} {'seconds':>9} {'ns a byte':>10}")
costs = []
for size in sizes:
    text, tokens, conditions = text_of(size)
    seconds = seconds_of(text, b"tokens %d conditions %d\n" % (tokens, conditions)) - start
    costs.append(seconds / len(text))
    print(f"{len(text):>10} {tokens:>8} {conditions:>11} {seconds:>9.4f} {costs[-1] * 1e9:>10.1f}")
print(f"the last size takes {costs[-1] / costs[0]:.2f} times the first one's time a byte")
PYTHON
