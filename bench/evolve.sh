#!/usr/bin/env bash
# Times operators over a table of n rows, for each n (4,000, 16,000 and 64,000 unless told
# otherwise, ascending), over the built program: the seconds of the inserts alone, then of 500 NOPs
# after them, of a PARTITION with a MERGE, and of a DECOMPOSE with a JOIN; and the most memory in
# KiB of the inserts alone and with the NOPs. An operator costs what it is given and makes: NOPs
# take as long whatever the rows are, and the others grow as the rows do. Then ten operators behind
# ten versions, and ten behind 502, over tables of no rows, in milliseconds for one: the measure of
# what an operator makes is taken over all versions before it, in one pass back and one forward. So
# it costs at most a few times as much behind 502 versions. Then the same where every third version
# creates a table that the next one alters and the one behind drops, which need no passes of their
# own; and where sixty tables are created and altered and stay, as many as may stand but for four:
# this is the shape that needs most passes, one for each of these.
set -eu
top=$(cd "$(dirname "$0")/.." && pwd)
"$top/prima" </dev/null >/dev/null || [ $? -eq 2 ] # builds what is missing; no words, no archive
[ $# -gt 0 ] || set -- 4000 16000 64000
exec python3 - "$top/examples/fresh" "$top/crates/prima/out/prima" "$@" <<'PYTHON'
import os, subprocess, sys, tempfile, time

program, sizes = sys.argv[1:3], [int(word) for word in sys.argv[3:]]


def play(statements):
    """The seconds of the run, the most memory that it had in KiB, and its processor seconds."""
    with tempfile.TemporaryFile() as script, tempfile.TemporaryFile() as replies:
        script.write("\n".join(statements).encode())
        script.seek(0)
        begun = time.perf_counter()
        run = subprocess.Popen([*program, "run"], stdin=script, stdout=replies)
        _, status, used = os.wait4(run.pid, 0)
        taken = time.perf_counter() - begun
        replies.seek(0)
        assert status == 0 and replies.read().count(b"\n") >= len(statements), (
            "a statement was refused")
    return taken, used.ru_maxrss, used.ru_utime + used.ru_stime


print(f"{'rows':>8} {'inserts':>9} {'NOPs':>9} {'in parts':>9} {'joined':>9} "
      f"{'KiB':>8} {'NOPs KiB':>9}")
for n in sizes:
    rows = ["AT 1 EVOLVE CREATE TABLE t (a INT, b INT, c INT);"]
    rows += [f"AT {2 + i} INSERT INTO t (a, b, c) VALUES ({i}, {i * 7919 % n}, {i % 10});"
        for i in range(n)]
    at = n + 2
    nops = [f"AT {at + i} EVOLVE NOP;" for i in range(500)]
    parts = [f"AT {at} EVOLVE PARTITION TABLE t INTO low WITH b < {n // 2}, high;",
        f"AT {at + 1} EVOLVE MERGE TABLE low, high INTO t;"]
    joined = [f"AT {at} EVOLVE DECOMPOSE TABLE t INTO x (a, b), y (a, c);",
        f"AT {at + 1} EVOLVE JOIN TABLE x, y INTO t;"]
    alone, least, _ = play(rows)
    more = [play(rows + after) for after in (nops, parts, joined)]
    print(f"{n:>8} {alone:>9.3f} {more[0][0] - alone:>9.3f} {more[1][0] - alone:>9.3f} "
          f"{more[2][0] - alone:>9.3f} {least:>8} {more[0][1]:>9}")


def versions(count):
    ops = ["ADD COLUMN c AS a INTO t", "DROP COLUMN c FROM t", "RENAME TABLE t INTO u",
        "RENAME TABLE u INTO t"]
    return (["AT 1 EVOLVE CREATE TABLE t (a INT, b INT);"]
        + [f"AT {2 + i} EVOLVE {ops[i % 4]};" for i in range(count - 1)])


def anew(count):
    ops = ["CREATE TABLE t (a INT)", "ADD COLUMN b AS a INTO t", "DROP TABLE t"]
    return [f"AT {1 + i} EVOLVE {ops[i % 3]};" for i in range(count)]


def kept(count):
    ops = ["ADD COLUMN c AS a INTO t0", "DROP COLUMN c FROM t0"]
    made = [op for i in range(60) for op in (f"CREATE TABLE t{i} (a INT)",
        f"ADD COLUMN b AS a INTO t{i}")]
    return [f"AT {1 + i} EVOLVE {(made + ops * count)[i]};" for i in range(count)]


def one_more(made, count):
    """The processor milliseconds of an operator behind so many versions."""
    before, after = ([play(made(n))[2] for _ in range(5)] for n in (count, count + 10))
    return (min(after) - min(before)) * 100


few, many = one_more(versions, 10), one_more(versions, 502)
print(f"an operator behind 10 versions {few:.2f} ms, behind 502 versions {many:.2f} ms")
few, many = one_more(anew, 10), one_more(anew, 502)
print(f"where every third creates a table that goes again {few:.2f} ms, {many:.2f} ms")
few, many = one_more(kept, 10), one_more(kept, 502)
print(f"where sixty tables are created and altered and stay {few:.2f} ms, {many:.2f} ms")
PYTHON
