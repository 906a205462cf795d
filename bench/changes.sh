#!/usr/bin/env bash
# Times changes of a table of three columns (a INT, b INT, c TEXT), for tables of n rows (2,000,
# 20,000 and 200,000 unless told otherwise), over the built program: microseconds for each command,
# and the ratio of these between each size and the one before it. The rows differ in a, and b has
# another order than a. What is timed:
#   ascending, scattered   inserts of one row each, that stand after all others, or anywhere among
#                          them
#   update a, delete a     by the first column: the row is found by binary search
#   update range, delete range   by bounds of the first column that ten rows meet
#   index of b             the first update by another column: its ids are sorted once
#   update b, delete b     by another column, whose index is kept from then on
#   65 and by b            in turn an insert of 65 rows in one command, and an update by another
#                          column; microseconds for both
#   update no pin, delete no pin   by a condition that pins no column: each row is looked at
#   walk                   by one comparison that pins nothing and that no row meets; the
#                          nanoseconds a row stand after
#   20000 in one           one command of 20,000 changes by the first column; microseconds for each
#                          change
#   20000 by b             the same by another column
#   20000 by b, c          the same by two other columns in turn
# Inserts are over an empty archive, the others each over a copy of one with the rows, in which a
# run without the commands in question is taken off. What counts are the processor's seconds in the
# program itself, not in the system's calls, of the least of a few runs. Files stand in memory where
# the machine has a folder there. PROGRAM names another build to be timed in place of this one.
set -eu
top=$(cd "$(dirname "$0")/.." && pwd)
if [ -z "${PROGRAM:-}" ]; then
    PROGRAM=$top/crates/prima/out/prima
    # builds what is missing; no words, no archive
    "$top/prima" </dev/null >/dev/null || [ $? -eq 2 ]
fi
[ $# -gt 0 ] || set -- 2000 20000 200000
exec python3 - "$PROGRAM" "$@" <<'PYTHON'
import os, resource, shutil, subprocess, sys, tempfile

program, sizes = os.path.realpath(sys.argv[1]), [int(word) for word in sys.argv[2:]]
MANY = 20000  # changes of one command, at most
RUNS = 5
in_memory = "/dev/shm" if os.path.isdir("/dev/shm") else None


def seconds_of(statements, over=None, keep=None):
    """Processor seconds of a run of these statements over a copy of an archive, or an empty one:
    the least of the runs. The archive that is left is kept where a path for it is given."""
    script = "\n".join(statements).encode()
    taken = []
    for _ in range(RUNS):
        with tempfile.TemporaryDirectory(dir=in_memory) as folder:
            archive = os.path.join(folder, "archive.prima")
            if over:
                shutil.copyfile(over, archive)
            before = resource.getrusage(resource.RUSAGE_CHILDREN)
            run = subprocess.run([program, "run"], input=script, stdout=subprocess.PIPE, cwd=folder)
            after = resource.getrusage(resource.RUSAGE_CHILDREN)
            assert run.returncode == 0 and run.stdout.count(b"\n") == len(statements), (
                run.stdout[-80:])
            taken.append(after.ru_utime - before.ru_utime)
            if keep:
                shutil.move(archive, keep)
    return min(taken)


def insert(a, b):
    return f"INSERT INTO t (a, b, c) VALUES ({a}, {b}, 'text {a % 97}')"


def commands(changes, at):
    return [f"AT {at + i} {change};" for i, change in enumerate(changes)]


costs = {}
rooms = tempfile.TemporaryDirectory(dir=in_memory)
stored = os.path.join(rooms.name, "stored")
for n in sizes:
    start = ["AT 1 EVOLVE CREATE TABLE t (a INT, b INT, c TEXT);"]
    # Numbers that jump about, each once: 7919 is prime, and none of the sizes is a multiple of it.
    order = [i * 7919 % n for i in range(n)]
    base = seconds_of(start)
    full = seconds_of(start + commands([insert(a, a * 31 % n) for a in order], 2), keep=stored)
    ascending = seconds_of(start + commands([insert(a, a * 31 % n) for a in range(n)], 2))
    opened = seconds_of([], stored)
    few, walks = order[:: max(1, n // 1000)][:1000], order[:: max(1, n // 20)][:20]
    pinned = [f"UPDATE t SET c = 'x' WHERE a = {a}" for a in order]
    while len(pinned) < MANY:
        pinned = pinned + pinned
    by_b = [f"UPDATE t SET c = CONCAT(c, '!') WHERE b = {a}" for a in few]
    few_ranges = [i * 7919 % min(1000, n // 20) * max(20, n // 1000)
        for i in range(min(1000, n // 20))]
    pairs = []
    for i, a in enumerate(few[:100]):
        pairs.append(" THEN ".join(insert(n + 65 * i + k, n + 65 * i + k) for k in range(65)))
        pairs.append(f"UPDATE t SET c = CONCAT(c, '!') WHERE b = {a}")
    in_turn = []
    while len(in_turn) < MANY:
        for a in order:
            in_turn += [f"UPDATE t SET c = 'x{a}' WHERE b = {a}",
                f"UPDATE t SET c = 'y' WHERE c = 'x{a}'"]
    by_other = [f"UPDATE t SET c = 'x' WHERE b = {a}" for a in order]
    while len(by_other) < MANY:
        by_other = by_other + by_other
    kinds = [
        ("update a", [f"UPDATE t SET c = CONCAT(c, '!') WHERE a = {a}" for a in few], 1),
        ("delete a", [f"DELETE FROM t WHERE a = {a}" for a in few], 1),
        ("update range",
            [f"UPDATE t SET c = CONCAT(c, '!') WHERE a >= {a} AND a < {a + 10}" for a in few], 1),
        ("delete range", [f"DELETE FROM t WHERE a >= {a} AND a < {a + 10}" for a in few_ranges], 1),
        ("index of b", by_b[:1], 1),
        ("update b", by_b[1:], 1),
        ("delete b", [f"DELETE FROM t WHERE b = {a}" for a in few[1:]], 1),
        ("65 and by b", pairs, 0.5),
        ("update no pin",
            [f"UPDATE t SET c = CONCAT(c, '!') WHERE a = {a} OR a = {-a - 1}" for a in walks], 1),
        ("delete no pin", [f"DELETE FROM t WHERE a = {a} OR a = {-a - 1}" for a in walks], 1),
        ("walk", ["DELETE FROM t WHERE b < 0" for _ in walks], 1),
        (f"{MANY} in one", [" THEN ".join(pinned[:MANY])], MANY),
        (f"{MANY} by b", [" THEN ".join(by_other[:MANY])], MANY),
        (f"{MANY} by b, c", [" THEN ".join(in_turn[:MANY])], MANY),
    ]
    rows = [("ascending", ascending - base, n), ("scattered", full - base, n)]
    for kind, changes, each in kinds:
        # Where a column is to have its index already, a first command of the same run asks for it.
        first = by_b[:1] if kind in ("update b", "delete b", "65 and by b") else []
        before = seconds_of(commands(first, 2 + n), stored) if first else opened
        rows.append((kind, seconds_of(commands(first + changes, 2 + n), stored) - before,
            len(changes) * each))
    for kind, seconds, number in rows:
        us = 1e6 * seconds / number
        before = costs.get(kind)
        costs[kind] = us
        ratio = f"{us / before:>8.2f}" if before and before > 0 else f"{'':>8}"
        each = f"{1000 * us / n:>8.0f} ns a row" if kind == "walk" else ""
        print(f"{kind:>14} {n:>8} rows {number:>7.0f} x {us:>10.1f} us{ratio}{each}", flush=True)
PYTHON
