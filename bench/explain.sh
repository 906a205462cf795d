#!/usr/bin/env bash
# Times what pruning saves, over the built program: a table of n rows (500 unless told otherwise) is
# renamed there and back, each rename with its inverse, and then cut into sixteen by PARTITIONs,
# each with a MERGE as its inverse, so that there are V versions (100 and 500 unless told
# otherwise). Asked on the last version are all sixteen tables, as one union: without a condition,
# and with one that rules out all rows of fifteen of them. Where the table is not yet cut all pieces
# but one are then dead; of tables that are cut off nothing tells which rows they have, so each is a
# living piece at its own versions. EXPLAIN must tell just so many pieces. Prints the seconds that
# each question adds to the load, and their ratio. Then, over 300 versions that rename the table
# there and back, what a question with a condition of 10 and of 80 comparisons of one column adds:
# each piece is tried once. ROWS names another n. PROGRAM names another build to be timed in place of
# this one.
set -eu
top=$(cd "$(dirname "$0")/.." && pwd)
if [ -z "${PROGRAM:-}" ]; then
    PROGRAM=$top/crates/prima/out/prima
    # builds what is missing; no words, no archive
    "$top/prima" </dev/null >/dev/null || [ $? -eq 2 ]
fi
[ $# -gt 0 ] || set -- 100 500
exec python3 - "$top/examples/fresh" "$PROGRAM" "${ROWS:-500}" "$@" <<'PYTHON'
import subprocess, sys, tempfile, time

program, n, sizes = sys.argv[1:3], int(sys.argv[3]), [int(word) for word in sys.argv[4:]]
PARTS = 16


def play(statements):
    """The seconds of the run, and the lines of its replies."""
    with tempfile.TemporaryFile() as script, tempfile.TemporaryFile() as replies:
        script.write("\n".join(statements).encode())
        script.seek(0)
        begun = time.perf_counter()
        status = subprocess.run([*program, "run"], stdin=script, stdout=replies).returncode
        taken = time.perf_counter() - begun
        replies.seek(0)
        lines = replies.read().decode().splitlines()
        assert status == 0, lines[-1]
    return taken, lines


def loaded(versions):
    """The rows under version 1, renames of their table there and back, and then the sixteen tables
    `p1` to `p16`; with the number of the last version."""
    step = -(-n // PARTS)
    script = ["AT 1 EVOLVE CREATE TABLE t0 (k INT, x INT);"]
    script.append("AT 2 "
        + " THEN ".join(f"INSERT INTO t0 (k, x) VALUES ({k}, {k * 7919 % n})" for k in range(n))
        + ";")
    at, version = 3, 1
    names = ["t0", "q"]
    while version < versions - (PARTS - 1) or names[0] != "t0":
        script.append(f"AT {at} EVOLVE RENAME TABLE {names[0]} INTO {names[1]} "
                      f"INVERSE RENAME TABLE {names[1]} INTO {names[0]};")
        names.reverse()
        at, version = at + 1, version + 1
    for i in range(1, PARTS):
        rest = f"t{i}" if i < PARTS - 1 else f"p{PARTS}"
        script.append(f"AT {at} EVOLVE PARTITION TABLE t{i - 1} INTO p{i} WITH k < {i * step}, "
                      f"{rest} INVERSE MERGE TABLE p{i}, {rest} INTO t{i - 1};")
        at, version = at + 1, version + 1
    return script, version


def union(version, where):
    return f"QUERY VERSION {version} " + " UNION ".join(f"SELECT k, x FROM p{i}{where}"
        for i in range(1, PARTS + 1)) + ";"


print(f"{'versions':>8} {'rows':>8} {'load':>8} {'all':>8} {'one':>8} {'times':>6}")
for versions in sizes:
    script, last = loaded(versions)
    alone = min(play(script)[0] for _ in range(3))
    pieces = [int(play(script + ["EXPLAIN " + union(last, where)])[1][-1].split()[1])
        for where in ("", " WHERE k = 1")]
    whole = last - (PARTS - 1)  # the versions in which the table is not yet cut
    assert pieces == [PARTS * last, whole + sum(range(2, PARTS + 1))], pieces
    costs = []
    for where, rows in (("", n), (" WHERE k = 1", 1)):
        runs = [play(script + [union(last, where)]) for _ in range(3)]
        assert runs[0][1][-1] == f"end {rows}", runs[0][1][-1]
        costs.append(max(min(taken for taken, _ in runs) - alone, 0))
    ratio = costs[1] / costs[0] if costs[0] else 0
    print(f"{last:>8} {n:>8} {alone:>8.3f} {costs[0]:>8.3f} {costs[1]:>8.3f} {ratio:>6.2f}",
        flush=True)


def renamed(versions):
    """The rows under version 1, and renames of their table there and back up to this version."""
    names = ["t0", "q"]
    script = ["AT 1 EVOLVE CREATE TABLE t0 (k INT, x INT);", "AT 2 "
        + " THEN ".join(f"INSERT INTO t0 (k, x) VALUES ({k}, {k * 7919 % n})" for k in range(n))
        + ";"]
    for version in range(2, versions + 1):
        script.append(f"AT {version + 1} EVOLVE RENAME TABLE {names[0]} INTO {names[1]};")
        names.reverse()
    return script, names[0]


print(f"{'compared':>8} {'versions':>8} {'seconds':>8}")
for compared in (10, 80):
    script, name = renamed(300)
    # the least values that the bound leaves are all excluded, so that each is tried
    where = " AND ".join(["x >= 0"] + [f"x <> {value}" for value in range(compared - 1)])
    question = f"QUERY VERSION 300 SELECT k, x FROM {name} WHERE {where};"
    alone = min(play(script)[0] for _ in range(3))
    whole = min(play(script + [question])[0] for _ in range(3))
    print(f"{compared:>8} {300:>8} {max(whole - alone, 0):>8.3f}", flush=True)
PYTHON
