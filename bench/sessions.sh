#!/usr/bin/env bash
# Times transactions and cursors of sessions, over files in memory (FOLDER names another folder,
# /dev/shm unless told otherwise). Prints the seconds of each, least of a few rounds:
#   commit   m changes, an INSERT each, for each m (1,000, 10,000 and 50,000 unless told otherwise,
#            ascending): by one AT; and by BEGIN, one DO of them all, and COMMIT
#   open     a query of so many rows told; and a cursor opened on it, fetched whole and closed
#   fetch    10,000 FETCHes, each of one entry of as many, with one cursor open; and with 10,000 of
#            10,000 sessions, of which the others have one entry each
#   close    these 10,000 closed, the first one first
# PROGRAM names another build to be timed in place of this one. Ends with 1 where a transaction
# takes more than twice as long as one AT, or a cursor from its OPEN to its CLOSE more than twice as
# long as its query, each with 0.05 s more, a FETCH more than 0.1 ms longer beside 10,000 open
# cursors than alone, or closing all of them more than a second.
set -eu
top=$(cd "$(dirname "$0")/.." && pwd)
if [ -z "${PROGRAM:-}" ]; then
    PROGRAM=$top/crates/prima/out/prima
    # builds what is missing; no words, no archive
    "$top/prima" </dev/null >/dev/null || [ $? -eq 2 ]
fi
[ $# -gt 0 ] || set -- 1000 10000 50000
python3 - "$(realpath "$PROGRAM")" "${FOLDER:-/dev/shm}" "$@" <<'PYTHON'
import os, subprocess, sys, tempfile, time

program, folder, sizes = sys.argv[1], sys.argv[2], [int(word) for word in sys.argv[3:]]
ROUNDS = 3
CURSORS = 10_000
TABLE = "AT 1 EVOLVE CREATE TABLE t (a INT);"
slow = False


def seconds_of(*scripts):
    """The least seconds in which each of these scripts is run, each on a new archive, and its
    replies; they take turns."""
    least, replies = [None] * len(scripts), [b""] * len(scripts)
    for _ in range(ROUNDS):
        for i, script in enumerate(scripts):
            with tempfile.TemporaryDirectory(dir=folder) as place:
                begun = time.monotonic()
                run = subprocess.run([program, "run"], cwd=place, input=script.encode(),
                    stdout=subprocess.PIPE)
                spent = time.monotonic() - begun
            assert run.returncode == 0, run.stdout[-200:]
            least[i] = spent if least[i] is None else min(least[i], spent)
            replies[i] = run.stdout
    return least, replies


def inserts(m):
    return " THEN ".join(f"INSERT INTO t (a) VALUES ({n})" for n in range(m))


def told(words, ok):
    global slow
    print(words, "" if ok else "  TOO SLOW", flush=True)
    slow = slow or not ok


def parts(m):
    """The changes as statements of a session, each within the length of one."""
    each = 20_000
    return "".join("SESSION 1 DO " + " THEN ".join(f"INSERT INTO t (a) VALUES ({n})"
        for n in range(at, min(at + each, m))) + ";" for at in range(0, m, each))


for m in sizes:
    if m <= 20_000:
        at = TABLE + f"AT 2 {inserts(m)};"
    else:
        # more than one statement can have: as many by several commands
        at = TABLE + "".join(f"AT {2 + i} " + " THEN ".join(f"INSERT INTO t (a) VALUES ({n})"
            for n in range(20_000 * i, min(20_000 * (i + 1), m))) + ";"
            for i in range((m + 19_999) // 20_000))
    session = TABLE + "SESSION 1 BEGIN;" + parts(m) + "SESSION 1 COMMIT AT 2;"
    (empty, one, by_session), _ = seconds_of(TABLE, at, session)
    told(f"commit {m}: AT {one - empty:.3f} s, session {by_session - empty:.3f} s",
        by_session - empty <= 2 * (one - empty) + 0.05)

    rows = session + "QUERY VERSION 1 SELECT a FROM t;"
    cursor = session + "SESSION 1 OPEN c VERSION 1 SELECT a FROM t;" \
        + f"SESSION 1 FETCH c {m}; SESSION 1 CLOSE c;"
    (query, opened), (listed, fetched) = seconds_of(rows, cursor)
    lines = [line for line in fetched.splitlines() if line.startswith((b"row", b"end"))]
    assert lines == [line for line in listed.splitlines() if line.startswith((b"row", b"end"))]
    told(f"open {m}: QUERY {query - by_session:.3f} s, OPEN, FETCH and CLOSE"
        f" {opened - by_session:.3f} s",
        opened - by_session <= 2 * max(query - by_session, 0) + 0.05)

# each FETCH has an entry to tell; the cursor that is fetched is the one that is found last
LAST = CURSORS - 1
tables = TABLE + f"AT 2 {inserts(CURSORS)};AT 3 EVOLVE CREATE TABLE u (a INT);" \
    + "AT 4 INSERT INTO u (a) VALUES (1);"
alone = tables + f"SESSION {LAST} OPEN c VERSION 2 SELECT a FROM t;"
all_open = tables + "".join(f"SESSION {s} OPEN c VERSION 2 SELECT a FROM u;" for s in range(LAST)) \
    + f"SESSION {LAST} OPEN c VERSION 2 SELECT a FROM t;"
fetches = f"SESSION {LAST} FETCH c 1;" * CURSORS
closes = "".join(f"SESSION {s} CLOSE c;" for s in range(CURSORS))
(few, few_fetched, many, many_fetched, closed), replies = seconds_of(alone, alone + fetches,
    all_open, all_open + fetches, all_open + closes)
assert all(replies[i].count(b"row ") == CURSORS for i in (1, 3))
beside = ((many_fetched - many) - (few_fetched - few)) / CURSORS
told(f"fetch: {(few_fetched - few) / CURSORS * 1e6:.1f} us alone, {beside * 1e6:+.1f} us beside"
    f" {CURSORS} open cursors", beside <= 1e-4)
told(f"close: {closed - many:.3f} s for {CURSORS}, the first one first", closed - many <= 1.0)
sys.exit(1 if slow else 0)
PYTHON
