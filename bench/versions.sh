#!/usr/bin/env bash
# Times queries over many versions, over the built program: n rows (1,000 and 10,000, or the numbers
# in ROWS) entered under version 1, then V versions, and the same question asked on version 1 and on
# the last one. The versions are renames with their inverses (a table and a column in turn), ADD and
# DROP COLUMN in turn, renames of another table, PARTITION and MERGE in turn, each the other's
# inverse (a question has one piece and two in turn, since of those that both make of it the dead
# ones are left out on the way; at most 26 of these, since by its width the table has twice as many
# pieces after each MERGE, and a history that is too wide is refused), or cuts: a PARTITION with MERGE as its inverse, and a RENAME of the
# table that is cut off (a question has one piece more after each cut). Prints the seconds of the
# load with its operators, the seconds that each of the two questions adds, and the most memory in
# KiB. A table is stored once over the versions that do not touch it, so memory grows as V + n times
# the versions that do; a question reads it once for all neighbouring versions that do not touch it,
# or that begin it again under another name while nothing changes it.
#
# Then the forty versions of the program's own sample, of 2,000, 10,000 and 50,000 rows (or the
# numbers in SAMPLE; none where it is empty, as ROWS may be): the seconds that three of its
# questions take over the archive, on version 1, on version 2 for one kind of pages, and on version
# 40, and what sqlite3 takes for the same rows, by views that are written by hand over a table of
# periods for each lifeline, where it is there.
# PROGRAM names another build to be measured in place of this one.
set -eu
top=$(cd "$(dirname "$0")/.." && pwd)
if [ -z "${PROGRAM:-}" ]; then
    PROGRAM=$top/crates/prima/out/prima
    # builds what is missing; no words, no archive
    "$top/prima" </dev/null >/dev/null || [ $? -eq 2 ]
fi
[ $# -gt 0 ] || set -- 10 100 # even numbers
exec python3 - "$top/examples/fresh" "$PROGRAM" \
    "${ROWS-1000 10000}" "${SAMPLE-2000 10000 50000}" "$@" <<'PYTHON'
import os, shutil, subprocess, sys, tempfile, time

program = [sys.argv[1], os.path.realpath(sys.argv[2])]
sizes, samples, counts = ([int(word) for word in words]
    for words in (sys.argv[3].split(), sys.argv[4].split(), sys.argv[5:]))


def play(statements):
    """The seconds of the run, and the most memory that it had, in KiB."""
    with tempfile.TemporaryFile() as script, tempfile.TemporaryFile() as replies:
        script.write("\n".join(statements).encode())
        script.seek(0)
        begun = time.perf_counter()
        run = subprocess.Popen([*program, "run"], stdin=script, stdout=replies)
        _, status, used = os.wait4(run.pid, 0)
        taken = time.perf_counter() - begun
        replies.seek(0)
        assert status == 0 and b"error" not in replies.read(), "a statement was refused"
    return taken, used.ru_maxrss


def renames(count):
    pairs = [("TABLE t INTO u", "TABLE u INTO t"), ("COLUMN b IN u TO c", "COLUMN c IN u TO b"),
             ("TABLE u INTO t", "TABLE t INTO u"), ("COLUMN c IN t TO b", "COLUMN b IN t TO c")]
    for i in range(count):
        there, back = pairs[i % 4]
        yield f"RENAME {there} INVERSE RENAME {back}"


def columns(count):
    for i in range(count):
        yield ("ADD COLUMN c AS a INTO t INVERSE DROP COLUMN c FROM t" if i % 2 == 0
               else "DROP COLUMN c FROM t INVERSE ADD COLUMN c AS a INTO t")


def others(count):
    for i in range(count):
        there, back = ("w", "v") if i % 2 == 0 else ("v", "w")
        yield f"RENAME TABLE {there} INTO {back} INVERSE RENAME TABLE {back} INTO {there}"


def parts(count):
    for i in range(count):
        split, join = "PARTITION TABLE t INTO x WITH b < 1000, y", "MERGE TABLE x, y INTO t"
        yield f"{split} INVERSE {join}" if i % 2 == 0 else f"{join} INVERSE {split}"


def cuts(count):
    for i in range(count):
        if i % 2 == 0:
            yield f"PARTITION TABLE t INTO cut WITH b < {i}, t INVERSE MERGE TABLE cut, t INTO t"
        else:
            yield f"RENAME TABLE cut INTO cut{i} INVERSE RENAME TABLE cut{i} INTO cut"


def question(version, table):
    return f"QUERY VERSION {version} SELECT a FROM {table} WHERE a < 10;"


print(f"{'versions of':>12} {'V':>4} {'rows':>7} {'load':>8} {'on first':>9} {'on last':>9} "
      f"{'KiB':>8}")
for kind, make in (("renames", renames), ("columns", columns), ("others", others), ("parts", parts),
    ("cuts", cuts)):
    for count in sorted({min(count, 26) for count in counts} if kind == "parts" else counts):
        for n in sizes:
            script = ["AT 0 EVOLVE CREATE TABLE w (c INT);",
                "AT 1 EVOLVE CREATE TABLE t (a INT, b INT);"]
            script += [f"AT {2 + i} INSERT INTO t (a, b) VALUES ({i}, {i * 7919 % n});"
                for i in range(n)]
            script += [f"AT {n + 2 + i} EVOLVE {op};" for i, op in enumerate(make(count))]
            load, _ = play(script)
            first, _ = play(script + [question(2, "t")])
            newest = "u" if kind == "renames" and count % 4 in (1, 2) else "t"
            last, memory = play(script + [question(count + 2, newest)])
            print(f"{kind:>12} {count:>4} {n:>7} {load:>8.3f} {first - load:>9.3f} "
                  f"{last - load:>9.3f} {memory:>8}", flush=True)


# ---- the sample

EVOLVED = ["ADD COLUMN state AS 'new' INTO page INVERSE DROP COLUMN state FROM page",
    "PARTITION TABLE page INTO hot WITH kind = 0, cold INVERSE MERGE TABLE hot, cold INTO page",
    "RENAME COLUMN title IN hot TO name INVERSE RENAME COLUMN name IN hot TO title",
    "DECOMPOSE TABLE cold INTO cold_id (id, kind, state), cold_title (id, title) "
    "INVERSE JOIN TABLE cold_id, cold_title INTO cold WHERE TRUE"]
QUESTIONS = ["QUERY VERSION 1 SELECT id FROM page;",
    "QUERY VERSION 2 SELECT id, title FROM page WHERE kind = 1;",
    "QUERY VERSION 40 SELECT id, title FROM title_35;"]
FOREVER = 2 ** 63 - 1
ROUNDS = 3


def titles(j):
    return f"title_{j}" if j else "cold_title"


def sample(n):
    """The statements of the sample, and a CHECKPOINT."""
    yield "AT 1 EVOLVE CREATE TABLE page (id INT, title TEXT, kind INT);"
    for i in range(n):
        yield f"AT {10 + i} INSERT INTO page (id, title, kind) VALUES ({i}, 'p{i}', {i % 4});"
    for i, op in enumerate(EVOLVED):
        yield f"AT {10 + n + i} EVOLVE {op};"
    for i in range(0, n, 4):
        yield f"AT {14 + n + i} UPDATE hot SET state = 'old' WHERE id = {i};"
    for j in range(35):
        yield (f"AT {14 + 2 * n + j} EVOLVE RENAME TABLE {titles(j)} INTO {titles(j + 1)} "
            f"INVERSE RENAME TABLE {titles(j + 1)} INTO {titles(j)};")
    yield "CHECKPOINT;"


def tables(n):
    """The same in SQL: each row of a lifeline with its period. A renaming copies nothing."""
    at = 10 + n
    yield "PRAGMA journal_mode = OFF; PRAGMA synchronous = OFF; BEGIN;"
    for name, columns in (("page_1", "id INT, title TEXT, kind INT"),
        ("page_2", "id INT, title TEXT, kind INT, state TEXT"),
        ("hot_3", "id INT, title TEXT, kind INT, state TEXT"),
        ("cold_3", "id INT, title TEXT, kind INT, state TEXT"),
        ("hot_4", "id INT, name TEXT, kind INT, state TEXT"),
        ("cold_id", "id INT, kind INT, state TEXT"), ("cold_title", "id INT, title TEXT")):
        yield f"CREATE TABLE {name} ({columns}, begins INT, ends INT);"
    for i in range(n):
        row = f"{i}, 'p{i}', {i % 4}"
        yield f"INSERT INTO page_1 VALUES ({row}, {10 + i}, {at});"
        yield f"INSERT INTO page_2 VALUES ({row}, 'new', {at}, {at + 1});"
        if i % 4 == 0:
            yield f"INSERT INTO hot_3 VALUES ({row}, 'new', {at + 1}, {at + 2});"
            yield f"INSERT INTO hot_4 VALUES ({row}, 'new', {at + 2}, {at + 4 + i});"
            yield f"INSERT INTO hot_4 VALUES ({row}, 'old', {at + 4 + i}, {FOREVER});"
        else:
            yield f"INSERT INTO cold_3 VALUES ({row}, 'new', {at + 1}, {at + 3});"
            yield f"INSERT INTO cold_id VALUES ({i}, {i % 4}, 'new', {at + 3}, {FOREVER});"
            yield f"INSERT INTO cold_title VALUES ({i}, 'p{i}', {at + 3}, {FOREVER});"
    both = ("SELECT i.id, title, kind, state, max(i.begins, t.begins) AS begins, "
        "min(i.ends, t.ends) AS ends FROM cold_id i JOIN cold_title t ON i.id = t.id "
        "WHERE i.begins < t.ends AND t.begins < i.ends")
    old = " UNION ALL ".join(f"SELECT id, title, kind{{0}}, begins, ends FROM {name}"
        for name in ("page_2", "hot_3", "cold_3", f"({both})"))
    hot = " UNION ALL SELECT id, name, kind{0}, begins, ends FROM hot_4"
    yield ("CREATE VIEW page_of_1 AS SELECT id, title, kind, begins, ends FROM page_1 UNION ALL "
        + (old + hot).format("") + ";")
    yield ("CREATE VIEW page_of_2 AS SELECT id, title, kind, 'new' AS state, begins, ends "
        "FROM page_1 UNION ALL " + (old + hot).format(", state") + ";")
    yield ("CREATE VIEW title_of_40 AS SELECT id, title, begins, ends FROM cold_title UNION ALL "
        "SELECT id, title, begins, ends FROM cold_3 UNION ALL SELECT id, title, begins, ends "
        "FROM page_2 WHERE kind <> 0 UNION ALL SELECT id, title, begins, ends FROM page_1 "
        "WHERE kind <> 0;")
    yield "COMMIT;"


def longest(columns, view):
    """A question whose rows have their longest periods."""
    return (f"WITH o AS (SELECT {columns}, begins, ends, max(ends) OVER (PARTITION BY {columns} "
        f"ORDER BY begins ROWS BETWEEN UNBOUNDED PRECEDING AND 1 PRECEDING) AS before "
        f"FROM {view}), g AS (SELECT *, sum(before IS NULL OR before < begins) OVER "
        f"(PARTITION BY {columns} ORDER BY begins) AS run FROM o) "
        f"SELECT {columns}, min(begins), max(ends) FROM g GROUP BY {columns}, run;")


PLAIN = [longest("id", "page_of_1"), longest("id, title", "page_of_2 WHERE kind = 1"),
    longest("id, title", "title_of_40")]


def asked(words, folder, script):
    """The least seconds of a run over what the folder has, and the lines that it writes."""
    seconds, lines = [], 0
    for _ in range(ROUNDS):
        begun = time.perf_counter()
        done = subprocess.run(words, input=script.encode(), stdout=subprocess.PIPE, cwd=folder)
        seconds.append(time.perf_counter() - begun)
        assert done.returncode == 0, (words, done.stdout[-80:])
        lines = done.stdout.count(b"\n")
    return min(seconds), lines


print()
print(f"{'sample':>12} {'':>8} {'version 1':>10} {'version 2':>10} {'version 40':>10}")
in_memory = "/dev/shm" if os.path.isdir("/dev/shm") else None
peer = shutil.which("sqlite3")
for n in samples:
    with tempfile.TemporaryDirectory(dir=in_memory) as folder:
        run = [program[1], "run"]
        subprocess.run(run, input="\n".join(sample(n)).encode(), stdout=subprocess.DEVNULL,
            cwd=folder, check=True)
        rest, _ = asked(run, folder, "SHOW VERSIONS;")
        own = [asked(run, folder, question) for question in QUESTIONS]
        print(f"{n:>12} {'prima':>8} " + " ".join(f"{s - rest:>10.3f}" for s, _ in own), flush=True)
        if peer:
            words = [peer, "peer.db"]
            subprocess.run(words, input="\n".join(tables(n)).encode(), stdout=subprocess.DEVNULL,
                cwd=folder, check=True)
            rest, _ = asked(words, folder, "SELECT 1;")
            plain = [asked(words, folder, question) for question in PLAIN]
            # a line for each row, and one more of prima's own at the end
            assert [lines - 1 for _, lines in own] == [lines for _, lines in plain], (own, plain)
            print(f"{n:>12} {'sqlite3':>8} " + " ".join(f"{s - rest:>10.3f}" for s, _ in plain),
                flush=True)
PYTHON
