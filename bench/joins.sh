#!/usr/bin/env bash
# Times joins over time, over the built program: two tables of n rows each, and more beside them,
# for each n (1,000, 10,000 and 100,000 unless told otherwise). Prints for each question the
# seconds that it adds to the load, and below them the most KiB that the process had, with the
# load: an equality on a key; an equality that nothing meets; an equality on texts of 100 bytes;
# three tables; rows whose periods never overlap; KEEP over all entries; a few rows of a join;
# versions of one key beside a row that outlasts them (10,000 at most); the product of 3,000 rows
# with 3,000, and of 200 with 200 with 200, where no equality links them and the answer is one
# value; and a full listing, to compare with. Where an answer is short or as long as the tables,
# ten times the rows should take little more than ten times as long; the products should take
# little more memory than `few`, and texts little more than `key`, since joins and listings borrow
# them. PROGRAM names another build to be timed in place of this one.
set -eu
top=$(cd "$(dirname "$0")/.." && pwd)
if [ -z "${PROGRAM:-}" ]; then
    PROGRAM=$top/crates/prima/out/prima
    # builds what is missing; no words, no archive
    "$top/prima" </dev/null >/dev/null || [ $? -eq 2 ]
fi
[ $# -gt 0 ] || set -- 1000 10000 100000
exec python3 - "$top/examples/fresh" "$PROGRAM" "$@" <<'PYTHON'
import os, subprocess, sys, tempfile, time

program, sizes = sys.argv[1:3], [int(word) for word in sys.argv[3:]]


def play(statements):
    """The seconds of the run, and the most memory that it had, in KiB."""
    with tempfile.TemporaryFile() as script, tempfile.TemporaryFile() as replies:
        script.write("\n".join(statements).encode())
        script.seek(0)
        begun = time.perf_counter()
        run = subprocess.Popen([*program, "run"], stdin=script, stdout=replies)
        _, status, used = os.wait4(run.pid, 0)
        taken = time.perf_counter() - begun
        replies.seek(0)
        assert status == 0 and b"error" not in replies.read(), "a statement was refused"
    return taken, used.ru_maxrss


def insertions(table, columns, rows):
    names = ", ".join(columns)
    return [f"INSERT INTO {table} ({names}) VALUES ({', '.join(map(str, row))})" for row in rows]


TABLES = ["r (k INT, x INT)", "s (k INT, y INT)", "u (k INT, z INT)", "early (k INT)",
    "late (k INT)", "turns (k INT, x INT)"]
TABLES += ["words (w TEXT, x INT)", "names (w TEXT, y INT)"]


def text(key):
    """A text of 100 bytes, as SQL has it."""
    return "'" + f"{key} ".rjust(100, "x") + "'"


def loaded(n):
    """Tables of n rows, loaded by commands of 5,000 rows; those of `late` begin where those of
    `early` have ended. In `turns` one key has n versions (10,000 at most) that follow one another,
    beside a row that still goes on."""
    script = [f"AT {i} EVOLVE CREATE TABLE {t};" for i, t in enumerate(TABLES)]
    changes = insertions("r", "kx", ((i, i * 7919 % n) for i in range(n))) + insertions("s", "ky",
        ((i * 31 % n, n + i) for i in range(n)))
    changes += insertions("u", "kz", ((i * 17 % n, i) for i in range(n))) + insertions("early", "k",
        ((i,) for i in range(n)))
    changes += insertions("words", "wx", ((text(i), i) for i in range(n))) + insertions("names",
        "wy", ((text(i * 31 % n), i) for i in range(n)))
    at = 10
    for i in range(0, len(changes), 5000):
        script.append(f"AT {at} " + " THEN ".join(changes[i : i + 5000]) + ";")
        at += 1
    script.append(f"AT {at} DELETE FROM early;")
    changes = insertions("late", "k", ((i,) for i in range(n)))
    for i in range(0, len(changes), 5000):
        at += 1
        script.append(f"AT {at} " + " THEN ".join(changes[i : i + 5000]) + ";")
    script.append(f"AT {at + 1} INSERT INTO turns (k, x) VALUES (1, 0) "
                  "THEN INSERT INTO turns (k, x) VALUES (1, 1);")
    script += [f"AT {at + i} UPDATE turns SET x = {i} WHERE x = {i - 1};"
        for i in range(2, min(n, 10000))]
    return script


QUESTIONS = [
    ("listing", "SELECT k, x FROM r"),
    ("key", "SELECT r.x, s.y FROM r, s WHERE r.k = s.k"),
    ("nothing", "SELECT r.x FROM r, s WHERE r.k = s.y"),
    ("texts", "SELECT words.w, names.y FROM words, names WHERE words.w = names.w"),
    ("three", "SELECT r.x, s.y, u.z FROM r, s, u WHERE r.k = s.k AND s.k = u.k"),
    ("apart", "SELECT a.k FROM early a, late b WHERE a.k = b.k"),
    ("kept", "SELECT r.x, s.y FROM r, s WHERE r.k = s.k KEEP LASTING 1 TO now"),
    ("few", "SELECT r.x, s.y FROM r, s WHERE r.k = s.k AND r.x < 10"),
    ("turns", "SELECT a.x, b.x FROM turns a, turns b WHERE a.k = b.k"),
    ("pairs", "SELECT 1 FROM r, s WHERE r.x < 3000 AND s.k < 3000"),
    ("triples", "SELECT 1 FROM r, s, u WHERE r.x < 200 AND s.k < 200 AND u.z < 200"),
]
print(f"{'rows':>8} {'load':>8} " + " ".join(f"{name:>8}" for name, _ in QUESTIONS))
for n in sizes:
    script = loaded(n)
    alone, loaded_in = play(script)
    taken = [play(script + [f"QUERY VERSION {len(TABLES)} {question};"])
        for _, question in QUESTIONS]
    print(f"{n:>8} {alone:>8.3f} " + " ".join(f"{seconds - alone:>8.3f}" for seconds, _ in taken))
    print(f"{'KiB':>8} {loaded_in:>8} " + " ".join(f"{memory:>8}" for _, memory in taken),
        flush=True)
PYTHON
