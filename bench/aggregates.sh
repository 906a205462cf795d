#!/usr/bin/env bash
# Times aggregates over time and related pairs: a program that makes n entries and calls `aggregate`
# or `next_pair` over them, for each n (10,000, 100,000 and 1,000,000 unless told otherwise,
# ascending). Prints the processor's seconds of each kind, how many times those of the size before
# it they are, and beside them, where they are there, the seconds of SQLite (by Python) and of
# PostgreSQL (by psql with the settings of its environment) for the same: window functions over the
# starts and ends of the intervals, with equal neighbours joined. Then the seconds in which a
# hundred million pairs of entries are looked at. What is timed:
#   count         COUNT of all, where all entries overlap: each start and each end is a change
#   least, sum    MIN and SUM of them, likewise
#   groups        COUNT in groups of ten entries
#   steps         COUNT of all, where each entry begins as the one before it ends
# The program is made here, in a folder of its own, over copies of the crates that it stands on.
# PROGRAM names one that was made before. Ends with 1 where COUNT of 100,000 entries that all
# overlap takes more than 0.3 s, or ten times the entries more than 14 times as long.
set -eu
top=$(cd "$(dirname "$0")/.." && pwd)
[ $# -gt 0 ] || set -- 10000 100000 1000000
scratch=$(mktemp -d)
trap 'rm -rf "$scratch"' EXIT
if [ -z "${PROGRAM:-}" ]; then
    "$top/bench/libraries" "$scratch" cases_aggregates
    rm -r "$scratch/crates/cases_aggregates"
    sed -i 's/^cases_aggregates:/aggregates_timed:/' "$scratch/crates.txt"
    mkdir -p "$scratch/crates/aggregates_timed/src"
    cp "$top/bench/aggregates-timed/stdin" "$top/bench/aggregates-timed/stdout" \
        "$scratch/crates/aggregates_timed"
    for part in "$top"/bench/aggregates-timed/*.txt; do
        cp "$part" "$scratch/crates/aggregates_timed/src/$(basename "$part" .txt).rt"
    done
    (cd "$scratch/crates/aggregates_timed" && rt run) >"$scratch/log" 2>&1 || {
        tail -n 20 "$scratch/log"
        exit 1
    }
    PROGRAM=$scratch/crates/aggregates_timed/out/aggregates_timed
fi
python3 - "$(realpath "$PROGRAM")" "$@" <<'PYTHON'
import resource, shutil, sqlite3, subprocess, sys, time

program, sizes = sys.argv[1], [int(word) for word in sys.argv[2:]]
KINDS = ["count", "least", "sum", "groups", "steps"]
RUNS = 3


def seconds_of(kind, n):
    """The processor's seconds that the call adds to the making of the entries, and how many are
    listed."""
    taken = []
    for turns in (0, 1):
        least = None
        for _ in range(RUNS):
            before = resource.getrusage(resource.RUSAGE_CHILDREN)
            run = subprocess.run([program], input=f"{kind} {n} {turns}".encode(),
                stdout=subprocess.PIPE)
            after = resource.getrusage(resource.RUSAGE_CHILDREN)
            assert run.returncode == 0, "the program failed"
            spent = after.ru_utime + after.ru_stime - before.ru_utime - before.ru_stime
            least = spent if least is None else min(least, spent)
        taken.append(least)
    return max(taken[1] - taken[0], 0.0), int(run.stdout)


def entries(kind, n):
    """The same entries as the program makes: group, value, start and end."""
    if kind == "steps":
        return [(0, i, i, i + 1) for i in range(n)]
    size = 10 if kind == "groups" else n
    return [(i // size if kind == "groups" else 0, i, i % size, size + i % size)
        for i in range(n)]


LISTED = """WITH turns(g, m, d, k) AS (
  SELECT g, s, {weight}, 1 FROM entries UNION ALL SELECT g, e, -{weight}, -1 FROM entries),
steps(g, m, d, k) AS (SELECT g, m, sum(d), sum(k) FROM turns GROUP BY g, m),
held(g, m, e, c, n) AS (SELECT g, m, lead(m) OVER w, sum(d) OVER w, sum(k) OVER w FROM steps
  WINDOW w AS (PARTITION BY g ORDER BY m)),
marked(g, m, e, c, new) AS (SELECT g, m, e, c,
  CASE WHEN c = lag(c) OVER w AND m = lag(e) OVER w THEN 0 ELSE 1 END FROM held
  WHERE n > 0 WINDOW w AS (PARTITION BY g ORDER BY m)),
runs(g, m, e, c, r) AS (SELECT g, m, e, c, sum(new) OVER (PARTITION BY g ORDER BY m)
  FROM marked)
SELECT count(*) FROM (SELECT g, r, min(m), max(e), min(c) FROM runs GROUP BY g, r) AS listed"""


def sql_of(kind):
    """None for MIN, which window functions do not give over intervals that end."""
    if kind == "least":
        return None
    return LISTED.format(weight="v" if kind == "sum" else "1")


def sqlite_seconds(kind, n):
    base = sqlite3.connect(":memory:")
    base.execute("CREATE TABLE entries (g INT, v INT, s INT, e INT)")
    base.executemany("INSERT INTO entries VALUES (?, ?, ?, ?)", entries(kind, n))
    begun = time.process_time()
    found = base.execute(sql_of(kind)).fetchone()[0]
    return time.process_time() - begun, found


def postgres_seconds(kind, n):
    """None where there is no server that answers."""
    script = "CREATE TEMP TABLE entries (g BIGINT, v BIGINT, s BIGINT, e BIGINT);\n"
    script += "COPY entries FROM STDIN;\n"
    script += "".join("\t".join(map(str, row)) + "\n" for row in entries(kind, n)) + "\\.\n"
    script += "ANALYZE entries;\n\\timing on\n" + sql_of(kind).replace("\n", " ") + ";\n"
    run = subprocess.run(["psql", "-X", "-q", "-A", "-t"], input=script.encode(),
        stdout=subprocess.PIPE, stderr=subprocess.PIPE)
    lines = run.stdout.decode().split("\n")
    times = [line for line in lines if line.startswith("Time:")]
    if run.returncode != 0 or not times:
        return None
    return float(times[0].split()[1]) / 1000, int(lines[0])


def seconds_told(found, wanted):
    if found is None:
        return "-"
    assert found[1] == wanted, f"{found[1]} entries are listed, and not {wanted}"
    return f"{found[0]:.3f}"


slow = False
print(f"{'':8}{'entries':>9}{'listed':>9}{'seconds':>9}{'ratio':>7}{'sqlite':>9}{'postgres':>9}")
for kind in KINDS:
    before = None
    for n in sizes:
        taken, listed = seconds_of(kind, n)
        others = ["-", "-"]
        if sql_of(kind):
            others[0] = seconds_told(sqlite_seconds(kind, n), listed)
            if shutil.which("psql"):
                others[1] = seconds_told(postgres_seconds(kind, n), listed)
        ratio = taken / before[1] if before and before[1] > 0 else None
        shown = f"{ratio:.1f}" if ratio else ""
        print(f"{kind:8}{n:9}{listed:9}{taken:9.3f}{shown:>7}{others[0]:>9}{others[1]:>9}")
        if ratio and before[1] > 0.01 and ratio > 1.4 * n / before[0]:
            slow = True
        if kind == "count" and n == 100_000 and taken > 0.3:
            slow = True
        before = (n, taken)
taken, listed = seconds_of("pairs", 10_000)
print(f"pairs: {taken:.3f} s for 100,000,000 pairs of entries, of which {listed} are related")
sys.exit(1 if slow else 0)
PYTHON
