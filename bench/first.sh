#!/usr/bin/env bash
# Times a script of n inserts of distinct rows and one query, for each n (500, 2,000 and 8,000
# unless told otherwise, ascending), over the built program: seconds, and the peak memory of the
# largest run so far. A script of ten times the inserts may take little more than ten times as long.
set -eu
top=$(cd "$(dirname "$0")/.." && pwd)
"$top/prima" </dev/null >/dev/null || [ $? -eq 2 ] # builds what is missing; no words, no archive
[ $# -gt 0 ] || set -- 500 2000 8000
exec python3 - "$top/examples/fresh" "$top/crates/prima/out/prima" "$@" <<'PYTHON'
import resource, subprocess, sys, time

program, sizes = sys.argv[1:3], [int(word) for word in sys.argv[3:]]
print(f"{'rows':>8} {'bytes':>10} {'seconds':>9} {'peak KiB':>9}")
for n in sizes:
    # Values that jump about, so that new rows do not all stand after the others.
    inserts = [f"AT {2 + i} INSERT INTO t (a) VALUES ({i * 7919 % (8 * n) * 2 + i % 2});"
        for i in range(n)]
    script = "\n".join(["AT 1 EVOLVE CREATE TABLE t (a INT);", *inserts,
        "QUERY VERSION 1 SELECT a FROM t;"])
    begun = time.perf_counter()
    run = subprocess.run([*program, "run"], input=script.encode(), stdout=subprocess.PIPE)
    seconds = time.perf_counter() - begun
    assert run.returncode == 0 and run.stdout.endswith(b"end %d\n" % n), run.stdout[-80:]
    peak = resource.getrusage(resource.RUSAGE_CHILDREN).ru_maxrss
    print(f"{n:>8} {len(script):>10} {seconds:>9.3f} {peak:>9}")
PYTHON
