#!/usr/bin/env bash
# What versions cost that touch no table: a table of n rows (20,000 unless told otherwise) and ten
# questions on it, without NOPs and with N of them (400 unless told otherwise) between the rows and
# the questions, over the built program. Prints the processor's seconds and the most memory in KiB
# of either, the middle one of three runs, and how many times the second has of the first: a table
# is stored once over versions that leave it alone, and a question reads it once for all of them, so
# both are near 1. PROGRAM names another build to be timed in place of this one.
set -eu
top=$(cd "$(dirname "$0")/.." && pwd)
if [ -z "${PROGRAM:-}" ]; then
    PROGRAM=$top/crates/prima/out/prima
    # builds what is missing; no words, no archive
    "$top/prima" </dev/null >/dev/null || [ $? -eq 2 ]
fi
exec python3 - "$top/examples/fresh" "$PROGRAM" "${1:-20000}" "${2:-400}" <<'PYTHON'
import os, subprocess, sys, tempfile

program, rows, nops = sys.argv[1:3], int(sys.argv[3]), int(sys.argv[4])


def play(statements):
    """The processor's seconds of a run, and the most memory that it had, in KiB."""
    with tempfile.TemporaryFile() as script, tempfile.TemporaryFile() as replies:
        script.write("\n".join(statements).encode())
        script.seek(0)
        run = subprocess.Popen([*program, "run"], stdin=script, stdout=replies)
        _, status, usage = os.wait4(run.pid, 0)
        replies.seek(0)
        assert status == 0 and b"error" not in replies.read(), "a statement was refused"
        return usage.ru_utime + usage.ru_stime, usage.ru_maxrss


def middle(statements):
    runs = [play(statements) for _ in range(3)]
    return [sorted(column)[1] for column in zip(*runs)]


load = ["AT 1 EVOLVE CREATE TABLE t (a INT, b INT, c TEXT);"]
load += [f"AT {i + 2} INSERT INTO t (a, b, c) VALUES ({i}, {i % 10}, 'text {i % 97}');"
    for i in range(rows)]
versions = [f"AT {rows + 2 + i} EVOLVE NOP INVERSE NOP;" for i in range(nops)]


def questions(version):
    return [f"QUERY VERSION {version} SELECT a, c FROM t WHERE b = {k};" for k in range(10)]


without = middle(load + questions(1))
with_them = middle(load + versions + questions(nops + 1))
print(f"without: {without[0]:.3f} s, {without[1]} KiB")
print(f"with {nops}: {with_them[0]:.3f} s, {with_them[1]} KiB")
print(f"times: {with_them[0] / without[0]:.2f} and {with_them[1] / without[1]:.3f}")
PYTHON
