#!/usr/bin/env bash
# Tells what a sample's history takes in memory once its archive is open: for each size (1,000 and
# 2,000 rows unless told otherwise) the keys and cells that are stored, by SHOW SIZES, and the
# memory of a process that has opened the archive and waits, beside one with an archive of no
# command, in KiB; then what each row and each cell more of the greatest size take beside those of
# the least, in bytes. The archives end with a CHECKPOINT, so that an opening makes the stored
# tables from an image; what the opening took for a while is given back by then, but for small
# blocks. It prints what it measures, and ends with 1 only where a reply is wrong. Files stand in
# memory where the machine has a folder there. PROGRAM names another build to be measured in place
# of this one.
set -eu
top=$(cd "$(dirname "$0")/.." && pwd)
if [ -z "${PROGRAM:-}" ]; then
    PROGRAM=$top/crates/prima/out/prima
    # builds what is missing; no words, no archive
    "$top/prima" </dev/null >/dev/null || [ $? -eq 2 ]
fi
[ $# -gt 0 ] || set -- 1000 2000
exec python3 - "$PROGRAM" "$@" <<'PYTHON'
import os, subprocess, sys, tempfile

program, sizes = os.path.realpath(sys.argv[1]), sorted(int(n) for n in sys.argv[2:])
in_memory = "/dev/shm" if os.path.isdir("/dev/shm") else None
ROUNDS = 5


def run(words, folder, script=b""):
    """What a process said, line by line."""
    done = subprocess.run([program, *words], input=script, stdout=subprocess.PIPE, cwd=folder)
    assert done.returncode == 0, (words, done.returncode, done.stdout[-80:])
    return done.stdout.decode().splitlines()


def opened(folder):
    """The KiB of a process that has opened the archive, and the lines of SHOW SIZES."""
    settings = dict(os.environ, MALLOC_MMAP_THRESHOLD_="65536", MALLOC_TRIM_THRESHOLD_="0")
    child = subprocess.Popen([program, "run"], stdin=subprocess.PIPE, stdout=subprocess.PIPE,
        cwd=folder, env=settings)
    child.stdin.write(b"SHOW SIZES;\n")
    child.stdin.flush()
    lines = []
    while not lines or lines[-1][0] != "end":
        lines.append(child.stdout.readline().decode().split())
    with open(f"/proc/{child.pid}/status") as it:
        memory = next(int(line.split()[1]) for line in it if line.startswith("VmRSS:"))
    child.stdin.close()
    assert child.wait() == 0, "the process failed"
    return memory, lines


def least(folder):
    return min((opened(folder) for _ in range(ROUNDS)), key=lambda it: it[0])


with tempfile.TemporaryDirectory(dir=in_memory) as folder:
    bare, _ = least(folder)
taken = []
print(f"{'rows':>8} {'keys':>8} {'cells':>8} {'KiB':>8}")
for n in sizes:
    with tempfile.TemporaryDirectory(dir=in_memory) as folder:
        replies = run(["sample", "--size", str(n)], folder)
        assert replies[0] == f"sample {n}" and replies[2] == "errors 0", replies
        run(["run"], folder, b"CHECKPOINT;")
        memory, lines = least(folder)
        memory -= bare
        keys, cells = (sum(int(line[i]) for line in lines if line[0] == "size") for i in (4, 5))
        taken.append((n, keys, cells, memory))
        print(f"{n:>8} {keys:>8} {cells:>8} {memory:>8}", flush=True)
if len(taken) > 1:
    (n, keys, cells, less), (m, more_keys, more_cells, more) = taken[0], taken[-1]
    added = (more - less) * 1024
    print(f"each row more: {added / (m - n):.0f} bytes; each cell more:"
        f" {added / (more_cells - cells):.0f} bytes")
PYTHON
