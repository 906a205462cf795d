#!/usr/bin/env bash
# Kills the program while it commits, and looks at what it leaves: over a real file a script that
# never ends is fed to it, one insert after the other; at a random moment it is killed (SIGKILL, by
# its own id); then the file is read by a second reading of the format, the archive is opened again,
# and both are compared with the replies that had come. Nothing acknowledged may be lost, and at
# most one command more may be there. N rounds (200 unless told otherwise) over files that are used
# ten times each; SEED is the second word. This tries a process that stops, and not a machine: what
# the system holds and has not synced is not lost with a process. FOLDER names the folder on whose
# disk the files are made (the present one unless told otherwise). PROGRAM names another build.
set -eu
top=$(cd "$(dirname "$0")/.." && pwd)
if [ -z "${PROGRAM:-}" ]; then
    PROGRAM=$top/crates/prima/out/prima
    # builds what is missing; no words, no archive
    "$top/prima" </dev/null >/dev/null || [ $? -eq 2 ]
fi
exec python3 - "$PROGRAM" "${1:-200}" "${2:-$RANDOM}" <<'PYTHON'
import os, random, signal, subprocess, sys, tempfile, threading, time

program, rounds, seed = os.path.realpath(sys.argv[1]), int(sys.argv[2]), int(sys.argv[3])
on_disk = os.environ.get("FOLDER", ".")
chance = random.Random(seed)
FILE_USED = 10


def records_of(path):
    """How many records the journal has; fails where the file is damaged."""
    with open(path, "rb") as file:
        data = file.read()
    if len(data) <= 9:
        return 0
    assert data[:8] == b"PRIMA001", data[:9]
    at, count = 8, 0
    while data[at] == 1:
        length = int.from_bytes(data[at + 2:at + 10], "big")
        assert data[at + 1] == 1 and at + 10 + length < len(data), f"damaged after {at}"
        at, count = at + 10 + length, count + 1
    return count


def feed(pipe, first):
    """One insert after the other, until nobody reads them."""
    try:
        for i in range(first, 1 << 40):
            pipe.write(b"AT %d INSERT INTO t (a) VALUES (%d);\n" % (i + 2, i))
    except (BrokenPipeError, ValueError):
        pass


def killed(folder, first):
    """How many commits were acknowledged, in a run over the archive there that is killed."""
    child = subprocess.Popen([program, "run"], cwd=folder, stdin=subprocess.PIPE,
        stdout=subprocess.PIPE)
    feeder = threading.Thread(target=feed, args=(child.stdin, first), daemon=True)
    said = bytearray()
    reader = threading.Thread(target=lambda: said.extend(child.stdout.read()), daemon=True)
    reader.start()
    feeder.start()
    time.sleep(chance.choice((0.002, 0.02, 0.2)) * chance.random())
    child.send_signal(signal.SIGKILL)
    child.wait()
    reader.join()
    feeder.join(10)
    lines = said.split(b"\n")[:-1]  # what stands after the last LF was not acknowledged
    assert lines == [b"ok %d +1 -0" % (first + 2 + i) for i in range(len(lines))], lines[-3:]
    return len(lines)


def rows(folder):
    """The rows that the archive has when it is opened again."""
    ran = subprocess.run([program, "run"], cwd=folder, input=b"QUERY VERSION 1 SELECT a FROM t;",
        stdout=subprocess.PIPE)
    assert ran.returncode == 0, (ran.returncode, ran.stdout[-80:])
    lines = ran.stdout.split(b"\n")[:-2]
    return [tuple(map(int, (line.split()[1], line.split()[3]))) for line in lines]


acknowledged = more = files = most = 0
for turn in range(rounds):
    if turn % FILE_USED == 0:
        if files:
            folder.cleanup()
        folder = tempfile.TemporaryDirectory(dir=on_disk)
        begun = subprocess.run([program, "run"], cwd=folder.name,
            input=b"AT 1 EVOLVE CREATE TABLE t (a INT);", stdout=subprocess.PIPE)
        assert begun.stdout == b"ok 1 version 1\n", begun.stdout
        files, there = files + 1, 0
    count = killed(folder.name, there)
    records = records_of(os.path.join(folder.name, "archive.prima")) - 1
    found = rows(folder.name)
    assert found == [(i + 2, i) for i in range(len(found))], (
        f"turn {turn} of seed {seed}: other rows")
    assert len(found) == records, (
        f"turn {turn} of seed {seed}: {records} records and {len(found)} rows")
    assert there + count <= len(found) <= there + count + 1, (
        f"turn {turn} of seed {seed}: {there} + {count} acknowledged, {len(found)} there")
    acknowledged, more, most = acknowledged + count, more + len(found) - there - count, max(most,
        count)
    there = len(found)
folder.cleanup()
print(f"killed {rounds} times over {files} files (seed {seed}): {acknowledged} commands "
      f"acknowledged, at most {most} a run, none lost; {more} times one more was there")
PYTHON
