#!/usr/bin/env bash
# Times what opening an archive takes, of n inserts and of an update of each fourth row, for each n
# (50,000 unless told otherwise), without a CHECKPOINT and with one after them all, beside a bare
# program in C that reads the bytes of the same file and sums them. A line has the bytes, the
# seconds of both, how many times as long as the bare program, the most memory in KiB, what the
# open archive keeps of it, and how many times the bytes of the file the difference is. Each time
# is the least of a few runs. An opening is a run without a statement; the first line has one over
# no archive, which is what the others have beside. Of the CHECKPOINT itself come the seconds after
# the opening, and the most memory that it took above what the open archive keeps, in times of its
# image. Then a file with twenty checkpoints of some 10 MB, beside the time of reading its bytes
# and of opening one with the last alone. It prints what it measures, and ends with 1 only where a
# reply is wrong. Files stand in memory where the machine has a folder there. PROGRAM names another
# build to be timed in place of this one.
set -eu
top=$(cd "$(dirname "$0")/.." && pwd)
if [ -z "${PROGRAM:-}" ]; then
    PROGRAM=$top/crates/prima/out/prima
    # builds what is missing; no words, no archive
    "$top/prima" </dev/null >/dev/null || [ $? -eq 2 ]
fi
[ $# -gt 0 ] || set -- 50000
scratch=$(mktemp -d)
trap 'rm -rf "$scratch"' EXIT
cat >"$scratch/bare.c" <<'C'
// Reads the bytes of the file archive.prima into one buffer, and prints their sum.
#include <fcntl.h>
#include <stdio.h>
#include <stdlib.h>
#include <sys/stat.h>
#include <unistd.h>

int main(void) {
    int file = open("archive.prima", O_RDONLY);
    struct stat about;
    if (file < 0 || fstat(file, &about) != 0) return 1;
    unsigned char *bytes = malloc(about.st_size + 1);
    if (bytes == NULL || read(file, bytes, about.st_size) != about.st_size) return 1;
    unsigned long sum = 0;
    for (off_t at = 0; at < about.st_size; at++) sum += bytes[at];
    printf("%lu\n", sum);
    return 0;
}
C
cc -O2 -o "$scratch/bare" "$scratch/bare.c"
exec python3 - "$PROGRAM" "$scratch/bare" "$@" <<'PYTHON'
import os, shutil, subprocess, sys, tempfile, time

program, bare = os.path.realpath(sys.argv[1]), sys.argv[2]
sizes = [int(word) for word in sys.argv[3:]]
in_memory = "/dev/shm" if os.path.isdir("/dev/shm") else None
ROUNDS = 5
CREATE = "AT 1 EVOLVE CREATE TABLE t (a INT, b TEXT);"
# so many rows of the table have an image of some 10 MB
TEN_MEGABYTES = 120000


def inserts(n):
    # Values that jump about, so that new rows do not all stand after the others.
    return [f"AT {2 + i} INSERT INTO t (a, b) VALUES ({i * 7919 % 1000003}, 'text {i % 97}');"
        for i in range(n)]


def updates(n):
    return [f"AT {2 + n + i} UPDATE t SET b = 'again' WHERE a = {4 * i * 7919 % 1000003};"
        for i in range(n // 4)]


def timed(words, folder, script):
    """The seconds of a process, and what it said."""
    with tempfile.TemporaryFile(dir=in_memory) as said:
        script.seek(0)
        begun = time.perf_counter()
        child = subprocess.Popen(words, stdin=script, stdout=said, cwd=folder)
        _, status, _ = os.wait4(child.pid, 0)
        taken = time.perf_counter() - begun
        said.seek(0)
        text = said.read()
    assert status == 0, (words, status, text[-80:])
    return taken, text


def run(folder, *statements):
    with tempfile.TemporaryFile(dir=in_memory) as script:
        script.write("\n".join(statements).encode())
        taken, text = timed([program, "run"], folder, script)
    return taken, text.decode().splitlines()


def memory_of(pid, name):
    with open(f"/proc/{pid}/status") as status:
        return next(int(line.split()[1]) for line in status if line.startswith(name))


def memory(folder, statement=None):
    """The most memory in KiB that a run had, of the opening or of one statement after it alone,
    and what the open archive keeps."""
    child = subprocess.Popen([program, "run"], stdin=subprocess.PIPE, stdout=subprocess.PIPE,
        cwd=folder)

    def answered(text, last):
        child.stdin.write(text)
        child.stdin.flush()
        while not (line := child.stdout.readline()).startswith(last):
            assert line, "a reply is missing"

    answered(b"SHOW VERSIONS;\n", b"end ")
    kept = memory_of(child.pid, "VmRSS")
    if statement:
        # from here on the most memory is counted anew
        with open(f"/proc/{child.pid}/clear_refs", "w") as counted:
            counted.write("5")
        answered(statement, b"ok ")
    most = memory_of(child.pid, "VmHWM")
    child.stdin.close()
    assert child.wait() == 0, "a run ended wrongly"
    return most, kept


def size_of(folder):
    return os.path.getsize(os.path.join(folder, "archive.prima"))


def opened_in(folder):
    return min(run(folder)[0] for _ in range(ROUNDS))


def read_in(folder):
    with open(os.devnull) as nothing:
        return min(timed([bare], folder, nothing)[0] for _ in range(ROUNDS))


def report(what, folder):
    """A line of what opening the archive of the folder takes; the seconds."""
    taken, theirs, size = opened_in(folder), read_in(folder), size_of(folder)
    most, kept = memory(folder)
    above = (most - kept) * 1024 / size
    print(f"{what:>24} {size:>10} {taken:>9.4f} {theirs:>9.4f} {taken / theirs:>7.2f} {most:>8} "
        f"{kept:>8} {above:>6.2f}", flush=True)
    return taken


def checkpoint(folder, opened):
    """Puts a CHECKPOINT, and says what that took."""
    before = size_of(folder)
    with tempfile.TemporaryDirectory(dir=in_memory) as copy:
        shutil.copy(os.path.join(folder, "archive.prima"), copy)
        most, kept = memory(copy, b"CHECKPOINT;\n")
    taken, replies = run(folder, "CHECKPOINT;")
    assert replies == ["ok checkpoint"], replies
    image = size_of(folder) - before - 11
    print(f"{'':>24} the checkpoint itself: {taken - opened:.4f} seconds after the opening; above "
        f"what is kept, {(most - kept) * 1024 / image:.2f} times its image of {image} bytes",
        flush=True)


print(f"{'archive':>24} {'bytes':>10} {'opened in':>9} {'read in':>9} {'times':>7} {'KiB':>8} "
    f"{'kept':>8} {'above':>6}")
with tempfile.TemporaryDirectory(dir=in_memory) as folder:
    run(folder)
    report("of no command", folder)
for n in sizes:
    with (tempfile.TemporaryDirectory(dir=in_memory) as plain,
            tempfile.TemporaryDirectory(dir=in_memory) as stored):
        replies = run(plain, CREATE, *inserts(n), *updates(n))[1]
        assert replies[1:] == [f"ok {2 + i} +1 -{int(i >= n)}" for i in range(n + n // 4)], (
            "a reply is wrong")
        shutil.copy(os.path.join(plain, "archive.prima"), stored)
        opened = report(f"{n + n // 4 + 1} commands", plain)
        checkpoint(stored, opened)
        report("and a checkpoint", stored)
        asked = "QUERY VERSION 1 SELECT a, b FROM t WHERE a = 0;"
        assert run(plain, asked)[1] == run(stored, asked)[1], "a query is answered otherwise"
with tempfile.TemporaryDirectory(dir=in_memory) as folder:
    run(folder, CREATE, *inserts(TEN_MEGABYTES), "CHECKPOINT;")
    last = report(f"{TEN_MEGABYTES + 1} and a checkpoint", folder)
    checkpoint(folder, last)
    replies = run(folder, *["CHECKPOINT;"] * 18)[1]
    assert replies == ["ok checkpoint"] * 18, replies
    all_of_them = report("and 19 more", folder)
    print(f"{'':>24} {all_of_them / (read_in(folder) + last):.2f} times as long as reading the "
        "bytes and opening with one", flush=True)
PYTHON
