#!/usr/bin/env bash
# Times commits of one row, for each n (2,000 and 20,000 unless told otherwise, ascending), over a
# real file, beside a bare loop in C that writes the same bytes at the same places with the same two
# syncs for each: seconds, microseconds for each, and how many times as long as the bare loop. Both
# take turns over a few rounds, of which the least counts. FOLDER names the folder on whose disk the
# files are made (the present one unless told otherwise): in memory, as /dev/shm, no disk is waited
# for, and the ratio says nothing. Ends with 1 where a run takes more than 1.25 times as long, or
# more than four calls of the disk a commit. Then, where strace is there: the calls of the disk for
# each commit. Then, over files in memory, what opening an archive of 20,000 and of 200,000 commands
# takes, and what a command of 5,000 inserts does, and how many commands come first (NUMBERS names
# others). PROGRAM names another build to be timed in place of this one.
set -eu
top=$(cd "$(dirname "$0")/.." && pwd)
if [ -z "${PROGRAM:-}" ]; then
    PROGRAM=$top/crates/prima/out/prima
    # builds what is missing; no words, no archive
    "$top/prima" </dev/null >/dev/null || [ $? -eq 2 ]
fi
[ $# -gt 0 ] || set -- 2000 20000
scratch=$(mktemp -d)
trap 'rm -rf "$scratch"' EXIT
cat >"$scratch/bare.c" <<'C'
// Writes the records of the journal that the first file holds into the second one: kind, length,
// payload and closed gate, a sync, the open gate, a sync. Prints the seconds that this takes.
#include <fcntl.h>
#include <stdio.h>
#include <stdlib.h>
#include <sys/stat.h>
#include <time.h>
#include <unistd.h>

static void put(int file, const unsigned char *bytes, size_t size, off_t at) {
    if (pwrite(file, bytes, size, at) != (ssize_t)size || fdatasync(file) != 0) {
        perror("bare");
        exit(1);
    }
}

int main(int count, char **words) {
    int from = open(words[1], O_RDONLY), to = open(words[2], O_RDWR | O_CREAT | O_TRUNC, 0666);
    struct stat about;
    if (count != 3 || from < 0 || to < 0 || fstat(from, &about) != 0) {
        perror("bare");
        return 1;
    }
    unsigned char *bytes = malloc(about.st_size), closed = 0;
    if (bytes == NULL || pread(from, bytes, about.st_size, 0) != about.st_size) {
        perror("bare");
        return 1;
    }
    struct timespec begun, ended;
    clock_gettime(CLOCK_MONOTONIC, &begun);
    pwrite(to, bytes, 8, 0);
    put(to, &closed, 1, 8);
    size_t at = 8;
    while (bytes[at] == 1) {
        size_t length = 0;
        for (int i = 2; i < 10; i++) length = length << 8 | bytes[at + i];
        unsigned char after = bytes[at + 10 + length];
        bytes[at + 10 + length] = 0;
        put(to, bytes + at + 1, length + 10, at + 1);
        put(to, bytes + at, 1, at);
        at += 10 + length;
        bytes[at] = after;
    }
    clock_gettime(CLOCK_MONOTONIC, &ended);
    printf("%.6f\n", ended.tv_sec - begun.tv_sec + (ended.tv_nsec - begun.tv_nsec) / 1e9);
    return 0;
}
C
cc -O2 -o "$scratch/bare" "$scratch/bare.c"
exec python3 - "$PROGRAM" "$scratch/bare" "$@" <<'PYTHON'
import os, shutil, subprocess, sys, tempfile, time

program, bare = os.path.realpath(sys.argv[1]), sys.argv[2]
sizes = [int(word) for word in sys.argv[3:]]
on_disk = os.environ.get("FOLDER", ".")
in_memory = "/dev/shm" if os.path.isdir("/dev/shm") else None
numbers = [int(word) for word in os.environ.get("NUMBERS", "20000 200000").split()]
TABLE = "AT 1 EVOLVE CREATE TABLE t (a INT, b TEXT);"


def inserts(first, n):
    # Values that jump about, so that new rows do not all stand after the others.
    return [
        f"AT {2 + i} INSERT INTO t (a, b) "
        f"VALUES ({i * 7919 % 1000003 * 2 + i % 2}, 'text {i % 97}');"
        for i in range(first, first + n)
    ]


def run(folder, statements, replies, before=()):
    """The seconds of a run there, and the most memory that it had, in KiB."""
    with (tempfile.TemporaryFile(dir=in_memory) as script,
            tempfile.TemporaryFile(dir=in_memory) as said):
        script.write("\n".join(statements).encode())
        script.seek(0)
        begun = time.perf_counter()
        child = subprocess.Popen([*before, program, "run"], stdin=script, stdout=said, cwd=folder)
        _, status, used = os.wait4(child.pid, 0)
        taken = time.perf_counter() - begun
        said.seek(0)
        text = said.read()
        assert status == 0 and text.count(b"\n") == replies, (status, text[-80:])
    return taken, used.ru_maxrss


too_much = []
print(f"{'commits':>8} {'seconds':>9} {'us each':>9} {'bare':>9} {'us each':>9} {'times':>6}")
for n in sizes:
    ours, theirs = [], []
    for _ in range(max(3, 6000 // n)):
        with tempfile.TemporaryDirectory(dir=on_disk) as folder:
            run(folder, [TABLE], 1)
            ours.append(run(folder, inserts(0, n), n)[0])
            bytes_of = os.path.join(folder, "archive.prima")
            theirs.append(float(subprocess.check_output(
                [bare, bytes_of, os.path.join(folder, "bare.bytes")])))
    a, b = min(ours), min(theirs)
    print(f"{n:>8} {a:>9.3f} {1e6 * a / n:>9.1f} {b:>9.3f} {1e6 * b / (n + 1):>9.1f} {a / b:>6.2f}",
        flush=True)
    if a > 1.25 * b:
        too_much.append(f"{n} commits took {a / b:.2f} times as long as the bare loop")

CALLS = ("pread64", "pwrite64", "fdatasync", "fsync", "fstat", "newfstatat", "statx", "lseek")
if shutil.which("strace"):

    def calls(n):
        """How often a run of n commits calls the disk, by call."""
        with tempfile.TemporaryDirectory(dir=in_memory) as folder:
            run(folder, [TABLE], 1)
            trace = os.path.join(folder, "trace")
            run(folder, inserts(0, n), n,
                ["strace", "-f", "-e", "trace=" + ",".join(CALLS), "-o", trace])
            with open(trace) as lines:
                names = [line.split(None, 1)[1].split("(")[0] for line in lines if "(" in line]
        return {name: names.count(name) for name in CALLS}

    few, many = calls(100), calls(300)
    each = {name: (many[name] - few[name]) / 200 for name in CALLS if many[name] != few[name]}
    print("calls of the disk for each commit:",
        ", ".join(f"{name} {count:g}" for name, count in each.items()),
        f"(sum {sum(each.values()):g})")
    if sum(each.values()) > 4:
        too_much.append(f"a commit calls the disk {sum(each.values()):g} times")

print(f"{'commands':>9} {'bytes':>10} {'opened in':>10} {'KiB':>8}")
for n in numbers:
    with tempfile.TemporaryDirectory(dir=in_memory) as folder:
        run(folder, [TABLE, *inserts(0, n - 1)], n)
        taken, memory = min(run(folder, [], 0) for _ in range(3))
        size = os.path.getsize(os.path.join(folder, "archive.prima"))
        print(f"{n:>9} {size:>10} {taken:>10.3f} {memory:>8}", flush=True)
        many = 5000
        one = f"AT {n + 2} " + " THEN ".join(
            f"INSERT INTO t (a, b) VALUES ({3000000 + i * 7919 % 100003}, 'text {i % 97}')"
            for i in range(many)) + ";"
        opened = run(folder, [], 0)[0]
        taken = run(folder, [one], 1)[0] - opened
        print(f"{'':>9} a command of {many} inserts there: {taken:.3f} seconds, "
              f"{many / taken:,.0f} rows a second", flush=True)
if too_much:
    sys.exit("; ".join(too_much))
PYTHON
