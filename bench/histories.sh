#!/usr/bin/env bash
# Times a full listing of a table's history over the built program: n entries (100,000 and 200,000
# unless told otherwise), half of them of rows that were inserted and half of what an update made
# of each, with texts of 16 and of 1,024 bytes (or the numbers in WIDTHS). Prints the seconds of a
# listing, a tenth of what ten more of it add to a process that lists once, and those of a listing
# of the second column alone, which comes in another order than it is stored in; beside these what
# writing the bytes of the first takes a bare program in C, from a buffer and line by line with
# printf, without what reading them takes it; the most memory of opening in KiB; and the most
# memory that the listing takes beside the archive, in bytes an entry, in a process that has made
# the archive itself and given back what that took for a while: texts have no part in it, since a
# listing borrows them. It prints what it measures, and ends with 1 only where a reply is wrong.
# Files stand in memory where the machine has a folder there. PROGRAM names another build to be
# timed in place of this one.
set -eu
top=$(cd "$(dirname "$0")/.." && pwd)
if [ -z "${PROGRAM:-}" ]; then
    PROGRAM=$top/crates/prima/out/prima
    # builds what is missing; no words, no archive
    "$top/prima" </dev/null >/dev/null || [ $? -eq 2 ]
fi
[ $# -gt 0 ] || set -- 100000 200000
scratch=$(mktemp -d)
trap 'rm -rf "$scratch"' EXIT
cat >"$scratch/bare.c" <<'C'
// Reads the file that is named, and writes its lines: not at all, from one buffer, or each by
// itself with printf.
#include <stdio.h>
#include <stdlib.h>
#include <string.h>
#include <unistd.h>

int main(int count, char **words) {
    FILE *file = fopen(words[1], "rb");
    if (count < 3 || file == NULL) return 1;
    fseek(file, 0, SEEK_END);
    long size = ftell(file);
    rewind(file);
    char *bytes = malloc(size + 1);
    if (bytes == NULL || fread(bytes, 1, size, file) != (size_t)size) return 1;
    if (words[2][0] == 'n') return 0;
    if (words[2][0] == 'b') return write(1, bytes, size) != size;
    bytes[size] = 0;
    for (char *line = strtok(bytes, "\n"); line != NULL; line = strtok(NULL, "\n"))
        printf("%s\n", line);
    return 0;
}
C
cc -O2 -o "$scratch/bare" "$scratch/bare.c"
exec python3 - "$PROGRAM" "$scratch/bare" "${WIDTHS:-16 1024}" "$@" <<'PYTHON'
import os, subprocess, sys, tempfile, time

program, bare, widths, sizes = os.path.realpath(sys.argv[1]), sys.argv[2], *[[int(w) for w in ws]
    for ws in (sys.argv[3].split(), sys.argv[4:])]
in_memory = "/dev/shm" if os.path.isdir("/dev/shm") else None
ROUNDS, TOGETHER = 5, 200
QUERY = b"QUERY VERSION 1 SELECT a, b FROM t;"
OTHER = b"QUERY VERSION 1 SELECT b FROM t;"


def text(key, turn, width):
    return f"{turn} {key} ".ljust(width, "x")[:width]


def load(n, width):
    """A command for some rows at a time, so that the load is short."""
    yield "AT 1 EVOLVE CREATE TABLE t (a INT, b TEXT);"
    at = 1
    for turn in ("first", "again"):
        for low in range(0, n // 2, TOGETHER):
            at += 1
            keys = range(low, min(low + TOGETHER, n // 2))
            if turn == "first":
                parts = [f"INSERT INTO t (a, b) VALUES ({k}, '{text(k, turn, width)}')"
                    for k in keys]
            else:
                parts = [f"UPDATE t SET b = '{text(k, turn, width)}' WHERE a = {k}" for k in keys]
            yield f"AT {at} {' THEN '.join(parts)};"


def run(words, folder, script, replies):
    """The seconds of a process, and the most memory that it had, in KiB."""
    begun = time.perf_counter()
    child = subprocess.Popen(words, stdin=script, stdout=replies, cwd=folder)
    _, status, used = os.wait4(child.pid, 0)
    taken = time.perf_counter() - begun
    if status != 0:
        sys.exit(f"{words[0]} ended with {status}")
    return taken, used.ru_maxrss


def least(words, folder, script, replies):
    """The least seconds of a few runs, each over the same file, and the most memory of the last."""
    best, most = None, 0
    for _ in range(ROUNDS):
        script.seek(0)
        replies.seek(0)
        replies.truncate()
        taken, most = run(words, folder, script, replies)
        best = taken if best is None else min(best, taken)
    return best, most


def status(child, name):
    """A number of KiB that the system tells of a process."""
    with open(f"/proc/{child.pid}/status") as it:
        return next(int(line.split()[1]) for line in it if line.startswith(name + ":"))


def wait_for_lines(path, count):
    """Waits until so many lines have come."""
    while True:
        with open(path, "rb") as replies:
            if sum(part.count(b"\n") for part in iter(lambda: replies.read(1 << 20), b"")) >= count:
                return
        time.sleep(0.05)


def listing_memory(folder, commands, n):
    """The most KiB that the listing takes beside the archive that its process has made. Blocks of
    64 KiB and more that are given back, and what is free at the top of the heap, are no longer the
    process's, so what is more than before is the listing's, but for small blocks that it uses
    again."""
    place = os.path.join(folder, "once")
    os.mkdir(place)
    settings = dict(os.environ, MALLOC_MMAP_THRESHOLD_="65536", MALLOC_TRIM_THRESHOLD_="0")
    listed = os.path.join(folder, "listed")
    with open(listed, "wb") as replies:
        child = subprocess.Popen([program, "run"], stdin=subprocess.PIPE, stdout=replies, cwd=place,
            env=settings)
        child.stdin.write("\n".join(commands).encode() + b"\n")
        child.stdin.flush()
        wait_for_lines(listed, len(commands))
        before = status(child, "VmRSS")
        with open(f"/proc/{child.pid}/clear_refs", "w") as it:
            it.write("5")  # the peak is counted anew from here on
        child.stdin.write(QUERY + b"\n")
        child.stdin.flush()
        wait_for_lines(listed, len(commands) + n + 1)
        most = status(child, "VmHWM")
        child.stdin.close()
        if child.wait() != 0:
            sys.exit("the run with the listing failed")
    return most - before


print(f"{'width':>6} {'entries':>8} {'reply':>11} {'listing':>8} {'of b':>8} {'write':>8} "
      f"{'printf':>8} {'open KiB':>9} {'list KiB':>9} {'B/entry':>8}")
for width in widths:
    for n in sizes:
        with tempfile.TemporaryDirectory(dir=in_memory) as folder:
            paths = [os.path.join(folder, name)
                for name in ("script", "nothing", "one", "many", "other", "others", "replies")]
            commands = list(load(n, width))
            with open(paths[0], "w") as it:
                it.writelines(line + "\n" for line in commands)
            open(paths[1], "w").close()
            asked = (QUERY, 11 * QUERY, OTHER, 11 * OTHER)
            for path, questions in zip(paths[2:6], asked):
                with open(path, "wb") as it:
                    it.write(questions)
            script, nothing, once, often, other, others = (open(path, "rb") for path in paths[:6])
            with open(paths[6], "w+b") as replies:
                run([program, "run"], folder, script, replies)
                replies.seek(0)
                if b"error" in replies.read():
                    sys.exit("a command was refused")
                _, open_most = least([program, "run"], folder, nothing, replies)
                times = [least([program, "run"], folder, questions, replies)[0]
                    for questions in (others, other, often, once)]
                of_one, listing = (times[0] - times[1]) / 10, (times[2] - times[3]) / 10
                replies.seek(0)
                said = replies.read()
            if not said.endswith(f"end {n}\n".encode()) or said.count(b"\n") != n + 1:
                sys.exit("the listing is not of all entries")
            with open(paths[0], "w+b") as out:
                read, block, lines = (least([bare, paths[6], how], folder, nothing, out)[0]
                    for how in ("nothing", "block", "lines"))
            taken = listing_memory(folder, commands, n)
        grown = taken * 1024 / n
        print(f"{width:>6} {n:>8} {len(said):>11} {listing:>8.3f} {of_one:>8.3f} "
              f"{block - read:>8.3f} {lines - read:>8.3f} {open_most:>9} {taken:>9} {grown:>8.1f}")
PYTHON
