#!/usr/bin/env bash
# Stops the program anywhere: a run of a random script is recorded by strace, and for each moment of
# it, that is after each write and each sync of the file, files are made that a crash there may
# leave: since the last sync the bytes of a written range, and those past the length at that sync,
# may be old, new, zero or random, and the file may have any length between. Each is opened by the
# program and asked: what was acknowledged up to that moment may not be missing, and at most one
# command more may be there. The program's answers are compared with those over the whole run's
# file cut after so many records. N scripts (20 unless told otherwise), FILES files a moment (50);
# SEED is the third word. PROGRAM names another build. It needs strace.
set -eu
top=$(cd "$(dirname "$0")/.." && pwd)
if [ -z "${PROGRAM:-}" ]; then
    PROGRAM=$top/crates/prima/out/prima
    # builds what is missing; no words, no archive
    "$top/prima" </dev/null >/dev/null || [ $? -eq 2 ]
fi
exec python3 - "$PROGRAM" "${1:-20}" "${2:-50}" "${3:-$RANDOM}" <<'PYTHON'
import concurrent.futures, os, random, re, subprocess, sys, tempfile, time

program, scripts, files, seed = os.path.realpath(sys.argv[1]), *map(int, sys.argv[2:5])
memory = "/dev/shm" if os.path.isdir("/dev/shm") else None
QUESTIONS = b"SHOW VERSIONS; SHOW SIZES; QUERY VERSION 1 SELECT a, b FROM t;"


def random_script(chance):
    """A table, changes of it, renaming it back and forth, and what is refused."""
    lines, stamp, table = ["AT 1 EVOLVE CREATE TABLE t (a INT, b TEXT);"], 1, "t"
    for _ in range(chance.randint(3, 8)):
        stamp += chance.randint(1, 9)
        number, text = chance.randint(0, 4), "x" * chance.choice((0, 1, 5, 60, 700))
        kind = chance.randrange(8)
        if kind < 3:
            lines.append(f"AT {stamp} INSERT INTO {table} (a, b) VALUES ({number}, '{text}');")
        elif kind == 3:
            lines.append(f"AT {stamp} UPDATE {table} SET b = '{text}' WHERE a < {number};")
        elif kind == 4:
            lines.append(f"AT {stamp} DELETE FROM {table} WHERE a = {number};")
        elif kind == 5:
            other = "u" if table == "t" else "t"
            lines.append(f"AT {stamp} EVOLVE RENAME TABLE {table} INTO {other}"
                f" INVERSE RENAME TABLE {other} INTO {table};")
            table = other
        elif kind == 6:
            lines.append("CHECKPOINT;")
        else:
            lines.append(f"AT {stamp} DELETE FROM nowhere;")
    return "\n".join(lines).encode() + b"\n"


def text_of(quoted):
    """The bytes that strace -xx shows."""
    return bytes.fromhex(quoted.replace("\\x", ""))


def recorded(script):
    """What each call of a run did: a write of the file, a sync of it, or replies."""
    with tempfile.TemporaryDirectory(dir=memory) as folder:
        calls = os.path.join(folder, "calls")
        subprocess.run(["strace", "-xx", "-s", "1000000", "-e",
            "trace=pwrite64,fdatasync,write", "-o", calls, program, "run"], cwd=folder,
            input=script, stdout=subprocess.DEVNULL, check=False)
        steps = []
        with open(calls) as lines:
            for line in lines:
                if found := re.match(r'pwrite64\(\d+, "(.*)", \d+, (\d+)\)\s+= (\d+)', line):
                    steps.append(("write", int(found[2]), text_of(found[1])[:int(found[3])]))
                elif re.match(r"fdatasync\(\d+\)\s+= 0", line):
                    steps.append(("sync",))
                elif found := re.match(r'write\(1, "(.*)", \d+\)\s+= (\d+)', line):
                    steps.append(("reply", text_of(found[1])[:int(found[2])]))
        with open(os.path.join(folder, "archive.prima"), "rb") as file:
            return steps, file.read()


def moments(steps):
    """After each write and sync: what a read gives, what the last sync left, the places written
    since, and how many commands were acknowledged before the next call of the file."""
    seen, synced, written, replies, found = bytearray(), b"", set(), b"", []
    for step in steps:
        if step[0] == "write":
            end = step[1] + len(step[2])
            seen.extend(bytes(max(0, end - len(seen))))
            seen[step[1]:end] = step[2]
            written.update(range(step[1], end))
        elif step[0] == "sync":
            synced, written = bytes(seen), set()
        else:
            replies += step[1]
            if found:
                found[-1][3] = acknowledged(replies)
            continue
        found.append([bytes(seen), synced, sorted(written), acknowledged(replies)])
    assert bytes(seen), "strace showed no write of the file"
    return found


def acknowledged(replies):
    return len(re.findall(rb"^ok [0-9].*\n", replies, re.M))


def crash(chance, seen, synced, written):
    """A file that a crash may leave."""
    length = chance.choice((len(synced), len(seen), chance.randint(len(synced), len(seen))))
    image = bytearray(synced) + bytes(length - len(synced))
    kinds = chance.choice(("old", "new", "zero", "random", "any", "prefix"))
    cut = chance.randint(0, len(seen))
    for at in written:
        if at >= length:
            break
        kind = chance.choice(("old", "new", "zero", "random")) if kinds == "any" else kinds
        if kind == "new" or kind == "prefix" and at < cut:
            image[at] = seen[at]
        elif kind == "zero":
            image[at] = 0
        elif kind == "random":
            image[at] = chance.randrange(256)
    return bytes(image)


def answers(file):
    """The program's status and answers over a file."""
    with tempfile.TemporaryDirectory(dir=memory) as folder:
        with open(os.path.join(folder, "archive.prima"), "wb") as archive:
            archive.write(file)
        done = subprocess.run([program, "run"], cwd=folder, input=QUESTIONS,
            stdout=subprocess.PIPE, check=False)
        return done.returncode, done.stdout


def prefixes(file):
    """The answers after no command, after the first one, and so on: the gate after it is shut."""
    at, cut = 8, [file[:8] + b"\0"]
    while file[at] == 1:
        kind, at = file[at + 1], at + 10 + int.from_bytes(file[at + 2:at + 10], "big")
        if kind == 1:
            cut.append(file[:at] + b"\0")
    return [answers(part) for part in cut]


start, chance, images, wrong = time.time(), random.Random(seed), 0, 0
with concurrent.futures.ThreadPoolExecutor(os.cpu_count()) as pool:
    for _ in range(scripts):
        script = random_script(chance)
        steps, whole = recorded(script)
        right = prefixes(whole)
        tried = []
        for seen, synced, written, count in moments(steps):
            for _ in range(files):
                tried.append((crash(chance, seen, synced, written), count))
        for (image, count), got in zip(tried, pool.map(lambda it: answers(it[0]), tried)):
            images += 1
            if got not in right[count:count + 2]:
                wrong += 1
                print(f"crash: seed {seed}: after {count} acknowledged {got} over {image.hex()}")
                print(script.decode())
print(f"crash: {images} images of {scripts} scripts, {wrong} wrong, seed {seed},"
    f" {time.time() - start:.0f} s")
sys.exit(1 if wrong else 0)
PYTHON
