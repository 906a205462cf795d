#!/usr/bin/env bash
# Lets each call of the program fail in turn: over six scripts and a sample the k-th allocation,
# read, write, write of the file and sync fails, comes short or is interrupted, k rising from 1
# until a run meets no such call (bench/faults.c does it, loaded by LD_PRELOAD). The status is that
# of the fault (7, 3, 4, 5), or the run goes on as if nothing had been; and then the file opens and
# holds all that was acknowledged, and at most one command more; with status 7 just what was
# acknowledged. Of a sample, which tells no command by itself, the file opens with the first ones of
# the whole run. Then over each file that is left, as it is and with a CHECKPOINT behind it, so that
# its commands are applied again or its image is read, the k-th allocation of a later run fails,
# which ends so too. PROGRAM names another build. It needs a C compiler.
set -eu
top=$(cd "$(dirname "$0")/.." && pwd)
if [ -z "${PROGRAM:-}" ]; then
    PROGRAM=$top/crates/prima/out/prima
    # builds what is missing; no words, no archive
    "$top/prima" </dev/null >/dev/null || [ $? -eq 2 ]
fi
work=$(mktemp -d)
trap 'rm -rf "$work"' EXIT
cc -O2 -shared -fPIC -o "$work/faults.so" "$top/bench/faults.c" -ldl
python3 - "$PROGRAM" "$work/faults.so" <<'PYTHON'
import os, re, subprocess, sys, tempfile, time

program, shim = os.path.realpath(sys.argv[1]), sys.argv[2]
memory = "/dev/shm" if os.path.isdir("/dev/shm") else None
QUESTIONS = b"SHOW VERSIONS; SHOW SIZES; QUERY VERSION 1 SELECT a FROM t;"
# what a later run does over a file
LATER = QUESTIONS + b"\nAT 1000000 EVOLVE CREATE TABLE later (a INT);\n" \
    b"AT 1000001 INSERT INTO later (a) VALUES (1);\nCHECKPOINT;\n" + QUESTIONS
TABLE = b"AT 1 EVOLVE CREATE TABLE t (a INT);\n"
SCRIPTS = [
    TABLE + b"AT 5 INSERT INTO t (a) VALUES (1);\nQUERY VERSION 1 SELECT a FROM t;\n",
    TABLE + b"AT 2 INSERT INTO t (a) VALUES (1) THEN INSERT INTO t (a) VALUES (2);\n"
        b"AT 3 UPDATE t SET a = 7 WHERE a = 1;\nAT 3 DELETE FROM t;\n"
        b"AT 4 DELETE FROM t WHERE a = 2;\nQUERY VERSION 1 SELECT a FROM t;\n",
    TABLE + b"AT 2 INSERT INTO t (a) VALUES (1);\nCHECKPOINT;\n"
        b"AT 3 EVOLVE RENAME TABLE t INTO u INVERSE RENAME TABLE u INTO t;\n"
        b"AT 4 INSERT INTO u (a) VALUES (2);\nQUERY VERSION 1 SELECT a FROM t;\n",
    TABLE + b"SHOW VERSIONS;\nEXPLAIN QUERY VERSION 1 SELECT a FROM t;\nnot a statement;\n"
        b"AT 9 INSERT INTO t (a) VALUES (9);\nSHOW SIZES;\n",
    b"AT 1 EVOLVE CREATE TABLE t (a INT, b TEXT);\nAT 5 INSERT INTO t (a, b) VALUES (1, 'x');\n"
        b"AT 7 UPDATE t SET b = 'y' WHERE a = 1;\n"
        b"AT 9 EVOLVE RENAME TABLE t INTO u INVERSE RENAME TABLE u INTO t;\n"
        b"QUERY VERSION 2 SELECT a FROM u;\nQUERY VERSION 1 SELECT b FROM t;\n",
    b"AT 1 EVOLVE CREATE TABLE t (a INT, name TEXT, city TEXT);\n"
        b"AT 2 INSERT INTO t (a, name, city) VALUES (1, 'Ann', 'Oslo');\n"
        b"AT 3 EVOLVE DECOMPOSE TABLE t INTO who (a, name), home (a, city)"
        b" INVERSE JOIN TABLE who, home INTO t WHERE TRUE;\n"
        b"AT 5 UPDATE home SET city = 'Bergen' WHERE a = 1;\n"
        b"QUERY VERSION 1 SELECT name, city FROM t;\n",
    None, # a sample
]
CALLS = [("malloc", "fail", 7), *((call, kind, status)
    for call, status in (("read", 3), ("write", 4), ("pwrite", 5), ("fdatasync", 5))
    for kind in ("fail", "short", "interrupt") if call != "fdatasync" or kind != "short")]


def run(folder, script, fault=None):
    words = ["run"] if script is not None else ["sample", "--size", "8"]
    env = dict(os.environ)
    if fault:
        env.update(LD_PRELOAD=shim, FAULT=fault, FAULT_MARK=os.path.join(folder, "mark"))
    done = subprocess.run([program, *words], cwd=folder, input=script or b"", env=env,
        stdout=subprocess.PIPE, check=False)
    return done.returncode, done.stdout


def begin(folder, file):
    """Puts a file into a folder, if there is one."""
    if file is not None:
        with open(os.path.join(folder, "archive.prima"), "wb") as archive:
            archive.write(file)


def after(file, script):
    """The status and the replies of a script over a file, and the file that it leaves."""
    with tempfile.TemporaryDirectory(dir=memory) as folder:
        begin(folder, file)
        whole = run(folder, script)
        with open(os.path.join(folder, "archive.prima"), "rb") as left:
            return whole, left.read()


def acknowledged(replies):
    return len(re.findall(rb"^ok [0-9].*\n", replies, re.M))


def prefixes(file):
    """The answers after no command, after the first one, and so on."""
    at, cut = 8, [file[:8] + b"\0"]
    while file[at] == 1:
        kind, at = file[at + 1], at + 10 + int.from_bytes(file[at + 2:at + 10], "big")
        if kind == 1:
            cut.append(file[:at] + b"\0")
    return [after(part, QUESTIONS)[0] for part in cut]


def each_fault(file, script, calls):
    """Lets each of these calls fail in turn in a run of a script over a file, or over none, and
    answers how many runs there were and how many of them are wrong."""
    runs, wrong = 0, 0
    whole, whole_file = after(file, script)
    right = prefixes(whole_file)
    begun = len(prefixes(file)) - 1 if file else 0
    for call, kind, status in calls:
        for number in range(1, 100000):
            with tempfile.TemporaryDirectory(dir=memory) as folder:
                begin(folder, file)
                got = run(folder, script, f"{call} {number} {kind}")
                met = os.path.exists(os.path.join(folder, "mark"))
                left = run(folder, QUESTIONS)
            if not met:
                break
            runs += 1
            stopped = got[0] == status and whole[1].startswith(got[1])
            count = begun + acknowledged(got[1])
            most = count + 1 if status == 7 else count + 2
            if script is None:
                count, most = 0, len(right)
            fine = left in right[count:most] if stopped else got == whole and left == right[-1]
            if not fine or (stopped and kind == "interrupt"):
                wrong += 1
                print(f"faults: {call} {number} {kind}: status {got[0]} and {got[1]}, then {left}")
                print(script.decode() if script else "sample --size 8",
                    f"over {len(file)} bytes" if file else "")
    return runs, wrong


start, found = time.time(), []
for script in SCRIPTS:
    found.append(each_fault(None, script, CALLS))
    file = after(None, script)[1]
    for again in (file, after(file, b"CHECKPOINT;")[1]):
        found.append(each_fault(again, LATER, CALLS[:1]))
runs, wrong = (sum(numbers) for numbers in zip(*found))
print(f"faults: {runs} runs, {wrong} wrong, {time.time() - start:.0f} s")
sys.exit(1 if wrong or not runs else 0)
PYTHON
