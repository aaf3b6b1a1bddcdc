#!/usr/bin/env bash
# Answers per second and greatest resident memory of `card_run demo` on two scripts of 20,000 lines: a SELECT with its
# control parameters and a READ BINARY in turn over the files of the sample card, and the mix of instructions.sh. The
# time of starting the program on an empty script is taken off, and the same lines read by Python's bytes.fromhex give a
# measure of the machine.
set -eu
top=$(cd "$(dirname "${BASH_SOURCE[0]}")/.." && pwd)
"$top/card_run" demo </dev/null
exec python3 - "$top/crates/card_run/out/card_run" <<'PYTHON'
import os, subprocess, sys, tempfile, time

program = sys.argv[1]
most = 0
files = ["2F05", "2FE2", "2F06", "2F00", "2F08"]
select_and_read = [command for file in files for command in ("00A4000402" + file + "00", "00B0000000")]
mix = [
    "00A40004022F0500", "002000010831323334FFFFFFFF", "00D60000026465", "00B0000002",
    "00A40004022F0600", "00B201042A", "00B202042A", "00A2010402900000",
]

def script_of(commands):
    script = tempfile.NamedTemporaryFile("w", suffix=".card", delete=False)
    script.write("".join(f"port 1: {commands[i % len(commands)]}\n" for i in range(20_000)))
    script.close()
    return script.name

def run(path):
    global most
    before = time.perf_counter()
    with open(path) as given, open(os.devnull, "w") as out:
        child = subprocess.Popen([program, "demo"], stdin=given, stdout=out)
        _, status, used = os.wait4(child.pid, 0)
    child.returncode = status
    assert status == 0, status
    most = max(most, used.ru_maxrss)
    return time.perf_counter() - before

def decode(script):
    before = time.perf_counter()
    with open(script) as given:
        total = sum(len(bytes.fromhex(line[8:])) for line in given)
    assert total > 0
    return time.perf_counter() - before

empty = min(run(os.devnull) for _ in range(20))
for name, commands in (("SELECT and READ BINARY", select_and_read), ("the mix", mix)):
    script = script_of(commands)
    taken = min(run(script) for _ in range(20))
    read = min(decode(script) for _ in range(20))
    os.unlink(script)
    net = max(taken - empty, 1e-6)
    print(f"{name}: {20_000 / net:,.0f} answers a second (start of the program taken off), {20_000 / taken:,.0f} with it;")
    print(f"  time against Python's reading of the same hex: {net / read:.2f}")
print(f"greatest resident memory: {most / 1024:.1f} MiB")
PYTHON
