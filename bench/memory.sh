#!/usr/bin/env bash
# Measures the resident bytes of an item: 100,000 items with keys of 9 bytes and values of 100, without and with expiry, in
# `trustmc run --turns` and in memcached, and what trustmc takes with no item at all:
#     bench/memory.sh [items] [another trustmc to compare with..]
# Bytes an item are the greatest resident size with the items, less that with none. It needs memcached, python3,
# time and the program that `rt ci` leaves, and is no part of the gate.
set -e
items=${1:-100000}
shift || true
top=$(cd "$(dirname "$0")/.." && pwd)
exec python3 - "$items" "$top/crates/trustmc/out/trustmc" "$@" <<'END'
import socket, subprocess, sys, time

items, programs = int(sys.argv[1]), sys.argv[2:]


def stream(exptime, count):
    value = b"v" * 100
    return b"".join(b"set key%06d 0 %d 100 noreply\r\n%s\r\n" % (n, exptime, value) for n in range(count)) + b"stats\r\nquit\r\n"


def of_trustmc(program, text):
    """The greatest resident size, in bytes, and how many items were held then."""
    # (by `time`: what python grows to before it runs a program would count as the program's)
    ran = subprocess.run(["/usr/bin/time", "-f", "%M", program, "run", "--turns"], input=text, capture_output=True, check=True)
    held = next(int(line.split()[2]) for line in ran.stdout.split(b"\r\n") if b"curr_items" in line)
    return int(ran.stderr) * 1024, held


def resident(pid):
    with open(f"/proc/{pid}/status") as it:
        return next(int(line.split()[1]) * 1024 for line in it if line.startswith("VmRSS"))


def of_memcached(text):
    port = 11998
    server = subprocess.Popen(["memcached", "-u", "nobody", "-U", "0", "-l", "127.0.0.1", "-p", str(port), "-m", "1024", "-t", "1"])
    try:
        time.sleep(1)
        before = resident(server.pid)
        with socket.create_connection(("127.0.0.1", port)) as it:
            it.sendall(text)
            said = b""
            while chunk := it.recv(1 << 16):
                said += chunk
        held = next(int(line.split()[2]) for line in said.split(b"\r\n") if b"curr_items" in line)
        return resident(server.pid) - before, held
    finally:
        server.terminate()
        server.wait()


for exptime, name in [(0, "without expiry"), (100000, "with expiry")]:
    grown, held = of_memcached(stream(exptime, items))
    of_theirs = grown / held
    print(f"{name}: memcached {of_theirs:.0f} bytes an item ({held} items)")
    for program in programs:
        empty, _ = of_trustmc(program, stream(exptime, 0))
        full, held = of_trustmc(program, stream(exptime, items))
        each = (full - empty) / held
        print(f"{name}: {program} {each:.0f} bytes an item ({held} items), {each / of_theirs:.2f} times; with no item {empty / 2**20:.1f} MiB in all")
END
