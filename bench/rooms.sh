#!/usr/bin/env bash
# Fills the usual rooms of a cloud in a folder, by a client over the loopback: rooms.sh [USERS], 16 where it isn't given, of whom each brings
# 32,768 shares of 8 KiB and 1,024 files. Then, with no server: an opening, an `audit`, a `check` and a `reclaim`, each beside SHA-256 of the bytes
# that it reads, and a reclaim beside a copy of them too; the memory of each; and, where there is strace, the reads of the device. It takes some
# 10 GB below TMPDIR.
. "$(dirname "$0")/build.sh"
programs
python3 - "$hashes" "$cdstore" "$work" "${1:-16}" <<'PY'
import hashlib, os, shutil, socket, struct, subprocess, sys, threading, time
from measure import Cloud, MIB_64, frame, hashes, receive, run

USERS, BATCH, LONG, FILES, ITEMS = int(sys.argv[4]), 256, 8_192, 1_024, 32
program, work = sys.argv[2], sys.argv[3]
folder = f"{work}/store"


def frames_of(user):
    """A user's Puts and then its Commits, each with the reply that is due."""
    names = []
    for _ in range(ITEMS * FILES // BATCH):
        shares = [os.urandom(LONG) for _ in range(BATCH)]
        names += [hashlib.sha256(share).digest() for share in shares]
        items = b"".join(struct.pack(">I", LONG) + share for share in shares)
        yield frame(bytes([3]) + struct.pack(">IH", user, BATCH) + items), frame(bytes([0x83]) + struct.pack(">H", BATCH))
    for file in range(FILES):
        own = names[file * ITEMS:(file + 1) * ITEMS]
        recipe = struct.pack(">H", 1) + os.urandom(11) + struct.pack(">QI", ITEMS * 16_384, ITEMS)
        recipe += b"".join(name + struct.pack(">I", 16_384) for name in own)
        tag = hashlib.sha256(struct.pack(">II", user, file)).digest()
        yield frame(bytes([4]) + struct.pack(">I", user) + tag + struct.pack(">Q", 1) + recipe), frame(bytes([0x84]))


def filled():
    """Fills the rooms: the server's greatest memory."""
    cloud = Cloud(program, folder, 0, 1)
    try:
        with socket.create_connection(("127.0.0.1", cloud.port)) as connection:
            for user in range(USERS):
                for content, reply in frames_of(user):
                    connection.sendall(content)
                    if receive(connection, len(reply)) != reply:
                        raise SystemExit("a reply is another one")
        return cloud.end()[1]
    finally:
        cloud.kill()


def opened():
    """A server that opens the full cloud and is asked one thing: its processor time until it was ready, and its greatest memory."""
    cloud = Cloud(program, folder, 0, 1)
    try:
        with socket.create_connection(("127.0.0.1", cloud.port)) as connection:
            connection.sendall(frame(bytes([1])))
            receive(connection, 9)
        return cloud.begun, cloud.end()[1]
    finally:
        cloud.kill()


def reads(words, source=None):
    """How many reads of a file a command makes, and how many bytes they bring, or none where there is no strace."""
    if not shutil.which("strace"):
        return None
    with open(source or os.devnull, "rb") as input:
        subprocess.run(["strace", "-f", "-y", "-e", "trace=read,pread64", "-o", f"{work}/calls", program] + [str(word) for word in words], stdin=input,
                       stdout=subprocess.DEVNULL)
    with open(f"{work}/calls") as calls:
        counts = [int(line.rsplit("=", 1)[1].split()[0]) for line in calls if "/cloud0/" in line and " = " in line]
    return len(counts), sum(counts)


def line(what, used, peak, count, hash, wanted):
    print(f"{what}: {used:.2f} s, {used / (hash * count / MIB_64):.2f} times the SHA-256 of {count / 1e6:.0f} MB (wanted: at most {wanted}); "
          f"{peak / 1e6:.0f} MB of memory")


hash, _, _ = hashes(sys.argv[1], 5)
peak = filled()
sizes = {area: os.path.getsize(f"{folder}/cloud0/{area}") for area in ("journal", "shares", "recipes")}
live = sizes["shares"] + sizes["recipes"]
begun, peak_opened = min(opened() for _ in range(3))
print(f"{USERS} users, {live} bytes; the server that took them had {peak / 1e6:.0f} MB, and one that opens them {peak_opened / 1e6:.0f} MB (wanted: at most 95)")
where = [folder, 0, 4, 3]
_, _, bare = run([program, "check"] + where, wanted=2)
found = reads(["check"] + where)
count = found[1] if found else sizes["recipes"] + sizes["journal"]
line("an opening", begun, peak_opened, count, hash, 3)
print(f"reads of it: {found[0] if found else 'not counted'}")
used, _, peak = run([program, "audit"] + where, sink=f"{work}/certificate")
line("an audit", used, peak, live, hash, 1.5)
certificate = os.path.getsize(f"{work}/certificate")
print(f"beyond an opening's memory {(peak - bare) / 1e6:.0f} MB, of which the certificate {certificate / 1e6:.0f} MB (wanted: at most 16 MB and it)")
found = reads(["audit"] + where)
print(f"reads of it, with those of its opening: {f'{found[0]}, of {found[1]} bytes' if found else 'not counted'}")
used, _, peak = run([program, "check"] + where, source=f"{work}/certificate")
line("a check", used, peak, live, hash, 1.5)
begun = time.monotonic()
for area in ("shares", "recipes"):
    shutil.copyfile(f"{folder}/cloud0/{area}", f"{work}/{area}")
    descriptor = os.open(f"{work}/{area}", os.O_RDONLY)
    os.fsync(descriptor)
    os.close(descriptor)
copied = time.monotonic() - begun
for area in ("shares", "recipes"):
    os.remove(f"{work}/{area}")
used, took, peak = run([program, "reclaim"] + where)
both = copied + hash * live / MIB_64
print(f"a reclaim: {used:.2f} s of the processor in {took:.2f} s, {took / both:.2f} times a copy with a sync ({copied:.2f} s) and SHA-256 "
      f"({both - copied:.2f} s) of as many bytes (wanted: at most 1.5); {peak / 1e6:.0f} MB of memory")
PY
