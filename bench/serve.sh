#!/usr/bin/env bash
# Loads one `serve` over the loopback: 100,000 Query frames of one fingerprint each without waiting for their replies, 10,000 one at a time,
# and Put frames of 256 new shares of 8 KiB, 64 MiB in all, beside SHA-256 of the same bytes. The cloud lies in memory where there is
# /dev/shm, so that no disk is timed.
. "$(dirname "$0")/build.sh"
programs
store="$work"
[ ! -w /dev/shm ] || {
    store="$(mktemp -d -p /dev/shm)"
    trap 'rm -rf "$work" "$store"' EXIT
}
python3 - "$hashes" "$cdstore" "$store" <<'PY'
import os, socket, struct, sys, threading, time
from measure import Cloud, MIB_64, frame, hashes, receive, spent

QUERIES, ALONE, BATCH, LONG = 100_000, 10_000, 256, 8_192


def loaded(cloud, connection, frames, reply):
    """Sends all frames while the replies are read: seconds, and the server's processor seconds."""
    begun, used = time.monotonic(), spent(cloud.process)
    sender = threading.Thread(target=lambda: [connection.sendall(one) for one in frames])
    sender.start()
    for _ in frames:
        if receive(connection, len(reply)) != reply:
            raise SystemExit("a reply is another one")
    sender.join()
    return time.monotonic() - begun, spent(cloud.process) - used


hash, _, _ = hashes(sys.argv[1], 5)
cloud = Cloud(sys.argv[2], sys.argv[3], 0, 1)
try:
    with socket.create_connection(("127.0.0.1", cloud.port)) as connection:
        connection.setsockopt(socket.IPPROTO_TCP, socket.TCP_NODELAY, 1)
        query = frame(bytes([2]) + struct.pack(">IH", 7, 1) + bytes(32))
        known = frame(bytes([0x82, 0, 1, 0]))
        hundred = [query * 100] * (QUERIES // 100)
        took, used = loaded(cloud, connection, hundred, known * 100)
        print(f"Query: {QUERIES / took:.0f} a second without waiting, {used / QUERIES * 1e6:.1f} microseconds of the server's processor each")
        begun = time.monotonic()
        for _ in range(ALONE):
            connection.sendall(query)
            receive(connection, len(known))
        print(f"Query: {ALONE / (time.monotonic() - begun):.0f} a second one at a time, by a client in Python")
        puts = []
        for _ in range(MIB_64 // (BATCH * LONG)):
            shares = b"".join(struct.pack(">I", LONG) + os.urandom(LONG) for _ in range(BATCH))
            puts.append(frame(bytes([3]) + struct.pack(">IH", 7, BATCH) + shares))
        stored = frame(bytes([0x83]) + struct.pack(">H", BATCH))
        took, used = loaded(cloud, connection, puts, stored)
        print(f"Put: {MIB_64 / took / 1e6:.0f} MB/s, {took / hash:.2f} times the SHA-256 of the shares "
              f"({MIB_64 / hash / 1e6:.0f} MB/s); {used / hash:.2f} times in the server's processor time")
    _, peak = cloud.end()
    print(f"the server's memory: {peak / 1e6:.0f} MB")
finally:
    cloud.kill()
PY
