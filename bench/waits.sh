#!/usr/bin/env bash
# How long a command waits where the journal is full: waits.sh [USERS], 16 where it isn't given, of whom each brings 32,768 shares and 1,024
# files, which are the usual rooms. A client over the loopback then stores and deletes an empty version until the current half of the
# journal is nearly full, over a folder in memory (/dev/shm) where there is one. The store is copied to a folder below TMPDIR, whose disk counts,
# and there each command is timed until the one that a checkpoint comes in front of: beside the writing of as many bytes with one sync, and
# beside their SHA-256.
. "$(dirname "$0")/build.sh"
programs
fast="$(mktemp -d -p /dev/shm 2> /dev/null || mktemp -d)"
trap 'rm -rf "$work" "$fast"' EXIT
python3 - "$hashes" "$cdstore" "$fast" "$work" "${1:-16}" <<'PY'
import hashlib, os, shutil, socket, struct, sys, time
from measure import Cloud, MIB_64, frame, hashes, receive

program, fast, work, USERS = sys.argv[2], sys.argv[3], sys.argv[4], int(sys.argv[5])
BATCH, FILES, ITEMS, SECOND = 256, 1_024, 32, 134_217_728
# what a chain may take of a half in the usual rooms, and a round of the client at most
HALF, ROUND = 11_595 + 16 * (97 * 32_768 + 94 * 1_024 + 30), 64 * (95 + 51)
STORED, COMMITTED, DELETED = frame(bytes([0x83]) + struct.pack(">H", BATCH)), frame(bytes([0x84])), frame(bytes([0x92]))


def recipe(names):
    head = struct.pack(">H", 1) + os.urandom(11) + struct.pack(">QI", len(names) * 16_384, len(names))
    return head + b"".join(name + struct.pack(">I", 16_384) for name in names)


def commit(user, tag, bytes_of):
    return frame(bytes([4]) + struct.pack(">I", user) + tag + struct.pack(">Q", 1) + bytes_of)


def frames_of(user):
    """A user's Puts and then its Commits, each with the reply that is due."""
    names = []
    for _ in range(ITEMS * FILES // BATCH):
        shares = [os.urandom(32) for _ in range(BATCH)]
        names += [hashlib.sha256(share).digest() for share in shares]
        items = b"".join(struct.pack(">I", 32) + share for share in shares)
        yield frame(bytes([3]) + struct.pack(">IH", user, BATCH) + items), STORED
    # (the last file's room is left for the version that comes and goes)
    for file in range(FILES - 1):
        tag = hashlib.sha256(struct.pack(">II", user, file)).digest()
        yield commit(user, tag, recipe(names[file * ITEMS:(file + 1) * ITEMS])), COMMITTED


def pair(user):
    """A version that is stored and deleted again, each with the reply that is due."""
    tag = hashlib.sha256(struct.pack(">I", user)).digest()
    return [(commit(user, tag, recipe([])), COMMITTED), (frame(bytes([8]) + struct.pack(">I", user) + tag + struct.pack(">Q", 1)), DELETED)]


def ask(connection, asks):
    connection.sendall(b"".join(content for content, _ in asks))
    for _, reply in asks:
        if receive(connection, len(reply)) != reply:
            raise SystemExit("a reply is another one")


def served(folder, work_of):
    cloud = Cloud(program, folder, 0, 1)
    try:
        with socket.create_connection(("127.0.0.1", cloud.port)) as connection:
            connection.setsockopt(socket.IPPROTO_TCP, socket.TCP_NODELAY, 1)
            given = work_of(connection)
        cloud.end()
        return given
    finally:
        cloud.kill()


def fill(connection):
    for user in range(USERS):
        for content, reply in frames_of(user):
            ask(connection, [(content, reply)])
    user, pairs = 0, 0
    while os.path.getsize(f"{fast}/cloud0/journal") + ROUND < HALF:
        ask(connection, [one for _ in range(64) for one in pair(user % USERS)])
        user, pairs = user + 1, pairs + 64
    return pairs


def timed(connection):
    """The waits of the commands up to the one that a checkpoint comes in front of, in seconds."""
    waits = []
    while os.path.getsize(f"{work}/store/cloud0/journal") < SECOND:
        for content, reply in pair(0):
            begun = time.monotonic()
            ask(connection, [(content, reply)])
            waits.append(time.monotonic() - begun)
    return waits


def written(count):
    """Seconds for the writing of so many bytes to a new file of the same disk with one sync, the least of five."""
    content, least = os.urandom(count), []
    for number in range(5):
        begun = time.monotonic()
        file = os.open(f"{work}/bytes", os.O_CREAT | os.O_WRONLY | os.O_TRUNC)
        for at in range(0, count, 4_194_304):
            os.write(file, content[at:at + 4_194_304])
        os.fsync(file)
        os.close(file)
        least.append(time.monotonic() - begun)
    return min(least)


pairs = served(fast, fill)
rows, hash = [], 0.0
for number in range(5):
    shutil.rmtree(f"{work}/store", ignore_errors=True)
    shutil.copytree(fast, f"{work}/store")
    os.sync()
    before, _, _ = hashes(sys.argv[1])
    waits = served(f"{work}/store", timed)
    after, _, _ = hashes(sys.argv[1])
    count = os.path.getsize(f"{work}/store/cloud0/journal") - SECOND
    rows.append((max(waits), sorted(waits)[len(waits) // 2], written(count), (before + after) / 2 * count / MIB_64))
longest, median, bare, hash = (min(column) for column in zip(*rows))
print(f"{USERS} users with {USERS * ITEMS * FILES} shares and {USERS * (FILES - 1)} files, behind {2 * pairs} more commands: a checkpoint of {count / 1e6:.1f} MB")
print(f"the longest wait: {longest * 1e3:.0f} ms, that of most commands {median * 1e3:.2f} ms (least of five runs)")
print(f"{longest / bare:.2f} times the writing of as many bytes with one sync ({bare * 1e3:.0f} ms; wanted: at most 3), "
      f"{longest / hash:.2f} times their SHA-256 ({hash * 1e3:.0f} ms; wanted: at most 2)")
PY
