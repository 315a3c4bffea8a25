#!/usr/bin/env bash
# What a command of one small file takes of the system: a client over the loopback stores 10,000 files of one secret at a cloud in a folder (a Put
# and a Commit each, 20,000 commands), and strace counts the server's calls on the cloud's files behind the first two commands, which begin them:
# opens, writes and syncs a command.
. "$(dirname "$0")/build.sh"
programs
command -v strace > /dev/null || {
    echo "calls.sh needs strace" >&2
    exit 1
}
python3 - "$cdstore" "$work" <<'PY'
import hashlib, os, re, socket, struct, subprocess, sys
from measure import frame, receive

program, work = sys.argv[1], sys.argv[2]
FILES = 10_000


def asks(file):
    """The Put of a file's one share, and its Commit, each with the reply that is due."""
    share = struct.pack(">Q", file) * 16
    recipe = struct.pack(">H", 1) + os.urandom(11) + struct.pack(">QI", 300, 1) + hashlib.sha256(share).digest() + struct.pack(">I", 300)
    tag = hashlib.sha256(struct.pack(">I", file)).digest()
    user = struct.pack(">I", file % 16)
    yield frame(bytes([3]) + user + struct.pack(">HI", 1, len(share)) + share), frame(bytes([0x83]) + struct.pack(">H", 1))
    yield frame(bytes([4]) + user + tag + struct.pack(">Q", 1) + recipe), frame(bytes([0x84]))


with socket.socket() as free:
    free.bind(("127.0.0.1", 0))
    port = free.getsockname()[1]
calls = f"{work}/calls"
server = subprocess.Popen(["strace", "-f", "-y", "-o", calls, "-e", "trace=open,openat,creat,write,pwrite64,pwritev,fsync,fdatasync", program,
                           "serve", f"{work}/store", "0", "4", "3", f"127.0.0.1:{port}", "1"], stdout=subprocess.PIPE)
if server.stdout.readline() != f"ready 127.0.0.1:{port}\n".encode():
    raise SystemExit("the server isn't ready")
with socket.create_connection(("127.0.0.1", port)) as connection:
    for file in range(FILES):
        for content, reply in asks(file):
            connection.sendall(content)
            if receive(connection, len(reply)) != reply:
                raise SystemExit("a reply is another one")
        if file == 0:
            # (strace writes a call behind its end, and the replies came behind these)
            begun = os.path.getsize(calls)
server.wait()
counts = {}
with open(calls) as lines:
    lines.seek(begun)
    for line in lines:
        found = re.match(r"\d+ +(\w+)\((?:AT_FDCWD|\d+)?[^ ]*", line)
        if found and "/cloud0/" in line:
            name = {"creat": "open", "openat": "open", "pwrite64": "write", "pwritev": "write", "fdatasync": "sync", "fsync": "sync"}.get(found[1], found[1])
            counts[name] = counts.get(name, 0) + 1
commands = 2 * FILES - 2
print(f"{commands} commands: " + ", ".join(f"{counts.get(name, 0)} {name}s ({counts.get(name, 0) / commands:.3f} a command)" for name in ("open", "write", "sync")))
PY
