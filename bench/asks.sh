#!/usr/bin/env bash
# What a restore past a bad cloud asks: a file of 3,000,000 bytes goes to four clouds of shape 4 3, and bytes in the middle of one cloud's
# shares are turned over. A restore from all four runs through proxies on the loopback, which count the requests of each kind that go by.
. "$(dirname "$0")/build.sh"
programs
python3 - "$cdstore" "$work" <<'PY'
import os, random, socket, struct, subprocess, sys, threading
from measure import receive

program, work = sys.argv[1], sys.argv[2]
KINDS = {1: "Hello", 5: "GetRecipe", 6: "GetShares"}
data = random.Random(5).randbytes(3_000_000)


def free_port():
    with socket.socket() as free:
        free.bind(("127.0.0.1", 0))
        return free.getsockname()[1]


def serve(clouds):
    """Starts the servers of all four clouds, each for one connection, and answers their addresses and processes."""
    servers = []
    for cloud in range(4):
        address = f"127.0.0.1:{free_port()}"
        server = subprocess.Popen([program, "serve", f"{clouds}/provider{cloud}", str(cloud), "4", "3", address, "1"], stdout=subprocess.PIPE)
        if server.stdout.readline() != f"ready {address}\n".encode():
            raise SystemExit(f"cloud {cloud} isn't ready")
        servers.append((address, server))
    return servers


def pass_replies(one, other):
    """Passes bytes on as they come."""
    while piece := one.recv(65536):
        other.sendall(piece)
    other.shutdown(socket.SHUT_WR)


def pass_requests(client, server, counts):
    """Passes frames on, and counts them by their kind."""
    while front := client.recv(4, socket.MSG_WAITALL):
        content = receive(client, struct.unpack(">I", front)[0])
        counts[KINDS[content[0]]] = counts.get(KINDS[content[0]], 0) + 1
        server.sendall(front + content)
    server.shutdown(socket.SHUT_WR)


def proxied(address, counts):
    """Answers the address of a proxy in front of a server."""
    listener = socket.create_server(("127.0.0.1", 0))

    def run():
        client, _ = listener.accept()
        host, port = address.split(":")
        server = socket.create_connection((host, int(port)))
        threading.Thread(target=pass_replies, args=(server, client), daemon=True).start()
        pass_requests(client, server, counts)

    threading.Thread(target=run, daemon=True).start()
    return f"127.0.0.1:{listener.getsockname()[1]}"


def restore(clouds):
    """Restores the file from all clouds, and answers what each was asked."""
    servers, counts = serve(clouds), [{} for _ in range(4)]
    addresses = [proxied(address, count) for (address, _), count in zip(servers, counts)]
    came = subprocess.run([program, "restore", "7", "a", "1", *addresses], stdout=subprocess.PIPE)
    if came.returncode or came.stdout != data:
        raise SystemExit(f"the restore ended with {came.returncode}")
    for _, server in servers:
        server.wait()
    return counts


for cloud in range(4):
    os.mkdir(f"{work}/provider{cloud}")
servers = serve(work)
subprocess.run([program, "backup", "7", "a", "1", *[address for address, _ in servers]], input=data, stdout=subprocess.DEVNULL, check=True)
for _, server in servers:
    server.wait()
say = lambda counts: "; ".join(f"cloud {cloud}: " + ", ".join(f"{count} {kind}" for kind, count in each.items()) for cloud, each in enumerate(counts))
print("all clouds good:", say(restore(work)))
for bad in (0, 2):
    path = f"{work}/provider{bad}/cloud{bad}/shares"
    with open(path, "r+b") as shares:
        whole = shares.read()
        middle = slice(len(whole) // 2, len(whole) // 2 + 2000)
        shares.seek(middle.start)
        shares.write(bytes(byte ^ 0xFF for byte in whole[middle]))
        shares.flush()
        print(f"the shares of cloud {bad} bad:", say(restore(work)))
        shares.seek(0)
        shares.write(whole)
PY
