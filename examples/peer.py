"""Plays the other side of cdstore's connections, with none of its code: bytes are sent as they are given, in hexadecimal, `-` for none.

    peer.py ask ADDR < ROWS                  a client: for each row `PIECE BYTES` connects to ADDR, sends the bytes, PIECE a call, says no
                                             more, and writes a line of what came until the cloud closed. Where PIECE is 0 it sends them at
                                             once, and breaks the connection
    peer.py play SENT CLOUD.. -- WORDS..     clouds: runs the words with the addresses of the clouds behind them, and ends with their
                                             status. A CLOUD is the bytes that it sends to its one client; ^BYTES, which it sends, and breaks
                                             the connection when more than a Hello came; @ADDR, a cloud that is there; or ! where nobody
                                             listens. What a client sent to the cloud at position P goes to SENT/P, where it came at all"""
import os
import socket
import struct
import subprocess
import sys
import threading
import time

PATIENCE = 20
HELLO = bytes.fromhex("0000000101")


def bytes_of(text):
    return b"" if text == "-" else bytes.fromhex(text)


def text_of(data):
    return data.hex() or "-"


def talk(connection, piece, data):
    """Sends bytes in pieces, says no more, and answers what came until the other side closed or cut the connection."""
    came = bytearray()
    connection.settimeout(PATIENCE)
    connection.setsockopt(socket.IPPROTO_TCP, socket.TCP_NODELAY, 1)
    try:
        for begin in range(0, len(data), piece):
            connection.sendall(data[begin:begin + piece])
            if piece < 100:
                time.sleep(0.0002)
        connection.shutdown(socket.SHUT_WR)
    except OSError:
        pass
    try:
        while more := connection.recv(65536):
            came += more
    except ConnectionResetError:
        pass
    return bytes(came)


def break_off(connection):
    """Has the connection reset where it is closed, and not ended."""
    connection.setsockopt(socket.SOL_SOCKET, socket.SO_LINGER, struct.pack("ii", 1, 0))


def break_behind(connection, data):
    """Sends bytes, takes what comes until it is more than a Hello, and answers it; the connection breaks when it is closed."""
    came = bytearray()
    connection.settimeout(PATIENCE)
    connection.sendall(data)
    while len(came) <= len(HELLO) and (more := connection.recv(65536)):
        came += more
    break_off(connection)
    return bytes(came)


def ask(address):
    host, port = address.rsplit(":", 1)
    for row in sys.stdin:
        piece, data = row.split()
        with socket.create_connection((host, int(port)), PATIENCE) as connection:
            if piece == "0":
                connection.sendall(bytes_of(data))
                break_off(connection)
                print(text_of(b""))
            else:
                print(text_of(talk(connection, int(piece), bytes_of(data))))


def play_one(listener, cloud, path, ended):
    """Plays a cloud to the first client that comes, unless the command has ended before."""
    listener.settimeout(0.02)
    while not ended.is_set():
        try:
            client, _ = listener.accept()
        except socket.timeout:
            continue
        with client, open(path, "w") as file:
            breaks = cloud.startswith("^")
            came = break_behind(client, bytes_of(cloud[1:])) if breaks else talk(client, 3, bytes_of(cloud))
            file.write(text_of(came) + "\n")
        return


def play(folder, clouds, words):
    addresses, players, kept = [], [], []
    ended = threading.Event()
    for position, cloud in enumerate(clouds):
        if cloud.startswith("@"):
            addresses.append(cloud[1:])
            continue
        listener = socket.socket()
        listener.bind(("127.0.0.1", 0))
        kept.append(listener)
        addresses.append("127.0.0.1:%d" % listener.getsockname()[1])
        if cloud != "!":
            listener.listen()
            path = os.path.join(folder, str(position))
            players.append(threading.Thread(target=play_one, args=(listener, cloud, path, ended)))
    for player in players:
        player.start()
    status = subprocess.run(words + addresses).returncode
    ended.set()
    for player in players:
        player.join()
    return status


if sys.argv[1] == "ask":
    ask(sys.argv[2])
else:
    end = sys.argv.index("--")
    sys.exit(play(sys.argv[2], sys.argv[3:end], sys.argv[end + 1:]))
