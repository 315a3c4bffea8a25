"""Stands between clients and clouds and counts: relay.py LOG ADDR.. writes a line with the address of a port for each ADDR, hands on
what comes there, and at each connection's end appends to LOG which ADDR it was, from 0, and how many bytes the client sent."""
import socket
import sys
import threading


def hand_on(source, target):
    """Copies what comes until the source says no more, and counts it."""
    count = 0
    try:
        while data := source.recv(65536):
            target.sendall(data)
            count += len(data)
    except OSError:
        pass
    for end, way in ((target, socket.SHUT_WR), (source, socket.SHUT_RD)):
        try:
            end.shutdown(way)
        except OSError:
            pass
    return count


def connect(client, address, number, log):
    host, port = address.rsplit(":", 1)
    try:
        cloud = socket.create_connection((host, int(port)))
    except OSError:
        client.close()
        return
    back = threading.Thread(target=hand_on, args=(cloud, client), daemon=True)
    back.start()
    count = hand_on(client, cloud)
    back.join()
    client.close()
    cloud.close()
    with open(log, "a") as file:
        file.write(f"{number} {count}\n")


def serve(server, address, number, log):
    while True:
        client, _ = server.accept()
        threading.Thread(target=connect, args=(client, address, number, log), daemon=True).start()


for number, address in enumerate(sys.argv[2:]):
    server = socket.create_server(("127.0.0.1", 0))
    print(f"127.0.0.1:{server.getsockname()[1]}", flush=True)
    threading.Thread(target=serve, args=(server, address, number, sys.argv[1])).start()
