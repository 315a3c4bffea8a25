"""What the scripts of this folder share: processes with their processor time and memory, the hashes beside them, and clouds' servers."""
import os
import socket
import struct
import subprocess
import time

MIB_64 = 67_108_864


def run(words, source=None, sink=None, wanted=0):
    """Runs a command to its end: its processor seconds, its seconds, and its greatest memory in bytes."""
    begun = time.monotonic()
    with open(source or os.devnull, "rb") as input, open(sink or os.devnull, "wb") as output:
        process = subprocess.Popen([str(word) for word in words], stdin=input, stdout=output)
        status, usage = ended(process)
    if status != wanted:
        raise SystemExit(f"{words[1]} ended with status {status}: {tail(sink)}")
    return usage.ru_utime + usage.ru_stime, time.monotonic() - begun, usage.ru_maxrss * 1024


def ended(process):
    """Waits for a process: its status, and what it used."""
    _, status, usage = os.wait4(process.pid, 0)
    process.returncode = os.waitstatus_to_exitcode(status)
    return process.returncode, usage


def tail(path):
    if not path:
        return ""
    with open(path, "rb") as file:
        file.seek(max(0, os.path.getsize(path) - 200))
        return file.read().decode(errors="replace")


def least(program, runs=5):
    """The numbers that a program writes, of some runs the least of each, since the machine may have other work."""
    rows = []
    for _ in range(runs):
        words = subprocess.run([program], capture_output=True, text=True, check=True).stdout.split()
        if not words or words[-1] != "true":
            raise SystemExit(f"{program} wrote: {' '.join(words)}")
        rows.append([int(word) for word in words[:-1]])
    return [min(column) for column in zip(*rows)]


def hashes(program, runs=1):
    """Seconds for 64 MiB, by hashes.rt.txt: one SHA-256, the digits read, the digits written."""
    hash, decode, encode, _ = least(program, runs)
    return hash / 1e6, decode / 1e6, encode / 1e6


def rounds(program, measured, count=5):
    """Runs the hashes and what is measured in turn, so many times, and gives the least of each number on either side: what the machine
    takes away from a run makes its number greater and never less, and the next round has it again."""
    beside, rows = [], []
    for number in range(count):
        beside.append(hashes(program))
        rows.append(measured(number))
    return [min(column) for column in zip(*beside)], [min(column) for column in zip(*rows)]


def paired(program, measured, count=10):
    """Runs what is measured so many times, each time between two runs of the hashes, and gives the sums of each number on either side, a
    round's hashes being the mean of its two: the machine's speed changes from minute to minute, and what takes seconds has its hashes
    beside it. The least of each, as `rounds` gives it, compares a moment of the machine with another one's."""
    before = hashes(program)
    beside, rows = [], []
    for number in range(count):
        rows.append(measured(number))
        after = hashes(program)
        beside.append([(one + two) / 2 for one, two in zip(before, after)])
        before = after
    return [sum(column) for column in zip(*beside)], [sum(column) for column in zip(*rows)]


def spent(process):
    """The processor seconds of a process that runs."""
    with open(f"/proc/{process.pid}/schedstat") as file:
        return int(file.read().split()[0]) / 1e9


class Cloud:
    """A server's process for so many connections, at a port of the loopback that it could bind; begun is its processor time up to then."""

    def __init__(self, program, folder, cloud, count):
        for _ in range(10):
            with socket.socket() as free:
                free.bind(("127.0.0.1", 0))
                self.port = free.getsockname()[1]
            self.addr = f"127.0.0.1:{self.port}"
            words = [program, "serve", folder, str(cloud), "4", "3", self.addr, str(count)]
            self.process = subprocess.Popen(words, stdin=subprocess.DEVNULL, stdout=subprocess.PIPE)
            line = self.process.stdout.readline().decode()
            if line == f"ready {self.addr}\n":
                self.begun = spent(self.process)
                return
            status, _ = ended(self.process)
            if status != 9:
                raise SystemExit(f"cloud {cloud} ended with status {status}: {line}")
        raise SystemExit(f"cloud {cloud} found no free port")

    def end(self):
        """Waits for it to end by itself: its processor seconds since it listened, and its greatest memory in bytes."""
        said = self.process.stdout.read().decode()
        status, usage = ended(self.process)
        if status != 0:
            raise SystemExit(f"a cloud ended with status {status}: {said}")
        return usage.ru_utime + usage.ru_stime - self.begun, usage.ru_maxrss * 1024

    def kill(self):
        if self.process.returncode is None:
            self.process.kill()
            ended(self.process)


def frame(content):
    """A message as it goes over a connection: its length in four bytes, and it."""
    return struct.pack(">I", len(content)) + content


def receive(connection, length):
    """So many bytes of a connection."""
    got = bytearray()
    while len(got) < length:
        piece = connection.recv(length - len(got))
        if not piece:
            raise SystemExit("the server ended the connection")
        got += piece
    return bytes(got)


def size(folder):
    """The bytes of all files below a folder."""
    return sum(os.path.getsize(os.path.join(place, name)) for place, _, names in os.walk(folder) for name in names)


def same(one, other):
    """Whether two files have the same bytes."""
    return subprocess.run(["cmp", "-s", one, other]).returncode == 0
