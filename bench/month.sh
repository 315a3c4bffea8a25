#!/usr/bin/env bash
# Runs the generated session whole, `gen 1 20 640`: 20 versions of files of 5 MiB, of which each shares most of its bytes with earlier ones, and
# a get of each. It prints how much was sent and written, and the processor's time beside the hashes that it makes: of each file two and
# four thirds by the uploading client, one of each share that was sent by its server, and four by the get. Then the last version of the
# first user is read from each choice of three clouds, and compared with the file as it is drawn here.
. "$(dirname "$0")/build.sh"
programs
python3 - "$hashes" "$cdstore" "$work" <<'PY'
import shutil, sys
from measure import MIB_64, rounds, run, size

WORD = 2 ** 64 - 1


def drawn(state, count):
    """So many bytes of the generator."""
    out = bytearray(count)
    for place in range(count):
        state ^= state << 13 & WORD
        state ^= state >> 7
        state ^= state << 17 & WORD
        out[place] = state & 255
    return bytes(out)


def piece(seed, number, version):
    """A piece of a version of the generated file."""
    generation = max((w for w in range(1, version + 1) if w % 8 == number % 8), default=0)
    head = seed.to_bytes(8, "big") + number.to_bytes(4, "big") + generation.to_bytes(4, "big")
    return head + drawn((seed + (number << 32) + generation + 1) & WORD or 1, 1_984) + bytes(6_190) + b"\x1f\xff"


program, work = sys.argv[2], sys.argv[3]


def month(number):
    shutil.rmtree(f"{work}/clouds", ignore_errors=True)
    return run([program, "gen", 1, 20, 640, f"{work}/clouds"], sink=f"{work}/summary")


(hash, _, _), (used, took, peak) = rounds(sys.argv[1], month, 3)
with open(f"{work}/summary") as lines:
    summary = {name: int(value) for name, value in (line.split() for line in lines)}
print(", ".join(f"{name} {value}" for name, value in summary.items()))
length, sent, known = summary["bytes"], summary["sent"], summary["known"]
share = (8_192 + 32) // 3 + 1
hashed = length * (2 + 4 / 3 + 4) + sent * share
need = hashed / MIB_64 * hash
print(f"{used:.2f} s of the processor in {took:.2f} s, {used / need:.2f} times its {hashed / length:.2f} hashes of the files ({need:.2f} s)")
print(f"{100 * known / (sent + known):.1f} of 100 shares weren't sent; {size(f'{work}/clouds') / length:.3f} bytes lie in the clouds for each byte; "
      f"memory {peak / 1e6:.0f} MB, {peak / length:.2f} bytes a byte")
written, plain = size(f"{work}/clouds"), (sent + known) * share
print(f"a store that keeps every share that it is asked to keep writes {plain / 1e6:.1f} MB, this one {written / 1e6:.1f} MB: {plain / written:.1f} times less")
wanted = b"".join(piece(1, number, 7) for number in range(640))
for clouds in ["1,2,3", "0,2,3", "0,1,3", "0,1,2"]:
    run([program, "read", f"{work}/clouds", 4, 3, 1, "file", 7, clouds], sink=f"{work}/back")
    with open(f"{work}/back", "rb") as back:
        if back.read() != wanted:
            raise SystemExit(f"clouds {clouds} gave something else")
print(f"clouds 1,2,3, 0,2,3, 0,1,3 and 0,1,2 give version 7 of user 1 back, {len(wanted)} bytes, as it was drawn apart")
PY
