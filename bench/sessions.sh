#!/usr/bin/env bash
# Runs sessions of the program over four clouds in a directory: an upload of 64 MiB alone, the same with a get of it from three of them, and
# some 10,000 steps of uploads of two bytes, over a folder in memory where there is one (/dev/shm).
#
# An upload needs two hashes of the file (the key and the package), one of its four thirds by the client and one by the servers: 4.67
# times the file's SHA-256. A get needs two of the file, and one of each share by the server that reads it and by the client: 4. What
# the digits of the script and the transcript need, by the kit's `hex` alone, is taken from the program's time first. The rooms are just
# large enough, so that the servers' tables are small.
. "$(dirname "$0")/build.sh"
programs
noise
{
    printf 'cdstore 1 4 3 8 26000000 400000 8000 1\nupload 7 66 1 '
    cat "$work/digits"
    printf '\nfinish 1\n'
} > "$work/upload"
{
    cat "$work/upload"
    echo 'get 7 66 1 1,2,3'
} > "$work/both"
echo 'cdstore 1 4 3 8 26000000 400000 8000 1' > "$work/none"
jobs=834
{
    echo 'cdstore 1 4 3 8 1000000 1000000 1000 1000'
    for job in $(seq "$jobs"); do
        printf 'upload 7 61 %d %04x\n' "$job" "$job"
        for cloud in 0 1 2 3; do printf "step $job $cloud\nstep $job $cloud\nstep $job $cloud\n"; done
    done
} > "$work/small"
store="$work"
[ ! -w /dev/shm ] || {
    store="$(mktemp -d -p /dev/shm)"
    trap 'rm -rf "$work" "$store"' EXIT
}
python3 - "$hashes" "$cdstore" "$work" "$store" "$jobs" <<'PY'
import shutil, subprocess, sys
from measure import MIB_64, rounds, run
program, work, store, jobs = sys.argv[2], sys.argv[3], sys.argv[4], int(sys.argv[5])


def replay(name):
    used, took, peak = run([program, "replay", f"{work}/clouds"], f"{work}/{name}", f"{work}/transcript")
    shutil.rmtree(f"{work}/clouds")
    return used, took, peak


(hash, decode, encode), numbers = rounds(sys.argv[1], lambda number: [*replay("none"), *replay("upload"), *replay("both")])
print(f"64 MiB: SHA-256 {hash:.2f} s ({MIB_64 / hash / 1e6:.0f} MB/s), digits read {decode:.2f} s, written {encode:.2f} s")
with open(f"{work}/sent", "rb") as sent:
    print(subprocess.run("sha256sum", stdin=sent, capture_output=True, text=True).stdout.split()[0][:16], end=": ")
print(f"the same by sha256sum {run(['sha256sum', f'{work}/sent'])[0]:.2f} s")
for row, (name, passes, digits) in enumerate([("none", 0, 0), ("upload", 14 / 3, decode), ("both", 26 / 3, decode + encode)]):
    used, took, peak = numbers[3 * row:3 * row + 3]
    line = f"{name}: {used:.2f} s of the processor in {took:.2f} s, {peak / MIB_64:.2f} bytes of memory a byte"
    if passes:
        line += f"; without digits {(used - digits) / (passes * hash):.2f} times its {passes:.2f} hashes"
    print(line)
with open(f"{work}/transcript") as lines, open(f"{work}/digits") as digits:
    wanted = digits.read()
    if not any(line == f"got {wanted}\n" for line in lines):
        raise SystemExit("the get gave something else")
begun, _, _ = run([program, "replay", f"{store}/none"], f"{work}/none")
used, took, _ = run([program, "replay", f"{store}/small"], f"{work}/small", f"{work}/transcript")
with open(f"{work}/transcript") as lines:
    steps = sum(line.startswith("step ") for line in lines)
if steps != 12 * jobs:
    raise SystemExit(f"there were {steps} steps")
syncs = 24 * jobs
print(f"{steps} steps in {store}: {(used - begun) / steps * 1e6:.1f} microseconds of the processor a step, {took / steps * 1e6:.1f} in all; "
      f"they make {syncs} syncs (three a Put and a Commit, none a Query)")
PY
