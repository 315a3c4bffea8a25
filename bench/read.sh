#!/usr/bin/env bash
# Times a `read` of 64 MiB from the folders of three clouds of four, beside the four hash passes that it makes: each share by the server
# that reads it and by the client, and two of each secret. A read of a version that isn't there shows what the tables of the usual rooms
# take, some 70 MB for each of the three clouds: both are printed.
. "$(dirname "$0")/build.sh"
programs
noise
{
    printf 'cdstore 1 4 3\nupload 7 66 1 '
    cat "$work/digits"
    printf '\nfinish 1\n'
} > "$work/script"
python3 - "$hashes" "$cdstore" "$work" <<'PY'
import sys
from measure import MIB_64, rounds, run, same
program, work = sys.argv[2], sys.argv[3]
run([program, "replay", f"{work}/clouds"], f"{work}/script", f"{work}/transcript")
words = [program, "read", f"{work}/clouds", 4, 3, 7, "f"]


def read(number):
    bare, _, tables = run(words + [2, "1,2,3"], sink=f"{work}/back", wanted=8)
    used, took, peak = run(words + [1, "1,2,3"], sink=f"{work}/back")
    if not same(f"{work}/sent", f"{work}/back"):
        raise SystemExit("the read gave something else")
    return bare, tables, used, took, peak


(hash, _, _), (bare, tables, used, took, peak) = rounds(sys.argv[1], read)
print(f"a read of 64 MiB: {used:.2f} s of the processor in {took:.2f} s, of which the opening {bare:.2f} s; SHA-256 once {hash:.2f} s")
print(f"{used / (4 * hash):.2f} times its four hashes, {(used - bare) / (4 * hash):.2f} without the opening")
print(f"memory: {peak / 1e6:.0f} MB, of which the opening {tables / 1e6:.0f} MB; the rest {(peak - tables) / 1e6:.0f} MB, "
      f"3 bytes a byte and 16 MiB are {(3 * MIB_64 + 2 ** 24) / 1e6:.0f} MB")
PY
