#!/usr/bin/env bash
# Backs up 64 MiB to four `serve` processes over the loopback, by `backup` and by `spool` in turn: the processor seconds of the client, and
# of all processes, beside each other, and beside one SHA-256 of the file. Ten rounds; what counts is the ratio of the sums.
. "$(dirname "$0")/build.sh"
programs
head -c 67108864 /dev/urandom > "$work/sent"
python3 - "$hashes" "$cdstore" "$work" <<'PY'
import os, shutil, sys
from measure import Cloud, paired, run
program, work = sys.argv[2], sys.argv[3]


def kept(words):
    """One backup to four fresh clouds by these words: the client's processor seconds, the servers', and the seconds it took."""
    clouds = []
    try:
        for cloud in range(4):
            clouds.append(Cloud(program, f"{work}/provider{cloud}", cloud, 1))
        client, took, peak = run([program, *words, 7, "f", 1, *(cloud.addr for cloud in clouds)], f"{work}/sent", f"{work}/lines")
        served = sum(cloud.end()[0] for cloud in clouds)
    finally:
        for cloud in clouds:
            cloud.kill()
    for cloud in range(4):
        shutil.rmtree(f"{work}/provider{cloud}")
    return client, served, took, peak


def measured(number):
    return (*kept(["backup"]), *kept(["spool", f"{work}/spool"]))


(hash, _, _), sums = paired(sys.argv[1], measured, 10)
backup, served, took, peak, spool, spooled, took_more, peak_more = (number / 10 for number in sums)
hash /= 10
print(f"backup: {backup:.2f} s by the client, {served:.2f} s by the servers, in {took:.2f} s, {peak / 1e6:.0f} MB; "
      f"spool: {spool:.2f} s, {spooled:.2f} s, in {took_more:.2f} s, {peak_more / 1e6:.0f} MB; SHA-256 once {hash:.3f} s")
print(f"spool {(spool + spooled) / (backup + served):.3f} times backup; without one SHA-256 of the file "
      f"{(spool + spooled - hash) / (backup + served):.3f} times; the client alone {spool / backup:.3f} and {(spool - hash) / backup:.3f} times")
PY
