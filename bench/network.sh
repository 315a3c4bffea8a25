#!/usr/bin/env bash
# Backs up 64 MiB to four `serve` processes over the loopback and restores them from the last three: the processor seconds of all processes
# beside the hashes that they make, 4.67 and 4 of the file. What the servers use before they listen (their tables) is left out, and printed.
# Ten rounds, each between two runs of the hashes; what counts is the ratio of the sums. Once on one processor alone, hashes and all, and
# once on all of them: a client waits for each reply, so that never two of the processes have much to do at a time, and a hand-over to
# another processor, whose caches are cold, and whose units another process may share, costs the machine's time and not the program's.
. "$(dirname "$0")/build.sh"
programs
head -c 67108864 /dev/urandom > "$work/sent"
python3 - "$hashes" "$cdstore" "$work" <<'PY'
import os, shutil, sys
from measure import Cloud, MIB_64, paired, run, same, spent
program, work = sys.argv[2], sys.argv[3]


def serve(number):
    clouds = []
    try:
        for cloud in range(4):
            clouds.append(Cloud(program, f"{work}/provider{cloud}", cloud, 1 if cloud == 0 else 2))
        begun = sum(cloud.begun for cloud in clouds)
        addresses = [cloud.addr for cloud in clouds]
        backup, backup_took, backup_peak = run([program, "backup", 7, "f", 1, *addresses], f"{work}/sent", f"{work}/lines")
        first, _ = clouds[0].end()
        served = first + sum(spent(cloud.process) - cloud.begun for cloud in clouds[1:])
        restore, restore_took, restore_peak = run([program, "restore", 7, "f", 1, *addresses[1:]], sink=f"{work}/back")
        rest = [cloud.end() for cloud in clouds[1:]]
        given = first + sum(used for used, _ in rest) - served
    finally:
        for cloud in clouds:
            cloud.kill()
    if not same(f"{work}/sent", f"{work}/back"):
        raise SystemExit("the restore gave something else")
    for cloud in range(4):
        shutil.rmtree(f"{work}/provider{cloud}")
    return (begun, backup, served, backup + served, backup_took, backup_peak,
            restore, given, restore + given, restore_took, restore_peak, max(peak for _, peak in rest))


def measured(where, processors, count=10):
    os.sched_setaffinity(0, processors)
    (hash, _, _), numbers = paired(sys.argv[1], serve, count)
    (begun, backup, served, all_backup, backup_took, backup_peak,
     restore, given, all_restore, restore_took, restore_peak, server_peak) = (number / count for number in numbers)
    hash /= count
    print(f"{where}: backup: {backup:.2f} s by the client and {served:.2f} s by the servers, in {backup_took:.2f} s; restore: {restore:.2f} s "
          f"and {given:.2f} s, in {restore_took:.2f} s; the servers' openings {begun:.2f} s; SHA-256 once {hash:.3f} s")
    print(f"backup {all_backup / (14 / 3 * hash):.2f} times its 4.67 hashes, restore {all_restore / (4 * hash):.2f} times its 4, "
          f"both {(all_backup + all_restore) / (26 / 3 * hash):.2f} times")
    print(f"memory a byte: backup {backup_peak / MIB_64:.2f}, restore {restore_peak / MIB_64:.2f}; a server {server_peak / 1e6:.0f} MB")


every = os.sched_getaffinity(0)
measured("on one processor", {max(every)})
measured("on all", every)
PY
