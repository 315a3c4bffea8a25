#!/usr/bin/env bash
# Times the rebuild of a lost cloud: 64 files of 1 MiB on four clouds in a directory, of which the last is replaced and filled again from the
# other three. A session that does so is run beside the same session without these two lines; what it takes more is the rebuild, beside the
# hashes that it makes: each share by the cloud that it is read from and by the client, two of each secret to open it and two to seal it
# again, and a third of the file by the client and by the cloud for the shares that are brought, 6.67 times the files' SHA-256.
#
# The memory of the rebuild alone: a session is given its lines one after another, and when all that comes before the rebuild is answered
# the greatest memory of its process so far is forgotten (clear_refs). What it then has at most, less what it had, is the rebuild's. What
# is freed goes back to the system at once, so that no memory of the uploads is left to be used again unseen; and each file is read once
# from the three other clouds before, so that their servers have the containers that they keep.
. "$(dirname "$0")/build.sh"
programs
python3 - "$hashes" "$cdstore" "$work" <<'PY'
import os, shutil, subprocess, sys
from measure import ended, rounds, run
program, work = sys.argv[2], sys.argv[3]
FILES, LONG, PASSES = 64, 1_048_576, 20 / 3
HEADER = "cdstore 1 4 3 8 26000000 1000000 12000 64\n"
with open(f"{work}/stored", "w") as stored, open(f"{work}/rebuilt", "w") as rebuilt:
    for script in stored, rebuilt:
        script.write(HEADER)
    for job in range(1, FILES + 1):
        line = f"upload 7 {job:02x} 1 {os.urandom(LONG).hex()}\nfinish {job}\n"
        for script in stored, rebuilt:
            script.write(line)
    rebuilt.write("replace 3\nrebuild 7 3 0,1,2\n")


def replay(name):
    used, took, _ = run([program, "replay", f"{work}/clouds"], f"{work}/{name}", f"{work}/transcript")
    shutil.rmtree(f"{work}/clouds")
    return used, took


def memory(process, field):
    """A process's memory in bytes, now (VmRSS) or at most (VmHWM)."""
    with open(f"/proc/{process.pid}/status") as lines:
        return next(int(line.split()[1]) * 1024 for line in lines if line.startswith(field))


def own_memory(files, long):
    """What a rebuild of so many files of this length takes at most beside what its session has when it begins."""
    freed = dict(os.environ, MALLOC_MMAP_THRESHOLD_="65536", MALLOC_TRIM_THRESHOLD_="0")
    words = [program, "replay", f"{work}/clouds"]
    with subprocess.Popen(words, stdin=subprocess.PIPE, stdout=subprocess.PIPE, text=True, env=freed) as process:
        def asked(lines, last):
            process.stdin.write(lines)
            process.stdin.flush()
            for line in process.stdout:
                if line.startswith(last):
                    return line
            raise SystemExit(f"no answer {last}")

        asked(HEADER, "open")
        for job in range(1, files + 1):
            asked(f"upload 7 {job:02x} 1 {os.urandom(long).hex()}\nfinish {job}\n", f"end {job} stored")
        asked("replace 3\n", "replaced 3")
        for job in range(1, files + 1):
            asked(f"get 7 {job:02x} 1 0,1,2\n", "got")
        with open(f"/proc/{process.pid}/clear_refs", "w") as greatest:
            greatest.write("5")
        before = memory(process, "VmRSS")
        if asked("rebuild 7 3 0,1,2\n", "rebuilt") != f"rebuilt 7 3 {files} 0\n":
            raise SystemExit("not all files were rebuilt")
        most = memory(process, "VmHWM")
        process.stdin.close()
        ended(process)
    shutil.rmtree(f"{work}/clouds")
    return most - before, before


for files, long in (FILES, LONG), (1, FILES * LONG):
    most, before = own_memory(files, long)
    print(f"memory of a rebuild of {files} files of {long >> 20} MiB: {most / 1e6:.1f} MB beside the {before / 1e6:.1f} MB of its session,")
    print(f"{most / (3 * long + (16 << 20)):.2f} times three of its largest file and 16 MiB")
(hash, _, _), (stored, stored_took, rebuilt, rebuilt_took) = rounds(sys.argv[1], lambda number: [*replay("stored"), *replay("rebuilt")])
with open(f"{work}/transcript") as lines:
    if f"rebuilt 7 3 {FILES} 0\n" not in lines:
        raise SystemExit("not all files were rebuilt")
used = rebuilt - stored
print(f"a rebuild of {FILES} files of 1 MiB: {used:.2f} s of the processor in {rebuilt_took - stored_took:.2f} s; SHA-256 of them once {hash:.2f} s")
print(f"{used / (PASSES * hash):.2f} times its {PASSES:.2f} hashes; the uploads before it {stored:.2f} s")
PY
