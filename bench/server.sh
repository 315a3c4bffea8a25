#!/usr/bin/env bash
# Times a server over a cloud in memory: a Put of 256 new shares of 8,208 bytes, GetShares of them and a Query of 256, at an empty and at a
# full index, beside the SHA-256 of these shares; ten such Puts, the last of which brings a checkpoint of what the ten, or then all twenty
# brought, beside theirs; and the opening of a journal with 16,384 commits and some 260,000 fingerprints beside SHA-256 of as many bytes.
. "$(dirname "$0")/build.sh"
build server cd_base cd_edges cd_fakes share_server frames journal_start
python3 - "$program" <<'PY'
import subprocess, sys
# of three runs the fastest counts, since the machine may have other work
runs = [subprocess.run([sys.argv[1]], capture_output=True, text=True, check=True).stdout.split("\n") for _ in range(3)]
for lines in zip(*runs):
    rows = [line.split() for line in lines]
    if not rows[0]:
        continue
    well = all(row[-1] == "true" for row in rows)
    least = [min(int(row[at]) for row in rows) for at in range(1, len(rows[0]) - 1)]
    if rows[0][0] == "opening":
        spent, commands, hashed, length = least
        print(f"opening {commands} commands in {length} bytes: {spent / 1e6:.3f} s, {spent / hashed:.2f} times SHA-256 of as many bytes; filled: {well}")
    elif rows[0][0] == "checkpoints":
        one, two, hashed, used = least
        print(f"ten Puts, the last behind a checkpoint, in times the SHA-256 of the shares: {one / 10 / hashed:.2f}, and ten more {two / 10 / hashed:.2f}; "
              f"{used} bytes of the half used behind the first; all went well: {well}")
    else:
        put, get, query, hashed = least
        print(f"{rows[0][0]} index, in times the SHA-256 of the shares: Put {put / hashed:.2f}, GetShares {get / hashed:.2f}, Query {query / hashed:.3f}; all went well: {well}")
PY
