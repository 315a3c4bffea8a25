#!/usr/bin/env bash
# Times a server's memory: 1,024 Puts of 256 new shares, in a memory that was full once; and an opening's records, which are those Puts and
# 16,384 Commits of an empty file. Times the Delete of a file of 8,192 secrets beside its Commit, which asks first whether the user
# owns them; and tells how many bytes a memory takes at the greatest rooms.
. "$(dirname "$0")/build.sh"
build memory cd_base cloud_memory journal_start recipe record_body record_checks share_index anyhow
export PYTHONPATH="$top/bench" PYTHONDONTWRITEBYTECODE=1
python3 - "$program" <<'PY'
import sys
from measure import least
put, taken, commit, delete, made, full = least(sys.argv[1], 10)
print(f"a Put of 256 new shares: {put / 1024:.1f} microseconds")
print(f"an opening's records: {taken / 1e3:.1f} ms")
print(f"a Delete of 8,192 secrets: {delete / 1e3:.2f} ms, {delete / commit:.2f} times its Commit, {delete / (put / 32):.2f} times the Puts of as many shares")
print(f"memory at the greatest rooms: {made * 4096 / 1e6:.1f} MB made, {full * 4096 / 1e6:.1f} MB full")
PY
