#!/usr/bin/env bash
# Times reads of 64 MiB of blobs of 8 KiB through a log over a cloud in memory, where four containers are kept and where none is, which
# is one call on the cloud for each blob, beside SHA-256 of as many bytes; and through three logs over three clouds, in turn.
. "$(dirname "$0")/build.sh"
build containers cd_base cd_edges cd_fakes container_log
PYTHONPATH="$top/bench" PYTHONDONTWRITEBYTECODE=1 python3 - "$program" <<'PY'
import sys
from measure import least
hash, alone, alone_kept, turns, turns_kept, _ = least(sys.argv[1])
print(f"SHA-256 of 64 MiB: {hash / 1e6:.3f} s of the processor")
print(f"one log in order: {alone_kept / hash:.3f} times it with 4 containers, {alone / hash:.3f} with none: {alone_kept / alone:.2f} times as long")
print(f"three logs in turn: {turns_kept / hash:.3f} times it with 4 containers, {turns / hash:.3f} with none: {turns_kept / turns:.2f} times as long")
PY
