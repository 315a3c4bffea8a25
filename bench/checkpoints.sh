#!/usr/bin/env bash
# Times an open store with full rooms over a cloud in memory: 2,048 Puts of 256 shares of one byte, the opening over all their
# records and the one behind a checkpoint, a Commit that brings no checkpoint, and a checkpoint beside the writing of as many bytes
# with one sync, and beside their SHA-256.
. "$(dirname "$0")/build.sh"
build checkpoints cd_base cd_edges cd_fakes cloud_memory journal_start cloud_store recipe share_index anyhow
export PYTHONPATH="$top/bench" PYTHONDONTWRITEBYTECODE=1
python3 - "$program" <<'PY'
import sys
from measure import least
puts, opening, commit, laid, opened, written, hashed, length = least(sys.argv[1], 3)
print(f"a Put of 256 shares of one byte: {puts / 2048:.1f} microseconds")
print(f"the opening over the 2,048 Puts: {opening / 1e3:.1f} ms")
print(f"the opening behind the checkpoint: {opened / 1e3:.1f} ms, {opened / opening:.2f} times the one over the Puts")
print(f"a Commit that brings no checkpoint: {commit} microseconds")
print(f"a checkpoint of {length / 1e6:.1f} MB: {laid / 1e3:.1f} ms, {laid / written:.2f} times the writing of as many bytes,", end=" ")
print(f"{laid / hashed:.2f} times their SHA-256")
PY
