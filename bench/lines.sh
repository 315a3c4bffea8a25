#!/usr/bin/env bash
# Times a long `upload` line that is taken from a source in pieces of 64 KiB and read, and a long `got` line that is written, of 64 MiB
# of bytes, beside SHA-256 of these bytes and beside their digits alone by the kit's `hex`: what isn't digits is to take a tenth of
# the hash at most. The digits of an upload are read twice: into memory that was written before, and into a list of their own, as a
# reader does. What the source takes to hand the line out is printed apart.
. "$(dirname "$0")/build.sh"
build digits cd_base cd_edges cd_fakes grammar hex
digits="$program"
build lines cd_base cd_edges cd_fakes grammar hex session transcript
PYTHONPATH="$top/bench" PYTHONDONTWRITEBYTECODE=1 python3 - "$program" "$digits" <<'PY'
import sys
from measure import least
rows = [(least(sys.argv[1], 1), least(sys.argv[2], 1)) for _ in range(5)]
hash, take, read, decode, write, encode, _ = [min(column) for column in zip(*[row for row, _ in rows])]
list, source = [min(column) for column in zip(*[row for _, row in rows])]
print(f"in times the SHA-256 of the bytes ({64 * 1048576 / hash:.0f} MB/s):")
print(f"an upload line taken {take / hash:.3f}, read {read / hash:.3f}, of which digits {decode / hash:.3f}: "
      f"all but digits {(take + read - decode) / hash:.3f}")
print(f"the digits into a list of their own {list / hash:.3f}: all but these {(take + read - list) / hash:.3f}, "
      f"of which the source {source / hash:.3f}")
print(f"a got line written {write / hash:.3f}, of which digits {encode / hash:.3f}: all but digits {(write - encode) / hash:.3f}")
PY
