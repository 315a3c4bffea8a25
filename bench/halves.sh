#!/usr/bin/env bash
# Times 20,000 appends to a journal beside the writing of as many bytes by as many calls, the opening of what they left beside the reading
# of as many bytes, and a checkpoint of 10 MB beside the writing of its bytes: over a cloud in memory, and the last over a folder, too.
. "$(dirname "$0")/build.sh"
build halves cd_base cd_edges cd_fakes commit_journal journal_start real_edges anyhow
export PYTHONPATH="$top/bench" PYTHONDONTWRITEBYTECODE=1
cd "$work"
python3 - "$program" <<'PY'
import sys
from measure import least
written_all, appends, read_all, opening, written, laid, folder_written, folder_laid = least(sys.argv[1], 40)

def says(what, spent, beside, which):
    print(f"{what}: {spent / 1e3:.1f} ms, {spent / beside:.2f} times {which}")

says("20,000 appends of 100 bytes", appends, written_all, "the writing of as many bytes by as many calls")
says("their opening", opening, read_all, "the reading of as many bytes")
says("a checkpoint of 10 MB in memory", laid, written, "the writing of as many bytes")
says("a checkpoint of 10 MB in a folder", folder_laid, folder_written, "the writing of as many bytes")
PY
