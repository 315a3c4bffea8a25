#!/usr/bin/env bash
# MB/s of writing, checking and walking the longest body of a journal's record, beside SHA-256 of the same bytes, in one run.
. "$(dirname "$0")/build.sh"
build bodies cd_base share_index record_body sha2 anyhow
grep '^a body' "$work/log"
