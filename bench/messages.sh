#!/usr/bin/env bash
# MB/s of writing the greatest Put, and of checking it where it lies, beside SHA-256 of the same bytes, in one run.
. "$(dirname "$0")/build.sh"
build messages cd_base messages sha2 anyhow
grep '^a Put' "$work/log"
