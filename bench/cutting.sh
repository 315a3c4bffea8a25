#!/usr/bin/env bash
# MB/s of `Chunker::feed` on bytes of no pattern, beside SHA-256 of the same bytes, in one run.
. "$(dirname "$0")/build.sh"
build cutting cd_base rabin_chunker sha2 anyhow
grep '^pieces of' "$work/log"
