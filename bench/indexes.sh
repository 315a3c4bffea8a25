#!/usr/bin/env bash
# Memory of full indexes, and nanoseconds per call, in one run.
. "$(dirname "$0")/build.sh"
build indexes share_index file_index cd_base pool_map slot_pool anyhow
grep -E '^memory|^full|^asked' "$work/log"
