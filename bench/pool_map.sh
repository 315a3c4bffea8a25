#!/usr/bin/env bash
# Nanoseconds per insert, look-up and removal of both tables beside std's maps, in one run.
. "$(dirname "$0")/build.sh"
build pool_map pool_map slot_pool anyhow
grep 'ns,' "$work/log"
