#!/usr/bin/env bash
# MB/s of the hexadecimal text of bytes, both ways, beside SHA-256 of the same bytes, in one run.
. "$(dirname "$0")/build.sh"
build grammar cd_base grammar sha2 anyhow
grep '^bytes of' "$work/log"
