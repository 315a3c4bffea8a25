#!/usr/bin/env bash
# MB/s of `xor_mask` on texts of several lengths, beside SHA-256 of the same bytes, in one run.
. "$(dirname "$0")/build.sh"
build cipher aes256 sha2 anyhow
grep '^texts of' "$work/log"
