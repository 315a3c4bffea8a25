#!/usr/bin/env bash
# The digests of a batch of 256 shares, four at a time in the order of their lengths, beside the SHA-256 of one after another.
. "$(dirname "$0")/build.sh"
build shares cd_base message_fields share_digests
grep '^batch of' "$work/log"
