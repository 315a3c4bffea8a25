#!/usr/bin/env bash
# Times recipes of 8,192 items: MB/s of one run, and the ratio to the time that SHA-256 of as many bytes takes.
. "$(dirname "$0")/build.sh"
build recipes cd_base grammar recipe
"$program"
