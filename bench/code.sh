#!/usr/bin/env bash
# Times the field's hot loop and the code: MB/s of one run, and the ratio of mul_into to a plain table loop.
. "$(dirname "$0")/build.sh"
build code cd_base gf256 reed_solomon
"$program"
