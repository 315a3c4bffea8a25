#!/usr/bin/env bash
# Times the dispersal of secrets of 8,192 bytes: MB/s of one run, and the ratio to the time that SHA-256 alone takes.
. "$(dirname "$0")/build.sh"
build dispersal cd_base gf256 reed_solomon aes256 caont_rs
"$program"
