#!/usr/bin/env bash
# Makes a month of backups: 20 files of 5 MiB over four clouds in a folder, of three users in turn, each of which shares most of its bytes with
# the version before. It looks at the summary and at the shares that lie in each cloud, and reads the last version of the first user from
# each choice of three clouds: all give the same file, whose SHA-256 was computed apart, from the rule of docs/FORMATS.md alone.
. "$(dirname "$0")/program.sh"

cdstore gen 1 20 640 "$work/clouds" | tee "$work/summary"
printf '%s\n' "files 20" "bytes 104857600" "stored 20" "sent 13120" "known 38080" "equal 20" | cmp - "$work/summary"
for cloud in 0 1 2 3; do
    # 1,120 shares of 2,742 bytes: 640 pieces of the first version, and 80 of each of the six behind it
    [ "$(stat -c %s "$work/clouds/cloud$cloud/shares")" = 3071040 ]
done
for clouds in 1,2,3 0,2,3 0,1,3 0,1,2; do
    cdstore read "$work/clouds" 4 3 1 file 7 "$clouds" > "$work/back"
    echo "2341576d0ee2b649e6b08cdd96723a3fa4f7d501fe1fa8478c58e2bbedb1e704  $work/back" | sha256sum -c - > "$work/log"
    echo "clouds $clouds gave version 7 of user 1 back, $(stat -c %s "$work/back") bytes"
done
