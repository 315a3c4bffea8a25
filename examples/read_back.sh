#!/usr/bin/env bash
# Puts a real file on four clouds in a folder by `replay`, deletes the folder of each cloud in turn, and reads the file from the other
# three by `read`, from the disks alone: read_back.sh [FILE]. A file may have 67,108,864 bytes.
. "$(dirname "$0")/program.sh"
file="$(cd "$(dirname "${1:-$top/README.md}")" && pwd)/$(basename "${1:-$top/README.md}")"
{
    printf 'cdstore 1 4 3\nupload 7 66696c65 1 '
    bytes="$(od -An -v -tx1 "$file" | tr -d ' \n')"
    printf '%s\nfinish 1\n' "${bytes:--}"
} > "$work/script"
cdstore replay "$work/whole" < "$work/script" > "$work/transcript" 2> "$work/log" || { cat "$work/log"; exit 1; }
for lost in 0 1 2 3; do
    rm -rf "$work/clouds"
    cp -r "$work/whole" "$work/clouds"
    rm -r "$work/clouds/cloud$lost"
    clouds="$(printf '%s\n' 0 1 2 3 | grep -v "$lost" | paste -s -d ,)"
    cdstore read "$work/clouds" 4 3 7 file 1 "$clouds" > "$work/back"
    cmp "$file" "$work/back"
    echo "cloud $lost is lost; clouds $clouds gave $file back, $(stat -c %s "$file") bytes, the same"
done
