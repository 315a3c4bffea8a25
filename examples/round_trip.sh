#!/usr/bin/env bash
# Puts a real file on four clouds in a folder, reads it back from the last three, and compares: round_trip.sh [FILE].
# A file may have 67,108,864 bytes.
. "$(dirname "$0")/program.sh"
file="$(cd "$(dirname "${1:-$top/README.md}")" && pwd)/$(basename "${1:-$top/README.md}")"
od -An -v -tx1 "$file" | tr -d ' \n' > "$work/sent"
[ -s "$work/sent" ] || printf -- - > "$work/sent"
{
    printf 'cdstore 1 4 3\nupload 7 66696c65 1 '
    cat "$work/sent"
    printf '\nfinish 1\nget 7 66696c65 1 1,2,3\n'
} > "$work/script"

cdstore replay "$work/clouds" < "$work/script" > "$work/transcript" 2> "$work/log" || { cat "$work/log"; exit 1; }
sed -n 's/^got //p' "$work/transcript" | tr -d '\n' > "$work/back"
cmp "$work/sent" "$work/back" && echo "$file came back from clouds 1, 2 and 3: $(stat -c %s "$file") bytes, the same"
wc -c "$work"/clouds/cloud*/*
