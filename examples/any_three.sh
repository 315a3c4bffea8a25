#!/usr/bin/env bash
# Puts a file of 4 MiB of noise on four clouds in a folder, reads it back from each choice of three of them, and compares.
. "$(dirname "$0")/program.sh"

head -c 4194304 /dev/urandom | od -An -v -tx1 | tr -d ' \n' > "$work/sent"
{
    printf 'cdstore 1 4 3\nupload 7 6e6f697365 1 '
    cat "$work/sent"
    printf '\nfinish 1\n'
    for clouds in 0,1,2 0,1,3 0,2,3 1,2,3; do echo "get 7 6e6f697365 1 $clouds"; done
} > "$work/script"

cdstore replay "$work/clouds" < "$work/script" > "$work/transcript" 2> "$work/log" || { cat "$work/log"; exit 1; }
{
    for _ in 1 2 3 4; do printf 'got '; cat "$work/sent"; printf '\n'; done
    echo 'done 6'
} > "$work/wanted"
grep -E '^(got|refused|done) ' "$work/transcript" | cmp - "$work/wanted" && echo "4 MiB came back from each three of four clouds, byte for byte"
