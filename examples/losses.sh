#!/usr/bin/env bash
# Uploads 72 files to four clouds in a folder, with a request or a reply lost at each of an upload's asks, in three orders of the lanes. Behind all
# of it each area of each cloud has the same bytes as where nothing was lost, and files come back from three clouds. It needs the program alone.
# shellcheck source=clouds.sh
. "$(dirname "$0")/clouds.sh"

# An upload of one byte asks each cloud three times: the clouds in the order in which they are asked
orders=("0 1 2 3 0 1 2 3 0 1 2 3" "3 2 1 0 3 2 1 0 3 2 1 0" "0 0 1 1 2 2 3 3 0 1 2 3")

# The script of the uploads, each of another byte: session WORDS.. In each upload one ask gets the word lose or drop, or neither where
# the words are step.
session() {
    local job=0 order lost word place cloud
    echo 'cdstore 1 4 3'
    for order in "${orders[@]}"; do
        for lost in $(seq 0 11); do
            for word in "$@"; do
                job=$((job + 1)) place=0
                printf 'upload 7 61%02x 1 %02x\n' "$job" "$job"
                for cloud in $order; do
                    if [ "$place" = "$lost" ]; then echo "$word $job $cloud"; else echo "step $job $cloud"; fi
                    place=$((place + 1))
                done
                echo "finish $job"
            done
        done
    done
}

# Replays that into a folder, and sees that so many asks were lost and each file was stored: uploads FOLDER LOST WORDS..
uploads() {
    local folder="$1" lost="$2"
    shift 2
    session "$@" > "$work/script"
    "$program" replay "$folder" < "$work/script" > "$work/transcript" || fail "the session: status $?, $(tail -n 1 "$work/transcript")"
    [ "$(grep -c '^lost ' "$work/transcript")" = "$lost" ] || fail "$(grep -c '^lost ' "$work/transcript") asks were lost"
    grep '^end ' "$work/transcript" | cmp - <(printf 'end %d stored\n' $(seq 1 72)) || fail "a file wasn't stored"
}

uploads "$work/whole" 0 step step
uploads "$work/lossy" 72 lose drop
diff -r "$work/whole" "$work/lossy"
for job in 1 37 72; do
    says 0 "$(printf '%b' "\\x$(printf '%02x' "$job")")" read "$work/lossy" 4 3 7 "a$(printf '%b' "\\x$(printf '%02x' "$job")")" 1 1,2,3
done
echo "72 uploads of which each lost a request or a reply left four clouds with the same bytes as 72 that lost none."
