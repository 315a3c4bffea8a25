#!/usr/bin/env bash
# Four clouds as processes of their own: keeps a folder on them, loses one of them for good, gets everything back from the other three, and
# fills a new cloud in its place: four_clouds.sh [FOLDER].
#
# Without FOLDER it takes the pages in docs/. Each file may have 67,108,864 bytes. It listens on the loopback alone, ends by itself and
# leaves nothing behind.
. "$(dirname "$0")/clouds.sh"
folder="$(cd "${1:-$top/docs}" && pwd)"
mapfile -d '' -t names < <(cd "$folder" && find . -type f -printf '%P\0' | sort -z)
count="${#names[@]}"
[ "$count" -gt 0 ] || fail "there is no file in $folder"
bytes="$(cd "$folder" && find . -type f -printf '%s\n' | awk '{ sum += $1 } END { print sum }')"

# Backs up each file of a folder to all four clouds: back_up_from FOLDER. The transcripts go to $work/transcript.
back_up_from() {
    local name status
    : > "$work/transcript"
    for name in "${names[@]}"; do
        status=0
        "$program" backup 7 "$name" 1 "${address[@]}" < "$1/$name" >> "$work/transcript" || status=$?
        [ "$status" = 0 ] || fail "backup of $name: status $status, $(tail -n 1 "$work/transcript")"
    done
}

# How many shares the transcript says that these clouds were sent: sent_to CLOUDS.
sent_to() {
    awk -v clouds="$1" '$1 == "step" && $4 == "stored" && index(clouds, $3) { sum += $6 } END { print sum + 0 }' "$work/transcript"
}

# Restores each file from three clouds into $work/back, and compares it with the one in the folder: back_from CLOUD CLOUD CLOUD.
back_from() {
    local name status
    rm -rf "$work/back"
    for name in "${names[@]}"; do
        mkdir -p "$(dirname "$work/back/$name")"
        status=0
        "$program" restore 7 "$name" 1 "${address[$1]}" "${address[$2]}" "${address[$3]}" > "$work/back/$name" || status=$?
        [ "$status" = 0 ] || fail "restore of $name: status $status, $(head -c 300 "$work/back/$name")"
        cmp "$folder/$name" "$work/back/$name"
    done
}

stored() {
    find "$work/provider$1" -name shares -printf '%s'
}

echo "Four clouds, each a process with a folder of its own. Any three of them are to give everything back."
for cloud in 0 1 2 3; do start "$cloud" "$((count + (cloud == 1)))"; done
back_up_from "$folder"
lose 1
all_end
echo "  $count files of $folder, $bytes bytes, are on all four: $(stored 0) bytes of shares on each, $(sent_to 0123) shares were sent."

rm -rf "$work/provider1"
echo "Cloud 1 is gone: its process was killed, and its folder is deleted."
for cloud in 0 2 3; do start "$cloud" "$count"; done
back_from 0 2 3
all_end
echo "  All $count files came back from clouds 0, 2 and 3, byte for byte."

echo "A new cloud 1 begins with an empty folder. What came back is backed up once more, as the same versions."
for cloud in 0 1 2 3; do start "$cloud" "$((count + (cloud == 0 ? 0 : count)))"; done
back_up_from "$work/back"
echo "  $(sent_to 1) shares were sent to cloud 1, which has $(stored 1) bytes of them now, and $(sent_to 023) to the others, which knew theirs."
[ "$(sent_to 023)" = 0 ] || fail "a cloud was sent what it has"
back_from 1 2 3
all_end
echo "  All $count files came back from clouds 1, 2 and 3, byte for byte. Each server ended by itself with status 0."
