#!/usr/bin/env bash
# A backup that outlives a loss: keeps a file in a folder of the client's own, loses one of four clouds while the others take it, goes on
# when the cloud is back, and gets the file from three of them. A cloud that has the version isn't asked again. The file has so many
# bytes: spool.sh [BYTES]
# shellcheck source=clouds.sh
. "$(dirname "$0")/clouds.sh"
folder="$work/spool"
head -c "${1:-24000000}" /dev/urandom > "$work/file"
for cloud in 0 1 2 3; do
    start "$cloud" 100
done

# a cloud that isn't reached: nothing is kept
lose 3
says 9 '' spool "$folder" 7 file 1 "${address[@]}" < "$work/file"
start 3 100
says 0 nospool resume "$folder" "${address[@]}"

# one that goes away when the job is kept, and before its own turn comes
"$program" spool "$folder" 7 file 1 "${address[@]}" < "$work/file" > "$work/spooled" &
client=$!
kept_or_ended() {
    [ -s "$folder/cloud0/journal" ] || ended "$client"
}
await "spool keeps its job" kept_or_ended
lose 3
await "spool ends, as a cloud went away" ended "$client"
status=0
wait "$client" || status=$?
# (8 where its stream was seen to end, and 9 where it was cut)
[ "$status" = 8 ] || [ "$status" = 9 ] || fail "spool ended with status $status: $(tail -n 1 "$work/spooled")"
grep -qx 'step 1 2 committed' "$work/spooled" || fail "cloud 2 didn't take the version"

start 3 100
says 7 'store 0 journal *' spool "$folder" 7 file 2 "${address[@]}" < "$work/file"
says 0 $'job 1\nstep 1 3 *\nstored 1\nend 1 stored' resume "$folder" "${address[@]}"
! grep -q '^step 1 [012] ' "$work/lines" || fail "a cloud that has the version was asked again"
says 0 nospool resume "$folder" "${address[@]}"
"$program" restore 7 file 1 "${address[@]:1}" > "$work/back" || fail "restore ended with status $?"
cmp "$work/file" "$work/back"
echo "A file was kept until each of four clouds had it, one of which went away meanwhile, and came back from three of them."
