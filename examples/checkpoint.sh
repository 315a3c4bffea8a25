#!/usr/bin/env bash
# Stores an empty version 300 times over four clouds in a folder, and deletes it at each of them, in small rooms: 600 commands a cloud, of which
# a checkpoint comes in place of some when the half of the journal is full. It looks at each answer, at how many commands a cloud counts as it is
# opened again, and at the bytes of each cloud's files: the second half of a journal begins at 134,217,728.
. "$(dirname "$0")/program.sh"

{
    echo "cdstore 1 4 3 10 1000 10000 10 10"
    for job in $(seq 300); do
        printf '%s\n' "upload 7 61 1 -" "finish $job" "delete 7 61 1 0" "delete 7 61 1 1" "delete 7 61 1 2" "delete 7 61 1 3"
    done
    echo "restart 0"
} > "$work/script"
{
    echo "open 4 3"
    for job in $(seq 300); do
        printf '%s\n' "job $job" "step $job 0 committed" "step $job 1 committed" "step $job 2 committed" "step $job 3 committed" "stored $job" \
            "end $job stored" "deleted 0" "deleted 1" "deleted 2" "deleted 3"
    done
    printf '%s\n' "restarted 0 600" "done 1801"
} > "$work/wanted"
cdstore replay "$work/clouds" < "$work/script" > "$work/transcript"
cmp "$work/wanted" "$work/transcript"
for cloud in 0 1 2 3; do
    [ "$(stat -c %s "$work/clouds/cloud$cloud/journal")" = 134230205 ]
    [ ! -s "$work/clouds/cloud$cloud/shares" ]
    [ "$(stat -c %s "$work/clouds/cloud$cloud/recipes")" = 7500 ]
done
echo "300 versions were stored and deleted at four clouds, each of which made one checkpoint in 600 commands."
