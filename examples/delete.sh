#!/usr/bin/env bash
# Takes a version out at four clouds, each a process: stores it, deletes it, sees that it is gone at all of them, stores other bytes under the
# same version, and reads these back behind a new start of the clouds.
# shellcheck source=clouds.sh
. "$(dirname "$0")/clouds.sh"
for cloud in 0 1 2 3; do
    start "$cloud" 100
done

echo 'Call Anna, and bring milk.' > "$work/first"
echo 'Call Bob.' > "$work/second"
says 0 '*end 1 stored' backup 7 notes 1 "${address[@]}" < "$work/first"
says 8 '*end 1 open' backup 7 notes 1 "${address[@]}" < "$work/second"
says 0 $'deleted 0\ndeleted 1\ndeleted 2\ndeleted 3' delete 7 notes 1 "${address[@]}"
says 8 'refused missing 1' restore 7 notes 1 "${address[@]:1}"
says 0 $'missing 0\nmissing 1\nmissing 2\nmissing 3' delete 7 notes 1 "${address[@]}"
says 0 '*end 1 stored' backup 7 notes 1 "${address[@]}" < "$work/second"
for cloud in 0 1 2 3; do
    lose "$cloud"
    start "$cloud" 100
done
# shellcheck disable=SC2034
for left in 0 1 2 3; do
    three=("${address[@]}")
    unset "three[left]"
    says 0 'Call Bob.' restore 7 notes 1 "${three[@]}"
done
echo "A version was deleted at four clouds, and other bytes under the same name came back from any three of them."
