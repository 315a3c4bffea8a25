#!/usr/bin/env bash
# Backs a folder that changes daily up for a month, to four clouds that are processes, and deletes the oldest day once seven are kept: days.sh
# [DAYS]. Each day another one that is kept comes back from some three clouds; in the end each does from any three, no deleted one does, and a
# cloud that was started anew in between says the same. A user whose days are deleted so has never more than seven versions, and it never fills.
# shellcheck source=clouds.sh
. "$(dirname "$0")/clouds.sh"
days="${1:-30}"
kept=7
[[ "$days" =~ ^[1-9][0-9]*$ ]] || fail "the words are [DAYS]"
for cloud in 0 1 2 3; do
    start "$cloud" 4294967295
done

mkdir "$work/folder" "$work/days"
for file in 1 2 3 4 5 6 7 8; do
    head -c $((20000 * file)) /dev/urandom > "$work/folder/file $file"
done

# The folder as one file, the same each time that it is the same.
packed() {
    tar --create --sort=name --mtime=@0 --owner=0 --group=0 --numeric-owner --directory="$work/folder" .
}

# Sees a day come back without one of the clouds: comes_back DAY CLOUD.
comes_back() {
    local three=("${address[@]}")
    unset "three[$2]"
    "$program" restore 7 folder "$1" "${three[@]}" > "$work/back" || fail "day $1 without cloud $2: status $?, $(tail -n 1 "$work/back")"
    cmp "$work/back" "$work/days/$1" || fail "day $1 without cloud $2 differs"
}

for day in $(seq "$days"); do
    file="$work/folder/file $((day % 8 + 1))"
    echo "day $day" >> "$file"
    head -c 3000 /dev/urandom | dd of="$file" conv=notrunc bs=1000 seek=$((day % 17)) 2> "$work/said"
    packed > "$work/days/$day"
    says 0 '*end 1 stored' backup 7 folder "$day" "${address[@]}" < "$work/days/$day"
    oldest=$((day - kept))
    if [ "$oldest" -ge 1 ]; then
        says 0 $'deleted 0\ndeleted 1\ndeleted 2\ndeleted 3' delete 7 folder "$oldest" "${address[@]}"
        rm "$work/days/$oldest"
    fi
    first=$((oldest < 0 ? 1 : oldest + 1))
    comes_back $((first + RANDOM % (day - first + 1))) $((RANDOM % 4))
    if [ $((day % 10)) = 5 ]; then
        cloud=$((day / 10 % 4))
        lose "$cloud"
        start "$cloud" 4294967295
    fi
done
for day in $(seq "$days"); do
    if [ -e "$work/days/$day" ]; then
        for left in 0 1 2 3; do
            comes_back "$day" "$left"
        done
    else
        says 8 'refused missing 1' restore 7 folder "$day" "${address[@]:1}"
    fi
done
echo "$days days were backed up to four clouds; the last $kept came back from any three, and each day before was deleted." \
    "$(stat -c %s "$work/provider0/cloud0/shares") bytes of shares lie at cloud 0."
