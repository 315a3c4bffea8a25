#!/usr/bin/env bash
# Gives dead space of clouds back: reclaim.sh [DAYS]. First over clouds in a folder: a version is deleted, what is left is copied, twice, and read
# back; a rotten byte stops it, and nothing is lost; nothing is left, or two users have one share; and a reclaim is killed at some moment, and
# asked again. Then eight files are backed up for a month to four clouds that are processes, one a day, and
# old versions deleted; each week the servers stop and each cloud is reclaimed. From the second time on the disk holds at most 2.2 times what is
# alive, and each version that is kept comes back from some three clouds.
# shellcheck source=clouds.sh
. "$(dirname "$0")/clouds.sh"
days="${1:-35}"
[[ "$days" =~ ^[1-9][0-9]*$ ]] || fail "the words are [DAYS]"

# ---- over clouds in a folder

# Sees how many bytes the areas of a cloud have: long CLOUD JOURNAL SHARES RECIPES
long() {
    local area wanted="$2 $3 $4" found=''
    for area in journal shares recipes; do
        found="$found $(stat -c %s "$work/folder/cloud$1/$area")"
    done
    [ "$found" = " $wanted" ] || fail "cloud $1 has$found bytes"
}

printf '%s\n' 'cdstore 1 4 3' 'upload 7 61 1 41' 'finish 1' 'upload 7 62 1 42' 'finish 2' \
    'delete 7 61 1 0' 'delete 7 61 1 1' 'delete 7 61 1 2' 'delete 7 61 1 3' > "$work/script"
"$program" replay "$work/folder" < "$work/script" > "$work/transcript"
long 0 394 22 122
cp -r "$work/folder" "$work/before"
cp -r "$work/folder" "$work/deleted"
says 0 'reclaimed 0 11 61 1' reclaim "$work/folder" 0 4 3
long 0 134217972 34359738379 34359738429
says 0 'reclaimed 0 11 61 0' reclaim "$work/folder" 0 4 3
long 0 134217972 34359738379 34359738429
for cloud in 1 2 3; do
    says 0 "reclaimed $cloud 11 61 1" reclaim "$work/folder" "$cloud" 4 3
done
for clouds in 0,1,2 0,1,3 0,2,3 1,2,3; do
    says 0 B read "$work/folder" 4 3 7 b 1 "$clouds"
    says 8 'refused missing *' read "$work/folder" 4 3 7 a 1 "$clouds"
done
for cloud in 0 1 2 3; do
    "$program" audit "$work/folder" "$cloud" 4 3 > "$work/certificate"
    says 0 "whole $cloud 2" check "$work/folder" "$cloud" 4 3 < "$work/certificate"
done

# a byte of the share that is left, and of the one that nobody owns
printf '\0' | dd of="$work/before/cloud0/shares" bs=1 seek=11 conv=notrunc 2> "$work/said"
says 8 'refused rotten 0 *' reclaim "$work/before" 0 4 3
printf '\0' | dd of="$work/before/cloud1/shares" bs=1 conv=notrunc 2> "$work/said"
says 0 'reclaimed 1 11 61 1' reclaim "$work/before" 1 4 3
says 7 'notbegun 0 0' reclaim "$work/nothing" 0 4 3

# Reclaims cloud 0 of what a session stored, and sees what it says, and how long its areas are then: is_reclaimed LINE "LENGTHS" LINES..
is_reclaimed() {
    local line="$1" lengths="$2"
    shift 2
    rm -rf "$work/folder"
    printf '%s\n' 'cdstore 1 4 3 10 1000 10000 10 10' "$@" > "$work/script"
    "$program" replay "$work/folder" < "$work/script" > "$work/transcript"
    says 0 "$line" reclaim "$work/folder" 0 4 3
    # shellcheck disable=SC2086
    long 0 $lengths
}

two=('upload 7 61 1 41' 'finish 1' 'upload 7 62 1 42' 'finish 2')

# one of two versions deleted, at each cloud
is_reclaimed 'reclaimed 0 11 61 1' '134217972 34359738379 34359738429' "${two[@]}" \
    'delete 7 61 1 0' 'delete 7 61 1 1' 'delete 7 61 1 2' 'delete 7 61 1 3'
says 0 B read "$work/folder" 4 3 7 b 1 0,1,2
says 8 'refused missing 0' read "$work/folder" 4 3 7 a 1 0,1,2

# both, at cloud 0 alone
is_reclaimed 'reclaimed 0 0 0 2' '134217791 22 122' "${two[@]}" 'delete 7 61 1 0' 'delete 7 62 1 0'
says 8 'refused missing 0' read "$work/folder" 4 3 7 b 1 0,1,2
says 0 A read "$work/folder" 4 3 7 a 1 0,1,2,3
says 0 B read "$work/folder" 4 3 7 b 1 1,2,3

# two users with one share, which lies there once
is_reclaimed 'reclaimed 0 11 122 0' '134218141 34359738379 34359738490' 'upload 7 61 1 41' 'finish 1' 'upload 8 61 1 41' 'finish 2'
says 0 A read "$work/folder" 4 3 7 a 1 0,1,2
says 0 A read "$work/folder" 4 3 8 a 1 0,2,3

# one whose line can't be written is reclaimed all the same
status=0
"$program" reclaim "$work/folder" 1 4 3 > /dev/full || status=$?
[ "$status" = 4 ] || fail "a reclaim to a full disk ended with status $status"
long 1 134218141 34359738379 34359738490
says 0 'reclaimed 1 11 122 0' reclaim "$work/folder" 1 4 3

# one that is killed, and asked again: the share that nobody owns is still there, or it isn't
for _ in $(seq 1 20); do
    rm -rf "$work/killed"
    cp -r "$work/deleted" "$work/killed"
    "$program" reclaim "$work/killed" 0 4 3 > "$work/said" &
    server=$!
    sleep "0.00$((RANDOM % 10))"
    kill -9 "$server" 2> /dev/null || true
    wait "$server" 2> /dev/null || true
    says 0 B read "$work/killed" 4 3 7 b 1 0,1,2
    says 8 'refused missing 0' read "$work/killed" 4 3 7 a 1 0,1,2
    says 0 'reclaimed 0 11 61 [01]' reclaim "$work/killed" 0 4 3
    says 0 'reclaimed 0 11 61 0' reclaim "$work/killed" 0 4 3
    says 0 B read "$work/killed" 4 3 7 b 1 0,1,2
done

# ---- a month

for cloud in 0 1 2 3; do
    start "$cloud" 4294967295
done
mkdir "$work/files" "$work/kept"
for file in 1 2 3 4 5 6 7 8; do
    head -c $((300000 * file)) /dev/urandom > "$work/files/$file"
done

# Backs a file up as a day's version: keep FILE DAY
keep() {
    says 0 '*end 1 stored' backup 7 "file$1" "$2" "${address[@]}" < "$work/files/$1"
    cp "$work/files/$1" "$work/kept/$1-$2"
}

# Sees a version come back without one of the clouds: comes_back FILE DAY CLOUD
comes_back() {
    local three=("${address[@]}")
    unset "three[$3]"
    "$program" restore 7 "file$1" "$2" "${three[@]}" > "$work/back" || fail "file $1 of day $2 without cloud $3: status $?"
    cmp "$work/back" "$work/kept/$1-$2" || fail "file $1 of day $2 without cloud $3 differs"
}

for file in 1 2 3 4 5 6 7 8; do
    keep "$file" 1
done
weeks=0 live=0 held=0
for day in $(seq 2 "$days"); do
    file=$((day % 8 + 1))
    head -c 3000 /dev/urandom | dd of="$work/files/$file" conv=notrunc bs=1000 seek=$((day * 7)) 2> "$work/said"
    keep "$file" "$day"
    old=$((day - 16))
    [ "$old" -ge 1 ] || old=1
    if [ "$day" -gt 16 ] && [ -e "$work/kept/$file-$old" ]; then
        says 0 $'deleted 0\ndeleted 1\ndeleted 2\ndeleted 3' delete 7 "file$file" "$old" "${address[@]}"
        rm "$work/kept/$file-$old"
    fi
    [ $((day % 7)) = 0 ] || continue
    weeks=$((weeks + 1))
    for cloud in 0 1 2 3; do
        lose "$cloud"
        "$program" reclaim "$work/provider$cloud" "$cloud" 4 3 > "$work/lines" || fail "the reclaim of cloud $cloud: status $?"
        read -r _ _ shares recipes _ < "$work/lines"
        live=$((shares + recipes))
        held=$(($(du -k "$work/provider$cloud/cloud$cloud" | cut -f 1) * 1024))
        [ "$weeks" -lt 2 ] || [ $((held * 10)) -le $((live * 22)) ] || fail "cloud $cloud holds $held bytes on the disk for $live that are alive"
        start "$cloud" 4294967295
    done
    for version in "$work"/kept/*; do
        name="$(basename "$version")"
        comes_back "${name%-*}" "${name#*-}" $((RANDOM % 4))
    done
done
echo "$days days of eight files were backed up, old versions deleted, and each cloud reclaimed $weeks times: $live bytes are alive at the last cloud," \
    "$held lie on its disk."
