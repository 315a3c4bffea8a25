#!/usr/bin/env bash
# Takes the stores of format 1 in examples/format_1, which earlier releases wrote, over into the present format. Each cloud is migrated by itself,
# and its shares and recipes stay as they are; asked again it says that it is. A user that would keep too much is named, and nothing is changed; a
# migration is killed at some moment, and asked again. Each version then comes back from any k of the folders; four clouds are served,
# backed up to and restored from, and at last reclaimed.
# shellcheck source=clouds.sh
. "$(dirname "$0")/clouds.sh"
cp -r "$top/examples/format_1" "$work/stores"
usual=(16 536870912 67108864 32768 1024)
clouds=0 versions=0

# ---- what isn't migrated

first="$work/stores/two_users"
says 8 'refused toolarge 7 files 3 2' migrate "$first" 0 4 3 16 536870912 67108864 32768 2
says 8 'refused toolarge 7 recipes 153 0' migrate "$first" 0 4 3 16 536870912 0 32768 2
says 8 'refused toolarge 7 shares 34 33' migrate "$first" 0 4 3 16 33 0 32768 2
says 8 'refused toolarge 7 owners 2 1' migrate "$first" 0 4 3 16 33 0 1 2
says 8 'refused toolarge 7 owners 2 0' migrate "$first" 0 4 3 7 33 0 1 2
says 8 'refused toolarge 8 owners 1 0' migrate "$first" 0 4 3 8 536870912 67108864 32768 1024
says 7 'other 0 1 4 3 0' migrate "$first" 0 4 2 "${usual[@]}"
says 7 'notbegun 0 0' migrate "$work/nothing" 0 4 3 "${usual[@]}"
for words in "0 1 1 1 1" "257 1 1 1 1" "16 536870913 1 1 1" "16 1 67108865 1 1" "16 1 1 32769 1" "16 1 1 1 1025" "16 1 1 1"; do
    # shellcheck disable=SC2086
    says 1 '' migrate "$first" 0 4 3 $words
done
diff -r "$top/examples/format_1" "$work/stores"

# ---- the migration of each cloud

# Migrates each cloud of a store, which has so many commands then: is_taken STORE N K COMMANDS..
is_taken() {
    local store="$work/stores/$1" before="$top/examples/format_1/$1" n="$2" k="$3" cloud=0 commands area
    shift 3
    for commands in "$@"; do
        says 7 "other $cloud 1 $n $k $cloud" audit "$store" "$cloud" "$n" "$k"
        says 0 "migrated $cloud $commands" migrate "$store" "$cloud" "$n" "$k" "${usual[@]}"
        for area in shares recipes; do
            cmp "$store/cloud$cloud/$area" "$before/cloud$cloud/$area" || fail "$area of cloud $cloud of $1 have changed"
        done
        says 8 "refused already $cloud" migrate "$store" "$cloud" "$n" "$k" 1 0 0 0 0
        "$program" audit "$store" "$cloud" "$n" "$k" > "$work/certificate" || fail "the audit of cloud $cloud of $1: status $?"
        says 0 "whole $cloud *" check "$store" "$cloud" "$n" "$k" < "$work/certificate"
        cloud=$((cloud + 1)) clouds=$((clouds + 1))
    done
}

# Sees that a version, on standard input, comes back from each of these choices of clouds: comes_back STORE N K USER PATH VERSION CLOUDS..
comes_back() {
    local store="$work/stores/$1" n="$2" k="$3" user="$4" path="$5" version="$6" some
    cat > "$work/wanted"
    shift 6
    for some in "$@"; do
        "$program" read "$store" "$n" "$k" "$user" "$path" "$version" "$some" > "$work/back" || fail "$path $version from $some: status $?"
        cmp "$work/back" "$work/wanted" || fail "$path $version from $some differs"
    done
    versions=$((versions + 1))
}

is_taken two_users 4 3 6 6 6 6
[ "$(stat -c %s "$first/cloud0/journal")" = 134218374 ] || fail "the journal has $(stat -c %s "$first/cloud0/journal") bytes"
threes=(0,1,2 0,1,3 0,2,3 1,2,3)
comes_back two_users 4 3 7 notes 1 "${threes[@]}" <<< 'Call Anna, and bring milk.'
comes_back two_users 4 3 8 notes 1 "${threes[@]}" <<< 'Call Anna, and bring milk.'
comes_back two_users 4 3 7 notes 2 "${threes[@]}" <<< 'Call Bob.'
comes_back two_users 4 3 7 empty 1 "${threes[@]}" < /dev/null

is_taken numbers 4 3 3 3 3 3
comes_back numbers 4 3 7 numbers 1 "${threes[@]}" < <(seq 1 4000)
comes_back numbers 4 3 7 numbers 2 "${threes[@]}" < <(echo zero; seq 1 4000)

# cloud 1 was stopped within the Put of the second version
is_taken cut 4 2 4 2 4 4
comes_back cut 4 2 7 notes 1 0,1 0,2 0,3 1,2 1,3 2,3 < <(printf 'Hello, clouds.')
comes_back cut 4 2 9 notes 1 0,2 0,3 2,3 < <(printf 'Hello, clouds.')
says 8 'refused missing 1' read "$work/stores/cut" 4 2 9 notes 1 0,1

# the third version had no room
is_taken small_rooms 3 2 3 3 3
comes_back small_rooms 3 2 7 a 1 0,1 0,2 1,2 < <(printf 'A')
comes_back small_rooms 3 2 7 b 1 0,1 0,2 1,2 < <(printf 'BB')
says 8 'refused missing *' read "$work/stores/small_rooms" 3 2 7 c 1 0,1

# ---- a store of one byte

# It is stored by a session, and each journal begins with a start of format 1 then: records are the same in both formats.
small="$work/stores/small"
printf '%s\n' 'cdstore 1 4 3' 'upload 7 61 1 41' 'finish 1' > "$work/script"
"$program" replay "$small" < "$work/script" > "$work/transcript"
for cloud in 0 1 2 3; do
    tail -c +42 "$small/cloud$cloud/journal" > "$work/records"
    { printf '\1\0\0\0\10CDST\1\4\3%b' "\\0$cloud" && cat "$work/records"; } > "$small/cloud$cloud/journal"
done
cp -r "$small" "$work/old"

# Sees how many bytes the areas of its cloud 0 have: long JOURNAL SHARES RECIPES
long() {
    local found
    found="$(stat -c %s "$small/cloud0/journal" "$small/cloud0/shares" "$small/cloud0/recipes" | paste -s -d ' ')"
    [ "$found" = "$*" ] || fail "cloud 0 has $found bytes"
}

long 165 11 61
# each room of a user too narrow by itself, a user too many, another shape, a cloud that is empty, and no user
says 8 'refused toolarge 7 shares 11 10' migrate "$small" 0 4 3 16 10 1000 10 10
says 8 'refused toolarge 7 recipes 61 60' migrate "$small" 0 4 3 16 1000 60 10 10
says 8 'refused toolarge 7 owners 1 0' migrate "$small" 0 4 3 16 1000 1000 0 10
says 8 'refused toolarge 7 files 1 0' migrate "$small" 0 4 3 16 1000 1000 10 0
says 8 'refused toolarge 7 owners 1 0' migrate "$small" 0 4 3 7 1000 1000 10 10
says 7 'other 0 1 4 3 0' migrate "$small" 0 4 2 16 1000 1000 10 10
says 7 'notbegun 4 0' migrate "$small" 4 5 3 16 1000 1000 10 10
says 1 '' migrate "$small" 0 4 3 0 1000 1000 10 10
says 7 'other 0 1 4 3 0' audit "$small" 0 4 3
for cloud in 0 1 2 3; do
    diff -r "$work/old/cloud$cloud" "$small/cloud$cloud"
done

# the least rooms that are wide enough, and a line that can't be written: that cloud is migrated all the same
for cloud in 0 1 3; do
    says 0 "migrated $cloud 2" migrate "$small" "$cloud" 4 3 8 11 61 1 1
    says 8 "refused already $cloud" migrate "$small" "$cloud" 4 3 8 11 61 1 1
done
status=0
"$program" migrate "$small" 2 4 3 16 1000 1000 10 10 > /dev/full || status=$?
[ "$status" = 4 ] || fail "a migration to a full disk: status $status"
says 8 'refused already 2' migrate "$small" 2 4 3 16 1000 1000 10 10
long 134217972 11 61
comes_back small 4 3 7 a 1 "${threes[@]}" < <(printf A)
clouds=$((clouds + 4))

# ---- one that is killed

for _ in $(seq 1 20); do
    rm -rf "$work/killed"
    cp -r "$top/examples/format_1/numbers" "$work/killed"
    "$program" migrate "$work/killed" 0 4 3 "${usual[@]}" > "$work/said" &
    server=$!
    sleep "0.00$((RANDOM % 10))"
    kill -9 "$server" 2> /dev/null || true
    wait "$server" 2> /dev/null || true
    status=0
    "$program" migrate "$work/killed" 0 4 3 "${usual[@]}" > "$work/lines" || status=$?
    case "$status $(cat "$work/lines")" in
        "0 migrated 0 3" | "8 refused already 0") ;;
        *) fail "behind a kill: status $status, $(cat "$work/lines")" ;;
    esac
    "$program" audit "$work/killed" 0 4 3 > "$work/certificate" || fail "the audit behind a kill: status $?"
done

# ---- as four clouds

for cloud in 0 1 2 3; do
    mkdir "$work/provider$cloud"
    mv "$first/cloud$cloud" "$work/provider$cloud/cloud$cloud"
    start "$cloud" 4294967295
done
printf 'Call Carol.\n' > "$work/next"
says 0 '*end 1 stored' backup 7 notes 3 "${address[@]}" < "$work/next"
printf 'Call Anna, and bring milk.\n' > "$work/kept"
says 0 '*end 1 stored' backup 9 notes 1 "${address[@]}" < "$work/kept"
says 8 '*full *end 1 open' backup 16 notes 1 "${address[@]}" < "$work/kept"

# Sees a version come back without one of the clouds: is_there USER PATH VERSION FILE
is_there() {
    local without three
    for without in 0 1 2 3; do
        three=("${address[@]}")
        unset "three[$without]"
        "$program" restore "$1" "$2" "$3" "${three[@]}" > "$work/back" || fail "$2 $3 without cloud $without: status $?"
        cmp "$work/back" "$4" || fail "$2 $3 without cloud $without differs"
    done
}

is_there 7 notes 1 "$work/kept"
is_there 8 notes 1 "$work/kept"
is_there 9 notes 1 "$work/kept"
is_there 7 notes 3 "$work/next"
says 0 $'deleted 0\ndeleted 1\ndeleted 2\ndeleted 3' delete 7 notes 2 "${address[@]}"
for cloud in 0 1 2 3; do
    lose "$cloud"
    says 0 "reclaimed $cloud * 1" reclaim "$work/provider$cloud" "$cloud" 4 3
    start "$cloud" 4294967295
done
is_there 7 notes 1 "$work/kept"
is_there 7 notes 3 "$work/next"
echo "$clouds clouds of format 1 were migrated, and $versions versions came back; four of them were served, backed up to and reclaimed."
