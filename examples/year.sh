#!/usr/bin/env bash
# A year of use: year.sh [WEEKS], 52 where it isn't given. The four clouds begin as an earlier release left them, in format 1, with a version of
# each of two users, and are moved over. Then three users keep folders that change daily on the clouds, which are processes; two of
# them have the same folder. Now and then a client is killed in the middle, and run again. Each week all but the newest ten days are pruned, the
# servers stop and each cloud is audited and its certificate checked, and a random day of a random user comes back from some three clouds as it
# was, and so do the two versions of before. Each fourth week each cloud is reclaimed, and each thirteenth a cloud is lost, begins anew with nothing and is filled by its users. There is
# a line for each four weeks; the status is 0 only where nothing differed.
# shellcheck source=clouds.sh
. "$(dirname "$0")/clouds.sh"
tools="$(dirname "$0")"
export CDSTORE="$program"
weeks="${1:-52}"
[[ "$weeks" =~ ^[1-9][0-9]*$ ]] || fail "the words are [WEEKS]"
kept=10
mkdir "$work/shared" "$work/own" "$work/states"
folders=('' shared shared own)

# What lies in a folder: names, kinds, modes, times, links and bytes.
state() {
    (cd "$1" && find . -printf '%P %y %m %T@ %l\n' && find . -type f -exec sha256sum {} +) | sort
}

run() { # runs a tool, and shows its lines where it fails: run WORDS..
    "$@" > "$work/lines" || fail "$* ended with status $?: $(cat "$work/lines")"
}

# A day's changes of a folder: a file comes, one goes, one grows and two have some bytes changed.
change() {
    local folder="$work/$1" day="$2" files file
    mkdir -p "$folder/month $((day / 28))"
    head -c $((2000 + RANDOM)) /dev/urandom > "$folder/month $((day / 28))/day $day"
    mapfile -t files < <(find "$folder" -type f | sort)
    echo "day $day" >> "${files[RANDOM % ${#files[@]}]}"
    for _ in 1 2; do
        file="${files[RANDOM % ${#files[@]}]}"
        head -c 500 /dev/urandom | dd of="$file" conv=notrunc bs=100 seek=$((RANDOM % 20)) 2> "$work/said"
    done
    mapfile -t files < <(find "$folder" -name 'day *' | sort)
    [ "${#files[@]}" -lt 30 ] || rm "${files[RANDOM % ${#files[@]}]}"
}

# Keeps a user's folder as a day's version; one time in twelve the client and all that it started are killed first: keep USER DAY
keep() {
    local words=("$tools/backup_folder.sh" --spool "$work/spool$1" "$work/${folders[$1]}" "$work/list$1" "$1" "$2" "${address[@]}") client
    if [ $((RANDOM % 12)) = 0 ]; then
        set -m
        "${words[@]}" > "$work/killed" 2>&1 &
        client=$!
        set +m
        sleep "0.$((RANDOM % 4))$((RANDOM % 10))"
        kill -9 -- "-$client" 2> "$work/said" || true
        wait "$client" 2> "$work/said" || true
        killed=$((killed + 1))
    fi
    run "${words[@]}"
    state "$work/${folders[$1]}" > "$work/states/$1-$2"
}

# Sees a day of a user come back from three clouds, as it was: comes_back USER DAY CLOUD, without this cloud
comes_back() {
    local three=("${address[@]}")
    unset "three[$3]"
    run "$tools/restore_folder.sh" "$work/back" "$1" "$2" "${three[@]}"
    state "$work/back" | diff "$work/states/$1-$2" - > "$work/lines" || fail "day $2 of user $1 without cloud $3 differs: $(head -n 5 "$work/lines")"
    chmod -R u+w "$work/back"
    rm -r "$work/back"
    back=$((back + 1))
}

# A random day that is kept, of a random user, without a random cloud; a day before a cloud was filled anew without that one.
some_day() {
    local user=$((1 + RANDOM % 3)) first=$((today > kept ? today - kept + 1 : 1)) day without=$((RANDOM % 4)) cloud
    day=$((first + RANDOM % (today - first + 1)))
    for cloud in 0 1 2 3; do
        [ "$day" -ge "${since[cloud]}" ] || without="$cloud"
    done
    comes_back "$user" "$day" "$without"
}

# Audits a cloud whose server is stopped, and checks the certificate. What the clouds list is the same: audit CLOUD
audit() {
    local line
    "$program" audit "$work/provider$1" "$1" 4 3 > "$work/certificate" || fail "the audit of cloud $1 ended with status $?"
    line="$("$program" check "$work/provider$1" "$1" 4 3 < "$work/certificate")" || fail "the check of cloud $1 ended with status $?: $line"
    [[ "$line" == "whole $1 "* ]] || fail "the check of cloud $1 said $line"
}

# Reclaims a cloud whose server is stopped, and adds what is alive there: reclaim CLOUD
reclaim() {
    local shares recipes
    "$program" reclaim "$work/provider$1" "$1" 4 3 > "$work/lines" || fail "the reclaim of cloud $1 ended with status $?: $(cat "$work/lines")"
    read -r _ _ shares recipes _ < "$work/lines"
    live=$((live + shares + recipes))
}

# A cloud as an earlier release left it is moved over, to the usual rooms: migrate CLOUD
migrate() {
    local line
    mkdir "$work/provider$1"
    cp -r "$tools/format_1/two_users/cloud$1" "$work/provider$1"
    line="$("$program" migrate "$work/provider$1" "$1" 4 3 16 536870912 67108864 32768 1024)" ||
        fail "the migration of cloud $1 ended with status $?: $line"
    [[ "$line" == "migrated $1 "* ]] || fail "the migration of cloud $1 said $line"
}

# Sees the versions that were moved over come back from three clouds: old_ones CLOUD, without this cloud
old_ones() {
    local three=("${address[@]}") user
    unset "three[$1]"
    for user in 7 8; do
        "$program" restore "$user" notes 1 "${three[@]}" > "$work/back" || fail "the old version of user $user without cloud $1 ended with status $?"
        echo "$old" | cmp - "$work/back" || fail "the old version of user $user without cloud $1 differs"
        rm "$work/back"
    done
}

# A cloud is lost with its disk, begins anew, and is filled from its users' folders: replace CLOUD
replace() {
    local user
    lose "$1"
    rm -r "$work/provider$1"
    start "$1" 4294967295
    today=$((today + 1))
    for user in 1 2 3; do
        run "$tools/backup_folder.sh" --again "$work/${folders[user]}" "$work/list$user" "$user" "$today" "${address[@]}"
        state "$work/${folders[user]}" > "$work/states/$user-$today"
    done
    for user in 7 8; do
        echo "$old" | run "$program" backup "$user" notes 1 "${address[@]}"
    done
    since[$1]="$today"
    replaced=$((replaced + 1))
}

# The bytes that this machine's loopback has sent, which are the clouds' and clients', and those of restores among them.
sent() {
    awk '$1 == "lo:" { print $10 }' /proc/net/dev
}

# The seconds of the processor that all ended children have used, left in `used`.
seconds() {
    times > "$work/times"
    used="$(awk 'END { split($1, user, /[ms]/); split($2, own, /[ms]/); printf "%d", 60 * (user[1] + own[1]) + user[2] + own[2] }' "$work/times")"
}

killed=0 back=0 replaced=0 today=0
since=(0 0 0 0)
old='Call Anna, and bring milk.'
for cloud in 0 1 2 3; do
    migrate "$cloud"
    start "$cloud" 4294967295
done
for file in $(seq 12); do
    head -c $((40000 * file)) /dev/urandom > "$work/shared/file $file"
    head -c $((25000 * file)) /dev/urandom > "$work/own/file $file"
done
echo "weeks | folders MB | sent MB | on disk MB | alive MB | processor s"
seconds
before_sent="$(sent)" before_seconds="$used"
for week in $(seq "$weeks"); do
    for _ in 1 2 3 4 5 6 7; do
        today=$((today + 1))
        change shared "$today"
        change own "$today"
        for user in 1 2 3; do
            keep "$user" "$today"
        done
    done
    for user in 1 2 3; do
        run "$tools/prune_folder.sh" --keep "$kept" "$work/list$user" "$user" "${address[@]}"
    done
    live=0 held=0
    for cloud in 0 1 2 3; do
        lose "$cloud"
        audit "$cloud"
        [ $((week % 4)) != 0 ] || reclaim "$cloud"
        held=$((held + $(du -k "$work/provider$cloud" | tail -n 1 | cut -f 1)))
        start "$cloud" 4294967295
    done
    some_day
    old_ones $((RANDOM % 4))
    [ $((week % 13)) != 0 ] || replace $((week / 13 % 4))
    [ $((week % 4)) = 0 ] || continue
    seconds
    now_sent="$(sent)"
    printf '%5d | %10.1f | %7.1f | %10.1f | %8.1f | %d\n' "$week" "$(du -bc "$work/shared" "$work/shared" "$work/own" | awk 'END { print $1 / 1e6 }')" \
        "$(awk "BEGIN { print ($now_sent - $before_sent) / 1e6 }")" "$(awk "BEGIN { print $held * 1024 / 1e6 }")" \
        "$(awk "BEGIN { print $live / 1e6 }")" "$((used - before_seconds))"
    before_sent="$now_sent" before_seconds="$used"
done
for user in 1 2 3; do
    comes_back "$user" "$today" $((RANDOM % 4))
done
echo "$weeks weeks of three users: $today days were kept, $killed clients killed and run again, $replaced clouds lost and filled anew;" \
    "$back days came back as they were, what was moved over came back each week, and each audit was whole."
