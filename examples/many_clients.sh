#!/usr/bin/env bash
# Eight clients at once over four clouds, each a process: many_clients.sh [ROUNDS [CLIENTS]], 12 rounds of 8 clients where nothing is said,
# and 15 clients at most, each a user, since a cloud begins with rooms for the users 0 to 15.
#
# In each round a client stores a new version or reads one of its own back from three clouds of the four, as chance has it, and compares it.
# One backup in ten is killed at some moment. All others end with status 0: clients take the clouds in one order, so none waits for another in
# a ring; one that takes more than a minute is ended, and counts as status 124. It ends with a line of how many there were and the longest that
# one took, and with 0 only where each did as it has to.
# shellcheck source=clouds.sh
. "$(dirname "$0")/clouds.sh"
rounds="${1:-12}" clients="${2:-8}"
[ "$clients" -le 15 ] || { echo "15 clients at most" >&2; exit 1; }

for cloud in 0 1 2 3; do
    start "$cloud" 1000000
done

# A backup that is killed within a third of a second: killed USER VERSION FILE.
killed() {
    local pid
    "$program" backup "$1" notes "$2" "${address[@]}" < "$3" > /dev/null 2>&1 &
    pid=$!
    sleep "0.$((RANDOM % 30 + 1))"
    kill -9 "$pid" 2> /dev/null || true
    wait "$pid" 2> /dev/null || true
}

# Three of the clouds, in their order.
three() {
    local left=$((RANDOM % 4)) cloud
    for cloud in 0 1 2 3; do
        [ "$cloud" = "$left" ] || echo "${address[cloud]}"
    done
}

# What one client does: client USER.
client() {
    local user="$1" own="$work/client$1" version=0 kept=() status which begun
    RANDOM=$user
    mkdir "$own"
    for ((round = 0; round < rounds; round++)); do
        begun=$(date +%s%N)
        status=0
        if [ "${#kept[@]}" = 0 ] || ((RANDOM % 2)); then
            version=$((version + 1))
            head -c $((RANDOM % 30000 + 1)) /dev/urandom > "$own/$version"
            if ((RANDOM % 10 == 0)); then
                killed "$user" "$version" "$own/$version"
                continue
            fi
            timeout 60 "$program" backup "$user" notes "$version" "${address[@]}" < "$own/$version" > "$own/lines" || status=$?
            kept+=("$version")
        else
            which="${kept[RANDOM % ${#kept[@]}]}"
            mapfile -t some < <(three)
            timeout 60 "$program" restore "$user" notes "$which" "${some[@]}" > "$own/read" || status=$?
            cmp -s "$own/read" "$own/$which" || status="$status, and another file than was stored"
        fi
        echo "$(((($(date +%s%N) - begun)) / 1000000)) $status" >> "$own/ended"
    done
}

pids=()
for ((user = 1; user <= clients; user++)); do
    client "$user" &
    pids+=($!)
done
for pid in "${pids[@]}"; do
    wait "$pid" || fail "a client ended with status $?"
done
cat "$work"/client*/ended > "$work/ended"
awk '$2 != "0" { print "a client: status " substr($0, index($0, " ") + 1); bad = 1 }
    $1 > longest { longest = $1 }
    END { print NR " backups and restores, the longest took " longest " ms"; exit bad }' "$work/ended"
