#!/usr/bin/env bash
# Kills `spool` at random moments, each time without a word, and the `resume` behind it too, and then lets `resume` go on until it ends:
# each cloud has the version once then, and the client's folder keeps no job. What the folder noted isn't asked again: the last `resume` has
# no line of such a cloud, and, where there is python3 to count it, sent it no more than its Hello. That one alone goes through the relay that
# counts, so that no line of a client that was killed comes among its own, however late. So many times: spool_kill.sh [TIMES]
. "$(dirname "$0")/clouds.sh"
times="${1:-10}"
folder="$work/spool"

for cloud in 0 1 2 3; do
    start "$cloud" 100000
done
reached=("${address[@]}")
: > "$work/sent"
if command -v python3 > /dev/null; then
    coproc relay { exec python3 "$top/examples/relay.py" "$work/sent" "${address[@]}"; }
    servers[4]="$relay_PID"
    for cloud in 0 1 2 3; do
        read -r -t 60 -u "${relay[0]}" "reached[cloud]" || fail "the relay named no port for cloud $cloud within a minute"
    done
fi

# Whether the relay has a line of each cloud's connection, as each ends.
all_counted() {
    [ "$(wc -l < "$work/sent")" = 4 ]
}

# Runs the program, and kills it within the time that a whole backup took: cut_off WORDS..
cut_off() {
    "$program" "$@" <&0 > "$work/said" 2> /dev/null &
    local client=$! moment=$((RANDOM * span / 32768))
    sleep "$(printf '%d.%03d' "$((moment / 1000))" "$((moment % 1000))")"
    kill -9 "$client" 2> /dev/null || true
    wait "$client" 2> /dev/null || true
}

# The clouds that the folder noted: records of two bytes behind the job's, which lies behind 42 bytes. A record is a gate that is open, a
# length of four bytes, and a body.
noted() {
    local bytes at=$((42 + 4 + 56 + ${#path} - 1))
    mapfile -t bytes < <(od -An -v -tx1 -w1 "$folder/cloud0/journal" 2> /dev/null | tr -d ' ')
    while [ "${bytes[*]:at:6}" = "01 00 00 00 02 02" ]; do
        echo "$((16#${bytes[at + 6]}))"
        at=$((at + 7))
    done
}

path=file
going=0 kept=0
head -c 3000000 /dev/urandom > "$work/file"
begun="$(date +%s%N)"
"$program" spool "$folder" 7 whole 1 "${address[@]}" < "$work/file" > "$work/said" || fail "a spool ended with status $?"
span=$((($(date +%s%N) - begun) / 1000000))
for time in $(seq "$times"); do
    user=$((time % 16))
    head -c 3000000 /dev/urandom > "$work/file"
    cut_off spool "$folder" "$user" "$path" "$time" "${address[@]}" < "$work/file"
    cut_off resume "$folder" "${address[@]}"
    mapfile -t before < <(noted)
    : > "$work/sent"
    status=0
    "$program" resume "$folder" "${reached[@]}" > "$work/said" || status=$?
    [ "$status" = 0 ] || fail "resume $time ended with status $status: $(cat "$work/said")"
    if [ "${reached[*]}" != "${address[*]}" ]; then
        await "the relay has a line of each cloud that resume $time spoke to" all_counted
    fi
    last="$(tail -n 1 "$work/said")"
    case "$last" in
        'end 1 stored')
            going=$((going + 1)) kept=$((kept + ${#before[@]}))
            for cloud in "${before[@]+"${before[@]}"}"; do
                ! grep -q "^step 1 $cloud " "$work/said" || fail "resume $time asked cloud $cloud, which was noted"
            done
            [ "$(grep -c '^step 1 [0-3] committed$' "$work/said")" = "$((4 - ${#before[@]}))" ] ||
                fail "resume $time, with ${#before[@]} noted, said $(cat "$work/said")"
            if [ "${reached[*]}" != "${address[*]}" ]; then
                for cloud in "${before[@]+"${before[@]}"}"; do
                    grep -qE "^$cloud [0-9]$" "$work/sent" || fail "resume $time sent more than a Hello to cloud $cloud: $(cat "$work/sent")"
                done
            fi
            ;;
        nospool)
            # it was killed before the job was kept, or behind its end: the same again
            "$program" backup "$user" "$path" "$time" "${address[@]}" < "$work/file" > "$work/said" ||
                fail "backup $time ended with status $?: $(tail -n 1 "$work/said")"
            ;;
        *) fail "resume $time said $last" ;;
    esac
    "$program" resume "$folder" "${address[@]}" | grep -qx nospool || fail "a job is kept behind its end"
    [ -z "$(find "$folder/cloud0" -type f -size +0 2> /dev/null)" ] || fail "the folder isn't empty behind its end: $(ls -l "$folder/cloud0")"
    "$program" restore "$user" "$path" "$time" "${address[0]}" "${address[1]}" "${address[2]}" > "$work/back"
    cmp "$work/file" "$work/back" || fail "version $time came back otherwise"
done
echo "each of $times versions is there once; resume ended $going of them, at which $kept clouds were noted; a whole spool took $span ms"
