#!/usr/bin/env bash
# Kills the program by `kill -9`, between and inside the lines of a session over four clouds in a folder, and looks at what it left:
# kill.sh [KILLS]. It takes the program that CDSTORE names, or else builds one in a folder of its own.
#
# Each journal is then the journal of a session that wasn't killed, up to a place: either it ends there, or the gate there, which that
# session opened, is still closed. The last version that the transcript says is stored is read back from two of the three folders,
# byte for byte. And a new replay over the folder begins with what stands there: it names the first area that has bytes and ends with
# status 7, or it runs if nothing was written yet.
set -eu
kills="${1:-200}"
. "$(dirname "$0")/../bench/build.sh"
if [ -n "${CDSTORE:-}" ]; then
    program="$CDSTORE"
else
    take cdstore
    cp "$top/HANDLES" "$work/HANDLES"
    (cd "$work/crates/cdstore" && rt run -- --version) > "$work/log" 2>&1 || { cat "$work/log"; exit 1; }
    program="$work/crates/cdstore/out/cdstore"
fi
printf 'cdstore 1 3 2\n' > "$work/script"
version() { # the bytes of a job's file, in hexadecimal
    printf '%s%06x' "$(head -c 3000 /dev/zero | od -An -v -tx1 | tr -d ' \n')" "$1"
}
for job in $(seq 1 40); do
    bytes="$(version "$job")"
    printf 'upload %d 61 %d %s\nstep %d 0\nstep %d 1\nfinish %d\n' "$((job % 3))" "$job" "$bytes" "$job" "$job" "$job"
done >> "$work/script"
"$program" replay "$work/whole" < "$work/script" > "$work/transcript"

dead=0
back=0
for kill in $(seq 1 "$kills"); do
    rm -rf "$work/clouds"
    "$program" replay "$work/clouds" < "$work/script" > "$work/partly" 2> /dev/null &
    pid=$!
    sleep "0.$(printf '%03d' $((RANDOM % 1000)))"
    if kill -9 "$pid" 2> /dev/null; then dead=$((dead + 1)); fi
    wait "$pid" 2> /dev/null || true
    for cloud in 0 1 2; do
        journal="$work/clouds/cloud$cloud/journal"
        [ -s "$journal" ] || continue
        first="$(cmp -l "$journal" "$work/whole/cloud$cloud/journal" 2> /dev/null | head -1)"
        set -- $first
        [ -z "$first" ] || [ "$2 $3" = "0 1" ] || { echo "kill $kill: cloud $cloud's journal differs: $first"; exit 1; }
    done
    job="$(sed -n 's/^stored //p' "$work/partly" | tail -n 1)"
    if [ -n "$job" ]; then
        pairs=(0,1 0,2 1,2)
        clouds="${pairs[RANDOM % 3]}"
        "$program" read "$work/clouds" 3 2 "$((job % 3))" a "$job" "$clouds" > "$work/file" ||
            { echo "kill $kill: job $job is stored, and clouds $clouds say:"; cat "$work/file"; exit 1; }
        [ "$(od -An -v -tx1 "$work/file" | tr -d ' \n')" = "$(version "$job")" ] ||
            { echo "kill $kill: clouds $clouds gave other bytes of job $job"; exit 1; }
        back=$((back + 1))
    fi
    status=0
    printf 'cdstore 1 3 2\n' | "$program" replay "$work/clouds" > "$work/again" || status=$?
    case "$status $(head -c 5 "$work/again")" in
        "7 store" | "0 open ") ;;
        *) echo "kill $kill: a new replay said $status"; cat "$work/again"; exit 1 ;;
    esac
done
echo "$dead of $kills runs were killed, and each left a front of its commands on each cloud; $back times a stored version was read back"
