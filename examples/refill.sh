#!/usr/bin/env bash
# Puts a real file on four clouds in a folder by `replay`, replaces one of them by an empty cloud, fills it again from the other three, and
# reads the file from the disks of the filled cloud and two others: refill.sh [FILE]. A file may have 67,108,864 bytes. Then versions that aren't
# whole are skipped, each with why; and a cloud stops in each write and sync while it is filled, and is filled once more.
. "$(dirname "$0")/program.sh"
file="$(cd "$(dirname "${1:-$top/README.md}")" && pwd)/$(basename "${1:-$top/README.md}")"
bytes="$(od -An -v -tx1 "$file" | tr -d ' \n')"
for lost in 0 1 2 3; do
    rm -rf "$work/clouds"
    others="$(printf '%s\n' 0 1 2 3 | grep -v "$lost" | paste -s -d ,)"
    # the lost one and the last two of the others
    three="$(printf '%s\n' "$lost" $(printf '%s\n' 0 1 2 3 | grep -v "$lost" | tail -n 2) | sort | paste -s -d ,)"
    {
        printf 'cdstore 1 4 3\nupload 7 66696c65 1 %s\nfinish 1\n' "${bytes:--}"
        printf 'replace %s\nget 7 66696c65 1 %s\nrebuild 7 %s %s\n' "$lost" "$three" "$lost" "$others"
    } > "$work/script"
    cdstore replay "$work/clouds" < "$work/script" > "$work/transcript" 2> "$work/log" || { cat "$work/log"; exit 1; }
    tail -n 4 "$work/transcript" | paste -s -d '|' > "$work/last"
    [ "$(cat "$work/last")" = "replaced $lost|refused missing $lost|rebuilt 7 $lost 1 0|done 5" ] || { cat "$work/last"; exit 1; }
    cdstore read "$work/clouds" 4 3 7 file 1 "$three" > "$work/back"
    cmp "$file" "$work/back"
    echo "cloud $lost was lost and filled again from $others; clouds $three gave $file back, $(stat -c %s "$file") bytes, the same"
done

fail() {
    echo "$*" >&2
    exit 1
}

# Replays the script $work/script over empty clouds.
replayed() {
    rm -rf "$work/clouds"
    cdstore replay "$work/clouds" < "$work/script" > "$work/transcript" || fail "the session: status $?, $(tail -n 1 "$work/transcript")"
}

# Steps a job at some clouds until each has the version: at JOB CLOUD..
at() {
    local job="$1" cloud
    shift
    for cloud in "$@"; do
        printf "step $job $cloud\n%.0s" 1 2 3
    done
}

# A whole version; one that a cloud lacks; one that the clouds have with other lengths; one of which the filled cloud has another; and one that
# the first cloud doesn't list. Those that are skipped are named by their tags, rising.
{
    printf '%s\n' 'cdstore 1 4 3' 'upload 7 77686f6c65 1 41' 'upload 7 6d697373696e67 1 42' 'upload 7 646966666572696e67 1 43' \
        'upload 7 646966666572696e67 1 4343' 'upload 7 6f74686572 1 44' 'upload 7 6f74686572 1 45' 'upload 7 756e6c6973746564 1 46'
    at 1 0 1 2
    at 2 0 2
    at 3 0
    at 4 1 2
    at 5 0 1 2
    at 6 3
    at 7 1 2
    echo 'rebuild 7 3 0,1,2'
    echo 'get 7 77686f6c65 1 1,2,3'
} > "$work/script"
replayed
printf '%s\n' 'rebuilt 7 3 1 3' \
    'skipped c07367758a82e1dae4ae4d2f9d44436e9815f6fa0153d2f346e6e76e0cd31cf8 1 recipesdiffer' \
    'skipped dc4c407ab4ca448f46f3ca441810d43787cb0a8d920254a39a722e33e1879502 1 missing' \
    'skipped f7e61468829521796c9bf03f715c63fd420af5d7e26a46f8c2611f4f4afc29e0 1 targetexists' \
    'got 41' "done $(($(wc -l < "$work/script") - 1))" | cmp - <(tail -n 6 "$work/transcript")

# A cloud whose disk stops in each of so many writes and syncs while it is filled, and that is filled once more.
stops=39
{
    printf '%s\n' 'cdstore 1 4 3' 'upload 7 61 1 41' 'upload 7 62 1 42' 'finish 1' 'finish 2'
    for call in $(seq 1 "$stops"); do
        printf '%s\n' 'replace 3' "arm 3 $call $((call % 2 * 3))" 'rebuild 7 3 0,1,2' 'arm 3 0 0' 'rebuild 7 3 0,1,2' 'get 7 62 1 1,2,3'
    done
} > "$work/script"
replayed
grep -E '^(rebuilt|refused|got) ' "$work/transcript" > "$work/ends"
grep -q '^refused target fault' "$work/ends" || fail "no rebuild was stopped"
for call in $(seq 1 "$stops"); do
    { read -r first && read -r second && read -r third; } <&3 || fail "the answers end at call $call"
    case "$first" in
        'refused target fault' | 'rebuilt 7 3 2 0') ;;
        *) fail "a rebuild that stops in call $call said $first" ;;
    esac
    [ "$second, $third" = 'rebuilt 7 3 2 0, got 42' ] || fail "behind a stop in call $call: $second, $third"
done 3< "$work/ends"
echo "versions that weren't whole were skipped, each with why; and a cloud that stopped in $stops moments was filled in the end"
