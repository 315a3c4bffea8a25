# shellcheck shell=bash
# What examples share that play sessions of which each line is known beforehand. A script begins with
#
#     . "$(dirname "$0")/sessions.sh"
#
# and has what clouds.sh gives too. What is written isn't taken from a run: it follows from docs/FORMATS.md.
# shellcheck source=clouds.sh
. "$(dirname "${BASH_SOURCE[0]}")/clouds.sh"
# the rooms of each cloud, which are small so that they take little memory
rooms='10 9000 9000 90 90'
# the tag of the path `a`, and how it is listed where its version 1 is all there is
tag=5d68886a3c18c6681152c8912b098df2772886cc297ca017f379493ac7b5822e
# shellcheck disable=SC2034
listed="1 | entry $tag 1"

# Sees how many bytes the areas of some clouds have: long FOLDER CLOUDS JOURNAL SHARES RECIPES
long() {
    local cloud area found
    for cloud in $2; do
        found=''
        for area in journal shares recipes; do
            found="$found $(stat -c %s "$1/cloud$cloud/$area" 2> /dev/null || echo 0)"
        done
        [ "$found" = " $3 $4 $5" ] || fail "cloud $cloud has$found bytes, and not $3 $4 $5, behind $(cat "$work/dialogue")"
    done
}

# Plays a session over empty clouds of shape 4 3 in $work/folder to its end, and sees its status and its transcript: plays. Standard input has
# each line of the script but the first, and behind bars what is written.
plays() {
    local status=0 first="cdstore 1 4 3 $rooms"
    rm -rf "$work/folder"
    { echo "$first | open 4 3"; cat; } > "$work/dialogue"
    sed 's/ | .*//' "$work/dialogue" > "$work/script"
    { sed 's/^[^|]* | //; s/ | /\n/g' "$work/dialogue"; echo "done $(($(wc -l < "$work/script") - 1))"; } > "$work/wanted"
    "$program" replay "$work/folder" < "$work/script" > "$work/transcript" || status=$?
    diff "$work/wanted" "$work/transcript" > "$work/difference" || fail "it said (>) $(cat "$work/difference") to $(cat "$work/dialogue")"
    [ "$status" = 0 ] || fail "a session ended with status $status: $(cat "$work/dialogue")"
}

# What a job of a file of one share is answered at a cloud, the last of it NEWS, and at all four: lane JOB CLOUD [NEWS], four JOB
lane() {
    echo "step $1 $2 known 0 1 | step $1 $2 stored 1 1 | step $1 $2 ${3:-committed}"
}
four() {
    echo "$(lane "$1" 0) | $(lane "$1" 1) | $(lane "$1" 2) | $(lane "$1" 3) | stored $1 | end $1 stored"
}

# The same where the user has the share: again JOB
again() {
    for cloud in 0 1 2 3; do
        printf '%s | ' "step $1 $cloud known 1 1" "step $1 $cloud committed"
    done
    echo "stored $1 | end $1 stored"
}

# The lines that bring version 1 of user 7's file of one share to some clouds: brought JOB PATH BYTES CLOUDS
brought() {
    echo "upload 7 $2 1 $3 | job $1"
    for cloud in $4; do
        lane "$1" "$cloud" | sed "s/^/step $1 $cloud | /; s/ | step/\nstep $1 $cloud | step/2g"
    done
}

# User 7 stores version 1 of the path `a`, the byte `A`.
stored_once() {
    printf '%s\n' 'upload 7 61 1 41 | job 1' "finish 1 | $(four 1)"
}

# A byte of a file, in two digits; and another one in its place: byte FILE PLACE, put FILE PLACE BYTE
byte() {
    od -An -v -tx1 -j "$2" -N 1 "$1" | tr -d ' '
}
put() {
    printf '%b' "\\x$3" | dd of="$1" bs=1 seek="$2" conv=notrunc 2> /dev/null
}
