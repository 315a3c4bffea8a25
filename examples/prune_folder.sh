#!/usr/bin/env bash
# Deletes versions of a folder that are not wanted any more:
#
#     prune_folder.sh LIST USER VERSIONS ADDR..        these versions, with commas between
#     prune_folder.sh --keep COUNT LIST USER ADDR..    all but the newest COUNT
#
# LIST is the file that backup_folder.sh writes; the newest version, whose list it is, is never deleted. The addresses are those of all n
# clouds (3 to 16), in the order of the clouds.
#
# An archive is deleted where no version that remains names it, and so is what a run that was cut off left behind; then the lists of the
# versions. The lists of all versions are fetched first: where that of one that remains can't be had, nothing is deleted. A cloud that has
# a thing no more is content. Where a cloud can't be reached, after three tries, or refuses, the run ends, and the same words go on from there.
#
# There is a line for each thing that is deleted. The status is 0 where all is done, 1 for wrong words and a LIST that can't be written, else
# that of `cdstore delete` or `cdstore restore`.
set -u
. "$(dirname "$0")/archives.sh"
keep=''
if [ "${1:-}" = --keep ]; then
    (($# >= 7 && $# <= 20)) || fail "the words are --keep COUNT LIST USER ADDR.. with 3 to 16 addresses"
    [[ "$2" =~ ^[1-9][0-9]{0,8}$ ]] || fail "COUNT is 1 or more"
    keep="$2" list="$3" user="$4"
    shift 4
else
    (($# >= 6 && $# <= 19)) || fail "the words are LIST USER VERSIONS ADDR.. with 3 to 16 addresses"
    list="$1" user="$2" versions="$3"
    shift 3
fi
addresses=("$@")
version=0
begin
is_list "$list" || fail "$list isn't a whole list of user $user: get the newest by restore_folder.sh --list"
{ exec 8>> "$list.began"; } 2> /dev/null || fail "$list.began can't be written"
! command -v flock > /dev/null || flock --nonblock 8 || fail "another run works with $list"
newest="$(sed -n 's/^version //p;3q' "$list")"
mapfile -t days < <(grep -a '^day ' "$list" | cut -d ' ' -f 2)

# Which go, and which stay beside the newest.
declare -A goes=()
if [ -n "$keep" ]; then
    for ((at = 0; at < ${#days[@]} + 1 - keep; at++)); do
        goes["${days[at]}"]=yes
    done
else
    IFS=, read -r -a words <<< "$versions"
    for word in "${words[@]}"; do
        [[ "$word" =~ ^(0|[1-9][0-9]*)$ ]] || fail "VERSIONS are numbers without leading zeros, with commas between"
        [ "$word" != "$newest" ] || fail "version $word is the newest, and stays"
        [[ " ${days[*]} " == *" $word "* ]] || fail "$list has no version $word"
        goes["$word"]=yes
    done
fi

# Fetches the list of a version into $work/list, and says in $parts how many parts are to be deleted: fetch VERSION. It answers 1 where it is
# gone, or partly: then its archives went before it.
fetch() {
    local at size status
    : > "$work/list"
    for ((at = 0; ; at++)); do
        status=0
        bring "$(path_of //list "$at")" "$1" || status=$?
        parts=$((at + 1))
        if [ "$status" = 8 ] && grep -aq '^refused missing' "$work/part"; then
            return 1
        elif [ "$status" != 0 ]; then
            say "$status" "the list of version $1" "$(restore_meaning "$status"). Nothing is deleted"
            exit "$worst"
        fi
        size="$(stat -c %s "$work/part")"
        cat "$work/part" >> "$work/list" 2> /dev/null || no_room
        [ "$size" = "$part" ] || break
    done
    is_list "$work/list" || fail "the list of version $1 isn't whole. Nothing is deleted"
}


grep -aE '^archive ' "$list" | cut -d ' ' -f 2-4 > "$work/stays" || true
grep -aE '^(archive|begun) ' "$list.began" | cut -d ' ' -f 2-4 >> "$work/stays" || true
grep -aE '^loose ' "$list" | cut -d ' ' -f 2-4 > "$work/goes" || true
: > "$work/lists"
for day in "${days[@]+"${days[@]}"}"; do
    if fetch "$day"; then
        if [ -n "${goes[$day]:-}" ]; then
            grep -aE '^(archive|loose) ' "$work/list" | cut -d ' ' -f 2-4 >> "$work/goes"
        else
            grep -aE '^archive ' "$work/list" | cut -d ' ' -f 2-4 >> "$work/stays"
            echo "//list $day 1" >> "$work/stays"
        fi
    elif [ -z "${goes[$day]:-}" ]; then
        say 8 "the list of version $day" "isn't at these clouds: delete that version too, or name all clouds. Nothing is deleted"
        exit "$worst"
    fi
    [ -z "${goes[$day]:-}" ] || echo "$day $parts" >> "$work/lists"
done
{ sort -u "$work/goes" > "$work/all"; } || no_room
{ sort -u "$work/stays" > "$work/kept"; } || no_room
# an archive stays by its path and version, whatever is said of its parts
awk 'NR == FNR { stays[$1 " " $2] = 1; next } !(($1 " " $2) in stays)' "$work/kept" "$work/all" > "$work/doomed" || no_room

# Deletes all parts of a thing, the last first: delete PATH VERSION PARTS.
delete() {
    local status=0 try at
    for ((at = $3 - 1; at >= 0; at--)); do
        for ((try = 1; try <= tries; try++)); do
            [ "$try" = 1 ] || sleep 1
            status=0
            "$program" delete "$user" "$(path_of "$1" "$at")" "$2" "${addresses[@]}" > "$work/lines" < /dev/null 2> /dev/null || status=$?
            [ "$status" = 9 ] || break
        done
        [ "$status" = 0 ] || break
    done
    case "$status" in
        0) return ;;
        8) say 8 "version $2 of $1" "not deleted: $(grep -vE '^(deleted|missing) ' "$work/lines" | tr '\n' ' ')" ;;
        9) say 9 "version $2 of $1" "a cloud can't be reached" ;;
        *) say "$status" "version $2 of $1" "ended with status $status" ;;
    esac
    echo "Not all is deleted: the same words go on from there"
    exit "$worst"
}

while read -r path old parts <&3; do
    delete "$path" "$old" "$parts"
    say 0 "version $old of $path" "deleted"
done 3< "$work/doomed"
while read -r day parts <&3; do
    delete //list "$day" "$parts"
    say 0 "version $day" "deleted"
done 3< "$work/lists"
for day in "${!goes[@]}"; do
    echo "day $day"
done > "$work/drop"
grep -a '^loose ' "$list" >> "$work/drop"
if ! grep -avxF -f "$work/drop" "$list" > "$list.new" || ! is_list "$list.new" || ! mv -- "$list.new" "$list"; then
    rm -f -- "$list.new"
    say 1 "$list" "can't be written: the same words do that again"
    exit "$worst"
fi
[ -s "$list.began" ] || rm -f -- "$list.began"
say 0 "$list" "$(wc -l < "$work/doomed") archives and ${#goes[@]} versions are deleted, $(grep -ac '^day ' "$list") versions and the newest remain"
exit "$worst"
