#!/usr/bin/env bash
# Backs up a folder as archives: backup_folder.sh [--content | --again] [--spool DIR] FOLDER LIST USER VERSION ADDR..
#
# Files, folders and symbolic links go into archives of tar, with their modes, owners, times and hard links, and the archives and a list of
# what lies in which to the n clouds that listen at the addresses (3 to 16, in the order of the clouds). The list is VERSION of the path
# //list, so that restore_folder.sh needs nothing but FOLDER, USER, VERSION and k addresses. Take a greater VERSION for each run. LIST is a
# file beside the backup, which this script writes, and nothing else does: the newest list. archives.sh says what stands in a list.
#
# Only archives that changed are stored. One whose members have the sizes, times and numbers of inodes of the run before isn't packed again;
# with --content each is packed and compared. Small files share an archive of 3 to 16 MiB, in the order of the tree, and where an archive
# ends is said by the names: so a file that changes, comes or goes changes the archives nearby alone. A file of 4 MiB or more has one for
# itself, above 64 MiB in parts. With --again each archive is packed and stored again as the version that it has, so that a cloud that is
# new and empty gets what the others have.
#
# A file that changes while it is packed is packed again, twice, and is then stored as it was read, and again by the next run. One that
# can't be read is left out, and said so; so is what is neither a file, a folder nor a link. A name may have any bytes.
#
# With --spool each archive is kept in the folder DIR, which is made where there is none, until all clouds have it. A run that was cut off, or
# whose cloud went away, then goes on with the same bytes in the middle of an archive, and asks nothing of the clouds that have it already.
# DIR is this script's own, for one LIST; it must not be the folder of a cloud. rm -r DIR/cloud0 gives up what it keeps.
#
# There is a line for each archive. The status is the greatest of all: 0 where all is stored, 1 for wrong words and for what couldn't be
# read or written, else that of `cdstore backup`. A version is stored whole or has no list: where an archive can't be stored, after three
# tries if a cloud isn't reached (status 9), the run ends, and the same words go on from there. What is stored by then stands in LIST.began.
set -u
. "$(dirname "$0")/archives.sh"
least=3145728
usual=8388608
most=16777216
alone=4194304

content='' again='' spool=''
case "${1:-}" in
    --content) content=yes ;;
    --again) content=yes again=yes ;;
esac
[ -z "$content" ] || shift
if [ "${1:-}" = --spool ] && [ -n "${2:-}" ]; then
    spool="$2"
    shift 2
fi
(($# >= 7 && $# <= 20)) ||
    fail "the words are [--content | --again] [--spool DIR] FOLDER LIST USER VERSION ADDR.. with 3 to 16 addresses"
folder="$1" list="$2" user="$3" version="$4"
shift 4
addresses=("$@")
begin
[ -d "$folder" ] || fail "there is no folder $folder"
folder="$(cd -- "$folder" && pwd && echo .)" || fail "the folder can't be entered"
folder="${folder%$'\n'.}"
case "$list" in
    /*) ;;
    *) list="$PWD/$list" ;;
esac
{ exec 8>> "$list.began"; } 2> /dev/null || fail "$list.began can't be written"
! command -v flock > /dev/null || flock --nonblock 8 || fail "another run works with $list"
# (a run that was cut off may have left half a line)
[ -z "$(tail -c 1 -- "$list.began")" ] || echo >&8

# What a status of `backup` means.
meaning() {
    case "$1" in
        1) echo "refused: USER, VERSION or an address is out of range" ;;
        2) echo "refused: more than 64 MiB" ;;
        3) echo "the archive can't be read" ;;
        4) echo "${TMPDIR:-/tmp} has no room for its lines" ;;
        5) echo "the spool $spool can't be read or written" ;;
        6) echo "out of memory" ;;
        7) echo "the spool $spool keeps something else: $(head -n 1 "$work/lines")" ;;
        8) echo "not stored: $(grep -vE '^(job|stored)|^step 1 [0-9]+ (known|stored|committed)' "$work/lines" | head -n 9 | tr '\n' ' ')" ;;
        9) echo "a cloud can't be reached" ;;
        *) echo "ended with status $1" ;;
    esac
}

# Goes on with what the spool keeps: status 0 where it is stored, and where nothing was kept.
resume() {
    "$program" resume "$spool" "${addresses[@]}" > "$work/lines" 2> /dev/null < /dev/null
}

# Backs up one part of a file: store_part PATH FILE PART PARTS VERSION. 3 where it can't be read.
store_part() {
    local words ends
    words=("$program" backup "$user" "$(path_of "$1" "$3")" "$5" "${addresses[@]}")
    [ -z "$spool" ] || words=("$program" spool "$spool" "${words[@]:2}")
    if [ "$4" = 1 ]; then
        "${words[@]}" < "$2" > "$work/lines" 2> /dev/null
        return
    fi
    dd if="$2" bs=1048576 skip="$(($3 * part / 1048576))" count="$((part / 1048576))" status=none 2> /dev/null |
        "${words[@]}" > "$work/lines" 2> /dev/null
    ends=("${PIPESTATUS[@]}")
    [ "${ends[1]}" = 0 ] || return "${ends[1]}"
    [ "${ends[0]}" = 0 ] || return 3
}

# Goes on with a part that the spool keeps, and begins it anew where it keeps nothing: the words of store_part.
store_more() {
    if [ -n "$spool" ]; then
        resume || return
        grep -q '^nospool$' "$work/lines" || return 0
    fi
    store_part "$@"
}

# Backs up a file as its parts: store PATH FILE PARTS VERSION. Where a cloud isn't reached it tries again, twice.
store() {
    local status=0 try at
    for ((at = 0; at < $3; at++)); do
        for ((try = 1; try <= tries; try++)); do
            status=0
            if [ "$try" = 1 ]; then
                store_part "$1" "$2" "$at" "$3" "$4" || status=$?
            else
                sleep 1
                store_more "$1" "$2" "$at" "$3" "$4" || status=$?
            fi
            [ "$status" = 9 ] || break
        done
        [ "$status" = 0 ] || break
    done
    return "$status"
}

# Sees how many bytes and parts the archive has.
measure() {
    size="$(stat -c %s "$work/archive")"
    parts="$((size == 0 ? 1 : (size + part - 1) / part))"
}

# Notes a line in LIST.began, so that what a run that is cut off has stored is known to the next one.
note() {
    { echo "$*" >&8; } 2> /dev/null ||
        fail "$list.began can't be written: is there room? What is stored by now is known, and the same words go on from there"
}

# What a run that was cut off has kept is stored first.
if [ -n "$spool" ]; then
    mkdir -p -- "$spool" || fail "there is no room for $spool"
    for ((try = 1; try <= tries; try++)); do
        [ "$try" = 1 ] || sleep 1
        status=0
        resume || status=$?
        [ "$status" = 9 ] || break
    done
    if [ "$status" != 0 ]; then
        say "$status" "$spool" "$(meaning "$status"). What it keeps isn't stored; rm -r $(printf %q "$spool")/cloud0 gives it up"
        exit "$worst"
    fi
    grep -q '^nospool$' "$work/lines" || say 0 "$spool" "what it kept of the run before is stored"
fi

# What the earlier runs stored: archives by their states and by their sums, the versions that have a list, and what may be there besides.
declare -A by_state=() by_sum=() loose=()
days=()
take() {
    local word path old parts bytes sum state
    while read -r word path old parts bytes sum state; do
        case "$word" in
            version)
                ((path <= version)) || fail "$list is of version $path: take a greater VERSION"
                [ "$path" = "$version" ] || days+=("$path")
                ;;
            day) days+=("$path") ;;
            loose | begun) [ -z "${parts:-}" ] || loose["$path $old"]="$parts" ;;
            archive)
                [ "${#sum}" = 64 ] || continue
                by_sum["$sum"]="$path $old $parts $bytes"
                [ "${state:--}" = - ] || by_state["$state"]="$path $old $parts $bytes $sum"
                ;;
        esac
    done
}
if [ -e "$list" ]; then
    is_list "$list" || fail "$list isn't a whole list of user $user: get the newest by restore_folder.sh --list, or name another file"
    take < <(grep -aE '^(version|day|loose|archive) ' "$list")
fi
take < "$list.began"
mapfile -t days < <(printf '%s\n' "${days[@]+"${days[@]}"}" | grep . | sort -nu)

# What lies in the folder: for each name its kind, and what is known of it. The byte 1 stands for a slash, so that sort gives the order of
# the tree. LIST, the spool and $work are left out where they lie in it.
skipped=(-samefile "$work" -o -samefile "$list.began")
[ ! -e "$list" ] || skipped+=(-o -samefile "$list")
[ -z "$spool" ] || skipped+=(-o -samefile "$spool")
now="$(date +%s.%N)"
(cd -- "$folder" && find . -ignore_readdir_race \( "${skipped[@]}" \) -prune -o -printf '%y/%P//%m %U %G %s %T@ %C@ %i %D %n\0') \
    2> "$work/complaints" | sed -z 's/%/%25/g; s/\n/%0A/g; s/\x01/%01/g' | tr '\0/' '\n\001' > "$work/scan"
ends=("${PIPESTATUS[@]}")
[ "${ends[1]} ${ends[2]}" = "0 0" ] || no_room
if [ "${ends[0]}" != 0 ]; then
    say 1 "$folder" "some of it can't be read, and is missing in this version:"
    head -n 20 "$work/complaints"
fi

# Each in the order of the archives: small files, large files, links, folders. The further names of a file stand behind its first.
# shellcheck disable=SC2016
awk -v alone="$alone" -v now="$now" -v others="$work/others" '
    function part_at(line) { at = index(substr(line, 3), "\001\001"); name = substr(line, 3, at - 1); split(substr(line, at + 4), is, " ") }
    NR == FNR {
        if (/^f/ && $NF + 0 > 1) {
            part_at($0)
            file = is[8] ":" is[7]
            if (!(file in first) || name "" < first[file] "") first[file] = name
        }
        next
    }
    {
        kind = substr($0, 1, 1)
        part_at($0)
        if (kind !~ /^[fld]$/) {
            print kind name > others
            next
        }
        rank = kind == "l" ? 2 : kind == "d" ? 3 : is[4] >= alone ? 1 : 0
        if (name == "") name = "."
        bytes = kind == "f" ? is[4] : 0
        # changed so lately that it could change again without another time
        late = now - (is[6] ~ /\.0*$/ ? 2.1 : 0.1) < is[6] + 0
        known = is[1] " " is[2] " " is[3] " " is[5] (kind == "d" ? "" : " " is[4] " " is[6] " " is[7])
        file = is[8] ":" is[7]
        if (kind == "f" && (file in first) && first[file] != name)
            print rank "\001" first[file] "\001\001~" name "\001\001h 0 " late " " known
        else print rank "\001" name "\001\001" kind " " bytes " " late " " known
    }' "$work/scan" "$work/scan" | sort -S 64M -T "$work" > "$work/sorted"
ends=("${PIPESTATUS[@]}")
[ "${ends[0]} ${ends[1]}" = "0 0" ] || no_room

# Cuts them into archives: groups/N has the members of archive N, and the table their number, their bytes and whether one changed lately. An
# archive begins with a name whose hash is small, so that where it begins follows from the names nearby.
mkdir "$work/groups" || no_room
# shellcheck disable=SC2016
awk -v least="$least" -v usual="$usual" -v most="$most" -v folder="$work/groups/" -v table="$work/table" '
    BEGIN { for (i = 1; i < 256; i++) byte[sprintf("%c", i)] = i }
    # whether an archive begins with this name, once in usual bytes; sizes count as powers of two, so that a change of size seldom tells
    function cuts(name, size,   h, i, weight) {
        h = 0
        for (i = length(name) > 24 ? length(name) - 23 : 1; i <= length(name); i++)
            h = (h * 69069 + byte[substr(name, i, 1)]) % 2147483647
        for (i = 0; i < 3; i++) h = (h * 69069 + 12345) % 2147483647
        for (weight = 2048; weight < size; weight *= 2);
        return h < weight / usual * 2147483647
    }
    function end_group() {
        if (group) {
            printf "%07d %d %.0f %d\n", group, count, bytes, late > table
            close(file)
        }
    }
    {
        rank = substr($0, 1, 1)
        at = index($0, "\001\001")
        name = substr($0, 3, at - 3)
        rest = substr($0, at + 2)
        if (substr(rest, 1, 1) == "~") {
            at = index(rest, "\001\001")
            name = substr(rest, 2, at - 2)
            rest = substr(rest, at + 2)
        }
        split(rest, is, " ")
        size = 1536 + is[2] + (512 - is[2] % 512) % 512
        if (!group || is[1] != "h" && (rank == 1 || (rank == 3 ? 2 : rank) != (was == 3 ? 2 : was) || filled + size > most ||
            filled >= least && cuts(name, size))) {
            end_group()
            file = folder sprintf("%07d", ++group)
            count = bytes = late = filled = 0
        }
        was = rank
        count++
        bytes += is[2]
        filled += size
        if (is[3] + 0) late = 1
        print is[1] " " name "\001\001" substr(rest, length(is[1] is[2] is[3]) + 4) > file
    }
    END { end_group() }' "$work/sorted" || no_room
touch "$work/others" "$work/table"
[ "$(wc -l < "$work/scan")" = "$(cat "$work/others" "$work/groups/"* 2> /dev/null | wc -l)" ] || no_room
rm "$work/scan" "$work/sorted"
head -n 20 "$work/others" | tr '\001' '/' | while IFS= read -r name; do
    say 0 "${name:1}" "left out: it is neither a file, a folder nor a link"
done
[ "$(wc -l < "$work/others")" -le 20 ] || say 0 "$folder" "$(wc -l < "$work/others") such names are left out"
declare -A states=()
while read -r sum name; do
    states["$name"]="$sum"
done < <(cd "$work/groups" && printf '%s\0' * | xargs -0 b2sum -l 256 --)
total="$(wc -l < "$work/table")"
[ "${#states[@]}" = "$total" ] || no_room

# Packs an archive into $work/archive, and keeps in groups/N what it has: pack N. settled is empty where it is to be packed again next time.
pack() {
    local group="$work/groups/$1" try status said kind kinds=fh
    local fine='file changed as we read it\|File shrank by\|No such file or directory\|File removed before'
    IFS= read -r -n 1 kind < "$group"
    [[ "$kind" == [fh] ]] || kinds=ld
    settled=''
    for ((try = 1; try <= tries; try++)); do
        sed $'s/^..//; s/\001\001.*//' "$group" | tr '\n\001' '\0/' | plain > "$work/names" || no_room
        status=0
        # (what tar says isn't written to a file, since what it says may be that there is no room)
        said="$(
            tar --create --format=posix --pax-option='delete=atime,delete=ctime,exthdr.name=%d/PaxHeaders/%f' --numeric-owner \
                --no-recursion --verbose --verbose --index-file="$work/index" --directory="$folder" --null --files-from="$work/names" \
                2>&1 > "$work/archive" | {
                head -c 100000
                cat > /dev/null
            }
            exit "${PIPESTATUS[0]}"
        )" || status=$?
        [ -z "$said" ] || said="$(printf '%s\n' "$said" | sed -n 's/^[^ ]*tar: //p' | grep -v '^Exiting with failure')"
        if [ "$status" -gt 2 ] || [[ "$status" != 0 && -z "$said" || $'\n'"$said" == *$'\n'"Error is not recoverable"* ]]; then
            echo "tar ended with status $status: ${said%%$'\n'*}"
            no_room
        fi
        # the index has a line for each member, which begins with its kind
        if [ "$status$said" = 0 ] && cut -c 1 "$work/index" | tr -- - f | cmp -s - <(cut -c 1 "$group"); then
            settled=yes
            return
        fi
        members "$work/archive" > "$work/members" || no_room
        if [ "$status" = 0 ] && sed $'s/\001\001.*//' "$group" | tr '\001' '/' | cmp -s - "$work/members"; then
            settled=yes
            return
        fi
        # it has what is there of the members; one that has become another kind of thing meanwhile isn't asked for again
        grep -a "^[$kinds] " "$work/members" | tr '/' '\001' > "$group" || no_room
        if grep -aq "^[^$kinds] " "$work/members"; then
            say 1 "archive $((10#$1))" "left out: $(grep -ac "^[^$kinds] " "$work/members") that became something else meanwhile"
            [ "$try" -lt "$tries" ] || : > "$group"
        elif [ "$status" != 1 ]; then
            break
        fi
        [ -s "$group" ] || break
    done
    printf '%s\n' "$said" | grep . | head -n 20 | while IFS= read -r line; do
        case "$line" in
            *"file changed as we read it" | *"File shrank by"*)
                echo "${line%%: *}: changed while it was packed, and is stored as it was read"
                ;;
            *"No such file or directory" | *"File removed before"*) echo "${line%%: *}: gone before it was packed" ;;
            *) echo "${line%%: *}: left out: ${line#*: }" ;;
        esac
    done
    if printf '%s\n' "$said" | grep . | grep -qv "$fine"; then
        say 1 "archive $((10#$1))" "some of it can't be read, and is missing in this version"
    fi
}

# Ends, since an archive or the list isn't stored: stop STATUS THING.
stop() {
    say "$1" "$2" "$(meaning "$1")"
    say "$1" "version $version" "not whole, and so without a list: ${#records[@]} of $total archives are there. The same words go on"
    exit "$worst"
}

records=()
sent=0
while read -r at count bytes late <&3; do
    thing="archive $((10#$at)) of $total"
    what="$count members, $bytes bytes"
    state="${states[$at]}"
    was="${by_state[$state]:-}"
    if [ -n "$was" ] && [ -z "$content" ]; then
        records+=("$at archive $was $state")
        old="${was#* }"
        say 0 "$thing" "$what: unchanged, as in version ${old%% *}"
        continue
    fi
    pack "$at"
    [ -s "$work/groups/$at" ] || continue
    [ -n "$settled" ] || what="$(wc -l < "$work/groups/$at") of $what"
    [ -n "$settled" ] && [ "$late" = 0 ] || state=-
    sum="$(sums < "$work/archive")"
    sum="${sum%% *}"
    was="${by_sum[$sum]:-}"
    if [ -n "$was" ]; then
        old="${was#* }"
        old="${old%% *}"
        if [ -n "$again" ]; then
            status=0
            measure
            store "//archive/$sum" "$work/archive" "$parts" "$old" || status=$?
            [ "$status" = 0 ] || stop "$status" "$thing"
        fi
        say 0 "$thing" "$what: packed, the same as in version $old${again:+, stored again}"
    else
        measure
        was="//archive/$sum $version $parts $size"
        note "begun //archive/$sum $version $parts"
        status=0
        store "//archive/$sum" "$work/archive" "$parts" "$version" || status=$?
        [ "$status" = 0 ] || stop "$status" "$thing"
        note "archive $was $sum $state"
        by_sum["$sum"]="$was"
        sent=$((sent + 1))
        [ "$parts" = 1 ] || what="$what, in $parts parts"
        say 0 "$thing" "$what: stored"
    fi
    records+=("$at archive $was $sum $state")
done 3< "$work/table"
rm -f "$work/archive"

# The list. What may lie at the clouds and isn't named by it is loose.
for record in "${records[@]+"${records[@]}"}"; do
    record="${record#* * }"
    old="${record#* }"
    unset "loose[${record%% *} ${old%% *}]"
done
unset "loose[//list $version]"
for day in "${days[@]+"${days[@]}"}"; do
    unset "loose[//list $day]"
done
{
    printf '%s\n' "cdstore folder 1" "user $user" "version $version"
    [ "${#days[@]}" = 0 ] || printf 'day %s\n' "${days[@]}"
    for name in "${!loose[@]}"; do
        echo "loose $name ${loose[$name]}"
    done | sort
    # shellcheck disable=SC2016
    printf '%s\n' "${records[@]+"${records[@]}"}" | grep . | awk -v folder="$work/groups/" '{
        file = folder $1
        print substr($0, length($1) + 2)
        while ((getline line < file) > 0) {
            at = index(line, "\001\001")
            print at ? substr(line, 1, at - 1) : line
        }
        close(file)
    }' | tr '\001' '/'
    echo end
} > "$work/list" || no_room
if ! is_list "$work/list" || [ "$(grep -ac '^archive ' "$work/list")" != "${#records[@]}" ] ||
    [ "$(grep -ac '^[fhld] ' "$work/list")" != "$(cat "$work/groups/"* | wc -l)" ]; then
    no_room
fi
# What is stored says nothing of inodes and the like, so that it is the same where the same words go on.
sed 's/^\(archive [^ ]* [^ ]* [^ ]* [^ ]* [^ ]*\) .*/\1/' "$work/list" > "$work/sent" || no_room
parts="$(($(stat -c %s "$work/sent") / part + 1))"
note "begun //list $version $parts"
status=0
store //list "$work/sent" "$parts" "$version" || status=$?
if [ "$status" = 8 ] && grep -q '^step 1 [0-9]* exists' "$work/lines"; then
    say 8 list "this VERSION has a list already, with other things in it: take a greater VERSION"
    exit "$worst"
fi
[ "$status" = 0 ] || stop "$status" list
say 0 list "$(grep -ac '^[fhld] ' "$work/list") names, $(stat -c %s "$work/sent") bytes: stored"
if cp -- "$work/list" "$list.new" && mv -- "$list.new" "$list"; then
    rm -f -- "$list.began"
else
    rm -f -- "$list.new"
    say 1 "$list" "can't be written. The list is stored: restore_folder.sh --list gets it"
fi
say 0 "version $version" "$total archives, of which $sent were stored by this run"
exit "$worst"
