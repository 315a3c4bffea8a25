#!/usr/bin/env bash
# Gives back what backup_folder.sh stored:
#
#     restore_folder.sh FOLDER USER VERSION ADDR..               the folder as it was at VERSION
#     restore_folder.sh --only NAME FOLDER USER VERSION ADDR..   of it the file NAME, or the folder NAME with all below it
#     restore_folder.sh --list LIST USER VERSION ADDR..          the list of VERSION alone, with the names: backup_folder.sh goes on from it
#
# FOLDER isn't there yet, or is empty. The k addresses (2 to 16) are those of any k clouds or more, in the order of the clouds. The list is
# asked for first, then the archives that it names. Each is compared with the list's sum, and its members with the list's names, before
# tar unpacks it; until all is done FOLDER is its owner's alone. Owners come back where root restores.
#
# A list with a name that leads out of FOLDER, itself or through a link, is refused whole. An archive that can't be had, or isn't what the
# list says, is left out and said so, and the others are given back.
#
# There is a line for each archive. The status is the greatest of all: 0 where all is there again, 1 for wrong words, for what is refused
# and for what can't be written, else that of `cdstore restore`.
set -u
. "$(dirname "$0")/archives.sh"
only='' wanted_list=''
case "${1:-}" in
    --only)
        (($# >= 7 && $# <= 21)) || fail "the words are --only NAME FOLDER USER VERSION ADDR.. with 2 to 16 addresses"
        only="$2"
        while [[ "$only" == ./* ]]; do only="${only#./}"; done
        while [[ "$only" == */ ]]; do only="${only%/}"; done
        [ -n "$only" ] || fail "NAME is empty"
        shift 2
        ;;
    --list)
        (($# >= 6 && $# <= 20)) || fail "the words are --list LIST USER VERSION ADDR.. with 2 to 16 addresses"
        wanted_list=yes
        shift
        ;;
esac
(($# >= 5 && $# <= 19)) || fail "the words are FOLDER USER VERSION ADDR.. with 2 to 16 addresses"
folder="$1" user="$2" version="$3"
shift 3
addresses=("$@")
begin
if [ -z "$wanted_list" ]; then
    mkdir -p -- "$folder" || fail "$folder can't be made"
    folder="$(cd -- "$folder" && pwd && echo .)" || fail "the folder can't be entered"
    folder="${folder%$'\n'.}"
    [ -z "$(ls -A -- "$folder")" ] || fail "$folder isn't empty"
fi

status=0
bring_all //list "$version" 0 "$work/list" || status=$?
if [ "$status" != 0 ]; then
    say "$status" list "$(restore_meaning "$status")"
    exit "$worst"
fi
if ! is_list "$work/list" || [ "$(sed -n 3p "$work/list")" != "version $version" ]; then
    fail "what is stored as VERSION of //list isn't the list of a folder"
fi
if [ -n "$wanted_list" ]; then
    if ! cp -- "$work/list" "$folder.new" || ! mv -- "$folder.new" "$folder"; then
        fail "$folder can't be written"
    fi
    say 0 "$folder" "the list of version $version, $(grep -ac '^[fhld] ' "$folder") names"
    exit 0
fi

# Takes the list apart: groups/N has the members of archive N, further/N the files that its wanted members are other names of, and the plan
# what is to be fetched. Every name is looked at before anything is fetched: none may have an empty part, or . or .. as a part, or lie below
# a link.
mkdir "$work/groups" "$work/further" || no_room
# shellcheck disable=SC2016
only="$(coded "$only")" awk -v groups="$work/groups/" -v further="$work/further/" '
    BEGIN { only = ENVIRON["only"] }
    function refuse(why) { print why; refused = 1; exit 1 }
    function end_group() {
        if (!group) return
        close(file)
        close(further group)
        if (kinds ~ /[fh]/ && kinds ~ /[ld]/) refuse("archive " group " has files and others")
        if (wanted) print group, (kinds ~ /[ld]/ ? "others" : "files"), wanted, record
    }
    NR == FNR {
        if (/^l /) link[substr($0, 3)] = 1
        next
    }
    /^archive / {
        end_group()
        if (NF != 6 || $2 !~ /^\/\/archive\/[0-9a-f]+$/ || $3 $4 $5 !~ /^[0-9]+$/ || length($6) != 64) refuse("a line isn'"'"'t of a list")
        group++
        file = groups group
        kinds = ""
        wanted = 0
        record = $2 " " $3 " " $4 " " $5 " " $6
        next
    }
    /^[fhld] / {
        kind = substr($0, 1, 1)
        name = substr($0, 3)
        if (!group) refuse("a member stands before the first archive")
        if (index(kinds, kind) == 0) kinds = kinds kind
        if (!(kind == "d" && name == ".") && index("/" name "/", "//") + index("/" name "/", "/./") + index("/" name "/", "/../"))
            refuse("it leads out of the folder: " name)
        if (kind != "l" && (name in link)) refuse("it is a link and another thing too: " name)
        for (at = 1; (more = index(substr(name, at), "/")) > 0; at += more)
            if (substr(name, 1, at + more - 2) in link) refuse("it lies below a link: " name)
        print > file
        if (kind == "f") last = name
        if (only == "" || name == only || index(name, only "/") == 1) {
            wanted++
            if (kind == "h" && last != only && index(last, only "/") != 1 && only != "") print last > (further group)
        }
        next
    }
    $0 !~ /^(cdstore|user|version|day|loose|end)( |$)/ { refuse("a line isn'"'"'t of a list") }
    END { if (!refused) end_group() }' "$work/list" "$work/list" > "$work/plan" || {
    if [ -s "$work/plan" ] && ! grep -qE '^[0-9]+ (files|others) ' <(tail -n 1 "$work/plan"); then
        fail "the list is refused: $(tail -n 1 "$work/plan")"
    fi
    no_room
}
[ "$(cat "$work/groups/"* 2> /dev/null | wc -l)" = "$(grep -ac '^[fhld] ' "$work/list")" ] || no_room
if [ -n "$only" ] && [ ! -s "$work/plan" ]; then
    fail "version $version has no $(printf %q "$only")"
fi

before="$(stat -c %a -- "$folder")"
chmod 700 -- "$folder" || fail "the folder's mode can't be set"
unpack=(tar --extract --preserve-permissions --numeric-owner --ignore-zeros --directory="$folder")

# Unpacks: unpack_into THING ARCHIVE WORDS.. What tar says of it is shown.
unpack_into() {
    local thing="$1" archive="$2" names=()
    shift 2
    [ -z "$only" ] || names=(--no-wildcards --anchored --null --files-from="$work/names")
    "${unpack[@]}" "$@" --file="$archive" "${names[@]+"${names[@]}"}" 2> "$work/complaints" && return
    head -n 20 "$work/complaints" | sed 's/^tar: //'
    say 1 "$thing" "not all of it can be written"
    return 1
}

# The files as they come; links and folders together, behind the last file, so that no link is there before and folders keep their times.
: > "$work/others" || no_room
total="$(wc -l < "$work/plan")"
done_by=0
printf '%s\0' "$only" > "$work/names"
while read -r group sort wanted path old parts bytes sum <&3; do
    done_by=$((done_by + 1))
    thing="archive $done_by of $total"
    status=0
    bring_all "$path" "$old" "$parts" "$work/archive" || status=$?
    if [ "$status" != 0 ]; then
        say "$status" "$thing" "$(restore_meaning "$status"). Not restored: $wanted members, from $(head -n 1 "$work/groups/$group") on"
        continue
    fi
    found="$(sums < "$work/archive")"
    [ "${found%% *}" = "$sum" ] || found="$(sha256sum < "$work/archive")"
    if [ "${found%% *}" != "$sum" ]; then
        say 1 "$thing" "refused: its sum isn't the list's"
        continue
    fi
    if ! members "$work/archive" > "$work/members" || ! cmp -s "$work/members" "$work/groups/$group"; then
        say 1 "$thing" "refused: its members aren't the list's"
        continue
    fi
    if [ "$sort" = others ]; then
        cat "$work/archive" >> "$work/others" 2> /dev/null || no_room
        say 0 "$thing" "$wanted links and folders, $bytes bytes: fetched"
        continue
    fi
    if [ -s "$work/further/$group" ]; then
        tr '\n' '\0' < "$work/further/$group" | plain | sort -zu > "$work/more"
        { printf '%s\0' "$only" && cat "$work/more"; } > "$work/names"
    fi
    ! unpack_into "$thing" "$work/archive" --keep-old-files || say 0 "$thing" "$wanted files, $bytes bytes: restored"
    if [ -s "$work/further/$group" ]; then
        while IFS= read -r -d '' name; do
            rm -f -- "$folder/$name"
            [[ "$name" != */* ]] || (cd -- "$folder" && rmdir -p --ignore-fail-on-non-empty -- "${name%/*}")
        done < "$work/more"
        printf '%s\0' "$only" > "$work/names"
    fi
done 3< "$work/plan"
[ ! -s "$work/others" ] || unpack_into "links and folders" "$work/others" --delay-directory-restore || true
# (the list's folder "." has given it its own mode)
if [ -n "$only" ] || [ ! -s "$work/others" ]; then
    chmod "$before" -- "$folder"
fi
[ "$worst" != 0 ] || say 0 "$folder" "as in version $version"
exit "$worst"
