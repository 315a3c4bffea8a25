#!/usr/bin/env bash
# Plays sessions and commands of which each line that is written, the status and the lengths of the clouds' areas are known beforehand, and none
# is taken from a run. Sessions over clouds in a folder: uploads, losses, full rooms, deletions, rebuilds, wrong lines, and two that agree on
# one user. Then words that are none, a generated session, and backups and deletions at four clouds that are processes. It needs the program.
# shellcheck source=sessions.sh
. "$(dirname "$0")/sessions.sh"

# ---- whole sessions

# The bytes of an area of cloud 0 that docs/FORMATS.md has, of that session: documented AREA
documented() {
    sed -n "/^    $1, /,/^\$/s/^    [0-9a-f][0-9a-f]  //p" "$top/docs/FORMATS.md" | sed 's/  .*//' | tr -d ' \n'
}

uploads() {
    local area
    # an empty file
    plays << END
upload 7 61 1 - | job 1
step 1 0 | step 1 0 committed
step 1 1 | step 1 1 committed
step 1 2 | step 1 2 committed
step 1 3 | step 1 3 committed | stored 1
get 7 61 1 0,1,2 | got -
END
    long "$work/folder" '0 1 2 3' 136 0 25
    # a byte, and a list
    plays << END
$(stored_once)
get 7 61 1 1,2,3 | got 41
list 7 0 | entries 7 0 $listed
list 8 0 | entries 8 0 0
END
    long "$work/folder" '0 1 2 3' 193 11 61
    rooms='16 536870912 67108864 32768 1024' plays <<< "$(stored_once)"
    for area in Shares Recipes Journal; do
        [ "$(od -An -v -tx1 "$work/folder/cloud0/${area,}" | tr -d ' \n')" = "$(documented "$area")" ] ||
            fail "cloud 0 has other ${area,} than docs/FORMATS.md"
    done
    # the same user again: another version, and the same one
    plays << END
$(stored_once)
upload 7 61 2 41 | job 2
finish 2 | $(again 2)
upload 7 61 1 41 | job 3
finish 3 | $(again 3)
END
    long "$work/folder" '0 1 2 3' 287 11 122
    # another user
    plays << END
$(stored_once)
upload 8 61 1 41 | job 2
finish 2 | $(four 2)
END
    long "$work/folder" '0 1 2 3' 332 11 122
    # two jobs for one version
    plays << END
upload 7 61 1 - | job 1
upload 7 61 1 41 | job 2
step 1 0 | step 1 0 committed
step 1 1 | step 1 1 committed
finish 2 | $(lane 2 0 exists) | $(lane 2 1 exists) | $(lane 2 2) | $(lane 2 3) | end 2 open
finish 1 | step 1 2 exists | step 1 3 exists | end 1 open
get 7 61 1 0,1,2 | refused recipesdiffer 0 2 1
rebuild 7 3 0,1,2 | rebuilt 7 3 0 1 | skipped $tag 1 recipesdiffer
END
    long "$work/folder" '0 1' 193 11 25
    long "$work/folder" '2 3' 193 11 61
}

# Each ask is lost once, and each reply: what was executed isn't executed again.
losses() {
    plays << END
upload 7 61 1 41 | job 1
$(for cloud in 3 1 2 0; do
        for news in 'known 0 1' 'stored 0 1' committed; do
            printf '%s\n' "lose 1 $cloud | lost 1 $cloud" "drop 1 $cloud | lost 1 $cloud" "step 1 $cloud | step 1 $cloud $news"
        done
    done | sed '$s/$/ | stored 1/')
step 1 0 | step 1 0 done
lose 1 1 | step 1 1 done
finish 1 | end 1 stored
get 7 61 1 0,1,2 | got 41
END
    long "$work/folder" '0 1 2 3' 193 11 61
}

# A room that lacks a byte, and a user without one; and deletions: what no version names any more its user doesn't own.
full_rooms() {
    rooms='10 10 1000 10 10' plays << END
upload 7 61 1 41 | job 1
step 1 0 | step 1 0 known 0 1
step 1 0 | step 1 0 full shares 0 11 10
step 1 0 | step 1 0 done
upload 10 61 1 - | job 2
step 2 0 | step 2 0 full files 0 1 0
END
    long "$work/folder" '0 1 2 3' 42 0 0
    plays << END
$(stored_once)
upload 7 62 1 41 | job 2
step 2 0 | step 2 0 known 1 1
delete 7 61 1 0 | deleted 0
step 2 0 | step 2 0 lacking 0
step 2 0 | step 2 0 known 0 1
step 2 0 | step 2 0 stored 1 1
step 2 0 | step 2 0 committed
restart 0 | restarted 0 5
END
    long "$work/folder" 0 382 11 122
    plays << END
$(stored_once)
delete 8 61 1 0 | missing 0
delete 7 61 2 0 | missing 0
delete 7 61 1 0 | deleted 0
restart 0 | restarted 0 3
list 7 0 | entries 7 0 0
delete 7 61 1 0 | missing 0
get 7 61 1 0,1,2 | refused missing 0
get 7 61 1 1,2,3 | got 41
END
    long "$work/folder" 0 243 11 61
    long "$work/folder" '1 2 3' 193 11 61
}

rebuilds() {
    # a replaced cloud is filled again, and a get from more clouds than are needed passes over it before
    plays << END
$(stored_once)
replace 2 | replaced 2
get 7 61 1 0,1,2 | refused missing 2
get 7 61 1 0,1,2,3 | got 41
get 7 62 1 0,1,2,3 | refused missing 0
rebuild 7 2 0,1,3 | rebuilt 7 2 1 0
get 7 61 1 1,2,3 | got 41
list 8 2 | entries 8 2 0
END
    long "$work/folder" '0 1 2 3' 193 11 61
    local differing=c07367758a82e1dae4ae4d2f9d44436e9815f6fa0153d2f346e6e76e0cd31cf8
    local missing=dc4c407ab4ca448f46f3ca441810d43787cb0a8d920254a39a722e33e1879502
    local other=f7e61468829521796c9bf03f715c63fd420af5d7e26a46f8c2611f4f4afc29e0
    # versions that are whole, missing at a cloud, two files, another one at the target, and not listed by the first cloud
    plays << END
$(brought 1 77686f6c65 41 '0 1 2')
$(brought 2 6d697373696e67 42 '0 2')
$(brought 3 646966666572696e67 43 0)
$(brought 4 646966666572696e67 4343 '1 2')
$(brought 5 6f74686572 44 '0 1 2')
$(brought 6 6f74686572 45 3)
$(brought 7 756e6c6973746564 46 '1 2')
rebuild 7 3 0,1,2 | rebuilt 7 3 1 3 | skipped $differing 1 recipesdiffer | skipped $missing 1 missing | skipped $other 1 targetexists
get 7 77686f6c65 1 1,2,3 | got 41
END
}

# Sees the place and the byte of a line that is wrong behind an upload: wrong LINE PLACE BYTE
wrong() {
    printf '%s\n' "cdstore 1 4 3 $rooms" 'upload 7 61 1 -' "$1" > "$work/script"
    rm -rf "$work/folder"
    says 2 $'open 4 3\njob 1\nscript 3 '"$2 $3" replay "$work/folder" < "$work/script"
}

wrong_lines() {
    says 2 'script 1 12 33' replay "$work/folder" < <(echo 'cdstore 1 3 3')
    says 0 $'open 16 15\ndone 0' replay "$work/wide" < <(echo 'cdstore 1 16 15 10 1000 1000 10 10')
    wrong halt 0 68
    wrong 'upload 4294967296 61 1 -' 7 34
    wrong 'upload 7 00 1 -' 9 30
    wrong 'upload 7 61 1 4G' 14 34
    wrong 'step 2 0' 5 32
    wrong 'get 7 61 1 0,1' 11 30
    wrong 'restart 4' 8 34
    wrong 'restart 0 1' 9 20
    wrong 'delete 7 61 1' 13 end
    rm -rf "$work/folder"
    says 2 $'open 4 3\nscript 2 16 end' replay "$work/folder" < <(printf '%s\n%s' "cdstore 1 4 3 $rooms" 'get 7 61 1 0,1,2')
}

# A session in which user 7, who has room for one share, asks this and is answered so, whatever others ask before, in between and behind it, and
# are answered: world OTHERS OTHERS OTHERS
world() {
    rooms='10 11 1000 10 10' plays << END
$1
upload 7 61 1 41 | job 2
finish 2 | $(four 2)
$2
get 7 61 1 0,1,2 | got 41
upload 7 62 1 42 | job 3
step 3 0 | step 3 0 known 0 1
step 3 0 | step 3 0 full shares 11 11 11
$3
get 7 61 1 0,1,2 | got 41
list 7 0 | entries 7 0 $listed
delete 7 61 1 0 | deleted 0
list 7 0 | entries 7 0 0
get 7 61 1 0,1,2 | refused missing 0
get 7 61 1 1,2,3 | got 41
END
}

two_worlds() {
    local none='full shares 0 12 11'
    # another user has the same content under the same path, and deletes it at two clouds; and another user's room is full
    world "$(printf '%s\n' 'upload 8 61 1 41 | job 1' "finish 1 | $(four 1)")" 'get 8 61 1 1,2,3 | got 41' \
        "$(printf '%s\n' 'delete 8 61 1 0 | deleted 0' 'delete 8 61 1 1 | deleted 1' 'delete 9 61 1 2 | missing 2')"
    world "$(printf '%s\n' 'upload 9 7a 1 4242 | job 1' "finish 1 | $(printf "step 1 %s known 0 1 | step 1 %s $none | " 0 0 1 1 2 2 3 3)end 1 open")" \
        "$(printf '%s\n' 'list 9 1 | entries 9 1 0' 'get 9 7a 1 0,1,2 | refused missing 0')" 'delete 9 7a 1 3 | missing 3'
}

# ---- words, and what isn't a session

ends() {
    local words none="$work/none"
    for words in "replay $none $none" replay "read $none" "gen 1 0 1 $none" "gen 1 1000 132 $none" '' "serve $none 4 4 3 here 1" \
        'backup 7 a 1 here there' 'delete 7 a 1 here there' "audit $none 0 3 3"; do
        # shellcheck disable=SC2086
        says 1 '' $words
    done
    [ ! -e "$none" ] || fail "words that are none made $none"
    says 3 '' replay "$work/unread" < "$work"
    plays < <(printf '%s\n' 'upload 7 61 1 - | job 1' "finish 1 | $(printf 'step 1 %s committed | ' 0 1 2 3)stored 1 | end 1 stored")
    says 7 'store 0 journal 136' replay "$work/folder" < <(echo 'cdstore 1 4 3')
    mkdir -p "$work/begun/cloud1"
    printf abc > "$work/begun/cloud1/recipes"
    says 7 'store 1 recipes 3' replay "$work/begun" < <(echo 'cdstore 1 4 3')
    # three users bring three pieces each, and the first one a version more, of which one piece is new
    says 0 $'files 4\nbytes 98304\nstored 4\nsent 40\nknown 8\nequal 4' gen 1 4 3 "$work/made"
    long "$work/made" '0 1 2 3' 844 10968 536
    says 7 'store 0 journal 844' gen 1 4 3 "$work/made"
    # an output that takes nothing, and one that takes seven bytes more
    local folder status=0
    for folder in made fresh; do
        status=0
        "$program" gen 1 4 3 "$work/$folder" > /dev/full || status=$?
        [ "$status" = 4 ] || fail "an output that fails: status $status"
    done
    head -c 1017 /dev/zero > "$work/full"
    status=0
    (trap '' XFSZ; ulimit -f 1; exec "$program" gen 1 4 3 "$work/made" >> "$work/full") || status=$?
    [ "$status $(tail -c +1018 "$work/full")" = '4 store 0' ] || fail "an output that fails within a line: status $status"
}

# ---- commands at clouds that are processes

# Starts the four clouds for so many connections, over those that the last session left, or over new ones: clouds COUNT [FOLDER]
clouds() {
    local cloud
    for cloud in 0 1 2 3; do
        rm -rf "$work/provider$cloud"
        if [ -n "${2:-}" ]; then
            mkdir "$work/provider$cloud"
            cp -r "$2/cloud$cloud" "$work/provider$cloud"
        fi
        start "$cloud" "$1"
    done
}

# Sees that each cloud ends, unless it was lost, and all that it said, of so many connections: said COUNT COUNT COUNT COUNT
said() {
    local cloud
    all_end
    for cloud in 0 1 2 3; do
        { echo "ready ${address[cloud]}"; seq "$1" | sed 's/.*/connection & end/'; } | cmp - "$work/said$cloud"
        shift
    done
}

# Lines that have bars between them, each by itself.
lines() {
    echo "${1// | /$'\n'}"
}

commands() {
    printf A > "$work/file"
    clouds 6
    says 0 "$(lines "job 1 | $(four 1)")" backup 7 a 1 "${address[@]}" < "$work/file"
    says 0 "$(lines "job 1 | $(again 1)")" backup 7 a 1 "${address[@]}" < "$work/file"
    says 0 $'missing 0\nmissing 1\nmissing 2\nmissing 3' delete 9 a 1 "${address[@]}"
    says 0 $'deleted 0\ndeleted 1\ndeleted 2\ndeleted 3' delete 7 a 1 "${address[@]}"
    says 0 $'missing 0\nmissing 1\nmissing 2\nmissing 3' delete 7 a 1 "${address[@]}"
    says 8 'refused missing 0' restore 7 a 1 "${address[@]}"
    said 6 6 6 6
    for cloud in 0 1 2 3; do
        long "$work/provider$cloud" "$cloud" 243 11 61
    done
    says 7 'other 2 2 4 3 2' serve "$work/provider2" 2 5 3 127.0.0.1:1 1

    # clouds in another order, too few, and one that isn't there; a cloud that is taken, and a port
    clouds 2
    says 5 'shelf 0' serve "$work/provider0" 0 4 3 127.0.0.1:1 1
    says 9 '' serve "$work/taken" 0 4 3 "${address[0]}" 1
    says 8 'refused hello 0 4 3 1' backup 7 a 1 "${address[1]}" "${address[0]}" "${address[@]:2}" < "$work/file"
    says 8 'refused hello 0 4 3 0' backup 7 a 1 "${address[@]:0:3}" < "$work/file"
    lose 2
    says 9 '' backup 7 a 1 "${address[@]}" < "$work/file"
    lose 3
    said 2 2 0 0
    for cloud in 0 1 2 3; do
        long "$work/provider$cloud" "$cloud" 42 0 0
    done

    # a version that is there with another byte, a room that lacks a byte, a user without a room, and a new cloud
    plays <<< "$(printf '%s\n' 'upload 7 61 1 42 | job 1' "finish 1 | $(four 1)")"
    mv "$work/folder" "$work/various"
    rooms='10 10 1000 10 10' plays < /dev/null
    rm -r "$work/various"/cloud[123]
    mv "$work/folder/cloud1" "$work/various"
    rooms='7 9000 9000 90 90' plays < /dev/null
    mv "$work/folder/cloud2" "$work/various"
    mkdir "$work/various/cloud3"
    clouds 1 "$work/various"
    says 8 "$(lines "job 1 | $(lane 1 0 exists) | step 1 1 known 0 1 | step 1 1 full shares 0 11 10 | step 1 2 known 0 1 | \
step 1 2 full owners 0 1 0 | $(lane 1 3) | end 1 open")" backup 7 a 1 "${address[@]}" < "$work/file"
    said 1 1 1 1

    # a version that is gone at two clouds, and one whose recipe isn't what was stored at one of them, and then is again
    plays <<< "$(stored_once; printf '%s\n' 'delete 7 61 1 1 | deleted 1' 'delete 7 61 1 2 | deleted 2')"
    clouds 1 "$work/folder"
    says 0 $'deleted 0\nmissing 1\nmissing 2\ndeleted 3' delete 7 a 1 "${address[@]}"
    said 1 1 1 1
    plays <<< "$(stored_once)"
    clouds 2 "$work/folder"
    put "$work/provider1/cloud1/recipes" 60 02
    says 8 "deleted 0
rotten 1 db5ede89176e6c5e7e759a82d11ba23d3e9ced14190d27f8c2f4795d7cf6331f $(sha256sum < "$work/provider1/cloud1/recipes" | cut -c 1-64)
deleted 2
deleted 3" delete 7 a 1 "${address[@]}"
    put "$work/provider1/cloud1/recipes" 60 01
    says 0 $'missing 0\ndeleted 1\nmissing 2\nmissing 3' delete 7 a 1 "${address[@]}"
    said 2 2 2 2
}

uploads
losses
full_rooms
rebuilds
wrong_lines
two_worlds
ends
commands
echo "Sessions, words and commands at four clouds said what was known beforehand, and left areas of these lengths."
