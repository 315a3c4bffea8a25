#!/usr/bin/env bash
# Plays sessions over clouds in a folder whose calls are cut, or of which a byte is changed, and sees each line that is written and the lengths
# of the areas, which are known beforehand: a stop in each device call of a Put, of a Commit and of a rebuild's target; a cloud in its place; a closed
# cloud whose opening fails; bytes of a share, of a recipe, of each part of a journal, and of a checkpoint. It needs the program, and a disk
# whose files may have holes.
# shellcheck source=sessions.sh
. "$(dirname "$0")/sessions.sh"
# where half 1 of a journal begins, and region 1 of shares and recipes
half=134217728
region=34359738368

# ---- stops

# A session in which a call of cloud 0 is cut, counted from its Put: the six of the Put, the three of an opening, the six of the Commit. A
# command is there exactly where the byte of its gate was written, which is its fifth call: stopped CALL KEEP
stopped() {
    local call="$1" kept=0 put='stored 1 1' opened finished commands=2 last='end 1 stored' others
    others="$(lane 1 1) | $(lane 1 2) | $(lane 1 3)"
    case "$call" in
        6 | 15) kept=1 ;;
        5 | 14) [ "$2" = 0 ] || kept=1 ;;
    esac
    if [ "$call" -le 6 ]; then
        put=fault
        opened="restarted 0 $kept"
        finished="step 1 0 stored $((1 - kept)) 1 | step 1 0 committed | $others | stored 1 | end 1 stored"
    elif [ "$call" -le 9 ]; then
        opened='fault 0'
        finished="step 1 0 committed | $others | stored 1 | end 1 stored"
    else
        opened='restarted 0 1'
        finished="step 1 0 fault | $others | end 1 open"
        commands=$((1 + kept))
        last='step 1 0 committed | stored 1 | end 1 stored'
    fi
    plays << END
upload 7 61 1 41 | job 1
step 1 0 | step 1 0 known 0 1
arm 0 $call $2 | armed 0
step 1 0 | step 1 0 $put
restart 0 | $opened
finish 1 | $finished
restart 0 | restarted 0 $commands
finish 1 | $last
get 7 61 1 0,1,2 | got 41
list 7 0 | entries 7 0 $listed
END
    long "$work/folder" '0 1 2 3' 193 11 61
}

stops() {
    local call
    # (a sync keeps nothing, and of a gate's one byte there is no part)
    for call in $(seq 15); do
        stopped "$call" 0
    done
    for call in 1 3 5 10 12 14; do
        stopped "$call" 100
    done
    for call in 1 3 10 12; do
        stopped "$call" 5
    done
    # a cloud in its place isn't armed: its beginning goes through
    plays << END
$(stored_once)
arm 0 1 1 | armed 0
replace 0 | replaced 0
list 7 0 | entries 7 0 0
restart 0 | restarted 0 0
END
    long "$work/folder" 0 42 0 0
    # the 24 calls of a rebuild of two files at its target: asked again it goes on
    plays << END
$(brought 1 6f6e65 41 '0 1 2')
$(brought 2 74776f 42 '0 1 2')
$(for call in $(seq 24); do
        printf '%s\n' 'replace 3 | replaced 3' "arm 3 $call 3 | armed 3" 'rebuild 7 3 0,1,2 | refused target fault' \
            'rebuild 7 3 0,1,2 | rebuilt 7 3 2 0'
    done)
get 7 74776f 1 1,2,3 | got 42
END
    long "$work/folder" 3 344 22 124
    # a cloud that is closed, and whose opening fails at each kind of ask
    plays << END
$(stored_once)
arm 0 1 0 | armed 0
restart 0 | fault 0
$(printf 'arm 0 1 0 | armed 0\n%s\n' 'get 7 61 1 0,1,2 | refused fault 0' 'get 7 61 1 0,1,2,3 | got 41' 'list 7 0 | refused fault 0' \
        'delete 7 61 1 0 | fault 0' 'rebuild 7 0 1,2,3 | refused target fault' 'rebuild 7 3 0,1,2 | refused fault 0')
get 7 61 1 0,1,2 | got 41
END
}

# ---- changed bytes, in a session that is asked line by line

# Begins a session over empty clouds in a folder: begin FOLDER ROOMS
begin() {
    folder="$1"
    rm -f "$work/asked" "$work/told"
    mkfifo "$work/asked" "$work/told"
    "$program" replay "$folder" < "$work/asked" > "$work/told" &
    servers[99]=$!
    exec 3> "$work/asked" 4< "$work/told"
    ask "cdstore 1 4 3 $2 | open 4 3"
}

# Asks a line of the session, and sees what is written, behind bars.
ask() {
    local rest="$1 | " wanted found=''
    echo "${rest%% | *}" >&3
    rest="${rest#* | }"
    while [ -n "$rest" ]; do
        wanted="${rest%% | *}"
        rest="${rest#* | }"
        read -t 60 -r found <&4 || fail "nothing was written to $1"
        [ "$found" = "$wanted" ] || fail "$found was written to $1"
    done
}

# Ends the session.
finish() {
    local last status=0
    exec 3>&-
    read -t 60 -r last <&4 || fail 'a session did not end'
    exec 4<&-
    wait "${servers[99]}" || status=$?
    unset 'servers[99]'
    [[ "$last, $status" == 'done '*', 0' ]] || fail "a session ended with $last and status $status"
}

# What opening a cloud comes to while a byte of its journal is another one; and where the damage is then, if at all: of rows CLOUD PLACE BYTE AT on
# standard input, or CLOUD PLACE BYTE =COMMANDS. Places count from where a half begins: opens HALF
opens() {
    local cloud place other at journal old
    while read -r cloud place other at; do
        journal="$folder/cloud$cloud/journal"
        old="$(byte "$journal" $(($1 + place)))"
        put "$journal" $(($1 + place)) "$other"
        if [ "${at#=}" != "$at" ]; then
            ask "restart $cloud | restarted $cloud ${at#=}"
        else
            ask "restart $cloud | damaged $cloud $(($1 + at)) $(byte "$journal" $(($1 + at)))"
        fi
        put "$journal" $(($1 + place)) "$old"
    done
}

damages() {
    local share=7306196382e41a397efac21e4f4613ec42dbce6fc69dc13a71972b7d5afc5010
    local other=7007882dfedbe79f87fbc84f2fc9213768b590ca6a5dafd296b68853ec33dfea
    begin "$work/changed" "$rooms"
    ask 'upload 7 61 1 41 | job 1'
    ask "finish 1 | $(four 1)"
    # a share's first byte is 00: its cloud opens, and a get tells it, and passes over it; and a recipe's third byte
    put "$folder/cloud0/shares" 0 00
    ask 'restart 0 | restarted 0 2'
    ask "get 7 61 1 0,1,2 | refused rotten 0 $share $other"
    ask 'get 7 61 1 0,1,2,3 | got 41'
    put "$folder/cloud0/shares" 0 9f
    ask 'get 7 61 1 0,1,2 | got 41'
    put "$folder/cloud0/recipes" 2 00
    ask 'restart 0 | damaged 0 160 f2'
    ask 'get 7 61 1 0,1,2 | refused damaged 0 160 f2'
    put "$folder/cloud0/recipes" 2 5f
    ask 'get 7 61 1 0,1,2 | got 41'
    # of cloud 0 each part of the start, and that of another store, of the Put and of the Commit. Cloud 1 has a second version, which becomes
    # the first one; cloud 2 a Put of another user, who becomes the same; cloud 3 a Delete, which becomes another user's
    ask 'upload 7 61 2 41 | job 2'
    ask 'step 2 1 | step 2 1 known 1 1'
    ask 'step 2 1 | step 2 1 committed'
    ask 'upload 8 61 1 41 | job 3'
    ask 'step 3 2 | step 3 2 known 0 1'
    ask 'step 3 2 | step 3 2 stored 1 1'
    ask 'delete 7 61 1 3 | deleted 3'
    opens 0 < <(printf '0 %s\n' '1 ff 1' '8 55 8' '9 03 9' '10 03 11' '12 09 12' '16 00 13' '17 01 17' '28 01 25' '37 01 37' '11 02 11' '16 08 16' \
        '41 00 =0' '42 01 42' '46 09 46' '50 0a 47' '52 00 51' '53 00 160' '85 00 86' '85 02 85' '93 01 86' '97 0c 86' '98 00 =1' \
        '99 01 99' '103 05 103' '107 08 160' '156 01 148' '159 3e 148' '160 00 160' '192 01 192'
        printf '%s\n' '1 241 01 202' '1 192 00 =2' '2 201 07 204' '3 201 08 202' '3 192 00 =2')
    # the share, and the recipe, lie in the other region, which nobody has spent
    put "$folder/cloud0/shares" $((region + 10)) 00
    dd if="$folder/cloud0/recipes" of="$folder/cloud0/recipes" bs=1 count=61 seek="$region" conv=notrunc 2> /dev/null
    opens 0 < <(printf '0 %s\n' '89 08 86' '151 08 148')
    for cloud in 0:2 1:3 2:3 3:3; do
        ask "restart ${cloud%:*} | restarted ${cloud%:*} ${cloud#*:}"
    done
    finish
    # what other commands say of it, which spare it
    put "$work/changed/cloud1/journal" 8 55
    cp -r "$work/changed/cloud1" "$work/spared"
    says 7 'damaged 1 8 55' audit "$work/changed" 1 4 3
    says 7 'damaged 1 8 55' reclaim "$work/changed" 1 4 3
    says 7 'damaged 1 8 55' serve "$work/changed" 1 4 3 127.0.0.1:1 1
    says 7 'damaged 1 8 55' read "$work/changed" 4 3 7 a 1 0,1,2
    put "$work/changed/cloud1/journal" 8 54
    put "$work/spared/journal" 8 54
    says 7 'other 1 2 4 3 1' audit "$work/changed" 1 5 3
    diff -r "$work/changed/cloud1" "$work/spared"
}

# One user who may have two shares and two versions: a half has room for 12,007 bytes. Of two versions of a byte one is deleted, then 80 empty ones
# come and go; the next one lacks a byte of room, and comes behind a checkpoint in half 1: of a share, one that nobody owns, a version and what
# was spent.
checkpoints() {
    local job
    begin "$work/summed" '1 1000 10000 2 2'
    ask 'upload 0 62 1 41 | job 1'
    for news in 'known 0 1' 'stored 1 1' committed; do
        ask "step 1 0 | step 1 0 $news"
    done
    ask 'delete 0 62 1 0 | deleted 0'
    ask 'upload 0 61 1 42 | job 2'
    ask "finish 2 | $(four 2)"
    for job in $(seq 3 82); do
        ask "upload 0 61 2 - | job $job"
        ask "step $job 0 | step $job 0 committed"
        ask 'delete 0 61 2 0 | deleted 0'
    done
    long "$folder" 0 11914 22 2122
    ask 'upload 0 61 2 - | job 83'
    ask 'step 83 0 | step 83 0 committed'
    long "$folder" 0 $((half + 390)) 22 2147
    [ "$(od -An -v -tx1 -j "$half" "$folder/cloud0/journal" | tr -d ' \n')" = "$(tr -d ' \n' << END
01 00000039 43445354 02 04 03 00 00000001 00000000000003e8 0000000000002710 00000002 00000002 0000000000000001 00000000000000a5 00000004 00
01 00000034 01 00000000 0001 01287ecf4c68feade33247ca8f16c2116fd2d4299ba7a7baba8fdf1b7c6197e8 01 000000000000000b 0000000b
01 0000002f 04 0001 7306196382e41a397efac21e4f4613ec42dbce6fc69dc13a71972b7d5afc5010 0000000000000000 0000000b
01 00000059 02 00000000 $tag 0000000000000001 000000000000003d 0000003d
e1d2d26ab6b39478fd85f368cfec01b4f9bfa4b99cfcca7d773e8f0606af619e
01 00000019 05 00000000 00000002 0000000000000016 000000000000084a
01 00000059 02 00000000 $tag 0000000000000002 000000000000084a 00000019
801d61bb61930a4313e7b7652c06ada30dd2822c4131265585af4edfe1ddcf6d 00
END
    )" ] || fail 'a checkpoint has other bytes'
    ask 'delete 0 61 2 0 | deleted 0'
    long "$folder" 0 $((half + 440)) 22 2147
    ask 'restart 0 | restarted 0 167'
    # the start's length, format, epoch and region, and too few records; the Put's kind, user, flag, place and length; the Kept's kind, counts and
    # place; the Commit's kind, user and places; the Spent's kind, user and owners; behind it a Commit's kind and version, a Delete's, and the gate
    opens "$half" < <(printf '0 %s\n' '1 01 1' '9 07 9' '48 00 41' '48 03 41' '61 02 61' '62 00 57' \
        '67 09 67' '71 01 68' '106 00 107' '114 0c 107' '118 0c 107' '124 09 124' '126 00 125' '126 02 120' '166 0c 159' \
        '176 09 176' '180 01 233' '226 01 221' '228 3c 233' '270 09 270' '274 01 271' '278 03 271' \
        '300 09 300' '344 01 305' '394 09 394' '438 03 399' '439 01 439')
    # half 0 where half 1 isn't begun, or isn't the next one; the checkpoint alone; and the Commit behind it
    opens "$half" < <(printf '0 %s\n' '0 00 =165' '48 02 =165' '295 00 =165' '389 00 =166')
    ask 'restart 0 | restarted 0 167'
    ask 'get 0 61 1 0,1,2 | got 42'
    ask "list 0 0 | entries 0 0 $listed"
    finish
    put "$work/summed/cloud0/journal" $((half + 9)) 07
    says 7 "damaged 0 $((half + 9)) 07" audit "$work/summed" 0 4 3
}

stops
damages
checkpoints
echo "A stop in each call of a command and of a rebuild left all or nothing of it, and each changed byte was told by its place."
