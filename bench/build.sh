# Builds a program of this folder in a folder of its own, which is removed at the end. The scripts here begin with
#
#     . "$(dirname "$0")/build.sh"
#     build NAME CRATE..
#
# NAME.rt.txt is the program, and the crates are those that it names; of this repository's the ones below them come too. Where it
# is proved with files of specs/ and proofs/, they lie in a folder NAME, each with .txt behind its name. `build`
# runs the program once, and leaves it in $program, what that run said in $work/log, and the folder in $work.
set -eu
top="$(cd "$(dirname "${BASH_SOURCE[0]}")/.." && pwd)"
work="$(mktemp -d)"
trap 'rm -rf "$work"' EXIT

# Copies a crate of this repository, and those below it, unless they are there.
take() {
    local line
    [ ! -d "$work/crates/$1" ] || return 0
    line="$(grep "^$1:" "$top/crates.txt")" || return 0
    mkdir -p "$work/crates/$1"
    (cd "$top/crates/$1" && tar cf - --exclude=./out --exclude=./must-fail .) | (cd "$work/crates/$1" && tar xf -)
    echo "$line" >> "$work/crates.txt"
    for below in ${line#*:}; do
        take "$below"
    done
}

# Copies what the program of this name is proved with, if there is any, into its crate.
proofs() {
    local file
    [ -d "$top/bench/$1" ] || return 0
    (cd "$top/bench/$1" && find . -name '*.antt.txt') | while read -r file; do
        mkdir -p "$2/$(dirname "$file")"
        cp "$top/bench/$1/$file" "$2/${file%.txt}"
    done
}

build() {
    local name="bench_$1"
    mkdir -p "$work/crates/$name/src"
    cp "$top/HANDLES" "$work/HANDLES"
    cp "$top/bench/$1.rt.txt" "$work/crates/$name/src/main.rt"
    proofs "$1" "$work/crates/$name"
    shift
    echo "$name: $*" >> "$work/crates.txt"
    for crate in "$@"; do
        take "$crate"
    done
    (cd "$work/crates/$name" && rt run) > "$work/log" 2>&1 || {
        tail -50 "$work/log"
        exit 1
    }
    program="$work/crates/$name/out/$name"
}

# Leaves the program cdstore in $cdstore: the one that CDSTORE names, or else the one that lies in crates/cdstore/out, which is proved
# and built first where there is none. And it leaves in $hashes the program of hashes.rt.txt.
programs() {
    build hashes cd_base hex
    hashes="$program"
    cdstore="${CDSTORE:-$top/crates/cdstore/out/cdstore}"
    [ -x "$cdstore" ] || (cd "$top/crates/cdstore" && rt run -- --version) > "$work/log" 2>&1 || {
        tail -50 "$work/log"
        exit 1
    }
    echo "the program: $cdstore"
    export PYTHONPATH="$top/bench" PYTHONDONTWRITEBYTECODE=1
}

# A file of 64 MiB of noise, $work/sent, and its text, $work/digits.
noise() {
    head -c 67108864 /dev/urandom > "$work/sent"
    python3 -c 'import sys; sys.stdout.write(sys.stdin.buffer.read().hex())' < "$work/sent" > "$work/digits"
}
