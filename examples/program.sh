# shellcheck shell=bash
# What examples over one process share: a folder of their own, $work, and the program. A script begins with
#
#     . "$(dirname "$0")/program.sh"
set -eu
top="$(cd "$(dirname "${BASH_SOURCE[0]}")/.." && pwd)"
work="$(mktemp -d)"
trap 'rm -rf "$work"' EXIT

# Runs the program that CDSTORE names, or else the one that was built in crates/cdstore; where there is none it is proved and built first.
program="${CDSTORE:-$top/crates/cdstore/out/cdstore}"
cdstore() {
    if [ -n "${CDSTORE:-}" ] || [ -x "$program" ]; then
        "$program" "$@"
    else
        (cd "$top/crates/cdstore" && rt run -- "$@")
    fi
}
