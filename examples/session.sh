#!/usr/bin/env bash
# Runs the session of session.txt over clouds in a folder of its own, and prints its transcript.
. "$(dirname "$0")/program.sh"

cdstore replay "$work/clouds" < "$top/examples/session.txt" | tee "$work/transcript"
# each line behind the first was answered
[ "$(tail -n 1 "$work/transcript")" = "done $(($(wc -l < "$top/examples/session.txt") - 1))" ]
