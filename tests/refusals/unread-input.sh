#!/usr/bin/env bash
# Runs the built program over an input that can not be read, a folder. Each run must end with status 1, write nothing to
# standard output, and tell exactly the two lines that stand here.
set -euo pipefail
cd "$(dirname "$0")/../.."

program=$PWD/crates/desk/out/desk
folder=$(mktemp -d)
trap 'rm -rf "$folder"' EXIT
printf 'desk: 43 ReadFault\ndesk: the input can not be read behind byte 0\n' >"$folder/wanted"
passed=0
failed=0

unread() {
    local status=0
    "$program" "$@" <"$folder" >"$folder/out" 2>"$folder/err" || status=$?
    if [ "$status" = 1 ] && [ ! -s "$folder/out" ] && cmp "$folder/wanted" "$folder/err" >&2; then
        passed=$((passed + 1))
    else
        echo "unread-input: status $status of: $*" >&2
        failed=$((failed + 1))
    fi
}

unread replay --domain desk.example
unread world --nodes 3 --domain desk.example

echo "$passed passed, $failed failed"
[ "$failed" = 0 ]
