#!/usr/bin/env bash
# Runs the built desk over the first incident's documents, over lists, and over a script of a group of nodes, again and
# again, and refuses one request for memory each time: the first, then the second, until a run meets none. Each run must
# either print the whole output and end with status 0, or end with status 1 and `desk: 40 WantOfMemory`, having printed
# a prefix of the output that ends with a whole line; of a group of nodes, nothing. Needs a C compiler (CC, or cc) for
# scripts/faults/refuse.c, which refuses.
set -euo pipefail
cd "$(dirname "$0")/../.."

./desk replay --domain desk.example <examples/first-incident.jsonl >/dev/null
program=crates/desk/out/desk
folder=$(mktemp -d)
trap 'rm -rf "$folder"' EXIT

"${CC:-cc}" -O1 -shared -fPIC -o "$folder/refuse.so" scripts/faults/refuse.c -ldl

passed=0
failed=0

# Whether the run that has ended printed what it may: all, or the whole lines of a refused run.
is_right() {
    local size
    size=$(stat -c %s "$folder/out")
    if [ "$status" = 0 ]; then
        cmp -s "$folder/out" "$folder/whole"
        return
    fi
    [ "$status" = 1 ] && [ "$(<"$folder/err")" = "desk: 40 WantOfMemory" ] || return 1
    [ "$size" != 0 ] || return 0
    [ "$1" = replay ] && cmp -s "$folder/out" <(head -c "$size" "$folder/whole") &&
        [ "$(tail -c 1 "$folder/out" | od -An -tx1 | tr -d ' ')" = 0a ]
}

# Refuses each request of a run over an input, with the words that stand behind it.
refuse_each() {
    local input=$1 request=0 status
    shift
    "$program" "$@" <"$input" >"$folder/whole"
    touch "$folder/met"
    while [ -e "$folder/met" ] && [ "$request" -lt 5000 ]; do
        request=$((request + 1))
        rm -f "$folder/met"
        status=0
        REFUSED_REQUEST=$request REFUSED_MET=$folder/met LD_PRELOAD="$folder/refuse.so" \
            "$program" "$@" <"$input" >"$folder/out" 2>"$folder/err" || status=$?
        if is_right "$1"; then
            passed=$((passed + 1))
        else
            echo "$1, request $request: status $status, $(<"$folder/err")" >&2
            failed=$((failed + 1))
        fi
    done
    if [ "$request" -lt 2 ]; then
        echo "$1: no request was met" >&2
        failed=$((failed + 1))
    fi
}

refuse_each examples/first-incident.jsonl replay --domain desk.example
refuse_each examples/lists.jsonl replay --domain desk.example
refuse_each examples/world-restart.events world --nodes 3 --domain desk.example
echo "$passed passed, $failed failed"
[ "$failed" = 0 ]
