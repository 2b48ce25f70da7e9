#!/usr/bin/env bash
# Runs the built program on scripts in which one line is in question: whether it is an event. Where it is none, the run
# must end with status 2, write nothing to standard output, and tell the number of the line.
set -euo pipefail
cd "$(dirname "$0")/../.."

program=crates/desk/out/desk
folder=$(mktemp -d)
trap 'rm -rf "$folder"' EXIT
passed=0
failed=0

document='{"session":7,"number":1,"at":"2026-03-01T12:00:00Z","do":"open","kind":"fire","where":"12 Elm St"}'

# Runs the program on a script, as printf writes it.
run() {
    status=0
    printf '%b' "$1" >"$folder/script"
    "$program" world --nodes 3 --domain desk.example <"$folder/script" >"$folder/out" 2>"$folder/err" || status=$?
}

ends() {
    if "$@"; then
        passed=$((passed + 1))
    else
        echo "no-events: status $status of the script" >&2
        cat "$folder/script" "$folder/err" >&2
        failed=$((failed + 1))
    fi
}

is_refused() {
    [ "$status" = 2 ] && [ ! -s "$folder/out" ] && [ "$(<"$folder/err")" = "desk: line $1 is no event
desk: an event is request NODE DOCUMENT, deliver K, suspect NODE, resend NODE or restart NODE" ]
}

is_done() {
    [ "$status" = 0 ] && [ ! -s "$folder/err" ] && [ "$(grep -c '^node ' "$folder/out")" = 3 ]
}

# A line that is no event, as the second line, and behind blank lines.
no_event() {
    run "request 0 $document\n$1\ndeliver 2\n"
    ends is_refused 2
    run "\n \t\r\n\r\n$1"
    ends is_refused 4
}

# A line that is an event.
event() {
    run "request 0 $document\n$1\n"
    ends is_done
}

for verb in deliver resend suspect restart; do
    for number in 0 2 000000000000000002 999999999999999999; do
        event "$verb $number"
    done
    for number in '' x 2x x2 -2 +2 2.0 2,5 ' 2' '2 ' '2 2' '2\t' '2\r' '\t2' \
        0000000000000000002 1000000000000000000 ² ٢; do
        no_event "$verb $number"
    done
    no_event "$verb"
    no_event " $verb 2"
    no_event "${verb}s 2"
    no_event "${verb^} 2"
    no_event "$verb\t2"
done
for line in x 'suspects 1' 'request' 'request ' 'request 0' 'request 0 ' '\f' '\v' '\xa0' \
    '#' '# deliver 2' 'deliver 2; deliver 3'; do
    no_event "$line"
done

event "request 2 $document"
event "request 000000000000000002 $document"
event "request 999999999999999999 $document"
event "request 0  $document"
event "request 0 $document \t\r"
event "request 0 \t$document"
for node in x -1 +1 1x 0000000000000000001 '\t1' ''; do
    no_event "request $node $document"
done
no_event "request  0 $document"
no_event "request\t0 $document"
no_event "request 0\t$document"
no_event " request 0 $document"
no_event "Request 0 $document"
# documents that are refused, and a show
no_event 'request 0 {}'
no_event 'request 0 {"session":7'
no_event "request 0 [$document]"
no_event "request 0 $document$document"
no_event 'request 0 {"do":"show","session":7}'
no_event 'request 0 {"do":"open"}'
no_event "request 0 ${document/open/opens}"
no_event "request 0 ${document/\"number\":1/\"number\":0}"
no_event "request 0 ${document/12:00:00Z/noon}"
no_event "request 0 ${document/12 Elm St/}"
no_event "request 0 ${document/where/incident}"
# the document has a limit, and neither the line nor a blank line has one
pad=$(printf '%65536s' '')
event "request 0 $document${pad:${#document}}"
no_event "request 0 $document${pad:${#document}} "
event "$pad$pad"
event "\n$pad\t$pad\r"
# the first line that is no event is told
run "deliver 1\n\nx\ny\n"
ends is_refused 3
run "x"
ends is_refused 1
run ""
ends is_done

echo "$passed passed, $failed failed"
[ "$failed" = 0 ]
