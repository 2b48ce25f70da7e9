#!/usr/bin/env bash
# 1,024 incidents and a list, which has room for all; one more, and lists of it; one is cleared, and 1,024 are open.
set -euo pipefail
list() {
    echo '{"session":7,"do":"list"'"$1"'}'
}
open() {
    printf '{"session":7,"number":%d,"at":"2026-03-01T12:00:00Z","do":"open","kind":"fire","where":"12 Elm St"}\n' "$@"
}
# shellcheck disable=SC2046
open $(seq 1 1024)
list ''
list ',"from":1'
open 1025
list ''
list ',"from":1'
list ',"from":2'
list ',"from":1025'
list ',"from":1026'
incident=urn:emergency:uid:incidentid:000000000007:desk.example
echo '{"session":7,"number":1026,"at":"2026-03-01T12:00:00Z","do":"clear","incident":"'$incident'"}'
list ''
list ',"state":"open"'
list ',"state":"cleared"'
