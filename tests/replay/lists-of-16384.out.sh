#!/usr/bin/env bash
# The replies to 16,384 incidents that are opened, and the lists of them, each with the place at which the next begins.
set -euo pipefail
# the incidents that were opened from one place to another
rows() {
    local before='{"calls":[],"incident":"urn:emergency:uid:incidentid:'
    local behind=':desk.example","kind":"fire","links":[],"note":"","opened":1772366400,"state":"open","units":[],'
    seq -f "$before%012.0f$behind\"where\":\"12 Elm St\"}" "$1" "$2" | paste -s -d ,
}
# the list of those, with what stands before `ok` and behind the session
list() {
    echo '{"incidents":['"$(rows "$1" "$2")"']'"$3"',"ok":"list","place":16384,"session":7'"$4"'}'
}
incident='urn:emergency:uid:incidentid:%012d:desk.example'
for ((place = 1; place <= 16384; place++)); do
    # shellcheck disable=SC2059
    printf '{"incident":"'$incident'","number":%d,"ok":"opened","place":%d,"session":7}\n' $place $place $place
done
list 1 1024 ',"next":1025' ',"units":[]'
for ((place = 1; place < 15361; place += 1024)); do
    list $place $((place + 1023)) ',"next":'$((place + 1024)) ''
done
list 15361 16384 '' ''
list 16385 16384 '' ''
