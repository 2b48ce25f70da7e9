#!/usr/bin/env bash
# The replies to 1,025 incidents that are opened, and the lists of them.
set -euo pipefail
# the replies to those that are opened from one place to another
opened() {
    local incident='urn:emergency:uid:incidentid:%012d:desk.example' place
    for ((place = $1; place <= $2; place++)); do
        # shellcheck disable=SC2059
        printf '{"incident":"'$incident'","number":%d,"ok":"opened","place":%d,"session":7}\n' $place $place $place
    done
}
# the incidents that were opened from one place to another, of a state
rows() {
    local before='{"calls":[],"incident":"urn:emergency:uid:incidentid:'
    local behind=':desk.example","kind":"fire","links":[],"note":"","opened":1772366400,"state":"'$3
    seq -f "$before%012.0f$behind\",\"units\":[],\"where\":\"12 Elm St\"}" "$1" "$2" | paste -s -d ,
}
# a list with these rows, of what stands before `ok`, the place and what stands behind the session
list() {
    echo '{"incidents":['"$1"']'"$2"',"ok":"list","place":'"$3"',"session":7'"$4"'}'
}
units=',"units":[]'
all=$(rows 1 1024 open)
opened 1 1024
list "$all" '' 1024 "$units"
list "$all" '' 1024 ''
opened 1025 1025
list "$all" ',"next":1025' 1025 "$units"
list "$all" ',"next":1025' 1025 ''
list "$(rows 2 1025 open)" '' 1025 ''
list "$(rows 1025 1025 open)" '' 1025 ''
list '' '' 1025 ''
echo '{"number":1026,"ok":"cleared","place":1026,"session":7}'
list "$(rows 1 6 open),$(rows 7 7 cleared),$(rows 8 1024 open)" ',"next":1025' 1026 "$units"
list "$(rows 1 6 open),$(rows 8 1025 open)" '' 1026 "$units"
list "$(rows 7 7 cleared)" '' 1026 "$units"
