#!/usr/bin/env bash
# Documents whose copies fit their room to the byte, and such as take a byte more.
set -euo pipefail
text() { printf "%*s" "$1" "" | tr " " x; }
zeros() { printf "0,%.0s" $(seq 2 "$1"); printf 0; }
show() { printf '{"do":"show","pad":%s,"session":7}\n' "$1"; }
# 32 bytes for each of three values and the pad, 16 of names and of show: 65,392 are left for the text.
for bytes in 65392 65393 65392; do show "\"$(text "$bytes")\""; done
# Of whole numbers, 2,043 fit beside the list.
for count in 2043 2044; do show "[$(zeros "$count")]"; done
# What a later member of its name replaces takes no room.
printf '{"do":"show","pad":[%s],"pad":0,"session":7}\n' "$(zeros 2044)"
# A list is told before its room, and the room before what is missing.
printf '[%s]\n{"pad":[%s]}\n' "$(zeros 3000)" "$(zeros 3000)"
show 0
