#!/usr/bin/env bash
# Lists in one another: a document of 127 levels, its object among them, and one of 128.
set -euo pipefail
repeat() { printf "%*s" "$1" "" | tr " " "$2"; }
for lists in 126 127; do
    printf '{"do":"show","session":7,"x":%s%s}\n' "$(repeat "$lists" "[")" "$(repeat "$lists" "]")"
done
