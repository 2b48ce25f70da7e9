#!/usr/bin/env bash
# The replies to a full log and to what comes after it.
set -euo pipefail
seq 1 65536 | sed 's/.*/{"number":&,"place":&,"refusal":10,"session":7}/'
echo '{"number":65537,"refusal":33,"session":7}'
echo '{"number":65536,"place":65536,"refusal":10,"session":7}'
echo '{"latest":65536,"number":3,"refusal":31,"session":7}'
