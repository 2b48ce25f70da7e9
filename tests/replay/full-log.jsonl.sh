#!/usr/bin/env bash
# As many commands as a log has entries, then one more, the last of them again, and one whose number is past.
set -euo pipefail
incident=urn:emergency:uid:incidentid:x:a.example
printf '{"session":7,"number":%d,"at":"2026-03-01T12:00:00Z","do":"clear","incident":"'$incident'"}\n' \
    $(seq 1 65537) 65536 3
