#!/usr/bin/env bash
# 16,384 incidents, and the lists of them: each begins where the one before it ended. The last begins behind all.
set -euo pipefail
# shellcheck disable=SC2046
printf '{"session":7,"number":%d,"at":"2026-03-01T12:00:00Z","do":"open","kind":"fire","where":"12 Elm St"}\n' \
    $(seq 1 16384)
echo '{"session":7,"do":"list","state":"open"}'
# shellcheck disable=SC2046
printf '{"session":7,"do":"list","from":%d}\n' $(seq 1 1024 16385)
