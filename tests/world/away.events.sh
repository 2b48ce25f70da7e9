#!/usr/bin/env bash
# Node 0 commits 1,000 requests with node 1, and what it sends to node 2 is lost. Then its last Commit comes to node 2,
# which asks for what it lacks, and gets it.
what='"at":"2026-03-01T12:00:00Z","do":"open","kind":"fire","where":"12 Elm St"'
for ((k = 1; k <= 1000; k++)); do
    printf 'request 0 {"session":7,"number":%d,%s}\n' "$k" "$what"
    printf 'deliver %d\n' $((6 * k - 4)) $((6 * k - 2))
done
printf 'deliver %d\n' 6000 6001 6002
