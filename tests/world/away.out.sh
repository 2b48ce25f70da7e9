#!/usr/bin/env bash
# What world-away.events.sh gives: six packets and an answer a request, then the hand-over.
for ((k = 1; k <= 1000; k++)); do
    packet=$((6 * k - 5))
    echo "packet $packet: 0 to 0 PrepareOk view 0 place $k"
    echo "packet $((packet + 1)): 0 to 1 Prepare view 0 place $k commit $((k - 1))"
    echo "packet $((packet + 2)): 0 to 2 Prepare view 0 place $k commit $((k - 1))"
    echo "packet $((packet + 3)): 1 to 0 PrepareOk view 0 place $k"
    echo "packet $((packet + 4)): 0 to 1 Commit view 0 commit $k"
    echo "packet $((packet + 5)): 0 to 2 Commit view 0 commit $k"
    printf 'answer 0: {"incident":"urn:emergency:uid:incidentid:%012d:desk.example",' "$k"
    printf '"number":%d,"ok":"opened","place":%d,"session":7}\n' "$k" "$k"
done
echo 'packet 6001: 2 to 0 GetState view 0 base 0
packet 6002: 0 to 2 NewState view 0 base 0 log 1000 commit 1000
packet 6003: 2 to 0 PrepareOk view 0 place 1000
node 0: view 0 normal 0 log 1000 commit 1000
node 1: view 0 normal 0 log 1000 commit 999
node 2: view 0 normal 0 log 1000 commit 1000'
