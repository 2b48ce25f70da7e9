#!/usr/bin/env bash
# Lines about as long as a line may be: shows with spaces behind or before them, so many bytes in all.
set -euo pipefail
show='{"do":"show","session":7}'
for bytes in 65535 65536 65537 200000; do
    printf '%-*s\n%s\n' "$bytes" "$show" "$show"
done
for bytes in 65536 65537; do
    printf '%*s\n%s\n' "$bytes" "$show" "$show"
done
