#!/usr/bin/env bash
# A byte that is no UTF-8, in a member that nobody looks at.
printf '{"do":"show","session":7,"x":"\377"}\n'
